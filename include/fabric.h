/* Panel fabric checker: the calls for a C host.
 *
 * A fabric file is the packed netlist of a panel: a header of 4 bytes and 13 bytes a component. Its open table has 24 bytes a
 * component: kind, ports A, B, C, 8 and 8 map entries, mask, capacity, filling, fill colour, each byte the number in that field
 * (in a mask byte colour 0 is the highest bit).
 *
 * A state has 64 bytes a component: of a queue its count, then so many colours, front first; of a source 0 or 1 + the colour it holds;
 * of a sink 0, or 1 if it holds; of a merge 0, or 1 for A and 2 for B while it holds its pick, which was offered and not taken; all
 * other bytes 0. The choices of a step are a byte a component: of a source 0 or 1 + a colour it emits, of a sink and a merge 0 or 1,
 * of others 0. A proposal is at most 4,096 terms of 4 bytes: component 7 bits, index 4, multiplier 21 in two's complement, most
 * significant bit first. A file of many proposals is at most 64 blocks, each a count of terms of 2 bytes, high byte first, and its
 * terms. docs/FORMAT.md has every field, with examples byte by byte.
 *
 * Memory. The host lends the memory and keeps it: no call stores a pointer, allocates or frees. A refused call leaves every lent
 * byte as it was; an accepted one leaves the bytes past its result as they were. A pointer whose length is 0 is never read and may
 * be NULL. Lent memory needs no alignment. Any content and any length is allowed; each call does its own checking and ends. The host
 * sees to three things:
 *
 *    - memory that a call may write overlaps no other memory lent to that call;
 *    - nobody else writes memory lent to a call until that call ends;
 *    - between the calls of a list, fabric and state keep their bytes.
 *
 * Answers. A call returns 0 or the number of its refusal. Its place and the other numbers that it hands back come from sister
 * calls, which take the same input and write nothing; all are 0 where the call is refused, but for the places named in
 * enum fabric_refusal. Nothing is kept for a sister call: it reads and tests everything again, and takes up to the time of its call.
 *
 * Threads. The calls share nothing and keep nothing from one call to the next, so any number of threads may call at once, on memory
 * of which the three things above hold.
 *
 * Stack. There is no heap. No call takes 64 KiB of stack, and no check, check_many or ceiling 48 KiB, nor a sister call of them,
 * whatever the fabric.
 *
 * Linking. libfabric.a is ELF for Linux on x86-64, any such processor. It is position-independent, so that it links into programs
 * and shared objects alike, and needs memcpy and memset of the C library, nothing else.
 */
#ifndef FABRIC_H
#define FABRIC_H

#include <stddef.h>
#include <stdint.h>

#ifdef __cplusplus
extern "C" {
#endif

/* What a call returns, and what its place is; where no place is named, it is 0. */
enum fabric_refusal {
    FABRIC_ACCEPTED = 0,
    FABRIC_FILE_SHORT = 1,           /* file under 4 bytes */
    FABRIC_WRONG_EDITION = 2,        /* edition, or the header's 0 bit, wrong */
    FABRIC_COUNT_RANGE = 3,          /* N not 1..128, M not 1..255, or (pack) C not 1..8 */
    FABRIC_WRONG_LENGTH = 4,         /* file length not 4 + 13 N; in pack, table length no multiple of 24 */
    FABRIC_BYTE_SUM = 5,             /* the bytes of the file do not add up to 0, wrapping at 256 */
    FABRIC_BAD_FIELD = 6,            /* a field is wrong; place: the lowest such component */
    FABRIC_CHANNEL_ENDS = 7,         /* a channel is not one output and one input; place: the lowest such channel */
    FABRIC_CIRCLE = 8,               /* the signals' dependences hold a circle */
    FABRIC_CHOICE_COUNT = 9,         /* choices not N long; in run, no multiple of N */
    FABRIC_BAD_CHOICE = 10,          /* a choice is not allowed; place: the lowest such offset */
    FABRIC_PROPOSAL_LENGTH = 11,     /* proposal no multiple of 4 bytes, or longer than 16,384 */
    FABRIC_NO_EQUATION = 12,         /* a term names no equation; place: the lowest such term, counted from 0 */
    FABRIC_FLOW_LEFT = 13,           /* a flow L(x,d), d in the set of x (fabric_reach), does not cancel; place: 8 x + d of the lowest such */
    FABRIC_NO_WEIGHT = 14,           /* no queue keeps a weight other than 0 */
    FABRIC_STATE_SHORT = 21,         /* state shorter than 64 N */
    FABRIC_BAD_STATE = 22,           /* the state is not good; place: the lowest such component */
    FABRIC_RESULT_SPACE = 23,        /* the space for the result is short */
    FABRIC_NOT_A_QUEUE = 31,         /* the component is no queue, or the colour is not below C */
    FABRIC_WEIGHT_NOT_POSITIVE = 32, /* the weight of that queue and colour is not above 0 */
    FABRIC_BAD_BLOCKS = 33           /* more than 64 blocks, a count over 4,096, or blocks that do not fill the file */
};

/* Limits. A file can say 255 channels; 128 components have at most 384 ports, so that no accepted fabric has more than 192. */
#define FABRIC_MOST_COLOURS 8
#define FABRIC_MOST_COMPONENTS 128
#define FABRIC_MOST_CHANNELS 255
#define FABRIC_MOST_CAPACITY 63
#define FABRIC_MOST_TERMS 4096
#define FABRIC_MOST_BLOCKS 64
#define FABRIC_LEAST_MULTIPLIER (-1048576)
#define FABRIC_MOST_MULTIPLIER 1048575

/* Bytes of one part: of a file, an open table, a state, a proposal, a block's count of terms, weights and results. */
#define FABRIC_HEADER_SIZE 4
#define FABRIC_RECORD_SIZE 13
#define FABRIC_ROW_SIZE 24
#define FABRIC_CELL_SIZE 64
#define FABRIC_TERM_SIZE 4
#define FABRIC_COUNT_SIZE 2
#define FABRIC_ENTRY_SIZE 8

/* Bytes for n components, m channels, so many terms. Choices and moves are those of one step, a result is that of one block. */
#define FABRIC_FILE_SIZE(n) (FABRIC_HEADER_SIZE + FABRIC_RECORD_SIZE * (n))
#define FABRIC_TABLE_SIZE(n) (FABRIC_ROW_SIZE * (n))
#define FABRIC_STATE_SIZE(n) (FABRIC_CELL_SIZE * (n))
#define FABRIC_CHOICES_SIZE(n) (n)
#define FABRIC_MOVES_SIZE(m) (m)
#define FABRIC_SETS_SIZE(m) (m)
#define FABRIC_PROPOSAL_SIZE(terms) (FABRIC_TERM_SIZE * (terms))
#define FABRIC_BLOCK_SIZE(terms) (FABRIC_COUNT_SIZE + FABRIC_PROPOSAL_SIZE(terms))
#define FABRIC_WEIGHTS_SIZE(n) (FABRIC_ENTRY_SIZE * FABRIC_MOST_COLOURS * (n))
#define FABRIC_RESULT_SIZE(n) (3 * FABRIC_ENTRY_SIZE + FABRIC_WEIGHTS_SIZE(n))

/* The most bytes of each, for every fabric and proposal. */
#define FABRIC_MOST_FILE FABRIC_FILE_SIZE(FABRIC_MOST_COMPONENTS)                         /* 1,668 */
#define FABRIC_MOST_TABLE FABRIC_TABLE_SIZE(FABRIC_MOST_COMPONENTS)                       /* 3,072 */
#define FABRIC_MOST_STATE FABRIC_STATE_SIZE(FABRIC_MOST_COMPONENTS)                       /* 8,192 */
#define FABRIC_MOST_CHOICES FABRIC_CHOICES_SIZE(FABRIC_MOST_COMPONENTS)                   /* 128 */
#define FABRIC_MOST_MOVES FABRIC_MOVES_SIZE(FABRIC_MOST_CHANNELS)                         /* 255 */
#define FABRIC_MOST_SETS FABRIC_SETS_SIZE(FABRIC_MOST_CHANNELS)                           /* 255 */
#define FABRIC_MOST_PROPOSAL FABRIC_PROPOSAL_SIZE(FABRIC_MOST_TERMS)                      /* 16,384 */
#define FABRIC_MOST_PROPOSALS (FABRIC_MOST_BLOCKS * FABRIC_BLOCK_SIZE(FABRIC_MOST_TERMS)) /* 1,048,704 */
#define FABRIC_MOST_WEIGHTS FABRIC_WEIGHTS_SIZE(FABRIC_MOST_COMPONENTS)                   /* 8,192 */
#define FABRIC_MOST_RESULT FABRIC_RESULT_SIZE(FABRIC_MOST_COMPONENTS)                     /* 8,216 */
#define FABRIC_MOST_RESULTS (FABRIC_MOST_BLOCKS * FABRIC_MOST_RESULT)                     /* 525,824 */

enum fabric_kind {
    FABRIC_SOURCE = 0,
    FABRIC_SINK = 1,
    FABRIC_QUEUE = 2,
    FABRIC_FUNCTION = 3,
    FABRIC_FORK = 4,
    FABRIC_JOIN = 5,
    FABRIC_SWITCH = 6,
    FABRIC_MERGE = 7
};

/* The fields of a row of the open table, by offset. A map has an entry for each of 8 colours. */
#define FABRIC_KIND 0
#define FABRIC_PORT_A 1
#define FABRIC_PORT_B 2
#define FABRIC_PORT_C 3
#define FABRIC_FIRST_MAP 4
#define FABRIC_SECOND_MAP 12
#define FABRIC_MASK 20
#define FABRIC_CAPACITY 21
#define FABRIC_FILLING 22
#define FABRIC_FILL_COLOUR 23

/* The bit of colour d in a mask, and in a channel's set of colours. */
#define FABRIC_COLOUR_BIT(d) (128 >> (d))

/* The ports of each kind, by offset in the row:
 *
 *               A        B        C      other fields
 *    source     out                      mask: the colours that it emits
 *    sink       in
 *    queue      in       out             capacity, filling, fill colour
 *    function   in       out             first map
 *    fork       in       out      out    first map for B, second map for C
 *    join       data     token    out    first map, of the data's colour
 *    switch     in       out      out    mask: the colours that go to B, others to C
 *    merge      in       in       out
 */
#define FABRIC_SOURCE_OUT FABRIC_PORT_A
#define FABRIC_SINK_IN FABRIC_PORT_A
#define FABRIC_QUEUE_IN FABRIC_PORT_A
#define FABRIC_QUEUE_OUT FABRIC_PORT_B
#define FABRIC_FUNCTION_IN FABRIC_PORT_A
#define FABRIC_FUNCTION_OUT FABRIC_PORT_B
#define FABRIC_FORK_IN FABRIC_PORT_A
#define FABRIC_FORK_OUT_B FABRIC_PORT_B
#define FABRIC_FORK_OUT_C FABRIC_PORT_C
#define FABRIC_JOIN_DATA FABRIC_PORT_A
#define FABRIC_JOIN_TOKEN FABRIC_PORT_B
#define FABRIC_JOIN_OUT FABRIC_PORT_C
#define FABRIC_SWITCH_IN FABRIC_PORT_A
#define FABRIC_SWITCH_OUT_B FABRIC_PORT_B
#define FABRIC_SWITCH_OUT_C FABRIC_PORT_C
#define FABRIC_MERGE_IN_A FABRIC_PORT_A
#define FABRIC_MERGE_IN_B FABRIC_PORT_B
#define FABRIC_MERGE_OUT FABRIC_PORT_C

/* A component's 64 bytes of the state, by offset: a queue's count and the first of its colours; what a source, sink or merge holds. */
#define FABRIC_CELL_COUNT 0
#define FABRIC_CELL_FRONT 1
#define FABRIC_CELL_HELD 0

/* What a source holds or is to emit, and what moved on a channel: nothing, or colour d. */
#define FABRIC_NONE 0
#define FABRIC_SOME(d) (1 + (d))

/* A sink's choice to take, also what its cell has while it holds; a merge's choice, which picks where both inputs are offered and
 * the merge holds neither. */
#define FABRIC_TAKE 1
#define FABRIC_PICK_A 0
#define FABRIC_PICK_B 1

/* What a merge holds: the pick that its output offered in the last step and that was not taken, else FABRIC_NONE. While the held
 * input is offered it is picked over the choice, so what a merge offers stays until it is taken. */
#define FABRIC_HELD_A 1
#define FABRIC_HELD_B 2

/* The index of an equation, of colour d or e below C, by kind; no other index exists, and a sink has none. */
#define FABRIC_SOURCE_EQUATION(d) (d)         /* only for d that is not emitted: L(A,d) = 0 */
#define FABRIC_QUEUE_EQUATION(d) (d)          /* n(q,d) + L(B,d) - L(A,d) = n0(q,d), the count at start */
#define FABRIC_FUNCTION_EQUATION(e) (e)       /* L(B,e) = all L(A,d) with d mapped to e */
#define FABRIC_FORK_B_EQUATION(e) (e)         /* L(B,e) = all L(A,d) with d mapped to e by the first map */
#define FABRIC_FORK_C_EQUATION(e) (8 + (e))   /* L(C,e) = all L(A,d) with d mapped to e by the second map */
#define FABRIC_JOIN_EQUATION(e) (e)           /* L(C,e) = all L(A,d) with d mapped to e */
#define FABRIC_JOIN_TOKEN_EQUATION 8          /* all L(A,d) = all L(B,d), however many colours there are */
#define FABRIC_SWITCH_B_EQUATION(d) (d)       /* L(B,d) = L(A,d) if d goes to B, else 0 */
#define FABRIC_SWITCH_C_EQUATION(d) (8 + (d)) /* L(C,d) = L(A,d) if d goes to C, else 0 */
#define FABRIC_MERGE_EQUATION(d) (d)          /* L(C,d) = L(A,d) + L(B,d) */

/* A term as a number: component 7 bits, index 4, multiplier 21 in two's complement. What does not fit is cut. */
#define FABRIC_TERM_BITS(component, index, multiplier)                                                                             \
    (((uint32_t)(component) & 127) << 25 | ((uint32_t)(index) & 15) << 21 | ((uint32_t)(multiplier) & 0x1FFFFF))

/* Its four bytes, for a list of bytes: {FABRIC_TERM(2, 0, 1), FABRIC_TERM(5, 0, 1)}. */
#define FABRIC_TERM(component, index, multiplier)                                                                                  \
    (uint8_t)(FABRIC_TERM_BITS(component, index, multiplier) >> 24),                                                               \
    (uint8_t)(FABRIC_TERM_BITS(component, index, multiplier) >> 16),                                                               \
    (uint8_t)(FABRIC_TERM_BITS(component, index, multiplier) >> 8),                                                                \
    (uint8_t)(FABRIC_TERM_BITS(component, index, multiplier))

/* Writes the four bytes of a term and returns 1. Nothing is cut: where a number does not fit, it writes nothing and returns 0. */
static inline int fabric_put_term(uint8_t *term, uint64_t component, uint64_t index, int64_t multiplier)
{
    uint32_t bits = FABRIC_TERM_BITS(component, index, multiplier);
    if (component >= FABRIC_MOST_COMPONENTS || index > 15)
        return 0;
    if (multiplier < FABRIC_LEAST_MULTIPLIER || multiplier > FABRIC_MOST_MULTIPLIER)
        return 0;
    for (int i = 0; i < FABRIC_TERM_SIZE; i++)
        term[i] = (uint8_t)(bits >> (24 - 8 * i));
    return 1;
}

/* Where the weight of n(q,d) stands in the weights, and the parts of a block's result, by offset; each is an entry of 8 bytes. */
#define FABRIC_WEIGHT(q, d) (FABRIC_ENTRY_SIZE * (FABRIC_MOST_COLOURS * (q) + (d)))
#define FABRIC_RESULT_NUMBER 0
#define FABRIC_RESULT_PLACE 8
#define FABRIC_RESULT_CONSTANT 16
#define FABRIC_RESULT_WEIGHTS 24

/* The signed number in an entry of 8 bytes, lowest first. */
static inline int64_t fabric_entry(const uint8_t *entry)
{
    uint64_t bits = 0;
    for (int i = FABRIC_ENTRY_SIZE; i > 0; i--)
        bits = bits << 8 | entry[i - 1];
    return (int64_t)bits;
}

/* Writes the open table of a file: 24 bytes a component, at most 3,072.
 * Refusals in this order: 1 2 3 4 5 6 7 8 23. */
uint32_t fabric_unpack(const uint8_t *file, size_t file_len, uint8_t *table, size_t table_len);

/* Sister calls: the place of the refusal; C, the count of colours; M, the count of channels. Only the length of the table counts. */
uint64_t fabric_unpack_place(const uint8_t *file, size_t file_len, const uint8_t *table, size_t table_len);
uint64_t fabric_unpack_colours(const uint8_t *file, size_t file_len, const uint8_t *table, size_t table_len);
uint64_t fabric_unpack_channels(const uint8_t *file, size_t file_len, const uint8_t *table, size_t table_len);

/* Writes the file of a table for C colours and M channels: 4 + 13 bytes a component, at most 1,668. All of the table counts, and
 * its length says how many components there are. What stood in the file's memory before does not count.
 * Refusals in this order: 4 3 6 7 8 23. */
uint32_t fabric_pack(uint64_t colours, uint64_t channels, const uint8_t *table, size_t table_len, uint8_t *file, size_t file_len);

/* Sister call: the place of the refusal. Only the length of the file counts. */
uint64_t fabric_pack_place(uint64_t colours, uint64_t channels, const uint8_t *table, size_t table_len, const uint8_t *file,
                           size_t file_len);

/* Writes the state at start: 64 bytes a component, at most 8,192.
 * Refusals in this order: 1 2 3 4 5 6 7 8 21. */
uint32_t fabric_start(const uint8_t *fabric, size_t fabric_len, uint8_t *state, size_t state_len);

/* Sister call: the place of the refusal. Only the length of the state counts. */
uint64_t fabric_start_place(const uint8_t *fabric, size_t fabric_len, const uint8_t *state, size_t state_len);

/* Takes one step: the state becomes the state after it, and the moves have a byte a channel, 0 or 1 + the colour that moved.
 * On every channel a colour that was offered and not taken is offered in the next step too.
 * Refusals in this order: 1 2 3 4 5 6 7 8 21 22 9 10 23. */
uint32_t fabric_step(const uint8_t *fabric, size_t fabric_len, uint8_t *state, size_t state_len, const uint8_t *choices,
                     size_t choices_len, uint8_t *moves, size_t moves_len);

/* Sister call: the place of the refusal, from the state before the step. Only the length of the moves counts. */
uint64_t fabric_step_place(const uint8_t *fabric, size_t fabric_len, const uint8_t *state, size_t state_len, const uint8_t *choices,
                           size_t choices_len, const uint8_t *moves, size_t moves_len);

/* Takes a step for every N choices in a row, none included, and writes only the state. All choices are looked at first: a refused
 * run has taken no step.
 * Refusals in this order: 1 2 3 4 5 6 7 8 21 22 9 10. */
uint32_t fabric_run(const uint8_t *fabric, size_t fabric_len, uint8_t *state, size_t state_len, const uint8_t *choices,
                    size_t choices_len);

/* Sister call: the place of the refusal, from the state before the run. */
uint64_t fabric_run_place(const uint8_t *fabric, size_t fabric_len, const uint8_t *state, size_t state_len, const uint8_t *choices,
                          size_t choices_len);

/* Checks a proposal. Only the fabric and the proposal are read, so it may be done at any time. Each flow L(x,d) has to cancel whose
 * colour d is in the set of channel x that fabric_reach lists; another flow may be left. If the proposal is accepted, the sum of
 * weight times n(q,d) over all queues q and colours d equals K after an accepted start on that fabric and a state, and after every
 * list of start, step and run calls on them that follows, accepted or refused, provided that fabric and state keep their bytes
 * between the calls. n(q,d) is how many of the colours in queue q, as many as its count says, are d. Weights are signed 64-bit
 * numbers of 8 bytes, lowest first, 8 of them a component: entry 8 q + d is the weight of n(q,d), other entries 0. They take 64
 * bytes a component, at most 8,192.
 * Refusals in this order: 1 2 3 4 5 6 7 8 11 12 13 14 23. */
uint32_t fabric_check(const uint8_t *fabric, size_t fabric_len, const uint8_t *proposal, size_t proposal_len, uint8_t *weights,
                      size_t weights_len);

/* Sister calls: the place of the refusal; K. Only the length of the weights counts. */
uint64_t fabric_check_place(const uint8_t *fabric, size_t fabric_len, const uint8_t *proposal, size_t proposal_len,
                            const uint8_t *weights, size_t weights_len);
int64_t fabric_check_constant(const uint8_t *fabric, size_t fabric_len, const uint8_t *proposal, size_t proposal_len,
                              const uint8_t *weights, size_t weights_len);

/* Works out the ceiling for a queue and a colour, from a proposal in which their weight is above 0: K, and each weight below 0, sign
 * dropped, times its queue's capacity, added up and divided by that weight, rounding down; or the queue's capacity if that is smaller.
 * No run from start puts more of that colour there: wherever, as said for check, the sum equals K, n(queue,colour) is at most the
 * ceiling. Only the fabric and the proposal are read. Queue and colour are never cut: component 258 is no component 2.
 * Refusals in this order: 1 2 3 4 5 6 7 8 11 12 13 14 31 32. */
uint32_t fabric_ceiling(const uint8_t *fabric, size_t fabric_len, const uint8_t *proposal, size_t proposal_len, uint64_t queue,
                        uint64_t colour);

/* Sister calls: the place of the refusal; the ceiling, 0 if refused. */
uint64_t fabric_ceiling_place(const uint8_t *fabric, size_t fabric_len, const uint8_t *proposal, size_t proposal_len, uint64_t queue,
                              uint64_t colour);
uint64_t fabric_ceiling_value(const uint8_t *fabric, size_t fabric_len, const uint8_t *proposal, size_t proposal_len, uint64_t queue,
                              uint64_t colour);

/* Checks many proposals for one fabric, which is read and tested once. The proposals are a file of blocks, none included. Each block gets
 * a result, in file order, of 3 + 8 N signed 64-bit numbers of 8 bytes, lowest first: number, place, K, and the 8 N weights. They are
 * what check says of that block's terms, with space given: number 0 is an accepted sum, with all that is said of it above; 12, 13 or 14 a
 * refused one, whose K and weights are 0. The place of 12 counts terms in the block. A refused block spoils no other, and the call
 * returns 0 even if every block is refused. A result takes 24 + 64 N bytes, at most 8,216; 23 is for all results together.
 * Refusals in this order: 1 2 3 4 5 6 7 8 33 23. All blocks are counted first: a file refused by 33 has written nothing. */
uint32_t fabric_check_many(const uint8_t *fabric, size_t fabric_len, const uint8_t *proposals, size_t proposals_len, uint8_t *results,
                           size_t results_len);

/* Sister call: the place of the refusal. Only the length of the results counts. */
uint64_t fabric_check_many_place(const uint8_t *fabric, size_t fabric_len, const uint8_t *proposals, size_t proposals_len,
                                 const uint8_t *results, size_t results_len);

/* Lists the colours that can reach each channel: a mask byte a channel, at most 255, with FABRIC_COLOUR_BIT(d) for each colour d in the
 * channel's set, other bits 0. The sets are the smallest for which holds: a source's output has the colours that it emits; a queue's
 * output has those of its input, and the fill colour if the filling is above 0; the output of a function, and each of a fork, has what
 * its map makes of those of the input; a join's output has what the map makes of those of A if B's set has a member, else none; a
 * switch's output has those of the input that go there; a merge's output has those of both inputs. No run from start moves a colour
 * on a channel outside its set: after an accepted start on that fabric and a state, and after every list of start, step and run calls
 * on them that follows, accepted or refused, provided that fabric and state keep their bytes between the calls, a further step, and
 * each step of a run, moves only colours that are in the sets of their channels. Of a state that start never comes to this says
 * nothing. A colour in a set need not ever come.
 * Refusals in this order: 1 2 3 4 5 6 7 8 23. */
uint32_t fabric_reach(const uint8_t *fabric, size_t fabric_len, uint8_t *sets, size_t sets_len);

/* Sister call: the place of the refusal. Only the length of the sets counts. */
uint64_t fabric_reach_place(const uint8_t *fabric, size_t fabric_len, const uint8_t *sets, size_t sets_len);

#ifdef __cplusplus
}
#endif

#endif
