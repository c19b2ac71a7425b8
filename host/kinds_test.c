/* Holds the kinds, fields, ports, choices, cells, colour sets and equations of fabric.h against what the library does with them. */
#include <string.h>

#include "fabric.h"
#include "hold.h"

static const int INPUTS[8][2] = {
    [FABRIC_SINK] = {FABRIC_SINK_IN},
    [FABRIC_QUEUE] = {FABRIC_QUEUE_IN},
    [FABRIC_FUNCTION] = {FABRIC_FUNCTION_IN},
    [FABRIC_FORK] = {FABRIC_FORK_IN},
    [FABRIC_JOIN] = {FABRIC_JOIN_DATA, FABRIC_JOIN_TOKEN},
    [FABRIC_SWITCH] = {FABRIC_SWITCH_IN},
    [FABRIC_MERGE] = {FABRIC_MERGE_IN_A, FABRIC_MERGE_IN_B},
};
static const int OUTPUTS[8][2] = {
    [FABRIC_SOURCE] = {FABRIC_SOURCE_OUT},
    [FABRIC_QUEUE] = {FABRIC_QUEUE_OUT},
    [FABRIC_FUNCTION] = {FABRIC_FUNCTION_OUT},
    [FABRIC_FORK] = {FABRIC_FORK_OUT_B, FABRIC_FORK_OUT_C},
    [FABRIC_JOIN] = {FABRIC_JOIN_OUT},
    [FABRIC_SWITCH] = {FABRIC_SWITCH_OUT_B, FABRIC_SWITCH_OUT_C},
    [FABRIC_MERGE] = {FABRIC_MERGE_OUT},
};

enum { ROWS = 7 };
static uint8_t table[FABRIC_TABLE_SIZE(ROWS)], file[FABRIC_FILE_SIZE(ROWS)], state[FABRIC_STATE_SIZE(ROWS)];
static uint8_t choices[ROWS], moves[ROWS], sets[ROWS], weights[FABRIC_WEIGHTS_SIZE(ROWS)], term[FABRIC_TERM_SIZE];
static uint8_t *const self = table; /* the row of component 0 */
static size_t rows, file_len;
static uint64_t colours;
static uint8_t channels;

static uint8_t *row(enum fabric_kind kind)
{
    uint8_t *fields = table + FABRIC_ROW_SIZE * rows++;
    fields[FABRIC_KIND] = (uint8_t)kind;
    return fields;
}

/* Component 0 is of that kind. Each of its outputs goes to an empty queue, and from there to a sink; each of its inputs comes from a
 * queue that has a colour, 1 for the first input and 2 for the second, and is fed by a source. Outputs have lower channels than
 * inputs, the second of each a lower one than the first, and none has channel 0, which an unused port has too. With one or two
 * colours all queues are empty. */
static void between(enum fabric_kind kind, uint64_t c)
{
    uint8_t *queue, *source;
    memset(table, 0, sizeof table);
    rows = 0, channels = 0, colours = c;
    row(kind);
    for (int i = 1; i >= 0; i--)
        if (OUTPUTS[kind][i] != 0) {
            queue = row(FABRIC_QUEUE);
            row(FABRIC_SINK)[FABRIC_SINK_IN] = channels;
            queue[FABRIC_QUEUE_OUT] = channels++, queue[FABRIC_QUEUE_IN] = channels, queue[FABRIC_CAPACITY] = 1;
            self[OUTPUTS[kind][i]] = channels++;
        }
    for (int i = 1; i >= 0; i--)
        if (INPUTS[kind][i] != 0) {
            queue = row(FABRIC_QUEUE), source = row(FABRIC_SOURCE);
            source[FABRIC_SOURCE_OUT] = channels, source[FABRIC_MASK] = FABRIC_COLOUR_BIT(0);
            queue[FABRIC_QUEUE_IN] = channels++, queue[FABRIC_QUEUE_OUT] = channels, queue[FABRIC_CAPACITY] = 1;
            queue[FABRIC_FILLING] = c > 2, queue[FABRIC_FILL_COLOUR] = (uint8_t)(c > 2 ? i + 1 : 0);
            self[INPUTS[kind][i]] = channels++;
        }
}

static void pack(void)
{
    file_len = FABRIC_FILE_SIZE(rows);
    IS(fabric_pack(colours, channels, table, FABRIC_TABLE_SIZE(rows), file, file_len), FABRIC_ACCEPTED);
    IS(fabric_reach(file, file_len, sets, sizeof sets), FABRIC_ACCEPTED);
}

static uint32_t step(uint8_t choice)
{
    memset(choices, 0, sizeof choices), choices[0] = choice;
    return fabric_step(file, file_len, state, sizeof state, choices, rows, moves, sizeof moves);
}

/* One step after start. */
static void first_step(uint8_t choice)
{
    pack();
    IS(fabric_start(file, file_len, state, sizeof state), FABRIC_ACCEPTED);
    IS(step(choice), FABRIC_ACCEPTED);
}

static int moved(int port) { return moves[self[port]]; }

/* The colours that can reach a port's channel. The first input has 0 and 1, the second 0 and 2. */
static int reach(int port) { return sets[self[port]]; }
#define BITS(d, e) (FABRIC_COLOUR_BIT(d) | FABRIC_COLOUR_BIT(e))

static void sources_and_sinks(void)
{
    between(FABRIC_SOURCE, 4);
    self[FABRIC_MASK] = BITS(1, 3);
    first_step(FABRIC_SOME(3));
    IS(reach(FABRIC_SOURCE_OUT), BITS(1, 3));
    IS(moved(FABRIC_SOURCE_OUT), FABRIC_SOME(3));
    IS(step(FABRIC_SOME(0)), FABRIC_BAD_CHOICE);
    IS(step(FABRIC_SOME(2)), FABRIC_BAD_CHOICE);
    /* The queue behind it is full. */
    IS(step(FABRIC_SOME(1)), FABRIC_ACCEPTED);
    IS(moved(FABRIC_SOURCE_OUT), FABRIC_NONE);
    IS(state[FABRIC_CELL_HELD], FABRIC_SOME(1));

    between(FABRIC_SINK, 4);
    first_step(0);
    IS(reach(FABRIC_SINK_IN), BITS(0, 1));
    IS(moved(FABRIC_SINK_IN), FABRIC_NONE);
    IS(step(FABRIC_TAKE), FABRIC_ACCEPTED);
    IS(moved(FABRIC_SINK_IN), FABRIC_SOME(1));
    IS(step(FABRIC_TAKE + 1), FABRIC_BAD_CHOICE);
    /* The queue before it is empty. */
    IS(step(FABRIC_TAKE), FABRIC_ACCEPTED);
    IS(state[FABRIC_CELL_HELD], FABRIC_TAKE);
}

static void queues(void)
{
    between(FABRIC_QUEUE, 4);
    self[FABRIC_CAPACITY] = 3, self[FABRIC_FILLING] = 2, self[FABRIC_FILL_COLOUR] = 3;
    first_step(0);
    IS(moved(FABRIC_QUEUE_IN), FABRIC_SOME(1));
    IS(moved(FABRIC_QUEUE_OUT), FABRIC_SOME(3));
    IS(reach(FABRIC_QUEUE_IN), BITS(0, 1));
    IS(reach(FABRIC_QUEUE_OUT), BITS(0, 1) | FABRIC_COLOUR_BIT(3));
    IS(state[FABRIC_CELL_COUNT], 2);
    IS(state[FABRIC_CELL_FRONT], 3);
    IS(state[FABRIC_CELL_FRONT + 1], 1);
}

static void maps(void)
{
    between(FABRIC_FUNCTION, 4);
    self[FABRIC_FIRST_MAP + 1] = 2;
    first_step(0);
    IS(moved(FABRIC_FUNCTION_IN), FABRIC_SOME(1));
    IS(moved(FABRIC_FUNCTION_OUT), FABRIC_SOME(2));
    IS(reach(FABRIC_FUNCTION_OUT), BITS(0, 2));

    between(FABRIC_FORK, 4);
    self[FABRIC_FIRST_MAP + 1] = 2, self[FABRIC_SECOND_MAP + 1] = 3;
    first_step(0);
    IS(moved(FABRIC_FORK_IN), FABRIC_SOME(1));
    IS(moved(FABRIC_FORK_OUT_B), FABRIC_SOME(2));
    IS(moved(FABRIC_FORK_OUT_C), FABRIC_SOME(3));
    IS(reach(FABRIC_FORK_OUT_B), BITS(0, 2));
    IS(reach(FABRIC_FORK_OUT_C), BITS(0, 3));

    between(FABRIC_JOIN, 4);
    self[FABRIC_FIRST_MAP + 1] = 3;
    first_step(0);
    IS(moved(FABRIC_JOIN_DATA), FABRIC_SOME(1));
    IS(moved(FABRIC_JOIN_TOKEN), FABRIC_SOME(2));
    IS(moved(FABRIC_JOIN_OUT), FABRIC_SOME(3));
    IS(reach(FABRIC_JOIN_TOKEN), BITS(0, 2));
    IS(reach(FABRIC_JOIN_OUT), BITS(0, 3));
}

static void ways(void)
{
    for (int d = 0; d < 4; d++) {
        between(FABRIC_SWITCH, 4);
        self[FABRIC_MASK] = (uint8_t)FABRIC_COLOUR_BIT(d);
        first_step(0);
        IS(moved(FABRIC_SWITCH_IN), FABRIC_SOME(1));
        IS(moved(FABRIC_SWITCH_OUT_B), d == 1 ? FABRIC_SOME(1) : FABRIC_NONE);
        IS(moved(FABRIC_SWITCH_OUT_C), d == 1 ? FABRIC_NONE : FABRIC_SOME(1));
        IS(reach(FABRIC_SWITCH_OUT_B), BITS(0, 1) & FABRIC_COLOUR_BIT(d));
        IS(reach(FABRIC_SWITCH_OUT_C), BITS(0, 1) & ~FABRIC_COLOUR_BIT(d));
    }
    /* The queue behind a merge has room for one: what comes second is held, whatever is chosen. */
    between(FABRIC_MERGE, 4);
    first_step(FABRIC_PICK_A);
    IS(reach(FABRIC_MERGE_OUT), BITS(0, 1) | FABRIC_COLOUR_BIT(2));
    IS(moved(FABRIC_MERGE_IN_A), FABRIC_SOME(1));
    IS(moved(FABRIC_MERGE_OUT), FABRIC_SOME(1));
    IS(state[FABRIC_CELL_HELD], FABRIC_NONE);
    IS(step(FABRIC_PICK_A), FABRIC_ACCEPTED);
    IS(moved(FABRIC_MERGE_OUT), FABRIC_NONE);
    IS(state[FABRIC_CELL_HELD], FABRIC_HELD_B);
    first_step(FABRIC_PICK_B);
    IS(moved(FABRIC_MERGE_IN_B), FABRIC_SOME(2));
    IS(moved(FABRIC_MERGE_OUT), FABRIC_SOME(2));
    IS(step(FABRIC_PICK_B), FABRIC_ACCEPTED);
    IS(state[FABRIC_CELL_HELD], FABRIC_HELD_A);
    state[FABRIC_CELL_HELD] = FABRIC_HELD_B + 1;
    IS(step(FABRIC_PICK_A), FABRIC_BAD_STATE);
}

static uint32_t check(uint64_t index, int64_t multiplier)
{
    IS(fabric_put_term(term, 0, index, multiplier), 1);
    return fabric_check(file, file_len, term, sizeof term, weights, sizeof weights);
}

static unsigned named; /* the indexes that the header has for component 0, a bit each */
static unsigned left;  /* how many of them are refused for a flow */

/* Alone, that equation leaves its flows; the lowest is that of a port. It is refused for it if that colour can reach the port. */
static void equation(unsigned index, int port, unsigned d)
{
    int inside = (reach(port) & FABRIC_COLOUR_BIT(d)) != 0;
    named |= 1u << index;
    left += inside;
    IS(check(index, 1), inside ? FABRIC_FLOW_LEFT : FABRIC_NO_WEIGHT);
    IS(fabric_check_place(file, file_len, term, sizeof term, weights, sizeof weights), inside ? 8 * self[port] + d : 0);
}

/* All other sources emit all colours, maps keep each, and the switch sends colour 0 to B: so all can come but what a source does not
 * emit, and what a switch sends to its other output. */
static void all_come(enum fabric_kind kind, unsigned c)
{
    for (size_t k = 1; k < rows; k++)
        if (table[FABRIC_ROW_SIZE * k + FABRIC_KIND] == FABRIC_SOURCE)
            table[FABRIC_ROW_SIZE * k + FABRIC_MASK] = (uint8_t)(0xFF00 >> c);
    for (unsigned d = 0; d < c; d++) {
        if (kind == FABRIC_FUNCTION || kind == FABRIC_FORK || kind == FABRIC_JOIN)
            self[FABRIC_FIRST_MAP + d] = (uint8_t)d;
        if (kind == FABRIC_FORK)
            self[FABRIC_SECOND_MAP + d] = (uint8_t)d;
    }
    if (kind == FABRIC_SOURCE || kind == FABRIC_SWITCH)
        self[FABRIC_MASK] = FABRIC_COLOUR_BIT(0);
}

static void equations(enum fabric_kind kind, unsigned c)
{
    between(kind, c);
    all_come(kind, c);
    if (kind == FABRIC_QUEUE)
        self[FABRIC_CAPACITY] = 1;
    pack();
    named = 0, left = 0;
    if (kind == FABRIC_JOIN)
        equation(FABRIC_JOIN_TOKEN_EQUATION, FABRIC_JOIN_TOKEN, 0);
    for (unsigned d = 0; d < c; d++) {
        if (kind == FABRIC_SOURCE && d > 0)
            equation(FABRIC_SOURCE_EQUATION(d), FABRIC_SOURCE_OUT, d);
        if (kind == FABRIC_QUEUE)
            equation(FABRIC_QUEUE_EQUATION(d), FABRIC_QUEUE_OUT, d);
        if (kind == FABRIC_FUNCTION)
            equation(FABRIC_FUNCTION_EQUATION(d), FABRIC_FUNCTION_OUT, d);
        if (kind == FABRIC_FORK)
            equation(FABRIC_FORK_B_EQUATION(d), FABRIC_FORK_OUT_B, d), equation(FABRIC_FORK_C_EQUATION(d), FABRIC_FORK_OUT_C, d);
        if (kind == FABRIC_JOIN)
            equation(FABRIC_JOIN_EQUATION(d), FABRIC_JOIN_OUT, d);
        if (kind == FABRIC_SWITCH)
            equation(FABRIC_SWITCH_B_EQUATION(d), FABRIC_SWITCH_OUT_B, d), equation(FABRIC_SWITCH_C_EQUATION(d), FABRIC_SWITCH_OUT_C, d);
        if (kind == FABRIC_MERGE)
            equation(FABRIC_MERGE_EQUATION(d), FABRIC_MERGE_OUT, d);
    }
    if (kind == FABRIC_SOURCE || kind == FABRIC_SINK)
        IS(left, 0);
    else
        IS(left, kind == FABRIC_FORK ? 2 * c : kind == FABRIC_JOIN ? c + 1 : c);
    for (unsigned index = 0; index < 16; index++)
        IS(check(index, 0), named >> index & 1 ? FABRIC_NO_WEIGHT : FABRIC_NO_EQUATION);
}

int main(void)
{
    sources_and_sinks();
    queues();
    maps();
    ways();
    for (int kind = FABRIC_SOURCE; kind <= FABRIC_MERGE; kind++) {
        equations((enum fabric_kind)kind, 1);
        equations((enum fabric_kind)kind, 2);
        equations((enum fabric_kind)kind, FABRIC_MOST_COLOURS);
    }
    return wrong;
}
