/* Holds the sizes, limits and refusals of fabric.h against each other and against what the library answers. */
#include <string.h>

#include "fabric.h"
#include "hold.h"

#define SAME(a, b) _Static_assert((a) == (b), #a)
SAME(FABRIC_MOST_FILE, 1668);
SAME(FABRIC_MOST_TABLE, 3072);
SAME(FABRIC_MOST_STATE, 8192);
SAME(FABRIC_MOST_CHOICES, 128);
SAME(FABRIC_MOST_MOVES, 255);
SAME(FABRIC_MOST_SETS, 255);
SAME(FABRIC_MOST_PROPOSAL, 16384);
SAME(FABRIC_MOST_PROPOSALS, 1048704);
SAME(FABRIC_MOST_WEIGHTS, 8192);
SAME(FABRIC_MOST_RESULT, 8216);
SAME(FABRIC_MOST_RESULTS, 525824);
SAME(FABRIC_MOST_CAPACITY, FABRIC_CELL_SIZE - FABRIC_CELL_FRONT);
SAME(FABRIC_FIRST_MAP + FABRIC_MOST_COLOURS, FABRIC_SECOND_MAP);
SAME(FABRIC_SECOND_MAP + FABRIC_MOST_COLOURS, FABRIC_MASK);
SAME(FABRIC_FILL_COLOUR + 1, FABRIC_ROW_SIZE);
SAME(FABRIC_WEIGHT(FABRIC_MOST_COMPONENTS, 0), FABRIC_MOST_WEIGHTS);
SAME(FABRIC_RESULT_WEIGHTS + FABRIC_WEIGHTS_SIZE(6), FABRIC_RESULT_SIZE(6));
SAME(FABRIC_TERM_BITS(6, FABRIC_JOIN_TOKEN_EQUATION, -1), 0x0D1FFFFF);

/* Each has room for one more than there can be. */
static uint8_t table[FABRIC_TABLE_SIZE(FABRIC_MOST_COMPONENTS + 1)], file[FABRIC_FILE_SIZE(FABRIC_MOST_COMPONENTS + 1)];
static uint8_t state[FABRIC_MOST_STATE], choices[2 * FABRIC_MOST_CHOICES], moves[FABRIC_MOST_MOVES], weights[FABRIC_MOST_WEIGHTS];
static uint8_t proposal[FABRIC_BLOCK_SIZE(FABRIC_MOST_TERMS + 1)], results[FABRIC_MOST_RESULTS];
static uint8_t sets[FABRIC_MOST_SETS];
static size_t rows, file_len;
static uint64_t colours, channels;

static int reached[FABRIC_BAD_BLOCKS + 1];
#define ANSWERS(call, number) (reached[number] = 1, IS(call, number))

static uint8_t *row(enum fabric_kind kind)
{
    uint8_t *fields = memset(table + FABRIC_ROW_SIZE * rows++, 0, FABRIC_ROW_SIZE);
    fields[FABRIC_KIND] = (uint8_t)kind;
    return fields;
}

static uint32_t pack_into(size_t len) { return fabric_pack(colours, channels, table, FABRIC_TABLE_SIZE(rows), file, len); }
static uint32_t unpack_into(size_t len) { return fabric_unpack(file, file_len, table, len); }
static uint32_t pack(void) { return pack_into(file_len = FABRIC_FILE_SIZE(rows)); }
static uint32_t start(void) { return fabric_start(file, file_len, state, sizeof state); }
static uint32_t step(void) { return fabric_step(file, file_len, state, sizeof state, choices, rows, moves, sizeof moves); }
static uint32_t check(size_t len) { return fabric_check(file, file_len, proposal, len, weights, sizeof weights); }
static uint32_t check_many(size_t len) { return fabric_check_many(file, file_len, proposal, len, results, sizeof results); }
static uint32_t ceiling(uint64_t queue) { return fabric_ceiling(file, file_len, proposal, FABRIC_TERM_SIZE, queue, 0); }

/* n queues of one colour, each with its output as its input: every term of one is accepted, if its multiplier is not 0. */
static void rings(uint8_t n)
{
    rows = 0, colours = 1, channels = n;
    for (uint8_t k = 0; k < n; k++) {
        uint8_t *queue = row(FABRIC_QUEUE);
        queue[FABRIC_QUEUE_IN] = queue[FABRIC_QUEUE_OUT] = k;
        queue[FABRIC_CAPACITY] = FABRIC_MOST_CAPACITY, queue[FABRIC_FILLING] = 3;
    }
}

static void lengths(uint8_t n)
{
    const uint8_t *second = results + FABRIC_RESULT_SIZE(n);
    rings(n);
    ANSWERS(pack_into(FABRIC_FILE_SIZE(n) - 1), FABRIC_RESULT_SPACE);
    ANSWERS(pack(), FABRIC_ACCEPTED);
    ANSWERS(unpack_into(FABRIC_TABLE_SIZE(n) - 1), FABRIC_RESULT_SPACE);
    ANSWERS(unpack_into(FABRIC_TABLE_SIZE(n)), FABRIC_ACCEPTED);
    ANSWERS(fabric_unpack(file, file_len - 1, table, sizeof table), FABRIC_WRONG_LENGTH);
    ANSWERS(fabric_unpack(file, file_len + 1, table, sizeof table), FABRIC_WRONG_LENGTH);
    ANSWERS(fabric_pack(colours, channels, table, FABRIC_TABLE_SIZE(n) - 1, file, file_len), FABRIC_WRONG_LENGTH);

    ANSWERS(fabric_start(file, file_len, state, FABRIC_STATE_SIZE(n) - 1), FABRIC_STATE_SHORT);
    ANSWERS(fabric_start(file, file_len, state, FABRIC_STATE_SIZE(n)), FABRIC_ACCEPTED);
    memset(choices, 0, sizeof choices);
    ANSWERS(fabric_step(file, file_len, state, sizeof state, choices, FABRIC_CHOICES_SIZE(n) - 1, moves, n), FABRIC_CHOICE_COUNT);
    ANSWERS(fabric_step(file, file_len, state, sizeof state, choices, FABRIC_CHOICES_SIZE(n) + 1, moves, n), FABRIC_CHOICE_COUNT);
    ANSWERS(fabric_step(file, file_len, state, sizeof state, choices, n, moves, FABRIC_MOVES_SIZE(n) - 1), FABRIC_RESULT_SPACE);
    ANSWERS(fabric_step(file, file_len, state, sizeof state, choices, n, moves, FABRIC_MOVES_SIZE(n)), FABRIC_ACCEPTED);
    ANSWERS(fabric_run(file, file_len, state, sizeof state, choices, 2 * FABRIC_CHOICES_SIZE(n)), FABRIC_ACCEPTED);

    IS(fabric_put_term(proposal, n - 1u, FABRIC_QUEUE_EQUATION(0), 5), 1);
    ANSWERS(fabric_check(file, file_len, proposal, 4, weights, FABRIC_WEIGHTS_SIZE(n) - 1), FABRIC_RESULT_SPACE);
    ANSWERS(fabric_check(file, file_len, proposal, 4, weights, FABRIC_WEIGHTS_SIZE(n)), FABRIC_ACCEPTED);
    IS(fabric_entry(weights + FABRIC_WEIGHT(n - 1, 0)), 5);

    /* A block whose second term names no equation, then a block of one term. */
    size_t at = FABRIC_BLOCK_SIZE(2), len = at + FABRIC_BLOCK_SIZE(1);
    proposal[0] = 0, proposal[1] = 2, proposal[at] = 0, proposal[at + 1] = 1;
    IS(fabric_put_term(proposal + FABRIC_COUNT_SIZE, 0, FABRIC_QUEUE_EQUATION(0), 1), 1);
    IS(fabric_put_term(proposal + FABRIC_COUNT_SIZE + FABRIC_TERM_SIZE, 0, FABRIC_QUEUE_EQUATION(1), 1), 1);
    IS(fabric_put_term(proposal + at + FABRIC_COUNT_SIZE, n - 1u, FABRIC_QUEUE_EQUATION(0), -5), 1);
    ANSWERS(fabric_check_many(file, file_len, proposal, len, results, 2 * FABRIC_RESULT_SIZE(n) - 1), FABRIC_RESULT_SPACE);
    ANSWERS(fabric_check_many(file, file_len, proposal, len, results, 2 * FABRIC_RESULT_SIZE(n)), FABRIC_ACCEPTED);
    IS(fabric_entry(results + FABRIC_RESULT_NUMBER), FABRIC_NO_EQUATION);
    IS(fabric_entry(results + FABRIC_RESULT_PLACE), 1);
    IS(fabric_entry(second + FABRIC_RESULT_NUMBER), FABRIC_ACCEPTED);
    IS(fabric_entry(second + FABRIC_RESULT_CONSTANT), -5 * 3);
    IS(fabric_entry(second + FABRIC_RESULT_WEIGHTS + FABRIC_WEIGHT(n - 1, 0)), -5);

    memset(sets, 9, sizeof sets);
    ANSWERS(fabric_reach(file, file_len, sets, FABRIC_SETS_SIZE(n) - 1), FABRIC_RESULT_SPACE);
    IS(sets[0], 9);
    ANSWERS(fabric_reach(file, file_len, sets, FABRIC_SETS_SIZE(n)), FABRIC_ACCEPTED);
    IS(sets[n - 1], FABRIC_COLOUR_BIT(0));
    IS(sets[n], 9);
    IS(fabric_reach_place(file, file_len, sets, FABRIC_SETS_SIZE(n)), 0);
}

static void limits(void)
{
    rings(FABRIC_MOST_COMPONENTS + 1);
    ANSWERS(pack(), FABRIC_COUNT_RANGE);
    rings(1);
    colours = FABRIC_MOST_COLOURS;
    ANSWERS(pack(), FABRIC_ACCEPTED);
    colours = FABRIC_MOST_COLOURS + 1;
    ANSWERS(pack(), FABRIC_COUNT_RANGE);
    rings(1);
    channels = FABRIC_MOST_CHANNELS;
    ANSWERS(pack(), FABRIC_CHANNEL_ENDS);
    channels = FABRIC_MOST_CHANNELS + 1;
    ANSWERS(pack(), FABRIC_COUNT_RANGE);
    rings(1);
    table[FABRIC_CAPACITY] = FABRIC_MOST_CAPACITY + 1;
    ANSWERS(pack(), FABRIC_BAD_FIELD);

    rings(1);
    ANSWERS(pack(), FABRIC_ACCEPTED);
    for (int i = 0; i <= FABRIC_MOST_TERMS; i++)
        IS(fabric_put_term(proposal + FABRIC_PROPOSAL_SIZE(i), 0, FABRIC_QUEUE_EQUATION(0), 1), 1);
    ANSWERS(check(FABRIC_MOST_PROPOSAL), FABRIC_ACCEPTED);
    IS(fabric_entry(weights), FABRIC_MOST_TERMS);
    ANSWERS(check(FABRIC_MOST_PROPOSAL - 1), FABRIC_PROPOSAL_LENGTH);
    ANSWERS(check(FABRIC_PROPOSAL_SIZE(FABRIC_MOST_TERMS + 1)), FABRIC_PROPOSAL_LENGTH);

    memset(proposal, 0, sizeof proposal);
    ANSWERS(check_many(FABRIC_MOST_BLOCKS * FABRIC_BLOCK_SIZE(0)), FABRIC_ACCEPTED);
    ANSWERS(check_many((FABRIC_MOST_BLOCKS + 1) * FABRIC_BLOCK_SIZE(0)), FABRIC_BAD_BLOCKS);
    proposal[0] = FABRIC_MOST_TERMS >> 8, proposal[1] = FABRIC_MOST_TERMS & 255;
    ANSWERS(check_many(FABRIC_BLOCK_SIZE(FABRIC_MOST_TERMS)), FABRIC_ACCEPTED);
    proposal[0] = (FABRIC_MOST_TERMS + 1) >> 8, proposal[1] = (FABRIC_MOST_TERMS + 1) & 255;
    ANSWERS(check_many(FABRIC_BLOCK_SIZE(FABRIC_MOST_TERMS + 1)), FABRIC_BAD_BLOCKS);
}

/* One more than the most multiplier is the least, and the other way round. fabric_put_term cuts nothing. */
static void multipliers(void)
{
    static const uint8_t terms[4][FABRIC_TERM_SIZE] = {{FABRIC_TERM(0, 0, FABRIC_MOST_MULTIPLIER)},
                                                       {FABRIC_TERM(0, 0, FABRIC_LEAST_MULTIPLIER)},
                                                       {FABRIC_TERM(0, 0, FABRIC_MOST_MULTIPLIER + 1)},
                                                       {FABRIC_TERM(0, 0, FABRIC_LEAST_MULTIPLIER - 1)}};
    const int64_t most = FABRIC_MOST_MULTIPLIER, least = FABRIC_LEAST_MULTIPLIER;
    const int64_t multiplier[4] = {most, least, most + 1, least - 1}, weight[4] = {most, least, least, most};
    rings(1);
    ANSWERS(pack(), FABRIC_ACCEPTED);
    for (int i = 0; i < 4; i++) {
        memset(proposal, 0, FABRIC_TERM_SIZE);
        IS(fabric_put_term(proposal, 0, 0, multiplier[i]), i < 2);
        if (i < 2)
            IS(memcmp(proposal, terms[i], FABRIC_TERM_SIZE), 0);
        memcpy(proposal, terms[i], FABRIC_TERM_SIZE);
        ANSWERS(check(FABRIC_TERM_SIZE), FABRIC_ACCEPTED);
        IS(fabric_entry(weights + FABRIC_WEIGHT(0, 0)), weight[i]);
    }
    IS(fabric_put_term(proposal, FABRIC_MOST_COMPONENTS, 0, 1), 0);
    IS(fabric_put_term(proposal, 0, 16, 1), 0);
}

/* Those that sizes and limits do not come to. */
static void refusals(void)
{
    static const uint8_t other_queue[] = {FABRIC_TERM(1, FABRIC_QUEUE_EQUATION(0), 1)};
    rings(2);
    ANSWERS(pack(), FABRIC_ACCEPTED);
    ANSWERS(fabric_unpack(file, FABRIC_HEADER_SIZE - 1, table, sizeof table), FABRIC_FILE_SHORT);
    file[0] ^= 1;
    ANSWERS(unpack_into(sizeof table), FABRIC_WRONG_EDITION);
    file[0] ^= 1, file[3] ^= 1;
    ANSWERS(unpack_into(sizeof table), FABRIC_BYTE_SUM);
    file[3] ^= 1;

    ANSWERS(start(), FABRIC_ACCEPTED);
    memset(choices, 0, sizeof choices), choices[1] = 1;
    ANSWERS(step(), FABRIC_BAD_CHOICE);
    state[FABRIC_STATE_SIZE(1) + FABRIC_CELL_COUNT] = FABRIC_MOST_CAPACITY + 1;
    ANSWERS(step(), FABRIC_BAD_STATE);

    memcpy(proposal, other_queue, sizeof other_queue);
    ANSWERS(ceiling(1), FABRIC_ACCEPTED);
    ANSWERS(ceiling(0), FABRIC_WEIGHT_NOT_POSITIVE);
    ANSWERS(ceiling(2), FABRIC_NOT_A_QUEUE);
    ANSWERS(check(0), FABRIC_NO_WEIGHT);

    table[FABRIC_QUEUE_OUT] = 1, table[FABRIC_ROW_SIZE + FABRIC_QUEUE_OUT] = 0;
    ANSWERS(pack(), FABRIC_ACCEPTED);
    ANSWERS(check(sizeof other_queue), FABRIC_FLOW_LEFT);
    /* Without packets there is nothing that can come along. */
    table[FABRIC_FILLING] = table[FABRIC_ROW_SIZE + FABRIC_FILLING] = 0;
    ANSWERS(pack(), FABRIC_ACCEPTED);
    ANSWERS(check(sizeof other_queue), FABRIC_ACCEPTED);
    rows = 1, colours = 1, channels = 1;
    table[FABRIC_QUEUE_OUT] = 0;
    ANSWERS(pack(), FABRIC_ACCEPTED);
    ANSWERS(check(sizeof other_queue), FABRIC_NO_EQUATION);
    table[FABRIC_KIND] = FABRIC_FUNCTION, table[FABRIC_CAPACITY] = 0, table[FABRIC_FILLING] = 0;
    ANSWERS(pack(), FABRIC_CIRCLE);
}

int main(void)
{
    int count = 0;
    lengths(1);
    lengths(2);
    lengths(FABRIC_MOST_COMPONENTS);
    limits();
    multipliers();
    refusals();
    for (int number = 0; number <= FABRIC_BAD_BLOCKS; number++)
        count += reached[number];
    IS(count, 21);
    return wrong;
}
