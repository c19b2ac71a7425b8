/* The credit loop from its open table to a proved sum, in one host program:
 *
 *    cc example.c explain.c $(pkg-config --cflags --libs fabric) -o example
 *
 *    0 source --0--> 1 join --2--> 2 queue --3--> 3 fork --4--> 4 sink
 *                      ^                            |
 *                      +--1-- 5 queue <-----5-------+
 */
#include "explain.h"
#include <fabric.h>
#include <stdio.h>

enum { COLOURS = 1, COMPONENTS = 6, CHANNELS = 6 };

static uint8_t table[FABRIC_TABLE_SIZE(COMPONENTS)], file[FABRIC_FILE_SIZE(COMPONENTS)], state[FABRIC_STATE_SIZE(COMPONENTS)];
static uint8_t moves[FABRIC_MOVES_SIZE(CHANNELS)], weights[FABRIC_WEIGHTS_SIZE(COMPONENTS)];

/* n(2,0) + n(5,0) never changes: the equations of both queues, of the join's output, of its tokens, and of the fork's output C. */
static const uint8_t proposal[] = {
    FABRIC_TERM(2, FABRIC_QUEUE_EQUATION(0), 1),  FABRIC_TERM(5, FABRIC_QUEUE_EQUATION(0), 1),
    FABRIC_TERM(1, FABRIC_JOIN_EQUATION(0), 1),   FABRIC_TERM(1, FABRIC_JOIN_TOKEN_EQUATION, 1),
    FABRIC_TERM(3, FABRIC_FORK_C_EQUATION(0), 1),
};

static uint8_t *row(int component, enum fabric_kind kind)
{
    uint8_t *fields = table + FABRIC_ROW_SIZE * component;
    fields[FABRIC_KIND] = (uint8_t)kind;
    return fields;
}

/* All other fields are 0. */
static void lay_out(void)
{
    uint8_t *source = row(0, FABRIC_SOURCE), *join = row(1, FABRIC_JOIN), *queue = row(2, FABRIC_QUEUE);
    uint8_t *fork = row(3, FABRIC_FORK), *sink = row(4, FABRIC_SINK), *tokens = row(5, FABRIC_QUEUE);
    source[FABRIC_SOURCE_OUT] = 0, source[FABRIC_MASK] = FABRIC_COLOUR_BIT(0);
    join[FABRIC_JOIN_DATA] = 0, join[FABRIC_JOIN_TOKEN] = 1, join[FABRIC_JOIN_OUT] = 2;
    queue[FABRIC_QUEUE_IN] = 2, queue[FABRIC_QUEUE_OUT] = 3, queue[FABRIC_CAPACITY] = 2;
    fork[FABRIC_FORK_IN] = 3, fork[FABRIC_FORK_OUT_B] = 4, fork[FABRIC_FORK_OUT_C] = 5;
    sink[FABRIC_SINK_IN] = 4;
    tokens[FABRIC_QUEUE_IN] = 5, tokens[FABRIC_QUEUE_OUT] = 1, tokens[FABRIC_CAPACITY] = 2, tokens[FABRIC_FILLING] = 2;
}

static int refused(const char *call, uint32_t number, uint64_t place)
{
    printf("%s: refused by %u, place %llu: %s\n", call, (unsigned)number, (unsigned long long)place, fabric_explain(number));
    return 1;
}

static void show(const char *after)
{
    unsigned packets = state[FABRIC_STATE_SIZE(2) + FABRIC_CELL_COUNT], tokens = state[FABRIC_STATE_SIZE(5) + FABRIC_CELL_COUNT];
    printf("%s: queue 2 has %u, queue 5 has %u, together %u\n", after, packets, tokens, packets + tokens);
}

int main(void)
{
    /* The choices of step 1, of steps 2 to 4, and of a step that cannot be: the source does not emit colour 1. */
    static const uint8_t first[COMPONENTS] = {FABRIC_SOME(0)}, wrong[COMPONENTS] = {FABRIC_SOME(1)};
    static const uint8_t rest[3 * COMPONENTS] = {
        FABRIC_SOME(0), 0, 0, 0, 0,           0,
        FABRIC_SOME(0), 0, 0, 0, 0,           0,
        FABRIC_NONE,    0, 0, 0, FABRIC_TAKE, 0,
    };
    uint32_t number;

    lay_out();
    if ((number = fabric_pack(COLOURS, CHANNELS, table, sizeof table, file, sizeof file)) != FABRIC_ACCEPTED)
        return refused("pack", number, fabric_pack_place(COLOURS, CHANNELS, table, sizeof table, file, sizeof file));

    if ((number = fabric_start(file, sizeof file, state, sizeof state)) != FABRIC_ACCEPTED)
        return refused("start", number, fabric_start_place(file, sizeof file, state, sizeof state));
    show("start");

    number = fabric_step(file, sizeof file, state, sizeof state, first, sizeof first, moves, sizeof moves);
    if (number != FABRIC_ACCEPTED)
        return refused("step", number,
                       fabric_step_place(file, sizeof file, state, sizeof state, first, sizeof first, moves, sizeof moves));
    for (int x = 0; x < CHANNELS; x++)
        if (moves[x] != FABRIC_NONE)
            printf("colour %d moves on channel %d\n", moves[x] - FABRIC_SOME(0), x);
    show("step 1");

    if ((number = fabric_run(file, sizeof file, state, sizeof state, rest, sizeof rest)) != FABRIC_ACCEPTED)
        return refused("run", number, fabric_run_place(file, sizeof file, state, sizeof state, rest, sizeof rest));
    show("steps 2 to 4");

    /* A refused call changes nothing, and the host goes on. */
    if ((number = fabric_run(file, sizeof file, state, sizeof state, wrong, sizeof wrong)) != FABRIC_ACCEPTED)
        refused("run", number, fabric_run_place(file, sizeof file, state, sizeof state, wrong, sizeof wrong));

    number = fabric_check(file, sizeof file, proposal, sizeof proposal, weights, sizeof weights);
    if (number != FABRIC_ACCEPTED)
        return refused("check", number, fabric_check_place(file, sizeof file, proposal, sizeof proposal, weights, sizeof weights));
    printf("in every run %lld n(2,0) + %lld n(5,0) = %lld\n", (long long)fabric_entry(weights + FABRIC_WEIGHT(2, 0)),
           (long long)fabric_entry(weights + FABRIC_WEIGHT(5, 0)),
           (long long)fabric_check_constant(file, sizeof file, proposal, sizeof proposal, weights, sizeof weights));

    if ((number = fabric_ceiling(file, sizeof file, proposal, sizeof proposal, 2, 0)) != FABRIC_ACCEPTED)
        return refused("ceiling", number, fabric_ceiling_place(file, sizeof file, proposal, sizeof proposal, 2, 0));
    printf("queue 2 never has more than %llu\n",
           (unsigned long long)fabric_ceiling_value(file, sizeof file, proposal, sizeof proposal, 2, 0));
    return 0;
}
