/* Prints how many bytes of stack each call touches at most, and fails where one takes 64 KiB or more, or a check or ceiling 48 KiB.
 * Three fabrics:
 *
 * - the credit loop;
 * - a chain of 125 functions into a switch, the deepest that we know of those that are accepted: each take depends on the next, the
 *   last on an offer, and each offer on the one before, so that the walk over the signals goes 251 calls deep;
 * - a circle of 64 forks and 64 joins. 128 components have at most 3 * 128 ports, so at most 192 channels have both their ends, and a
 *   walk starts with a depth of 2 * 192 at most. This fabric has all 192, and a circle uses up the whole depth: 385 calls. No
 *   fabric, accepted or refused, takes the walk deeper. */
#include <pthread.h>
#include <stdio.h>
#include <stdlib.h>
#include <string.h>

#include "fabric.h"

enum { PAINT = 0xA5, STACK = 1 << 20, LIMIT = 1 << 16, CHECK_LIMIT = 48 << 10, CHAIN_DEEP = 251, CIRCLE_DEEP = 385 };

static uint8_t table[24 * 128], file[4 + 13 * 128], state[64 * 128], choices[128], moves[255], weights[64 * 128], out[4 + 13 * 128];
static uint8_t block[2 + 20], results[8 * (3 + 8 * 128)]; /* a file of one block, the proposal, and its result */
static uint8_t sets[255];
static const uint8_t *proposal;
static size_t rows, file_len, proposal_len;
static uint64_t channels;
static uint32_t number, check_number; /* what each call is to answer, and what check and ceiling are to */

static void row(uint8_t kind, uint8_t a, uint8_t b, uint8_t c, uint8_t mask, uint8_t capacity, uint8_t filling)
{
    uint8_t *r = table + 24 * rows++;
    memset(r, 0, 24);
    r[0] = kind, r[1] = a, r[2] = b, r[3] = c, r[20] = mask, r[21] = capacity, r[22] = filling;
}

static void credit_loop(void)
{
    static const uint8_t terms[] = {4, 0, 0, 1, 10, 0, 0, 1, 2, 0, 0, 1, 3, 0, 0, 1, 7, 0, 0, 1};
    rows = 0, channels = 6, number = 0, check_number = 0, proposal = terms, proposal_len = sizeof terms;
    row(0, 0, 0, 0, 128, 0, 0);
    row(5, 0, 1, 2, 0, 0, 0);
    row(2, 2, 3, 0, 0, 2, 0);
    row(4, 3, 4, 5, 0, 0, 0);
    row(1, 4, 0, 0, 0, 0, 0);
    row(2, 5, 1, 0, 0, 2, 2);
}

/* Its proposal leaves the flows at a function: refused by 13, after all sums, by the colour sets, which go along the whole chain. */
static void chain(void)
{
    static const uint8_t terms[] = {0, 0, 0, 1};
    rows = 0, channels = 128, number = 0, check_number = 13, proposal = terms, proposal_len = sizeof terms;
    for (uint8_t x = 0; x < 125; x++)
        row(3, x, x + 1, 0, 0, 0, 0);
    row(6, 125, 126, 127, 128, 0, 0);
    row(1, 126, 0, 0, 0, 0, 0);
    row(2, 127, 0, 0, 0, 63, 1);
}

static void circle(void)
{
    rows = 0, channels = 192, number = 8, check_number = 8, proposal = NULL, proposal_len = 0;
    for (unsigned x = 0; x < 192; x += 3) {
        row(4, (uint8_t)x, (uint8_t)(x + 1), (uint8_t)(x + 2), 0, 0, 0);
        row(5, (uint8_t)(x + 1), (uint8_t)(x + 2), (uint8_t)((x + 3) % 192), 0, 0, 0);
    }
}

static void put(uint8_t *bytes, unsigned at, unsigned width, unsigned value)
{
    for (unsigned i = 0; i < width; i++)
        if (value >> (width - 1 - i) & 1)
            bytes[(at + i) / 8] |= (uint8_t)(128 >> (at + i) % 8);
}

/* The file of the table, with one colour; fabric_pack writes none for the circle. */
static void write_file(void)
{
    uint8_t sum = 0;
    file_len = 4 + 13 * rows;
    memset(file, 0, sizeof file);
    file[0] = 16, file[1] = (uint8_t)rows, file[2] = (uint8_t)channels;
    for (size_t k = 0; k < rows; k++) {
        uint8_t *r = table + 24 * k, *bytes = file + 4 + 13 * k;
        put(bytes, 0, 3, r[0]), put(bytes, 3, 8, r[1]), put(bytes, 11, 8, r[2]), put(bytes, 19, 8, r[3]);
        put(bytes, 75, 8, r[20]), put(bytes, 83, 6, r[21]), put(bytes, 89, 6, r[22]);
    }
    for (size_t i = 0; i < file_len; i++)
        sum = (uint8_t)(sum + file[i]);
    file[3] = (uint8_t)-sum;
}

static void write_block(void)
{
    block[0] = 0, block[1] = (uint8_t)(proposal_len / 4);
    if (proposal_len != 0)
        memcpy(block + 2, proposal, proposal_len);
}

static void answers(uint32_t got, uint32_t wanted)
{
    if (got != wanted) {
        printf("answered %u, not %u\n", (unsigned)got, (unsigned)wanted);
        exit(1);
    }
}

static uint8_t *entry; /* where the stack stands before the call */
#define CALL(name, call) static void *name(void *p) { entry = __builtin_frame_address(0); call; return p; }
CALL(unpack, answers(fabric_unpack(file, file_len, table, sizeof table), number))
CALL(unpack_place, fabric_unpack_place(file, file_len, table, sizeof table))
CALL(unpack_colours, fabric_unpack_colours(file, file_len, table, sizeof table))
CALL(unpack_channels, fabric_unpack_channels(file, file_len, table, sizeof table))
CALL(pack, answers(fabric_pack(1, channels, table, 24 * rows, out, sizeof out), number))
CALL(pack_place, fabric_pack_place(1, channels, table, 24 * rows, out, sizeof out))
CALL(start, answers(fabric_start(file, file_len, state, sizeof state), number))
CALL(start_place, fabric_start_place(file, file_len, state, sizeof state))
CALL(step, answers(fabric_step(file, file_len, state, sizeof state, choices, rows, moves, sizeof moves), number))
CALL(step_place, fabric_step_place(file, file_len, state, sizeof state, choices, rows, moves, sizeof moves))
CALL(run, answers(fabric_run(file, file_len, state, sizeof state, choices, rows), number))
CALL(run_place, fabric_run_place(file, file_len, state, sizeof state, choices, rows))
CALL(check, answers(fabric_check(file, file_len, proposal, proposal_len, weights, sizeof weights), check_number))
CALL(check_place, fabric_check_place(file, file_len, proposal, proposal_len, weights, sizeof weights))
CALL(check_constant, fabric_check_constant(file, file_len, proposal, proposal_len, weights, sizeof weights))
CALL(ceiling, answers(fabric_ceiling(file, file_len, proposal, proposal_len, 2, 0), check_number))
CALL(ceiling_place, fabric_ceiling_place(file, file_len, proposal, proposal_len, 2, 0))
CALL(ceiling_value, fabric_ceiling_value(file, file_len, proposal, proposal_len, 2, 0))
CALL(check_many, answers(fabric_check_many(file, file_len, block, 2 + proposal_len, results, sizeof results), number))
CALL(check_many_place, fabric_check_many_place(file, file_len, block, 2 + proposal_len, results, sizeof results))
CALL(reach, answers(fabric_reach(file, file_len, sets, sizeof sets), number))
CALL(reach_place, fabric_reach_place(file, file_len, sets, sizeof sets))

static const struct {
    const char *name;
    void *(*call)(void *);
} calls[] = {
    {"unpack", unpack},   {"unpack_place", unpack_place},   {"unpack_colours", unpack_colours}, {"unpack_channels", unpack_channels},
    {"pack", pack},       {"pack_place", pack_place},       {"start", start},                   {"start_place", start_place},
    {"step", step},       {"step_place", step_place},       {"run", run},                       {"run_place", run_place},
    {"check", check},     {"check_place", check_place},     {"check_constant", check_constant},
    {"ceiling", ceiling}, {"ceiling_place", ceiling_place}, {"ceiling_value", ceiling_value},
    {"check_many", check_many}, {"check_many_place", check_many_place}, {"reach", reach}, {"reach_place", reach_place},
};
enum { CALLS = sizeof calls / sizeof calls[0] };

static size_t limit_of(const char *name)
{
    return strncmp(name, "check", 5) == 0 || strncmp(name, "ceiling", 7) == 0 ? CHECK_LIMIT : LIMIT;
}

static size_t touched(void *(*call)(void *))
{
    uint8_t *stack = aligned_alloc(4096, STACK);
    pthread_attr_t attr;
    pthread_t thread;
    size_t free_bytes = 0, bytes;
    if (stack == NULL)
        exit(1);
    memset(stack, PAINT, STACK);
    if (pthread_attr_init(&attr) != 0 || pthread_attr_setstack(&attr, stack, STACK) != 0 || pthread_create(&thread, &attr, call, NULL) != 0)
        exit(1);
    pthread_join(thread, NULL);
    pthread_attr_destroy(&attr);
    while (free_bytes < STACK && stack[free_bytes] == PAINT)
        free_bytes++;
    bytes = (size_t)(entry - stack) - free_bytes;
    free(stack);
    return bytes;
}

static void measure(void (*fabric)(void), size_t *bytes)
{
    fabric();
    write_file();
    write_block();
    memset(choices, 0, sizeof choices);
    for (size_t i = 0; i < CALLS; i++)
        bytes[i] = touched(calls[i].call);
    if (number == 0 && memcmp(file, out, file_len) != 0) {
        printf("packed otherwise\n");
        exit(1);
    }
}

int main(void)
{
    static size_t loop[CALLS], deep[CALLS], deepest[CALLS];
    int within = 1;
    measure(credit_loop, loop);
    measure(chain, deep);
    measure(circle, deepest);
    printf("%-16s %12s %12s %12s\n", "bytes of stack", "credit loop", "chain", "circle");
    for (size_t i = 0; i < CALLS; i++) {
        size_t limit = limit_of(calls[i].name);
        printf("%-16s %12zu %12zu %12zu\n", calls[i].name, loop[i], deep[i], deepest[i]);
        within = within && loop[i] < limit && deep[i] < limit && deepest[i] < limit;
    }
    printf("a call of the walk takes %zu, and it goes %d deep in the chain, %d in the circle\n", (deepest[0] - deep[0] + (CIRCLE_DEEP - CHAIN_DEEP) / 2) / (CIRCLE_DEEP - CHAIN_DEEP),
           CHAIN_DEEP, CIRCLE_DEEP);
    printf(within ? "each below %d, each check and ceiling below %d\n" : "above %d, or a check or ceiling above %d\n", LIMIT, CHECK_LIMIT);
    return within ? 0 : 1;
}
