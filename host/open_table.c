/* Prints the open table of a fabric file: open_table FILE. Without a file, that of the credit loop. */
#include "fabric.h"
#include <stdio.h>

static const char *const KINDS[8] = {"source", "sink", "queue", "function", "fork", "join", "switch", "merge"};

/* One colour, six channels. A row begins with kind and ports. */
static size_t credit_loop(uint8_t *file)
{
    static const uint8_t table[6][FABRIC_ROW_SIZE] = {
        {FABRIC_SOURCE, 0, [FABRIC_MASK] = FABRIC_COLOUR_BIT(0)},
        {FABRIC_JOIN, 0, 1, 2},
        {FABRIC_QUEUE, 2, 3, [FABRIC_CAPACITY] = 2},
        {FABRIC_FORK, 3, 4, 5},
        {FABRIC_SINK, 4},
        {FABRIC_QUEUE, 5, 1, [FABRIC_CAPACITY] = 2, [FABRIC_FILLING] = 2},
    };
    size_t length = FABRIC_FILE_SIZE(6);
    return fabric_pack(1, 6, table[0], sizeof table, file, length) == FABRIC_ACCEPTED ? length : 0;
}

static void print_map(const char *name, const uint8_t *map, unsigned colours)
{
    printf(" %s", name);
    for (unsigned d = 0; d < colours; d++)
        printf(" %u", map[d]);
}

static void print_row(unsigned k, const uint8_t *row, unsigned colours)
{
    unsigned kind = row[FABRIC_KIND], ports = kind < FABRIC_QUEUE ? 1 : kind < FABRIC_FORK ? 2 : 3;
    printf("%u %s", k, KINDS[kind]);
    for (unsigned p = 0; p < ports; p++)
        printf(" %u", row[FABRIC_PORT_A + p]);
    if (kind == FABRIC_FUNCTION || kind == FABRIC_FORK || kind == FABRIC_JOIN)
        print_map("map", row + FABRIC_FIRST_MAP, colours);
    if (kind == FABRIC_FORK)
        print_map("second", row + FABRIC_SECOND_MAP, colours);
    if (kind == FABRIC_SOURCE || kind == FABRIC_SWITCH)
        printf(" mask %02x", row[FABRIC_MASK]);
    if (kind == FABRIC_QUEUE)
        printf(" capacity %u filling %u", row[FABRIC_CAPACITY], row[FABRIC_FILLING]);
    if (kind == FABRIC_QUEUE && row[FABRIC_FILLING] > 0)
        printf(" of %u", row[FABRIC_FILL_COLOUR]);
    printf("\n");
}

int main(int argc, char **argv)
{
    /* One byte more than the longest file, so that a file that is too long is seen to be. */
    static uint8_t file[FABRIC_MOST_FILE + 1], table[FABRIC_MOST_TABLE];
    size_t length;
    if (argc > 1) {
        FILE *f = fopen(argv[1], "rb");
        length = f ? fread(file, 1, sizeof file, f) : 0;
        if (f)
            fclose(f);
    } else {
        length = credit_loop(file);
    }
    uint32_t refused = fabric_unpack(file, length, table, sizeof table);
    if (refused != FABRIC_ACCEPTED) {
        printf("NO %u %llu\n", refused, (unsigned long long)fabric_unpack_place(file, length, table, sizeof table));
        return 1;
    }
    unsigned colours = (unsigned)fabric_unpack_colours(file, length, table, sizeof table);
    printf("header %02x %02x %02x %02x, length %zu, colours %u, channels %llu\n", file[0], file[1], file[2], file[3], length, colours,
           (unsigned long long)fabric_unpack_channels(file, length, table, sizeof table));
    for (unsigned k = 0; k < file[1]; k++)
        print_row(k, table + FABRIC_ROW_SIZE * k, colours);
    return 0;
}
