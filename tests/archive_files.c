/*
 * Files runs of all ends and sizes into a directory, which the first argument names: run-00.cts, run-01.cts and
 * on, the printed run first. Beside each stand copies that are damaged in some places, run-00-00.bad and on.
 * Prints a line for each file: its name, and what ctsim_file_check says of it. tests/archive.sh gives all of
 * them to both readers. Exit status: 0, or 1 if a file can't be made or an end does not occur.
 */
#include <inttypes.h>
#include <stdio.h>
#include <stdlib.h>
#include <string.h>

#include "ctsim.h"

#define COUNT(a) (sizeof(a) / sizeof(a)[0])

/* The most snapshots that are stored of a run. */
#define ROOM 3000

/* In how many ways a file is damaged. */
#define WAYS 12

/* A run, and how many of its snapshots are stored. */
struct asked {
    uint64_t topology, first, second, repeats, given, round_slots;
    double loss;
    uint64_t seed, proposals, interval, limit;
    size_t room;
};

static uint8_t logs[CTSIM_LOGS_LENGTH], file[CTSIM_FILE_LENGTH + 40 * ROOM];
static uint64_t records[CTSIM_RECORDS_LENGTH], snapshots[5 * ROOM];
static const char *folder;
static unsigned made, ends;

/* Writes a file of this name, and prints the check's answer. */
static void write_file(const char *name, const uint8_t *bytes, size_t length)
{
    char path[4096];
    FILE *out;

    if ((size_t)snprintf(path, sizeof path, "%s/%s", folder, name) >= sizeof path)
        exit(1);
    out = fopen(path, "wb");
    if (out == NULL || fwrite(bytes, 1, length, out) != length || fclose(out) != 0)
        exit(1);
    printf("%s %" PRIu64 "\n", name, ctsim_file_check(bytes, length));
}

/* Puts a number of so many bytes, the lowest first. */
static void put(uint8_t *at, uint64_t x, size_t size)
{
    for (; size > 0; size--, x >>= 8)
        *at++ = (uint8_t)x;
}

/* The number of 4 bytes at a place of the directory. */
static uint64_t take(const uint8_t *at)
{
    return at[0] | (uint64_t)at[1] << 8 | (uint64_t)at[2] << 16 | (uint64_t)at[3] << 24;
}

/* Moves the border behind section i by so many bytes, in the directory alone. */
static void move_border(uint8_t *copy, unsigned i, uint64_t by)
{
    uint8_t *pair = copy + 1 + 8 * i;

    put(pair + 4, take(pair + 4) + by, 4);
    put(pair + 8, take(pair + 8) + by, 4);
    put(pair + 12, take(pair + 12) - by, 4);
}

/* Damages the directory in one of several ways. */
static void misplace(unsigned way, uint8_t *copy, size_t length)
{
    switch (way) {
    case 0: /* sums cut to 32 bits would pass */
        put(copy + 21, 0xfffffff0, 4);
        put(copy + 25, 225, 4);
        put(copy + 29, length - 2080 - 225, 4);
        break;
    case 1: /* snapshots are taken for records */
        move_border(copy, 2, take(copy + 29));
        break;
    case 2: /* a record too many, from the snapshots */
        move_border(copy, 2, 24);
        break;
    case 3: /* a snapshot too many, from the logs */
        move_border(copy, 3, 40);
        break;
    case 4: /* inputs too many, from the records */
        move_border(copy, 0, 24);
        move_border(copy, 1, 24);
        break;
    default: /* totals too many, from the records */
        move_border(copy, 1, 24);
    }
}

/* Damages a copy in one of several ways, at places that the draws choose. Its length. */
static size_t damage(unsigned way, const uint64_t *draws, uint8_t *copy, size_t length)
{
    size_t i;

    switch (way) {
    case 0: /* a bit anywhere */
        copy[draws[0] % length] ^= (uint8_t)(1U << draws[1] % 8);
        break;
    case 1: /* a bit of the first byte or the directory */
        copy[draws[0] % 41] ^= (uint8_t)(1U << draws[1] % 8);
        break;
    case 2: /* cut */
        return (size_t)(draws[0] % length);
    case 3: /* longer */
        memset(copy + length, 0, 64);
        return length + 1 + (size_t)(draws[0] % 64);
    case 4: /* more nodes than there can be, and counts of any size */
        put(copy + 121, draws[0] | 32, 8);
        for (i = 0; i < 32; i++)
            copy[length - 32 + i] = (uint8_t)(draws[i % 8] >> i);
        break;
    case 5: /* inputs and totals of any numbers */
        for (i = 41; i < 241; i++)
            copy[i] = (uint8_t)(draws[i % 8] >> i % 57);
        break;
    default:
        misplace(way - 6, copy, length);
    }
    return length;
}

/* The damaged copies of the file that was made last. */
static void write_damaged(size_t length)
{
    static uint8_t copy[sizeof file + 64];
    uint64_t draws[8];
    char name[32];
    unsigned way;

    for (way = 0; way < WAYS; way++) {
        ctsim_draws(WAYS * made + way, draws, COUNT(draws));
        memcpy(copy, file, length);
        snprintf(name, sizeof name, "run-%02u-%02u.bad", made, way);
        write_file(name, copy, damage(way, draws, copy, length));
    }
}

/* Files one run, and damaged copies of it. */
static void write_run(struct asked a)
{
    uint64_t length;
    char name[32];

    if (ctsim_file_topology(a.topology, a.first, a.second, a.repeats, a.given, a.round_slots, a.loss, a.seed,
                            a.proposals, a.interval, a.limit, logs, COUNT(logs), records, COUNT(records),
                            snapshots, 5 * a.room, file, sizeof file, &length, 1) != 0)
        exit(1);
    snprintf(name, sizeof name, "run-%02u.cts", made);
    write_file(name, file, length);
    ends |= 1U << file[121 + 24];
    write_damaged(length);
    made++;
}

/* Each topology with few, some and many nodes, and with little, some and much of all else. */
static void write_networks(void)
{
    static const uint64_t sizes[] = {2, 12, 32}, proposals[] = {64, 3, 20}, limits[] = {5000, 0, 700};
    static const double losses[] = {0, 0.5, 0.875};
    static const size_t rooms[] = {ROOM, 5, 0};
    struct asked a = {0};
    size_t i, k;

    for (a.topology = 1; a.topology <= 6; a.topology++)
        for (i = 0; i < COUNT(sizes); i++)
            for (k = 0; k < 2; k++) {
                a.first = a.topology == CTSIM_GRID ? sizes[i] / 2 : sizes[i];
                a.second = a.topology == CTSIM_GRID ? 2 : a.topology == CTSIM_TREE ? 2 + i : 0;
                a.repeats = 1 + 7 * k;
                a.given = k;
                a.round_slots = 8 + i;
                a.loss = losses[(i + k) % 3];
                a.seed = a.topology * 1000 + i;
                a.proposals = proposals[(a.topology + k) % 3];
                a.interval = 1 + 2 * i;
                a.limit = limits[(a.topology + i) % 3];
                a.room = rooms[(a.topology + i + k) % 3];
                write_run(a);
            }
}

/* Each end, and numbers at their limits. */
static void write_others(void)
{
    struct asked a = {CTSIM_GRID, 4, 4, 2, 1, 5, 0.5, 99, 20, 2, 100000, ROOM};

    write_run(a);
    a.room = 1; write_run(a);
    a.limit = 1; write_run(a);
    a.limit = UINT64_MAX; a.seed = UINT64_MAX; write_run(a);
    a.interval = UINT64_MAX; a.loss = -0.0; write_run(a);
    a.interval = 1; a.room = ROOM; a.round_slots = 2; a.loss = 0.5; write_run(a);
    a.given = 0; a.loss = 0; a.proposals = 64; write_run(a);
    a.proposals = 0; write_run(a);
    a.topology = CTSIM_TREE; a.first = 7; a.second = 0; a.proposals = 5; write_run(a);
    a.topology = CTSIM_LINE; a.first = 2; a.proposals = 2; a.loss = 0.998; a.repeats = 1; write_run(a);
    a.first = 32; a.repeats = 64; a.loss = 0.9; a.proposals = 64; write_run(a);
    a.given = 1; a.round_slots = 4096; a.loss = 0.99999999999999989; a.limit = 3000; write_run(a);
}

int main(int count, char **words)
{
    const struct asked printed = {CTSIM_LINE, 3, 0, 1, 0, 0, 0, 7, 1, 2, 1000, 3};

    if (count != 2)
        return 1;
    folder = words[1];
    write_run(printed);
    write_networks();
    write_others();
    return ends == (1U << 1 | 1U << 2 | 1U << 3 | 1U << 4) ? 0 : 1;
}
