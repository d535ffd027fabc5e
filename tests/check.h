/*
 * What the parts of the C test share: checks, marks, and runs into marked places.
 */
#ifndef CHECK_H
#define CHECK_H

#include "ctsim.h"

#define MARK 0x4d
#define MARK32 0x4d4d4d4dU
#define COUNT(a) (sizeof(a) / sizeof(a)[0])

/* Counts a check, and says which one fails. */
void check(int ok, const char *what);

/* Prints how many checks passed and how many failed. Whether one failed. */
int report(void);

/* Whether all bytes from one place up to another hold the mark. */
int kept(const void *from, const void *to);

/* Whether an array holds these bytes behind `before` marked ones, and marks else. */
int holds(const void *array, size_t size, size_t before, const void *bytes, size_t length);

/* A run of a topology, or, where there are rows, of those; the round of it that is looked at; the seeds
 * that it is swept over; and how many places each slice has. */
struct run {
    const uint32_t *rows;
    const uint64_t *seeds;
    size_t rows_length, seeds_length;
    uint64_t topology, first, second, repeats, given, round_slots;
    double loss;
    uint64_t seed, proposals, interval, limit, round;
    size_t summary_length, logs_length, records_length, snapshots_length, packet_length, part_length;
    size_t table_length, rounds_length, file_length, written_length;
};

/* A run that loses packets, with NACKs and piggybacks. */
extern const struct run lossy;

/* The places that a run writes to. */
extern uint64_t summary[20], records[200], snapshots[32];
extern uint8_t logs[2096];

/* Marks all places, and runs into those behind the first 8 bytes of each array. */
uint64_t run(const struct run *r);

/* All bytes that a run may write, kept aside. */
struct results {
    uint64_t summary[COUNT(summary)], records[COUNT(records)], snapshots[COUNT(snapshots)];
    uint8_t logs[COUNT(logs)];
};

void keep(struct results *r);

/* Whether all places hold what was kept. */
int same(const struct results *r);

#endif
