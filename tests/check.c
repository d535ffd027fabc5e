#include <stdio.h>
#include <string.h>

#include "check.h"

static unsigned passed, failed;

void check(int ok, const char *what)
{
    if (ok) {
        passed++;
    } else {
        failed++;
        printf("failed: %s\n", what);
    }
}

int report(void)
{
    printf("%u passed, %u failed\n", passed, failed);
    return failed != 0;
}

int kept(const void *from, const void *to)
{
    const unsigned char *p = from;

    for (; p < (const unsigned char *)to; p++)
        if (*p != MARK)
            return 0;
    return 1;
}

int holds(const void *array, size_t size, size_t before, const void *bytes, size_t length)
{
    const unsigned char *p = array;

    return kept(p, p + before) && memcmp(p + before, bytes, length) == 0
           && kept(p + before + length, p + size);
}

const struct run lossy = {
    .topology = CTSIM_GRID, .first = 4, .second = 4, .repeats = 2, .given = 1, .round_slots = 5,
    .loss = 0.5, .seed = 99, .proposals = 20, .interval = 2, .limit = 100000,
    .summary_length = CTSIM_SUMMARY_LENGTH, .logs_length = 2080, .records_length = 192,
    .snapshots_length = 31,
    .packet_length = 13, .part_length = 1,
};

uint64_t summary[20], records[200], snapshots[32];
uint8_t logs[2096];

uint64_t run(const struct run *r)
{
    memset(summary, MARK, sizeof summary);
    memset(logs, MARK, sizeof logs);
    memset(records, MARK, sizeof records);
    memset(snapshots, MARK, sizeof snapshots);
    if (r->rows != NULL)
        return ctsim_run_rows(r->rows, r->rows_length, r->first, r->repeats, r->given, r->round_slots,
                              r->loss, r->seed, r->proposals, r->interval, r->limit,
                              summary + 1, r->summary_length, logs + 8, r->logs_length,
                              records + 1, r->records_length, snapshots + 1, r->snapshots_length);
    return ctsim_run_topology(r->topology, r->first, r->second, r->repeats, r->given, r->round_slots,
                              r->loss, r->seed, r->proposals, r->interval, r->limit,
                              summary + 1, r->summary_length, logs + 8, r->logs_length,
                              records + 1, r->records_length, snapshots + 1, r->snapshots_length);
}

void keep(struct results *r)
{
    memcpy(r->summary, summary, sizeof summary);
    memcpy(r->records, records, sizeof records);
    memcpy(r->snapshots, snapshots, sizeof snapshots);
    memcpy(r->logs, logs, sizeof logs);
}

int same(const struct results *r)
{
    return memcmp(r->summary, summary, sizeof summary) == 0
           && memcmp(r->records, records, sizeof records) == 0
           && memcmp(r->snapshots, snapshots, sizeof snapshots) == 0
           && memcmp(r->logs, logs, sizeof logs) == 0;
}
