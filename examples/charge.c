/*
 * charge: the charge that the radios of a run take from their batteries.
 *
 * Its words are four measured numbers and the ten words of ./ctsim's line: the current in mA of a
 * radio that listens, floods and sleeps, a slot's length in ms, and then topology, first, second,
 * repeats, round slots or -, loss as 16 hexadecimal digits, seed, proposals, interval and limit.
 * mA times ms is microcoulomb. It prints a line for each state and their sum, over all nodes.
 */
#include <math.h>
#include <stdio.h>
#include <stdlib.h>
#include <string.h>

#include "ctsim.h"
#include "words.h"

const char program[] = "charge";
const char usage[] =
    "usage: charge LISTEN-mA FLOOD-mA SLEEP-mA SLOT-ms TOPOLOGY FIRST SECOND REPEATS ROUND-SLOTS|- "
    "LOSS SEED PROPOSALS INTERVAL LIMIT\n";

/* A current or a length: a number that is at least 0. */
static double measure(const char *word)
{
    char *end;
    double x = strtod(word, &end);

    if (end == word || *end != '\0' || !isfinite(x) || x < 0)
        bad(word);
    return x;
}

static double show(const char *state, uint64_t slots, double current, double slot)
{
    double charge = (double)slots * slot * current;

    printf("%s %llu slots %.9g uC\n", state, (unsigned long long)slots, charge);
    return charge;
}

int main(int argc, char **argv)
{
    uint64_t summary[CTSIM_SUMMARY_LENGTH], records[CTSIM_RECORDS_LENGTH];
    uint64_t snapshots[1]; /* lent with length 0: none are needed here */
    uint8_t logs[CTSIM_LOGS_LENGTH];
    double listen, flood, sleep, slot, sum;
    char **word = argv + 5;
    uint64_t given, result;

    if (argc != 15) {
        fputs(usage, stderr);
        return 2;
    }
    listen = measure(argv[1]);
    flood = measure(argv[2]);
    sleep = measure(argv[3]);
    slot = measure(argv[4]);
    given = strcmp(word[4], "-") != 0;
    result = ctsim_run_topology(number(word[0], 10), number(word[1], 10), number(word[2], 10),
                                number(word[3], 10), given, given ? number(word[4], 10) : 0,
                                loss_rate(word[5]), number(word[6], 10), number(word[7], 10),
                                number(word[8], 10), number(word[9], 10),
                                summary, CTSIM_SUMMARY_LENGTH, logs, CTSIM_LOGS_LENGTH,
                                records, CTSIM_RECORDS_LENGTH, snapshots, 0);
    if (result != CTSIM_DONE) {
        printf("refused %llu\n", (unsigned long long)result);
        return 1;
    }
    sum = show("listen", summary[CTSIM_LISTEN], listen, slot);
    sum += show("flood", summary[CTSIM_FLOOD], flood, slot);
    sum += show("sleep", summary[CTSIM_SLEEP], sleep, slot);
    printf("all %.9g uC, a node %.9g uC\n", sum, sum / (double)summary[CTSIM_NODES]);
    return 0;
}
