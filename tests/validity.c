/*
 * The tests of the validity of a configuration, by both entries: each question with 16 and without it,
 * round slots about the repeats, and validities beside what runs return.
 */
#include <math.h>

#include "check.h"
#include "validity.h"

static const uint32_t line[] = {2, 5, 2, MARK32}, one_way[] = {2, 4, 2, MARK32};

/* Two repeats in rounds of two slots, at which nothing is wrong. */
static const struct run equal = {
    .topology = CTSIM_LINE, .first = 3, .repeats = 2, .given = 1, .round_slots = 2, .seed = 7,
    .proposals = 1, .interval = 2, .limit = 1000,
};

static uint64_t validity(const struct run *r)
{
    if (r->rows != NULL)
        return ctsim_validity_rows(r->rows, r->rows_length, r->first, r->repeats, r->given,
                                   r->round_slots, r->loss, r->seed, r->proposals, r->interval,
                                   r->limit);
    return ctsim_validity_topology(r->topology, r->first, r->second, r->repeats, r->given,
                                   r->round_slots, r->loss, r->seed, r->proposals, r->interval,
                                   r->limit);
}

/* The validity of r, current or a refusal; with one round slot less than the repeats, outdated for
 * current, else the same. */
static void is(struct run r, uint64_t number, const char *what)
{
    check(validity(&r) == number, what);
    r.given = 1;
    r.round_slots = r.repeats - 1;
    check(validity(&r) == (number == CTSIM_CURRENT ? CTSIM_OUTDATED : number), what);
}

/* The questions that both entries are asked. */
static void test_questions(struct run good)
{
    struct run r;

    is(good, CTSIM_CURRENT, "validity: as many slots as repeats");
    r = good; r.given = UINT64_MAX; is(r, CTSIM_CURRENT, "validity: round slots given");
    r = good; r.given = 0; is(r, CTSIM_CURRENT, "validity: none are given");
    r.round_slots = 1; is(r, CTSIM_CURRENT, "validity: round slots that are not given are not read");
    r = good; r.round_slots = 4096; is(r, CTSIM_CURRENT, "validity: the most round slots");
    r = good; r.repeats = r.round_slots = 1; is(r, CTSIM_CURRENT, "validity: the least repeats");
    r = good; r.repeats = r.round_slots = 64; is(r, CTSIM_CURRENT, "validity: the most repeats");
    r = good; r.limit = 0; is(r, CTSIM_CURRENT, "validity: any limit");
    r = good; r.loss = -0.0; is(r, CTSIM_CURRENT, "validity: minus zero");
    r = good; r.first = 1; is(r, 2, "validity: one node, 2");
    r = good; r.first = 33; is(r, 2, "validity: 33 nodes, 2");
    r = good; r.repeats = 65; is(r, 5, "validity: 5");
    r = good; r.repeats = UINT64_MAX; is(r, 5, "validity: 5, and 6 too");
    r = good; r.repeats = 0; check(validity(&r) == 5, "validity: no repeats, 5");
    r = good; r.round_slots = 4097; check(validity(&r) == 6, "validity: 6");
    r = good; r.loss = 1.0; is(r, 7, "validity: loss 1, 7");
    r = good; r.loss = NAN; is(r, 7, "validity: loss is no number, 7");
    r = good; r.proposals = 65; is(r, 8, "validity: 8");
    r = good; r.interval = 0; is(r, 9, "validity: 9");
    r = good; r.loss = -0.5; r.proposals = 65; r.interval = 0; is(r, 7, "validity: 7 comes before 8 and 9");
    r.repeats = 65; is(r, 5, "validity: 5 comes before 7");
}

void test_validity(void)
{
    struct run good = equal, r;

    test_questions(good);
    r = good; r.topology = 0; is(r, 1, "validity of a topology: 1");
    r = good; r.second = 1; is(r, 3, "validity of a topology: 3");
    r.first = 33; r.interval = 0; is(r, 2, "validity of a topology: 2 comes first");
    good.rows = line; good.rows_length = COUNT(line);
    test_questions(good);
    r = good; r.rows_length = 2; is(r, 4, "validity of rows: a row short, 4");
    r = good; r.rows = one_way; is(r, 4, "validity of rows: no graph, 4");
    r.repeats = 65; is(r, 4, "validity of rows: 4 comes before 5");
}

/* All repeats with all round slots about them: outdated exactly below the repeats. */
void test_short_rounds(void)
{
    struct run r = equal, of_rows = equal;
    uint64_t repeats, slots;

    of_rows.rows = line; of_rows.rows_length = COUNT(line);
    for (repeats = 1; repeats <= 64; repeats++)
        for (slots = 0; slots <= 66; slots++) {
            uint64_t want = slots < repeats ? CTSIM_OUTDATED : CTSIM_CURRENT;

            r.repeats = of_rows.repeats = repeats;
            r.round_slots = of_rows.round_slots = slots;
            check(validity(&r) == want, "short rounds: a topology");
            check(validity(&of_rows) == want, "short rounds: rows");
        }
}

/* The validity beside what a run returns: the same number, but where that is 16, what the run without
 * round slots is refused by, and outdated where it is done. */
static void as_run(struct run r, const char *what)
{
    uint64_t told = validity(&r), result;

    r.summary_length = CTSIM_SUMMARY_LENGTH; r.logs_length = CTSIM_LOGS_LENGTH;
    r.records_length = CTSIM_RECORDS_LENGTH;
    result = run(&r);
    if (result == CTSIM_REFUSED_SHORT_ROUND) {
        r.given = 0;
        result = run(&r);
        if (result == CTSIM_DONE)
            result = CTSIM_OUTDATED;
    }
    check(result == told, what);
}

/* Repeats, round slots, loss rates, proposals and intervals about their limits, all with all. */
static void beside_runs(struct run r, const char *what)
{
    static const uint64_t repeats[] = {0, 1, 2, 64, 65}, proposals[] = {0, 64, 65};
    static const uint64_t slots[] = {0, 1, 2, 63, 64, 65, 4096, 4097, UINT64_MAX};
    static const double loss[] = {0, 0.5, 1};
    size_t i, j, k, m;

    for (i = 0; i < COUNT(repeats); i++)
        for (j = 0; j <= COUNT(slots); j++)
            for (k = 0; k < COUNT(loss); k++)
                for (m = 0; m < COUNT(proposals); m++) {
                    r.repeats = repeats[i];
                    r.given = j < COUNT(slots);
                    r.round_slots = slots[j % COUNT(slots)];
                    r.loss = loss[k];
                    r.proposals = proposals[m];
                    r.interval = 0; as_run(r, what);
                    r.interval = 1; as_run(r, what);
                }
}

void test_validity_of_runs(void)
{
    struct run r = equal;

    r.limit = 5;
    beside_runs(r, "beside runs: a topology");
    r.second = 1; beside_runs(r, "beside runs: no topology");
    r.rows = line; r.rows_length = COUNT(line); beside_runs(r, "beside runs: rows");
    r.rows = one_way; beside_runs(r, "beside runs: no rows");
}
