/*
 * The tests of both sweeps: their slices and questions, the most seeds, and each line against the run of
 * its seed, whichever seeds stand beside it.
 */
#include <math.h>
#include <string.h>

#include "check.h"
#include "sweeps.h"

/* How many seeds a list has, and how many bytes a line. */
#define LIST 8
#define LINE (8 * CTSIM_SWEPT_LENGTH)

/* The set of one end. */
#define END(e) (1U << (e))

/* The line of the printed run, which is that of every seed. */
#define PRINTED 2, 5, 5, 6, 4, 1, 1

static uint64_t table[CTSIM_SWEPT_LENGTH * LIST + 20], rounds[4];

static const uint64_t seeds[LIST] = {
    7, 0, 99, UINT64_MAX, 37, (uint64_t)1 << 32, 11902542435752118818U, 1,
};

/* Sweeps into these places. */
static uint64_t sweep_into(const struct run *r, uint64_t *lines, uint64_t *sum)
{
    if (r->rows != NULL)
        return ctsim_sweep_rows(r->rows, r->rows_length, r->first, r->repeats, r->given, r->round_slots,
                                r->loss, r->proposals, r->interval, r->limit, r->seeds, r->seeds_length,
                                lines, r->table_length, sum, r->rounds_length);
    return ctsim_sweep_topology(r->topology, r->first, r->second, r->repeats, r->given, r->round_slots,
                                r->loss, r->proposals, r->interval, r->limit, r->seeds, r->seeds_length,
                                lines, r->table_length, sum, r->rounds_length);
}

/* Marks all places, and sweeps into those behind the first of each array. */
static uint64_t sweep(const struct run *r)
{
    memset(table, MARK, sizeof table);
    memset(rounds, MARK, sizeof rounds);
    return sweep_into(r, table + 1, rounds + 1);
}

static void unswept(struct run r, uint64_t number, const char *what)
{
    check(sweep(&r) == number, what);
    check(kept(table, table + COUNT(table)) && kept(rounds, rounds + COUNT(rounds)), what);
}

/* The seeds have these lines, whose rounds are summed up, and nothing else is written. */
static void swept(struct run r, const uint64_t *lines, const char *what)
{
    uint64_t sum = 0;
    size_t i;

    for (i = 0; i < r.seeds_length; i++)
        sum += lines[CTSIM_SWEPT_LENGTH * i + CTSIM_SWEPT_ROUNDS];
    check(sweep(&r) == 0, what);
    check(holds(table, sizeof table, 8, lines, LINE * r.seeds_length), what);
    check(holds(rounds, sizeof rounds, 8, &sum, 8), what);
    check(sum <= r.seeds_length * (r.proposals + 1002), what);
}

/* Every length of the table, and every number of seeds. */
static void test_sweep_slices(struct run good)
{
    static const uint64_t lines[] = {PRINTED, PRINTED, PRINTED, PRINTED};
    struct run r = good;

    for (r.table_length = 0; r.table_length < 21; r.table_length++)
        unswept(r, CTSIM_REFUSED_SWEEP, "sweep: table too short, refused 15");
    for (; r.table_length <= 35; r.table_length++)
        swept(r, lines, "sweep: table exact or long");
    for (r.seeds_length = 0; r.seeds_length <= 4; r.seeds_length++) {
        r.table_length = 7 * r.seeds_length;
        swept(r, lines, "sweep: that many seeds, exact");
        r.table_length += 40;
        swept(r, lines, "sweep: that many seeds, long");
    }
    r = good; r.rounds_length = 3; swept(r, lines, "sweep: rounds long");
    r = good; r.seeds_length = 0; r.table_length = 0; r.limit = 0; swept(r, lines, "sweep: nothing at all");
}

/* The questions that both sweeps are asked. */
static void test_sweep_questions(struct run good)
{
    static const uint64_t lines[] = {PRINTED, PRINTED, PRINTED};
    struct run r;

    r = good; r.rounds_length = 0; unswept(r, CTSIM_SHORT, "sweep: no place for rounds, 100");
    r = good; r.first = 1; unswept(r, 2, "sweep: one node, refused 2");
    r = good; r.first = 33; unswept(r, 2, "sweep: 33 nodes, refused 2");
    r = good; r.repeats = 0; unswept(r, 5, "sweep: refused 5");
    r = good; r.repeats = 65; unswept(r, 5, "sweep: refused 5");
    r = good; r.given = 1; r.round_slots = 4097; unswept(r, 6, "sweep: refused 6");
    r = good; r.repeats = 2; r.given = 1; r.round_slots = 1; unswept(r, 16, "sweep: refused 16");
    r = good; r.loss = 1.0; unswept(r, 7, "sweep: loss 1, refused 7");
    r = good; r.loss = -0.5; unswept(r, 7, "sweep: loss below 0, refused 7");
    r = good; r.loss = NAN; unswept(r, 7, "sweep: loss is no number, refused 7");
    r = good; r.proposals = 65; unswept(r, 8, "sweep: refused 8");
    r = good; r.interval = 0; unswept(r, 9, "sweep: refused 9");
    r = good; r.interval = 0; r.seeds_length = 0; unswept(r, 9, "sweep: no seeds, refused 9 still");
    r = good; r.interval = UINT64_MAX; swept(r, lines, "sweep: the interval changes no number");
    r = good; r.limit = UINT64_MAX; swept(r, lines, "sweep: the greatest limit");
    r = good; r.round_slots = 4097; swept(r, lines, "sweep: round slots that are not given are not read");
    r = good; r.given = UINT64_MAX; r.round_slots = 4096; swept(r, lines, "sweep: round slots given");
    r = good; r.loss = -0.0; swept(r, lines, "sweep: minus zero");
}

void test_sweeps(void)
{
    static const uint32_t line[] = {2, 5, 2, MARK32};
    static const uint32_t one_way[] = {2, 4, 2};
    struct run good = {
        .topology = CTSIM_LINE, .first = 3, .repeats = 1, .proposals = 1, .interval = 2, .limit = 1000,
        .seeds = seeds, .seeds_length = 3, .table_length = 3 * CTSIM_SWEPT_LENGTH, .rounds_length = 1,
    };
    struct run r;

    test_sweep_slices(good);
    test_sweep_questions(good);
    r = good; r.topology = 0; unswept(r, 1, "sweep of a topology: refused 1");
    r = good; r.second = 1; unswept(r, 3, "sweep of a topology: refused 3");
    good.rows = line;
    good.rows_length = 4;
    test_sweep_slices(good);
    test_sweep_questions(good);
    r = good; r.rows_length = 2; unswept(r, 4, "sweep of rows: a row short, refused 4");
    r = good; r.rows = one_way; r.rows_length = 3; unswept(r, 4, "sweep of rows: no graph, refused 4");
}

/* The questions behind those of the network, in their order: r has "no" for each. */
static void questions_in_order(struct run r)
{
    unswept(r, 5, "sweep in order: 5");
    r.repeats = 64; unswept(r, 6, "sweep in order: 6");
    r.round_slots = 63; unswept(r, 16, "sweep in order: 16");
    r.round_slots = 64; unswept(r, 7, "sweep in order: 7");
    r.loss = 0; unswept(r, 8, "sweep in order: 8");
    r.proposals = 64; unswept(r, 9, "sweep in order: 9");
    r.interval = 1; unswept(r, CTSIM_REFUSED_SWEEP, "sweep in order: 15");
    r.table_length = 7 * r.seeds_length;
    check(sweep(&r) == 0, "sweep in order: done");
}

/* Everything is wrong, and put right one after the other. */
void test_sweep_order(void)
{
    static const uint32_t one_way[] = {2, 4, 2}, line[] = {2, 5, 2};
    const struct run wrong = {
        .topology = 7, .first = 33, .second = 1, .given = 1, .round_slots = 4097, .loss = 1,
        .proposals = 65, .seeds = seeds, .seeds_length = LIST,
    };
    struct run r = wrong;

    unswept(r, CTSIM_SHORT, "sweep in order: 100");
    r.rounds_length = 1; unswept(r, 1, "sweep in order: 1");
    r.topology = CTSIM_LINE; unswept(r, 2, "sweep in order: 2");
    r.first = 3; unswept(r, 3, "sweep in order: 3");
    r.second = 0; questions_in_order(r);
    r = wrong; r.rows = one_way; r.rows_length = 2;
    unswept(r, CTSIM_SHORT, "sweep in order, rows: 100");
    r.rounds_length = 1; unswept(r, 2, "sweep in order, rows: 2");
    r.first = 3; unswept(r, 4, "sweep in order, rows: 4 for a row short");
    r.rows_length = 3; unswept(r, 4, "sweep in order, rows: 4 for no graph");
    r.rows = line; questions_in_order(r);
}

/* The line of the run of one seed, from its summary. */
static void line_of(struct run r, uint64_t seed, uint64_t *line)
{
    r.seed = seed;
    check(run(&r) == 0, "swept runs: a run");
    line[CTSIM_SWEPT_ROUNDS] = summary[1 + CTSIM_ROUNDS];
    line[CTSIM_SWEPT_SLOTS] = summary[1 + CTSIM_SLOTS];
    line[CTSIM_SWEPT_LISTEN] = summary[1 + CTSIM_LISTEN];
    line[CTSIM_SWEPT_FLOOD] = summary[1 + CTSIM_FLOOD];
    line[CTSIM_SWEPT_SLEEP] = summary[1 + CTSIM_SLEEP];
    line[CTSIM_SWEPT_RECORDS] = summary[1 + CTSIM_RECORDS];
    line[CTSIM_SWEPT_ENDED] = summary[1 + CTSIM_ENDED];
}

static uint64_t many_seeds[CTSIM_MAX_SEEDS + 1];
static uint64_t many_lines[CTSIM_SWEPT_LENGTH * (CTSIM_MAX_SEEDS + 1) + 2];

/* Sweeps many seeds into marked places. */
static uint64_t sweep_many(struct run r, size_t seeds_length, size_t table_length)
{
    r.seeds_length = seeds_length; r.table_length = table_length;
    memset(many_lines, MARK, sizeof many_lines);
    memset(rounds, MARK, sizeof rounds);
    return sweep_into(&r, many_lines + 1, rounds + 1);
}

static void unswept_many(struct run r, size_t seeds_length, size_t table_length, const char *what)
{
    check(sweep_many(r, seeds_length, table_length) == CTSIM_REFUSED_SWEEP, what);
    check(kept(many_lines, many_lines + COUNT(many_lines)) && kept(rounds, rounds + COUNT(rounds)), what);
}

/* As many seeds as are taken, and one more. */
static void most_seeds(struct run r)
{
    const size_t most = CTSIM_MAX_SEEDS, length = CTSIM_SWEPT_LENGTH * most;
    uint64_t line[CTSIM_SWEPT_LENGTH], sum = 0;
    size_t i;

    unswept_many(r, most + 1, length + 7, "most seeds: one more, refused 15");
    unswept_many(r, most, length - 1, "most seeds: table one short, refused 15");
    check(sweep_many(r, most, length + 7) == 0, "most seeds: done");
    check(kept(many_lines, many_lines + 1), "most seeds: the place before");
    check(kept(many_lines + 1 + length, many_lines + COUNT(many_lines)), "most seeds: the places behind");
    for (i = 0; i < most; i++)
        sum += many_lines[1 + CTSIM_SWEPT_LENGTH * i + CTSIM_SWEPT_ROUNDS];
    check(holds(rounds, sizeof rounds, 8, &sum, 8), "most seeds: the sum");
    for (i = 0; i < most; i += i < 4096 ? 1 : 4093) {
        line_of(r, many_seeds[i], line);
        check(memcmp(many_lines + 1 + CTSIM_SWEPT_LENGTH * i, line, LINE) == 0, "most seeds: a line");
    }
    line_of(r, many_seeds[most - 1], line);
    check(memcmp(many_lines + 1 + length - 7, line, LINE) == 0, "most seeds: the last line");
}

void test_most_seeds(void)
{
    static const uint32_t pair[] = {2, 1};
    struct run r = lossy;
    size_t i;

    for (i = 0; i < COUNT(many_seeds); i++)
        many_seeds[i] = i - 5;
    r.seeds = many_seeds; r.rounds_length = 1;
    r.limit = 0; most_seeds(r);
    r.rows = pair; r.rows_length = 2; r.first = 2; r.proposals = 2;
    most_seeds(r);
    r.limit = 30; most_seeds(r);
}

/* Each line of lists of these seeds is that of its run: alone, forward and back, and with repeats. The
 * set of their ends. */
static unsigned as_runs(struct run r, const char *what)
{
    static const size_t order[][LIST] = {
        {0, 1, 2, 3, 4, 5, 6, 7}, {7, 6, 5, 4, 3, 2, 1, 0}, {4, 4, 2, 6, 2, 2, 0, 0},
    };
    uint64_t lines[CTSIM_SWEPT_LENGTH * LIST], listed[COUNT(lines)], list[LIST];
    unsigned ends = 0;
    size_t i, k;

    r.seeds = seeds; r.seeds_length = 1; r.table_length = CTSIM_SWEPT_LENGTH; r.rounds_length = 1;
    for (i = 0; i < LIST; i++, r.seeds++) {
        line_of(r, seeds[i], lines + 7 * i);
        swept(r, lines + 7 * i, what);
        ends |= END(lines[7 * i + CTSIM_SWEPT_ENDED]);
    }
    r.seeds = list; r.seeds_length = LIST; r.table_length = COUNT(lines);
    for (k = 0; k < COUNT(order); k++) {
        for (i = 0; i < LIST; i++) {
            list[i] = seeds[order[k][i]];
            memcpy(listed + 7 * i, lines + 7 * order[k][i], LINE);
        }
        swept(r, listed, what);
    }
    return ends;
}

/* A topology and its rows. The set of their ends. */
static unsigned both_as_runs(struct run r, const char *what)
{
    uint32_t rows[32];
    uint64_t n[1];
    unsigned ends = as_runs(r, what);

    check(ctsim_rows(r.topology, r.first, r.second, rows, 32, n, 1) == 0, what);
    r.rows = rows; r.rows_length = 32; r.first = n[0];
    check(as_runs(r, what) == ends, what);
    return ends;
}

static void ends_as_runs(struct run r, unsigned ends, const char *what)
{
    check(both_as_runs(r, what) == ends, what);
}

/* Runs with each end, and lists of seeds whose runs end differently. */
void test_swept_runs(void)
{
    struct run r = lossy;

    ends_as_runs(r, END(2), "swept runs: lossy");
    r.limit = 100; ends_as_runs(r, END(4), "swept runs: up to the limit");
    r.limit = 1; ends_as_runs(r, END(4), "swept runs: one round");
    r.limit = 0; ends_as_runs(r, END(4), "swept runs: none");
    r.limit = 100000; r.round_slots = 2; ends_as_runs(r, END(3), "swept runs: as many slots as repeats");
    r.repeats = 1; r.round_slots = 1; ends_as_runs(r, END(3), "swept runs: rounds of one slot");
    r.given = 0; ends_as_runs(r, END(2), "swept runs: round slots not given");
    r.loss = 0; ends_as_runs(r, END(1), "swept runs: nothing lost");
    r.proposals = 64; ends_as_runs(r, END(1), "swept runs: the most proposals");
    r.proposals = 0; ends_as_runs(r, END(1), "swept runs: no proposal");
    r.topology = CTSIM_LINE; r.first = 3; r.second = 0; r.repeats = 1; r.proposals = 3;
    r.loss = 0.5; r.limit = 28; ends_as_runs(r, END(1) | END(2) | END(4), "swept runs: ends 1, 2 and 4");
    r.first = 2; r.proposals = 2;
    r.loss = 0.998; r.limit = 1004; ends_as_runs(r, END(2) | END(3) | END(4), "swept runs: ends 2, 3 and 4");
}

/* Networks of few, some and many nodes, with each topology. */
void test_swept_networks(void)
{
    static const uint64_t sizes[] = {2, 4, 5, 12, 13, 32}, proposals[] = {0, 3, 64};
    static const double losses[] = {0, 0.25, 0.875};
    struct run r = lossy;
    size_t i, k;

    r.repeats = 1; r.limit = 300;
    for (r.topology = 1; r.topology <= 6; r.topology++)
        for (i = 0; i < COUNT(sizes); i++)
            for (k = 0; k < 9; k++) {
                r.first = r.topology == CTSIM_GRID && sizes[i] % 4 == 0 ? sizes[i] / 4 : sizes[i];
                r.second = r.topology == CTSIM_GRID ? sizes[i] / r.first : r.topology == CTSIM_TREE ? 3 : 0;
                r.given = k % 2;
                r.proposals = proposals[k % 3];
                r.loss = losses[k / 3];
                both_as_runs(r, "swept networks: a line");
            }
}

/* Sweeps leave no trace: not in what a run has written, not in a run after them, not in one another. */
static void sweep_no_trace(struct run r)
{
    struct results before;
    uint64_t lines[COUNT(table)];
    struct run other;

    r.seeds = seeds; r.seeds_length = LIST; r.table_length = 7 * LIST; r.rounds_length = 1;
    other = r; other.repeats = 1; other.proposals = 64;
    check(run(&r) == 0, "sweep, no trace: runs");
    keep(&before);
    check(sweep(&r) == 0, "sweep, no trace: sweeps");
    memcpy(lines, table, sizeof lines);
    check(sweep(&other) == 0 && memcmp(lines, table, sizeof lines) != 0, "sweep, no trace: another");
    other.interval = 0; unswept(other, 9, "sweep, no trace: refused");
    check(same(&before), "sweep, no trace: in what was written");
    check(run(&r) == 0 && same(&before), "sweep, no trace: in the run after");
    check(sweep(&r) == 0 && memcmp(lines, table, sizeof lines) == 0, "sweep, no trace: in the sweep after");
}

void test_sweep_no_trace(void)
{
    uint32_t rows[16];
    uint64_t n[1];
    struct run r = lossy;

    sweep_no_trace(r);
    check(ctsim_rows(CTSIM_GRID, 4, 4, rows, 16, n, 1) == 0, "sweep, no trace: rows");
    r.rows = rows; r.rows_length = 16; r.first = n[0];
    sweep_no_trace(r);
}
