/*
 * Calls each entry of include/ctsim.h with slices that are empty, short, exact and long, and checks
 * the result, what was written and that every other place still holds its mark. The tests of the
 * previews are in previews.c, those of the writer and the reader of a packet's text in packets.c and
 * texts.c, those of the sweeps in sweeps.c, those of the validity in validity.c, those of archive files in
 * files.c and damage.c and those of two such files in pairs.c. tests/capi.sh builds all into one program and
 * runs it.
 */
#include <math.h>
#include <string.h>

#include "check.h"
#include "files.h"
#include "packets.h"
#include "pairs.h"
#include "previews.h"
#include "sweeps.h"
#include "texts.h"
#include "validity.h"

static void test_draws(void)
{
    /* the first nine draws of seed 7: one block of eight, and one of the next */
    static const uint64_t seven[] = {
        0x2865533423d743bbU, 0x2b0159d32e9b293aU, 0xb44b70b945249531U,
        0xba0bb7b6093e3ae3U, 0x99ec1c5f1237db88U, 0x5bff4da3cf99fe26U,
        0x1543639f3df5b89bU, 0xd96b0f63416f0a7eU, 0x5d4d854a5c0fa8cdU,
    };
    uint64_t out[12];
    size_t n;

    for (n = 0; n <= COUNT(seven); n++) {
        memset(out, MARK, sizeof out);
        check(ctsim_draws(7, out + 1, n) == 0, "draws: result");
        check(holds(out, sizeof out, 8, seven, 8 * n), "draws: that many, and no more");
    }
}

/* Rows into a slice of this length, and the number of nodes into one of that. */
static void rows_give(uint64_t topology, uint64_t first, uint64_t second, size_t length,
                      size_t nodes_length, uint64_t result, uint64_t n, const uint32_t *want,
                      const char *what)
{
    uint32_t rows[40];
    uint64_t nodes[4];

    memset(rows, MARK, sizeof rows);
    memset(nodes, MARK, sizeof nodes);
    check(ctsim_rows(topology, first, second, rows + 2, length, nodes + 1, nodes_length) == result, what);
    check(holds(rows, sizeof rows, 8, want, 4 * n), what);
    check(holds(nodes, sizeof nodes, 8, &n, result == 0 ? 8 : 0), what);
}

static void test_rows(void)
{
    static const uint32_t line[] = {2, 5, 10, 20, 8};
    static const uint32_t ring[] = {18, 5, 10, 20, 9};
    static const uint32_t grid[] = {10, 21, 34, 17, 42, 20};
    static const uint32_t tree[] = {6, 25, 97, 2, 2, 4, 4};
    static const uint32_t mesh[] = {6, 5, 3};
    static const uint32_t star[] = {14, 1, 1, 1};

    rows_give(CTSIM_LINE, 5, 0, 5, 1, 0, 5, line, "rows: exact");
    rows_give(CTSIM_LINE, 5, 0, 36, 3, 0, 5, line, "rows: long");
    rows_give(CTSIM_RING, 5, 0, 5, 1, 0, 5, ring, "rows: ring");
    rows_give(CTSIM_GRID, 2, 3, 6, 1, 0, 6, grid, "rows: grid");
    rows_give(CTSIM_TREE, 7, 2, 7, 1, 0, 7, tree, "rows: tree");
    rows_give(CTSIM_FULL_MESH, 3, 0, 3, 1, 0, 3, mesh, "rows: full mesh");
    rows_give(CTSIM_STAR, 4, 0, 4, 1, 0, 4, star, "rows: star");
    rows_give(7, 5, 0, 36, 1, 1, 0, line, "rows: refused 1");
    rows_give(CTSIM_LINE, 33, 0, 36, 1, 2, 0, line, "rows: refused 2");
    rows_give(CTSIM_GRID, 1, 1, 36, 1, 2, 0, line, "rows: grid refused 2");
    rows_give(CTSIM_LINE, 5, 1, 36, 1, 3, 0, line, "rows: refused 3");
    rows_give(CTSIM_TREE, 5, 33, 36, 1, 3, 0, line, "rows: tree refused 3");
    rows_give(CTSIM_LINE, 5, 0, 4, 1, 10, 0, line, "rows: one short, refused 10");
    rows_give(CTSIM_LINE, 5, 0, 0, 1, 10, 0, line, "rows: empty, refused 10");
    rows_give(CTSIM_LINE, 5, 0, 36, 0, CTSIM_SHORT, 0, line, "rows: no place for nodes, 100");
    rows_give(7, 33, 1, 0, 0, CTSIM_SHORT, 0, line, "rows: 100 comes first");
}

/* The diameter into a slice of this length. */
static void diameter_gives(const uint32_t *rows, size_t rows_length, uint64_t n, size_t length,
                           uint64_t result, uint64_t want, const char *what)
{
    uint64_t links[4];

    memset(links, MARK, sizeof links);
    check(ctsim_diameter(rows, rows_length, n, links + 1, length) == result, what);
    check(holds(links, sizeof links, 8, &want, result == 0 ? 8 : 0), what);
}

static void test_diameter(void)
{
    static const uint32_t line[] = {2, 5, 10, 20, 8};
    static const uint32_t apart[] = {2, 1, 8, 4, MARK32};
    static const uint32_t own[] = {1, 0};
    static const uint32_t one_way[] = {2, 0};
    static const uint32_t beyond[] = {6, 1};

    diameter_gives(line, 5, 5, 1, 0, 4, "diameter: exact");
    diameter_gives(line, 5, 5, 3, 0, 4, "diameter: long");
    diameter_gives(apart, 5, 4, 1, 0, 1, "diameter: two pairs, rows beyond n are not read");
    diameter_gives(line, 5, 1, 1, 2, 0, "diameter: refused 2");
    diameter_gives(line, 5, 33, 1, 2, 0, "diameter: refused 2");
    diameter_gives(line, 4, 5, 1, 4, 0, "diameter: a row short, refused 4");
    diameter_gives(own, 2, 2, 1, 4, 0, "diameter: own bit, refused 4");
    diameter_gives(one_way, 2, 2, 1, 4, 0, "diameter: one way, refused 4");
    diameter_gives(beyond, 2, 2, 1, 4, 0, "diameter: no such node, refused 4");
    diameter_gives(line, 5, 5, 0, CTSIM_SHORT, 0, "diameter: empty, 100");
    diameter_gives(line, 0, 0, 0, CTSIM_SHORT, 0, "diameter: 100 comes first");
}

/* The ratio into a slice of this length. */
static void ratio_gives(uint64_t part, uint64_t whole, size_t length, uint64_t result, double want,
                        const char *what)
{
    double out[4];

    memset(out, MARK, sizeof out);
    check(ctsim_ratio(part, whole, out + 1, length) == result, what);
    check(holds(out, sizeof out, 8, &want, result == 0 ? 8 : 0), what);
}

static void test_ratio(void)
{
    const uint64_t most = (uint64_t)1 << 53;

    ratio_gives(1, 3, 1, 0, 1.0 / 3.0, "ratio: exact");
    ratio_gives(1, 3, 3, 0, 1.0 / 3.0, "ratio: long");
    ratio_gives(0, 5, 1, 0, 0.0, "ratio: of nothing");
    ratio_gives(most, most, 1, 0, 1.0, "ratio: 2^53");
    ratio_gives(5, 0, 1, CTSIM_NO_RATIO, 0, "ratio: none, 101");
    ratio_gives(most + 1, 0, 1, 11, 0, "ratio: refused 11");
    ratio_gives(1, most + 1, 1, 11, 0, "ratio: refused 11");
    ratio_gives(1, 3, 0, CTSIM_SHORT, 0, "ratio: empty, 100");
    ratio_gives(most + 1, 0, 0, CTSIM_SHORT, 0, "ratio: 100 comes first");
}

/* Both ratios of a summary of this length, into a slice of this length. */
static void ratios_give(const uint64_t *of, size_t of_length, size_t length, uint64_t result,
                        double pdr, double coverage, const char *what)
{
    double out[4];

    memset(out, MARK, sizeof out);
    check(ctsim_link_pdr(of, of_length, out + 1, length) == result, what);
    check(holds(out, sizeof out, 8, &pdr, result == 0 ? 8 : 0), what);
    memset(out, MARK, sizeof out);
    check(ctsim_flood_coverage(of, of_length, out + 1, length) == result, what);
    check(holds(out, sizeof out, 8, &coverage, result == 0 ? 8 : 0), what);
}

static void test_ratios(void)
{
    uint64_t of[CTSIM_SUMMARY_LENGTH] = { 3, 5, 13, 1, 14, 14, 11, 10, 9, 5, 15, 14, 13, 1, 2, 3, 7 };
    const size_t all = COUNT(of);

    ratios_give(of, all, 1, 0, 0.9, 14.0 / 15.0, "ratios: of a summary");
    ratios_give(of, all, 3, 0, 0.9, 14.0 / 15.0, "ratios: long");
    ratios_give(of, all - 1, 1, CTSIM_SHORT, 0, 0, "ratios: summary one short, 100");
    ratios_give(of, all, 0, CTSIM_SHORT, 0, 0, "ratios: empty, 100");
    of[CTSIM_ATTEMPTS] = 0;
    of[CTSIM_FLOOD_NODES] = 0;
    ratios_give(of, all, 1, CTSIM_NO_RATIO, 0, 0, "ratios: none, 101");
    of[CTSIM_SUCCESSES] = ((uint64_t)1 << 53) + 1;
    of[CTSIM_COVERED] = ((uint64_t)1 << 53) + 1;
    ratios_give(of, all, 1, 11, 0, 0, "ratios: refused 11");
}

static void refused(struct run r, uint64_t number, const char *what)
{
    check(run(&r) == number, what);
    check(kept(summary, summary + COUNT(summary)) && kept(logs, logs + COUNT(logs))
          && kept(records, records + COUNT(records)) && kept(snapshots, snapshots + COUNT(snapshots)), what);
}

/* The printed run, whose slices are as long as r says, at least as long as needed. */
static void printed(struct run r, const char *what)
{
    static const uint64_t numbers[] = {3, 2, 5, 1, 5, 6, 4, 4, 4, 2, 6, 6, 6, 0, 0, 1, 3};
    static const uint64_t record[] = {0, 0, 3};
    static const uint64_t shots[] = {0, 0, 2, 1, 0, 2, 0, 0, 1, 2, 4, 0, 0, 2, 1};
    size_t fit = r.snapshots_length / 5 < 3 ? r.snapshots_length / 5 : 3;
    uint8_t log[COUNT(logs)];
    size_t i;

    memset(log, MARK, sizeof log);
    for (i = 0; i < 3; i++) {
        log[8 + 64 * i] = 0;
        log[8 + 2048 + i] = 1;
    }
    check(run(&r) == 0, what);
    check(holds(summary, sizeof summary, 8, numbers, sizeof numbers), what);
    check(memcmp(logs, log, sizeof log) == 0, what);
    check(holds(records, sizeof records, 8, record, sizeof record), what);
    check(holds(snapshots, sizeof snapshots, 8, shots, 8 * 5 * fit), what);
}

/* The questions that both runs are asked. */
static void test_questions(struct run good)
{
    struct run r;

    r = good; r.summary_length--; refused(r, CTSIM_SHORT, "run: summary one short, 100");
    r = good; r.summary_length = 0; r.repeats = 0; refused(r, CTSIM_SHORT, "run: 100 comes first");
    r = good; r.repeats = 0; refused(r, 5, "run: refused 5");
    r = good; r.repeats = 65; refused(r, 5, "run: refused 5");
    r = good; r.given = 1; r.round_slots = 4097; refused(r, 6, "run: refused 6");
    r = good; r.given = 1; refused(r, 16, "run: round slots 0, refused 16");
    r.repeats = 64; r.round_slots = 63; refused(r, 16, "run: one below the repeats, refused 16");
    r.loss = 1.0; refused(r, 16, "run: 16 comes before 7");
    r.repeats = 65; refused(r, 5, "run: 5 comes before 16");
    r = good; r.loss = 1.0; refused(r, 7, "run: loss 1, refused 7");
    r = good; r.loss = -0.5; refused(r, 7, "run: loss below 0, refused 7");
    r = good; r.loss = NAN; refused(r, 7, "run: loss is no number, refused 7");
    r = good; r.proposals = 65; refused(r, 8, "run: refused 8");
    r = good; r.interval = 0; refused(r, 9, "run: refused 9");
    r = good; r.logs_length = 2079; refused(r, 10, "run: logs one short, refused 10");
    r = good; r.records_length = 191; refused(r, 10, "run: records one short, refused 10");
    r = good; r.first = 1; refused(r, 2, "run: one node, refused 2");
    printed(good, "run: exact");
    r = good; r.summary_length = 19; r.logs_length = 2088; r.records_length = 199;
    r.snapshots_length = 31; printed(r, "run: long");
    r = good; r.snapshots_length = 14; printed(r, "run: two snapshots fit");
    r = good; r.snapshots_length = 0; printed(r, "run: no snapshot fits");
    r = good; r.round_slots = 4097; printed(r, "run: round slots that are not given are not read");
    r = good; r.given = UINT64_MAX; r.round_slots = 4096; printed(r, "run: round slots given");
    r = good; r.loss = -0.0; printed(r, "run: minus zero");
}

static void test_runs(void)
{
    static const uint32_t line[] = {2, 5, 2};
    static const uint32_t one_way[] = {2, 4, 2};
    struct run good = {
        .topology = CTSIM_LINE, .first = 3, .repeats = 1, .seed = 7, .proposals = 1,
        .interval = 2, .limit = 1000, .summary_length = CTSIM_SUMMARY_LENGTH,
        .logs_length = CTSIM_LOGS_LENGTH, .records_length = CTSIM_RECORDS_LENGTH,
        .snapshots_length = 15,
    };
    struct run r;

    test_questions(good);
    r = good; r.topology = 0; refused(r, 1, "run of a topology: refused 1");
    r = good; r.second = 1; refused(r, 3, "run of a topology: refused 3");
    good.rows = line;
    good.rows_length = 3;
    test_questions(good);
    r = good; r.rows_length = 2; refused(r, 4, "run of rows: a row short, refused 4");
    r = good; r.rows = one_way; refused(r, 4, "run of rows: no graph, refused 4");
}

/* A topology and its rows come to the same run, and to these numbers. */
static void test_loss(void)
{
    static const uint64_t numbers[] = {16, 52, 251, 2, 2759, 849, 408, 1150, 564, 52, 832, 359, 359, 24, 53};
    struct results first;
    uint64_t n[1];
    uint32_t rows[32];
    struct run r = lossy;

    check(run(&r) == 0, "loss: runs");
    check(memcmp(summary + 1, numbers, sizeof numbers) == 0, "loss: the summary");
    keep(&first);
    check(ctsim_rows(CTSIM_GRID, 4, 4, rows, 32, n, 1) == 0 && n[0] == 16, "loss: rows");
    r.rows = rows; r.rows_length = 32; r.first = n[0];
    check(run(&r) == 0, "loss: runs by rows");
    check(same(&first), "loss: the same run");
}

int main(void)
{
    test_draws();
    test_rows();
    test_diameter();
    test_ratio();
    test_ratios();
    test_runs();
    test_loss();
    test_previews();
    test_worked();
    test_stored();
    test_all_rounds();
    test_no_trace();
    test_printed_texts();
    test_text_slices();
    test_text_rules();
    test_no_packets();
    test_all_terms();
    test_all_data();
    test_all_flags();
    test_run_packets();
    test_damaged();
    test_fields();
    test_values();
    test_sweeps();
    test_sweep_order();
    test_most_seeds();
    test_swept_runs();
    test_swept_networks();
    test_sweep_no_trace();
    test_validity();
    test_short_rounds();
    test_validity_of_runs();
    test_files();
    test_pairs();
    return report();
}
