/*
 * The tests of both previews: their slices and questions, the rounds of the worked example and of
 * stored lines, and all rounds against the run that they are of.
 */
#include <math.h>
#include <string.h>

#include "check.h"
#include "previews.h"

static uint64_t packet[20], part[4];

/* Marks all places, and looks ahead into those behind the first of each array. */
static uint64_t preview(const struct run *r)
{
    memset(packet, MARK, sizeof packet);
    memset(part, MARK, sizeof part);
    if (r->rows != NULL)
        return ctsim_preview_rows(r->rows, r->rows_length, r->first, r->repeats, r->given,
                                  r->round_slots, r->loss, r->seed, r->proposals, r->interval, r->limit,
                                  r->round, packet + 1, r->packet_length, part + 1, r->part_length);
    return ctsim_preview_topology(r->topology, r->first, r->second, r->repeats, r->given,
                                  r->round_slots, r->loss, r->seed, r->proposals, r->interval, r->limit,
                                  r->round, packet + 1, r->packet_length, part + 1, r->part_length);
}

static void unseen(struct run r, uint64_t number, const char *what)
{
    check(preview(&r) == number, what);
    check(kept(packet, packet + COUNT(packet)) && kept(part, part + COUNT(part)), what);
}

/* A packet, and who takes part. */
struct view {
    uint64_t packet[CTSIM_PACKET_LENGTH], part;
};

static void seen(struct run r, const struct view *want, const char *what)
{
    check(preview(&r) == 0, what);
    check(holds(packet, sizeof packet, 8, want->packet, sizeof want->packet), what);
    check(holds(part, sizeof part, 8, &want->part, 8), what);
}

/* The questions that both previews are asked. */
static void test_preview_questions(struct run good)
{
    struct run r;

    r = good; r.packet_length = 0; unseen(r, CTSIM_SHORT, "preview: no place for the packet, 100");
    r = good; r.packet_length = 12; unseen(r, CTSIM_SHORT, "preview: packet one short, 100");
    r = good; r.part_length = 0; unseen(r, CTSIM_SHORT, "preview: no place for part, 100");
    r = good; r.topology = 0; r.first = 1; r.repeats = 0; r.round = 2;
    r.packet_length = 12; unseen(r, CTSIM_SHORT, "preview: 100 for the packet comes first");
    r.packet_length = 13; r.part_length = 0; unseen(r, CTSIM_SHORT, "preview: 100 for part comes first");
    r = good; r.first = 1; unseen(r, 2, "preview: one node, refused 2");
    r = good; r.first = 33; unseen(r, 2, "preview: 33 nodes, refused 2");
    r = good; r.repeats = 0; unseen(r, 5, "preview: refused 5");
    r = good; r.repeats = 65; unseen(r, 5, "preview: refused 5");
    r = good; r.given = 1; r.round_slots = 4097; unseen(r, 6, "preview: refused 6");
    r = good; r.repeats = 2; r.given = 1; r.round_slots = 1; unseen(r, 16, "preview: refused 16");
    r.proposals = 65; unseen(r, 16, "preview: 16 comes before 8");
    r = good; r.loss = 1.0; unseen(r, 7, "preview: loss 1, refused 7");
    r = good; r.loss = -0.5; unseen(r, 7, "preview: loss below 0, refused 7");
    r = good; r.loss = NAN; unseen(r, 7, "preview: loss is no number, refused 7");
    r = good; r.proposals = 65; unseen(r, 8, "preview: refused 8");
    r = good; r.interval = 0; unseen(r, 9, "preview: refused 9");
    r = good; r.interval = 0; r.round = 2; unseen(r, 9, "preview: 9 comes before 13");
    r = good; r.round = 2; unseen(r, CTSIM_REFUSED_ROUND, "preview: the first round that is not run, 13");
    r = good; r.round = (uint64_t)1 << 32; unseen(r, CTSIM_REFUSED_ROUND, "preview: round 2^32, 13");
    r = good; r.round = UINT64_MAX; unseen(r, CTSIM_REFUSED_ROUND, "preview: the greatest number, 13");
    r = good; r.limit = 0; unseen(r, CTSIM_REFUSED_ROUND, "preview: no round at limit 0, 13");
}

/* Both rounds of the printed run. */
static void test_preview_printed(struct run good)
{
    static const struct view first = {{0, 0, 1, 0, 0, 0, 0, 1, 0, 0, 0, 0, 0}, 7};
    static const struct view second = {{1, 0, 2, 0, 0, 1, 0, 0, 0, 0, 0, 0, 0}, 7};
    struct run r;

    seen(good, &first, "preview: round 0, exact");
    r = good; r.packet_length = 19; r.part_length = 3; seen(r, &first, "preview: round 0, long");
    r.round = 1; seen(r, &second, "preview: round 1, long");
    r = good; r.round = 1; seen(r, &second, "preview: round 1, exact");
    r = good; r.limit = 1; seen(r, &first, "preview: the last round before the limit");
    r.round = 1; unseen(r, CTSIM_REFUSED_ROUND, "preview: the first round behind the limit, 13");
    r = good; r.round_slots = 4097; seen(r, &first, "preview: round slots that are not given are not read");
    r = good; r.given = UINT64_MAX; r.round_slots = 4096; seen(r, &first, "preview: round slots given");
    r = good; r.loss = -0.0; seen(r, &first, "preview: minus zero");
}

void test_previews(void)
{
    static const uint32_t line[] = {2, 5, 2, MARK32};
    static const uint32_t one_way[] = {2, 4, 2};
    struct run good = {
        .topology = CTSIM_LINE, .first = 3, .repeats = 1, .seed = 7, .proposals = 1,
        .interval = 2, .limit = 1000, .packet_length = CTSIM_PACKET_LENGTH, .part_length = 1,
    };
    struct run r;

    test_preview_questions(good);
    test_preview_printed(good);
    r = good; r.topology = 0; unseen(r, 1, "preview of a topology: refused 1");
    r = good; r.second = 1; unseen(r, 3, "preview of a topology: refused 3");
    good.rows = line;
    good.rows_length = 4;
    test_preview_questions(good);
    test_preview_printed(good);
    r = good; r.rows_length = 2; unseen(r, 4, "preview of rows: a row short, refused 4");
    r = good; r.rows = one_way; r.rows_length = 3; unseen(r, 4, "preview of rows: no graph, refused 4");
}

/* The rounds of the worked example of docs/RULES.md: a NACK in round 2, its piggyback in round 3. */
static void worked_rounds(struct run r)
{
    static const struct view worked[] = {
        {{0, 0, 1, 0, 0, 0, 0, 1, 0, 0, 0, 0, 0}, 7},
        {{1, 1, 2, 0, 0, 1, 0, 1, 1, 0, 0, 0, 0}, 3},
        {{2, 2, 4, 1, 1, 1, 0, 1, 2, 0, 0, 0, 0}, 7},
        {{0, 2, 1, 0, 0, 1, 2, 0, 0, 1, 1, 1, 1}, 7},
        {{1, 2, 2, 0, 0, 1, 2, 0, 0, 0, 0, 0, 0}, 7},
    };

    for (r.round = 0; r.round < COUNT(worked); r.round++)
        seen(r, &worked[r.round], "worked example: a round");
    unseen(r, CTSIM_REFUSED_ROUND, "worked example: ended, 13");
}

void test_worked(void)
{
    static const uint32_t line[] = {2, 5, 2};
    struct run r = {
        .topology = CTSIM_LINE, .first = 3, .repeats = 1, .loss = 0.5, .seed = 37, .proposals = 3,
        .interval = 2, .limit = 1000, .packet_length = CTSIM_PACKET_LENGTH, .part_length = 1,
    };

    worked_rounds(r);
    r.rows = line; r.rows_length = 3; worked_rounds(r);
}

/* Rounds of lossy runs, as ctsim itself answers these lines of crates/replay/stdin. */
void test_stored(void)
{
    static const uint32_t two_parts[] = {0x1e, 0x1d, 0x1b, 0x17, 0x0f, 0xc0, 0xa0, 0x60};
    static const struct { struct run run; struct view view; } stored[] = {
        {{.topology = CTSIM_LINE, .first = 31, .repeats = 1, .loss = 0x1.6b2d330fea7c4p-3,
          .seed = UINT64_MAX, .proposals = 38, .interval = 2, .limit = 82, .round = 8},
         {{8, 8, 256, 1, 4, 0, 0, 1, 8, 1, 1, 1, 1}, 0x3fffffff}},
        {{.topology = CTSIM_GRID, .first = 4, .second = 5, .repeats = 2, .loss = 0.5,
          .seed = 11902542435752118818U, .proposals = 64, .interval = 96, .limit = UINT64_MAX, .round = 20},
         {{0, 20, 1, 1, 12, 1, 8, 1, 20, 1, 7, 1, 7}, 0xfffff}},
        {{.topology = CTSIM_GRID, .first = 31, .second = 1, .repeats = 63, .loss = 0x1.53c8f75b29b58p-4,
          .seed = 1, .proposals = 2, .interval = 81, .limit = 996, .round = 10},
         {{10, 1, 0x7fe, 0, 0, 0, 0, 0, 0, 0, 0, 0, 0}, 0x7fffffff}},
        {{.topology = CTSIM_RING, .first = 31, .repeats = 1, .given = 1, .round_slots = 4096,
          .loss = 0x1.ff105551563e4p-3, .seed = 3950852088738776713U, .proposals = 64, .interval = 29,
          .limit = UINT64_MAX, .round = 154},
         {{30, 63, 0x40000000, 0, 0, 1, 63, 0, 0, 1, 63, 1, 63}, 0x703fffff}},
        {{.rows = two_parts, .rows_length = 8, .first = 8, .repeats = 4, .given = 1, .round_slots = 64,
          .loss = 0x1.ea7a330b1894bp-732, .seed = 472668612303294557U, .proposals = 63, .interval = 1,
          .limit = 5000, .round = 145},
         {{1, 62, 2, 1, 61, 1, 60, 0, 0, 0, 0, 0, 0}, 0x1f}},
    };
    size_t i;

    for (i = 0; i < COUNT(stored); i++) {
        struct run r = stored[i].run;

        r.packet_length = CTSIM_PACKET_LENGTH; r.part_length = 1;
        seen(r, &stored[i].view, "stored line: its round");
    }
}

/* How many nodes are in a set. */
static uint64_t size(uint64_t set)
{
    uint64_t n = 0;

    for (; set != 0; set &= set - 1)
        n++;
    return n;
}

/* Each round of a run with this end is seen, and none behind. Together they have the summary's NACKs
 * and nodes that took part, which are as many as the covered ones. */
static void all_rounds(struct run r, uint64_t end, const char *what)
{
    uint64_t rounds = 0, nacks = 0, took_part = 0;

    check(run(&r) == 0 && summary[1 + CTSIM_ENDED] == end, what);
    for (r.round = 0; r.round < summary[1 + CTSIM_ROUNDS]; r.round++) {
        rounds += preview(&r) == 0;
        nacks += packet[1 + CTSIM_PACKET_NACK_GIVEN];
        took_part += size(part[1]);
    }
    check(rounds == summary[1 + CTSIM_ROUNDS], what);
    check(nacks == summary[1 + CTSIM_NACKS] && took_part == summary[1 + CTSIM_TOOK_PART], what);
    check(took_part == summary[1 + CTSIM_COVERED], what);
    unseen(r, CTSIM_REFUSED_ROUND, what);
}

void test_all_rounds(void)
{
    static const uint32_t line[] = {2, 5, 2};
    struct run r = lossy;

    all_rounds(r, 2, "all rounds: a lossy run");
    r.limit = 100; all_rounds(r, 4, "all rounds: up to the limit");
    r.limit = 0; all_rounds(r, 4, "all rounds: none");
    r.limit = 100000; r.round_slots = 2; all_rounds(r, 3, "all rounds: as many slots as repeats");
    r.repeats = 1; r.round_slots = 1; all_rounds(r, 3, "all rounds: rounds of one slot");
    r.given = 0; r.loss = 0; all_rounds(r, 1, "all rounds: nothing lost");
    r.proposals = 0; all_rounds(r, 1, "all rounds: no proposal");
    r = lossy; r.rows = line; r.rows_length = 3; r.first = 3; r.proposals = 64;
    all_rounds(r, 2, "all rounds: rows");
}

/* Previews of a run of 52 rounds leave no trace: not in what a run has written, not in a run after
 * them, not in one another. */
static void no_trace(struct run r)
{
    struct results before;
    uint64_t numbers[COUNT(packet)];

    check(run(&r) == 0, "no trace: runs");
    keep(&before);
    r.round = 3; check(preview(&r) == 0, "no trace: round 3");
    memcpy(numbers, packet, sizeof numbers);
    r.round = 51; check(preview(&r) == 0, "no trace: the last round");
    r.round = 52; check(preview(&r) == CTSIM_REFUSED_ROUND, "no trace: behind the last round");
    check(same(&before), "no trace: in what was written");
    check(run(&r) == 0 && same(&before), "no trace: in the run after");
    r.round = 3; check(preview(&r) == 0, "no trace: round 3 again");
    check(memcmp(numbers, packet, sizeof numbers) == 0, "no trace: in the preview after");
}

void test_no_trace(void)
{
    uint32_t rows[16];
    uint64_t n[1];
    struct run r = lossy;

    no_trace(r);
    check(ctsim_rows(CTSIM_GRID, 4, 4, rows, 16, n, 1) == 0, "no trace: rows");
    r.rows = rows; r.rows_length = 16; r.first = n[0];
    no_trace(r);
}
