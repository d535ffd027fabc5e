/*
 * The tests of archive files: the writer's slices and questions, its bytes against the printed file and
 * against files that are put together here from what a run gives, and where the sections stand. What the
 * check says is tried in damage.c.
 */
#include <math.h>
#include <string.h>

#include "files.h"

/* The bytes that are always enough for a file of these snapshots. */
#define ENOUGH(room) (CTSIM_FILE_LENGTH + 40 * (room))

const struct run printed_run = {
    .topology = CTSIM_LINE, .first = 3, .repeats = 1, .seed = 7, .proposals = 1, .interval = 2,
    .limit = 1000, .summary_length = CTSIM_SUMMARY_LENGTH, .logs_length = CTSIM_LOGS_LENGTH,
    .records_length = CTSIM_RECORDS_LENGTH, .snapshots_length = 15, .file_length = PRINTED_FILE,
    .written_length = 1,
};

/* As docs/ARCHIVE.md prints it: the first byte, the directory, and the sections, a field on each line. */
const uint8_t printed_file[PRINTED_FILE] = {
    0x05,
    0x29, 0x00, 0x00, 0x00, 0x50, 0x00, 0x00, 0x00, /* inputs: 41, 80 */
    0x79, 0x00, 0x00, 0x00, 0x78, 0x00, 0x00, 0x00, /* totals: 121, 120 */
    0xf1, 0x00, 0x00, 0x00, 0x18, 0x00, 0x00, 0x00, /* records: 241, 24 */
    0x09, 0x01, 0x00, 0x00, 0x78, 0x00, 0x00, 0x00, /* snapshots: 265, 120 */
    0x81, 0x01, 0x00, 0x00, 0x20, 0x08, 0x00, 0x00, /* logs: 385, 2,080 */
    0x02, 0x00, 0x00, 0x00, 0x00, 0x00, 0x00, 0x00, /* topology */
    0x03, 0x00, 0x00, 0x00, 0x00, 0x00, 0x00, 0x00, /* first */
    0x00, 0x00, 0x00, 0x00, 0x00, 0x00, 0x00, 0x00, /* second */
    0x01, 0x00, 0x00, 0x00, 0x00, 0x00, 0x00, 0x00, /* repeats */
    0xff, 0xff, 0xff, 0xff, 0xff, 0xff, 0xff, 0xff, /* round slots: absent */
    0x00, 0x00, 0x00, 0x00, 0x00, 0x00, 0x00, 0x00, /* loss rate */
    0x07, 0x00, 0x00, 0x00, 0x00, 0x00, 0x00, 0x00, /* seed */
    0x01, 0x00, 0x00, 0x00, 0x00, 0x00, 0x00, 0x00, /* P */
    0x02, 0x00, 0x00, 0x00, 0x00, 0x00, 0x00, 0x00, /* interval */
    0xe8, 0x03, 0x00, 0x00, 0x00, 0x00, 0x00, 0x00, /* slot limit */
    0x03, 0x00, 0x00, 0x00, 0x00, 0x00, 0x00, 0x00, /* nodes */
    0x02, 0x00, 0x00, 0x00, 0x00, 0x00, 0x00, 0x00, /* rounds */
    0x05, 0x00, 0x00, 0x00, 0x00, 0x00, 0x00, 0x00, /* slots */
    0x01, 0x00, 0x00, 0x00, 0x00, 0x00, 0x00, 0x00, /* ended */
    0x05, 0x00, 0x00, 0x00, 0x00, 0x00, 0x00, 0x00, /* listen */
    0x06, 0x00, 0x00, 0x00, 0x00, 0x00, 0x00, 0x00, /* flood */
    0x04, 0x00, 0x00, 0x00, 0x00, 0x00, 0x00, 0x00, /* sleep */
    0x04, 0x00, 0x00, 0x00, 0x00, 0x00, 0x00, 0x00, /* attempts */
    0x04, 0x00, 0x00, 0x00, 0x00, 0x00, 0x00, 0x00, /* successes */
    0x02, 0x00, 0x00, 0x00, 0x00, 0x00, 0x00, 0x00, /* flood rounds */
    0x06, 0x00, 0x00, 0x00, 0x00, 0x00, 0x00, 0x00, /* flood nodes */
    0x06, 0x00, 0x00, 0x00, 0x00, 0x00, 0x00, 0x00, /* covered */
    0x06, 0x00, 0x00, 0x00, 0x00, 0x00, 0x00, 0x00, /* took part */
    0x00, 0x00, 0x00, 0x00, 0x00, 0x00, 0x00, 0x00, /* NACKs */
    0x00, 0x00, 0x00, 0x00, 0x00, 0x00, 0x00, 0x00, /* piggybacks */
    0x00, 0x00, 0x00, 0x00, 0x00, 0x00, 0x00, 0x00, /* record 0: id */
    0x00, 0x00, 0x00, 0x00, 0x00, 0x00, 0x00, 0x00, /* start */
    0x03, 0x00, 0x00, 0x00, 0x00, 0x00, 0x00, 0x00, /* end */
    0x00, 0x00, 0x00, 0x00, 0x00, 0x00, 0x00, 0x00, /* snapshot 0: slot */
    0x00, 0x00, 0x00, 0x00, 0x00, 0x00, 0x00, 0x00, /* progress */
    0x02, 0x00, 0x00, 0x00, 0x00, 0x00, 0x00, 0x00, /* listening */
    0x01, 0x00, 0x00, 0x00, 0x00, 0x00, 0x00, 0x00, /* flooding */
    0x00, 0x00, 0x00, 0x00, 0x00, 0x00, 0x00, 0x00, /* sleeping */
    0x02, 0x00, 0x00, 0x00, 0x00, 0x00, 0x00, 0x00, /* snapshot 1: slot */
    0x00, 0x00, 0x00, 0x00, 0x00, 0x00, 0x00, 0x00, /* progress */
    0x00, 0x00, 0x00, 0x00, 0x00, 0x00, 0x00, 0x00, /* listening */
    0x01, 0x00, 0x00, 0x00, 0x00, 0x00, 0x00, 0x00, /* flooding */
    0x02, 0x00, 0x00, 0x00, 0x00, 0x00, 0x00, 0x00, /* sleeping */
    0x04, 0x00, 0x00, 0x00, 0x00, 0x00, 0x00, 0x00, /* snapshot 2: slot */
    0x00, 0x00, 0x00, 0x00, 0x00, 0x00, 0x00, 0x00, /* progress */
    0x00, 0x00, 0x00, 0x00, 0x00, 0x00, 0x00, 0x00, /* listening */
    0x02, 0x00, 0x00, 0x00, 0x00, 0x00, 0x00, 0x00, /* flooding */
    0x01, 0x00, 0x00, 0x00, 0x00, 0x00, 0x00, 0x00, /* sleeping */
    [2433] = 0x01, 0x01, 0x01, /* the counts; all else of the logs is 0 */};

uint8_t file[4200];
uint64_t written[4];

/* Files into these places, whatever they hold. */
static uint64_t file_into_held(const struct run *r)
{
    return ctsim_file_topology(r->topology, r->first, r->second, r->repeats, r->given, r->round_slots,
                               r->loss, r->seed, r->proposals, r->interval, r->limit,
                               logs + 8, r->logs_length, records + 1, r->records_length,
                               snapshots + 1, r->snapshots_length, file + 8, r->file_length,
                               written + 1, r->written_length);
}

/* Fills all places with one byte. */
static void fill(int byte)
{
    memset(logs, byte, sizeof logs);
    memset(records, byte, sizeof records);
    memset(snapshots, byte, sizeof snapshots);
    memset(file, byte, sizeof file);
    memset(written, byte, sizeof written);
}

uint64_t file_run(const struct run *r)
{
    fill(MARK);
    return file_into_held(r);
}

void put(uint8_t *at, uint64_t x, size_t size)
{
    for (; size > 0; size--, x >>= 8)
        *at++ = (uint8_t)x;
}

uint64_t take(const uint8_t *at, size_t size)
{
    uint64_t x = 0;

    while (size-- > 0)
        x = x << 8 | at[size];
    return x;
}

size_t put_file(const struct sections *s, uint8_t *out)
{
    size_t at = 41, i;

    out[0] = 5;
    for (i = 0; i < 5; i++) {
        put(out + 1 + 8 * i, at, 4);
        put(out + 5 + 8 * i, s->length[i], 4);
        memcpy(out + at, s->bytes[i], s->length[i]);
        at += s->length[i];
    }
    return at;
}

static void put_all(uint8_t *at, const uint64_t *numbers, size_t count)
{
    size_t i;

    for (i = 0; i < count; i++)
        put(at + 8 * i, numbers[i], 8);
}

/* The logs of so many nodes, with 0 wherever a run has written nothing. */
static void put_logs(uint8_t *at, uint64_t nodes)
{
    uint64_t i;

    memset(at, 0, CTSIM_LOGS_LENGTH);
    for (i = 0; i < nodes; i++) {
        at[2048 + i] = logs[8 + 2048 + i];
        memcpy(at + 64 * i, logs + 8 + 64 * i, at[2048 + i]);
    }
}

/* The file of the run that was just run, put together from its inputs and from what it has written. */
static size_t put_run(const struct run *r, uint8_t *out)
{
    static uint8_t in[80], totals[120], rec[8 * CTSIM_RECORDS_LENGTH], shot[8 * COUNT(snapshots)], log[2080];
    uint64_t inputs[10] = {
        r->topology, r->first, r->second, r->repeats, r->given ? r->round_slots : UINT64_MAX, 0,
        r->seed, r->proposals, r->interval, r->limit,
    };
    size_t recorded = 3 * summary[1 + CTSIM_RECORDS], stored = r->snapshots_length / 5;
    struct sections s = {{in, totals, rec, shot, log}, {80, 120, 0, 0, 2080}};

    memcpy(inputs + 5, &r->loss, 8);
    stored = 5 * (summary[1 + CTSIM_SNAPSHOTS] < stored ? summary[1 + CTSIM_SNAPSHOTS] : stored);
    put_all(in, inputs, 10);
    put_all(totals, summary + 1, 15);
    put_all(rec, records + 1, recorded);
    put_all(shot, snapshots + 1, stored);
    put_logs(log, summary[1 + CTSIM_NODES]);
    s.length[2] = 8 * recorded;
    s.length[3] = 8 * stored;
    return put_file(&s, out);
}

static void unfiled(struct run r, uint64_t number, const char *what)
{
    check(file_run(&r) == number, what);
    check(kept(logs, logs + COUNT(logs)) && kept(records, records + COUNT(records))
          && kept(snapshots, snapshots + COUNT(snapshots)) && kept(file, file + COUNT(file))
          && kept(written, written + COUNT(written)), what);
}

/* Into so many bytes, the run has this file, and leaves what was kept of it. */
static void files_as(struct run r, size_t room, const uint8_t *want, size_t length,
                     const struct results *left, const char *what)
{
    uint64_t bytes = length;

    r.file_length = room;
    check(file_run(&r) == 0, what);
    check(holds(file, sizeof file, 8, want, length), what);
    check(holds(written, sizeof written, 8, &bytes, 8), what);
    check(same(left), what);
}

/* A run files as it runs: with no byte too many, around the bytes that are always enough, and with more. One
 * byte less is refused. The check says yes. Why it ended. */
static uint64_t filed(struct run r, const char *what)
{
    static uint8_t want[COUNT(file)];
    struct results left;
    size_t length, room = r.snapshots_length / 5;

    check(run(&r) == 0, what);
    keep(&left);
    length = put_run(&r, want);
    check(length <= ENOUGH(room), what);
    if (length < ENOUGH(room))
        files_as(r, ENOUGH(room) - 1, want, length, &left, what);
    files_as(r, ENOUGH(room), want, length, &left, what);
    files_as(r, ENOUGH(room) + 1, want, length, &left, what);
    r.file_length = length - 1; unfiled(r, CTSIM_REFUSED_FILE, what);
    r.file_length = 0; unfiled(r, CTSIM_REFUSED_FILE, what);
    files_as(r, length, want, length, &left, what);
    check(ctsim_file_check(file + 8, length) == 0, what);
    return summary[1 + CTSIM_ENDED];
}

/* Each field of the printed file, and its bits of minus zero. */
static void test_printed_file(void)
{
    struct run r = printed_run;
    size_t at;

    check(file_run(&r) == 0 && written[1] == PRINTED_FILE, "printed file: written");
    check(file[8] == printed_file[0], "printed file: first byte");
    for (at = 1; at < PRINTED_FILE; at += 8)
        check(memcmp(file + 8 + at, printed_file + at, 8) == 0, "printed file: a field");
    check(holds(file, sizeof file, 8, printed_file, PRINTED_FILE), "printed file: whole");
    filed(r, "printed file: as the run");
    r.loss = -0.0; filed(r, "minus zero: as the run");
    check(take(file + 8 + 81, 8) == (uint64_t)1 << 63, "minus zero: its bits");
    file[8 + 88] = 0;
    check(memcmp(file + 8, printed_file, PRINTED_FILE) == 0, "minus zero: nothing else");
}

/* What the lent places hold does not get into the file. */
static void test_lent(void)
{
    static const int bytes[] = {0, 1, 0x40, 0x7f, 0xff};
    size_t i;

    for (i = 0; i < COUNT(bytes); i++) {
        fill(bytes[i]);
        check(file_into_held(&printed_run) == 0, "lent places: files");
        check(memcmp(file + 8, printed_file, PRINTED_FILE) == 0, "lent places: the same file");
        check(file[7] == bytes[i] && file[8 + PRINTED_FILE] == bytes[i], "lent places: around the file");
    }
}

/* Every length of the snapshots, and longer slices than needed. */
static void test_file_slices(void)
{
    struct run r = printed_run;
    size_t room;

    for (r.snapshots_length = 0; r.snapshots_length <= 31; r.snapshots_length++) {
        filed(r, "file: room for snapshots");
        room = r.snapshots_length / 5 < 3 ? r.snapshots_length / 5 : 3;
        check(written[1] == 2345 + 40 * room, "file: its length");
    }
    r.logs_length = 2088; r.records_length = 199; r.written_length = 3; filed(r, "file: slices long");
    r.given = 1; r.round_slots = 4096; filed(r, "file: round slots given");
    r.given = UINT64_MAX; filed(r, "file: round slots given by another number");
    r.given = 0; r.round_slots = 4097; filed(r, "file: round slots that are not given are not read");
    r.seed = r.limit = r.interval = UINT64_MAX; filed(r, "file: the greatest numbers");
}

static void test_file_questions(void)
{
    struct run good = printed_run, r;

    r = good; r.written_length = 0; unfiled(r, CTSIM_SHORT, "file: no place for its length, 100");
    r = good; r.topology = 0; unfiled(r, 1, "file: refused 1");
    r = good; r.topology = 7; unfiled(r, 1, "file: refused 1");
    r = good; r.first = 1; unfiled(r, 2, "file: one node, refused 2");
    r = good; r.first = 33; unfiled(r, 2, "file: 33 nodes, refused 2");
    r = good; r.topology = CTSIM_GRID; unfiled(r, 2, "file: no columns, refused 2");
    r = good; r.second = 1; unfiled(r, 3, "file: refused 3");
    r = good; r.topology = CTSIM_TREE; r.second = 33; unfiled(r, 3, "file: tree refused 3");
    r = good; r.repeats = 0; unfiled(r, 5, "file: refused 5");
    r = good; r.repeats = 65; unfiled(r, 5, "file: refused 5");
    r = good; r.given = 1; r.round_slots = 4097; unfiled(r, 6, "file: refused 6");
    r = good; r.given = 1; r.round_slots = UINT64_MAX; unfiled(r, 6, "file: refused 6, and not absent");
    r = good; r.given = 1; unfiled(r, 16, "file: round slots 0, refused 16");
    r.repeats = 64; r.round_slots = 63; unfiled(r, 16, "file: one below the repeats, refused 16");
    r = good; r.loss = 1.0; unfiled(r, 7, "file: loss 1, refused 7");
    r = good; r.loss = -0.5; unfiled(r, 7, "file: loss below 0, refused 7");
    r = good; r.loss = NAN; unfiled(r, 7, "file: loss is no number, refused 7");
    r = good; r.proposals = 65; unfiled(r, 8, "file: refused 8");
    r = good; r.interval = 0; unfiled(r, 9, "file: refused 9");
    r = good; r.logs_length = 2079; unfiled(r, 10, "file: logs one short, refused 10");
    r = good; r.records_length = 191; unfiled(r, 10, "file: records one short, refused 10");
    r = good; r.logs_length = r.records_length = 0; unfiled(r, 10, "file: none of both, refused 10");
    r = good; r.file_length--; unfiled(r, 18, "file: one byte short, refused 18");
    r = good; r.file_length = 0; unfiled(r, 18, "file: no byte, refused 18");
}

/* Everything is wrong, and put right one after the other. */
static void test_file_order(void)
{
    struct run r = {
        .topology = 7, .first = 33, .second = 1, .given = 1, .round_slots = 4097, .loss = 1, .proposals = 65,
        .summary_length = CTSIM_SUMMARY_LENGTH,
    };

    unfiled(r, CTSIM_SHORT, "file in order: 100");
    r.written_length = 1; unfiled(r, 1, "file in order: 1");
    r.topology = CTSIM_LINE; unfiled(r, 2, "file in order: 2");
    r.first = 3; unfiled(r, 3, "file in order: 3");
    r.second = 0; unfiled(r, 5, "file in order: 5");
    r.repeats = 64; unfiled(r, 6, "file in order: 6");
    r.round_slots = 63; unfiled(r, 16, "file in order: 16");
    r.round_slots = 64; unfiled(r, 7, "file in order: 7");
    r.loss = 0; unfiled(r, 8, "file in order: 8");
    r.proposals = 64; unfiled(r, 9, "file in order: 9");
    r.interval = 1; unfiled(r, 10, "file in order: 10");
    r.logs_length = CTSIM_LOGS_LENGTH; unfiled(r, 10, "file in order: 10 still");
    r.records_length = CTSIM_RECORDS_LENGTH; unfiled(r, 18, "file in order: 18");
    r.file_length = LEAST_FILE - 1; unfiled(r, 18, "file in order: 18 still");
    r.limit = 0; r.file_length = LEAST_FILE;
    check(file_run(&r) == 0 && written[1] == LEAST_FILE, "file in order: done");
}

/* Runs with each end, as in sweeps.c, and with NACKs, piggybacks and records of every term. */
static void test_filed_ends(void)
{
    struct run r = lossy;

    r.written_length = 1; r.snapshots_length = 31;
    check(filed(r, "filed ends: lossy") == 2, "filed ends: 2");
    r.limit = 100; check(filed(r, "filed ends: up to the limit") == 4, "filed ends: 4");
    r.limit = 1; check(filed(r, "filed ends: one round") == 4, "filed ends: 4");
    r.limit = 0; check(filed(r, "filed ends: none") == 4, "filed ends: 4");
    check(written[1] == LEAST_FILE, "filed ends: the least file");
    r.limit = 100000; r.round_slots = 2; check(filed(r, "filed ends: short rounds") == 3, "filed ends: 3");
    r.given = 0; r.loss = 0; check(filed(r, "filed ends: nothing lost") == 1, "filed ends: 1");
    r.proposals = 64; check(filed(r, "filed ends: the most proposals") == 1, "filed ends: 1");
    check(written[1] == ENOUGH(6), "filed ends: the most bytes");
    r.proposals = 0; check(filed(r, "filed ends: no proposal") == 1, "filed ends: 1");
    r.loss = 0.99999999999999989; check(filed(r, "filed ends: the most loss") == 1, "filed ends: 1");
}

/* Networks of few, some and many nodes, with each topology. */
static void test_filed_networks(void)
{
    static const uint64_t sizes[] = {2, 4, 5, 12, 13, 32}, proposals[] = {0, 3, 64};
    static const double losses[] = {0, 0.25, 0.875};
    struct run r = lossy;
    size_t i, k;

    r.repeats = 1; r.limit = 300; r.written_length = 1; r.snapshots_length = 29;
    for (r.topology = 1; r.topology <= 6; r.topology++)
        for (i = 0; i < COUNT(sizes); i++)
            for (k = 0; k < 9; k++) {
                r.first = r.topology == CTSIM_GRID && sizes[i] % 4 == 0 ? sizes[i] / 4 : sizes[i];
                r.second = r.topology == CTSIM_GRID ? sizes[i] / r.first : r.topology == CTSIM_TREE ? 3 : 0;
                r.given = k % 2;
                r.proposals = proposals[k % 3];
                r.loss = losses[k / 3];
                r.seed = 9 * i + k;
                filed(r, "filed networks: a file");
            }
}

/* The sections of a file, into a slice of this length. */
static void parts_give(const uint8_t *bytes, size_t length, size_t parts_length, uint64_t result,
                       const uint64_t *want, const char *what)
{
    uint64_t parts[14];

    memset(parts, MARK, sizeof parts);
    check(ctsim_file_sections(bytes, length, parts + 1, parts_length) == result, what);
    check(holds(parts, sizeof parts, 8, want, result == 0 ? 80 : 0), what);
}

static void test_sections(void)
{
    static const uint64_t want[] = {41, 80, 121, 120, 241, 24, 265, 120, 385, 2080};
    static const uint64_t least[] = {41, 80, 121, 120, 241, 0, 241, 0, 241, 2080};
    const uint8_t *good = printed_file;
    struct run r = printed_run;
    size_t i;

    parts_give(good, PRINTED_FILE, 10, 0, want, "sections: exact");
    parts_give(good, PRINTED_FILE, 12, 0, want, "sections: long");
    for (i = 0; i < 10; i++)
        parts_give(good, PRINTED_FILE, i, CTSIM_SHORT, want, "sections: too short, 100");
    parts_give(good, PRINTED_FILE - 1, 10, 17, want, "sections: a byte short, 17");
    parts_give(good, 0, 10, 17, want, "sections: no byte, 17");
    parts_give(good, 0, 9, CTSIM_SHORT, want, "sections: 100 comes first");
    r.limit = 0;
    check(file_run(&r) == 0, "sections: the least file");
    parts_give(file + 8, LEAST_FILE, 10, 0, least, "sections: of the least file");
    memset(file + 8 + 41, 0xff, LEAST_FILE - 41);
    parts_give(file + 8, LEAST_FILE, 10, 0, least, "sections: what they hold is not looked at");
}

void test_files(void)
{
    test_printed_file();
    test_lent();
    test_file_slices();
    test_file_questions();
    test_file_order();
    test_filed_ends();
    test_filed_networks();
    test_sections();
    test_damage();
}
