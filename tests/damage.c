/*
 * The tests of the check of archive files: every bit of two files, files that are cut or longer, sections with
 * an entry more or less, directories that wrap, files of few bytes, and a large one in little stack.
 */
#define _DEFAULT_SOURCE /* threads and maps beside C99 */
#include <pthread.h>
#include <stdlib.h>
#include <string.h>
#include <sys/mman.h>
#include <time.h>

#include "files.h"

/* How many bytes can be written before the edge, and are guarded behind it. */
#define SPAN 65536

/* The large file: how many snapshots, how many more than its run has, and in how little stack it is checked. */
#define MANY 150000
#define MORE 500000
#define STACK (400 * 1024)

/* The end of bytes behind which none can be read. */
static uint8_t *edge;

uint8_t *make_edge(void)
{
    void *map = mmap(NULL, 2 * SPAN, PROT_READ | PROT_WRITE, MAP_PRIVATE | MAP_ANONYMOUS, -1, 0);

    if (map == MAP_FAILED || mprotect((uint8_t *)map + SPAN, SPAN, PROT_NONE) != 0)
        abort();
    return (uint8_t *)map + SPAN;
}

/* What the check says of a file whose end is the edge. The sections are refused exactly where it says 17, and
 * the file stays as it is. */
static uint64_t answer(const uint8_t *bytes, size_t length)
{
    uint8_t *at = edge - length;
    uint64_t parts[CTSIM_PARTS_LENGTH], told, found;

    memcpy(at, bytes, length);
    told = ctsim_file_check(at, length);
    found = ctsim_file_sections(at, length, parts, COUNT(parts));
    check(found == (told == CTSIM_REFUSED_LAYOUT ? told : 0), "check: as the sections");
    check(memcmp(at, bytes, length) == 0, "check: writes nothing");
    return told;
}

size_t right_file(struct run r, uint64_t limit, size_t room, uint8_t *out)
{
    r.limit = limit; r.snapshots_length = 5 * room;
    r.file_length = COUNT(file) - 16; r.written_length = 1;
    check(file_run(&r) == 0, "right file: files");
    memcpy(out, file + 8, written[1]);
    check(ctsim_file_check(out, written[1]) == 0, "right file: yes");
    return written[1];
}

/* The run that a file's first section asks for, with room for as many snapshots as the file has. */
static struct run inputs_of(const uint8_t *bytes)
{
    struct run r = printed_run;
    uint64_t in[10];
    size_t k;

    for (k = 0; k < 10; k++)
        in[k] = take(bytes + 41 + 8 * k, 8);
    r.topology = in[0]; r.first = in[1]; r.second = in[2]; r.repeats = in[3];
    r.given = in[4] != UINT64_MAX; r.round_slots = in[4];
    memcpy(&r.loss, in + 5, 8);
    r.seed = in[6]; r.proposals = in[7]; r.interval = in[8]; r.limit = in[9];
    r.snapshots_length = take(bytes + 29, 4) / 8;
    r.file_length = COUNT(file) - 16;
    return r;
}

/* What the check is to say of a file of right layout: yes if its inputs give the same file again. */
static uint64_t remade(const uint8_t *bytes, size_t length)
{
    struct run r = inputs_of(bytes);

    if (file_run(&r) != 0 || written[1] != length)
        return CTSIM_NO;
    return memcmp(file + 8, bytes, length) == 0 ? 0 : CTSIM_NO;
}

/* Every single bit is flipped. How many of these files are right, all by other inputs. */
static unsigned flip_all(const uint8_t *right, size_t length)
{
    static uint8_t changed[COUNT(file)];
    unsigned yes = 0;
    size_t bit;

    for (bit = 0; bit < 8 * length; bit++) {
        size_t at = bit / 8;
        uint64_t want;

        memcpy(changed, right, length);
        changed[at] ^= (uint8_t)(1U << bit % 8);
        want = at < 41 ? CTSIM_REFUSED_LAYOUT : at < 121 ? remade(changed, length) : CTSIM_NO;
        check(answer(changed, length) == want, "flipped bit: the answer");
        yes += want == 0;
    }
    return yes;
}

/* The printed file with another input k, behind which all else stays. */
static void input_gives(size_t k, uint64_t x, uint64_t want, const char *what)
{
    uint8_t changed[PRINTED_FILE];

    memcpy(changed, printed_file, PRINTED_FILE);
    put(changed + 41 + 8 * k, x, 8);
    check(remade(changed, PRINTED_FILE) == want, what);
    check(answer(changed, PRINTED_FILE) == want, what);
}

/* What docs/ARCHIVE.md says of this file with other inputs, and inputs that no run has. */
static void test_other_inputs(void)
{
    uint64_t x;

    for (x = 0; x <= 5000; x++) {
        input_gives(4, x, x >= 3 && x <= 4096 ? 0 : CTSIM_NO, "other inputs: round slots");
        input_gives(6, x * x * x, 0, "other inputs: any seed");
        input_gives(9, x, x >= 4 ? 0 : CTSIM_NO, "other inputs: slot limit");
    }
    input_gives(5, (uint64_t)1 << 63, 0, "other inputs: minus zero");
    input_gives(5, 0x3ff0000000000000, CTSIM_NO, "other inputs: loss rate 1, no");
    input_gives(5, 0x7ff0000000000000, CTSIM_NO, "other inputs: loss rate without end, no");
    input_gives(5, 0xffffffffffffffff, CTSIM_NO, "other inputs: loss rate that is no number, no");
    for (x = 0; x < 10; x++)
        input_gives(x, 0x0123456789abcdef, x == 5 || x == 6 || x == 9 ? 0 : CTSIM_NO,
                    "other inputs: a large one");
}

/* Some bytes behind the first section are changed, to any others. */
static void change_some(const uint8_t *right, size_t length)
{
    static uint8_t changed[COUNT(file)];
    uint64_t draws[9];
    unsigned i, k;

    for (i = 0; i < 2000; i++) {
        memcpy(changed, right, length);
        ctsim_draws(i, draws, COUNT(draws));
        for (k = 0; k < 2 + i % 7; k++)
            changed[121 + draws[k] % (length - 121)] ^= (uint8_t)(1 + (draws[k] >> 32) % 255);
        check(answer(changed, length) == (memcmp(changed, right, length) == 0 ? 0 : CTSIM_NO),
              "changed bytes: no");
    }
}

/* Cut at every length, and longer by 1 to 64 bytes. */
static void cut_and_lengthen(const uint8_t *right, size_t length)
{
    static uint8_t longer[COUNT(file)];
    size_t n;

    for (n = 0; n < length; n++)
        check(answer(right, n) == CTSIM_REFUSED_LAYOUT, "cut file: 17");
    for (n = 1; n <= 64; n++) {
        memset(longer, n % 2 ? 0 : MARK, sizeof longer);
        memcpy(longer, right, length);
        check(answer(longer, length + n) == CTSIM_REFUSED_LAYOUT, "longer file: 17");
    }
}

/* Each number of the directory is another one. */
static void change_directory(const uint8_t *right, size_t length)
{
    static const uint64_t other[] = {
        0, 1, 24, 40, 41, 80, 120, 121, 2080, 0x7fffffff, 0x80000000, 0xfffffff0, 0xffffffff,
    };
    static uint8_t changed[COUNT(file)];
    size_t at, i;

    for (at = 1; at < 41; at += 4)
        for (i = 0; i < COUNT(other); i++) {
            memcpy(changed, right, length);
            put(changed + at, other[i], 4);
            check(answer(changed, length) == (take(right + at, 4) == other[i] ? 0 : CTSIM_REFUSED_LAYOUT),
                  "directory: another number, 17");
        }
}

/* A file of these sections has this answer. */
static void sections_give(struct sections s, uint64_t want, const char *what)
{
    static uint8_t out[8192];
    size_t length = put_file(&s, out);

    check(answer(out, length) == want, what);
}

/* One section has so many bytes more: zeros, or its own last ones once more. */
static void give_more(struct sections s, size_t i, size_t more, uint64_t want, const char *what)
{
    static uint8_t longer[4096];

    memset(longer, 0, sizeof longer);
    memcpy(longer, s.bytes[i], s.length[i]);
    s.bytes[i] = longer;
    s.length[i] += more;
    sections_give(s, want, what);
    if (s.length[i] >= 2 * more)
        memcpy(longer + s.length[i] - more, longer + s.length[i] - 2 * more, more);
    sections_give(s, want, what);
}

/* One section has so many bytes less at its end. */
static void give_less(struct sections s, size_t i, size_t less, uint64_t want, const char *what)
{
    s.length[i] -= less;
    sections_give(s, want, what);
}

struct sections split(const uint8_t *bytes)
{
    struct sections s;
    size_t i;

    for (i = 0; i < 5; i++) {
        s.bytes[i] = bytes + take(bytes + 1 + 8 * i, 4);
        s.length[i] = take(bytes + 5 + 8 * i, 4);
    }
    return s;
}

/* Sections with entries more or less, whose directory is right. */
static void test_entries(void)
{
    static uint8_t one[COUNT(file)];
    struct sections good = split(printed_file), s = good;
    size_t k;

    sections_give(good, 0, "entries: as they are");
    give_more(good, 0, 8, 17, "inputs: one more, 17"); give_less(good, 0, 8, 17, "inputs: one less, 17");
    give_more(good, 1, 8, 17, "totals: one more, 17"); give_less(good, 1, 8, 17, "totals: one less, 17");
    give_more(good, 4, 1, 17, "logs: a byte more, 17"); give_less(good, 4, 1, 17, "logs: a byte less, 17");
    give_more(good, 2, 24, 102, "records: one more, no"); give_less(good, 2, 24, 102, "records: none, no");
    give_more(good, 3, 40, 102, "snapshots: more than were taken, no");
    for (k = 1; k <= 3; k++)
        give_less(good, 3, 40 * k, 0, "snapshots: the first ones alone, yes");
    s.bytes[3] += 40; s.length[3] -= 40; sections_give(s, 102, "snapshots: without the first, no");
    for (k = 1; k < 24; k++)
        give_more(good, 2, k, 17, "records: part of one more, 17");
    for (k = 1; k < 40; k++)
        give_less(good, 3, k, 17, "snapshots: part of one less, 17");
    right_file(printed_run, 1000, 1, one);
    s = split(one); sections_give(s, 0, "snapshots: one of three, yes");
    give_more(s, 3, 40, 102, "snapshots: a wrong second, no");
    s.bytes[3] = good.bytes[3];
    for (s.length[3] = 0; s.length[3] <= 120; s.length[3] += 40)
        sections_give(s, 0, "snapshots: more of the run's, yes");
}

/* A directory that sums cut to 32 bits would pass. */
static void wrapped(uint64_t records_bytes, uint64_t snapshots_bytes, size_t length)
{
    const uint64_t bytes[] = {80, 120, records_bytes, snapshots_bytes, 2080};
    uint8_t out[COUNT(file)] = {5};
    uint64_t at = 41;
    size_t i;

    memcpy(out + 41, printed_file + 41, PRINTED_FILE - 41);
    for (i = 0; i < 5; i++) {
        put(out + 1 + 8 * i, at, 4);
        put(out + 5 + 8 * i, bytes[i], 4);
        at = (at + bytes[i]) & 0xffffffff;
    }
    check(at == length, "wrapped: the length that 32 bits give");
    check(answer(out, length) == CTSIM_REFUSED_LAYOUT, "wrapped: 17");
}

static void test_wrapped(void)
{
    const uint64_t all = (uint64_t)1 << 32;

    wrapped(all - 16, 160, PRINTED_FILE); /* over the records */
    wrapped(24, all - 16, 2329);          /* over the snapshots */
    wrapped(24, all - 31 - 265, 2049);    /* over the logs */
    wrapped(all - 16, all - 56, 2249);     /* over both */
}

/* Files of few bytes, of several contents. */
static void test_small(void)
{
    uint8_t bytes[41] = {5};
    size_t n, i;

    for (i = 0; i < 5; i++)
        put(bytes + 1 + 8 * i, 41, 4);
    for (n = 0; n <= 41; n++) {
        check(answer(bytes, n) == CTSIM_REFUSED_LAYOUT, "small file: empty sections, 17");
        check(answer(printed_file, n) == CTSIM_REFUSED_LAYOUT, "small file: a right start, 17");
    }
    for (i = 0; i < 256; i++) {
        memset(bytes, (int)i, sizeof bytes);
        for (n = 0; n <= 41; n++)
            check(answer(bytes, n) == CTSIM_REFUSED_LAYOUT, "small file: one byte throughout, 17");
    }
}

/* A check in a thread of its own. */
struct checked {
    const uint8_t *bytes;
    size_t length;
    uint64_t told;
};

static void *check_there(void *given)
{
    struct checked *c = given;

    c->told = ctsim_file_check(c->bytes, c->length);
    return NULL;
}

void call_in_stack(void *(*call)(void *), void *given, size_t stack)
{
    pthread_attr_t attributes;
    pthread_t thread;

    if (pthread_attr_init(&attributes) != 0 || pthread_attr_setstacksize(&attributes, stack) != 0
        || pthread_create(&thread, &attributes, call, given) != 0 || pthread_join(thread, NULL) != 0)
        abort();
    pthread_attr_destroy(&attributes);
}

/* The large run, with a snapshot in every slot. No other that was tried has more slots: a round is over when
 * nobody floods, and where floods go far the proposals are soon agreed on. */
static const struct run large = {
    .topology = CTSIM_LINE, .first = 31, .repeats = 64, .given = 1, .round_slots = 4096, .loss = 0.9823,
    .seed = 536, .proposals = 64, .interval = 1, .limit = UINT64_MAX,
    .summary_length = CTSIM_SUMMARY_LENGTH, .logs_length = CTSIM_LOGS_LENGTH,
    .records_length = CTSIM_RECORDS_LENGTH,
};

/* The time of the large run alone, with as many snapshots stored as the file has. */
static clock_t run_large(uint64_t *shots)
{
    const struct run *r = &large;
    clock_t before = clock();

    check(ctsim_run_topology(r->topology, r->first, r->second, r->repeats, r->given, r->round_slots, r->loss,
                             r->seed, r->proposals, r->interval, r->limit, summary + 1, r->summary_length,
                             logs + 8, r->logs_length, records + 1, r->records_length, shots, 5 * MANY) == 0,
          "large: runs");
    return clock() - before;
}

/* Files the large run. */
static void file_large(uint64_t *shots, uint8_t *out, size_t room)
{
    const struct run *r = &large;

    check(ctsim_file_topology(r->topology, r->first, r->second, r->repeats, r->given, r->round_slots, r->loss,
                              r->seed, r->proposals, r->interval, r->limit, logs + 8, r->logs_length,
                              records + 1, r->records_length, shots, 5 * MANY, out, room,
                              written + 1, 1) == 0,
          "large: files");
}

/* The check in little stack, within the time of some runs. */
static void large_gives(const uint8_t *bytes, size_t length, clock_t alone, uint64_t want, const char *what)
{
    struct checked c = {bytes, length, MARK};
    clock_t before = clock();

    call_in_stack(check_there, &c, STACK);
    check(c.told == want, what);
    check(clock() - before <= 20 * alone + CLOCKS_PER_SEC / 100, what);
}

/* A large file that is right, damaged, and of right layout with far more snapshots than its run has. */
static void test_large(void)
{
    const size_t room = CTSIM_FILE_LENGTH + 40 * (size_t)MORE;
    uint64_t *shots = malloc(40 * (size_t)MANY);
    uint8_t *bytes = calloc(room, 1);
    size_t length;
    clock_t alone;

    if (shots == NULL || bytes == NULL)
        abort();
    alone = run_large(shots);
    check(summary[1 + CTSIM_SNAPSHOTS] >= MANY, "large: enough snapshots");
    file_large(shots, bytes, room);
    length = written[1];
    check(length == LEAST_FILE + 24 * summary[1 + CTSIM_RECORDS] + 40 * (size_t)MANY, "large: length");
    large_gives(bytes, length, alone, 0, "large: yes");
    large_gives(bytes, length - 1, alone, CTSIM_REFUSED_LAYOUT, "large: cut, 17");
    bytes[length / 2] ^= 1; large_gives(bytes, length, alone, CTSIM_NO, "large: a bit, no");
    bytes[length / 2] ^= 1;
    bytes[length - 1] ^= 1; large_gives(bytes, length, alone, CTSIM_NO, "large: the last byte, no");
    length += 40 * (size_t)(MORE - MANY);
    put(bytes + 29, 40 * (uint64_t)MORE, 4);
    put(bytes + 33, length - CTSIM_LOGS_LENGTH, 4);
    large_gives(bytes, length, alone, CTSIM_NO, "large: far too many snapshots, no");
    free(shots);
    free(bytes);
}

void test_damage(void)
{
    static uint8_t least[COUNT(file)];

    edge = make_edge();
    check(right_file(printed_run, 0, 3, least) == LEAST_FILE, "least file: its length");
    check(flip_all(printed_file, PRINTED_FILE) == 191, "printed file: right with these inputs");
    check(flip_all(least, LEAST_FILE) == 203, "least file: right with these inputs");
    test_other_inputs();
    change_some(printed_file, PRINTED_FILE);
    change_some(least, LEAST_FILE);
    cut_and_lengthen(printed_file, PRINTED_FILE);
    cut_and_lengthen(least, LEAST_FILE);
    change_directory(printed_file, PRINTED_FILE);
    test_entries();
    test_wrapped();
    test_small();
    test_large();
}
