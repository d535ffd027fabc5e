/*
 * The tests of which of two archive files supersedes: pairs by hand, limits that are easily put in a wrong
 * order, pairs of runs with limits about each other's ends, files with each byte changed, files that break
 * the layout, and the longest records in little stack. Every pair is asked with slices of 0 to 5 places.
 */
#define _DEFAULT_SOURCE /* maps beside C99 */
#include <string.h>
#include <sys/mman.h>

#include "files.h"
#include "pairs.h"

/* Where the inputs stand, the limit among them, and the section behind them. */
#define INPUTS 41
#define LIMIT 113
#define TOTALS 121

/* How many files of one run are paired with each other. */
#define FAMILY 11

/* The most bytes of records that a directory has room for, the longest file with them, and in how little
 * stack it is paired. */
#define MOST_RECORDS 4294967040U
#define MOST_FILE ((size_t)LEAST_FILE + MOST_RECORDS)
#define STACK (32 * 1024)

/* A file. */
struct bytes {
    const uint8_t *at;
    size_t length;
};

static const struct bytes printed = {printed_file, PRINTED_FILE};

/* The ends of the first and of the second file, behind which no byte can be read. */
static uint8_t *edges[2];

static struct bytes at_edge(struct bytes f, size_t place)
{
    struct bytes moved = {edges[place] - f.length, f.length};

    memcpy(edges[place] - f.length, f.at, f.length);
    return moved;
}

/* Asks of two files where they stand. Below 3 places it is 100, whatever the files are; else it is this
 * result, and at 0 the part is written. No other place is. */
static void asked(struct bytes a, struct bytes b, uint64_t result, const uint64_t *want, const char *what)
{
    uint64_t part[7];
    size_t n;

    for (n = 0; n <= 5; n++) {
        uint64_t told = n < 3 ? CTSIM_SHORT : result;

        memset(part, MARK, sizeof part);
        check(ctsim_file_supersede(a.at, a.length, b.at, b.length, part + 1, n) == told
              && holds(part, sizeof part, 8, want, told == 0 ? 24 : 0), what);
    }
}

/* The part that the records of a file are, and what the entry for sections says of the file. */
static uint64_t records_of(struct bytes f, uint64_t place, uint64_t *part)
{
    uint64_t parts[CTSIM_PARTS_LENGTH] = {0};
    uint64_t told = ctsim_file_sections(f.at, f.length, parts, COUNT(parts));

    part[CTSIM_SUPERSEDING_FILE] = place;
    part[CTSIM_SUPERSEDING_OFFSET] = parts[4];
    part[CTSIM_SUPERSEDING_BYTES] = parts[5];
    return told;
}

/* Which of two files has the larger limit, the first at equal ones. */
static size_t larger(struct bytes a, struct bytes b)
{
    return take(b.at + LIMIT, 8) > take(a.at + LIMIT, 8);
}

/* The pair has this result, and at 0 the answer is the records of the file with the larger limit. It is 17
 * exactly where the sections of one of the two are refused, and the files stay as they are. */
static void pair_gives(struct bytes a, struct bytes b, uint64_t result, const char *what)
{
    struct bytes first = at_edge(a, 0), second = at_edge(b, 1);
    uint64_t part[2][CTSIM_SUPERSEDING_LENGTH];
    uint64_t broken = records_of(first, 0, part[0]) | records_of(second, 1, part[1]);

    check((broken != 0) == (result == CTSIM_REFUSED_LAYOUT), what);
    asked(first, second, result, part[result == 0 ? larger(a, b) : 0], what);
    check(memcmp(first.at, a.at, a.length) == 0 && memcmp(second.at, b.at, b.length) == 0, what);
}

static void both_orders(struct bytes a, struct bytes b, uint64_t result, const char *what)
{
    pair_gives(a, b, result, what);
    pair_gives(b, a, result, what);
}

/* The file of a run with this limit and room, which passes the check. */
static struct bytes right(struct run r, uint64_t limit, size_t room, uint8_t *out)
{
    struct bytes f = {out, right_file(r, limit, room, out)};

    return f;
}

/* A copy in which some bits of a byte are changed. */
static struct bytes changed(struct bytes f, size_t at, unsigned bits, uint8_t *out)
{
    struct bytes other = {out, f.length};

    memcpy(out, f.at, f.length);
    out[at] ^= (uint8_t)bits;
    return other;
}

/* The printed file, and that of the same run without a slot. */
static void test_printed_pairs(void)
{
    static const uint64_t first[] = {0, 241, 24}, second[] = {1, 241, 24}, none[] = {0, 241, 0};
    static uint8_t out[COUNT(file)], copy[COUNT(file)];
    struct bytes least = right(printed_run, 0, 3, out), other = changed(printed, 0, 0, copy);
    struct bytes empty = {edges[0], 0};

    asked(printed, least, 0, first, "printed: the larger limit is the first's");
    asked(least, printed, 0, second, "printed: the larger limit is the second's");
    asked(printed, other, 0, first, "equal limits: the first");
    asked(printed, printed, 0, first, "the same bytes: the first");
    asked(least, least, 0, none, "the same bytes without records: the first");
    asked(empty, printed, 17, first, "an empty first: 17");
    asked(printed, empty, 17, first, "an empty second: 17");
    asked(empty, empty, 17, first, "both empty: 17");
    put(copy + LIMIT, 0, 8);
    asked(other, least, 0, first, "equal limits: the first, with its record");
    asked(least, other, 0, none, "equal limits: the first, without records");
    put(copy + 89, 8, 8);
    asked(other, least, 19, first, "another seed: 19");
    asked(least, other, 19, first, "another seed in the second: 19");
    other.length--;
    asked(least, other, 17, first, "another seed, and cut: 17 comes before 19");
    other.at = out; other.length = LEAST_FILE - 1;
    asked(least, other, 17, first, "the same bytes without the last: 17");
}

/* Fields that differ and mean the same to a run, and equal ones that no run has. */
static void test_same_fields(void)
{
    static uint8_t one[COUNT(file)], two[COUNT(file)];
    struct run r = printed_run;
    struct bytes f;

    r.loss = -0.0; f = right(r, 1000, 3, one);
    both_orders(printed, f, 19, "minus zero: 19");
    both_orders(f, right(r, 0, 3, two), 0, "minus zero in both: agree");
    r.loss = 0; r.given = 1; r.round_slots = 4; f = right(r, 1000, 3, one);
    both_orders(printed, f, 19, "round slots that are given: 19");
    both_orders(f, right(r, 0, 3, two), 0, "round slots in both: agree");
    memset(two + INPUTS, 0xff, LEAST_FILE - INPUTS);
    f.at = two; f.length = LEAST_FILE;
    both_orders(f, changed(f, LIMIT, 1, one), 0, "fields that no run has: agree");
}

/* How many snapshots are stored makes no difference. The run starts its last round in slot 3, and so has the
 * same records at the limits 4 and 5. */
static void test_stored_pairs(void)
{
    static const uint64_t first[] = {0, 241, 24}, second[] = {1, 241, 24};
    static uint8_t one[COUNT(file)], two[COUNT(file)];
    size_t i, k;

    for (i = 0; i <= 3; i++)
        for (k = 0; k <= 3; k++) {
            struct bytes a = right(printed_run, 4, i, one), b = right(printed_run, 5, k, two);

            check(a.length == 2345 + 40 * i && b.length == 2345 + 40 * k, "snapshots: as many");
            asked(a, b, 0, second, "snapshots: no difference");
            asked(b, a, 0, first, "snapshots: no difference");
            put(one + LIMIT, 5, 8);
            asked(a, b, 0, first, "snapshots: no difference at equal limits");
            asked(b, a, 0, first, "snapshots: no difference at equal limits");
        }
}

/* Limits that have another order with a sign, in 32 bits, by the lowest byte first, or as doubles. */
static void test_limits(void)
{
    static const uint64_t limits[] = {
        0, 1, 2, 0xff, 0x100, 0x1ff, 0x200, 0x7fffffff, 0x80000000, 0xffffffff, 0x100000000, 0x100000001,
        0x0100000000000000, 0x0100000000000001, 0x7ff8000000000000, 0x7ff8000000000001, 0x7fffffffffffffff,
        0x8000000000000000, 0x8000000000000001, 0xfffffffffffffffe, 0xffffffffffffffff,
    };
    static uint8_t one[COUNT(file)], two[COUNT(file)];
    struct bytes a = changed(printed, 0, 0, one), b = right(printed_run, 0, 3, two);
    size_t i, k;

    for (i = 0; i < COUNT(limits); i++)
        for (k = 0; k < COUNT(limits); k++) {
            put(one + LIMIT, limits[i], 8);
            put(two + LIMIT, limits[k], 8);
            check(larger(a, b) == (k > i), "limits: ascending");
            both_orders(a, b, 0, "limits: the answer");
        }
}

/* The limits that a filed run is filed with once more: its own, those about the first slot of its last
 * record's round and about its own end, the least and the greatest. */
static void limits_about(const uint8_t *bytes, uint64_t *limits)
{
    struct sections s = split(bytes);
    uint64_t own = take(bytes + LIMIT, 8), slots = take(s.bytes[1] + 16, 8);
    uint64_t last = s.length[2] == 0 ? 0 : take(s.bytes[2] + s.length[2] - 8, 8);
    const uint64_t all[FAMILY] = {
        own, last, last + 1, slots / 2, slots - 1, slots, slots + 1, own, 0, 1, UINT64_MAX,
    };

    memcpy(limits, all, sizeof all);
}

/* A pair of files that pass the check: the records of the other are the beginning of the answer's. Whether
 * they are truly fewer, and not none. */
static int fewer(struct bytes a, struct bytes b)
{
    struct sections s[2] = {split(a.at), split(b.at)};
    const struct sections *more = s + larger(a, b), *less = s + !larger(a, b);

    pair_gives(a, b, 0, "run pairs: the answer");
    check(less->length[2] <= more->length[2]
          && memcmp(more->bytes[2], less->bytes[2], less->length[2]) == 0, "run pairs: the beginning");
    return less->length[2] > 0 && less->length[2] < more->length[2];
}

/* All pairs of files of one run that differ in the limit, and in how many snapshots are stored. In how many
 * the records are truly fewer. */
static unsigned pair_limits(struct run r)
{
    static uint8_t out[FAMILY][COUNT(file)];
    uint64_t limits[FAMILY];
    struct bytes f[FAMILY];
    unsigned count = 0;
    size_t i, k;

    f[0] = right(r, r.limit, 6, out[0]);
    limits_about(out[0], limits);
    for (i = 1; i < FAMILY; i++)
        f[i] = right(r, limits[i], i % 7, out[i]);
    if (split(out[0]).length[2] > 0)
        check(split(out[1]).length[2] < split(out[2]).length[2], "run pairs: without the last record");
    for (i = 0; i < FAMILY; i++)
        for (k = 0; k < FAMILY; k++)
            count += fewer(f[i], f[k]);
    return count;
}

/* Networks of few, some and many nodes, with each topology, that end at the limit and by themselves. */
static void test_run_pairs(void)
{
    static const uint64_t sizes[] = {2, 5, 12, 32}, proposals[] = {1, 7, 64}, limits[] = {60, 100000};
    static const double losses[] = {0, 0.25, 0.5};
    unsigned count = 0;
    struct run r = lossy;
    size_t i, k;

    for (r.topology = 1; r.topology <= 6; r.topology++)
        for (i = 0; i < COUNT(sizes); i++)
            for (k = 0; k < 6; k++) {
                r.first = r.topology == CTSIM_GRID && sizes[i] % 4 == 0 ? sizes[i] / 4 : sizes[i];
                r.second = r.topology == CTSIM_GRID ? sizes[i] / r.first : r.topology == CTSIM_TREE ? 3 : 0;
                r.given = k == 5;
                r.proposals = proposals[k % 3];
                r.loss = losses[(i + k) % 3];
                r.seed = 6 * i + k;
                r.limit = limits[k / 3];
                count += pair_limits(r);
            }
    check(count == 2544, "run pairs: in so many the records are truly fewer");
}

/* Each byte behind the directory of one file, in both orders: 19 for the nine fields, the answer by the
 * changed limit, and the same answer as before for every byte behind the inputs. */
static void change_each(struct bytes a, struct bytes b)
{
    static uint8_t out[COUNT(file)];
    size_t at, bit;

    for (at = INPUTS; at < TOTALS; at++)
        for (bit = 0; bit < 8; bit++)
            both_orders(changed(a, at, 1U << bit, out), b, at < LIMIT ? CTSIM_REFUSED_PAIR : 0,
                        "changed input: the answer");
    for (; at < a.length; at++)
        both_orders(changed(a, at, 0xff, out), b, 0, "changed byte behind the inputs: no difference");
}

/* A bit in both files: they agree if it is the same one; if not, no sum over bytes or fields hides it. */
static void change_both(struct bytes a, struct bytes b)
{
    static uint8_t one[COUNT(file)], two[COUNT(file)];
    size_t at, bit;

    for (at = INPUTS; at < TOTALS; at++)
        for (bit = 0; bit < 8; bit++) {
            struct bytes other = changed(b, at, 1U << bit, two);

            pair_gives(changed(a, at, 1U << bit, one), other, 0, "changed alike: agree");
            if (at + 8 < LIMIT) {
                pair_gives(changed(a, at + 1, 1U << bit, one), other, 19, "changed in the next byte: 19");
                pair_gives(changed(a, at + 8, 1U << bit, one), other, 19, "changed in the next field: 19");
            }
        }
}

/* A file that breaks the layout, in both orders: cut at every length, longer by 1 to 64 bytes, and with each
 * bit of the first byte and the directory flipped. It is 17, whatever the other file is. */
static void break_layout(struct bytes f, struct bytes other)
{
    static uint8_t out[COUNT(file)];
    struct bytes g = changed(f, 0, 0, out);
    size_t bit;

    memset(out + f.length, 0, sizeof out - f.length);
    for (g.length = 0; g.length <= f.length + 64; g.length++)
        if (g.length != f.length)
            both_orders(g, other, 17, "cut or longer: 17");
    for (bit = 0; bit < 8 * INPUTS; bit++)
        both_orders(changed(f, bit / 8, 1U << bit % 8, out), other, 17, "directory: 17");
}

/* Each section is longer by 1 to 240 bytes, with the directory that it needs: 17, but for whole records,
 * which the answer counts, and whole snapshots. */
static void lengthen_sections(struct bytes f, struct bytes other)
{
    static uint8_t from[2 * COUNT(file)], out[2 * COUNT(file)];
    struct bytes g = {out, 0};
    size_t i, more;

    memcpy(from, f.at, f.length);
    for (i = 0; i < 5; i++)
        for (more = 1; more <= 240; more++) {
            struct sections s = split(from);

            s.length[i] += more;
            g.length = put_file(&s, out);
            both_orders(g, other, (i == 2 && more % 24 == 0) || (i == 3 && more % 40 == 0) ? 0 : 17,
                        "longer section: the answer");
        }
}

/* The printed file and that of the same run without a slot, byte by byte, and one with another seed. */
static void test_changed_pairs(void)
{
    static uint8_t out[3][COUNT(file)];
    struct bytes least = right(printed_run, 0, 3, out[0]), broken = changed(printed, 0, 1, out[2]), seed;
    struct run r = printed_run;

    r.seed = 8; seed = right(r, 0, 3, out[1]);
    change_each(printed, least);
    change_each(least, printed);
    change_each(printed, printed);
    change_both(printed, least);
    break_layout(printed, least);
    break_layout(least, printed);
    both_orders(printed, seed, 19, "another seed: 19");
    break_layout(printed, seed);
    break_layout(seed, printed);
    break_layout(printed, broken);
    lengthen_sections(printed, least);
    lengthen_sections(least, printed);
}

/* A pair in a thread of its own. */
struct paired {
    struct bytes first, second;
    uint64_t result;
    const uint64_t *want;
};

static void *ask_there(void *given)
{
    struct paired *p = given;

    asked(p->first, p->second, p->result, p->want, "longest records: in little stack");
    return NULL;
}

/* A file whose records are all that a directory has room for. Its zeros are not read, and take no memory. */
static void test_longest(void)
{
    static const uint64_t longest[] = {0, 241, MOST_RECORDS}, second[] = {1, 241, 24};
    uint8_t *map = mmap(NULL, MOST_FILE, PROT_READ, MAP_PRIVATE | MAP_ANONYMOUS | MAP_NORESERVE, -1, 0);
    int mapped = map != MAP_FAILED && mprotect(map, TOTALS, PROT_READ | PROT_WRITE) == 0;
    struct paired p = {{map, MOST_FILE}, printed, 0, longest};

    check(mapped, "longest records: a map");
    if (!mapped)
        return;
    memcpy(map, printed_file, TOTALS);
    put(map + 21, MOST_RECORDS, 4);
    put(map + 25, 241 + MOST_RECORDS, 4);
    put(map + 29, 0, 4);
    put(map + 33, 241 + MOST_RECORDS, 4);
    call_in_stack(ask_there, &p, STACK);
    put(map + LIMIT, 999, 8); p.want = second; call_in_stack(ask_there, &p, STACK);
    put(map + 89, 8, 8); p.result = 19; call_in_stack(ask_there, &p, STACK);
    p.first.length--; p.result = 17; call_in_stack(ask_there, &p, STACK);
    munmap(map, MOST_FILE);
}

void test_pairs(void)
{
    edges[0] = make_edge();
    edges[1] = make_edge();
    test_printed_pairs();
    test_same_fields();
    test_stored_pairs();
    test_limits();
    test_run_pairs();
    test_changed_pairs();
    test_longest();
}
