/*
 * The tests of packets and the texts that they have: slices, the rules of a text on both sides of each
 * boundary, numbers that are no packet, all terms, data and flags, and the packets of runs.
 */
#include <string.h>

#include "check.h"
#include "packets.h"
#include "wire.h"

/* A packet that has as little as it can, and one that has everything. */
static const struct wire bare = {{0, 0, 0, 0, 0, 0, 0, 0, 0, 0, 0, 0, 0}, 2};
static const struct wire full = {{1, 12, 6, 1, 7, 1, 11, 1, 12, 1, 5, 1, 5}, 4};

static struct wire with(struct wire w, size_t place, uint64_t number)
{
    w.packet[place] = number;
    return w;
}

/* A packet with a term that may be none, and whether it has it. */
static struct wire with_term(struct wire w, size_t given, uint64_t term)
{
    return with(with(w, given, 1), given + 1, term);
}

static struct wire without(struct wire w, size_t given)
{
    return with(with(w, given, 0), given + 1, 0);
}

/* Texts as they are printed: the example, the rounds of the worked example of docs/RULES.md, and a
 * packet that has everything. */
static const struct { struct wire wire; const char *text; } printed[] = {
    {{{0, 0, 1, 0, 0, 0, 0, 1, 0, 0, 0, 0, 0}, 2}, example},
    {{{0, 0, 1, 0, 0, 0, 0, 1, 0, 0, 0, 0, 0}, 3},
     "{\"current_term\":0,\"last_accepted_term\":null,\"flags_bitmap\":[true,false,false],"
     "\"nack_term\":0,\"sender\":0,\"proposal_data\":[116,120,48],\"piggyback_term\":null,"
     "\"piggyback_data\":[]}"},
    {{{1, 1, 2, 0, 0, 1, 0, 1, 1, 0, 0, 0, 0}, 3},
     "{\"current_term\":1,\"last_accepted_term\":0,\"flags_bitmap\":[false,true,false],\"nack_term\":0,"
     "\"sender\":1,\"proposal_data\":[116,120,49],\"piggyback_term\":null,\"piggyback_data\":[]}"},
    {{{2, 2, 4, 1, 1, 1, 0, 1, 2, 0, 0, 0, 0}, 3},
     "{\"current_term\":2,\"last_accepted_term\":0,\"flags_bitmap\":[false,false,true],\"nack_term\":1,"
     "\"sender\":2,\"proposal_data\":[116,120,50],\"piggyback_term\":null,\"piggyback_data\":[]}"},
    {{{0, 2, 1, 0, 0, 1, 2, 0, 0, 1, 1, 1, 1}, 3},
     "{\"current_term\":2,\"last_accepted_term\":2,\"flags_bitmap\":[true,false,false],\"nack_term\":0,"
     "\"sender\":0,\"proposal_data\":[],\"piggyback_term\":1,\"piggyback_data\":[116,120,49]}"},
    {{{1, 2, 2, 0, 0, 1, 2, 0, 0, 0, 0, 0, 0}, 3},
     "{\"current_term\":2,\"last_accepted_term\":2,\"flags_bitmap\":[false,true,false],\"nack_term\":0,"
     "\"sender\":1,\"proposal_data\":[],\"piggyback_term\":null,\"piggyback_data\":[]}"},
    {{{1, 12, 6, 1, 7, 1, 11, 1, 12, 1, 5, 1, 5}, 4},
     "{\"current_term\":12,\"last_accepted_term\":11,\"flags_bitmap\":[false,true,true,false],"
     "\"nack_term\":7,\"sender\":1,\"proposal_data\":[116,120,49,50],\"piggyback_term\":5,"
     "\"piggyback_data\":[116,120,53]}"},
};

void test_printed_texts(void)
{
    size_t i;

    for (i = 0; i < COUNT(printed); i++) {
        writes(printed[i].wire, enough, printed[i].text, "text: written as printed");
        reads(printed[i].text, enough, printed[i].wire, "text: read as printed");
        check(strcmp(text_of(&printed[i].wire), printed[i].text) == 0, "text: made as printed");
    }
}

/* The writer's slices for this packet. */
static void write_slices(struct wire w)
{
    const char *made = text_of(&w);
    struct places exact = of_text(strlen(made)), has;
    struct wire none = with(w, CTSIM_PACKET_SENDER, 32);

    writes(w, exact, made, "write: exact");
    has = exact; has.text++; writes(w, has, made, "write: a byte more");
    has = exact; has.text = TEXT_ROOM; has.packet = 19; has.single = 3; writes(w, has, made, "write: long");
    for (has = exact; has.text-- > 0;)
        unwritten(w, has, CTSIM_REFUSED_TEXT, "write: fewer bytes than the text has, 14");
    has = exact; has.packet = 12; unwritten(w, has, CTSIM_SHORT, "write: packet one short, 100");
    has = exact; has.packet = 0; unwritten(w, has, CTSIM_SHORT, "write: no packet, 100");
    has = exact; has.single = 0; unwritten(w, has, CTSIM_SHORT, "write: no place for the length, 100");
    has.text--; unwritten(w, has, CTSIM_SHORT, "write: 100 comes before room");
    unwritten(none, has, CTSIM_SHORT, "write: 100 for the length comes first");
    has.single = 1; has.packet = 12;
    unwritten(none, has, CTSIM_SHORT, "write: 100 for the packet comes first");
}

/* The reader's slices for this packet. */
static void read_slices(struct wire w)
{
    const char *made = text_of(&w);
    size_t length = strlen(made);
    struct places exact = of_text(length), has;

    reads(made, exact, w, "read: exact");
    has = exact; has.packet = 19; has.single = 3; reads(made, has, w, "read: long");
    has = exact; has.packet = 12; unread(made, length, has, CTSIM_SHORT, "read: packet one short, 100");
    has = exact; has.packet = 0; unread(made, length, has, CTSIM_SHORT, "read: no packet, 100");
    has = exact; has.single = 0; unread(made, length, has, CTSIM_SHORT, "read: no place for n, 100");
    has.text--; unread(made, length, has, CTSIM_SHORT, "read: 100 for n comes first");
    has.single = 1; has.packet = 12;
    unread(made, length, has, CTSIM_SHORT, "read: 100 for the packet comes first");
    has.text = 0; unread(made, length, has, CTSIM_SHORT, "read: 100 comes first for an empty text");
}

void test_text_slices(void)
{
    /* all flags are false, and no term is last accepted: false is longer than true, null than 63 */
    static const struct wire longest = {{31, 63, 0, 1, 63, 0, 0, 1, 63, 1, 63, 1, 63}, 32};

    check(strlen(text_of(&longest)) == CTSIM_TEXT_LENGTH, "longest: 366 bytes");
    write_slices(bare); read_slices(bare);
    write_slices(full); read_slices(full);
    write_slices(longest); read_slices(longest);
}

/* Numbers that are too great, also where only their low bits are looked at. */
static const uint64_t great[] = {
    64, 65, 127, 128, 256, 257, 65536, (uint64_t)1 << 32, ((uint64_t)1 << 32) + 1, (uint64_t)1 << 63,
    UINT64_MAX,
};

/* A term at this place is below 64, whatever else the packet has. */
static void term_rule(struct wire w, size_t place, const char *what)
{
    size_t i;

    both_ways(with(w, place, 1), what);
    both_ways(with(w, place, 63), what);
    for (i = 0; i < COUNT(great); i++)
        neither_way(with(w, place, great[i]), what);
}

/* A term that has its data at the place `of` is below 64, and the data are its own. */
static void data_rule(struct wire w, size_t term, size_t of, const char *what)
{
    size_t i;

    both_ways(with(with(w, term, 63), of, 63), what);
    for (i = 0; i < COUNT(great); i++) {
        neither_way(with(with(w, term, great[i]), of, great[i]), what);
        neither_way(with(w, of, w.packet[of] + great[i]), what);
    }
    neither_way(with(w, of, w.packet[of] + 1), what);
    neither_way(with(w, of, w.packet[of] - 1), what);
    neither_way(with(w, of, 0), what);
}

/* Flags and sender stand below the number of flags. */
static void below_flags(struct wire w, uint64_t n)
{
    const uint64_t top = (uint64_t)1 << 63;
    size_t i;

    w.flags = n;
    both_ways(with(w, CTSIM_PACKET_FLAGS, (uint64_t)1 << (n - 1)), "rules: flag n - 1");
    not_written(with(w, CTSIM_PACKET_FLAGS, (uint64_t)1 << n), "rules: flag n, 14");
    not_written(with(w, CTSIM_PACKET_FLAGS, ((uint64_t)2 << n) - 1), "rules: flags up to n, 14");
    not_written(with(w, CTSIM_PACKET_FLAGS, top), "rules: flag 63, 14");
    both_ways(with(w, CTSIM_PACKET_SENDER, n - 1), "rules: sender n - 1");
    neither_way(with(w, CTSIM_PACKET_SENDER, n), "rules: sender n, 14");
    for (i = 0; i < COUNT(great); i++)
        neither_way(with(w, CTSIM_PACKET_SENDER, great[i]), "rules: sender above n, 14");
}

/* How many flags there are. */
static void flags_rule(struct wire w)
{
    static const uint64_t wrong[] = {0, 1, 33, 34, 64, 66, 256, 258};
    size_t i;

    w.flags = 2; both_ways(w, "rules: two flags");
    w.flags = 32; both_ways(w, "rules: 32 flags");
    for (i = 0; i < COUNT(wrong); i++) {
        w.flags = wrong[i]; neither_way(w, "rules: not 2 to 32 flags, 14");
    }
    for (i = 0; i < COUNT(great); i++) {
        w.flags = great[i]; not_written(w, "rules: too many flags, 14");
        w.flags = great[i] + 2; not_written(w, "rules: too many flags, 14");
    }
}

/* What may be there, and what may not be there alone. */
static void parts_rule(void)
{
    struct wire w;

    both_ways(bare, "rules: nothing is there");
    both_ways(full, "rules: all is there");
    both_ways(without(full, CTSIM_PACKET_NACK_GIVEN), "rules: no NACK");
    both_ways(without(full, CTSIM_PACKET_LAST_ACCEPTED_GIVEN), "rules: no last accepted term");
    both_ways(without(full, CTSIM_PACKET_DATA_GIVEN), "rules: no proposal data");
    w = without(full, CTSIM_PACKET_PIGGYBACK_DATA_GIVEN); both_ways(w, "rules: a piggyback without data");
    both_ways(without(w, CTSIM_PACKET_PIGGYBACK_GIVEN), "rules: no piggyback");
    neither_way(without(full, CTSIM_PACKET_PIGGYBACK_GIVEN), "rules: data without a piggyback, 14");
    w = with_term(bare, CTSIM_PACKET_PIGGYBACK_DATA_GIVEN, 0);
    neither_way(w, "rules: data of term 0 without a piggyback, 14");
}

void test_text_rules(void)
{
    struct wire w;
    uint64_t n;

    flags_rule(bare);
    w = with(full, CTSIM_PACKET_FLAGS, 3); flags_rule(w);
    for (n = 2; n <= 32; n++)
        below_flags(bare, n);
    w = without(full, CTSIM_PACKET_DATA_GIVEN);
    term_rule(w, CTSIM_PACKET_TERM, "rules: the current term");
    term_rule(full, CTSIM_PACKET_NACK, "rules: a NACK");
    term_rule(full, CTSIM_PACKET_LAST_ACCEPTED, "rules: the last accepted term");
    w = without(full, CTSIM_PACKET_PIGGYBACK_DATA_GIVEN);
    term_rule(w, CTSIM_PACKET_PIGGYBACK, "rules: a piggyback");
    data_rule(full, CTSIM_PACKET_TERM, CTSIM_PACKET_DATA, "rules: proposal data");
    data_rule(full, CTSIM_PACKET_PIGGYBACK, CTSIM_PACKET_PIGGYBACK_DATA, "rules: piggyback data");
    parts_rule();
}

/* A term that may be none, where the packet has one: numbers that do not say whether it is there, and
 * terms that are not there and yet not 0. */
static void no_whether(struct wire w, size_t given)
{
    size_t i;

    not_written(with(w, given, 2), "no packet: whether is 2, 14");
    not_written(with(w, given, 3), "no packet: whether is 3, 14");
    not_written(with(w, given, 0), "no packet: a term that is not there, 14");
    for (i = 0; i < COUNT(great); i++) {
        not_written(with(w, given, great[i]), "no packet: whether is great, 14");
        not_written(with(bare, given + 1, great[i]), "no packet: a great term that is not there, 14");
    }
    not_written(with(bare, given, 2), "no packet: whether is 2 for nothing, 14");
    not_written(with(bare, given + 1, 1), "no packet: term 1 is not there, 14");
    not_written(with(bare, given + 1, 63), "no packet: term 63 is not there, 14");
}

void test_no_packets(void)
{
    struct wire w;

    no_whether(full, CTSIM_PACKET_NACK_GIVEN);
    no_whether(full, CTSIM_PACKET_LAST_ACCEPTED_GIVEN);
    no_whether(full, CTSIM_PACKET_DATA_GIVEN);
    no_whether(full, CTSIM_PACKET_PIGGYBACK_DATA_GIVEN);
    w = without(full, CTSIM_PACKET_PIGGYBACK_DATA_GIVEN);
    no_whether(w, CTSIM_PACKET_PIGGYBACK_GIVEN);
    not_written(with(full, CTSIM_PACKET_PIGGYBACK_GIVEN, 2), "no packet: whether is 2, with data, 14");
    not_written(with(full, CTSIM_PACKET_NACK, 0), "no packet: a NACK of term 0, 14");
    not_written(with(bare, CTSIM_PACKET_NACK_GIVEN, 1), "no packet: a NACK of term 0 alone, 14");
}

/* All 64 terms at each place. */
void test_all_terms(void)
{
    uint64_t t;

    for (t = 0; t < 64; t++) {
        struct wire w = with_term(with(bare, CTSIM_PACKET_TERM, t), CTSIM_PACKET_PIGGYBACK_GIVEN, 63 - t);

        both_ways(w, "terms: without data");
        both_ways(with_term(w, CTSIM_PACKET_DATA_GIVEN, t), "terms: proposal data");
        both_ways(with_term(w, CTSIM_PACKET_PIGGYBACK_DATA_GIVEN, 63 - t), "terms: piggyback data");
        both_ways(with_term(bare, CTSIM_PACKET_LAST_ACCEPTED_GIVEN, t), "terms: last accepted");
        if (t > 0)
            both_ways(with_term(bare, CTSIM_PACKET_NACK_GIVEN, t), "terms: NACK");
    }
}

/* Whether both entries return this number, for the packet and for its text. */
static int both_return(struct wire w, uint64_t number)
{
    const char *made = text_of(&w);
    size_t length = strlen(made);

    return write_packet(&w, enough) == number && read_packet(made, length, of_text(length)) == number;
}

/* All pairs of a term and the term of its data: the equal ones have a text. */
void test_all_data(void)
{
    uint64_t t, of, proposals = 0, piggybacks = 0;

    for (t = 0; t < 64; t++)
        for (of = 0; of < 64; of++) {
            uint64_t number = of == t ? CTSIM_DONE : CTSIM_REFUSED_TEXT;
            struct wire w = with(bare, CTSIM_PACKET_TERM, t);

            proposals += both_return(with_term(w, CTSIM_PACKET_DATA_GIVEN, of), number);
            w = with_term(bare, CTSIM_PACKET_PIGGYBACK_GIVEN, t);
            piggybacks += both_return(with_term(w, CTSIM_PACKET_PIGGYBACK_DATA_GIVEN, of), number);
        }
    check(proposals == 64 * 64, "data: a proposal's are of the current term");
    check(piggybacks == 64 * 64, "data: a piggyback's are of its term");
}

/* Each number of flags, with several sets of them; the sender need not be among them. */
void test_all_flags(void)
{
    static const uint32_t sets[] = {0, 0xffffffff, 0x55555555, 0xaaaaaaaa, 1, 0x0f0f0f0f, 0x7e57ab1e};
    uint64_t n, sender;
    size_t i;

    for (n = 2; n <= 32; n++)
        for (i = 0; i < COUNT(sets); i++) {
            struct wire w = full;

            w.flags = n;
            w.packet[CTSIM_PACKET_FLAGS] = sets[i] & (((uint64_t)1 << n) - 1);
            for (sender = 0; sender < n; sender += n - 1)
                both_ways(with(w, CTSIM_PACKET_SENDER, sender), "flags: of n nodes");
        }
}

/* How many packets of runs had a NACK, and how many a piggyback. */
struct seen {
    uint64_t nacks, piggybacks;
};

/* Every packet of a run is written and read back, with the run's number of nodes, and counted. */
static void run_packets(struct run r, struct seen *seen, const char *what)
{
    uint64_t rounds, nodes, part[1];
    struct wire w;

    check(run(&r) == 0, what);
    rounds = summary[1 + CTSIM_ROUNDS];
    nodes = summary[1 + CTSIM_NODES];
    for (r.round = 0; r.round < rounds; r.round++) {
        check(ctsim_preview_topology(r.topology, r.first, r.second, r.repeats, r.given, r.round_slots,
                                     r.loss, r.seed, r.proposals, r.interval, r.limit, r.round,
                                     w.packet, COUNT(w.packet), part, 1) == 0, what);
        w.flags = nodes;
        both_ways(w, what);
        seen->nacks += w.packet[CTSIM_PACKET_NACK_GIVEN];
        seen->piggybacks += w.packet[CTSIM_PACKET_PIGGYBACK_GIVEN];
    }
}

void test_run_packets(void)
{
    struct run r = lossy;
    struct seen seen = {0, 0};

    run_packets(r, &seen, "run's packets: a lossy grid");
    r.topology = CTSIM_LINE; r.first = 2; r.second = 0; run_packets(r, &seen, "run's packets: two nodes");
    r.topology = CTSIM_TREE; r.first = 32; r.second = 2; r.proposals = 64; r.given = 0;
    run_packets(r, &seen, "run's packets: 32 nodes and 64 terms");
    r.proposals = 0; run_packets(r, &seen, "run's packets: no proposal");
    check(seen.nacks > 0, "run's packets: one with a NACK");
    check(seen.piggybacks > 0, "run's packets: one with a piggyback");
}
