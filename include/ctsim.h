/*
 * ctsim: radios that flood one packet by constructive interference and agree on a log of proposals
 * by a pipelined Paxos. Twenty entries: draws, rows, diameter, three ratios, two runs, two previews
 * of one round, a writer and a reader of a packet's text, two sweeps of many seeds, two that say
 * whether a configuration that was filed earlier would still be run, a writer, a reader and a check of
 * archive files, and one that says which of two such files supersedes the other.
 *
 * Build the library with `rt lib` in crates/capi and link crates/capi/out/libcapi.a. It is for x86-64
 * Linux. It keeps nothing between calls, so that threads may call it at the same time. A run, a
 * preview or a sweep takes about 80,000 bytes of the caller's stack, filing a run at most about 130,000,
 * and a check of an archive file at most about 250,000, whatever the file's length.
 *
 * Results. Every entry returns 0 if it is done, else a number of `enum ctsim_result`. Where it
 * returns another number than 0, it has written nothing.
 *
 * Slices. A slice is a pointer and the number of its places. The pointer is never NULL, also where
 * there are no places, and the slices that an entry writes to overlap no other slice of the call.
 * Slices may be longer than needed. Every place that an entry has no number for keeps what it held.
 *
 * Words. A node is a radio, numbered from 0. A set of nodes is a number: bit j stands for node j. A
 * slot is the unit of time: in each slot every node listens, floods (sends the round's packet) or
 * sleeps. A round is one flood of one packet. Rounds are numbered from 0, and node (round modulo
 * nodes) starts each. The node that starts a round takes part in it, and so does every node that
 * sleeps at its end. A proposal is a piece of data to agree on; its term is its number, from 0. A
 * node's log is its committed terms in the order in which they entered it: a term enters at the first
 * commit that reaches it while the node holds its data, so a log need not be in order of the terms. A
 * packet is about one term, its current term. Its flags are the set of nodes whose votes for that
 * term it tells. A NACK asks for a term that the packet's sender misses. A piggyback answers the NACK
 * of the round before: it is that term, with its data. docs/NUMBERS.md says more, and docs/RULES.md
 * has the rules whole.
 */
#ifndef CTSIM_H
#define CTSIM_H

#include <stddef.h>
#include <stdint.h>

#ifdef __cplusplus
extern "C" {
#endif

/* What an entry returns. 1 to 11 and 13 to 19 are the questions, asked in the order of their numbers, but
 * 16 just after 6; the first "no" is told, except by ctsim_validity_topology and ctsim_validity_rows, which
 * pass over 16 where another question refuses too. 12 is of the program alone. 100 and above are of these
 * entries alone; 100 is asked before the questions. */
enum ctsim_result {
    CTSIM_DONE = 0,
    CTSIM_REFUSED_TOPOLOGY = 1,     /* the topology is not 1 to 6 */
    CTSIM_REFUSED_NODES = 2,        /* not 2 to 32 nodes; a grid's rows or columns not 1 to 32 */
    CTSIM_REFUSED_SECOND = 3,       /* second is above 32 for a tree, or not 0 for 1, 2, 3, 5 */
    CTSIM_REFUSED_ROWS = 4,         /* fewer rows than nodes, or rows that are no graph */
    CTSIM_REFUSED_REPEATS = 5,      /* the repeats are not 1 to 64 */
    CTSIM_REFUSED_ROUND_SLOTS = 6,  /* the round slots are given and above 4,096 */
    CTSIM_REFUSED_LOSS = 7,         /* the loss rate is below 0, 1 or more, or no number */
    CTSIM_REFUSED_PROPOSALS = 8,    /* more than 64 proposals */
    CTSIM_REFUSED_INTERVAL = 9,     /* the snapshot interval is 0 */
    CTSIM_REFUSED_BUFFERS = 10,     /* logs, records or, for ctsim_rows, rows are too short */
    CTSIM_REFUSED_RATIO = 11,       /* a count of the ratio is above 2^53 */
    CTSIM_REFUSED_ROUND = 13,       /* the run ends before that round: it has at most `round` rounds */
    CTSIM_REFUSED_TEXT = 14,        /* no packet's text, no packet that has one, or no room for it */
    CTSIM_REFUSED_SWEEP = 15,       /* more than 65,536 seeds, or not seven places for each */
    CTSIM_REFUSED_SHORT_ROUND = 16, /* the round slots are given and below the repeats: no node could
                                       reach sleep */
    CTSIM_REFUSED_LAYOUT = 17,      /* the first byte, the directory or a length of the file is not as it
                                       should be */
    CTSIM_REFUSED_FILE = 18,        /* the bytes for the file are fewer than the file has */
    CTSIM_REFUSED_PAIR = 19,        /* two files differ in another input field than the slot limit */
    CTSIM_SHORT = 100,              /* a slice for a summary, a packet, sections, the place of records or a
                                       single result is too short */
    CTSIM_NO_RATIO = 101,           /* no refusal: there is no ratio, as the second count is 0 */
    CTSIM_NO = 102                  /* no refusal: the file is not what the writer makes of its inputs */
};

enum ctsim_topology {
    CTSIM_FULL_MESH = 1, /* every node is linked to every other */
    CTSIM_LINE = 2,      /* node i is linked to node i + 1 */
    CTSIM_STAR = 3,      /* node 0 is linked to all others */
    CTSIM_GRID = 4,      /* each node is linked to those beside, above and below it */
    CTSIM_RING = 5,      /* a line whose ends are linked, above 2 nodes */
    CTSIM_TREE = 6       /* node i is linked to i * b + j for j in 1 to b, the branching, below n */
};

/* How many places the slices need. */
enum ctsim_length {
    CTSIM_MAX_NODES = 32,
    CTSIM_SUMMARY_LENGTH = 17,
    CTSIM_LOGS_LENGTH = 2080,
    CTSIM_RECORDS_LENGTH = 192,
    CTSIM_PACKET_LENGTH = 13,
    CTSIM_TEXT_LENGTH = 366, /* no text is longer: each fits into that many bytes */
    CTSIM_SWEPT_LENGTH = 7,  /* for each seed of a sweep */
    CTSIM_PARTS_LENGTH = 10, /* offset and length of each section of a file */
    CTSIM_SUPERSEDING_LENGTH = 3, /* which of two files, and offset and length of its records */
    CTSIM_FILE_LENGTH = 3857, /* the most bytes of a file without snapshots; each takes 40 more */
    CTSIM_MAX_SEEDS = 65536
};

/* The places of a summary. The first fifteen are the numbers of the first three lines that ./ctsim
 * prints, in their order. */
enum ctsim_summary {
    CTSIM_NODES = 0,        /* nodes */
    CTSIM_ROUNDS = 1,       /* rounds that were run */
    CTSIM_SLOTS = 2,        /* slots over all rounds */
    CTSIM_ENDED = 3,        /* why it ended: 1 all logs are complete; 2 all proposals are recorded and
                               the round's number is above P + 5d, d the diameter; 3 it is above
                               P + 1,000; 4 the slot limit is reached */
    CTSIM_LISTEN = 4,       /* slots spent listening, added up over all nodes */
    CTSIM_FLOOD = 5,        /* slots spent flooding, likewise */
    CTSIM_SLEEP = 6,        /* slots spent sleeping, likewise; the three sum to nodes * slots */
    CTSIM_ATTEMPTS = 7,     /* attempts of a flooding node at a listening neighbour */
    CTSIM_SUCCESSES = 8,    /* attempts that were not lost */
    CTSIM_FLOOD_ROUNDS = 9, /* rounds, once more */
    CTSIM_FLOOD_NODES = 10, /* nodes * rounds */
    CTSIM_COVERED = 11,     /* nodes that held a packet equal to the round's after it, over all rounds */
    CTSIM_TOOK_PART = 12,   /* nodes that took part in the round, the starting node among them, over all
                               rounds; always as many as CTSIM_COVERED */
    CTSIM_NACKS = 13,       /* rounds whose starting node asked for a missing term above 0 */
    CTSIM_PIGGYBACKS = 14,  /* nodes that took part and held that term, over all rounds */
    CTSIM_RECORDS = 15,     /* records: terms that some node has committed */
    CTSIM_SNAPSHOTS = 16    /* snapshots that were taken, whether they fitted or not */
};

/* The places of the records of one of two files. */
enum ctsim_superseding {
    CTSIM_SUPERSEDING_FILE = 0,   /* 0: the first file supersedes; 1: the second */
    CTSIM_SUPERSEDING_OFFSET = 1, /* where in that file the first byte of its records stands */
    CTSIM_SUPERSEDING_BYTES = 2   /* how many bytes they have */
};

/* The places of a line of a sweep: seven numbers of the run of one seed, as its summary has them. */
enum ctsim_swept {
    CTSIM_SWEPT_ROUNDS = 0,
    CTSIM_SWEPT_SLOTS = 1,
    CTSIM_SWEPT_LISTEN = 2,
    CTSIM_SWEPT_FLOOD = 3,
    CTSIM_SWEPT_SLEEP = 4,
    CTSIM_SWEPT_RECORDS = 5,
    CTSIM_SWEPT_ENDED = 6
};

/* What ctsim_validity_topology and ctsim_validity_rows return where no question but 16 refuses. */
enum ctsim_validity {
    CTSIM_CURRENT = 0,  /* it would be run */
    CTSIM_OUTDATED = 16 /* 16 alone refuses it: its round slots are below its repeats, and nothing else
                           is wrong */
};

/* The places of a packet, of a run's or of a text's. "Whether" is 1 for yes and 0 for no; a term that
 * is not there is 0. What is said of a run need not hold of a text. */
enum ctsim_packet {
    CTSIM_PACKET_SENDER = 0,                /* a node; in a run the one that starts the round */
    CTSIM_PACKET_TERM = 1,                  /* the current term; in a run the one that the round
                                               proposes, else the last that was proposed, 0 if none
                                               was */
    CTSIM_PACKET_FLAGS = 2,                 /* the flags; in a run the sender is always among them */
    CTSIM_PACKET_NACK_GIVEN = 3,            /* whether there is a NACK */
    CTSIM_PACKET_NACK = 4,                  /* its term, above 0 */
    CTSIM_PACKET_LAST_ACCEPTED_GIVEN = 5,   /* whether the sender has committed a term */
    CTSIM_PACKET_LAST_ACCEPTED = 6,         /* the greatest of these terms */
    CTSIM_PACKET_DATA_GIVEN = 7,            /* whether there are proposal data */
    CTSIM_PACKET_DATA = 8,                  /* their term, which is the current one */
    CTSIM_PACKET_PIGGYBACK_GIVEN = 9,       /* whether there is a piggyback */
    CTSIM_PACKET_PIGGYBACK = 10,            /* its term */
    CTSIM_PACKET_PIGGYBACK_DATA_GIVEN = 11, /* whether it has data; in a run it always has */
    CTSIM_PACKET_PIGGYBACK_DATA = 12        /* their term, which is the piggyback's */
};

/*
 * Writes draws 0, 1, 2 .. of a seed to all places of `out`. Draw k is made of words 2k (low) and
 * 2k + 1 (high) of the seed's ChaCha key stream with eight rounds. Returns 0, always.
 */
uint64_t ctsim_draws(uint64_t seed, uint64_t *out, size_t out_length);

/*
 * Writes the rows of a topology to the first places of `rows`, and the number of nodes to nodes[0].
 * Row i is the set of node i's neighbours.
 *   topology  a number of `enum ctsim_topology`
 *   first     the number of nodes; for a grid its rows
 *   second    0; for a grid its columns, for a tree its branching
 *   rows      at least as many places as there are nodes
 *   nodes     at least 1 place
 * Returns 0, 1, 2, 3, 10 or 100.
 */
uint64_t ctsim_rows(uint64_t topology, uint64_t first, uint64_t second,
                    uint32_t *rows, size_t rows_length,
                    uint64_t *nodes, size_t nodes_length);

/*
 * Writes the diameter of n nodes with these rows to links[0]: the greatest of the distances in
 * links, where pairs that no path joins are passed over. j is in row i exactly when i is in row j;
 * no node is in its own row, and none at or above n in any. Rows beyond the first n are not read.
 *   links     at least 1 place
 * Returns 0, 2, 4 or 100.
 */
uint64_t ctsim_diameter(const uint32_t *rows, size_t rows_length, uint64_t n,
                        uint64_t *links, size_t links_length);

/*
 * Writes part / whole to out[0], as a double that is rounded once.
 *   out       at least 1 place
 * Returns 0, 11, 100, or 101 if whole is 0, where there is no ratio.
 */
uint64_t ctsim_ratio(uint64_t part, uint64_t whole, double *out, size_t out_length);

/*
 * The two ratios of a run, from its summary: successes over attempts, which is the packet delivery
 * ratio, and covered nodes over CTSIM_FLOOD_NODES. Each is written to out[0], as ctsim_ratio does.
 *   summary   at least 17 places, as a run has written them
 *   out       at least 1 place
 * Returns 0, 11, 100, or 101 where there is no ratio.
 */
uint64_t ctsim_link_pdr(const uint64_t *summary, size_t summary_length,
                        double *out, size_t out_length);
uint64_t ctsim_flood_coverage(const uint64_t *summary, size_t summary_length,
                              double *out, size_t out_length);

/*
 * Runs a topology.
 *   topology, first, second   as for ctsim_rows
 *   repeats            in how many slots a node floods, 1 to 64
 *   round_slots_given  0: a round's length limit is the greater of 3 and (d + 2) * repeats, d the
 *                      diameter, and round_slots is not read; any other number: it is round_slots
 *   round_slots        the repeats to 4,096
 *   loss               the loss rate, at least 0 and below 1: an attempt is lost when its draw's
 *                      fraction is below it
 *   seed               any number; it fixes every chance of the run
 *   proposals          how many proposals are made, P, 0 to 64
 *   interval           a snapshot is taken in slots 0, interval, 2 * interval .. while rounds run;
 *                      at least 1
 *   limit              a round starts only before this slot; any number
 *   summary            at least 17 places: the numbers of `enum ctsim_summary`
 *   logs               at least 2,080 places: logs[64 * i] and on has the terms of node i's log,
 *                      logs[2048 + i] their count
 *   records            at least 192 places: records[3 * k] and on has the term of record k, the slot
 *                      that it started in and the slot that it ended in
 *   snapshots          any length: snapshots[5 * k] and on has the slot of snapshot k, the length of
 *                      the shortest log after the last round that ended, and how many nodes listen,
 *                      flood and sleep; those that fit whole are stored
 * Returns 0, 1, 2, 3, 5 to 10, 16, or 100.
 */
uint64_t ctsim_run_topology(uint64_t topology, uint64_t first, uint64_t second,
                            uint64_t repeats, uint64_t round_slots_given, uint64_t round_slots,
                            double loss, uint64_t seed,
                            uint64_t proposals, uint64_t interval, uint64_t limit,
                            uint64_t *summary, size_t summary_length,
                            uint8_t *logs, size_t logs_length,
                            uint64_t *records, size_t records_length,
                            uint64_t *snapshots, size_t snapshots_length);

/*
 * Runs n nodes with these rows. Rows are as for ctsim_diameter, all else as for ctsim_run_topology.
 * Returns 0, 2, 4 to 10, 16, or 100.
 */
uint64_t ctsim_run_rows(const uint32_t *rows, size_t rows_length, uint64_t n,
                        uint64_t repeats, uint64_t round_slots_given, uint64_t round_slots,
                        double loss, uint64_t seed,
                        uint64_t proposals, uint64_t interval, uint64_t limit,
                        uint64_t *summary, size_t summary_length,
                        uint8_t *logs, size_t logs_length,
                        uint64_t *records, size_t records_length,
                        uint64_t *snapshots, size_t snapshots_length);

/*
 * Looks ahead to one round of a run of a topology: writes its packet and who takes part, as in the
 * run itself. It takes the time of the rounds up to that one.
 *   topology to limit  as for ctsim_run_topology; interval is tested, though no snapshot is written
 *   round              the round; any number
 *   packet             at least 13 places: the numbers of `enum ctsim_packet`
 *   part               at least 1 place: part[0] is the set of nodes that take part
 * Returns 0, 1, 2, 3, 5 to 9, 13, 16, or 100.
 */
uint64_t ctsim_preview_topology(uint64_t topology, uint64_t first, uint64_t second,
                                uint64_t repeats, uint64_t round_slots_given, uint64_t round_slots,
                                double loss, uint64_t seed,
                                uint64_t proposals, uint64_t interval, uint64_t limit,
                                uint64_t round,
                                uint64_t *packet, size_t packet_length,
                                uint64_t *part, size_t part_length);

/*
 * Looks ahead to one round of a run of n nodes with these rows. Rows are as for ctsim_diameter, all
 * else as for ctsim_preview_topology.
 * Returns 0, 2, 4 to 9, 13, 16, or 100.
 */
uint64_t ctsim_preview_rows(const uint32_t *rows, size_t rows_length, uint64_t n,
                            uint64_t repeats, uint64_t round_slots_given, uint64_t round_slots,
                            double loss, uint64_t seed,
                            uint64_t proposals, uint64_t interval, uint64_t limit,
                            uint64_t round,
                            uint64_t *packet, size_t packet_length,
                            uint64_t *part, size_t part_length);

/*
 * Writes the text of a packet to the first bytes of `text`, and their number to written[0]. The text
 * is the JSON that ctsim's serialize_packet makes, in one line and without blanks, its fields in this
 * order:
 *   {"current_term":0,"last_accepted_term":null,"flags_bitmap":[true,false],"nack_term":0,"sender":0,
 *   "proposal_data":[116,120,48],"piggyback_term":null,"piggyback_data":[]}
 * Numbers are decimal, without leading zeros. There are n flags, for nodes 0 to n - 1: true for each
 * node that is among the packet's flags. A term that is not there is null, but a NACK that is not
 * there is 0. The data of term t are the bytes of "tx" and of t in decimal; data that are not there
 * are []. No NUL is written behind the text.
 *
 * A packet has a text exactly when n is 2 to 32, no node at or above n is among the flags, the sender
 * is below n, every term is below 64, a NACK's term is above 0, proposal data are of the current term,
 * and piggyback data are of the piggyback's term and never there without a piggyback. Each "whether"
 * has to be 0 or 1, and a term that is not there 0.
 *   packet    at least 13 places: the numbers of `enum ctsim_packet`
 *   flags     n, the number of flags; for a packet of a run its number of nodes, with which every
 *             packet of a preview has a text
 *   text      at least as many bytes as the text has; 366 are enough for any
 *   written   at least 1 place
 * Returns 0, 14 or 100.
 */
uint64_t ctsim_write_packet(const uint64_t *packet, size_t packet_length, uint64_t flags,
                            uint8_t *text, size_t text_length,
                            uint64_t *written, size_t written_length);

/*
 * Reads the text of a packet: writes its numbers to the first places of `packet`, and the number of
 * its flags to flags[0]. It takes exactly the texts that ctsim_write_packet writes: JSON with a blank,
 * with its fields in another order or with a number written otherwise is refused, and so is any byte
 * before or behind the text.
 *   text      the text, text_length bytes
 *   packet    at least 13 places: the numbers of `enum ctsim_packet`
 *   flags     at least 1 place
 * Returns 0, 14 or 100.
 */
uint64_t ctsim_read_packet(const uint8_t *text, size_t text_length,
                           uint64_t *packet, size_t packet_length,
                           uint64_t *flags, size_t flags_length);

/*
 * Runs a topology once with each of these seeds, and writes a line of seven numbers for each run.
 * Line i is that of seeds[i], whichever seeds stand before and behind it: seven of the numbers that
 * ctsim_run_topology writes to the summary for that seed. The network is built and measured once, and
 * no log, record or snapshot is written.
 *   topology to limit  as for ctsim_run_topology, without the seed; interval is tested, and changes
 *                      no number
 *   seeds              at most 65,536; any numbers, equal ones too. None: no line is written
 *   table              at least 7 places for each seed: table[7 * i] and on has the numbers of `enum
 *                      ctsim_swept` for the run of seeds[i]
 *   rounds             at least 1 place: rounds[0] is the sum of all lines' rounds, at most
 *                      seeds_length * (P + 1,002)
 * Returns 0, 1, 2, 3, 5 to 9, 15, 16, or 100.
 */
uint64_t ctsim_sweep_topology(uint64_t topology, uint64_t first, uint64_t second,
                              uint64_t repeats, uint64_t round_slots_given, uint64_t round_slots,
                              double loss, uint64_t proposals, uint64_t interval, uint64_t limit,
                              const uint64_t *seeds, size_t seeds_length,
                              uint64_t *table, size_t table_length,
                              uint64_t *rounds, size_t rounds_length);

/*
 * Runs n nodes with these rows once with each of these seeds. Rows are as for ctsim_diameter, all
 * else as for ctsim_sweep_topology.
 * Returns 0, 2, 4 to 9, 15, 16, or 100.
 */
uint64_t ctsim_sweep_rows(const uint32_t *rows, size_t rows_length, uint64_t n,
                          uint64_t repeats, uint64_t round_slots_given, uint64_t round_slots,
                          double loss, uint64_t proposals, uint64_t interval, uint64_t limit,
                          const uint64_t *seeds, size_t seeds_length,
                          uint64_t *table, size_t table_length,
                          uint64_t *rounds, size_t rounds_length);

/*
 * Says whether a configuration of a topology that was filed earlier would still be run. Nothing is run
 * and nothing is written. Round slots below the repeats were once allowed, and runs of such rounds, in
 * which no node reaches sleep, may have been filed as results.
 *   topology to limit  as for ctsim_run_topology; any numbers
 * Returns CTSIM_CURRENT, 0, if a run of it, with slices that are long enough, would return 0;
 * CTSIM_OUTDATED, 16, if 16 alone of 1 to 9 and 16 refuses it; else the first other refusal, 1, 2, 3 or
 * 5 to 9: where 16 and 8 refuse it, this is 8, though a run of it returns 16.
 */
uint64_t ctsim_validity_topology(uint64_t topology, uint64_t first, uint64_t second,
                                 uint64_t repeats, uint64_t round_slots_given, uint64_t round_slots,
                                 double loss, uint64_t seed,
                                 uint64_t proposals, uint64_t interval, uint64_t limit);

/*
 * Says whether a configuration of n nodes with these rows would still be run. Rows are as for
 * ctsim_diameter, all else as for ctsim_validity_topology.
 * Returns 0, 16, 2, or 4 to 9.
 */
uint64_t ctsim_validity_rows(const uint32_t *rows, size_t rows_length, uint64_t n,
                             uint64_t repeats, uint64_t round_slots_given, uint64_t round_slots,
                             double loss, uint64_t seed,
                             uint64_t proposals, uint64_t interval, uint64_t limit);

/*
 * Runs a topology as ctsim_run_topology does, and files the run: its inputs, the first fifteen numbers
 * of its summary, its records, the snapshots that were stored and its logs. docs/ARCHIVE.md has the
 * format byte by byte.
 *   topology to limit         as for ctsim_run_topology
 *   logs, records, snapshots  as for ctsim_run_topology: afterwards they are as it leaves them, and
 *                             snapshots that don't fit are not in the file
 *   file                      the file, from its first byte on. CTSIM_FILE_LENGTH + 40 * (snapshots_length
 *                             / 5) bytes are always enough, and spare a run that only counts. Bytes behind
 *                             the file keep what they held
 *   written                   at least 1 place: written[0] is the number of the file's bytes
 * Returns 0, 1, 2, 3, 5 to 10, 16, 18, or 100. 18 comes behind the others; nothing is written with it either.
 */
uint64_t ctsim_file_topology(uint64_t topology, uint64_t first, uint64_t second,
                             uint64_t repeats, uint64_t round_slots_given, uint64_t round_slots,
                             double loss, uint64_t seed,
                             uint64_t proposals, uint64_t interval, uint64_t limit,
                             uint8_t *logs, size_t logs_length,
                             uint64_t *records, size_t records_length,
                             uint64_t *snapshots, size_t snapshots_length,
                             uint8_t *file, size_t file_length,
                             uint64_t *written, size_t written_length);

/*
 * Tells where the five sections of an archive file stand: inputs, totals, records, snapshots, logs.
 *   file   the whole file
 *   parts  at least 10 places: parts[2 * i] is the offset of section i's first byte in the file, and
 *          parts[2 * i + 1] how many bytes it has. All of them lie within the file
 * Returns 0, 17 or 100. What the sections hold is not looked at.
 */
uint64_t ctsim_file_sections(const uint8_t *file, size_t file_length,
                             uint64_t *parts, size_t parts_length);

/*
 * Checks an archive file: runs its first section afresh and compares what comes out with the other
 * four. It takes one run's time, whatever the number of snapshots.
 * Returns 0 if the file is byte for byte what ctsim_file_topology makes of its inputs with room for as
 * many snapshots; 17 if it breaks the layout; else 102 (CTSIM_NO), also where a run of its inputs is
 * refused.
 */
uint64_t ctsim_file_check(const uint8_t *file, size_t file_length);

/*
 * Says which of two archive files supersedes the other, and where its records stand, its third section.
 * The two have to agree, byte for byte, in every input field but the slot limit; fields that mean the same
 * and are other bytes, as loss rates of 0 and of minus 0, differ. The file with the larger limit
 * supersedes, and the first at equal limits. Nothing is run, and of what the sections hold the inputs
 * alone are looked at. If both files pass ctsim_file_check, the records of the other file are the
 * beginning of the records that are told of, byte for byte.
 *   first, second  the whole files; they may be the same bytes
 *   part           at least 3 places: the numbers of `enum ctsim_superseding`
 * Returns 0, 17 if one of the files breaks the layout, 19 if another field differs, or 100. It takes
 * little stack.
 */
uint64_t ctsim_file_supersede(const uint8_t *first, size_t first_length,
                              const uint8_t *second, size_t second_length,
                              uint64_t *part, size_t part_length);

#ifdef __cplusplus
}
#endif

#endif
