/*
 * What the tests of packets and of their texts share: a packet, its text by the rules, and calls of the
 * writer and of the reader with marked places.
 */
#ifndef WIRE_H
#define WIRE_H

#include "ctsim.h"

/* Every text that is tried fits into that many bytes, also one that is refused. */
#define TEXT_ROOM 2000

/* A packet, and how many flags its text has. */
struct wire {
    uint64_t packet[CTSIM_PACKET_LENGTH], flags;
};

/* How many places the slices of a call have: the packet's, the text's, and that of the single number. */
struct places {
    size_t packet, text, single;
};

/* Places for every packet and its text. */
extern const struct places enough;

/* Places for a text of this length, and enough else. */
struct places of_text(size_t length);

/* The text that include/ctsim.h shows. */
extern const char example[];

/* The text of a packet by the rules, also of one that breaks them. The next call overwrites it. */
const char *text_of(const struct wire *w);

/* Marks all places, and writes into those behind the first 8 bytes of each array. */
uint64_t write_packet(const struct wire *w, struct places has);

/* Marks all places, puts these bytes behind the first 8 of the text, and reads as many as the slice has. */
uint64_t read_packet(const char *bytes, size_t size, struct places has);

/* The packet that read_packet has just read. */
struct wire last_read(void);

/* The packet is written as this text, and nothing else is. */
void writes(struct wire w, struct places has, const char *want, const char *what);

/* The packet is refused by this number, and nothing is written. */
void unwritten(struct wire w, struct places has, uint64_t number, const char *what);

/* The whole text is read as this packet, and nothing else is written; `has` need not say its length. */
void reads(const char *bytes, struct places has, struct wire want, const char *what);

/* The text is refused by this number, and nothing is written. */
void unread(const char *bytes, size_t size, struct places has, uint64_t number, const char *what);

/* The bytes are no text. */
void no_text(const char *bytes, size_t length, const char *what);

/* The packet is written into as many bytes as its text has, and read back. */
void both_ways(struct wire w, const char *what);

/* The packet is not written, whatever the room. */
void not_written(struct wire w, const char *what);

/* The packet is not written, and what would be its text is not read. */
void neither_way(struct wire w, const char *what);

#endif
