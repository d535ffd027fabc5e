#include <inttypes.h>
#include <stdio.h>
#include <string.h>

#include "check.h"
#include "wire.h"

const struct places enough = {CTSIM_PACKET_LENGTH, CTSIM_TEXT_LENGTH, 1};

const char example[] =
    "{\"current_term\":0,\"last_accepted_term\":null,\"flags_bitmap\":[true,false],\"nack_term\":0,"
    "\"sender\":0,\"proposal_data\":[116,120,48],\"piggyback_term\":null,\"piggyback_data\":[]}";

static uint64_t packet[20], single[4];
static uint8_t text[8 + TEXT_ROOM + 8];

/* Marks all places. */
static void mark(void)
{
    memset(packet, MARK, sizeof packet);
    memset(text, MARK, sizeof text);
    memset(single, MARK, sizeof single);
}

uint64_t write_packet(const struct wire *w, struct places has)
{
    mark();
    memcpy(packet + 1, w->packet, sizeof w->packet);
    return ctsim_write_packet(packet + 1, has.packet, w->flags, text + 8, has.text, single + 1, has.single);
}

uint64_t read_packet(const char *bytes, size_t size, struct places has)
{
    mark();
    memcpy(text + 8, bytes, size);
    return ctsim_read_packet(text + 8, has.text, packet + 1, has.packet, single + 1, has.single);
}

struct wire last_read(void)
{
    struct wire w;

    memcpy(w.packet, packet + 1, sizeof w.packet);
    w.flags = single[1];
    return w;
}

void writes(struct wire w, struct places has, const char *want, const char *what)
{
    uint64_t length = strlen(want);

    check(write_packet(&w, has) == 0, what);
    check(holds(text, sizeof text, 8, want, length) && holds(single, sizeof single, 8, &length, 8)
          && holds(packet, sizeof packet, 8, w.packet, sizeof w.packet), what);
}

void unwritten(struct wire w, struct places has, uint64_t number, const char *what)
{
    check(write_packet(&w, has) == number, what);
    check(kept(text, text + COUNT(text)) && kept(single, single + COUNT(single))
          && holds(packet, sizeof packet, 8, w.packet, sizeof w.packet), what);
}

void reads(const char *bytes, struct places has, struct wire want, const char *what)
{
    size_t length = strlen(bytes);

    has.text = length;
    check(read_packet(bytes, length, has) == 0, what);
    check(holds(packet, sizeof packet, 8, want.packet, sizeof want.packet)
          && holds(single, sizeof single, 8, &want.flags, 8)
          && holds(text, sizeof text, 8, bytes, length), what);
}

void unread(const char *bytes, size_t size, struct places has, uint64_t number, const char *what)
{
    check(read_packet(bytes, size, has) == number, what);
    check(kept(packet, packet + COUNT(packet)) && kept(single, single + COUNT(single))
          && holds(text, sizeof text, 8, bytes, size), what);
}

struct places of_text(size_t length)
{
    struct places has = enough;

    has.text = length;
    return has;
}

void no_text(const char *bytes, size_t length, const char *what)
{
    unread(bytes, length, of_text(length), CTSIM_REFUSED_TEXT, what);
}

/* Puts a term, or null. */
static char *put_term(char *at, uint64_t given, uint64_t term)
{
    if (given == 0)
        return at + sprintf(at, "null");
    return at + sprintf(at, "%" PRIu64, term);
}

/* Puts the data of a term, or none. */
static char *put_data(char *at, uint64_t given, uint64_t term)
{
    char digits[24];
    const char *d = digits;

    if (given == 0)
        return at + sprintf(at, "[]");
    sprintf(digits, "%" PRIu64, term);
    for (at += sprintf(at, "[116,120"); *d != 0; d++)
        at += sprintf(at, ",%d", 48 + (*d - '0'));
    return at + sprintf(at, "]");
}

/* Puts the first n flags; those above 63 are false. */
static char *put_flags(char *at, uint64_t flags, uint64_t n)
{
    uint64_t i;

    at += sprintf(at, "[");
    for (i = 0; i < n; i++) {
        int set = i < 64 && (flags >> i & 1);

        at += sprintf(at, "%s%s", i == 0 ? "" : ",", set ? "true" : "false");
    }
    return at + sprintf(at, "]");
}

const char *text_of(const struct wire *w)
{
    static char made[TEXT_ROOM];
    const uint64_t *p = w->packet;
    char *at = made;

    at += sprintf(at, "{\"current_term\":%" PRIu64 ",\"last_accepted_term\":", p[CTSIM_PACKET_TERM]);
    at = put_term(at, p[CTSIM_PACKET_LAST_ACCEPTED_GIVEN], p[CTSIM_PACKET_LAST_ACCEPTED]);
    at += sprintf(at, ",\"flags_bitmap\":");
    at = put_flags(at, p[CTSIM_PACKET_FLAGS], w->flags);
    at += sprintf(at, ",\"nack_term\":%" PRIu64, p[CTSIM_PACKET_NACK]);
    at += sprintf(at, ",\"sender\":%" PRIu64 ",\"proposal_data\":", p[CTSIM_PACKET_SENDER]);
    at = put_data(at, p[CTSIM_PACKET_DATA_GIVEN], p[CTSIM_PACKET_DATA]);
    at += sprintf(at, ",\"piggyback_term\":");
    at = put_term(at, p[CTSIM_PACKET_PIGGYBACK_GIVEN], p[CTSIM_PACKET_PIGGYBACK]);
    at += sprintf(at, ",\"piggyback_data\":");
    at = put_data(at, p[CTSIM_PACKET_PIGGYBACK_DATA_GIVEN], p[CTSIM_PACKET_PIGGYBACK_DATA]);
    sprintf(at, "}");
    return made;
}

void both_ways(struct wire w, const char *what)
{
    const char *made = text_of(&w);

    writes(w, of_text(strlen(made)), made, what);
    reads(made, enough, w, what);
}

void not_written(struct wire w, const char *what)
{
    unwritten(w, of_text(TEXT_ROOM), CTSIM_REFUSED_TEXT, what);
}

void neither_way(struct wire w, const char *what)
{
    const char *made = text_of(&w);

    not_written(w, what);
    no_text(made, strlen(made), what);
}
