/*
 * The tests of texts: ones that are damaged, whose fields are not the eight in their order, and whose
 * values are written well or otherwise.
 */
#include <stdio.h>
#include <string.h>

#include "check.h"
#include "texts.h"
#include "wire.h"

/* The example with one byte at a place, in place of `cut` of its own. Its length. */
static size_t spliced(char *out, size_t place, size_t cut, int byte)
{
    size_t length = strlen(example);

    memcpy(out, example, place);
    out[place] = (char)byte;
    memcpy(out + place + 1, example + place + cut, length - place - cut);
    return length + 1 - cut;
}

/* How many of the texts are read that have any byte at a place, in place of `cut` of the example's. The
 * example itself does not count. */
static size_t count_read(size_t place, size_t cut)
{
    char out[TEXT_ROOM];
    size_t count = 0;
    int byte;

    for (byte = 0; byte < 256; byte++) {
        size_t length = spliced(out, place, cut, byte);

        if (cut == 0 || out[place] != example[place])
            count += read_packet(out, length, of_text(length)) == 0;
    }
    return count;
}

/* Of all texts that one byte makes of the example, those are read that have another NACK or sender. */
static void test_one_byte(void)
{
    size_t length = strlen(example), changed = 0, inserted = 0, i;
    size_t nack = (size_t)(strstr(example, "nack_term\":") - example) + strlen("nack_term\":");
    size_t sender = (size_t)(strstr(example, "sender\":") - example) + strlen("sender\":");

    for (i = 0; i < length; i++)
        changed += count_read(i, 1);
    for (i = 0; i <= length; i++)
        inserted += count_read(i, 0);
    check(count_read(nack, 1) == 9, "one byte: NACKs of terms 1 to 9");
    check(count_read(sender, 1) == 1, "one byte: sender 1");
    check(changed == 10, "one byte: no other change is read");
    check(count_read(nack, 0) == 6, "one byte: NACKs of terms 10, 20 .. 60");
    check(inserted == 6, "one byte: no other byte more is read");
}

/* The example without byte i, with it twice, or with a blank for it; and its first or last i bytes. */
static void damaged_at(size_t i)
{
    char out[TEXT_ROOM];
    size_t length = strlen(example), n;

    memcpy(out, example, i);
    memcpy(out + i, example + i + 1, length - i - 1);
    no_text(out, length - 1, "damaged: a byte less, 14");
    n = spliced(out, i, 0, example[i]); no_text(out, n, "damaged: a byte twice, 14");
    n = spliced(out, i, 1, ' '); no_text(out, n, "damaged: a blank in place of a byte, 14");
    unread(example, length, of_text(i), CTSIM_REFUSED_TEXT, "damaged: cut, 14");
    no_text(example + length - i, i, "damaged: an end alone, 14");
}

void test_damaged(void)
{
    static const char blanks[] = " \t\n\r";
    char out[TEXT_ROOM];
    size_t length = strlen(example), i, k, n;

    for (i = 0; i < length; i++)
        damaged_at(i);
    for (i = 0; i <= length; i++)
        for (k = 0; k < 4; k++) {
            n = spliced(out, i, 0, blanks[k]); no_text(out, n, "damaged: a blank more, 14");
        }
    n = spliced(out, length, 0, 0); no_text(out, n, "damaged: NUL behind, 14");
    n = spliced(out, length, 0, '}'); no_text(out, n, "damaged: a brace behind, 14");
    n = spliced(out, 0, 0, 0); no_text(out, n, "damaged: NUL in front, 14");
    sprintf(out, "%s%s", example, example); no_text(out, 2 * length, "damaged: two texts, 14");
    sprintf(out, "\xef\xbb\xbf%s", example); no_text(out, length + 3, "damaged: a byte order mark, 14");
    test_one_byte();
}

/* A field of a text, and its value. */
struct field {
    const char *name, *value;
};

/* The fields of a text, in their order. */
enum place { TERM, LAST_ACCEPTED, FLAGS, NACK, SENDER, DATA, PIGGYBACK, PIGGYBACK_DATA, FIELDS };

static const struct field fields[FIELDS] = {
    {"current_term", "12"}, {"last_accepted_term", "null"}, {"flags_bitmap", "[true,false]"},
    {"nack_term", "0"}, {"sender", "0"}, {"proposal_data", "[]"}, {"piggyback_term", "12"},
    {"piggyback_data", "[]"},
};

/* The text of these fields, with this between two of them, and that between name and value. */
static const char *spaced(const struct field *f, size_t count, const char *comma, const char *colon)
{
    static char made[TEXT_ROOM];
    char *at = made;
    size_t i;

    at += sprintf(at, "{");
    for (i = 0; i < count; i++)
        at += sprintf(at, "%s\"%s\"%s%s", i == 0 ? "" : comma, f[i].name, colon, f[i].value);
    sprintf(at, "}");
    return made;
}

static const char *joined(const struct field *f, size_t count)
{
    return spaced(f, count, ",", ":");
}

static void not_read(const char *made, const char *what)
{
    no_text(made, strlen(made), what);
}

/* The text is read, and is what is written of the answer. */
static void read_again(const char *made, const char *what)
{
    size_t length = strlen(made);

    check(read_packet(made, length, of_text(length)) == 0, what);
    writes(last_read(), enough, made, what);
}

/* Two fields in each other's place, and one in place of another. */
static void exchanged(size_t i, size_t k)
{
    struct field f[FIELDS];

    memcpy(f, fields, sizeof fields);
    f[i] = fields[k]; not_read(joined(f, FIELDS), "fields: one in place of another, 14");
    f[k] = fields[i]; not_read(joined(f, FIELDS), "fields: two exchanged, 14");
}

static void left_out(size_t i)
{
    struct field f[FIELDS];

    memcpy(f, fields, i * sizeof *f);
    memcpy(f + i, fields + i + 1, (FIELDS - i - 1) * sizeof *f);
    not_read(joined(f, FIELDS - 1), "fields: one left out, 14");
}

/* Any field once more before field i, and one that no text has. */
static void one_more(size_t i)
{
    static const struct field other = {"round", "0"};
    struct field f[FIELDS + 1];
    size_t k;

    memcpy(f, fields, i * sizeof *f);
    memcpy(f + i + 1, fields + i, (FIELDS - i) * sizeof *f);
    for (k = 0; k < FIELDS; k++) {
        f[i] = fields[k]; not_read(joined(f, FIELDS + 1), "fields: one repeated, 14");
    }
    f[i] = other; not_read(joined(f, FIELDS + 1), "fields: one too many, 14");
}

static void renamed(size_t i, const char *name)
{
    struct field f[FIELDS];

    memcpy(f, fields, sizeof fields);
    f[i].name = name; not_read(joined(f, FIELDS), "fields: another name, 14");
}

void test_fields(void)
{
    size_t i, k;

    read_again(joined(fields, FIELDS), "fields: a text");
    for (i = 0; i < FIELDS; i++) {
        left_out(i);
        for (k = 0; k < i; k++)
            exchanged(i, k);
    }
    for (i = 0; i <= FIELDS; i++)
        one_more(i);
    renamed(SENDER, "\\u0073ender");
    renamed(SENDER, "Sender");
    renamed(SENDER, "");
    not_read(spaced(fields, FIELDS, ", ", ":"), "fields: blanks after commas, 14");
    not_read(spaced(fields, FIELDS, ",", ": "), "fields: blanks after colons, 14");
    not_read(spaced(fields, FIELDS, ", ", ": "), "fields: blanks after both, 14");
    not_read(spaced(fields, FIELDS, ",\n", ":"), "fields: a line each, 14");
    not_read("{}", "fields: none, 14");
    not_read("", "fields: no byte, 14");
    not_read("null", "fields: null, 14");
    not_read("[0,null,[true,false],0,0,[116,120,48],null,[]]", "fields: without names, 14");
}

/* The text of all fields, one of them with this value. */
static const char *with_value(enum place place, const char *value)
{
    struct field f[FIELDS];

    memcpy(f, fields, sizeof fields);
    f[place].value = value;
    return joined(f, FIELDS);
}

/* Values of a number, and what is none. */
static void number_values(enum place place)
{
    static const char *const good[] = {"0", "1"};
    static const char *const bad[] = {
        "", "00", "01", "001", "1.0", "0.0", "1e0", "0e0", "1E0", "10e-1", "-0", "-1", "+0", "+1", ".0",
        "0.", "0x0", " 0", "0 ", "0,", "0,0", "\"0\"", "[0]", "[]", "{}", "true", "false", "NaN", "null0",
        "/", ":", "0/", "0:", "64", "100", "256", "4294967296", "18446744073709551616",
        "18446744073709551617", "340282366920938463463374607431768211456",
    };
    size_t i;

    for (i = 0; i < COUNT(good); i++)
        read_again(with_value(place, good[i]), "values: a number");
    for (i = 0; i < COUNT(bad); i++)
        not_read(with_value(place, bad[i]), "values: no number, 14");
}

/* Values of a term that may be none, and of one that may not. */
static void null_values(enum place place, int may)
{
    static const char *const bad[] = {"NULL", "Null", "nul", "nulll", "none", "\"null\"", "[null]"};
    size_t i;

    if (may)
        read_again(with_value(place, "null"), "values: null");
    else
        not_read(with_value(place, "null"), "values: no null here, 14");
    for (i = 0; i < COUNT(bad); i++)
        not_read(with_value(place, bad[i]), "values: not null, 14");
}

/* Values of the data of term 12. */
static void data_values(enum place place)
{
    static const char *const bad[] = {
        "", "null", "[null]", "\"tx12\"", "tx12", "[\"t\",\"x\",\"1\",\"2\"]", "[12]", "[116]", "[116,120]",
        "[116,120,12]", "[116,120,49]", "[116,120,50]", "[116,120,50,49]", "[116,120,49,51]",
        "[116,120,48,49,50]", "[116,120,49,50,48]", "[116,120,49,50,46,48]", "[116,120,49,50,0]",
        "[116,120,32,49,50]", "[116,120,43,49,50]", "[84,88,49,50]", "[116,121,49,50]", "[117,120,49,50]",
        "[120,116,49,50]", "[0,116,120,49,50]", "[0116,120,49,50]", "[116,120,049,50]", "[116,120,305,50]",
        "[116,120,4294967345,50]", "[372,120,49,50]", "[116,120,49.0,50]", "[116,120,4.9e1,50]",
        "[116, 120, 49, 50]", "[ 116,120,49,50]", "[116,120,49,50 ]", "[116,120,49,50,]",
        "[,116,120,49,50]", "[116,,120,49,50]", "[116,120,49,50", "116,120,49,50]", "[116 120 49 50]",
        "[[116,120,49,50]]", "[116,120,49,50]]", "{116,120,49,50}", "[116,120,-49,50]",
        "[116,120,+49,50]", "[ ]", "[,]", "[[]]",
    };
    size_t i;

    read_again(with_value(place, "[]"), "values: no data");
    read_again(with_value(place, "[116,120,49,50]"), "values: data");
    for (i = 0; i < COUNT(bad); i++)
        not_read(with_value(place, bad[i]), "values: no data of term 12, 14");
}

/* The text with this term and data, of the proposal or of the piggyback. */
static const char *with_data(enum place term, const char *value, enum place data, const char *bytes)
{
    struct field f[FIELDS];

    memcpy(f, fields, sizeof fields);
    f[term].value = value;
    f[data].value = bytes;
    return joined(f, FIELDS);
}

/* Data of other terms: their digits, one more or less of them, and zeros in front. */
static void digits_values(enum place term, enum place data)
{
    static const struct { const char *term, *data; } good[] = {
        {"0", "[116,120,48]"}, {"1", "[116,120,49]"}, {"9", "[116,120,57]"}, {"10", "[116,120,49,48]"},
        {"63", "[116,120,54,51]"},
    };
    static const struct { const char *term, *data; } bad[] = {
        {"0", "[116,120]"}, {"0", "[116,120,]"}, {"0", "[116,120,48,48]"}, {"0", "[116,120,0]"},
        {"0", "[116,120,48,0]"}, {"0", "[48]"}, {"0", "[116,120,45,48]"}, {"1", "[116,120,48,49]"},
        {"1", "[116,120,49,48]"}, {"10", "[116,120,49]"}, {"10", "[116,120,58]"}, {"9", "[116,120,48,57]"},
        {"63", "[116,120,54]"}, {"63", "[116,120,51,54]"}, {"64", "[116,120,54,52]"}, {"null", "[116,120]"},
        {"null", "[116,120,48]"}, {"null", "[116,120,110,117,108,108]"},
    };
    size_t i;

    for (i = 0; i < COUNT(good); i++)
        read_again(with_data(term, good[i].term, data, good[i].data), "values: data of a term");
    for (i = 0; i < COUNT(bad); i++)
        not_read(with_data(term, bad[i].term, data, bad[i].data), "values: no data of this term, 14");
}

/* Values of the flags. */
static void flags_values(void)
{
    static const char *const bad[] = {
        "", "null", "[]", "[true]", "[false]", "[TRUE,false]", "[True,false]", "[true,FALSE]",
        "[true,False]", "[1,0]", "[true,0]", "[true,null]", "[\"true\",\"false\"]", "[tru,false]",
        "[truee,false]", "[true,fals]", "[true,falsee]", "[truefalse]", "[true false]", "[true, false]",
        "[ true,false]", "[true,false ]", "[true,false,]", "[,true,false]", "[true,,false]",
        "[true,false", "true,false]", "[[true,false]]", "[true,false]]", "{true,false}",
        "\"true,false\"", "[t,f]", "[true;false]", "3", "true",
    };
    size_t i;

    read_again(with_value(FLAGS, "[false,false]"), "values: flags");
    read_again(with_value(FLAGS, "[false,true,true]"), "values: flags");
    for (i = 0; i < COUNT(bad); i++)
        not_read(with_value(FLAGS, bad[i]), "values: no flags, 14");
}

void test_values(void)
{
    number_values(TERM); null_values(TERM, 0);
    number_values(LAST_ACCEPTED); null_values(LAST_ACCEPTED, 1);
    number_values(NACK); null_values(NACK, 0);
    number_values(SENDER); null_values(SENDER, 0);
    number_values(PIGGYBACK); null_values(PIGGYBACK, 1);
    read_again(with_value(TERM, "63"), "values: the greatest term");
    read_again(with_value(LAST_ACCEPTED, "63"), "values: the greatest term");
    read_again(with_value(NACK, "63"), "values: the greatest term");
    read_again(with_value(PIGGYBACK, "63"), "values: the greatest term");
    not_read(with_value(SENDER, "2"), "values: sender 2 of two, 14");
    flags_values();
    data_values(DATA);
    data_values(PIGGYBACK_DATA);
    digits_values(TERM, DATA);
    digits_values(PIGGYBACK, PIGGYBACK_DATA);
}
