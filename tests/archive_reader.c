/*
 * A reader of the archive file, written from docs/ARCHIVE.md alone and without
 * the library. For each file that the arguments name (without one: for standard
 * input) it prints `refused 17`, or what the file holds as plain text:
 *
 *   inputs T F S R ROUND LOSS SEED P INTERVAL LIMIT
 *   totals, and the fifteen numbers
 *   record ID START END              (one line for each record)
 *   snapshot SLOT PROGRESS L F S     (one line for each stored snapshot)
 *   log NODE TERMS                   (one line for each node, at most 32)
 *
 * Absent round slots are `-`, the loss rate is its 16 hexadecimal digits, and a
 * count of more than 64 terms is taken as 64. tests/archive_reader.py prints the
 * same. Exit status: 0, or 2 if a file can't be read.
 */
#include <inttypes.h>
#include <stdint.h>
#include <stdio.h>
#include <stdlib.h>

enum { FIRST = 5, HEAD = 41, SECTIONS = 5, NODES = 32, TERMS = 64, COUNTS = 2048 };
enum { INPUTS, TOTALS, RECORDS, SNAPSHOTS, LOGS };

/* The whole of one file. */
struct file {
    unsigned char *bytes;
    size_t length;
};

/* Where the sections lie. */
struct layout {
    uint64_t start[SECTIONS];
    uint64_t size[SECTIONS];
};

/* Reads all of `in`; 0 if that fails. */
static int read_whole(FILE *in, struct file *file)
{
    size_t room = 0;
    size_t got;
    file->bytes = NULL;
    file->length = 0;
    do {
        if (file->length == room) {
            unsigned char *more;
            room = room == 0 ? 4096 : 2 * room;
            more = realloc(file->bytes, room);
            if (more == NULL)
                return 0;
            file->bytes = more;
        }
        got = fread(file->bytes + file->length, 1, room - file->length, in);
        file->length += got;
    } while (got != 0);
    return !ferror(in);
}

/* The number of `size` bytes at `at`, the lowest byte first. */
static uint64_t number(const struct file *file, uint64_t at, unsigned size)
{
    uint64_t x = 0;
    while (size-- > 0)
        x = 256 * x + file->bytes[at + size];
    return x;
}

/* The tests of section 5; 0 if one of them fails. Sums have 64 bits. */
static int find_sections(const struct file *file, struct layout *layout)
{
    uint64_t end = HEAD;
    uint64_t i;
    if (file->length < HEAD || file->bytes[0] != FIRST)
        return 0;
    for (i = 0; i < SECTIONS; i++) {
        layout->start[i] = number(file, 1 + 8 * i, 4);
        layout->size[i] = number(file, 5 + 8 * i, 4);
        if (layout->start[i] != end)
            return 0;
        end = layout->start[i] + layout->size[i];
    }
    return end == file->length && layout->size[INPUTS] == 80 && layout->size[TOTALS] == 120
        && layout->size[RECORDS] % 24 == 0 && layout->size[SNAPSHOTS] % 40 == 0
        && layout->size[LOGS] == 2080;
}

/* The inputs: the round slots may be absent, the loss rate is a bit pattern. */
static void print_inputs(const struct file *file, uint64_t start)
{
    unsigned k;
    printf("inputs");
    for (k = 0; k < 10; k++) {
        uint64_t x = number(file, start + 8 * k, 8);
        if (k == 4 && x == UINT64_MAX)
            printf(" -");
        else if (k == 5)
            printf(" %016" PRIx64, x);
        else
            printf(" %" PRIu64, x);
    }
    printf("\n");
}

/* A section of rows of `width` numbers, one line for each row. */
static void print_rows(const struct file *file, const struct layout *layout, int section,
                       const char *name, unsigned width)
{
    uint64_t at = layout->start[section];
    uint64_t end = at + layout->size[section];
    while (at < end) {
        unsigned k;
        printf("%s", name);
        for (k = 0; k < width; k++, at += 8)
            printf(" %" PRIu64, number(file, at, 8));
        printf("\n");
    }
}

/* The logs of the nodes that the totals tell, as far as there is place for them. */
static void print_logs(const struct file *file, uint64_t start, uint64_t nodes)
{
    uint64_t i;
    for (i = 0; i < nodes && i < NODES; i++) {
        unsigned count = file->bytes[start + COUNTS + i];
        unsigned j;
        printf("log %" PRIu64, i);
        for (j = 0; j < count && j < TERMS; j++)
            printf(" %u", (unsigned)file->bytes[start + TERMS * i + j]);
        printf("\n");
    }
}

static void print_file(const struct file *file)
{
    struct layout layout;
    if (!find_sections(file, &layout)) {
        printf("refused 17\n");
        return;
    }
    print_inputs(file, layout.start[INPUTS]);
    print_rows(file, &layout, TOTALS, "totals", 15);
    print_rows(file, &layout, RECORDS, "record", 3);
    print_rows(file, &layout, SNAPSHOTS, "snapshot", 5);
    print_logs(file, layout.start[LOGS], number(file, layout.start[TOTALS], 8));
}

/* Reads and prints one file; 0 if it can't be read. */
static int print_stream(FILE *in)
{
    struct file file;
    int whole = in != NULL && read_whole(in, &file);
    if (whole)
        print_file(&file);
    if (in != NULL)
        free(file.bytes);
    return whole;
}

int main(int count, char **names)
{
    int i;
    if (count < 2)
        return print_stream(stdin) ? 0 : 2;
    for (i = 1; i < count; i++) {
        FILE *in = fopen(names[i], "rb");
        int whole = print_stream(in);
        if (in != NULL)
            fclose(in);
        if (!whole) {
            fprintf(stderr, "%s: can't be read\n", names[i]);
            return 2;
        }
    }
    return 0;
}
