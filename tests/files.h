/* The tests of archive files: the writer and the sections (files.c), and the check on files that are right,
 * damaged and large (damage.c); and what the tests of two files (pairs.c) share with them. */
#ifndef FILES_H
#define FILES_H

#include "check.h"

/* How many bytes the file of the printed run has, and that of it without a slot. */
#define PRINTED_FILE 2465
#define LEAST_FILE 2321

/* All tests of archive files. */
void test_files(void);

/* The part of them that is in damage.c. */
void test_damage(void);

/* The printed run, and the bytes of its file. */
extern const struct run printed_run;
extern const uint8_t printed_file[PRINTED_FILE];

/* The places that a file is written to. */
extern uint8_t file[4200];
extern uint64_t written[4];

/* Marks all places, and files the run into those behind the first 8 bytes of each array. */
uint64_t file_run(const struct run *r);

/* Files a run with this limit and room for snapshots. The file passes the check. Its length. */
size_t right_file(struct run r, uint64_t limit, size_t room, uint8_t *out);

/* Puts a number of so many bytes, the lowest first, and takes it. */
void put(uint8_t *at, uint64_t x, size_t size);
uint64_t take(const uint8_t *at, size_t size);

/* The five sections of a file. */
struct sections {
    const uint8_t *bytes[5];
    size_t length[5];
};

/* Puts a file of these sections, with the directory that they need. Its length. */
size_t put_file(const struct sections *s, uint8_t *out);

/* The sections of a file, as its directory has them. */
struct sections split(const uint8_t *bytes);

/* An end of bytes behind which none can be read. */
uint8_t *make_edge(void);

/* Calls in a thread with so many bytes of stack, and waits for its end. */
void call_in_stack(void *(*call)(void *), void *given, size_t stack);

#endif
