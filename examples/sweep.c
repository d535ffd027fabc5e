/*
 * sweep: one configuration run once with each of many seeds, on all processors.
 *
 * Its words are the first seed, how many seeds, and the words of ./ctsim's line but for the seed:
 * topology, first, second, repeats, round slots or -, loss as 16 hexadecimal digits, proposals, interval
 * and limit. Seeds count up by 1; behind the greatest comes 0. For each seed, in this order, it prints a
 * line: rounds, slots, listen, flood, sleep, records, and the number of the run's end. Its progress goes
 * to standard error. -j says how many threads work; else as many as there are processors. Status 0: done;
 * 1: refused, or not every byte was written; 2: wrong words.
 *
 * Threads take chunks of seeds, one after the other, and sweep each with one call. A chunk's lines wait
 * in a ring until the main thread prints them, in order. So the lines are the same for any number of
 * threads, and the memory for any number of seeds.
 */
#define _POSIX_C_SOURCE 200112L

#include <pthread.h>
#include <stdio.h>
#include <stdlib.h>
#include <string.h>
#include <unistd.h>

#include "ctsim.h"
#include "words.h"

enum {
    MAX_THREADS = 1024,
    MAX_CHUNK = 1024,      /* seeds in a chunk */
    RING_A_THREAD = 4,     /* chunks in the ring for each thread */
    STACK_LENGTH = 1 << 18 /* bytes for a thread: the library takes about 60,000 */
};

const char program[] = "sweep";
const char usage[] =
    "usage: sweep [-j THREADS] FROM COUNT TOPOLOGY FIRST SECOND REPEATS ROUND-SLOTS|- LOSS PROPOSALS "
    "INTERVAL LIMIT\n";

/* What is run with each seed. */
struct config {
    uint64_t topology, first, second, repeats, given, round_slots;
    double loss;
    uint64_t proposals, interval, limit;
};

/* A place of the ring: whether it holds lines that are to be printed, and the sum of their rounds. */
struct chunk {
    int swept;
    uint64_t rounds, table[MAX_CHUNK * CTSIM_SWEPT_LENGTH];
};

/* What the threads share. Chunk k is of seeds k * size and on, and in place k modulo places. The lock is
 * for the numbers of chunks that are taken and printed, and for each chunk's `swept`. */
struct work {
    struct config config;
    uint64_t from, count, size, chunks, threads, places;
    struct chunk *ring;
    pthread_mutex_t lock;
    pthread_cond_t printed_one, swept_one;
    uint64_t taken, printed;
};

static void fail(const char *what)
{
    fprintf(stderr, "sweep: %s\n", what);
    exit(1);
}

/* The configuration of nine words. */
static struct config config_of(char **word)
{
    struct config c;

    c.topology = number(word[0], 10);
    c.first = number(word[1], 10);
    c.second = number(word[2], 10);
    c.repeats = number(word[3], 10);
    c.given = strcmp(word[4], "-") != 0;
    c.round_slots = c.given ? number(word[4], 10) : 0;
    c.loss = loss_rate(word[5]);
    c.proposals = number(word[6], 10);
    c.interval = number(word[7], 10);
    c.limit = number(word[8], 10);
    return c;
}

/* Sweeps n seeds into a table of n lines. */
static uint64_t sweep(const struct config *c, const uint64_t *seeds, size_t n, uint64_t *table,
                      uint64_t *rounds)
{
    return ctsim_sweep_topology(c->topology, c->first, c->second, c->repeats, c->given, c->round_slots,
                                c->loss, c->proposals, c->interval, c->limit,
                                seeds, n, table, CTSIM_SWEPT_LENGTH * n, rounds, 1);
}

/* What the library answers for no seeds: whether it takes the configuration. */
static uint64_t asked(const struct config *c)
{
    const uint64_t seeds[1] = {0};
    uint64_t table[1], rounds[1];

    return sweep(c, seeds, 0, table, rounds);
}

/* How many seeds chunk k has: the last one may have fewer than the others. */
static size_t seeds_of(const struct work *w, uint64_t k)
{
    uint64_t left = w->count - k * w->size;

    return left < w->size ? left : w->size;
}

/* Takes the next chunk, once its place in the ring is free. Whether there is one. */
static int take(struct work *w, uint64_t *k)
{
    int some;

    pthread_mutex_lock(&w->lock);
    while (w->taken < w->chunks && w->taken - w->printed == w->places)
        pthread_cond_wait(&w->printed_one, &w->lock);
    some = w->taken < w->chunks;
    if (some)
        *k = w->taken++;
    pthread_mutex_unlock(&w->lock);
    return some;
}

/* A thread: sweeps chunks until none is left. */
static void *sweep_chunks(void *shared)
{
    struct work *w = shared;
    uint64_t seeds[MAX_CHUNK], k;

    while (take(w, &k)) {
        struct chunk *c = &w->ring[k % w->places];
        size_t i, n = seeds_of(w, k);

        for (i = 0; i < n; i++)
            seeds[i] = w->from + k * w->size + i;
        if (sweep(&w->config, seeds, n, c->table, &c->rounds) != CTSIM_DONE)
            abort(); /* never: the configuration was taken, and the table fits */
        pthread_mutex_lock(&w->lock);
        c->swept = 1;
        pthread_cond_signal(&w->swept_one);
        pthread_mutex_unlock(&w->lock);
    }
    return NULL;
}

static void print_lines(const uint64_t *table, size_t lines)
{
    size_t i;

    for (i = 1; i <= CTSIM_SWEPT_LENGTH * lines; i++, table++)
        printf("%llu%c", (unsigned long long)*table, i % CTSIM_SWEPT_LENGTH == 0 ? '\n' : ' ');
    if (fflush(stdout) != 0 || ferror(stdout))
        fail("standard output did not take every byte");
}

/* Waits for chunk k, the next one, prints it, and frees its place. The sum of its rounds. */
static uint64_t print_chunk(struct work *w, uint64_t k)
{
    struct chunk *c = &w->ring[k % w->places];
    uint64_t rounds;

    pthread_mutex_lock(&w->lock);
    while (!c->swept)
        pthread_cond_wait(&w->swept_one, &w->lock);
    pthread_mutex_unlock(&w->lock);
    print_lines(c->table, seeds_of(w, k));
    rounds = c->rounds;
    pthread_mutex_lock(&w->lock);
    c->swept = 0;
    w->printed++;
    pthread_cond_broadcast(&w->printed_one);
    pthread_mutex_unlock(&w->lock);
    return rounds;
}

/* Says how far it is: over and over in one line of a terminal that shows nothing else, or in a line of
 * its own for about each tenth. */
static void tell(uint64_t before, uint64_t now, uint64_t count)
{
    int over = isatty(STDERR_FILENO) && !isatty(STDOUT_FILENO);
    uint64_t tenth = count / 10 + 1;

    if (over || now == count || before / tenth != now / tenth)
        fprintf(stderr, "%ssweep: %llu of %llu seeds%s", over ? "\r" : "", (unsigned long long)now,
                (unsigned long long)count, over && now != count ? "" : "\n");
}

/* Makes chunks small enough that each thread has several, and the ring for them. */
static void plan(struct work *w)
{
    w->size = w->count / (8 * w->threads) + 1;
    if (w->size > MAX_CHUNK)
        w->size = MAX_CHUNK;
    w->chunks = w->count / w->size + (w->count % w->size != 0);
    if (w->threads > w->chunks)
        w->threads = w->chunks;
    w->places = RING_A_THREAD * w->threads;
    w->ring = calloc(w->places + 1, sizeof *w->ring);
    if (w->ring == NULL)
        fail("no memory");
}

static void start(struct work *w, pthread_t *thread)
{
    pthread_attr_t attr;
    uint64_t i;

    pthread_attr_init(&attr);
    pthread_attr_setstacksize(&attr, STACK_LENGTH);
    for (i = 0; i < w->threads; i++)
        if (pthread_create(&thread[i], &attr, sweep_chunks, w) != 0)
            fail("no thread");
    pthread_attr_destroy(&attr);
}

/* Sweeps all seeds and prints their lines. */
static void sweep_all(struct work *w)
{
    pthread_t thread[MAX_THREADS];
    uint64_t k, seeds = 0, rounds = 0;

    plan(w);
    start(w, thread);
    for (k = 0; k < w->chunks; k++) {
        rounds += print_chunk(w, k);
        tell(seeds, seeds + seeds_of(w, k), w->count);
        seeds += seeds_of(w, k);
    }
    for (k = 0; k < w->threads; k++)
        pthread_join(thread[k], NULL);
    free(w->ring);
    fprintf(stderr, "sweep: %llu seeds, %llu rounds, %llu threads\n", (unsigned long long)seeds,
            (unsigned long long)rounds, (unsigned long long)w->threads);
}

/* As many threads as there are processors. */
static uint64_t processors(void)
{
    long n = sysconf(_SC_NPROCESSORS_ONLN);

    return n < 1 ? 1 : n > MAX_THREADS ? MAX_THREADS : n;
}

int main(int argc, char **argv)
{
    struct work w = {
        .lock = PTHREAD_MUTEX_INITIALIZER,
        .printed_one = PTHREAD_COND_INITIALIZER, .swept_one = PTHREAD_COND_INITIALIZER,
    };
    int given = argc == 14 && strcmp(argv[1], "-j") == 0;
    char **word = argv + (given ? 3 : 1);
    uint64_t result;

    if (argc != 12 && !given) {
        fputs(usage, stderr);
        return 2;
    }
    w.threads = given ? number(argv[2], 10) : processors();
    if (w.threads < 1 || w.threads > MAX_THREADS)
        bad(argv[2]);
    w.from = number(word[0], 10);
    w.count = number(word[1], 10);
    w.config = config_of(word + 2);
    result = asked(&w.config);
    if (result != CTSIM_DONE) {
        printf("refused %llu\n", (unsigned long long)result);
        return 1;
    }
    sweep_all(&w);
    return 0;
}
