/* The threads of a bench, which begin together and end together, and its clock. The bench defines `operate`. */
#ifndef THREADS_H
#define THREADS_H

#include <pthread.h>
#include <stdatomic.h>
#include <stdbool.h>
#include <stdint.h>
#include <stdio.h>
#include <stdlib.h>
#include <time.h>

enum { MOST_THREADS = 64 };

/* Does what is counted once, with a number, and returns what was found. */
static uint64_t operate(uint64_t number);

struct worker {
    _Alignas(128) pthread_t thread;
    uint64_t number, below, done, found;
};

static struct worker workers[MOST_THREADS];
static pthread_barrier_t all_are_here;
static atomic_bool is_over;

static void fail(const char *what)
{
    fprintf(stderr, "bench: %s\n", what);
    exit(1);
}

static double now(void)
{
    struct timespec t;
    clock_gettime(CLOCK_MONOTONIC, &t);
    return (double)t.tv_sec + (double)t.tv_nsec * 1e-9;
}

/* The next number at random, by the generator of peers/mpool.c. Both numbers have at most 32 bits: a division of 64 bits
 * takes a processor several times as long, which would count as time of each pool. rustc looks for that itself. */
static uint64_t draw(uint64_t *state, uint64_t below)
{
    *state = *state * 6364136223846793005u + 1442695040888963407u;
    return (uint32_t)(*state >> 33) % (uint32_t)below;
}

/* Operates so often with numbers below the end, before anything is measured. */
static inline void settle(uint64_t operations, uint64_t below)
{
    for (uint64_t state = MOST_THREADS * 7919 + 1; operations > 0; operations--)
        operate(draw(&state, below));
}

/* Operates until it is over. The numbers begin elsewhere in each thread. */
static void *work(void *own)
{
    struct worker *worker = own;
    uint64_t state = worker->number * 7919 + 1, below = worker->below, done = 0, found = 0;
    pthread_barrier_wait(&all_are_here);
    while (!atomic_load_explicit(&is_over, memory_order_relaxed)) {
        for (int i = 0; i < 64; i++)
            found += operate(draw(&state, below));
        done += 64;
    }
    worker->done = done;
    worker->found = found; /* so that the compiler leaves no look out */
    return NULL;
}

/* Has so many threads operate for so many seconds, with numbers below the end. Returns the operations of all threads a
 * second of the wall clock. */
static double rate_of(unsigned threads, uint64_t below, double seconds)
{
    struct timespec rest = {.tv_sec = (time_t)seconds, .tv_nsec = (long)((seconds - (double)(time_t)seconds) * 1e9)};
    uint64_t done = 0;
    pthread_barrier_init(&all_are_here, NULL, threads + 1);
    for (unsigned i = 0; i < threads; i++) {
        workers[i].number = i, workers[i].below = below;
        if (pthread_create(&workers[i].thread, NULL, work, &workers[i]))
            fail("a thread");
    }
    pthread_barrier_wait(&all_are_here);
    double began = now();
    nanosleep(&rest, NULL);
    atomic_store(&is_over, true);
    for (unsigned i = 0; i < threads; i++) {
        pthread_join(workers[i].thread, NULL);
        done += workers[i].done;
    }
    return (double)done / (now() - began);
}

#endif
