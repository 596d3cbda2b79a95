/* A little engine over cores side by side, without the pager: four threads add to counters that stand in pages of a
 * file. Page p is in part p mod 4, which is a core with a mutex of its own. Each call on the core goes under that
 * mutex, which is open while the device and the log work. A thread that has to wait sleeps until some work of the part
 * is done. The engine ends with status 0 where every count is in the file.
 *
 *     check/bindings        builds it with the library, as it is and under the sanitizers, and runs it
 */
#include "hojzmated.h"
#include <fcntl.h>
#include <pthread.h>
#include <stdatomic.h>
#include <stdio.h>
#include <stdlib.h>
#include <string.h>
#include <unistd.h>

enum { PARTS = 4, PART_PAGES = 16, PART_FRAMES = 2, PAGES = PARTS * PART_PAGES };
enum { SIZE = 256, WORDS = SIZE / 8, THREADS = 4, ROUNDS = 5000 };

struct part {
    _Alignas(128) hz_core core; /* parts share no line of the cache */
    pthread_mutex_t lock;
    pthread_cond_t worked;       /* the device or the log has done what a thread of this part wanted */
    unsigned at_work;            /* how many threads are at the device or the log, with the mutex open */
    uint64_t number;             /* page p of the core is page p * PARTS + number of the file */
    uint64_t newest[PART_PAGES]; /* the LSN of the newest write of each page, which is its first word */
};

static struct part parts[PARTS];
static int file;
static atomic_ulong log_end, durable; /* the LSN of the newest log record, and as far as which the log is durable */

/* The engine ends where it finds something else than it wants. */
static void want(uint64_t wanted, uint64_t found, const char *what)
{
    if (found == wanted)
        return;
    fprintf(stderr, "parts: %s: %lu\n", what, found);
    exit(1);
}

/* Opens the mutex for the device or the log: other threads call this core meanwhile. */
static void begin_work(struct part *part)
{
    part->at_work++;
    pthread_mutex_unlock(&part->lock);
}

/* Closes it again. Who waits comes when it is open next: by then the ticket of this work has its end. */
static void end_work(struct part *part)
{
    pthread_mutex_lock(&part->lock);
    part->at_work--;
    pthread_cond_broadcast(&part->worked);
}

/* Reads or writes a page, and tells whether that went well. */
static bool device(struct part *part, bool is_write, uint64_t page, uint64_t *image)
{
    off_t at = (off_t)(page * PARTS + part->number) * SIZE;
    begin_work(part);
    ssize_t done = is_write ? pwrite(file, image, SIZE, at) : pread(file, image, SIZE, at);
    end_work(part);
    return done == SIZE;
}

/* Makes the log durable as far as an LSN, for all parts. A real log writes and syncs its file here. */
static void reach_log(struct part *part, uint8_t client, uint64_t lsn)
{
    begin_work(part);
    unsigned long reached = durable;
    while (reached < lsn && !atomic_compare_exchange_weak(&durable, &reached, lsn))
        ;
    end_work(part);
    want(0, hz_mark(&part->core, client, durable), "mark");
}

/* Waits where a page is being read, or where none can make way. Where no work is going on, pages are only too young. */
static void wait_in(struct part *part, uint8_t client)
{
    want(0, hz_tick(&part->core, client, 1), "tick");
    if (part->at_work > 0)
        pthread_cond_wait(&part->worked, &part->lock);
}

/* Writes a page out. It is saved then, unless a thread wrote to it meanwhile. */
static void write_out(struct part *part, const hz_fixed *asked, uint64_t *image)
{
    uint8_t is_still_dirty = 2;
    const uint64_t *newest = &part->newest[asked->grant.page];
    want(*newest, asked->lsn, "the page LSN");
    want(asked->lsn, image[0], "the LSN in the image");
    want(true, asked->lsn <= durable, "an image ahead of the log");
    bool is_good = device(part, true, asked->grant.page, image);
    want(true, is_good, "the device");
    want(0, hz_write_end(&part->core, &asked->grant, is_good, &is_still_dirty), "write_end");
    want(*newest != asked->lsn, is_still_dirty, "is_still_dirty");
}

/* Asks for a page, or that it be written out, until the pool has neither to wait nor to write first. */
static hz_fixed ask(struct part *part, bool is_flush, uint8_t client, uint64_t page, uint64_t *image)
{
    hz_fixed asked = {0};
    for (;;) {
        unsigned number = (is_flush ? hz_flush : hz_fix)(&part->core, client, page, (uint8_t *)image, SIZE, &asked);
        if (number == HZ_NEED_LOG) {
            reach_log(part, client, asked.lsn);
        } else if (number == HZ_BUSY || number == HZ_NO_VICTIM) {
            wait_in(part, client);
        } else {
            want(0, number, "fix or flush");
            if (asked.kind != HZ_WRITE_FIRST)
                return asked;
            write_out(part, &asked, image);
        }
    }
}

/* Adds one to the counter of a page, which is its second word. */
static void add(struct part *part, uint8_t client, uint64_t page)
{
    uint64_t image[WORDS] = {0}, held[2], *newest = &part->newest[page];
    const uint8_t *bytes = NULL;
    hz_fixed asked = ask(part, false, client, page, image);
    hz_grant pass = asked.grant;
    if (asked.kind == HZ_LOAD) {
        want(true, device(part, false, page, image), "the device");
        want(*newest, image[0], "the LSN of a page that was read");
        want(0, hz_read_end(&part->core, &asked.grant, (uint8_t *)image, SIZE, &pass), "read_end");
    }
    want(0, hz_page(&part->core, &pass, &bytes), "page");
    memcpy(held, bytes, sizeof held);
    want(*newest, held[0], "the LSN in the page");
    held[0] = *newest = atomic_fetch_add(&log_end, 1) + 1;
    held[1]++;
    want(0, hz_write(&part->core, &pass, 0, (uint8_t *)held, sizeof held, *newest), "write");
    want(0, hz_unfix(&part->core, &pass), "unfix");
    want(0, hz_tick(&part->core, client, 1), "tick");
}

/* A thread: adds to many counters, and asks now and then that a page of the same part be written out. */
static void *work(void *number)
{
    uint64_t state = (uintptr_t)number + 1, image[WORDS] = {0};
    uint8_t client = (uint8_t)(uintptr_t)number;
    for (int i = 0; i < ROUNDS; i++) {
        state = state * 6364136223846793005u + 1442695040888963407u;
        uint64_t page = (state >> 33) % PAGES;
        struct part *part = &parts[page % PARTS];
        pthread_mutex_lock(&part->lock);
        add(part, client, page / PARTS);
        if (i % 16 == 0)
            ask(part, true, client, (state >> 43) % PART_PAGES, image);
        pthread_mutex_unlock(&part->lock);
    }
    return NULL;
}

static void start(void)
{
    const hz_config config = {.pages = PART_PAGES, .page_size = SIZE, .frames = PART_FRAMES, .room = (size_t)1 << 61,
                              .correlated = 0, .retained = 100, .k = 2, .clients = THREADS};
    file = open("parts.pages", O_RDWR | O_CREAT | O_TRUNC, 0600);
    want(0, (uint64_t)ftruncate(file, PAGES * SIZE), "the file");
    for (unsigned i = 0; i < PARTS; i++) {
        parts[i].number = i;
        want(0, (uint64_t)pthread_mutex_init(&parts[i].lock, NULL), "a mutex");
        want(0, (uint64_t)pthread_cond_init(&parts[i].worked, NULL), "a condition");
        want(0, hz_core_new(&config, &parts[i].core), "core_new");
    }
}

/* Writes the pages of a part out, frees its core, and returns the sum of the counters in the file. */
static uint64_t end(struct part *part, hz_stats *stats)
{
    uint64_t sum = 0, image[WORDS] = {0};
    pthread_mutex_lock(&part->lock);
    for (uint64_t page = 0; page < PART_PAGES; page++) {
        ask(part, true, 0, page, image);
        want(true, device(part, false, page, image), "the device");
        sum += image[1];
    }
    want(0, hz_stats_of(&part->core, stats, sizeof *stats), "stats");
    want(0, hz_core_free(&part->core), "core_free");
    pthread_mutex_unlock(&part->lock);
    return sum;
}

int main(void)
{
    pthread_t threads[THREADS];
    uint64_t counts = 0, fixes = 0;
    start();
    for (uintptr_t i = 0; i < THREADS; i++)
        want(0, (uint64_t)pthread_create(&threads[i], NULL, work, (void *)i), "a thread");
    for (int i = 0; i < THREADS; i++)
        want(0, (uint64_t)pthread_join(threads[i], NULL), "the end of a thread");
    for (int i = 0; i < PARTS; i++) {
        hz_stats stats;
        counts += end(&parts[i], &stats);
        fixes += stats.hits + stats.faults;
        printf("part %d: hits %lu, faults %lu, evictions %lu, writes %lu\n", i, stats.hits, stats.faults,
               stats.evictions, stats.writes);
    }
    want(THREADS * ROUNDS, counts, "the counts");
    want(THREADS * ROUNDS, fixes, "hits and faults");
    return 0;
}
