/* Pages dropped a second: what hz_pager_discard takes to drop 10,000 pages that are unsaved, or __memp_ftruncate of
 * Berkeley DB. Built with -DBERKELEY it runs over Berkeley DB. bench.py builds both and runs them in turn.
 *
 *     peers/c/truncate SIZE SECONDS
 *
 * Again and again 10,000 pages of SIZE bytes are made new, with a word in each, and then dropped by one call. These
 * calls alone are timed, until they have taken SECONDS in all. Both do the same work: before each call all pages are in
 * frames and unsaved, afterwards none is in a frame, and nothing was read or written. Else the program ends. It also
 * ends where a page that is made new does not have zeros.
 *
 * The pages are those from 1 on. Page 0 of a file of Berkeley DB stays for good, as it tells what the file is: cut off
 * before it, the file would seem to have the greatest number of pages, and each would be read and not made.
 *
 * Printed: pages dropped a second, and the share of them that were in frames.
 */
#include <stdint.h>
#include <stdio.h>
#include <stdlib.h>
#include <string.h>
#include <time.h>

enum { PAGES = 10000, FIRST = 1, PLACE = 64 };
static unsigned size;

static void fail(const char *what)
{
    fprintf(stderr, "truncate: %s\n", what);
    exit(1);
}

static double now(void)
{
    struct timespec t;
    clock_gettime(CLOCK_MONOTONIC, &t);
    return (double)t.tv_sec + (double)t.tv_nsec * 1e-9;
}

/* What is counted: pages in frames, and those of them that are unsaved; pages that came by a read, and write-outs, so
 * far. */
struct counts {
    uint64_t resident, unsaved, reads, writes;
};

#ifdef BERKELEY
#include <db.h>

static DB_ENV *env;
static DB_MPOOLFILE *mpool;

/* Two functions that the library exports and db.h does not have: see bench.c of the first. The second cuts the file off
 * before a page: the pages from there on leave the pool unwritten. */
int __memp_dirty(DB_MPOOLFILE *of, void *place, void *thread, DB_TXN *txn, DB_CACHE_PRIORITY priority, u_int32_t flags);
int __memp_ftruncate(DB_MPOOLFILE *of, DB_TXN *txn, void *thread, db_pgno_t first, u_int32_t flags);

static void start(void)
{
    if (system("rm -rf truncate.d && mkdir truncate.d") || db_env_create(&env, 0))
        fail("the environment");
    env->set_cachesize(env, 0, PAGES * (size + 1024) * 2, 1);
    if (env->open(env, "truncate.d", DB_CREATE | DB_INIT_MPOOL | DB_PRIVATE | DB_THREAD, 0))
        fail("the environment");
    /* Where no length to clear is set, none is cleared: a new page then has what its frame had before. */
    if (env->memp_fcreate(env, &mpool, 0) || mpool->set_clear_len(mpool, size)
        || mpool->open(mpool, "pages", DB_CREATE, 0644, size))
        fail("the page file");
}

static void make(uint64_t number, uint64_t word)
{
    uint8_t *page;
    db_pgno_t at = (db_pgno_t)number;
    if (mpool->get(mpool, &at, NULL, DB_MPOOL_CREATE, &page))
        fail("memp_fget of a new page");
    if (__memp_dirty(mpool, &page, NULL, NULL, DB_PRIORITY_UNCHANGED, 0))
        fail("memp_dirty");
    for (unsigned byte = 0; byte < size; byte++)
        if (page[byte])
            fail("a new page is not empty");
    memcpy(page + PLACE, &word, sizeof word);
    if (mpool->put(mpool, page, DB_PRIORITY_UNCHANGED, 0))
        fail("memp_fput");
}

static void drop(void)
{
    if (__memp_ftruncate(mpool, NULL, NULL, FIRST, 0))
        fail("memp_ftruncate");
}

static struct counts counted(void)
{
    DB_MPOOL_STAT *stat;
    if (env->memp_stat(env, &stat, NULL, 0))
        fail("memp_stat");
    struct counts counts = {stat->st_pages, stat->st_page_dirty, stat->st_cache_miss, stat->st_page_out};
    free(stat);
    return counts;
}
#else
#include <fcntl.h>
#include <unistd.h>

#include "hojzmated_pager.h"

static hz_pager pager;
static uint64_t made; /* pages, by hz_pager_new_page */

static void start(void)
{
    hz_pager_config config = {.size = sizeof config, .pages = FIRST + PAGES, .page_size = size, .frames = 2 * PAGES};
    int file = open("truncate.pages", O_RDWR | O_CREAT | O_TRUNC, 0600);
    if (file < 0 || ftruncate(file, (off_t)(FIRST + PAGES) * size) || hz_pager_new_file(&config, file, 1, &pager))
        fail("the pager");
}

static void make(uint64_t number, uint64_t word)
{
    hz_ref page;
    if (hz_pager_new_page(&pager, number, &page))
        fail("new_page");
    for (unsigned byte = 0; byte < size; byte++)
        if (page.bytes[byte])
            fail("a new page is not empty");
    if (hz_pager_put(&page, PLACE, (uint8_t *)&word, sizeof word, 1) || hz_pager_unfix(&page))
        fail("put");
    made++;
}

static void drop(void)
{
    uint64_t resident;
    if (hz_pager_discard(&pager, FIRST, PAGES, &resident) || resident != PAGES)
        fail("discard");
}

static struct counts counted(void)
{
    hz_pager_stats stats;
    if (hz_pager_stats_of(&pager, &stats, sizeof stats))
        fail("stats");
    return (struct counts){stats.resident, stats.unsaved, stats.faults - made, stats.writes};
}
#endif

int main(int argc, char **argv)
{
    size = argc == 3 ? (unsigned)atoi(argv[1]) : 0;
    double most = argc == 3 ? atof(argv[2]) : 0, spent = 0;
    if (size % 16 != 0 || size < 128 || size > 65536 || most <= 0)
        fail("SIZE SECONDS");
    start();
    uint64_t dropped = 0, resident = 0;
    for (uint64_t round = 1; spent < most; round++) {
        for (uint64_t page = FIRST; page < FIRST + PAGES; page++)
            make(page, round);
        struct counts before = counted();
        if (before.resident != PAGES || before.unsaved != PAGES)
            fail("not all pages are in frames, and unsaved");
        double began = now();
        drop();
        spent += now() - began;
        struct counts after = counted();
        if (after.resident != 0 || after.unsaved != 0)
            fail("pages are in frames still");
        if (after.reads != 0 || after.writes != 0)
            fail("pages were read, or written");
        resident += before.resident - after.resident;
        dropped += PAGES;
    }
    printf("%.0f %.3f\n", (double)dropped / spent, (double)resident / (double)dropped);
    return 0;
}
