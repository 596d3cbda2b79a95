/* The peer of `bench pool`: the memory pool of Berkeley DB. A fix is memp_fget, an unfix memp_fput.
 *
 *     cc -O2 mpool.c -ldb -o mpool
 *     ./mpool SECONDS PAGES FRAMES PAGESIZE HOT
 *
 * A file of PAGES pages is made in the present folder, filled and written out. Then pages of the first HOT ones are
 * fixed and unfixed for SECONDS of processor time, by the same generator of numbers as in `bench pool`. Eight fixes for
 * each of FRAMES come before. The cache has FRAMES * (PAGESIZE + 256) bytes; Berkeley DB enlarges a small one, so for
 * runs with evictions FRAMES is chosen such that the hit rate, which is printed, is the one wanted.
 *
 * Printed: fixes and unfixes a second of processor time, and the hit rate.
 */
#include <db.h>
#include <stdio.h>
#include <stdlib.h>
#include <string.h>
#include <time.h>

/* The fixes between two looks at the clock. */
#define STRIDE 1024

static DB_ENV *env;
static DB_MPOOLFILE *file;

/* The library's own way to write to a page, which it exports: the page is dirty then. See bench.c. */
int __memp_dirty(DB_MPOOLFILE *of, void *place, void *thread, DB_TXN *txn, DB_CACHE_PRIORITY priority, u_int32_t flags);

static double processor_seconds(void)
{
    struct timespec t;
    clock_gettime(CLOCK_PROCESS_CPUTIME_ID, &t);
    return t.tv_sec + t.tv_nsec * 1e-9;
}

static void fail(const char *what)
{
    fprintf(stderr, "mpool: %s\n", what);
    exit(1);
}

/* Fixes and unfixes so many pages at random. */
static void use_pages(unsigned long count, unsigned hot)
{
    static unsigned long state = 1;
    for (; count > 0; count--) {
        state = state * 6364136223846793005UL + 1442695040888963407UL;
        db_pgno_t page = (state >> 33) % hot;
        void *address;
        if (file->get(file, &page, NULL, 0, &address))
            fail("memp_fget");
        file->put(file, address, DB_PRIORITY_UNCHANGED, 0);
    }
}

/* Fixes and unfixes pages for so many seconds, and returns their number a second. */
static double rate(double seconds, unsigned hot)
{
    unsigned long done = 0;
    double began = processor_seconds(), spent = 0;
    for (; spent < seconds; spent = processor_seconds() - began, done += STRIDE)
        use_pages(STRIDE, hot);
    return done / spent;
}

static DB_MPOOL_STAT *counted(void)
{
    DB_MPOOL_STAT *stat;
    if (env->memp_stat(env, &stat, NULL, 0))
        fail("memp_stat");
    return stat;
}

static void fill(unsigned pages, unsigned size)
{
    for (unsigned page = 0; page < pages; page++) {
        db_pgno_t number = page;
        void *address;
        if (file->get(file, &number, NULL, DB_MPOOL_CREATE, &address))
            fail("memp_fget of a new page");
        if (__memp_dirty(file, &address, NULL, NULL, DB_PRIORITY_UNCHANGED, 0))
            fail("memp_dirty");
        memset(address, page, size);
        file->put(file, address, DB_PRIORITY_UNCHANGED, 0);
    }
    DB_MPOOL_STAT *before = counted();
    if (before->st_page_out + before->st_page_dirty < pages)
        fail("a page was left clean");
    if (file->sync(file) || counted()->st_page_dirty != 0)
        fail("memp_fsync");
}

int main(int argc, char **argv)
{
    if (argc != 6)
        fail("SECONDS PAGES FRAMES PAGESIZE HOT");
    unsigned pages = atoi(argv[2]), frames = atoi(argv[3]), size = atoi(argv[4]), hot = atoi(argv[5]);

    if (system("rm -rf mpool.d && mkdir mpool.d") || db_env_create(&env, 0))
        fail("the environment");
    env->set_cachesize(env, 0, (size_t)frames * (size + 256), 1);
    if (env->open(env, "mpool.d", DB_CREATE | DB_INIT_MPOOL | DB_PRIVATE | DB_THREAD, 0))
        fail("the environment");
    if (env->memp_fcreate(env, &file, 0) || file->open(file, "pages", DB_CREATE, 0644, size))
        fail("the page file");
    fill(pages, size);
    use_pages(8UL * frames, hot);

    DB_MPOOL_STAT *before = counted();
    double each = rate(atof(argv[1]), hot);
    DB_MPOOL_STAT *after = counted();
    double hits = after->st_cache_hit - before->st_cache_hit, misses = after->st_cache_miss - before->st_cache_miss;
    printf("%.0f a processor second, hit rate %.3f\n", each, hits / (hits + misses));
    return 0;
}
