/* Operations a second over this pool, or over the memory pool of Berkeley DB, by one program: the same pages in the
 * same order. Built with -DPAGER it runs over the pager for many threads, and with -DBERKELEY over Berkeley DB.
 * bench.py builds them and runs them in turn.
 *
 *     peers/c/bench USE SIZE SECONDS [THREADS]
 *
 * An operation is the fix of a page of SIZE bytes, its use and its unfix. The pages come at random. USE is one of
 *
 *     nothing    no use
 *     look       the 16 bytes at byte 64 are read in place
 *     page       all words of the page are added up in place
 *     update     8 bytes are written, under LSN 1
 *     tree       a look-up in a B+tree of three levels: three pages, each searched in place
 *     evict      look, over four times as many pages as there are frames
 *     write-out  update, over as many: a page that leaves is written out before
 *
 * There are 4,096 frames, or as many as $FRAMES says, and but for the last two uses all pages are resident. This pool
 * has the settings of Config::new in the Rust crate: K is 2, or what $K says, the correlated period an eighth of the
 * frames, or what $PERIOD says, and the clock moves at each fix.
 * Before it counts, the program uses each page once, and ends where it finds other bytes there than belong there. Then
 * it operates eight times for each frame, so that the pool is in its steady state. It ends where an update leaves its
 * page clean, or where pages leave that are not written out.
 *
 * THREADS threads operate at once, or one. A core has one owner, so more than one there are over the others alone.
 * bindings/rust/examples/bench_pager.rs does the same through Rust.
 *
 * Printed: operations a second of the wall clock, over all threads, and the hit rate; K and the period of this pool.
 */
#include <fcntl.h>
#include <string.h>
#include <unistd.h>

#include "threads.h"

enum { PLACE = 64 };
static size_t frames = 4096; /* or as many as $FRAMES says */
enum use { NOTHING, LOOK, PAGE, UPDATE, TREE, EVICT, WRITE_OUT, USES };
static const char *const names[USES] = {"nothing", "look", "page", "update", "tree", "evict", "write-out"};

static enum use use;
static unsigned pages, size, k;
static uint64_t period;

/* What the pool has counted since it was made, and how many pages are unsaved now. */
struct counts {
    uint64_t hits, misses, writes, unsaved;
};

static bool has_evictions(void)
{
    return use == EVICT || use == WRITE_OUT;
}

static bool has_updates(void)
{
    return use == UPDATE || use == WRITE_OUT;
}

/* A word of a page, which need not be aligned. */
static uint64_t word(const uint8_t *page, size_t at)
{
    uint64_t held;
    memcpy(&held, page + at, sizeof held);
    return held;
}

/* --- The pool: fix, look, update and unfix are of one page at a time in each thread --- */

static void fill(unsigned page, uint8_t *image);

#ifdef BERKELEY
#include <db.h>

static DB_ENV *env;
static DB_MPOOLFILE *mpool;
static _Thread_local uint8_t *fixed;
static const bool is_peer = true, has_threads = true;

/* The library's own way to write to a page, which it exports and db.h does not have: the page is dirty then, and its
 * latch exclusive. With DB_MPOOL_DIRTY memp_fget does neither for a page that the file has (5.3.28). The page may be at
 * another place afterwards. */
int __memp_dirty(DB_MPOOLFILE *of, void *place, void *thread, DB_TXN *txn, DB_CACHE_PRIORITY priority, u_int32_t flags);

static void fix(uint64_t number)
{
    db_pgno_t page = (db_pgno_t)number;
    if (mpool->get(mpool, &page, NULL, 0, &fixed))
        fail("memp_fget");
}

static void make_dirty(void)
{
    if (__memp_dirty(mpool, &fixed, NULL, NULL, DB_PRIORITY_UNCHANGED, 0))
        fail("memp_dirty");
}

static const uint8_t *look(void)
{
    return fixed;
}

static void update(uint64_t with)
{
    make_dirty();
    memcpy(fixed + PLACE, &with, sizeof with);
}

static void unfix(void)
{
    if (mpool->put(mpool, fixed, DB_PRIORITY_UNCHANGED, 0))
        fail("memp_fput");
}

/* Berkeley DB enlarges a small cache. Where pages are evicted it gets one in which it hits a quarter too, and else
 * twice what the pages need. */
static size_t cache(void)
{
    return has_evictions() ? frames * (size * 4 / 5 + 90) : frames * (size + 1024) * 2;
}

static void start(void)
{
    if (system("rm -rf bench.d && mkdir bench.d") || db_env_create(&env, 0))
        fail("the environment");
    env->set_cachesize(env, 0, (unsigned)cache(), 1);
    if (env->open(env, "bench.d", DB_CREATE | DB_INIT_MPOOL | DB_PRIVATE | DB_THREAD, 0))
        fail("the environment");
    if (env->memp_fcreate(env, &mpool, 0) || mpool->open(mpool, "pages", DB_CREATE, 0644, size))
        fail("the page file");
    for (db_pgno_t page = 0; page < pages; page++) {
        if (mpool->get(mpool, &page, NULL, DB_MPOOL_CREATE, &fixed))
            fail("memp_fget of a new page");
        make_dirty();
        fill(page, fixed);
        unfix();
    }
    if (mpool->sync(mpool))
        fail("memp_fsync");
}

static struct counts counted(void)
{
    DB_MPOOL_STAT *stat;
    if (env->memp_stat(env, &stat, NULL, 0))
        fail("memp_stat");
    struct counts counts = {stat->st_cache_hit, stat->st_cache_miss, stat->st_page_out, stat->st_page_dirty};
    free(stat);
    return counts;
}
#else

/* Makes the file anew, and returns its descriptor. */
static int filled_file(void)
{
    uint8_t *image = malloc(size);
    int file = open("bench.pages", O_RDWR | O_CREAT | O_TRUNC, 0600);
    if (file < 0 || !image)
        fail("the file");
    for (unsigned page = 0; page < pages; page++) {
        fill(page, image);
        if (pwrite(file, image, size, (off_t)page * size) != (ssize_t)size)
            fail("pwrite");
    }
    free(image);
    return file;
}

#ifdef PAGER
#include "hojzmated_pager.h"

static hz_pager pager;
static _Thread_local hz_ref fixed;
static const bool is_peer = false, has_threads = true;

static void fix(uint64_t page)
{
    if (hz_pager_fix(&pager, page, has_updates() ? HZ_EXCLUSIVE : HZ_SHARED, &fixed))
        fail("fix");
}

static const uint8_t *look(void)
{
    return fixed.bytes;
}

static void update(uint64_t with)
{
    if (hz_pager_put(&fixed, PLACE, (uint8_t *)&with, sizeof with, 1))
        fail("put");
}

static void unfix(void)
{
    if (hz_pager_unfix(&fixed))
        fail("unfix");
}

static void start(void)
{
    hz_pager_config config = {.size = sizeof config, .pages = pages, .page_size = size, .frames = frames,
                              .correlated = period ? period : HZ_NO_PERIOD, .k = (uint8_t)k};
    if (hz_pager_new_file(&config, filled_file(), 1, &pager))
        fail("the pager");
}

static struct counts counted(void)
{
    hz_pager_stats stats;
    if (hz_pager_stats_of(&pager, &stats, sizeof stats))
        fail("stats");
    return (struct counts){stats.hits, stats.faults, stats.writes, stats.unsaved};
}
#else
#include "hojzmated.h"

static hz_core core;
static int file;
static uint8_t *image;
static hz_fixed asked;
static const bool is_peer = false, has_threads = false;

/* Writes out the page that has to make way. */
static void write_out(void)
{
    uint8_t is_still_dirty;
    if (pwrite(file, image, size, (off_t)asked.grant.page * size) != (ssize_t)size)
        fail("pwrite");
    if (hz_write_end(&core, &asked.grant, true, &is_still_dirty))
        fail("write_end");
}

static void fix(uint64_t page)
{
    if (hz_tick(&core, 0, 1))
        fail("tick");
    if (hz_fix(&core, 0, page, image, size, &asked))
        fail("fix");
    if (asked.kind == HZ_HIT)
        return;
    while (asked.kind == HZ_WRITE_FIRST) {
        write_out();
        if (hz_fix(&core, 0, page, image, size, &asked))
            fail("fix");
    }
    if (asked.kind != HZ_LOAD || pread(file, image, size, (off_t)page * size) != (ssize_t)size)
        fail("pread");
    if (hz_read_end(&core, &asked.grant, image, size, &asked.grant))
        fail("read_end");
}

static const uint8_t *look(void)
{
    const uint8_t *bytes;
    if (hz_page(&core, &asked.grant, &bytes))
        fail("page");
    return bytes;
}

static void update(uint64_t with)
{
    if (hz_write(&core, &asked.grant, PLACE, (uint8_t *)&with, sizeof with, 1))
        fail("write");
}

static void unfix(void)
{
    if (hz_unfix(&core, &asked.grant))
        fail("unfix");
}

static void start(void)
{
    hz_config config = {.pages = pages, .page_size = size, .frames = frames, .room = (size_t)1 << 61,
                        .correlated = period, .retained = (uint64_t)1 << 62, .k = (uint8_t)k, .clients = 1};
    file = filled_file();
    image = malloc(size);
    if (!image || hz_core_new(&config, &core) || hz_mark(&core, 0, 1))
        fail("the pool");
}

static struct counts counted(void)
{
    hz_stats stats;
    if (hz_stats_of(&core, &stats, sizeof stats))
        fail("stats");
    return (struct counts){stats.hits, stats.faults, stats.writes, stats.unsaved};
}
#endif
#endif

/* --- The tree: a root, full inner nodes, as many as there is room for, and full leaves, by even keys. A node has its
 * page number, how many entries it has, and from byte 32 on its entries: a key and a child, or a key and a value of 64
 * bytes, which begins with the key and 7. With 4,096 bytes these are 16 inner nodes of 254 children, with 56 rows in
 * each leaf --- */

enum { HEAD = 32, INNER_STEP = 16, LEAF_STEP = 72 };

static unsigned inners, children, leaf_rows;

static void shape_tree(void)
{
    children = (size - HEAD) / INNER_STEP, leaf_rows = (size - HEAD) / LEAF_STEP;
    inners = (frames - 1) / (children + 1) < children ? (frames - 1) / (children + 1) : children;
}

static unsigned nodes(void)
{
    return 1 + inners + inners * children;
}

static unsigned keys(void)
{
    return inners * children * leaf_rows;
}

static void put(uint8_t *page, size_t at, uint64_t held)
{
    memcpy(page + at, &held, sizeof held);
}

/* Fills a node. Each entry begins where the first row below it does. */
static void fill_node(unsigned page, uint8_t *node)
{
    bool is_leaf = page > inners;
    unsigned entries = page == 0 ? inners : is_leaf ? leaf_rows : children;
    unsigned rows = page == 0 ? children * leaf_rows : is_leaf ? 1 : leaf_rows; /* below an entry */
    unsigned place = page == 0 ? 0 : is_leaf ? page - 1 - inners : page - 1, child = page == 0 ? 1 : 1 + inners;
    memset(node, 0, size);
    put(node, 0, page);
    put(node, 8, entries);
    for (unsigned i = 0; i < entries; i++) {
        size_t at = HEAD + i * (is_leaf ? LEAF_STEP : INNER_STEP);
        uint64_t key = 2 * (uint64_t)rows * (place * entries + i);
        put(node, at, key);
        put(node, at + 8, is_leaf ? key + 7 : child + place * entries + i);
    }
}

/* Of the last entry that is not above the key, what follows its key. */
static uint64_t search(const uint8_t *node, unsigned step, uint64_t key)
{
    unsigned low = 0, high = (unsigned)word(node, 8);
    while (high - low > 1) {
        unsigned middle = (low + high) / 2;
        if (word(node, HEAD + step * middle) <= key)
            low = middle;
        else
            high = middle;
    }
    if (step == LEAF_STEP && word(node, HEAD + step * low) != key)
        fail("a key is lost");
    return word(node, HEAD + step * low + 8);
}

static uint64_t look_up(uint64_t key)
{
    uint64_t found = 0;
    for (int level = 0; level < 3; level++) {
        fix(found);
        found = search(look(), level == 2 ? LEAF_STEP : INNER_STEP, key);
        unfix();
    }
    if (found != key + 7)
        fail("a wrong value");
    return found;
}

/* --- The other uses. A page has its number in each word --- */

static void fill(unsigned page, uint8_t *filled)
{
    if (use == TREE) {
        fill_node(page, filled);
        return;
    }
    for (size_t at = 0; at < size; at += 8)
        put(filled, at, page);
}

static uint64_t sum(const uint8_t *page)
{
    uint64_t total = 0;
    for (size_t at = 0; at < size; at += 8)
        total += word(page, at);
    return total;
}

static uint64_t two_words(const uint8_t *page)
{
    return word(page, PLACE) + word(page, PLACE + 8);
}

/* Uses a page, or looks a key up, and returns what was found. */
static uint64_t operate(uint64_t number)
{
    uint64_t found = 0;
    if (use == TREE)
        return look_up(2 * number);
    fix(number);
    if (use == LOOK || use == EVICT)
        found = two_words(look());
    else if (use == PAGE)
        found = sum(look());
    else if (has_updates())
        update(number);
    unfix();
    return found;
}

/* Uses each page once, and looks whether it finds there what belongs there, and whether updates are to be saved. */
static void use_all(void)
{
    for (uint64_t page = 0; page < pages; page++) {
        fix(page);
        uint64_t total = sum(look());
        unfix();
        if (use != TREE && total != page * (size / 8))
            fail("a wrong page");
    }
    for (uint64_t key = 0; use == TREE && key < keys(); key += (leaf_rows + 1) / 2)
        operate(key);
    for (uint64_t page = 0; use != TREE && page < pages; page++) {
        uint64_t words = use == LOOK || use == EVICT ? 2 : use == PAGE ? size / 8 : 0;
        if (operate(page) != page * words)
            fail("a wrong word");
    }
    if (use == UPDATE && counted().unsaved != pages)
        fail("an update left its page clean");
}

/* The number in a variable of the environment, or another. */
static uint64_t asked_for(const char *name, uint64_t otherwise)
{
    const char *wanted = getenv(name);
    return wanted ? strtoull(wanted, NULL, 10) : otherwise;
}

/* Measures, and prints what came of it. */
static void measure(unsigned threads, double seconds)
{
    unsigned below = use == TREE ? keys() : pages;
    settle(8 * frames, below);
    struct counts before = counted();
    double rate = rate_of(threads, below, seconds);
    struct counts after = counted();
    uint64_t hits = after.hits - before.hits, misses = after.misses - before.misses;
    if (use == WRITE_OUT && (after.writes - before.writes) * 10 < misses * 9)
        fail("pages left that were not written out");
    printf("%.0f %.3f", rate, (double)hits / (double)(hits + misses));
    if (!is_peer)
        printf(" K %u period %lu", k, (unsigned long)period);
    printf("\n");
}

int main(int argc, char **argv)
{
    bool is_asked = argc == 4 || argc == 5;
    for (use = NOTHING; use < USES && (!is_asked || strcmp(argv[1], names[use])); use++)
        ;
    size = is_asked ? (unsigned)atoi(argv[2]) : 0;
    if (use == USES || size % 16 != 0 || size < 128 || size > 65536)
        fail("USE SIZE SECONDS [THREADS]");
    int threads = argc == 5 ? atoi(argv[4]) : 1;
    if (threads < 1 || threads > (has_threads ? MOST_THREADS : 1))
        fail("so many threads do not share the pool");
    frames = asked_for("FRAMES", frames), k = (unsigned)asked_for("K", 2), period = asked_for("PERIOD", frames / 8);
    if (frames < 64 || frames > 65536)
        fail("FRAMES is 64 to 65536");
    shape_tree();
    pages = use == TREE ? nodes() : has_evictions() ? 4 * (unsigned)frames : (unsigned)frames;
    start();
    use_all();
    measure((unsigned)threads, atof(argv[3]));
    return 0;
}
