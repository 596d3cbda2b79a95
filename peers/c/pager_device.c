/* What a pager of hojzmated_pager.h does with a device: errors of callbacks, checkpoints, calls from callbacks,
 * threads, memory that is refused, and a panic.
 *
 *     check/bindings        builds it with the library and the linker's --wrap of the calls for memory, and runs it
 */
#define _POSIX_C_SOURCE 200809L
#include "pager_test.h"
#include <fcntl.h>
#include <time.h>
#include <unistd.h>

/* ---- Memory, of which one request in a round may be refused ---- */

void *__real_malloc(size_t n);
void *__real_calloc(size_t n, size_t each);
void *__real_realloc(void *old, size_t n);
int __real_posix_memalign(void **at, size_t align, size_t n);

static unsigned long requests, refused; /* which of them is refused: from 1 */

static bool is_refused(void)
{
    return ++requests == refused;
}

void *__wrap_malloc(size_t n)
{
    return is_refused() ? NULL : __real_malloc(n);
}

void *__wrap_calloc(size_t n, size_t each)
{
    return is_refused() ? NULL : __real_calloc(n, each);
}

void *__wrap_realloc(void *old, size_t n)
{
    return is_refused() ? NULL : __real_realloc(old, n);
}

int __wrap_posix_memalign(void **at, size_t align, size_t n)
{
    return is_refused() ? ENOMEM : __real_posix_memalign(at, align, n);
}

/* ---- Device and log ---- */

/* Each error of a callback is told with its page, LSN and errno, and all can be used afterwards. */
static void errors(void)
{
    hz_pager pager = start();
    hz_ref ref;
    uint64_t lsn;
    uint8_t has_lsn;
    size_t count;
    device.read_error = EIO;
    REFUSED(HZ_READ_FAILED, 1, 6, 0, EIO, hz_pager_fix(&pager, 6, HZ_SHARED, &ref));
    SAYS("page 6: it could not be read: Input/output error (os error 5)");
    device.read_error = HZ_IO_WRONG_PAGE;
    REFUSED(HZ_WRONG_PAGE, 1, 6, 0, 0, hz_pager_fix(&pager, 6, HZ_SHARED, &ref));
    device.read_error = 0;
    change(&pager, 6, 66, 10);
    device.log_error = HZ_IO_NOT_YET;
    REFUSED(HZ_NEED_LOG, 1, 6, 10, 0, hz_pager_flush(&pager, 6));
    SAYS("page 6: the log does not reach so far yet (LSN 10)");
    REFUSED(HZ_NEED_LOG, 0, 0, 10, 0, hz_pager_checkpoint(&pager, &lsn, &has_lsn));
    device.log_error = 0;
    device.write_error = EFBIG;
    REFUSED(HZ_WRITE_FAILED, 1, 6, 0, EFBIG, hz_pager_flush(&pager, 6));
    SAYS("page 6: it could not be written: File too large (os error 27)");
    REFUSED(HZ_WRITE_FAILED, 1, 6, 0, EFBIG, hz_pager_checkpoint(&pager, &lsn, &has_lsn));
    REFUSED(HZ_WRITE_FAILED, 1, 6, 0, EFBIG, hz_pager_clean(&pager, 9, &count));
    /* A victim that cannot go out: the fault has its page. */
    for (uint64_t page = 0; page < FRAMES - 1; page++)
        change(&pager, page, 77, 0);
    REFUSED(HZ_WRITE_FAILED, 1, 6, 0, EFBIG, hz_pager_fix(&pager, 9, HZ_SHARED, &ref));
    device.write_error = 0;
    device.sync_error = EDQUOT;
    REFUSED(HZ_SYNC_FAILED, 0, 0, 0, EDQUOT, hz_pager_checkpoint(&pager, &lsn, &has_lsn));
    SAME(66, device.pages[6][0]);
    device.sync_error = 0;
    REFUSED(HZ_SYNC_FAILED, 0, 0, 0, 0, hz_pager_checkpoint(&pager, &lsn, &has_lsn)); /* it is remembered */
    ref = fixed(&pager, 9, HZ_EXCLUSIVE);
    SAME(HZ_DONE, hz_pager_unfix(&ref));
    end(&pager);
}

/* A page that cannot go out, or whose log record the log does not reach yet, has no other refused: others make way. */
static void victims(void)
{
    hz_pager pager = start();
    hz_pager_stats stats;
    hz_ref ref;
    uint64_t count;
    for (int unlogged = 0; unlogged < 2; unlogged++) {
        device.write_error = unlogged ? 0 : ENOSPC;
        device.log_error = unlogged ? HZ_IO_NOT_YET : 0;
        change(&pager, (uint64_t)unlogged, 77, unlogged ? 9 : 0);
        for (int round = 0; round < 3; round++)
            for (uint64_t page = 2; page < PAGES; page++) {
                ref = fixed(&pager, page, round ? HZ_SHARED : HZ_EXCLUSIVE);
                SAME(page, ref.bytes[0]);
                SAME(HZ_DONE, hz_pager_unfix(&ref));
            }
        SAME(true, (unlogged ? device.logs : device.writes) > 0);
        SAME(HZ_DONE, hz_pager_stats_of(&pager, &stats, sizeof stats));
        SAME(1, stats.unsaved);
        SAME(0, stats.pinned);
        device.write_error = device.log_error = 0;
        SAME(HZ_DONE, hz_pager_flush(&pager, (uint64_t)unlogged));
    }
    /* None can make way: the first fault is told, and each page was tried once. */
    SAME(HZ_DONE, hz_pager_discard(&pager, 0, PAGES, &count));
    for (uint64_t page = 2; page < 2 + FRAMES; page++)
        change(&pager, page, 77, 0);
    device.write_error = ENOSPC;
    device.writes = 0;
    REFUSED(HZ_WRITE_FAILED, 1, 2, 0, ENOSPC, hz_pager_fix(&pager, 9, HZ_SHARED, &ref));
    SAME(FRAMES, device.writes);
    ref = fixed(&pager, 2, HZ_EXCLUSIVE);
    SAME(77, ref.bytes[0]);
    SAME(HZ_DONE, hz_pager_unfix(&ref));
    end(&pager);
}

static void checkpoints(void)
{
    hz_pager pager = start();
    uint64_t lsn = ODD, count = ODD;
    uint8_t flag = ODD;
    size_t cleaned = ODD;
    SAME(HZ_DONE, hz_pager_redo_from(&pager, &lsn, &flag));
    SAME(0, lsn + flag);
    change(&pager, 3, 33, 20);
    change(&pager, 1, 11, 21);
    change(&pager, 3, 34, 22);
    SAME(HZ_DONE, hz_pager_redo_from(&pager, &lsn, &flag));
    SAME(20, lsn);
    SAME(1, flag);
    SAME(HZ_DONE, hz_pager_clean(&pager, 9, &cleaned)); /* nothing is durable */
    SAME(0, cleaned);
    SAME(0, device.writes + device.logs + device.syncs);
    device.durable = 21;
    SAME(HZ_DONE, hz_pager_mark(&pager, 21));
    SAME(HZ_DONE, hz_pager_clean(&pager, 9, &cleaned)); /* page 1 alone */
    SAME(1, cleaned);
    SAME(11, device.pages[1][0]);
    SAME(21, device.lsns[1]);
    SAME(HZ_DONE, hz_pager_checkpoint(&pager, &lsn, &flag));
    SAME(0, lsn + flag);
    SAME(34, device.pages[3][0]);
    SAME(22, device.lsns[3]);
    SAME(2, device.writes);
    SAME(1, device.logs);
    SAME(1, device.syncs);
    hz_pager_stats stats;
    SAME(HZ_DONE, hz_pager_stats_of(&pager, &stats, sizeof stats));
    SAME(1, stats.hits);
    SAME(2, stats.faults);
    SAME(0, stats.evictions + stats.failed + stats.pinned + stats.unsaved);
    SAME(2, stats.writes);
    SAME(2, stats.resident);
    SAME(true, stats.memory > FRAMES * SIZE);
    SAME(HZ_DONE, hz_pager_is_resident(&pager, 3, &flag));
    SAME(1, flag);
    SAME(HZ_DONE, hz_pager_is_resident(&pager, 4, &flag));
    SAME(0, flag);
    REFUSED(HZ_OUT_OF_PAGE, 1, PAGES, 0, 0, hz_pager_is_resident(&pager, PAGES, &flag));
    SAME(HZ_OUT_OF_PAGE, hz_pager_flush(&pager, PAGES));
    SAME(HZ_DONE, hz_pager_purge(&pager, &count));
    SAME(0, count);
    end(&pager);
}

static void purges(void)
{
    hz_pager_config config = usual();
    hz_pager pager = {0};
    uint64_t count = ODD;
    end((hz_pager[1]){start()});
    config.retained = 3;
    SAME(HZ_DONE, hz_pager_new(&config, &io, &pager));
    for (uint64_t page = 0; page < 12; page++) {
        hz_ref ref = fixed(&pager, page, HZ_SHARED);
        SAME(HZ_DONE, hz_pager_unfix(&ref));
    }
    /* Four are in frames, and of the other eight the newest was used four fixes before the last. */
    SAME(HZ_DONE, hz_pager_purge(&pager, &count));
    SAME(8, count);
    end(&pager);
}

static void use(const hz_pager *pager, uint64_t page)
{
    hz_ref ref = fixed(pager, page, HZ_SHARED);
    SAME(HZ_DONE, hz_pager_unfix(&ref));
}

/* The log fails once, and would go well from then on: no page goes out under what it has lost. Others are used. */
static void lost_log(void)
{
    hz_pager pager = start();
    uint64_t lsn;
    uint8_t has_lsn;
    size_t cleaned;
    change(&pager, 6, 66, 10);
    device.log_error = EIO;
    REFUSED(HZ_LOG_LOST, 1, 6, 10, EIO, hz_pager_flush(&pager, 6));
    SAYS("page 6: the log failed (LSN 10): Input/output error (os error 5)");
    device.log_error = 0;
    SAME(HZ_DONE, hz_pager_mark(&pager, 10));
    REFUSED(HZ_LOG_LOST, 1, 6, 0, 0, hz_pager_flush(&pager, 6));
    SAYS("page 6: the log failed");
    REFUSED(HZ_LOG_LOST, 0, 0, 0, 0, hz_pager_checkpoint(&pager, &lsn, &has_lsn));
    SAME(HZ_DONE, hz_pager_clean(&pager, 9, &cleaned));
    SAME(0, cleaned);
    for (uint64_t page = 7; page < PAGES; page++)
        use(&pager, page);
    SAME(1, device.logs);
    SAME(0, device.writes + device.syncs);
    SAME(6, device.pages[6][0]);
    change(&pager, 2, 22, 0); /* a page without a record needs no log */
    SAME(HZ_DONE, hz_pager_flush(&pager, 2));
    SAME(22, device.pages[2][0]);
    /* Nor does a checkpoint go well once no page needs it: the log is not to be cut. */
    SAME(HZ_DONE, hz_pager_discard(&pager, 6, 1, &lsn));
    REFUSED(HZ_LOG_LOST, 0, 0, 0, 0, hz_pager_checkpoint(&pager, &lsn, &has_lsn));
    SAME(0, device.syncs);
    end(&pager);
}

static bool is_resident(const hz_pager *pager, uint64_t page)
{
    uint8_t flag = ODD;
    SAME(HZ_DONE, hz_pager_is_resident(pager, page, &flag));
    return flag;
}

/* Page 0 was used at 1 and 3, and page 1 at 2. By the default period of two fixes both uses of page 0 are one, so it is
 * the older one. */
static void periods(void)
{
    for (int has_period = 0; has_period < 2; has_period++) {
        hz_pager_config config = usual();
        hz_pager pager = {0};
        int fd = open("pager.pages", O_RDWR | O_CREAT | O_TRUNC, 0600);
        SAME(0, ftruncate(fd, 17 * SIZE));
        config.pages = 17, config.frames = 16, config.k = 1;
        config.correlated = has_period ? 0 : HZ_NO_PERIOD;
        SAME(HZ_DONE, hz_pager_new_file(&config, fd, 1, &pager));
        use(&pager, 0), use(&pager, 1), use(&pager, 0);
        for (uint64_t page = 2; page < 17; page++)
            use(&pager, page);
        SAME(!has_period, is_resident(&pager, 0));
        SAME(has_period, is_resident(&pager, 1));
        end(&pager);
        SAME(0, close(fd));
    }
}

/* Page 0 is pinned at 1 and used at 4 and 5, and page 1 is used at 2 and 3. If both uses of the pinned page are told,
 * its last but one is the newer. */
static void pins_that_are_told(void)
{
    for (uint8_t tells = 0; tells < 2; tells++) {
        hz_pager_config config = usual();
        hz_pager pager = start();
        end(&pager);
        config.frames = 2, config.tells_each_pin = tells;
        SAME(HZ_DONE, hz_pager_new(&config, &io, &pager));
        hz_ref pin = fixed(&pager, 0, HZ_PINNED);
        use(&pager, 1), use(&pager, 1), use(&pager, 0), use(&pager, 0);
        SAME(HZ_DONE, hz_pager_unfix(&pin));
        use(&pager, 2);
        SAME(tells, is_resident(&pager, 0));
        SAME(!tells, is_resident(&pager, 1));
        end(&pager);
    }
}

/* ---- Callbacks ---- */

static hz_pager beside;      /* another pager */
static hz_ref held;          /* a page that the thread has while it is in a callback */
static unsigned looks_inside;

static void look_inside(void)
{
    hz_pager *pager = device.pager;
    hz_ref ref;
    uint64_t number;
    uint8_t flag;
    size_t count;
    hz_pager_stats stats;
    device.inside = NULL; /* once, and not in the callbacks of the pager beside */
    looks_inside++;
    REFUSED(HZ_IN_CALLBACK, 0, 0, 0, 0, hz_pager_free(pager));
    SAYS("a callback of the pager may not make this call");
    SAME(HZ_IN_CALLBACK, hz_pager_fix(pager, 7, HZ_PINNED | HZ_TRY, &ref));
    SAME(HZ_IN_CALLBACK, hz_pager_new_page(pager, 7, &ref));
    SAME(HZ_IN_CALLBACK, hz_pager_flush(pager, 7));
    SAME(HZ_IN_CALLBACK, hz_pager_checkpoint(pager, &number, &flag));
    SAME(HZ_IN_CALLBACK, hz_pager_clean(pager, 1, &count));
    SAME(HZ_IN_CALLBACK, hz_pager_purge(pager, &number));
    SAME(HZ_DONE, hz_pager_mark(pager, 1));
    SAME(HZ_DONE, hz_pager_redo_from(pager, &number, &flag));
    SAME(HZ_DONE, hz_pager_stats_of(pager, &stats, sizeof stats));
    SAME(HZ_DONE, hz_pager_is_resident(pager, 7, &flag));
    SAME(HZ_DONE, hz_pager_put(&held, 0, (const uint8_t *)"c", 1, 0));
    change(&beside, 7, 70, 0);
    SAME(HZ_DONE, hz_pager_flush(&beside, 7));
    SAME(HZ_UNKNOWN_PASS, hz_pager_unfix((hz_ref[1]){{0}}));
}

static void callbacks(void)
{
    hz_pager_config config = usual();
    hz_pager pager = start();
    hz_ref ref;
    uint64_t lsn;
    uint8_t has_lsn;
    device.pager = &pager;
    SAME(HZ_DONE, hz_pager_new(&config, &io, &beside));
    held = fixed(&pager, 1, HZ_EXCLUSIVE);
    device.inside = look_inside;
    ref = fixed(&pager, 2, HZ_EXCLUSIVE); /* read */
    SAME('c', held.bytes[0]);
    SAME(HZ_DONE, hz_pager_put(&ref, 0, (const uint8_t *)"d", 1, 50));
    SAME(HZ_DONE, hz_pager_unfix(&ref));
    device.inside = look_inside;
    SAME(HZ_DONE, hz_pager_flush(&pager, 2)); /* the log */
    change(&pager, 2, 22, 50);
    device.inside = look_inside;
    SAME(HZ_DONE, hz_pager_flush(&pager, 2)); /* a write alone */
    SAME(HZ_DONE, hz_pager_unfix(&held));
    held = fixed(&pager, 3, HZ_SHARED);
    /* The newest refusal is that of the call, and not of what its callback tried. */
    SAME(HZ_DEADLOCK, hz_pager_fix(&pager, 3, HZ_SHARED, &ref));
    SAME(HZ_DONE, hz_pager_unfix(&held));
    held = fixed(&pager, 4, HZ_EXCLUSIVE);
    SAME(HZ_DEADLOCK, hz_pager_checkpoint(&pager, &lsn, &has_lsn));
    device.inside = look_inside;
    ref = fixed(&pager, 5, HZ_SHARED);
    SAYS("the call would wait for a latch that this thread has");
    SAME(HZ_DONE, hz_pager_unfix(&ref));
    SAME(HZ_DONE, hz_pager_unfix(&held));
    SAME(4, looks_inside);
    end(&beside);
    end(&pager);
}

/* ---- What goes on, told as it happens ---- */

enum { WORK_NS = 2000000 };

static char told[400];
static hz_pager *watched;

/* So long each callback takes at least. */
static void rest(void)
{
    nanosleep(&(struct timespec){0, WORK_NS}, NULL);
}

/* Adds a line, and asks the pager what only tells; what may wait is refused. */
static void tell(void *own, uint64_t least, uint64_t ns, const char *what, uint64_t of, uint64_t count)
{
    hz_pager_stats stats;
    hz_ref ref;
    size_t len = strlen(told);
    SAME((uintptr_t)told, (uintptr_t)own);
    SAME(true, ns >= least);
    snprintf(told + len, sizeof told - len, "%s %llu %llu\n", what, (unsigned long long)of, (unsigned long long)count);
    SAME(HZ_DONE, hz_pager_stats_of(watched, &stats, sizeof stats));
    SAME(HZ_IN_CALLBACK, hz_pager_fix(watched, 7, HZ_SHARED, &ref));
    SAME(HZ_IN_CALLBACK, hz_pager_flush(watched, 7));
}

static void was_read(void *own, uint64_t first, uint64_t count, uint64_t ns)
{
    tell(own, WORK_NS, ns, "read", first, count);
}

static void was_written(void *own, uint64_t first, uint64_t count, uint64_t ns)
{
    tell(own, WORK_NS, ns, "write_out", first, count);
}

static void log_is_durable(void *own, uint64_t lsn, uint64_t ns)
{
    tell(own, WORK_NS, ns, "log", lsn, 0);
}

static void was_synced(void *own, uint64_t ns)
{
    tell(own, WORK_NS, ns, "sync", 0, 0);
}

static void was_evicted(void *own, uint64_t page)
{
    tell(own, 0, 0, "evict", page, 0);
}

static void waited(void *own, int what, uint64_t of, uint64_t ns)
{
    tell(own, WORK_NS, ns, "wait", (uint64_t)what, of);
}

static void failed(void *own, const hz_pager_fault *fault, uint64_t ns)
{
    SAME(EIO, fault->error);
    SAME(1, fault->has_page);
    tell(own, WORK_NS, ns, "fault", fault->number, fault->page);
}

/* All lines since the last time. */
static void is_told_of(const char *wanted, int line)
{
    if (strcmp(wanted, told))
        wrong(__FILE__, line, told, 0);
    *told = 0;
}

static void *look_at_5(void *pager)
{
    hz_ref ref = fixed(pager, 5, HZ_SHARED);
    SAME(HZ_DONE, hz_pager_unfix(&ref));
    return NULL;
}

static void observed(void)
{
    hz_pager_config config = usual();
    hz_pager pager = start();
    hz_observer observer = {sizeof observer, told,        was_read, was_written, log_is_durable,
                            was_synced,      was_evicted, waited,   failed};
    hz_pager_stats stats;
    hz_ref ref;
    uint64_t lsn;
    uint8_t has_lsn;
    pthread_t thread;
    end(&pager);
    config.frames = 1, config.observer = &observer;
    SAME(HZ_DONE, hz_pager_new(&config, &io, &pager));
    memset(&observer, 0, sizeof observer); /* it was copied */
    watched = &pager, device.inside = rest;
    change(&pager, 1, 11, 50);
    change(&pager, 2, 22, 0);
    is_told_of("read 1 1\nlog 50 0\nwrite_out 1 1\nevict 1 0\nread 2 1\n", __LINE__);
    SAME(HZ_DONE, hz_pager_checkpoint(&pager, &lsn, &has_lsn));
    is_told_of("write_out 2 1\nsync 0 0\n", __LINE__);
    device.read_error = EIO;
    REFUSED(HZ_READ_FAILED, 1, 3, 0, EIO, hz_pager_fix(&pager, 3, HZ_SHARED, &ref));
    device.read_error = 0;
    is_told_of("evict 2 0\nfault 17 3\n", __LINE__);
    ref = fixed(&pager, 5, HZ_EXCLUSIVE);
    SAME(0, pthread_create(&thread, NULL, look_at_5, &pager));
    do
        SAME(HZ_DONE, hz_pager_stats_of(&pager, &stats, sizeof stats));
    while (stats.waits == 0);
    rest();
    SAME(HZ_DONE, hz_pager_unfix(&ref));
    SAME(0, pthread_join(thread, NULL));
    is_told_of("read 5 1\nwait 2 5\n", __LINE__);
    device.inside = NULL;
    end(&pager);
}

/* ---- Threads ---- */

enum { THREADS = 8, ROUNDS = 4000 };

/* Adds to the counters of two pages at a time, in the order of the pages. */
static void *add(void *argument)
{
    hz_pager *pager = argument;
    uint64_t state = (uintptr_t)&state, lsn = 0;
    uint8_t flag;
    size_t count;
    for (int round = 0; round < ROUNDS; round++) {
        state = state * 6364136223846793005u + 1442695040888963407u;
        uint64_t low = (state >> 33) % (PAGES - 1), high = low + 1 + (state >> 43) % (PAGES - 1 - low), counts[2];
        hz_ref pages[2] = {fixed(pager, low, HZ_EXCLUSIVE), fixed(pager, high, HZ_EXCLUSIVE)};
        for (int i = 0; i < 2; i++) {
            memcpy(&counts[i], pages[i].bytes, 8);
            counts[i]++;
            SAME(HZ_DONE, hz_pager_put(&pages[i], 0, (uint8_t *)&counts[i], 8, counts[i]));
        }
        for (int i = 0; i < 2; i++)
            SAME(HZ_DONE, hz_pager_unfix(&pages[i]));
        if (round % 512 == 0)
            SAME(HZ_DONE, hz_pager_checkpoint(pager, &lsn, &flag));
        if (round % 64 == 0)
            SAME(HZ_DONE, hz_pager_clean(pager, 2, &count));
        if (round % 16 == 0)
            SAME(HZ_DONE, hz_pager_flush(pager, low));
    }
    return NULL;
}

static void threads(void)
{
    pthread_t all[THREADS];
    uint64_t sum = 0, count, lsn;
    uint8_t has_lsn;
    hz_pager_config config = usual();
    hz_pager pager = start();
    end(&pager);
    memset(device.pages, 0, sizeof device.pages);
    config.frames = THREADS + 1; /* if each thread has one page, one of them gets its second */
    config.correlated = 0;
    config.pin_wait_ms = 60000;
    SAME(HZ_DONE, hz_pager_new(&config, &io, &pager));
    for (int i = 0; i < THREADS; i++)
        SAME(0, pthread_create(&all[i], NULL, add, &pager));
    for (int i = 0; i < THREADS; i++)
        SAME(0, pthread_join(all[i], NULL));
    SAME(HZ_DONE, hz_pager_checkpoint(&pager, &lsn, &has_lsn));
    for (int page = 0; page < PAGES; page++) {
        memcpy(&count, device.pages[page], 8);
        sum += count;
    }
    SAME(2 * THREADS * ROUNDS, sum);
    end(&pager);
}

/* Until all other threads have come to wait for the page that is read. */
static void till_others_wait(void)
{
    hz_pager_stats stats;
    do
        SAME(HZ_DONE, hz_pager_stats_of(device.pager, &stats, sizeof stats));
    while (stats.waits < THREADS - 1);
}

static void *is_told(void *pager)
{
    hz_ref ref;
    REFUSED(HZ_READ_FAILED, 1, 6, 0, EIO, hz_pager_fix(pager, 6, HZ_SHARED, &ref));
    return NULL;
}

/* A page that cannot be read is read once more for all that waited meanwhile, and not once for each. */
static void fault_of_many(void)
{
    pthread_t all[THREADS];
    hz_pager pager = start();
    device.pager = &pager;
    device.read_error = EIO;
    device.inside = till_others_wait;
    for (int i = 0; i < THREADS; i++)
        SAME(0, pthread_create(&all[i], NULL, is_told, &pager));
    for (int i = 0; i < THREADS; i++)
        SAME(0, pthread_join(all[i], NULL));
    SAME(2, device.reads);
    device.inside = NULL;
    device.read_error = 0;
    hz_ref ref = fixed(&pager, 6, HZ_SHARED);
    SAME(3, device.reads);
    SAME(HZ_DONE, hz_pager_unfix(&ref));
    end(&pager);
}

/* With a period of nearly 2^62 the clock comes to its end as the first page makes way for the second: from 3 on, by the
 * period and one. A page that is fixed can still be fixed again. */
static void clock_at_its_end(void)
{
    hz_pager_config config = usual();
    hz_pager pager = start();
    hz_ref ref;
    end(&pager);
    config.frames = 1;
    config.correlated = ((uint64_t)1 << 62) - 4;
    SAME(HZ_DONE, hz_pager_new(&config, &io, &pager));
    use(&pager, 0);
    hz_ref pin = fixed(&pager, 1, HZ_PINNED);
    REFUSED(HZ_CLOCK_FULL, 1, 2, 0, 0, hz_pager_fix(&pager, 2, HZ_SHARED, &ref));
    SAYS("page 2: the clock of a part has come to its end");
    SAME(HZ_CLOCK_FULL, hz_pager_fix(&pager, 2, HZ_EXCLUSIVE, &ref));
    SAME(HZ_CLOCK_FULL, hz_pager_new_page(&pager, 2, &ref));
    ref = fixed(&pager, 1, HZ_SHARED);
    SAME(true, is_filled(ref.bytes, SIZE, 1));
    SAME(HZ_DONE, hz_pager_unfix(&ref));
    SAME(HZ_DONE, hz_pager_unfix(&pin));
    end(&pager);
}

/* ---- Panics and memory ---- */

/* A page takes no more than so many pins. Then all goes on. */
static void panics(void)
{
    enum { MOST = 1 << 19 };
    hz_pager pager = start();
    hz_ref *pins = calloc(MOST + 1, sizeof *pins), ref;
    uint16_t number = HZ_DONE;
    size_t count = 0;
    for (; count <= MOST && number == HZ_DONE; count++)
        number = hz_pager_fix(&pager, 1, HZ_PINNED, &pins[count]);
    SAME(HZ_PANICKED, number);
    SAYS("page 1: the library found a fault of its own, or a page has 500,000 pins or latches");
    SAME(MOST, count - 1);
    for (size_t i = 0; i < MOST; i++)
        SAME(HZ_DONE, hz_pager_unfix(&pins[i]));
    ref = fixed(&pager, 1, HZ_EXCLUSIVE);
    SAME(HZ_DONE, hz_pager_unfix(&ref));
    free(pins);
    end(&pager);
}

/* Each request for memory of a pager's life is refused in turn. */
static void *without_memory(void *argument)
{
    bool *was_refused = argument;
    hz_pager_config config = usual();
    hz_pager pager = {0};
    hz_ref refs[3];
    uint64_t lsn;
    uint8_t has_lsn;
    uint16_t number = hz_pager_new(&config, &io, &pager);
    *was_refused |= number == HZ_OUT_OF_MEMORY;
    if (number == HZ_OUT_OF_MEMORY)
        SAME(HZ_DONE, hz_pager_new(&config, &io, &pager));
    for (int i = 0; i < 3; i++) {
        number = hz_pager_fix(&pager, (uint64_t)i, HZ_EXCLUSIVE, &refs[i]);
        *was_refused |= number == HZ_OUT_OF_MEMORY;
        if (number == HZ_OUT_OF_MEMORY)
            refs[i] = fixed(&pager, (uint64_t)i, HZ_EXCLUSIVE);
        SAME(HZ_DONE, hz_pager_put(&refs[i], 0, (const uint8_t *)"m", 1, 0));
    }
    number = hz_pager_put(&refs[2], 1, refs[2].bytes, SIZE - 1, 0);
    *was_refused |= number == HZ_OUT_OF_MEMORY;
    SAME(number == HZ_DONE ? 'm' : 2, refs[2].bytes[1]);
    for (int i = 0; i < 3; i++)
        SAME(HZ_DONE, hz_pager_unfix(&refs[i]));
    number = hz_pager_checkpoint(&pager, &lsn, &has_lsn);
    *was_refused |= number == HZ_OUT_OF_MEMORY;
    if (number == HZ_OUT_OF_MEMORY)
        SAME(HZ_DONE, hz_pager_checkpoint(&pager, &lsn, &has_lsn));
    end(&pager);
    return NULL;
}

static void memory(void)
{
    unsigned long last = 0, count = 0;
    hz_pager pager = start();
    end(&pager);
    do {
        bool was_refused = false;
        for (int page = 0; page < PAGES; page++)
            memset(device.pages[page], page, SIZE);
        last++;
        pthread_t thread;
        requests = 0;
        refused = last;
        SAME(0, pthread_create(&thread, NULL, without_memory, &was_refused));
        SAME(0, pthread_join(thread, NULL));
        refused = 0;
        count += was_refused;
    } while (requests >= last);
    SAME(true, count >= 10);
}

int main(void)
{
    errors();
    victims();
    lost_log();
    checkpoints();
    purges();
    periods();
    pins_that_are_told();
    callbacks();
    observed();
    threads();
    fault_of_many();
    clock_at_its_end();
    panics();
    memory();
    return 0;
}
