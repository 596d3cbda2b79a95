/* 64 threads over a pager of 128 frames for as long as is wanted, with checkpoints, a cleaner, discards and a device
 * that fails. Memory stays as it is.
 *
 *     pager_soak [SECONDS [SEED]]    for so long, and by which numbers; 2 seconds from 1 if nothing is said
 *
 * Each page has one number in all of its words, that of its newest write. Each read of it, and the device at the end,
 * has to have that, and the device after a checkpoint what was there before. Pages of the last few are for scratch: a
 * thread writes to two, and drops them. Memory is told each minute, or each quarter of a time below four minutes, and
 * may not grow by more than 4 MiB after the first.
 *
 *     check/soak            builds it with the library, and runs it
 */
#define _POSIX_C_SOURCE 200809L
#include "hojzmated_pager.h"
#include <errno.h>
#include <pthread.h>
#include <sched.h>
#include <stdatomic.h>
#include <stdio.h>
#include <stdlib.h>
#include <string.h>
#include <time.h>
#include <unistd.h>

enum { THREADS = 64, DROPPED = 2, LASTING = 4096, PAGES = LASTING + THREADS * DROPPED, HOT = 64, FRAMES = 128 };
enum { SIZE = 64, WORDS = SIZE / 8, FAILS_IN = 300, MINUTE = 60 };
static const long MOST_GROWTH = 4 << 20;

static hz_pager pager;
static atomic_bool is_over;
static atomic_ulong calls, faults, checkpoints, cleaned, discards, states;
/* Written by whoever has the page's exclusive latch, or alone uses it for scratch. */
static uint64_t newest[PAGES];
/* A thread has it shared from a log record to the end of its write. */
static pthread_rwlock_t records = PTHREAD_RWLOCK_INITIALIZER;
static pthread_mutex_t turn = PTHREAD_MUTEX_INITIALIZER;
static _Atomic uint64_t log_end, log_durable;

static struct place {
    pthread_mutex_t lock;
    uint64_t words[WORDS];
} places[PAGES];

static void stop(int line, const char *what, unsigned long long number)
{
    char text[200];
    hz_pager_text(text, sizeof text);
    fprintf(stderr, "pager_soak.c:%d: %s: %llu (%s)\n", line, what, number, text);
    exit(1);
}

#define HAS_TO_BE(what, number) ((what) ? (void)0 : stop(__LINE__, #what, (unsigned long long)(number)))

/* Takes the lock of the records. Who comes later does not overtake a checkpoint that waits for it. */
static void take_records(int (*lock)(pthread_rwlock_t *))
{
    pthread_mutex_lock(&turn);
    lock(&records);
    pthread_mutex_unlock(&turn);
}

/* A number at random, of this thread's own numbers. */
static uint64_t draw(uint64_t below)
{
    static _Thread_local uint64_t state;
    if (!state)
        state = ++states * 7919;
    state = state * 6364136223846793005u + 1442695040888963407u;
    return (state >> 33) % below;
}

/* ---- The device, which fails at random, and the log ---- */

static int fails(void)
{
    bool is_bad = !is_over && draw(FAILS_IN) == 0;
    faults += is_bad;
    return is_bad ? EIO : 0;
}

static int read_page(void *own, uint64_t page, uint8_t *image, size_t size)
{
    struct place *place = (struct place *)own + page;
    if (fails())
        return draw(2) ? EIO : HZ_IO_WRONG_PAGE;
    pthread_mutex_lock(&place->lock);
    memcpy(image, place->words, size);
    pthread_mutex_unlock(&place->lock);
    return 0;
}

/* All words of a page have this number. */
static void look_at(const uint8_t *bytes, uint64_t number, uint64_t page)
{
    uint64_t word;
    for (int i = 0; i < WORDS; i++) {
        memcpy(&word, bytes + 8 * i, 8);
        HAS_TO_BE(word == number, page);
    }
}

/* A write that fails leaves half of the image. */
static int write_page(void *own, uint64_t page, uint8_t *image, size_t size, uint64_t lsn)
{
    struct place *place = (struct place *)own + page;
    int error = fails();
    look_at(image, lsn, page);
    HAS_TO_BE(lsn <= log_durable, page);
    pthread_mutex_lock(&place->lock);
    memcpy(place->words, image, error ? size / 2 : size);
    pthread_mutex_unlock(&place->lock);
    return error;
}

static int make_log_durable(void *own, uint64_t lsn)
{
    (void)own;
    if (fails())
        return HZ_IO_NOT_YET; /* after an errno the log is lost for good */
    uint64_t durable = log_durable;
    while (durable < lsn && !atomic_compare_exchange_weak(&log_durable, &durable, lsn))
        ;
    return 0;
}

static int sync_device(void *own)
{
    (void)own;
    return 0;
}

/* ---- What the threads do ---- */

/* Whether a call went well. Else it was a fault of the device. */
static bool is_done(uint16_t number)
{
    hz_pager_fault fault;
    if (number == HZ_DONE)
        return true;
    hz_pager_fault_of(&fault);
    bool is_of_device = number == HZ_READ_FAILED || number == HZ_WRITE_FAILED;
    HAS_TO_BE(is_of_device ? fault.error == EIO : number == HZ_WRONG_PAGE || number == HZ_NEED_LOG, number);
    return false;
}

static void look(const hz_ref *ref)
{
    look_at(ref->bytes, newest[ref->page], ref->page);
}

static void change(const hz_ref *ref)
{
    uint64_t words[WORDS];
    take_records(pthread_rwlock_rdlock);
    uint64_t lsn = ++log_end;
    for (int i = 0; i < WORDS; i++)
        words[i] = lsn;
    /* In two halves, of which nobody sees one. */
    HAS_TO_BE(hz_pager_put(ref, 0, (uint8_t *)words, SIZE / 2, lsn) == HZ_DONE, lsn);
    if (lsn % 8 == 0)
        sched_yield();
    HAS_TO_BE(hz_pager_put(ref, SIZE / 2, (uint8_t *)words, SIZE / 2, lsn) == HZ_DONE, lsn);
    newest[ref->page] = lsn;
    pthread_rwlock_unlock(&records);
}

static void use(uint64_t page, uint32_t how)
{
    hz_ref ref;
    if (!is_done(hz_pager_fix(&pager, page, how, &ref)))
        return;
    if (how != HZ_PINNED)
        look(&ref);
    if (how == HZ_EXCLUSIVE)
        change(&ref), look(&ref);
    HAS_TO_BE(hz_pager_unfix(&ref) == HZ_DONE, page);
}

/* Writes to pages of this thread's own, and drops them, whatever the device has of them. */
static void use_scratch(uint64_t first)
{
    hz_ref ref;
    uint64_t resident;
    uint8_t is_resident;
    for (uint64_t page = first; page < first + DROPPED; page++) {
        newest[page] = 0;
        if (is_done(hz_pager_new_page(&pager, page, &ref))) {
            look(&ref), change(&ref);
            HAS_TO_BE(hz_pager_unfix(&ref) == HZ_DONE, page);
            use(page, HZ_EXCLUSIVE);
        }
    }
    HAS_TO_BE(hz_pager_discard(&pager, first, DROPPED, &resident) == HZ_DONE, first);
    for (uint64_t page = first; page < first + DROPPED; page++)
        HAS_TO_BE(hz_pager_is_resident(&pager, page, &is_resident) == HZ_DONE && !is_resident, page);
    discards += resident;
}

static void *work(void *number)
{
    uint64_t own = (uint64_t)(uintptr_t)number, many = 0;
    for (; !is_over; many++) {
        uint64_t page = draw(draw(2) ? HOT : LASTING);
        switch (draw(20)) {
        case 0: is_done(hz_pager_flush(&pager, page)); break;
        case 1: use_scratch(LASTING + DROPPED * own); break;
        case 2: use(page, HZ_PINNED); break;
        case 3: case 4: case 5: case 6: case 7: case 8: use(page, HZ_EXCLUSIVE); break;
        default: use(page, HZ_SHARED);
        }
    }
    calls += many;
    return NULL;
}

static void *clean(void *unused)
{
    size_t count;
    while (!is_over) {
        if (is_done(hz_pager_clean(&pager, 8, &count)))
            cleaned += count;
        nanosleep(&(struct timespec){.tv_nsec = 1000000}, NULL);
    }
    return unused;
}

/* After a checkpoint redo begins at no record from before it, and the device has what was there before. A write that
 * failed left the last word of a page. */
static void *keep(void *unused)
{
    static uint64_t before[LASTING];
    while (!is_over) {
        uint64_t lsn, end;
        uint8_t has_lsn;
        take_records(pthread_rwlock_wrlock);
        end = log_end + 1;
        memcpy(before, newest, sizeof before);
        pthread_rwlock_unlock(&records);
        if (is_done(hz_pager_checkpoint(&pager, &lsn, &has_lsn))) {
            HAS_TO_BE(!has_lsn || lsn >= end, lsn);
            for (int page = 0; page < LASTING; page++) {
                pthread_mutex_lock(&places[page].lock);
                HAS_TO_BE(places[page].words[WORDS - 1] >= before[page], page);
                pthread_mutex_unlock(&places[page].lock);
            }
            checkpoints++;
        }
        nanosleep(&(struct timespec){.tv_nsec = 5000000}, NULL);
    }
    return unused;
}

/* Bytes of this program that are in memory. */
static long resident_bytes(void)
{
    long all = 0, resident = 0;
    FILE *file = fopen("/proc/self/statm", "r");
    HAS_TO_BE(file && fscanf(file, "%ld %ld", &all, &resident) == 2, 0);
    fclose(file);
    return resident * sysconf(_SC_PAGESIZE);
}

static void rest(double seconds)
{
    struct timespec time = {.tv_sec = (time_t)seconds};
    time.tv_nsec = (long)((seconds - (double)time.tv_sec) * 1e9);
    nanosleep(&time, NULL);
}

/* At the end the device does not fail, and has what was written last. */
static void end(long growth)
{
    uint64_t lsn;
    uint8_t has_lsn;
    hz_pager_stats stats;
    HAS_TO_BE(hz_pager_checkpoint(&pager, &lsn, &has_lsn) == HZ_DONE && !has_lsn, lsn);
    HAS_TO_BE(hz_pager_stats_of(&pager, &stats, sizeof stats) == HZ_DONE && !stats.unsaved && !stats.pinned, stats.pinned);
    HAS_TO_BE(stats.evictions && stats.failed && stats.discards == discards, stats.discards);
    for (int page = 0; page < LASTING; page++)
        for (int i = 0; i < WORDS; i++)
            HAS_TO_BE(places[page].words[i] == newest[page], page);
    HAS_TO_BE(faults && checkpoints && cleaned && discards, faults);
    printf("%lu calls, %lu evictions, %lu discards, %lu faults of the device, %lu checkpoints, ", (unsigned long)calls,
           (unsigned long)stats.evictions, (unsigned long)discards, (unsigned long)faults, (unsigned long)checkpoints);
    printf("memory grew by %ld bytes\n", growth);
    HAS_TO_BE(growth <= MOST_GROWTH, growth);
    HAS_TO_BE(hz_pager_free(&pager) == HZ_DONE, 0);
}

int main(int words, char **word)
{
    double seconds = words > 1 ? atof(word[1]) : 2;
    states = 1000 * (words > 2 ? strtoul(word[2], NULL, 10) : 1);
    pthread_t threads[THREADS + 2];
    hz_io io = {sizeof(hz_io), places, read_page, write_page, make_log_durable, sync_device};
    hz_pager_config config = HZ_PAGER_CONFIG_INIT;
    config.pages = PAGES, config.page_size = SIZE, config.frames = FRAMES, config.parts = 4;
    config.pin_wait_ms = 60000;
    HAS_TO_BE(hz_pager_new(&config, &io, &pager) == HZ_DONE, 0);
    for (int page = 0; page < PAGES; page++)
        pthread_mutex_init(&places[page].lock, NULL);
    for (long i = 0; i < THREADS + 2; i++)
        HAS_TO_BE(!pthread_create(&threads[i], NULL, i < THREADS ? work : i == THREADS ? clean : keep, (void *)i), i);
    long first = 0, most = 0;
    double each = seconds < 4 * MINUTE ? seconds / 4 : MINUTE;
    for (double at = each; at <= seconds; at += each) {
        rest(each);
        long now = resident_bytes();
        printf("after %.1f s: %ld bytes\n", at, now);
        fflush(stdout);
        first = first ? first : now, most = most < now ? now : most;
    }
    is_over = true;
    for (int i = 0; i < THREADS + 2; i++)
        pthread_join(threads[i], NULL);
    end(most - first);
    return 0;
}
