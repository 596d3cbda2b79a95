/* An engine over the pager for many threads: counters in pages, a write-ahead log, checkpoints, a checksum in each
 * page. Eight threads add to counters of two pages at a time, under one log record. Wherever it is killed, the next
 * run has both additions of each record or none, and each that was acknowledged. check/kills kills it.
 *
 *     engine FOLDER SECONDS     makes the files or redoes the log, prints "ready", and adds for so long
 *
 * A page that a loss of power tore is found by its checksum, and not mended: bindings/rust/examples/ledger does that.
 */
#define _POSIX_C_SOURCE 200809L
#include "hojzmated_pager.h"
#include <errno.h>
#include <fcntl.h>
#include <pthread.h>
#include <stdatomic.h>
#include <stdio.h>
#include <stdlib.h>
#include <string.h>
#include <time.h>
#include <unistd.h>

enum { PAGES = 2000, SIZE = 4096, FRAMES = 256, THREADS = 8 };

/* What stands in a page: how often each thread has added. Sum and LSN are put there as the page goes out. */
struct page {
    uint64_t sum, lsn, counts[THREADS];
};

/* Records lie in no two sectors of a disk. The LSN is where the record ends in the log. In the log's first place is the
 * head, which has from where to redo as its LSN. */
struct record {
    uint64_t sum, lsn, thread, pages[2], counts[2], spare;
};

static struct {
    int fd, error; /* that of the first sync that failed: what it has lost no later one keeps */
    atomic_uint_fast64_t end; /* all before it is written */
    uint64_t durable;
    pthread_mutex_t lock; /* from a record to its puts: so each record before `end` is in its pages */
    pthread_mutex_t syncing;
} wal = {.lock = PTHREAD_MUTEX_INITIALIZER, .syncing = PTHREAD_MUTEX_INITIALIZER};

static hz_pager pager;
static int pages_fd, acks_fd;
static atomic_bool is_over;

static _Noreturn void fail(const char *what, const char *why)
{
    fprintf(stderr, "engine: %s: %s\n", what, why);
    _exit(1);
}

/* The engine ends where the pager refuses a call. */
static void must(uint16_t number, const char *what)
{
    char text[200];
    hz_pager_text(text, sizeof text);
    if (number != HZ_DONE)
        fail(what, text);
}

/* A checksum of words and of the place where they stand. That of zeros is not 0. */
static uint64_t sum_of(uint64_t place, const void *bytes, size_t size)
{
    uint64_t word, sum = ~place;
    for (size_t at = 0; at < size; at += 8) {
        memcpy(&word, (const uint8_t *)bytes + at, 8);
        sum = (sum ^ word) * 0x9e3779b97f4a7c15u;
        sum ^= sum >> 32;
    }
    return sum;
}

/* Moves all of some bytes between memory and a file. Returns 0 or an errno. */
static int move_all(bool is_write, int fd, void *bytes, size_t size, uint64_t at)
{
    for (size_t done = 0; done < size;) {
        uint8_t *rest = (uint8_t *)bytes + done;
        off_t place = (off_t)(at + done);
        ssize_t moved = is_write ? pwrite(fd, rest, size - done, place) : pread(fd, rest, size - done, place);
        if (moved == 0 || (moved < 0 && errno != EINTR))
            return moved ? errno : EIO;
        done += moved > 0 ? (size_t)moved : 0;
    }
    return 0;
}

/* The device and the log, as the pager calls them. */
static int read_page(void *fd, uint64_t number, uint8_t *image, size_t size)
{
    struct page page;
    int error = move_all(false, *(int *)fd, image, size, number * size);
    memcpy(&page, image, sizeof page);
    if (error || (page.sum == 0 && page.lsn == 0)) /* a page that was never written */
        return error;
    return page.sum == sum_of(number, image + 8, size - 8) ? 0 : HZ_IO_WRONG_PAGE;
}

static int write_page(void *fd, uint64_t number, uint8_t *image, size_t size, uint64_t lsn)
{
    memcpy(image + 8, &lsn, 8);
    uint64_t sum = sum_of(number, image + 8, size - 8);
    memcpy(image, &sum, 8);
    return move_all(true, *(int *)fd, image, size, number * size);
}

/* One thread syncs for all that wait meanwhile. */
static int make_log_durable(void *fd, uint64_t lsn)
{
    (void)fd; /* that of the pages */
    pthread_mutex_lock(&wal.syncing);
    if (wal.durable < lsn && !wal.error) {
        uint64_t end = wal.end;
        if ((wal.error = fdatasync(wal.fd) ? errno : 0) == 0)
            hz_pager_mark(&pager, wal.durable = end);
    }
    int error = wal.durable < lsn ? wal.error : 0;
    pthread_mutex_unlock(&wal.syncing);
    return errno = error;
}

static int sync_pages(void *fd)
{
    return fdatasync(*(int *)fd) ? errno : 0;
}

static void put_record(struct record *record, uint64_t at)
{
    record->sum = sum_of(at, (uint8_t *)record + 8, sizeof *record - 8);
    if (move_all(true, wal.fd, record, sizeof *record, at))
        fail("the log", strerror(errno));
}

/* Whether a whole record stands at a place. */
static bool get_record(struct record *record, uint64_t at)
{
    return !move_all(false, wal.fd, record, sizeof *record, at)
        && record->sum == sum_of(at, (uint8_t *)record + 8, sizeof *record - 8);
}

static void put_count(const hz_ref *page, const struct record *record, int i)
{
    size_t at = offsetof(struct page, counts) + 8 * record->thread;
    must(hz_pager_put(page, at, (const uint8_t *)&record->counts[i], 8, record->lsn), "a put");
}

/* Opens the files, and redoes the log from where its head says. What follows the last whole record goes. */
static void start(const char *folder)
{
    struct record record;
    hz_ref page;
    const hz_pager_config config = {.size = sizeof config, .pages = PAGES, .page_size = SIZE, .frames = FRAMES};
    const hz_io io = {sizeof io, &pages_fd, read_page, write_page, make_log_durable, sync_pages};
    if (chdir(folder) || (pages_fd = open("pages", O_RDWR | O_CREAT, 0600)) < 0
        || (wal.fd = open("log", O_RDWR | O_CREAT, 0600)) < 0 || (acks_fd = open("acks", O_RDWR | O_CREAT, 0600)) < 0
        || ftruncate(pages_fd, (off_t)PAGES * SIZE))
        fail(folder, strerror(errno));
    must(hz_pager_new(&config, &io, &pager), "the pager");
    wal.end = get_record(&record, 0) ? record.lsn : sizeof record;
    while (get_record(&record, wal.end) && record.lsn == wal.end + sizeof record) {
        put_record(&record, wal.end); /* after a sync that failed it may be in the system's memory alone */
        wal.end = record.lsn; /* before its puts: a page may have to go out for the next one */
        for (int i = 0; i < 2; i++) {
            must(hz_pager_fix(&pager, record.pages[i], HZ_EXCLUSIVE, &page), "redo");
            put_count(&page, &record, i); /* it may have this count already, or a later one */
            must(hz_pager_unfix(&page), "redo");
        }
    }
    if (ftruncate(wal.fd, (off_t)wal.end))
        fail("the log", strerror(errno));
}

/* Brings all pages to the device, and notes from where to redo at the next start: from the first record that is not
 * there. If that note is lost, the one before serves. */
static void checkpoint(void)
{
    struct record head = {0};
    uint64_t lsn;
    uint8_t has_lsn;
    pthread_mutex_lock(&wal.lock);
    head.lsn = wal.end;
    pthread_mutex_unlock(&wal.lock);
    must(hz_pager_checkpoint(&pager, &lsn, &has_lsn), "a checkpoint");
    if (has_lsn && lsn - sizeof head < head.lsn)
        head.lsn = lsn - sizeof head;
    put_record(&head, 0);
}

/* Adds to the counters of a thread in two pages, and returns the LSN. Latches are taken in the order of the pages,
 * so that no threads wait for each other. */
static uint64_t add(uint64_t thread, uint64_t low, uint64_t high)
{
    struct record record = {.thread = thread, .pages = {low, high}};
    hz_ref pages[2];
    for (int i = 0; i < 2; i++) {
        must(hz_pager_fix(&pager, record.pages[i], HZ_EXCLUSIVE, &pages[i]), "a page");
        memcpy(&record.counts[i], pages[i].bytes + offsetof(struct page, counts) + 8 * thread, 8);
        record.counts[i]++;
    }
    pthread_mutex_lock(&wal.lock);
    record.lsn = wal.end + sizeof record;
    put_record(&record, wal.end); /* first the record, and then the pages */
    wal.end = record.lsn;
    for (int i = 0; i < 2; i++)
        put_count(&pages[i], &record, i);
    pthread_mutex_unlock(&wal.lock);
    for (int i = 0; i < 2; i++)
        must(hz_pager_unfix(&pages[i]), "unfix");
    return record.lsn;
}

/* Adds, and after each 16 times acknowledges them, once their records are durable. */
static void *work(void *number)
{
    uint64_t thread = (uintptr_t)number, acknowledged = 0, lsn = 0, state = thread + (uint64_t)time(NULL);
    move_all(false, acks_fd, &acknowledged, 8, 8 * thread); /* none at first */
    while (!is_over) {
        for (int i = 0; i < 16; i++) {
            state = state * 6364136223846793005u + 1442695040888963407u;
            uint64_t low = (state >> 33) % (PAGES - 1);
            lsn = add(thread, low, low + 1 + (state >> 43) % (PAGES - 1 - low));
        }
        acknowledged += 16;
        if (make_log_durable(NULL, lsn) || move_all(true, acks_fd, &acknowledged, 8, 8 * thread))
            fail("an acknowledgement", strerror(errno));
    }
    return NULL;
}

int main(int count, char **words)
{
    pthread_t threads[THREADS];
    if (count != 3)
        fail("usage", "engine FOLDER SECONDS");
    start(words[1]);
    puts("ready");
    fflush(stdout);
    for (uintptr_t i = 0; i < THREADS; i++)
        if (pthread_create(&threads[i], NULL, work, (void *)i))
            fail("a thread", "it could not be made");
    for (double seconds = atof(words[2]); seconds > 0; seconds -= 0.1) {
        nanosleep(&(struct timespec){.tv_nsec = 100000000}, NULL);
        checkpoint();
    }
    is_over = true;
    for (int i = 0; i < THREADS; i++)
        pthread_join(threads[i], NULL);
    checkpoint();
    must(hz_pager_free(&pager), "the end");
    return 0;
}
