/* What include/hz_file.h does with a file: the bytes that stand in it, transfers that are short, interrupted or fail,
 * slots of other pages, and requests for memory that are refused. What stands here was reckoned by hand.
 *
 *     check/bindings        builds it with the library and the linker's --wrap of malloc and realloc, and runs it
 */
#include <errno.h>
#include <fcntl.h>
#include <stdbool.h>
#include <stdint.h>
#include <stdio.h>
#include <stdlib.h>
#include <string.h>
#include <unistd.h>

enum { SIZE = 16, PAGES = 4, ALL = 1000 };

static size_t at_most = ALL;  /* how many bytes a transfer moves at most */
static int interrupts, error; /* whether each is interrupted once before, and what it fails with */
static unsigned long interrupted, transfers;

static bool is_refused(void)
{
    transfers++;
    if (interrupts && ++interrupted % 2) {
        errno = EINTR;
        return true;
    }
    errno = error;
    return error != 0;
}

static ssize_t some_pread(int fd, void *bytes, size_t len, off_t at)
{
    return is_refused() ? -1 : pread(fd, bytes, len < at_most ? len : at_most, at);
}

static ssize_t some_pwrite(int fd, const void *bytes, size_t len, off_t at)
{
    return is_refused() ? -1 : pwrite(fd, bytes, len < at_most ? len : at_most, at);
}

static int some_fdatasync(int fd)
{
    return is_refused() ? -1 : fdatasync(fd);
}

#define pread some_pread
#define pwrite some_pwrite
#define fdatasync some_fdatasync
#include "hz_file.h"
#undef pread
#undef pwrite
#undef fdatasync

void *__real_malloc(size_t n);
void *__real_realloc(void *old, size_t n);

static unsigned long requests, refused; /* requests for memory, and which of them is refused: from 1 */

void *__wrap_malloc(size_t n)
{
    return ++requests == refused ? NULL : __real_malloc(n);
}

void *__wrap_realloc(void *old, size_t n)
{
    return ++requests == refused ? NULL : __real_realloc(old, n);
}

static void found_wrong(int line, const char *what, unsigned long long wanted, unsigned long long found)
{
    fprintf(stderr, "files.c:%d: %s is %llu, and not %llu\n", line, what, found, wanted);
    exit(1);
}

#define SAME(wanted, value)                                               \
    do {                                                                  \
        unsigned long long wanted_ = (unsigned long long)(wanted);        \
        unsigned long long value_ = (unsigned long long)(value);          \
        if (wanted_ != value_)                                            \
            found_wrong(__LINE__, #value, wanted_, value_);               \
    } while (0)

static uint8_t slot[HZ_FILE_HEAD + SIZE];
static hz_file file;
static hz_core core;
static hz_fixed asked;

/* A core of one frame over a new file of so many pages. */
static void start(int format, uint64_t pages)
{
    const hz_config config = {.pages = PAGES, .page_size = SIZE, .frames = 1, .room = 1000, .k = 1, .clients = 1};
    int fd = open("files.pages", O_RDWR | O_CREAT | O_TRUNC, 0600);
    SAME(0, hz_file_init(&file, fd, format, SIZE, slot, sizeof slot));
    SAME(0, hz_file_fill(&file, pages));
    SAME(0, hz_core_new(&config, &core));
}

static void stop(void)
{
    SAME(0, hz_core_free(&core));
    SAME(0, close(file.fd));
}

/* The bytes at a place of the file. */
static void stands(const void *bytes, size_t len, off_t at)
{
    uint8_t found[2 * SIZE];
    SAME(len, pread(file.fd, found, len, at));
    SAME(0, memcmp(found, bytes, len));
}

/* Writes a text into a page under an LSN, and gives its pass back. The clock moves, so that the page may leave. */
static void put(uint64_t page, const char *text, uint64_t lsn)
{
    SAME(0, hz_file_fix(&core, &file, 0, page, &asked));
    SAME(0, hz_write(&core, &asked.grant, 0, (const uint8_t *)text, strlen(text), lsn));
    SAME(0, hz_unfix(&core, &asked.grant));
    SAME(0, hz_tick(&core, 0, 1));
}

static void holds(uint64_t page, const char *text)
{
    const uint8_t *found;
    SAME(0, hz_file_fix(&core, &file, 0, page, &asked));
    SAME(page, asked.grant.page);
    SAME(0, hz_page(&core, &asked.grant, &found));
    SAME(0, memcmp(found, text, SIZE));
    SAME(0, hz_unfix(&core, &asked.grant));
    SAME(0, hz_tick(&core, 0, 1));
}

/* Two pages, of which the first leaves its frame for the second: what stands in the file of either format. */
static void bytes_of_a_file(void)
{
    static const uint8_t zeros[SIZE];
    static const uint8_t heads[][HZ_FILE_HEAD] = {{0}, {1}, {2, 0, 0, 0, 0, 0, 0, 0, 8, 7, 6, 5, 4, 3, 2, 1}, {3}};
    for (int format = 1; format <= 2; format++) {
        const off_t head = format == 2 ? HZ_FILE_HEAD : 0, whole = head + SIZE;
        start(format, PAGES);
        put(2, "the second page", 0x0102030405060708);
        SAME(HZ_NEED_LOG, hz_file_fix(&core, &file, 0, 0, &asked));
        SAME(0x0102030405060708, asked.lsn);
        stands(zeros, SIZE, 2 * whole + head);
        SAME(0, hz_mark(&core, 0, asked.lsn));
        put(0, "page 0", 0);
        SAME(1, asked.has_evicted);
        SAME(2, asked.evicted);
        SAME(0, hz_file_flush(&core, &file, 0, 0, &asked));
        SAME(0, hz_file_flush(&core, &file, 0, 0, &asked));
        SAME(HZ_CLEAN, asked.kind);
        SAME(0, hz_file_sync(&file));
        stands("page 0\0\0\0\0\0\0\0\0\0", SIZE, head);
        stands("the second page", SIZE, 2 * whole + head);
        stands(zeros, SIZE, whole + head);
        for (int page = 0; page < PAGES && format == 2; page++)
            stands(heads[page], HZ_FILE_HEAD, page * whole);
        SAME(PAGES * whole, lseek(file.fd, 0, SEEK_END));
        holds(2, "the second page");
        holds(0, "page 0\0\0\0\0\0\0\0\0\0");
        stop();
    }
}

/* A slot of another page is refused with 19, and one that the file does not have whole with 17. */
static void slots_that_are_not_there(void)
{
    start(2, 2);
    SAME(1, pwrite(file.fd, "\3", 1, HZ_FILE_HEAD + SIZE));
    SAME(HZ_WRONG_PAGE, hz_file_fix(&core, &file, 0, 1, &asked));
    SAME(HZ_WRONG_PAGE, hz_file_fix(&core, &file, 0, 1, &asked));
    SAME(HZ_READ_FAILED, hz_file_fix(&core, &file, 0, 2, &asked));
    SAME(EIO, errno);
    SAME(0, ftruncate(file.fd, 2 * (HZ_FILE_HEAD + SIZE) - 1));
    SAME(HZ_READ_FAILED, hz_file_fix(&core, &file, 0, 1, &asked));
    SAME(EIO, errno);
    holds(0, "\0\0\0\0\0\0\0\0\0\0\0\0\0\0\0");
    stop();
}

/* A device that fails: nothing is lost, and what failed can be asked for again. */
static void failures(void)
{
    hz_stats stats;
    start(2, PAGES);
    put(1, "unsaved so far.", 0);
    error = ENOSPC;
    SAME(HZ_WRITE_FAILED, hz_file_fix(&core, &file, 0, 2, &asked));
    SAME(ENOSPC, errno);
    SAME(HZ_WRITE_FAILED, hz_file_flush(&core, &file, 0, 1, &asked));
    SAME(ENOSPC, errno);
    SAME(HZ_WRITE_FAILED, hz_file_sync(&file));
    SAME(ENOSPC, errno);
    SAME(HZ_WRITE_FAILED, hz_file_fill(&file, PAGES));
    error = 0;
    SAME(0, hz_file_flush(&core, &file, 0, 1, &asked));
    error = EIO;
    SAME(HZ_READ_FAILED, hz_file_fix(&core, &file, 0, 2, &asked));
    SAME(EIO, errno);
    error = 0;
    holds(2, "\0\0\0\0\0\0\0\0\0\0\0\0\0\0\0");
    holds(1, "unsaved so far.");
    SAME(0, hz_stats_of(&core, &stats, sizeof stats));
    SAME(3, stats.failed);
    SAME(1, stats.writes);
    stop();
}

/* Each request for memory is refused in turn. The call made again gives the page: no ticket of it was left out. */
static void refused_memory(void)
{
    unsigned refusals = 0;
    bool is_more = true;
    for (unsigned long which = 1; is_more; which++) {
        start(1, PAGES);
        put(1, "to be written.", 0);
        requests = 0;
        refused = which;
        uint16_t number = hz_file_fix(&core, &file, 0, 2, &asked);
        is_more = requests >= which;
        refused = 0;
        SAME(is_more ? HZ_OUT_OF_MEMORY : 0, number);
        refusals += is_more;
        if (!is_more)
            SAME(0, hz_unfix(&core, &asked.grant));
        holds(2, "\0\0\0\0\0\0\0\0\0\0\0\0\0\0\0");
        holds(1, "to be written.\0");
        stop();
    }
    SAME(true, refusals >= 2);
}

/* What hz_file_init refuses, in its order, and that the file stays as it was. */
static void wrong_files(void)
{
    uint8_t largest[HZ_FILE_HEAD + 65536];
    hz_file some, before;
    memset(&some, 0xa5, sizeof some);
    before = some;
    SAME(HZ_NULL, hz_file_init(NULL, 3, 1, 20, slot, 0));
    SAME(HZ_NULL, hz_file_init(&some, 3, 1, 20, NULL, 0));
    SAME(HZ_BAD_GEOMETRY, hz_file_init(&some, 3, 0, 0, slot, 0));
    SAME(HZ_BAD_GEOMETRY, hz_file_init(&some, 3, 1, 20, slot, sizeof slot));
    SAME(HZ_BAD_GEOMETRY, hz_file_init(&some, 3, 1, 65552, largest, sizeof largest));
    SAME(HZ_BAD_SETTINGS, hz_file_init(&some, 3, 0, SIZE, slot, 0));
    SAME(HZ_BAD_SETTINGS, hz_file_init(&some, 3, 3, SIZE, slot, sizeof slot));
    SAME(HZ_OUT_OF_PAGE, hz_file_init(&some, 3, 1, SIZE, slot, sizeof slot - 1));
    SAME(0, memcmp(&some, &before, sizeof some));
    SAME(0, hz_file_init(&some, 3, 2, 65536, largest, sizeof largest));
    SAME(3, some.fd);
    SAME(2, some.format);
    SAME(65536, some.page_size);
    SAME((uintptr_t)largest + HZ_FILE_HEAD, (uintptr_t)hz_file_image(&some));
}

int main(void)
{
    wrong_files();
    for (int round = 0; round < 4; round++) {
        at_most = round % 2 ? 1 : ALL;
        interrupts = round / 2;
        transfers = 0;
        bytes_of_a_file();
        slots_that_are_not_there();
        failures();
        printf("%lu transfers%s%s\n", transfers, at_most == 1 ? " of a byte" : "", interrupts ? ", interrupted" : "");
    }
    at_most = ALL;
    interrupts = 0;
    refused_memory();
    printf("every refusal of memory was told\n");
    return 0;
}
