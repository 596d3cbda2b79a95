/* The buffer pool Hojzmated for C, C++ and whatever calls C: the silent core, with one owner. docs/C.md has the order
 * of calls, what is proved and what is not.
 *
 * The pool does no input or output and takes no lock. Threads may use one core in turn, under a lock of yours.
 *
 * Each call that returns a uint16_t returns 0, or the number of a refusal; hz_strerror has its text. A null pointer, but
 * for that of a buffer of length 0, is refused with HZ_NULL before all else. A handle with no core is then refused
 * with HZ_NO_CORE by each call but hz_core_new. In both cases nothing is written. Any other refusal leaves what the
 * call would have written as it was, but for hz_fixed, whose kind is then 0. Any client, page, offset, length, pass or
 * ticket may be passed: what is not of this core is refused. Where a call may be refused for several reasons, the
 * first of those listed with it is told.
 *
 * These the library cannot tell, and what it does then is not defined: a handle that is neither all zero nor as these
 * calls left it, or that is a copy; a pointer to other memory than its type says, or to fewer bytes than the length
 * beside it; a buffer that overlaps with a struct of the same call, or with a page that hz_page lent of this core; a
 * bool that is not 0 or 1; two calls on one core at once; a write to a page that hz_page lent; a look at one after its
 * pass went back, or while hz_write is at work there. Two structs of a call may be one: hz_read_end may put its pass
 * where its ticket is.
 *
 * What is yes or no has a name with is_ or has_. Where it is passed to the library, it is a bool. Where the library
 * tells it, it is a uint8_t of 1 or 0; and where a has_ is 0, what is there or not is 0 too.
 */
#ifndef HOJZMATED_H
#define HOJZMATED_H

#include <stdbool.h>
#include <stddef.h>
#include <stdint.h>

/* Stands before the calls whose answer a program has to look at: the compiler warns where it does not. Where a program
 * defines it as nothing before this header, there are no such warnings. */
#ifndef HZ_MUST_CHECK
#if defined(__cplusplus) && __cplusplus >= 201703L
#define HZ_MUST_CHECK [[nodiscard]]
#elif defined(__GNUC__)
#define HZ_MUST_CHECK __attribute__((warn_unused_result))
#else
#define HZ_MUST_CHECK
#endif
#endif

#ifdef __cplusplus
extern "C" {
#endif

/* The version of this header; hz_version tells that of the library. */
#define HZ_VERSION_MAJOR 0
#define HZ_VERSION_MINOR 13
#define HZ_VERSION_PATCH 0
#define HZ_VERSION (HZ_VERSION_MAJOR * 10000 + HZ_VERSION_MINOR * 100 + HZ_VERSION_PATCH)

enum hz_refusal {
    HZ_DONE = 0,
    HZ_BAD_GEOMETRY = 1,
    HZ_BAD_SETTINGS = 2,
    HZ_NO_VICTIM = 11,
    HZ_NEED_LOG = 12,
    HZ_BUSY = 13,
    HZ_UNKNOWN_PASS = 14,
    HZ_UNKNOWN_TICKET = 16,
    HZ_READ_FAILED = 17,
    HZ_WRITE_FAILED = 18,
    HZ_WRONG_PAGE = 19,
    HZ_TRAIL_FULL = 20, /* the room left is less than 3 for hz_fix, 2 for hz_flush, 1 for the others. A pass or a ticket
                           to write that is out keeps 1 for its end, a ticket to read 2: so no end is refused for want
                           of room */
    HZ_CLOCK_FULL = 21,
    HZ_OUT_OF_MEMORY = 22,
    HZ_PAGE_PINNED = 25,
    HZ_BAD_CLIENT = 41,
    HZ_OUT_OF_PAGE = 45,
    HZ_NO_CORE = 50,
    HZ_HAS_CORE = 51,
    HZ_NULL = 52, /* a pointer is null, and is not that of a buffer of length 0 */
};

/* What hz_fixed.kind may be; 0 where the core refused the call. */
enum hz_kind {
    HZ_HIT = 1,         /* the page is here: the grant is a pass */
    HZ_LOAD = 2,        /* read the page: the grant is a ticket for hz_read_end or hz_read_failed */
    HZ_WRITE_FIRST = 3, /* write a page out: the grant is a ticket for hz_write_end, and the buffer has the image */
    HZ_CLEAN = 4,       /* flush: the page has nothing to write */
    HZ_ABSENT = 5,      /* flush: the page is in no frame */
};

/* A core, or none: one that is all zero bytes has none. Only the calls below may read or write it, and no copy of it
 * may be used. */
typedef struct hz_core {
    struct {
        void *pool; /* the library's own, where there is a core */
    } seal;
    bool is_live; /* true from hz_core_new to hz_core_free, while there is a core. It is for the library, which refuses
                     a call on a handle without one */
} hz_core;

/* What a core is made with. */
typedef struct hz_config {
    uint64_t pages;      /* of the file: 1 to 1,048,576 */
    size_t page_size;    /* 16 to 65,536 bytes, a multiple of 16 */
    size_t frames;       /* 1 to 65,536 */
    size_t room;         /* how many calls the core may answer in all: 1 to 2^61. See HZ_TRAIL_FULL */
    uint64_t correlated; /* the two periods of LRU-K, in ticks: 0 to 2^62 */
    uint64_t retained;
    uint8_t k;       /* 1 to 16 */
    uint8_t clients; /* 1 to 64 */
} hz_config;

/* A pass or a ticket. It may be copied and kept anywhere. */
typedef struct hz_grant {
    uint64_t page;
    uint64_t serial;
    uint8_t client;
} hz_grant;

/* What a fix or a flush gave. */
typedef struct hz_fixed {
    hz_grant grant;
    uint64_t lsn;     /* HZ_WRITE_FIRST: the page LSN of the image; HZ_NEED_LOG: how far the log has to be durable */
    uint64_t evicted; /* the page that left its frame, where has_evicted */
    uint8_t kind;
    uint8_t has_evicted; /* 0 or 1 */
} hz_fixed;

/* An unsaved page: one with a write that is in no image on the device. Where has_page is 0 the others are too. */
typedef struct hz_unsaved {
    uint64_t page;
    uint64_t lsn;       /* its page LSN */
    uint64_t first_lsn; /* the least LSN of such writes */
    uint8_t has_page;   /* 0 or 1 */
} hz_unsaved;

/* What was counted since the core was made, and how many pages there are of each kind now. */
typedef struct hz_stats {
    uint64_t hits;      /* fixes that found their page in a frame */
    uint64_t faults;    /* reads that went well */
    uint64_t evictions; /* pages that left a frame for another */
    uint64_t writes;    /* write-outs that went well */
    uint64_t failed;    /* reads and write-outs that failed */
    uint64_t refused;   /* calls that were refused with HZ_NO_VICTIM, HZ_NEED_LOG, HZ_BUSY or HZ_PAGE_PINNED */
    size_t resident;    /* pages in frames */
    size_t pinned;      /* of these, pages of which a pass is out */
    size_t unsaved;     /* of these, pages that are unsaved */
    size_t loading;     /* pages that are being read */
    size_t writing;     /* pages that are being written out */
    uint64_t discards;  /* pages that left a frame by hz_discard */
} hz_stats;

/* Makes a core in a handle that has none. Refused: HZ_HAS_CORE; HZ_BAD_GEOMETRY for pages and page_size,
 * HZ_BAD_SETTINGS for the rest; HZ_OUT_OF_MEMORY. */
HZ_MUST_CHECK
uint16_t hz_core_new(const hz_config *config, hz_core *core);

/* Frees it, with all passes and tickets that are out. Refused: HZ_NO_CORE. */
uint16_t hz_core_free(hz_core *core);

/* Fixes a page, which pins it. The buffer has the page size: where a page is to be written out first, its image is
 * copied there, and else it stays as it was. Refused:
 *
 *     HZ_BAD_CLIENT     the core has no such client
 *     HZ_OUT_OF_PAGE    the page is not of the file, or len is not the page size
 *     HZ_TRAIL_FULL     the room left is less than 3
 *     HZ_BUSY           a read of the page is under way
 *     HZ_NO_VICTIM      no page may leave its frame: each is being read, pinned, being written out, or was referenced
 *                       within the correlated period
 *     HZ_NEED_LOG       the victim's log record is not durable yet: out->lsn tells it
 *     HZ_OUT_OF_MEMORY  where the page is here, or is to be read or written
 */
HZ_MUST_CHECK
uint16_t hz_fix(hz_core *core, uint8_t client, uint64_t page, uint8_t *buffer, size_t len, hz_fixed *out);

/* Ends a read: the page is in a frame, and pass is a pass for it. Refused: HZ_OUT_OF_PAGE where len is not the page
 * size; HZ_UNKNOWN_TICKET; HZ_OUT_OF_MEMORY. After the first and the last the ticket is still out. */
HZ_MUST_CHECK
uint16_t hz_read_end(hz_core *core, const hz_grant *ticket, const uint8_t *image, size_t len, hz_grant *pass);

/* Ends a read that was not good: is_wrong_page is true where it found another page, and false where the device failed.
 * Refused: HZ_UNKNOWN_TICKET. */
uint16_t hz_read_failed(hz_core *core, const hz_grant *ticket, bool is_wrong_page);

/* Ends a write-out: is_good is true where the image is on the device, and false where that failed. is_still_dirty gets
 * 1 where the page is unsaved still: the write-out was not good, or the page was written to since it began. Else it
 * gets 0. Refused: HZ_UNKNOWN_TICKET. */
uint16_t hz_write_end(hz_core *core, const hz_grant *ticket, bool is_good, uint8_t *is_still_dirty);

/* Gives a pass back. Refused: HZ_UNKNOWN_PASS. */
uint16_t hz_unfix(hz_core *core, const hz_grant *pass);

/* Copies len bytes of the page from the offset on. Refused: HZ_OUT_OF_PAGE, HZ_TRAIL_FULL, HZ_UNKNOWN_PASS. */
HZ_MUST_CHECK
uint16_t hz_read(hz_core *core, const hz_grant *pass, size_t offset, uint8_t *into, size_t len);

/* Lends the page: tells in *bytes where its bytes are, as many as the page size, in the memory of the core. There they
 * stay as long as this pass is out and the core is not freed, whatever other calls come: fixes, loads, write-outs. They
 * change by hz_write alone, through whichever pass of the page. They may be looked at and not written to. The first one
 * lies at a multiple of 16, as of all memory that malloc gives. It is no call that the room counts. Refused:
 * HZ_UNKNOWN_PASS. */
HZ_MUST_CHECK
uint16_t hz_page(const hz_core *core, const hz_grant *pass, const uint8_t **bytes);

/* Puts len bytes into the page from the offset on, under the log record lsn. Refused: HZ_OUT_OF_PAGE, HZ_TRAIL_FULL,
 * HZ_UNKNOWN_PASS. */
HZ_MUST_CHECK
uint16_t hz_write(hz_core *core, const hz_grant *pass, size_t offset, const uint8_t *bytes, size_t len, uint64_t lsn);

/* Moves the clock on by n. It starts at 1. Refused: HZ_BAD_CLIENT; HZ_TRAIL_FULL; HZ_CLOCK_FULL where it would pass
 * 2^62. */
uint16_t hz_tick(hz_core *core, uint8_t client, uint64_t n);

/* Notes that the log is durable as far as lsn. Refused: HZ_BAD_CLIENT, HZ_TRAIL_FULL. */
uint16_t hz_mark(hz_core *core, uint8_t client, uint64_t lsn);

/* Asks that a page be written out if it is unsaved: the kind is HZ_WRITE_FIRST, HZ_CLEAN or HZ_ABSENT, with the buffer
 * as in hz_fix. Refused: HZ_BAD_CLIENT; HZ_OUT_OF_PAGE; HZ_TRAIL_FULL, where the room left is less than 2; HZ_BUSY,
 * where the page is being read or written; HZ_NEED_LOG as in hz_fix; HZ_OUT_OF_MEMORY where it is to be written. */
HZ_MUST_CHECK
uint16_t hz_flush(hz_core *core, uint8_t client, uint64_t page, uint8_t *buffer, size_t len, hz_fixed *out);

/* Has a page leave its frame without being written out, for a page that is of no use any longer, as of a file that is
 * truncated: its writes that no good write-out began after are lost. So first make durable what frees it for good
 * (docs/RULES.md). Its references are forgotten too. It waits for no log and takes no memory. was_resident gets 1, or 0
 * where the page was in no frame. Refused: HZ_BAD_CLIENT; HZ_OUT_OF_PAGE; HZ_TRAIL_FULL; HZ_BUSY where the page is
 * being read or written; HZ_PAGE_PINNED where a pass of it is out. */
HZ_MUST_CHECK
uint16_t hz_discard(hz_core *core, uint8_t client, uint64_t page, uint8_t *was_resident);

/* Forgets pages that are away and whose newest reference is older than the retained period. count gets how many.
 * Refused: HZ_BAD_CLIENT, HZ_TRAIL_FULL. */
uint16_t hz_purge(hz_core *core, uint8_t client, uint64_t *count);

/* The calls from here to hz_is_resident only tell, and are no calls that the room counts. They need your lock as the
 * others do: what a core has inside may change, though it tells the same.
 *
 * Tells the page LSN of a pass's page: the greatest LSN of its writes since it was read, or 0. Refused:
 * HZ_UNKNOWN_PASS. */
uint16_t hz_page_lsn(const hz_core *core, const hz_grant *pass, uint64_t *lsn);

/* Tells the first unsaved page from this number on, in the order of the file, if there is one. */
uint16_t hz_next_unsaved(const hz_core *core, uint64_t from, hz_unsaved *out);

/* Tells the page whose frame the next hz_fix takes, if that is of a page that is away: an unsaved one is written out
 * first, and where the log is not durable up to its page LSN that fix is refused with HZ_NEED_LOG. has_page gets 1, or
 * 0 where a frame is free or no page may leave; page gets 0 then. */
uint16_t hz_victim(const hz_core *core, uint64_t *page, uint8_t *has_page);

/* Tells from where redo has to begin: the least LSN of all writes that are in no image on the device, one of LSN 0 too.
 * has_lsn gets 1, or 0 where there is no such write; lsn gets 0 then. Ask before the device is synced: what goes out
 * meanwhile may not be kept by that. */
uint16_t hz_redo_from(const hz_core *core, uint64_t *lsn, uint8_t *has_lsn);

/* Tells what was counted, to a struct of so many bytes: pass sizeof *out. Of a longer struct than the library has the
 * rest gets zeros, and of a shorter one it tells what there is room for. */
uint16_t hz_stats_of(const hz_core *core, hz_stats *out, size_t size);

/* Tells whether a page is in a frame: is_resident gets 1 or 0. Refused: HZ_OUT_OF_PAGE where the page is not of the
 * file. */
uint16_t hz_is_resident(const hz_core *core, uint64_t page, uint8_t *is_resident);

/* Returns the text of a number, "unknown number" where no refusal has it. It is never null, and stays as it is. */
const char *hz_strerror(uint16_t number);

/* Writes that text, as much as fits and with no zero at its end, and returns its whole length. Where `into`
 * is null nothing is written. */
size_t hz_text(uint16_t number, uint8_t *into, size_t len);

/* The HZ_VERSION of the library. */
uint32_t hz_version(void);

#ifdef __cplusplus
}
#endif
#endif
