/* A pager for many threads, for C, C++ and whatever calls C: a pool with the file that it reads and writes, and with a
 * latch on each page, which is a lock on that page alone. docs/C.md has an engine over it. The pools below it are
 * proved; what stands here is tested. A program links with libhojzmated_pager, which has all that it needs.
 *
 *     hz_pager_config config = HZ_PAGER_CONFIG_INIT;  all else has a default
 *     config.pages = 1000, config.page_size = 4096, config.frames = 64;
 *     hz_pager_new_file(&config, fd, 1, &pager);   or hz_pager_new, with functions that read, write and sync
 *     hz_pager_fix(&pager, 7, HZ_EXCLUSIVE, &page);
 *     count = page.bytes[0] + 1;                   the page in place, which is only looked at
 *     hz_pager_put(&page, 0, &count, 1, lsn);      changes a part of it, under the log record lsn
 *     hz_pager_unfix(&page);
 *     hz_pager_checkpoint(&pager, &lsn, &has_lsn);
 *     hz_pager_free(&pager);
 *
 * Answers. Each call that returns a uint16_t returns 0 (HZ_DONE), or the number of a refusal: one of enum hz_refusal in
 * hojzmated.h, or of enum hz_pager_refusal below. hz_pager_text has its text, and hz_pager_fault_of its page and errno.
 * A refused call writes nothing to where its results go. The pager can be used after each refusal. A null pointer is
 * refused with HZ_NULL before all else, but for that of a buffer of length 0. A handle that has no pager, as after
 * hz_pager_free, is then refused with HZ_NO_CORE by each call but hz_pager_new and hz_pager_new_file; and a call that a
 * callback may not make with HZ_IN_CALLBACK. HZ_PANICKED may come of each call, and tells of a fault of the library.
 *
 * Threads. Any thread may make any call at any time, while others make others, with three rules:
 *
 *   - A page under a latch is given back, and put to, by the thread that fixed it. Another thread is refused with
 *     HZ_UNKNOWN_PASS. Where a thread ends, what it has under a latch is given back; hz_pager_free may come beside that.
 *     A page that was fixed with HZ_PINNED is of no thread: any gives it back, and it stays fixed until one does.
 *   - A thread waits for no latch of its own. So where it has a latch of a page, it is refused with HZ_DEADLOCK if it
 *     fixes that page again, except with HZ_PINNED; and if it has an exclusive latch, a flush of that page and each
 *     checkpoint are refused so.
 *   - Threads that have a latch and wait for another can wait for each other for ever, which the library cannot tell.
 *     So take latches in one order, as from the root of a tree down. Against it fix with HZ_TRY, and give back what you
 *     have where that is refused with HZ_BUSY. A flush and a checkpoint wait for exclusive latches too.
 *
 * These the library cannot tell, and what it does then is not defined: a handle of a pager that is neither all zero nor
 * as these calls left it, or that is a copy; hz_pager_free while another thread is in a call of that pager; a pointer
 * to other memory than its type says, or to fewer bytes than the length beside it; a write to a page's bytes, or a look
 * at them after it was given back; a callback that throws, or that longjmp leaves; a call from a signal handler, in a
 * child after fork, or of a thread that is cancelled within it; a file that was opened with O_APPEND, or whose
 * descriptor is closed while a pager has it.
 *
 * At its end a thread gives back the pages that it has under a latch. After that, as in handlers of atexit,
 * hz_pager_new_page, and hz_pager_fix but for HZ_PINNED, are refused with HZ_UNKNOWN_PASS, and flushes, checkpoints and
 * hz_pager_free are made as before. A thread that had no latch until then is not refused, and nobody gives back for it
 * what it latches there.
 */
#ifndef HOJZMATED_PAGER_H
#define HOJZMATED_PAGER_H

#include "hojzmated.h"

#ifdef __cplusplus
extern "C" {
#endif

/* The refusals of a pager beside those of enum hz_refusal, which mean here:
 *
 *     HZ_NO_VICTIM      all pages that could make way were pinned for the whole time that a call waits
 *     HZ_NEED_LOG       the log does not reach so far yet, as HZ_IO_NOT_YET told; the fault has the LSN
 *     HZ_BUSY           a latch cannot be had at once, with HZ_TRY; or a page is still fixed, when a pager is freed
 *     HZ_PAGE_PINNED    a page that is to be dropped is fixed
 *     HZ_UNKNOWN_PASS   this thread has not fixed the page, or has given it back; of a pin, it was given back
 *     HZ_READ_FAILED    a page could not be read, and is in no frame; the fault has the page and the errno
 *     HZ_WRITE_FAILED   a page could not be written out, and is unsaved; the fault has the page and the errno. Or
 *                       a file could not be made longer, and the fault has no page
 *     HZ_WRONG_PAGE     what was read is another page, or is spoilt
 *     HZ_CLOCK_FULL     the clock of a part has come to its end, as a period of nearly 2^62 may bring about. A page
 *                       that is fixed can still be fixed again
 *     HZ_OUT_OF_MEMORY  there is no memory for what the call needs
 *     HZ_OUT_OF_PAGE    the file has no such page, or the bytes are not within the page
 *     HZ_NO_CORE        the handle has no pager
 *     HZ_HAS_CORE       the handle has a pager already
 */
enum hz_pager_refusal {
    HZ_BAD_LENGTH = 3,        /* a page file does not end with a whole page, or has fewer pages than the config says */
    HZ_VERSION_MISMATCH = 61, /* the library was built over a core of another version, and makes no pager */
    HZ_SYNC_FAILED = 71,      /* the device could not be synced: what was written since the last good sync may be
                                 lost */
    HZ_DEADLOCK = 72,         /* the call would wait for a latch that this thread has */
    HZ_NOT_EXCLUSIVE = 73,    /* the page is not under its exclusive latch */
    HZ_IN_CALLBACK = 74,      /* a callback of this pager may not make the call */
    HZ_PANICKED = 75,         /* the library found a fault of its own, of which standard error has a line; or a page
                                 has 500,000 pins or latches */
    HZ_FILE_IN_USE = 76,      /* another pager has the page file, in this process or another, or bpool run has; or it
                                 cannot be locked, and the fault has the errno */
    HZ_NOT_A_FILE = 77,       /* a directory, with the errno EISDIR, or a pipe or a device, is no page file */
    HZ_FILE_READ_ONLY = 78,   /* the descriptor is open for reading alone, and the config does not say read_only */
    HZ_LOG_LOST = 79,         /* the log failed: in this call, where the fault has the LSN and the errno, or before.
                                 What was appended since it was durable last may be lost. Each later call that needs
                                 the log is refused so, and each checkpoint */
};

/* How a page is fixed: one of the first three, or one of them with HZ_TRY, as HZ_SHARED | HZ_TRY. */
enum hz_how {
    HZ_SHARED = 1,    /* under its shared latch: nobody puts to the page meanwhile */
    HZ_EXCLUSIVE = 2, /* under its exclusive latch: nobody else has a latch of the page, nor does it go out */
    HZ_PINNED = 3,    /* without a latch: it stays in its frame. Fix it again, under a latch, to look at it. Whichever
                         thread gives it back */
    HZ_TRY = 16,      /* waits for no latch and no pin of other threads, but for the device */
};

/* A pager, or none: one that is all zero bytes has none. It stays where it is: a copy is not a pager. */
typedef struct hz_pager {
    void *own;
} hz_pager;

/* A page that a thread has fixed. It may be copied and kept anywhere, and holds no memory: once the page was given back
 * each copy is refused with HZ_UNKNOWN_PASS, by whichever thread, for ever. */
typedef struct hz_ref {
    const uint8_t *bytes; /* the page in place, as many bytes as the page size, until it is given back. Null if it is
                             pinned without a latch. It is a multiple of 16 */
    uint64_t page;
    uint64_t serial;
    uint32_t slot;
    uint32_t how; /* HZ_SHARED, HZ_EXCLUSIVE or HZ_PINNED */
} hz_ref;

#define HZ_NO_PERIOD UINT64_MAX

struct hz_observer;

/* What a pager is made with. Begin with HZ_PAGER_CONFIG_INIT, and name the fields: later versions may have more. A
 * field of 0 has its default. */
typedef struct hz_pager_config {
    size_t size;          /* of this struct: sizeof(hz_pager_config) */
    uint64_t pages;       /* of the file, from 0 on: 1 to 1,048,576 for each part. No default, but for a descriptor */
    size_t page_size;     /* 16 to 65,536 bytes, a multiple of 16. No default */
    size_t frames;        /* the most pages in memory: 1 to 65,536 for each part. No default */
    size_t parts;         /* pools side by side, each with a lock: 1 to 64. Else by the processors */
    uint64_t correlated;  /* the two periods of LRU-K, in fixes: 1 to 2^62, or HZ_NO_PERIOD for one of no length. */
    uint64_t retained;    /* Else an eighth of the frames, and eight times the frames */
    uint64_t pin_wait_ms; /* how long a call waits where all pages that could make way are pinned. Else 10,000 */
    uint8_t k;            /* the K of LRU-K: 1 to 16. Else 2 */
    uint8_t tells_each_pin; /* 1: each fix is told to LRU-K at once, which takes a lock. Else a page that is fixed, or
                               was a short while ago, is fixed again without one, and such fixes are one reference */
    uint8_t read_only;      /* for hz_pager_new_file, 1: the file is read alone, also by others at the same time. A page
                               that is put to is never written out: HZ_WRITE_FAILED with the errno EACCES */
    uint8_t grows;          /* for hz_pager_new_file, 1: a file with fewer pages than the field pages gets pages of
                               zeros, up to these. Else it is refused */
    uint32_t unused;        /* 0: later versions may have fields here */
    const struct hz_observer *observer; /* is told what goes on. Null: nobody is. It is copied */
} hz_pager_config;

/* A config whose fields have their defaults, but for the three that have none. */
#define HZ_PAGER_CONFIG_INIT {sizeof(hz_pager_config), 0, 0, 0, 0, 0, 0, 0, 0, 0, 0, 0, 0, 0}

/* What a read callback answers where it found another page than it was asked for, or a wrong checksum. */
#define HZ_IO_WRONG_PAGE (-1)
/* What make_log_durable answers where the log ends before that LSN, and nothing of it is lost. */
#define HZ_IO_NOT_YET (-2)

/* The engine's device and log, as functions that the pager calls. Each gets the engine's own pointer, and answers 0 or
 * an errno, which the call that needed it then tells. None may be null.
 *
 * Several threads may be in these at once, each in a call on the pager. The pager holds no lock meanwhile. But the
 * thread may have latches: so make_log_durable takes no lock that a thread has while it waits for a page.
 *
 * A callback may call hz_pager_mark, hz_pager_put, hz_pager_unfix, and what only tells: hz_pager_redo_from,
 * hz_pager_stats_of, hz_pager_is_resident, hz_pager_fault_of, hz_pager_text. It may make any call on another pager. */
typedef struct hz_io {
    size_t size; /* of this struct: sizeof(hz_io) */
    void *own;
    /* Reads a page into the image. It answers HZ_IO_WRONG_PAGE where it finds another page there, or a wrong checksum.
     * After an error the image may hold anything. */
    int (*read)(void *own, uint64_t page, uint8_t *image, size_t page_size);
    /* Writes the image in the page's place. The image is a copy, and may be changed: the page LSN and a checksum can
     * be put into it. The log is durable as far as lsn. After an error the page is unsaved. */
    int (*write)(void *own, uint64_t page, uint8_t *image, size_t page_size, uint64_t lsn);
    /* Makes the log durable at least as far as lsn. Where it gets further, hz_pager_mark tells the pager. After an
     * errno the log is lost: what a sync has lost no later one keeps, though it goes well. So the pager asks no more,
     * and takes no mark. Each later call that needs the log, and each checkpoint, is refused with HZ_LOG_LOST; other
     * pages are read, and go out where their records were durable before. After HZ_IO_NOT_YET it asks again, when it
     * needs that record again. */
    int (*make_log_durable)(void *own, uint64_t lsn);
    /* Makes all writes to the device durable. */
    int (*sync)(void *own);
} hz_io;

/* Which refusal came, and of what. */
typedef struct hz_pager_fault {
    uint64_t page;    /* where has_page */
    uint64_t lsn;     /* HZ_NEED_LOG, and HZ_LOG_LOST where the log failed in this call: how far it has to be durable.
                         Else 0 */
    int32_t error;    /* the errno of the callback or of the file, or 0 */
    uint16_t number;  /* the refusal, or 0 where this thread was never refused */
    uint8_t has_page; /* 0 or 1. The page may be another than that of the call: a victim that could not be written */
} hz_pager_fault;

/* What a call slept for, and of what: a page, or an LSN where that is said. */
enum hz_wait {
    HZ_WAIT_PAGE = 1,  /* till another thread had read the page, or written it out */
    HZ_WAIT_LATCH = 2, /* for a latch of the page */
    HZ_WAIT_FRAME = 3, /* for a frame for the page */
    HZ_WAIT_PINS = 4,  /* till others gave the page back, which was to be dropped */
    HZ_WAIT_LOG = 5,   /* till another thread had made the log durable, which this one wanted as far as the LSN */
    HZ_WAIT_SYNC = 6,  /* till another thread had synced the device. Of 0 */
};

/* What goes on in a pager, as functions that it calls, for counters, histograms and traces: each event once, as it has
 * ended. Each function gets the engine's own pointer. One that is null is not called. ns are nanoseconds of a clock
 * that never goes back: from before a callback of hz_io was called, or the file was used, to the end of that.
 *
 * The thread is the one whose call it is, so several may be in these at once. The pager holds no lock meanwhile. But
 * the thread may have latches, and others may wait for the page: so these are short, and take no lock that a thread has
 * while it waits for a page. Of this pager they may make the calls that a callback may; any other call on any pager is
 * refused with HZ_IN_CALLBACK. They return: what callbacks may not do they may not either. */
typedef struct hz_observer {
    size_t size; /* of this struct: sizeof(hz_observer) */
    void *own;
    /* So many pages side by side, from the first one on, were read. */
    void (*read)(void *own, uint64_t first, uint64_t count, uint64_t ns);
    /* They were written. */
    void (*write_out)(void *own, uint64_t first, uint64_t count, uint64_t ns);
    /* The log was made durable as far as lsn. */
    void (*log)(void *own, uint64_t lsn, uint64_t ns);
    /* The device was synced. */
    void (*sync)(void *own, uint64_t ns);
    /* The page left its frame to make way for another one. */
    void (*evict)(void *own, uint64_t page);
    /* A call slept so long in all for what other threads had or did: one of enum hz_wait. A call that waited for
     * several things tells of each. */
    void (*wait)(void *own, int what, uint64_t of, uint64_t ns);
    /* A callback of hz_io, or the file, failed after so long: also where the call went on with another page. The fault
     * is as hz_pager_fault_of tells it, and there until this returns. Of pages side by side it names the first. */
    void (*fault)(void *own, const hz_pager_fault *fault, uint64_t ns);
} hz_observer;

/* What was counted since the pager was made, about, and how many pages there are of each kind now. While other threads
 * use the pager, each part is counted at a moment of its own. */
typedef struct hz_pager_stats {
    uint64_t hits;      /* fixes that found their page in a frame */
    uint64_t faults;    /* reads that went well, and new pages */
    uint64_t evictions; /* pages that left a frame for another */
    uint64_t writes;    /* write-outs that went well */
    uint64_t failed;    /* reads and write-outs that failed */
    uint64_t refused;   /* times that a pool could not do at once what it was asked for */
    uint64_t discards;  /* pages that left a frame by hz_pager_discard */
    uint64_t waits;     /* times that a thread slept till a page was read, written out or let go, or the log durable */
    size_t resident;    /* pages in frames */
    size_t pinned;      /* of these, pages that are fixed */
    size_t unsaved;     /* of these, pages with a put that is in no image on the device */
    size_t memory;      /* bytes that the pager has, about */
} hz_pager_stats;

/* Makes a pager in a handle that has none. The table of callbacks is copied; its pointer is kept until hz_pager_free.
 * Refused:
 *
 *     HZ_NULL          also where a callback is null
 *     HZ_HAS_CORE
 *     HZ_BAD_SETTINGS, HZ_BAD_GEOMETRY  a field of the config is out of its limits. Each size too, as that of io: it
 *                      is none of a version of the header, or there are bytes that are not 0 where this library has no
 *                      field. What they have not is 0
 *     HZ_VERSION_MISMATCH
 *     HZ_OUT_OF_MEMORY
 */
HZ_MUST_CHECK
uint16_t hz_pager_new(const hz_pager_config *config, const hz_io *io, hz_pager *pager);

/* Makes a pager over a page file, without a log: each LSN counts as durable. The file is open for reading and
 * writing, or with config->read_only for reading, and is still the engine's: close it after hz_pager_free. Where
 * config->pages is 0 it has as many pages as the file. The file ends with a whole page, and has no fewer pages than
 * config->pages; with config->grows it gets those that it lacks.
 *
 * The file is locked by flock until hz_pager_free, exclusively, or with config->read_only so that others may read
 * it too. Another pager over it is refused meanwhile: over the same descriptor, a copy of it, or another open of the
 * file, in this process or another. The lock is of the descriptor's open of the file: one that the engine took by it
 * is the same lock, and has gone after hz_pager_free. Who asks for no lock can write all the same.
 *
 * A file of format 1 has the pages one after the other. One of format 2 has 16 bytes before each page: its number
 * and the LSN it was written with, each of 8 bytes, little end first. A page that has not its number there is refused
 * with HZ_WRONG_PAGE. One of format 3 has 32 bytes: number and LSN as format 2, a checksum (CRC-32C) of the 28 other
 * bytes and of the page, and 12 zeros. A page that has not its number or its checksum is refused with HZ_WRONG_PAGE.
 * Where all bytes are zeros it is a page of zeros that was not written yet.
 *
 * A new file has no bytes, and config->grows. Or it is made by ftruncate(fd, pages * (head + page_size)) for the
 * formats 1 and 3, where head is 0 or 32; and one of format 2 by hz_file_fill of hz_file.h, after hz_file_init(&file,
 * fd, 2, page_size, slot, sizeof slot). Each has pages of zeros. A file of format 2 may also be made by ftruncate,
 * and each page by hz_pager_new_page before it is fixed otherwise.
 *
 * Refused: as hz_pager_new; HZ_BAD_SETTINGS for another format; HZ_READ_FAILED where the descriptor is of no open
 * file, as -1 is not: the fault has no page, and the errno that fstat gives; HZ_NOT_A_FILE; HZ_FILE_READ_ONLY;
 * HZ_FILE_IN_USE; HZ_BAD_LENGTH; HZ_WRITE_FAILED, without a page, where the file cannot be made longer: it may have
 * got some pages. */
HZ_MUST_CHECK
uint16_t hz_pager_new_file(const hz_pager_config *config, int fd, int format, hz_pager *pager);

/* Frees a pager, whose handle has none then. It writes nothing out: pages that are unsaved are lost, so make a
 * checkpoint before. No other thread may be in a call of it. One that has pages of it may be ending: then the call is
 * refused, or waits until these are given back. Refused: HZ_NO_CORE; HZ_IN_CALLBACK; HZ_BUSY where a page is fixed, by
 * whichever thread. */
uint16_t hz_pager_free(hz_pager *pager);

/* Fixes a page: gives it in *ref, with a latch or pinned, until hz_pager_unfix. It is read if it is in no frame, and
 * another page may have to be written out for that, its log record first. The call waits while the page is read by
 * another thread, and for the latch. Where that read began after the call came to wait, and fails, the call is refused
 * as that one; else it has the page read anew. Refused:
 *
 *     HZ_BAD_SETTINGS  there is no such how
 *     HZ_OUT_OF_PAGE
 *     HZ_DEADLOCK      this thread has a latch of the page
 *     HZ_BUSY          with HZ_TRY, where the latch is not free
 *     HZ_NO_VICTIM     with HZ_TRY at once
 *     HZ_UNKNOWN_PASS  in a handler of atexit, and the like, but for HZ_PINNED
 *     HZ_NEED_LOG, HZ_LOG_LOST, HZ_WRITE_FAILED  no page could make way; the fault is that of the first one that was
 *                       tried. If other pages are pinned, the call waits for them before, for 5 ms at most
 *     HZ_READ_FAILED, HZ_WRONG_PAGE, HZ_CLOCK_FULL, HZ_OUT_OF_MEMORY
 */
HZ_MUST_CHECK
uint16_t hz_pager_fix(const hz_pager *pager, uint64_t page, uint32_t how, hz_ref *ref);

/* Fixes a page that was never written, under its exclusive latch: its bytes are zeros, and nothing is read. If it is in
 * a frame, it is as it is there. Put something there: until then the page counts as saved, and may leave its frame
 * without being written out. Refused: as hz_pager_fix, but for HZ_BUSY and HZ_READ_FAILED. */
HZ_MUST_CHECK
uint16_t hz_pager_new_page(const hz_pager *pager, uint64_t page, hz_ref *ref);

/* Puts len bytes into the page from the offset on, under the log record lsn: the page goes out only once the log is
 * durable as far as lsn. 0 is for a change without a record. All puts of one fix are in an image of the page, or none.
 * The bytes may be those of a fixed page, of this one too. Refused: HZ_UNKNOWN_PASS; HZ_NOT_EXCLUSIVE; HZ_OUT_OF_PAGE;
 * HZ_OUT_OF_MEMORY, where they are those of this page. The page is then as it was. */
HZ_MUST_CHECK
uint16_t hz_pager_put(const hz_ref *ref, size_t offset, const uint8_t *bytes, size_t len, uint64_t lsn);

/* Gives a page back, with its latch. Refused: HZ_UNKNOWN_PASS. */
uint16_t hz_pager_unfix(const hz_ref *ref);

/* Notes that the log is durable as far as lsn. The mark never falls: one that is too far lets pages out before their
 * log records, from then on. So mark nothing after a sync that failed, be it the engine's own or one of
 * make_log_durable that has not returned yet: let both take one lock of the engine's. Once the log is lost, as
 * HZ_LOG_LOST tells, a mark changes nothing. */
uint16_t hz_pager_mark(const hz_pager *pager, uint64_t lsn);

/* Writes a page out, if it is unsaved. It waits for a thread that has its exclusive latch, and ends with a write-out
 * that began after the call, its own or another thread's. Refused: HZ_OUT_OF_PAGE; HZ_DEADLOCK; HZ_NEED_LOG,
 * HZ_LOG_LOST, HZ_WRITE_FAILED, HZ_OUT_OF_MEMORY, after which it is unsaved. */
HZ_MUST_CHECK
uint16_t hz_pager_flush(const hz_pager *pager, uint64_t page);

/* Drops so many pages from the first one on: they leave their frames without being written out, and their references
 * are forgotten. It is for pages that are of no use any longer, as those of a table that is dropped or of a file that
 * is truncated. What was put there and is not on the device is lost, and holds hz_pager_redo_from back no longer. No
 * callback is called. *resident gets how many were in frames. The call waits while a page is read or written out, and
 * at most pin_wait_ms for other threads to give it back.
 *
 * Make durable first what frees the pages for good, as the commit record of the transaction that drops their table:
 * else they may come back, by a crash or by its end without a commit, and lack what was lost here. A page that is used
 * again begins with hz_pager_new_page, and its first record has all of its bytes.
 *
 * Refused: HZ_OUT_OF_PAGE where the file has not all of these pages: none is dropped then; HZ_PAGE_PINNED where one of
 * them is still fixed, by this thread too: those before it are dropped. */
HZ_MUST_CHECK
uint16_t hz_pager_discard(const hz_pager *pager, uint64_t first, uint64_t count, uint64_t *resident);

/* Writes out each page that was unsaved when the call began, in the order of the file, and then syncs the device. One
 * sync serves all checkpoints that came to it before it began.
 *
 * It tells in *lsn from which LSN redo has to begin: the least of all puts that may not be on the device, where
 * *has_lsn is 1; there is none where it is 0, and *lsn too. The pager does not know a record that has no put yet. So
 * note the end of the log before the call, while no thread is between a record and its put, and cut the log at the
 * lesser of both.
 *
 * Refused: HZ_DEADLOCK where this thread has an exclusive latch of this pager; HZ_NEED_LOG, HZ_LOG_LOST,
 * HZ_WRITE_FAILED, HZ_OUT_OF_MEMORY, of the first page of several, after which all pages are written out that can be;
 * HZ_SYNC_FAILED, after which all that went out since the last good sync may be lost. After that and after HZ_LOG_LOST
 * each later checkpoint is refused so at once, with no errno: end the pager, and redo from the log. */
HZ_MUST_CHECK
uint16_t hz_pager_checkpoint(const hz_pager *pager, uint64_t *lsn, uint8_t *has_lsn);

/* Writes out at most so many pages, so that later victims need not be. They are pages that nobody has fixed, and whose
 * log records are durable already. It waits for no other thread: call it again and again from a thread of its own.
 * *count gets how many went out. Refused: HZ_WRITE_FAILED and HZ_OUT_OF_MEMORY, of the first page of several. */
HZ_MUST_CHECK
uint16_t hz_pager_clean(const hz_pager *pager, size_t most, size_t *count);

/* Forgets the references of pages that are in no frame and whose newest reference is older than the retained period.
 * *count gets how many. The pager does so by itself, a few pages at a time: there is no need to call this. */
uint16_t hz_pager_purge(const hz_pager *pager, uint64_t *count);

/* The calls from here on only tell.
 *
 * Tells the least LSN of all puts that are in no image on the device, as hz_pager_checkpoint does. */
uint16_t hz_pager_redo_from(const hz_pager *pager, uint64_t *lsn, uint8_t *has_lsn);

/* Tells what was counted, to a struct of so many bytes: pass sizeof *out. Of a longer struct than the library has the
 * rest gets zeros, and of a shorter one it tells what there is room for. */
uint16_t hz_pager_stats_of(const hz_pager *pager, hz_pager_stats *out, size_t size);

/* Tells whether a page is in a frame: *is_resident gets 1 or 0. Refused: HZ_OUT_OF_PAGE. */
uint16_t hz_pager_is_resident(const hz_pager *pager, uint64_t page, uint8_t *is_resident);

/* Tells of the newest call of this thread that was refused. Later calls that go well do not change it. */
uint16_t hz_pager_fault_of(hz_pager_fault *out);

/* Writes the text of that refusal, with its page and the text of its errno, as "page 7: it could not be written: File
 * too large (os error 27)": as much as fits, with a zero at its end. Returns the length of the whole, without the zero.
 * Where `into` is null or len is 0, nothing is written. */
size_t hz_pager_text(char *into, size_t len);

/* Returns the text of a number of either enum of refusals, "unknown number" where none has it. It is never null, and
 * stays as it is. */
const char *hz_pager_strerror(uint16_t number);

/* The HZ_VERSION of the library. */
uint32_t hz_pager_version(void);

#ifdef __cplusplus
}
#endif
#endif
