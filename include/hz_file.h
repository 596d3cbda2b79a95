/* Page files for the pool: what hz_fix and hz_flush ask for is read and written here, by pread, pwrite and fdatasync of
 * POSIX. It is a header alone, beside the library. It is tested and not proved.
 *
 * A file that is used by many threads has an hz_file for each, with the same descriptor. hz_file_fix and hz_file_flush
 * make calls on the core, and those of one core are made one at a time: a lock is then held while the device works. An
 * engine that opens its lock meanwhile calls hz_fix and hz_flush itself, and hz_file_read and hz_file_write between.
 *
 * Each call returns 0, or the number of a refusal, and errno then tells of the device: it is EIO where the file ends
 * within the page. A call that a signal interrupts goes on.
 *
 * Where the compiler has no GNU extensions, as with -std=c11, include it before the headers of the system, or define
 * _POSIX_C_SOURCE as 200809L before them.
 */
#ifndef HZ_FILE_H
#define HZ_FILE_H

#if defined(__STRICT_ANSI__) && !defined(_POSIX_C_SOURCE) && !defined(_XOPEN_SOURCE) && !defined(_GNU_SOURCE)
#define _POSIX_C_SOURCE 200809L
#endif

#include "hojzmated.h"
#include <errno.h>
#include <string.h>
#include <sys/types.h>
#include <unistd.h>

/* The bytes before a page in a file of format 2: its number and its page LSN, each of 8 bytes, little end first. */
#define HZ_FILE_HEAD 16

/* A page file, as hz_file_init makes it. Its pages stand one after the other, from its first byte on. */
typedef struct hz_file {
    int fd;           /* open for reading and writing */
    int format;       /* 1: a page is its bytes. 2: it has HZ_FILE_HEAD bytes before them */
    size_t page_size; /* that of the core */
    uint8_t *slot;    /* memory for HZ_FILE_HEAD and a page: the page in it is hz_file_image */
} hz_file;

/* Describes a file that is open for reading and writing. The slot is memory of so many bytes. Refused, and nothing is
 * written: HZ_NULL; HZ_BAD_GEOMETRY for a page size out of its limits; HZ_BAD_SETTINGS for a format that is not 1 or 2;
 * HZ_OUT_OF_PAGE for a slot of less than HZ_FILE_HEAD and a page. */
static inline uint16_t hz_file_init(hz_file *file, int fd, int format, size_t page_size, uint8_t *slot, size_t slot_len)
{
    if (!file || !slot)
        return HZ_NULL;
    if (page_size < 16 || page_size > 65536 || page_size % 16 != 0)
        return HZ_BAD_GEOMETRY;
    if (format != 1 && format != 2)
        return HZ_BAD_SETTINGS;
    if (slot_len < HZ_FILE_HEAD + page_size)
        return HZ_OUT_OF_PAGE;
    file->fd = fd;
    file->format = format;
    file->page_size = page_size;
    file->slot = slot;
    return HZ_DONE;
}

/* The page that is read or written next, of page_size bytes. */
static inline uint8_t *hz_file_image(const hz_file *file)
{
    return file->slot + HZ_FILE_HEAD;
}

/* A value as one of another type. */
#ifdef __cplusplus
#define HZ_FILE_AS(type, value) static_cast<type>(value)
#else
#define HZ_FILE_AS(type, value) ((type)(value))
#endif

static inline void hz_file_put(uint8_t *bytes, uint64_t number)
{
    for (int i = 0; i < 8; i++)
        bytes[i] = HZ_FILE_AS(uint8_t, number >> 8 * i);
}

static inline uint64_t hz_file_get(const uint8_t *bytes)
{
    uint64_t number = 0;
    for (int i = 0; i < 8; i++)
        number |= HZ_FILE_AS(uint64_t, bytes[i]) << 8 * i;
    return number;
}

/* Moves all that stands of a page in the file, to the slot or from it. */
static inline bool hz_file_move(const hz_file *file, bool is_write, uint64_t page)
{
    size_t head = file->format == 2 ? HZ_FILE_HEAD : 0, left = head + file->page_size;
    uint8_t *bytes = hz_file_image(file) - head;
    off_t at = HZ_FILE_AS(off_t, page * left);
    while (left > 0) {
        ssize_t moved = is_write ? pwrite(file->fd, bytes, left, at) : pread(file->fd, bytes, left, at);
        if (moved < 0 && errno == EINTR)
            continue;
        if (moved == 0)
            errno = EIO;
        if (moved <= 0)
            return false;
        bytes += moved;
        left -= HZ_FILE_AS(size_t, moved);
        at += moved;
    }
    return true;
}

/* Reads a page into hz_file_image. Refused: HZ_READ_FAILED; HZ_WRONG_PAGE where the file has the number of
 * another page there. */
static inline uint16_t hz_file_read(const hz_file *file, uint64_t page)
{
    if (!hz_file_move(file, false, page))
        return HZ_READ_FAILED;
    return file->format == 2 && hz_file_get(file->slot) != page ? HZ_WRONG_PAGE : HZ_DONE;
}

/* Writes hz_file_image to the place of a page. A file of format 2 takes the LSN too. Refused: HZ_WRITE_FAILED. */
static inline uint16_t hz_file_write(const hz_file *file, uint64_t page, uint64_t lsn)
{
    hz_file_put(file->slot, page);
    hz_file_put(file->slot + 8, lsn);
    return hz_file_move(file, true, page) ? HZ_DONE : HZ_WRITE_FAILED;
}

/* Brings what was written to the device. Refused: HZ_WRITE_FAILED. */
static inline uint16_t hz_file_sync(const hz_file *file)
{
    int done;
    do
        done = fdatasync(file->fd);
    while (done < 0 && errno == EINTR);
    return done < 0 ? HZ_WRITE_FAILED : HZ_DONE;
}

/* Writes so many pages of zero bytes from the file's start on, as a new file needs them. Refused:
 * HZ_WRITE_FAILED. */
static inline uint16_t hz_file_fill(const hz_file *file, uint64_t pages)
{
    uint16_t number = HZ_DONE;
    memset(hz_file_image(file), 0, file->page_size);
    for (uint64_t page = 0; page < pages && number == HZ_DONE; page++)
        number = hz_file_write(file, page, 0);
    return number;
}

/* Does the read that a fix asked for: asked->grant is then the pass. Refused: HZ_READ_FAILED, HZ_WRONG_PAGE,
 * HZ_OUT_OF_MEMORY; the ticket has then ended. */
static inline uint16_t hz_file_load(hz_core *core, const hz_file *file, hz_fixed *asked)
{
    hz_grant ticket = asked->grant;
    uint16_t found = hz_file_read(file, ticket.page);
    if (found == HZ_DONE)
        found = hz_read_end(core, &ticket, hz_file_image(file), file->page_size, &asked->grant);
    if (found != HZ_DONE) {
        int why = errno;
        hz_read_failed(core, &ticket, found == HZ_WRONG_PAGE);
        errno = why;
    }
    return found;
}

/* Does the write-out that a fix or a flush asked for, of the image in hz_file_image. Refused:
 * HZ_WRITE_FAILED. */
static inline uint16_t hz_file_write_out(hz_core *core, const hz_file *file, const hz_fixed *asked)
{
    uint8_t is_still_dirty = 0;
    bool is_good = hz_file_write(file, asked->grant.page, asked->lsn) == HZ_DONE;
    int why = errno;
    uint16_t number = hz_write_end(core, &asked->grant, is_good, &is_still_dirty);
    errno = why;
    if (number == HZ_DONE && !is_good)
        number = HZ_WRITE_FAILED;
    return number;
}

/* Fixes a page: asked->grant is then a pass for it. Pages that have to go out first are written, and the page is read
 * if it is away. Refused: as hz_fix, and as the two calls above. No ticket of it is out afterwards. */
static inline uint16_t hz_file_fix(hz_core *core, const hz_file *file, uint8_t client, uint64_t page, hz_fixed *asked)
{
    for (;;) {
        uint16_t number = hz_fix(core, client, page, hz_file_image(file), file->page_size, asked);
        if (number != HZ_DONE || asked->kind == HZ_HIT)
            return number;
        if (asked->kind == HZ_LOAD)
            return hz_file_load(core, file, asked);
        number = hz_file_write_out(core, file, asked);
        if (number != HZ_DONE)
            return number;
    }
}

/* Writes a page out if it is unsaved. What was written is on the device only after hz_file_sync. Refused: as hz_flush,
 * and HZ_WRITE_FAILED. No ticket of it is out afterwards. */
static inline uint16_t hz_file_flush(hz_core *core, const hz_file *file, uint8_t client, uint64_t page, hz_fixed *asked)
{
    uint16_t number = hz_flush(core, client, page, hz_file_image(file), file->page_size, asked);
    if (number != HZ_DONE || asked->kind != HZ_WRITE_FIRST)
        return number;
    return hz_file_write_out(core, file, asked);
}

#endif
