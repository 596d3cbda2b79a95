/* The calls of the header, as C makes them. Each refuses a null pointer, and else makes the proved call of its name.
 * Where two structs of the caller's may be one, it passes its own. A length beyond the largest page it passes as one
 * byte more than that, which the proved call refuses. Where a device failed, the proved call that ends the ticket
 * answers how; here it has done what was asked, and answers 0. The proved calls are those of crates/hojzmated_c, whose
 * names begin with proved_. Those that only tell take the core as const here, and leave it as it is. hz_strerror has no
 * proved call: it has the texts of hz_text once more, each with a zero at its end.
 *
 * This file is tested, by fuzz.c and peers/c/refusals.c, and not proved.
 */
#include "hojzmated.h"
#include <string.h>

#define PROVED(name) extern __typeof__(name) proved_##name
PROVED(hz_core_new);
PROVED(hz_core_free);
PROVED(hz_fix);
PROVED(hz_read_end);
PROVED(hz_read_failed);
PROVED(hz_write_end);
PROVED(hz_unfix);
PROVED(hz_read);
PROVED(hz_page);
PROVED(hz_write);
PROVED(hz_tick);
PROVED(hz_mark);
PROVED(hz_flush);
PROVED(hz_discard);
PROVED(hz_purge);
PROVED(hz_page_lsn);
PROVED(hz_next_unsaved);
PROVED(hz_victim);
PROVED(hz_redo_from);
extern uint16_t proved_hz_stats_of(const hz_core *core, hz_stats *out);
PROVED(hz_is_resident);
PROVED(hz_text);
PROVED(hz_version);

static const size_t too_long = 65537;

/* Where the bytes of an empty buffer are, whose pointer may be null. */
static uint8_t nowhere;

static bool is_null(const uint8_t *bytes, size_t len)
{
    return !bytes && len > 0;
}

static size_t length_of(size_t len)
{
    return len < too_long ? len : too_long;
}

uint16_t hz_core_new(const hz_config *config, hz_core *core)
{
    if (!config || !core)
        return HZ_NULL;
    hz_config own = *config;
    return proved_hz_core_new(&own, core);
}

uint16_t hz_core_free(hz_core *core)
{
    return core ? proved_hz_core_free(core) : HZ_NULL;
}

uint16_t hz_fix(hz_core *core, uint8_t client, uint64_t page, uint8_t *buffer, size_t len, hz_fixed *out)
{
    if (!core || is_null(buffer, len) || !out)
        return HZ_NULL;
    return proved_hz_fix(core, client, page, buffer ? buffer : &nowhere, length_of(len), out);
}

uint16_t hz_read_end(hz_core *core, const hz_grant *ticket, const uint8_t *image, size_t len, hz_grant *pass)
{
    if (!core || !ticket || is_null(image, len) || !pass)
        return HZ_NULL;
    hz_grant own = *ticket, given = *pass;
    uint16_t number = proved_hz_read_end(core, &own, image ? image : &nowhere, length_of(len), &given);
    *pass = given;
    return number;
}

uint16_t hz_read_failed(hz_core *core, const hz_grant *ticket, bool is_wrong_page)
{
    if (!core || !ticket)
        return HZ_NULL;
    hz_grant own = *ticket;
    uint16_t number = proved_hz_read_failed(core, &own, is_wrong_page);
    return number == (is_wrong_page ? HZ_WRONG_PAGE : HZ_READ_FAILED) ? HZ_DONE : number;
}

uint16_t hz_write_end(hz_core *core, const hz_grant *ticket, bool is_good, uint8_t *is_still_dirty)
{
    if (!core || !ticket || !is_still_dirty)
        return HZ_NULL;
    hz_grant own = *ticket;
    uint8_t still = *is_still_dirty;
    uint16_t number = proved_hz_write_end(core, &own, is_good, &still);
    if (!is_good && number == HZ_WRITE_FAILED) {
        still = 1;
        number = HZ_DONE;
    }
    *is_still_dirty = still;
    return number;
}

uint16_t hz_unfix(hz_core *core, const hz_grant *pass)
{
    if (!core || !pass)
        return HZ_NULL;
    return proved_hz_unfix(core, pass);
}

uint16_t hz_read(hz_core *core, const hz_grant *pass, size_t offset, uint8_t *into, size_t len)
{
    if (!core || !pass || is_null(into, len))
        return HZ_NULL;
    return proved_hz_read(core, pass, offset, into ? into : &nowhere, length_of(len));
}

uint16_t hz_page(const hz_core *core, const hz_grant *pass, const uint8_t **bytes)
{
    if (!core || !pass || !bytes)
        return HZ_NULL;
    const uint8_t *first = NULL;
    uint16_t number = proved_hz_page(core, pass, &first);
    if (number == HZ_DONE)
        *bytes = first;
    return number;
}

uint16_t hz_write(hz_core *core, const hz_grant *pass, size_t offset, const uint8_t *bytes, size_t len, uint64_t lsn)
{
    if (!core || !pass || is_null(bytes, len))
        return HZ_NULL;
    return proved_hz_write(core, pass, offset, bytes ? bytes : &nowhere, length_of(len), lsn);
}

uint16_t hz_tick(hz_core *core, uint8_t client, uint64_t n)
{
    return core ? proved_hz_tick(core, client, n) : HZ_NULL;
}

uint16_t hz_mark(hz_core *core, uint8_t client, uint64_t lsn)
{
    return core ? proved_hz_mark(core, client, lsn) : HZ_NULL;
}

uint16_t hz_flush(hz_core *core, uint8_t client, uint64_t page, uint8_t *buffer, size_t len, hz_fixed *out)
{
    if (!core || is_null(buffer, len) || !out)
        return HZ_NULL;
    return proved_hz_flush(core, client, page, buffer ? buffer : &nowhere, length_of(len), out);
}

uint16_t hz_discard(hz_core *core, uint8_t client, uint64_t page, uint8_t *was_resident)
{
    return core && was_resident ? proved_hz_discard(core, client, page, was_resident) : HZ_NULL;
}

uint16_t hz_purge(hz_core *core, uint8_t client, uint64_t *count)
{
    if (!core || !count)
        return HZ_NULL;
    uint64_t forgotten = *count;
    uint16_t number = proved_hz_purge(core, client, &forgotten);
    *count = forgotten;
    return number;
}

uint16_t hz_page_lsn(const hz_core *core, const hz_grant *pass, uint64_t *lsn)
{
    if (!core || !pass || !lsn)
        return HZ_NULL;
    uint64_t told = *lsn;
    uint16_t number = proved_hz_page_lsn(core, pass, &told);
    *lsn = told;
    return number;
}

uint16_t hz_next_unsaved(const hz_core *core, uint64_t from, hz_unsaved *out)
{
    return core && out ? proved_hz_next_unsaved(core, from, out) : HZ_NULL;
}

uint16_t hz_victim(const hz_core *core, uint64_t *page, uint8_t *has_page)
{
    if (!core || !page || !has_page)
        return HZ_NULL;
    uint64_t next = *page;
    uint8_t has_next = *has_page;
    uint16_t number = proved_hz_victim(core, &next, &has_next);
    *page = next;
    *has_page = has_next;
    return number;
}

uint16_t hz_redo_from(const hz_core *core, uint64_t *lsn, uint8_t *has_lsn)
{
    if (!core || !lsn || !has_lsn)
        return HZ_NULL;
    uint64_t least = *lsn;
    uint8_t has_least = *has_lsn;
    uint16_t number = proved_hz_redo_from(core, &least, &has_least);
    *lsn = least;
    *has_lsn = has_least;
    return number;
}

uint16_t hz_stats_of(const hz_core *core, hz_stats *out, size_t size)
{
    hz_stats own = {0};
    if (!core || !out)
        return HZ_NULL;
    uint16_t number = proved_hz_stats_of(core, &own);
    if (number == HZ_DONE) {
        memset(out, 0, size);
        memcpy(out, &own, size < sizeof own ? size : sizeof own);
    }
    return number;
}

uint16_t hz_is_resident(const hz_core *core, uint64_t page, uint8_t *is_resident)
{
    return core && is_resident ? proved_hz_is_resident(core, page, is_resident) : HZ_NULL;
}

size_t hz_text(uint16_t number, uint8_t *into, size_t len)
{
    return into ? proved_hz_text(number, into, length_of(len)) : proved_hz_text(number, &nowhere, 0);
}

const char *hz_strerror(uint16_t number)
{
    switch (number) {
    case HZ_DONE: return "done";
    case HZ_BAD_GEOMETRY: return "the number of pages or the page size is out of its limits";
    case HZ_BAD_SETTINGS: return "a setting of the pool is out of its limits";
    case 3: return "the page file is no positive number of whole pages, or has too many";
    case HZ_NO_VICTIM: return "no page may leave its frame";
    case HZ_NEED_LOG: return "the log must first be durable up to the LSN that is told";
    case HZ_BUSY: return "a device operation on the page is under way";
    case HZ_UNKNOWN_PASS: return "no such pass is out";
    case HZ_UNKNOWN_TICKET: return "no such ticket is out";
    case HZ_READ_FAILED: return "the page could not be read";
    case HZ_WRITE_FAILED: return "the page could not be written";
    case HZ_WRONG_PAGE: return "the page's place in its file has another page";
    case HZ_TRAIL_FULL: return "the trail has no room for the call";
    case HZ_CLOCK_FULL: return "the clock would pass its end";
    case HZ_OUT_OF_MEMORY: return "out of memory";
    case 23: return "the ring of passes to give back is full";
    case 24: return "a mark came before the log rows of client 0 allow it";
    case HZ_PAGE_PINNED: return "the page is pinned";
    case 40: return "a record does not have the fields of its operation, or lacks the column of a sweep";
    case HZ_BAD_CLIENT: return "no client has this number here";
    case 42: return "no operation has this name";
    case 43: return "a field is not a number within the limits";
    case 44: return "the bytes are not pairs of hexadecimal digits";
    case HZ_OUT_OF_PAGE: return "the page is not of the file, or the bytes are not within the page";
    case 46: return "the trace or the list of references is too long";
    case 47: return "the trace or the list of references could not be read";
    case HZ_NO_CORE: return "the handle has no core";
    case HZ_HAS_CORE: return "the handle has a core already";
    case HZ_NULL: return "a pointer is null";
    default: return "unknown number";
    }
}

uint32_t hz_version(void)
{
    return proved_hz_version();
}
