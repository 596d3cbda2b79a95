/* The calls of hojzmated_pager.h: null pointers, handles of pagers and of pages, stale and doubled ones, latches and
 * who would wait for himself, and texts.
 *
 *     check/bindings        builds it with the library, and runs it
 */
#define _POSIX_C_SOURCE 200809L
#include "pager_test.h"
#include <time.h>

/* ---- Handles of pagers ---- */

/* A null pointer is refused before all else, and nothing is written. */
static void nulls(void)
{
    hz_pager_config config = usual();
    hz_pager none = {0}, pager = start();
    hz_ref ref;
    uint64_t number;
    uint8_t flag;
    size_t count;
    memset(&ref, ODD, sizeof ref);
    REFUSED(HZ_NULL, 0, 0, 0, 0, hz_pager_new(NULL, &io, &none));
    SAME(HZ_NULL, hz_pager_new(&config, NULL, &none));
    SAME(HZ_NULL, hz_pager_new(&config, &io, NULL));
    hz_io parts[4] = {io, io, io, io};
    parts[0].read = NULL, parts[1].write = NULL, parts[2].make_log_durable = NULL, parts[3].sync = NULL;
    for (int i = 0; i < 4; i++)
        SAME(HZ_NULL, hz_pager_new(&config, &parts[i], &none));
    SAME(HZ_NULL, hz_pager_new_file(NULL, 0, 1, &none));
    SAME(HZ_NULL, hz_pager_new_file(&config, 0, 1, NULL));
    SAME(HZ_NULL, hz_pager_free(NULL));
    SAME(HZ_NULL, hz_pager_fix(NULL, 0, HZ_SHARED, &ref));
    SAME(HZ_NULL, hz_pager_fix(&pager, 0, HZ_SHARED, NULL));
    SAME(HZ_NULL, hz_pager_fix(&none, 0, HZ_SHARED, NULL));
    SAME(HZ_NULL, hz_pager_new_page(NULL, 0, &ref));
    SAME(HZ_NULL, hz_pager_new_page(&pager, 0, NULL));
    SAME(HZ_NULL, hz_pager_put(NULL, 0, &flag, 1, 0));
    SAME(HZ_NULL, hz_pager_put(&ref, 0, NULL, 1, 0));
    SAME(HZ_NULL, hz_pager_unfix(NULL));
    SAME(HZ_NULL, hz_pager_mark(NULL, 0));
    SAME(HZ_NULL, hz_pager_flush(NULL, 0));
    SAME(HZ_NULL, hz_pager_discard(NULL, 0, 1, (uint64_t[1]){0}));
    SAME(HZ_NULL, hz_pager_checkpoint(NULL, &number, &flag));
    SAME(HZ_NULL, hz_pager_checkpoint(&pager, NULL, &flag));
    SAME(HZ_NULL, hz_pager_checkpoint(&pager, &number, NULL));
    SAME(HZ_NULL, hz_pager_clean(NULL, 1, &count));
    SAME(HZ_NULL, hz_pager_clean(&pager, 1, NULL));
    SAME(HZ_NULL, hz_pager_purge(NULL, &number));
    SAME(HZ_NULL, hz_pager_purge(&pager, NULL));
    SAME(HZ_NULL, hz_pager_redo_from(NULL, &number, &flag));
    SAME(HZ_NULL, hz_pager_redo_from(&pager, NULL, &flag));
    SAME(HZ_NULL, hz_pager_redo_from(&pager, &number, NULL));
    SAME(HZ_NULL, hz_pager_stats_of(NULL, (hz_pager_stats[1]){{0}}, sizeof(hz_pager_stats)));
    SAME(HZ_NULL, hz_pager_stats_of(&pager, NULL, sizeof(hz_pager_stats)));
    SAME(HZ_NULL, hz_pager_is_resident(NULL, 0, &flag));
    SAME(HZ_NULL, hz_pager_is_resident(&pager, 0, NULL));
    SAME(HZ_NULL, hz_pager_fault_of(NULL));
    SAYS("a pointer is null");
    SAME(true, is_filled(&ref, sizeof ref, ODD));
    SAME(0, device.reads + device.writes + device.logs + device.syncs);
    end(&pager);
}

/* A handle that has no pager, at first or after hz_pager_free, is refused by each call; one that has a pager gets no
 * other. */
static void no_pager(void)
{
    hz_pager_config config = usual();
    hz_pager pager = {0};
    for (int round = 0; round < 2; round++) {
        hz_ref ref;
        uint64_t number = ODD;
        uint8_t flag = ODD;
        size_t count = ODD;
        hz_pager_stats stats;
        memset(&ref, ODD, sizeof ref);
        memset(&stats, ODD, sizeof stats);
        REFUSED(HZ_NO_CORE, 0, 0, 0, 0, hz_pager_free(&pager));
        SAME(HZ_NO_CORE, hz_pager_fix(&pager, 0, HZ_SHARED, &ref));
        SAME(HZ_NO_CORE, hz_pager_new_page(&pager, 0, &ref));
        SAME(HZ_NO_CORE, hz_pager_mark(&pager, 0));
        SAME(HZ_NO_CORE, hz_pager_flush(&pager, 0));
        SAME(HZ_NO_CORE, hz_pager_discard(&pager, 0, 1, (uint64_t[1]){0}));
        SAME(HZ_NO_CORE, hz_pager_checkpoint(&pager, &number, &flag));
        SAME(HZ_NO_CORE, hz_pager_clean(&pager, 1, &count));
        SAME(HZ_NO_CORE, hz_pager_purge(&pager, &number));
        SAME(HZ_NO_CORE, hz_pager_redo_from(&pager, &number, &flag));
        SAME(HZ_NO_CORE, hz_pager_stats_of(&pager, &stats, sizeof stats));
        SAME(HZ_NO_CORE, hz_pager_is_resident(&pager, 0, &flag));
        SAYS("the handle has no pager");
        SAME(true, is_filled(&ref, sizeof ref, ODD) && is_filled(&stats, sizeof stats, ODD));
        SAME(3 * ODD, number + flag + count);
        pager = start();
        REFUSED(HZ_HAS_CORE, 0, 0, 0, 0, hz_pager_new(&config, &io, &pager));
        SAYS("the handle has a pager already");
        SAME(HZ_HAS_CORE, hz_pager_new_file(&config, 0, 1, &pager));
        end(&pager);
    }
}

/* Structs of other versions: shorter ones, and longer ones, which may set only what is here. */
static void sizes(void)
{
    struct {
        hz_pager_config config;
        uint64_t later[2];
    } longer = {usual(), {0}};
    struct {
        hz_io io;
        uint64_t later;
    } further = {io, 0};
    hz_pager pager = {0};
    enum { OWN = sizeof(hz_pager_config), FIRST = offsetof(hz_pager_config, observer) };
    static const size_t wrong_sizes[] = {0, 8, FIRST - 8, OWN + 4, 4104, SIZE_MAX};
    for (size_t i = 0; i < sizeof wrong_sizes / sizeof *wrong_sizes; i++) {
        longer.config.size = wrong_sizes[i];
        REFUSED(HZ_BAD_SETTINGS, 0, 0, 0, 0, hz_pager_new(&longer.config, &io, &pager));
        SAME(HZ_BAD_SETTINGS, hz_pager_new_file(&longer.config, -1, 1, &pager));
    }
    /* What stands after a shorter one is no field of it. */
    longer.config.size = FIRST, longer.config.observer = (const hz_observer *)(uintptr_t)ODD;
    SAME(HZ_DONE, hz_pager_new(&longer.config, &io, &pager));
    hz_ref ref = fixed(&pager, 3, HZ_SHARED);
    SAME(HZ_DONE, hz_pager_unfix(&ref));
    end(&pager);
    hz_observer watched = {0};
    longer.config.size = OWN, longer.config.observer = &watched;
    REFUSED(HZ_BAD_SETTINGS, 0, 0, 0, 0, hz_pager_new(&longer.config, &io, &pager));
    watched.size = sizeof watched;
    SAME(HZ_DONE, hz_pager_new(&longer.config, &io, &pager));
    ref = fixed(&pager, 3, HZ_SHARED); /* no function is called: each is null */
    SAME(HZ_DONE, hz_pager_unfix(&ref));
    end(&pager);
    longer.config.observer = NULL;
    longer.config.size = sizeof longer, further.io.size = sizeof further;
    longer.config.unused = 1;
    REFUSED(HZ_BAD_SETTINGS, 0, 0, 0, 0, hz_pager_new(&longer.config, &io, &pager));
    SAME(HZ_BAD_SETTINGS, hz_pager_new_file(&longer.config, -1, 1, &pager));
    longer.config.unused = 0;
    SAME(HZ_DONE, hz_pager_new(&longer.config, &further.io, &pager));
    ref = fixed(&pager, 3, HZ_SHARED);
    SAME(HZ_DONE, hz_pager_unfix(&ref));
    struct {
        hz_pager_stats stats;
        uint64_t later;
    } told;
    memset(&told, ODD, sizeof told);
    SAME(HZ_DONE, hz_pager_stats_of(&pager, &told.stats, sizeof told));
    SAME(1, told.stats.faults);
    SAME(0, told.later);
    memset(&told, ODD, sizeof told);
    SAME(HZ_DONE, hz_pager_stats_of(&pager, &told.stats, offsetof(hz_pager_stats, evictions)));
    SAME(1, told.stats.faults);
    SAME(true, is_filled(&told.stats.evictions, sizeof told - offsetof(hz_pager_stats, evictions), ODD));
    SAME(HZ_DONE, hz_pager_stats_of(&pager, &told.stats, 0));
    end(&pager);
    longer.later[1] = 1;
    REFUSED(HZ_BAD_SETTINGS, 0, 0, 0, 0, hz_pager_new(&longer.config, &io, &pager));
    longer.later[1] = 0, further.later = 1;
    REFUSED(HZ_BAD_SETTINGS, 0, 0, 0, 0, hz_pager_new(&longer.config, &further.io, &pager));
    further.io.size = sizeof io - 8;
    REFUSED(HZ_BAD_SETTINGS, 0, 0, 0, 0, hz_pager_new(&longer.config, &further.io, &pager));
}

static void settings(void)
{
    hz_pager pager = {0};
    struct {
        uint64_t pages;
        size_t page_size, frames, parts;
        uint64_t correlated;
        uint8_t k;
        uint16_t wanted;
    } rows[] = {
        {16, 64, 4, 0, 0, 0, HZ_DONE},
        {16, 64, 4, 4, HZ_NO_PERIOD, 16, HZ_DONE},
        {16, 64, 4, 1, (uint64_t)1 << 62, 1, HZ_DONE},
        {0, 64, 4, 0, 0, 0, HZ_BAD_GEOMETRY},
        {16, 0, 4, 0, 0, 0, HZ_BAD_GEOMETRY},
        {16, 24, 4, 0, 0, 0, HZ_BAD_GEOMETRY},
        {16, 65552, 4, 0, 0, 0, HZ_BAD_GEOMETRY},
        {67108865, 64, 64, 0, 0, 0, HZ_BAD_GEOMETRY},
        {16, 64, 0, 0, 0, 0, HZ_BAD_SETTINGS},
        {16, 64, 4, 5, 0, 0, HZ_BAD_SETTINGS},
        {100, 64, 100, 65, 0, 0, HZ_BAD_SETTINGS},
        {16, 64, 4, 0, ((uint64_t)1 << 62) + 1, 0, HZ_BAD_SETTINGS},
        {16, 64, 4, 0, 0, 17, HZ_BAD_SETTINGS},
    };
    for (size_t i = 0; i < sizeof rows / sizeof *rows; i++) {
        hz_pager_config config = HZ_PAGER_CONFIG_INIT;
        config.pages = rows[i].pages, config.page_size = rows[i].page_size, config.frames = rows[i].frames;
        config.parts = rows[i].parts, config.correlated = rows[i].correlated, config.k = rows[i].k;
        uint16_t number = hz_pager_new(&config, &io, &pager);
        if (number != rows[i].wanted)
            wrong(__FILE__, __LINE__, "the row of settings", i);
        if (number == HZ_DONE)
            end(&pager);
    }
    SAYS("a setting is out of its limits");
}

/* ---- Pages ---- */

static void fixes(void)
{
    hz_pager pager = start();
    hz_ref shared = fixed(&pager, 3, HZ_SHARED), alone = fixed(&pager, 5, HZ_EXCLUSIVE);
    hz_ref pin = fixed(&pager, 3, HZ_PINNED);
    SAME(true, is_filled(shared.bytes, SIZE, 3));
    SAME(true, is_filled(alone.bytes, SIZE, 5));
    SAME(0, ((uintptr_t)shared.bytes | (uintptr_t)alone.bytes) % 16);
    SAME(0, (uintptr_t)pin.bytes);
    SAME(true, shared.serial != alone.serial && alone.serial != pin.serial);
    SAME(2, device.reads);
    SAME(HZ_DONE, hz_pager_unfix(&shared));
    /* A pin needs no latch, and a page that is pinned can be latched again. */
    hz_ref again = fixed(&pager, 3, HZ_EXCLUSIVE | HZ_TRY), other = fixed(&pager, 3, HZ_PINNED | HZ_TRY);
    SAME(HZ_DONE, hz_pager_put(&again, 60, (const uint8_t *)"end", 4, 7));
    SAME('e', again.bytes[60]);
    SAME(HZ_DONE, hz_pager_unfix(&again));
    again = fixed(&pager, 3, HZ_SHARED | HZ_TRY);
    SAME(0, strcmp((const char *)again.bytes + 60, "end"));
    SAME(HZ_DONE, hz_pager_unfix(&again));
    SAME(HZ_DONE, hz_pager_unfix(&other));
    SAME(HZ_DONE, hz_pager_unfix(&pin));
    SAME(HZ_DONE, hz_pager_unfix(&alone));
    hz_ref ref;
    memset(&ref, ODD, sizeof ref);
    REFUSED(HZ_OUT_OF_PAGE, 1, PAGES, 0, 0, hz_pager_fix(&pager, PAGES, HZ_SHARED, &ref));
    SAYS("page 16: the file has no such page, or the bytes are not within the page");
    REFUSED(HZ_OUT_OF_PAGE, 1, UINT64_MAX, 0, 0, hz_pager_fix(&pager, UINT64_MAX, HZ_PINNED | HZ_TRY, &ref));
    SAME(HZ_OUT_OF_PAGE, hz_pager_new_page(&pager, PAGES, &ref));
    static const uint32_t hows[] = {0, 4, HZ_TRY, HZ_TRY | 4, 32 | HZ_SHARED, UINT32_MAX};
    for (size_t i = 0; i < sizeof hows / sizeof *hows; i++)
        SAME(HZ_BAD_SETTINGS, hz_pager_fix(&pager, 1, hows[i], &ref));
    SAME(true, is_filled(&ref, sizeof ref, ODD));
    end(&pager);
}

static void new_pages(void)
{
    hz_pager pager = start();
    hz_ref ref;
    SAME(HZ_DONE, hz_pager_new_page(&pager, 9, &ref));
    SAME(true, is_filled(ref.bytes, SIZE, 0));
    SAME(HZ_EXCLUSIVE, ref.how);
    SAME(HZ_DEADLOCK, hz_pager_new_page(&pager, 9, (hz_ref[1]){ref}));
    SAME(HZ_DONE, hz_pager_put(&ref, 0, (const uint8_t *)"n", 1, 1));
    SAME(HZ_DONE, hz_pager_unfix(&ref));
    SAME(HZ_DONE, hz_pager_new_page(&pager, 9, &ref)); /* it is as it is in its frame */
    SAME('n', ref.bytes[0]);
    SAME(HZ_DONE, hz_pager_unfix(&ref));
    SAME(0, device.reads);
    SAME(HZ_DONE, hz_pager_flush(&pager, 9));
    SAME('n', device.pages[9][0]);
    SAME(0, device.pages[9][1]);
    end(&pager);
}

/* What was put to pages that are dropped goes nowhere, and their frames are free. */
static void discards(void)
{
    hz_pager pager = start();
    uint64_t resident = ODD, lsn = ODD;
    uint8_t has_lsn = ODD;
    hz_pager_stats stats;
    for (uint64_t page = 1; page < 4; page++) {
        hz_ref ref = fixed(&pager, page, HZ_EXCLUSIVE);
        SAME(HZ_DONE, hz_pager_put(&ref, 0, (const uint8_t *)"d", 1, 10 + page));
        SAME(HZ_DONE, hz_pager_unfix(&ref));
    }
    SAME(HZ_NULL, hz_pager_discard(&pager, 1, 1, NULL));
    REFUSED(HZ_OUT_OF_PAGE, 0, 0, 0, 0, hz_pager_discard(&pager, 1, PAGES, &resident));
    SAME(HZ_OUT_OF_PAGE, hz_pager_discard(&pager, UINT64_MAX, 2, &resident));
    hz_ref ref = fixed(&pager, 2, HZ_PINNED);
    REFUSED(HZ_PAGE_PINNED, 1, 2, 0, 0, hz_pager_discard(&pager, 2, 1, &resident));
    SAYS("page 2: it is still fixed");
    SAME(ODD, resident);
    SAME(HZ_DONE, hz_pager_unfix(&ref));
    SAME(HZ_DONE, hz_pager_discard(&pager, 1, 2, &resident));
    SAME(2, resident);
    SAME(HZ_DONE, hz_pager_discard(&pager, 1, 1, &resident));
    SAME(0, resident);
    SAME(HZ_DONE, hz_pager_redo_from(&pager, &lsn, &has_lsn));
    SAME(13, lsn);
    SAME(HZ_DONE, hz_pager_stats_of(&pager, &stats, sizeof stats));
    SAME(2, stats.discards);
    SAME(1, stats.unsaved);
    SAME(HZ_DONE, hz_pager_checkpoint(&pager, &lsn, &has_lsn));
    SAME(1, device.writes);
    SAME('d', device.pages[3][0]);
    ref = fixed(&pager, 1, HZ_SHARED); /* as it was on the device */
    SAME(true, is_filled(ref.bytes, SIZE, 1));
    SAME(HZ_DONE, hz_pager_unfix(&ref));
    end(&pager);
}

static void puts_of(void)
{
    hz_pager pager = start();
    hz_ref ref = fixed(&pager, 2, HZ_EXCLUSIVE), other = fixed(&pager, 4, HZ_SHARED), pin = fixed(&pager, 4, HZ_PINNED);
    uint8_t some[SIZE + 1], whole[SIZE];
    for (int i = 0; i < SIZE; i++)
        some[i] = (uint8_t)(100 + i);
    REFUSED(HZ_OUT_OF_PAGE, 1, 2, 0, 0, hz_pager_put(&ref, 0, some, SIZE + 1, 1));
    SAME(HZ_OUT_OF_PAGE, hz_pager_put(&ref, SIZE, some, 1, 1));
    SAME(HZ_OUT_OF_PAGE, hz_pager_put(&ref, SIZE_MAX, some, 2, 1));
    SAME(HZ_OUT_OF_PAGE, hz_pager_put(&ref, SIZE_MAX, ref.bytes, 2, 1));
    SAME(true, is_filled(ref.bytes, SIZE, 2));
    REFUSED(HZ_NOT_EXCLUSIVE, 1, 4, 0, 0, hz_pager_put(&other, 0, some, 1, 1));
    SAYS("page 4: the page is not under its exclusive latch");
    SAME(HZ_NOT_EXCLUSIVE, hz_pager_put(&pin, 0, some, 1, 1));
    SAME(HZ_DONE, hz_pager_put(&ref, SIZE, NULL, 0, 1)); /* an empty buffer at the very end */
    SAME(HZ_DONE, hz_pager_put(&ref, 0, some, SIZE, 1));
    SAME(0, memcmp(ref.bytes, some, SIZE));
    /* Bytes of the page itself, both ways, and of another page. */
    memcpy(whole, some, SIZE);
    memmove(whole + 1, whole, SIZE - 1);
    SAME(HZ_DONE, hz_pager_put(&ref, 1, ref.bytes, SIZE - 1, 2));
    SAME(0, memcmp(ref.bytes, whole, SIZE));
    memmove(whole, whole + 3, SIZE - 3);
    SAME(HZ_DONE, hz_pager_put(&ref, 0, ref.bytes + 3, SIZE - 3, 3));
    SAME(0, memcmp(ref.bytes, whole, SIZE));
    SAME(HZ_DONE, hz_pager_put(&ref, 8, other.bytes, 16, 4));
    SAME(true, is_filled(ref.bytes + 8, 16, 4));
    SAME(HZ_DONE, hz_pager_unfix(&ref));
    SAME(HZ_DONE, hz_pager_unfix(&other));
    SAME(HZ_DONE, hz_pager_unfix(&pin));
    SAME(HZ_DONE, hz_pager_flush(&pager, 2));
    SAME(4, device.lsns[2]);
    SAME(4, device.durable);
    end(&pager);
}

/* ---- Handles of pages ---- */

static void *with_ref_of_another(void *argument)
{
    const hz_ref *ref = argument;
    hz_ref own = fixed(device.pager, 8, HZ_SHARED); /* in the same slot, perhaps */
    REFUSED(HZ_UNKNOWN_PASS, 0, 0, 0, 0, hz_pager_unfix(ref));
    SAME(HZ_UNKNOWN_PASS, hz_pager_put(ref, 0, (const uint8_t *)"x", 1, 1));
    SAME(HZ_DONE, hz_pager_unfix(&own));
    return NULL;
}

static void handles(void)
{
    hz_pager pager = start(), second = {0};
    hz_pager_config config = usual();
    device.pager = &pager;
    hz_ref zero, odd, ref = fixed(&pager, 1, HZ_EXCLUSIVE), copy = ref;
    memset(&zero, 0, sizeof zero);
    memset(&odd, 0xff, sizeof odd);
    SAME(HZ_UNKNOWN_PASS, hz_pager_unfix(&zero));
    SAME(HZ_UNKNOWN_PASS, hz_pager_unfix(&odd));
    SAME(HZ_UNKNOWN_PASS, hz_pager_put(&odd, 0, odd.bytes, 0, 0));
    in_thread(with_ref_of_another, &ref);
    REFUSED(HZ_BUSY, 0, 0, 0, 0, hz_pager_free(&pager));
    SAME(HZ_DONE, hz_pager_unfix(&copy));
    SAME(HZ_UNKNOWN_PASS, hz_pager_unfix(&ref)); /* doubled */
    SAME(HZ_UNKNOWN_PASS, hz_pager_put(&ref, 0, (const uint8_t *)"x", 1, 1));
    hz_ref next = fixed(&pager, 1, HZ_EXCLUSIVE); /* the same page, by the same thread */
    SAME(ref.slot, next.slot);
    SAME(HZ_UNKNOWN_PASS, hz_pager_unfix(&ref));
    in_thread(with_ref_of_another, &ref);
    /* More pages at once than a thread ever had, in two pagers, given back in another order. */
    SAME(HZ_DONE, hz_pager_new(&config, &io, &second));
    hz_ref many[100];
    for (int i = 0; i < 100; i++)
        many[i] = fixed(i % 2 ? &second : &pager, 2, HZ_PINNED);
    for (int i = 0; i < 100; i++)
        SAME(HZ_DONE, hz_pager_unfix(&many[i * 37 % 100]));
    for (int i = 0; i < 100; i++)
        SAME(HZ_UNKNOWN_PASS, hz_pager_unfix(&many[i]));
    end(&second);
    SAME(HZ_DONE, hz_pager_unfix(&next));
    end(&pager);
    SAME(HZ_UNKNOWN_PASS, hz_pager_unfix(&next)); /* its pager is no more */
    SAYS("this thread has not fixed the page, or has given it back");
}

/* Of many pages that a thread has one after the other, each has a handle of its own, which is refused afterwards. */
static void serials(void)
{
    hz_pager pager = start();
    hz_ref first = fixed(&pager, 1, HZ_SHARED), last = first;
    SAME(HZ_DONE, hz_pager_unfix(&first));
    for (int i = 0; i < 70000; i++) {
        hz_ref ref = fixed(&pager, 1, HZ_SHARED);
        SAME(true, ref.serial != last.serial && ref.serial != first.serial);
        SAME(HZ_UNKNOWN_PASS, hz_pager_unfix(&last));
        SAME(HZ_DONE, hz_pager_unfix(&ref));
        last = ref;
    }
    SAME(HZ_UNKNOWN_PASS, hz_pager_unfix(&first));
    end(&pager);
}

static hz_ref pin_of_another;

static void *end_with_pages(void *pager)
{
    fixed(pager, 1, HZ_EXCLUSIVE);
    fixed(pager, 2, HZ_SHARED);
    pin_of_another = fixed(pager, 3, HZ_PINNED);
    return NULL;
}

static size_t pinned(const hz_pager *pager)
{
    hz_pager_stats stats;
    SAME(HZ_DONE, hz_pager_stats_of(pager, &stats, sizeof stats));
    return stats.pinned;
}

/* What a thread has under a latch at its end is given back. What it has pinned stays, and this thread gives it back. */
static void ends_of_threads(void)
{
    hz_pager pager = start();
    in_thread(end_with_pages, &pager);
    for (uint64_t page = 1; page <= 3; page++) {
        hz_ref ref = fixed(&pager, page, HZ_EXCLUSIVE | HZ_TRY);
        SAME(HZ_DONE, hz_pager_unfix(&ref));
    }
    SAME(1, pinned(&pager));
    REFUSED(HZ_BUSY, 0, 0, 0, 0, hz_pager_free(&pager));
    SAME(HZ_DONE, hz_pager_unfix(&pin_of_another));
    SAME(0, pinned(&pager));
    end(&pager);
}

/* ---- Pins, which are of no thread ---- */

static void *with_pin_of_another(void *argument)
{
    const hz_ref *pin = argument;
    REFUSED(HZ_NOT_EXCLUSIVE, 1, 3, 0, 0, hz_pager_put(pin, 0, (const uint8_t *)"x", 1, 1));
    SAME(HZ_DONE, hz_pager_unfix(pin));
    REFUSED(HZ_UNKNOWN_PASS, 0, 0, 0, 0, hz_pager_unfix(pin));
    SAME(HZ_UNKNOWN_PASS, hz_pager_put(pin, 0, (const uint8_t *)"x", 1, 1));
    return NULL;
}

enum { PASSERS = 4, PASSES = 20000, RING = 64 };

/* Pins on their way from thread to thread. */
static struct ring {
    pthread_mutex_t lock;
    hz_ref pins[RING];
    size_t first, count;
} ring = {.lock = PTHREAD_MUTEX_INITIALIZER};

/* Pins pages, and gives back what others pinned. */
static void *pass_on(void *pager)
{
    for (uint64_t i = 0; i < PASSES; i++) {
        hz_ref in = fixed(pager, i % 4, HZ_PINNED), out = in;
        pthread_mutex_lock(&ring.lock);
        bool is_full = ring.count == RING;
        size_t last = (ring.first + ring.count) % RING;
        if (is_full) {
            out = ring.pins[ring.first];
            ring.first = (ring.first + 1) % RING;
        } else {
            ring.count++;
        }
        ring.pins[last] = in;
        pthread_mutex_unlock(&ring.lock);
        if (is_full)
            SAME(HZ_DONE, hz_pager_unfix(&out));
    }
    return NULL;
}

static void pins_of_no_thread(void)
{
    hz_pager pager = start();
    hz_ref pin = fixed(&pager, 3, HZ_PINNED), other = fixed(&pager, 3, HZ_PINNED), latch = fixed(&pager, 3, HZ_SHARED);
    in_thread(with_pin_of_another, &pin);
    SAME(HZ_UNKNOWN_PASS, hz_pager_unfix(&pin));
    SAME(1, pinned(&pager));
    /* Of a handle each number has to be that of the pin. */
    for (int i = 0; i < 4; i++) {
        hz_ref forged = other;
        switch (i) {
        case 0: forged.page++; break;
        case 1: forged.slot++; break;
        case 2: forged.slot = UINT32_MAX; break;
        case 3: forged.serial++; break;
        }
        SAME(HZ_UNKNOWN_PASS, hz_pager_unfix(&forged));
    }
    SAME(HZ_DONE, hz_pager_unfix(&latch));
    SAME(HZ_DONE, hz_pager_unfix(&other));
    /* One that takes the slot of another has a handle of its own. */
    hz_ref next = fixed(&pager, 3, HZ_PINNED);
    SAME(true, next.slot == other.slot && next.serial != other.serial);
    SAME(HZ_UNKNOWN_PASS, hz_pager_unfix(&other));
    SAME(HZ_DONE, hz_pager_unfix(&next));
    SAME(0, pinned(&pager));
    pthread_t threads[PASSERS];
    for (int i = 0; i < PASSERS; i++)
        SAME(0, pthread_create(&threads[i], NULL, pass_on, &pager));
    for (int i = 0; i < PASSERS; i++)
        SAME(0, pthread_join(threads[i], NULL));
    SAME(RING, ring.count);
    for (size_t i = 0; i < RING; i++)
        SAME(HZ_DONE, hz_pager_unfix(&ring.pins[i]));
    ring.first = ring.count = 0;
    SAME(0, pinned(&pager));
    end(&pager);
}

/* ---- Latches ---- */

static void *try_in_vain(void *argument)
{
    hz_pager *pager = argument;
    hz_ref ref;
    memset(&ref, ODD, sizeof ref);
    REFUSED(HZ_BUSY, 1, 1, 0, 0, hz_pager_fix(pager, 1, HZ_SHARED | HZ_TRY, &ref));
    SAYS("page 1: a latch is not free, or a page is still fixed");
    SAME(HZ_BUSY, hz_pager_fix(pager, 1, HZ_EXCLUSIVE | HZ_TRY, &ref));
    SAME(HZ_BUSY, hz_pager_fix(pager, 2, HZ_EXCLUSIVE | HZ_TRY, &ref));
    SAME(true, is_filled(&ref, sizeof ref, ODD));
    ref = fixed(pager, 1, HZ_PINNED | HZ_TRY);
    SAME(HZ_DONE, hz_pager_unfix(&ref));
    ref = fixed(pager, 2, HZ_SHARED | HZ_TRY);
    SAME(HZ_DONE, hz_pager_unfix(&ref));
    return NULL;
}

static void busy(void)
{
    hz_pager pager = start();
    hz_ref alone = fixed(&pager, 1, HZ_EXCLUSIVE), shared = fixed(&pager, 2, HZ_SHARED);
    in_thread(try_in_vain, &pager);
    SAME(HZ_DONE, hz_pager_unfix(&alone));
    SAME(HZ_DONE, hz_pager_unfix(&shared));
    end(&pager);
}

/* A thread would wait for itself. Other pages, and the same page of another pager, are not in its way. */
static void deadlocks(void)
{
    hz_pager pager = start(), second = {0};
    hz_pager_config config = usual();
    hz_ref ref;
    uint64_t lsn;
    uint8_t has_lsn;
    SAME(HZ_DONE, hz_pager_new(&config, &io, &second));
    static const uint32_t hows[] = {HZ_SHARED, HZ_EXCLUSIVE};
    for (int i = 0; i < 2; i++) {
        hz_ref held = fixed(&pager, 1, hows[i]);
        for (int try = 0; try < 4; try++)
            REFUSED(HZ_DEADLOCK, 0, 0, 0, 0, hz_pager_fix(&pager, 1, hows[try % 2] | (try < 2 ? 0 : HZ_TRY), &ref));
        SAYS("the call would wait for a latch that this thread has");
        SAME(HZ_DEADLOCK, hz_pager_new_page(&pager, 1, &ref));
        ref = fixed(&pager, 1, HZ_PINNED);
        SAME(HZ_DONE, hz_pager_unfix(&ref));
        ref = fixed(&pager, 2, HZ_EXCLUSIVE);
        SAME(HZ_DONE, hz_pager_unfix(&ref));
        ref = fixed(&second, 1, HZ_EXCLUSIVE);
        SAME(HZ_DONE, hz_pager_unfix(&ref));
        SAME(i ? HZ_DEADLOCK : HZ_DONE, hz_pager_flush(&pager, 1));
        SAME(i ? HZ_DEADLOCK : HZ_DONE, hz_pager_checkpoint(&pager, &lsn, &has_lsn));
        SAME(HZ_DONE, hz_pager_flush(&pager, 2));
        SAME(HZ_DONE, hz_pager_flush(&second, 1));
        SAME(HZ_DONE, hz_pager_checkpoint(&second, &lsn, &has_lsn));
        SAME(HZ_DONE, hz_pager_unfix(&held));
    }
    SAME(HZ_DONE, hz_pager_checkpoint(&pager, &lsn, &has_lsn));
    end(&second);
    end(&pager);
}

static uint64_t milliseconds(void)
{
    struct timespec now;
    clock_gettime(CLOCK_MONOTONIC, &now);
    return (uint64_t)now.tv_sec * 1000 + (uint64_t)now.tv_nsec / 1000000;
}

/* All frames are pinned: a call waits, and one with HZ_TRY does not. */
static void no_victim(void)
{
    hz_pager_config config = usual();
    hz_pager pager = start(), patient = {0};
    hz_ref pins[FRAMES], ref;
    config.pin_wait_ms = 0; /* 10 seconds */
    SAME(HZ_DONE, hz_pager_new(&config, &io, &patient));
    for (int i = 0; i < FRAMES; i++)
        pins[i] = fixed(&patient, (uint64_t)i, HZ_PINNED);
    uint64_t began = milliseconds();
    REFUSED(HZ_NO_VICTIM, 1, 9, 0, 0, hz_pager_fix(&patient, 9, HZ_SHARED | HZ_TRY, &ref));
    SAYS("page 9: all pages that could make way are pinned");
    SAME(HZ_NO_VICTIM, hz_pager_fix(&patient, 9, HZ_EXCLUSIVE | HZ_TRY, &ref));
    SAME(HZ_NO_VICTIM, hz_pager_fix(&patient, 9, HZ_PINNED | HZ_TRY, &ref));
    SAME(true, milliseconds() - began < 9000);
    for (int i = 0; i < FRAMES; i++)
        SAME(HZ_DONE, hz_pager_unfix(&pins[i]));
    end(&patient);
    for (int i = 0; i < FRAMES; i++)
        pins[i] = fixed(&pager, (uint64_t)i, HZ_PINNED);
    began = milliseconds();
    SAME(HZ_NO_VICTIM, hz_pager_fix(&pager, 9, HZ_SHARED, &ref));
    SAME(HZ_NO_VICTIM, hz_pager_new_page(&pager, 9, &ref));
    SAME(true, milliseconds() - began >= 40);
    SAME(HZ_DONE, hz_pager_unfix(&pins[0]));
    pins[0] = fixed(&pager, 9, HZ_SHARED);
    for (int i = 0; i < FRAMES; i++)
        SAME(HZ_DONE, hz_pager_unfix(&pins[i]));
    end(&pager);
}

/* ---- Texts ---- */

static void texts(void)
{
    char text[8];
    memset(text, ODD, sizeof text);
    SAME(HZ_UNKNOWN_PASS, hz_pager_unfix((hz_ref[1]){{0}}));
    SAME(56, hz_pager_text(NULL, 100));
    SAME(56, hz_pager_text(text, 0));
    SAME(true, is_filled(text, sizeof text, ODD));
    SAME(56, hz_pager_text(text, 1));
    SAME(0, text[0]);
    SAME(56, hz_pager_text(text, 5));
    SAME(0, strcmp("this", text));
    /* By number: of the core, of the pager, of none. */
    SAME(0, strcmp("done", hz_pager_strerror(HZ_DONE)));
    SAME(0, strcmp("a page, or its file, could not be read", hz_pager_strerror(HZ_READ_FAILED)));
    SAME(0, strcmp("the device could not be synced", hz_pager_strerror(HZ_SYNC_FAILED)));
    SAME(0, strcmp("unknown number", hz_pager_strerror(15)));
    SAME(0, strcmp("unknown number", hz_pager_strerror(UINT16_MAX)));
    SAME(HZ_VERSION, hz_pager_version());
}

static void *never_refused(void *none)
{
    hz_pager_fault fault;
    SAME(HZ_DONE, hz_pager_fault_of(&fault));
    SAME(0, fault.number + fault.has_page + fault.page + fault.lsn);
    SAYS("nothing was refused");
    return none;
}

int main(void)
{
    in_thread(never_refused, NULL);
    nulls();
    no_pager();
    sizes();
    settings();
    static const uint64_t periods[] = {HZ_NO_PERIOD, FRAMES};
    for (size_t i = 0; i < sizeof periods / sizeof *periods; i++) {
        period = periods[i];
        fixes();
        new_pages();
        discards();
        puts_of();
        handles();
        serials();
        ends_of_threads();
        pins_of_no_thread();
        busy();
        deadlocks();
        no_victim();
    }
    texts();
    return 0;
}
