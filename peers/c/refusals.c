/* Each refusal, and each field of an answer of each kind, once at least, with what the header says of them. The whole
 * is then done again with one request for memory refused, the first, then the second and so on: the call that is
 * refused for it is made again, and has to answer what it had to answer at first. Only what makes a core, or gives a
 * pass or a ticket, takes memory.
 *
 *     check/bindings        builds it with the library and the linker's --wrap of malloc and realloc, and runs it
 */
#include "hojzmated.h"
#include <stdio.h>
#include <stdlib.h>
#include <string.h>

enum { SIZE = 16, ODD = 0xa5 };

void *__real_malloc(size_t n);
void *__real_realloc(void *old, size_t n);

static unsigned long requests, refused; /* requests for memory in this round, and which of them is refused: from 1 */
static unsigned refusals;               /* how many calls were refused for it in this round */

void *__wrap_malloc(size_t n)
{
    return ++requests == refused ? NULL : __real_malloc(n);
}

void *__wrap_realloc(void *old, size_t n)
{
    return ++requests == refused ? NULL : __real_realloc(old, n);
}

/* The calls that may be refused for want of memory, and which of them were. */
static const char *const takers[] = {"hz_core_new", "hz_fix", "hz_read_end", "hz_flush"};
enum { TAKERS = sizeof takers / sizeof *takers };
static bool was_refused[TAKERS], is_again; /* is_again: the newest answer came the second time */
static bool kinds_again[HZ_ABSENT + 1];    /* the kinds of answer that came so */

static void found_wrong(int line, const char *what, unsigned long long found)
{
    fprintf(stderr, "refusals.c:%d: with request %lu refused: %s is %llu\n", line, refused, what, found);
    exit(1);
}

/* A call was refused for want of memory: only one that may take some, and only where a request was refused. */
static void note_refusal(int line, const char *call)
{
    bool is_taker = false;
    for (size_t i = 0; i < TAKERS; i++)
        if (!strncmp(call, takers[i], strlen(takers[i])))
            is_taker = was_refused[i] = true;
    if (!is_taker || ++refusals > 1 || !refused || requests < refused)
        found_wrong(line, call, HZ_OUT_OF_MEMORY);
}

#define SAME(wanted, value)                                             \
    do {                                                                \
        unsigned long long found = (unsigned long long)(value);         \
        if (found != (unsigned long long)(wanted))                      \
            found_wrong(__LINE__, #value, found);                       \
    } while (0)

/* What a call has to answer, also the second time where memory was refused at the first. */
#define CALL(wanted, call)                        \
    do {                                          \
        unsigned number = (call);                 \
        is_again = number == HZ_OUT_OF_MEMORY;    \
        if (is_again) {                           \
            note_refusal(__LINE__, #call);        \
            number = (call);                      \
        }                                         \
        if (number != (unsigned)(wanted))         \
            found_wrong(__LINE__, #call, number); \
    } while (0)

static hz_core core;
static hz_fixed out;

/* Each field of what a fix or a flush gave. */
#define GAVE(the_kind, client_, page_, serial_, lsn_, has_evicted_, evicted_) \
    do {                                                                      \
        SAME(the_kind, out.kind);                                             \
        SAME(client_, out.grant.client);                                      \
        SAME(page_, out.grant.page);                                          \
        SAME(serial_, out.grant.serial);                                      \
        SAME(lsn_, out.lsn);                                                  \
        SAME(has_evicted_, out.has_evicted);                                  \
        SAME(evicted_, out.evicted);                                          \
        kinds_again[out.kind] |= is_again;                                    \
    } while (0)

/* A pass or a ticket with each of its fields. */
#define IS_GRANT(grant_, client_, page_, serial_) \
    do {                                          \
        SAME(client_, (grant_).client);           \
        SAME(page_, (grant_).page);               \
        SAME(serial_, (grant_).serial);           \
    } while (0)

/* All of some memory is what it was filled with. */
static bool is_filled(const void *memory, size_t len, uint8_t with)
{
    for (size_t i = 0; i < len; i++)
        if (((const uint8_t *)memory)[i] != with)
            return false;
    return true;
}

static hz_config usual(size_t room)
{
    return (hz_config){.pages = 8, .page_size = SIZE, .frames = 2, .room = room,
                       .correlated = 0, .retained = 10, .k = 1, .clients = 2};
}

/* The handle of no core is refused by each call but hz_core_new, and nothing is written. */
static void no_core(void)
{
    hz_grant grant = {.page = 1}, pass;
    hz_unsaved page;
    hz_stats stats;
    uint8_t image[SIZE], dirty = ODD;
    const uint8_t *bytes = image;
    uint64_t count = ODD;
    memset(image, ODD, sizeof image);
    memset(&out, ODD, sizeof out);
    memset(&pass, ODD, sizeof pass);
    memset(&page, ODD, sizeof page);
    memset(&stats, ODD, sizeof stats);
    CALL(HZ_NO_CORE, hz_fix(&core, 0, 0, image, SIZE, &out));
    CALL(HZ_NO_CORE, hz_flush(&core, 0, 0, image, SIZE, &out));
    CALL(HZ_NO_CORE, hz_read_end(&core, &grant, image, SIZE, &pass));
    CALL(HZ_NO_CORE, hz_read_failed(&core, &grant, true));
    CALL(HZ_NO_CORE, hz_write_end(&core, &grant, true, &dirty));
    CALL(HZ_NO_CORE, hz_unfix(&core, &grant));
    CALL(HZ_NO_CORE, hz_read(&core, &grant, 0, image, SIZE));
    CALL(HZ_NO_CORE, hz_page(&core, &grant, &bytes));
    CALL(HZ_NO_CORE, hz_write(&core, &grant, 0, image, SIZE, 1));
    CALL(HZ_NO_CORE, hz_tick(&core, 0, 1));
    CALL(HZ_NO_CORE, hz_mark(&core, 0, 1));
    CALL(HZ_NO_CORE, hz_purge(&core, 0, &count));
    CALL(HZ_NO_CORE, hz_page_lsn(&core, &grant, &count));
    CALL(HZ_NO_CORE, hz_next_unsaved(&core, 0, &page));
    CALL(HZ_NO_CORE, hz_victim(&core, &count, &dirty));
    CALL(HZ_NO_CORE, hz_redo_from(&core, &count, &dirty));
    CALL(HZ_NO_CORE, hz_stats_of(&core, &stats, sizeof stats));
    CALL(HZ_NO_CORE, hz_is_resident(&core, 0, &dirty));
    CALL(HZ_NO_CORE, hz_core_free(&core));
    SAME(true, is_filled(image, sizeof image, ODD) && is_filled(&out, sizeof out, ODD));
    SAME(true, is_filled(&pass, sizeof pass, ODD) && is_filled(&stats, sizeof stats, ODD));
    SAME(true, is_filled(&page, sizeof page, ODD));
    SAME(ODD, dirty);
    SAME(ODD, count);
    SAME(true, bytes == image);
    SAME(true, is_filled(&core, sizeof core, 0));
}

/* A null pointer is refused before all else, whether the handle has a core or not, and nothing is written. */
static void nulls(void)
{
    const hz_config config = usual(1);
    hz_grant grant = {.page = 1}, pass;
    hz_unsaved page;
    hz_stats stats;
    uint8_t image[SIZE], dirty = ODD;
    const uint8_t *bytes = image;
    uint64_t count = ODD;
    memset(image, ODD, sizeof image);
    memset(&out, ODD, sizeof out);
    memset(&pass, ODD, sizeof pass);
    memset(&page, ODD, sizeof page);
    memset(&stats, ODD, sizeof stats);
    CALL(HZ_NULL, hz_core_new(NULL, &core));
    CALL(HZ_NULL, hz_core_new(&config, NULL));
    CALL(HZ_NULL, hz_core_free(NULL));
    CALL(HZ_NULL, hz_fix(NULL, 0, 0, image, SIZE, &out));
    CALL(HZ_NULL, hz_fix(&core, 255, 0, NULL, SIZE, &out));
    CALL(HZ_NULL, hz_fix(&core, 255, 0, image, SIZE, NULL));
    CALL(HZ_NULL, hz_flush(NULL, 0, 0, image, SIZE, &out));
    CALL(HZ_NULL, hz_flush(&core, 255, 0, NULL, SIZE, &out));
    CALL(HZ_NULL, hz_flush(&core, 255, 0, image, SIZE, NULL));
    CALL(HZ_NULL, hz_read_end(NULL, &grant, image, SIZE, &pass));
    CALL(HZ_NULL, hz_read_end(&core, NULL, image, SIZE, &pass));
    CALL(HZ_NULL, hz_read_end(&core, &grant, NULL, SIZE, &pass));
    CALL(HZ_NULL, hz_read_end(&core, &grant, image, 1, NULL));
    CALL(HZ_NULL, hz_read_failed(NULL, &grant, true));
    CALL(HZ_NULL, hz_read_failed(&core, NULL, true));
    CALL(HZ_NULL, hz_write_end(NULL, &grant, true, &dirty));
    CALL(HZ_NULL, hz_write_end(&core, NULL, true, &dirty));
    CALL(HZ_NULL, hz_write_end(&core, &grant, true, NULL));
    CALL(HZ_NULL, hz_unfix(NULL, &grant));
    CALL(HZ_NULL, hz_unfix(&core, NULL));
    CALL(HZ_NULL, hz_read(NULL, &grant, 0, image, SIZE));
    CALL(HZ_NULL, hz_read(&core, NULL, 0, image, SIZE));
    CALL(HZ_NULL, hz_read(&core, &grant, SIZE_MAX, NULL, 1));
    CALL(HZ_NULL, hz_page(NULL, &grant, &bytes));
    CALL(HZ_NULL, hz_page(&core, NULL, &bytes));
    CALL(HZ_NULL, hz_page(&core, &grant, NULL));
    CALL(HZ_NULL, hz_write(NULL, &grant, 0, image, SIZE, 1));
    CALL(HZ_NULL, hz_write(&core, NULL, 0, image, SIZE, 1));
    CALL(HZ_NULL, hz_write(&core, &grant, SIZE_MAX, NULL, 1, 1));
    CALL(HZ_NULL, hz_tick(NULL, 0, 1));
    CALL(HZ_NULL, hz_mark(NULL, 0, 1));
    CALL(HZ_NULL, hz_purge(NULL, 0, &count));
    CALL(HZ_NULL, hz_purge(&core, 255, NULL));
    CALL(HZ_NULL, hz_page_lsn(NULL, &grant, &count));
    CALL(HZ_NULL, hz_page_lsn(&core, NULL, &count));
    CALL(HZ_NULL, hz_page_lsn(&core, &grant, NULL));
    CALL(HZ_NULL, hz_next_unsaved(NULL, 0, &page));
    CALL(HZ_NULL, hz_next_unsaved(&core, 0, NULL));
    CALL(HZ_NULL, hz_victim(NULL, &count, &dirty));
    CALL(HZ_NULL, hz_victim(&core, NULL, &dirty));
    CALL(HZ_NULL, hz_victim(&core, &count, NULL));
    CALL(HZ_NULL, hz_redo_from(NULL, &count, &dirty));
    CALL(HZ_NULL, hz_redo_from(&core, NULL, &dirty));
    CALL(HZ_NULL, hz_redo_from(&core, &count, NULL));
    CALL(HZ_NULL, hz_stats_of(NULL, &stats, sizeof stats));
    CALL(HZ_NULL, hz_stats_of(&core, NULL, sizeof stats));
    CALL(HZ_NULL, hz_is_resident(NULL, 0, &dirty));
    CALL(HZ_NULL, hz_is_resident(&core, UINT64_MAX, NULL));
    SAME(true, is_filled(image, sizeof image, ODD) && is_filled(&out, sizeof out, ODD));
    SAME(true, is_filled(&pass, sizeof pass, ODD) && is_filled(&stats, sizeof stats, ODD));
    SAME(true, is_filled(&page, sizeof page, ODD));
    SAME(ODD, dirty);
    SAME(ODD, count);
    SAME(true, bytes == image);
}

/* A core is refused just beyond each limit, and made at each. */
static void makings(void)
{
    const struct {
        uint16_t wanted;
        hz_config config;
    } rows[] = {
        {HZ_BAD_GEOMETRY, {.pages = 0, .page_size = 16, .frames = 1, .room = 1, .k = 1, .clients = 1}},
        {HZ_BAD_GEOMETRY, {.pages = 1048577, .page_size = 16, .frames = 1, .room = 1, .k = 1, .clients = 1}},
        {HZ_BAD_GEOMETRY, {.pages = 1, .page_size = 0, .frames = 1, .room = 1, .k = 1, .clients = 1}},
        {HZ_BAD_GEOMETRY, {.pages = 1, .page_size = 24, .frames = 1, .room = 1, .k = 1, .clients = 1}},
        {HZ_BAD_GEOMETRY, {.pages = 1, .page_size = 65552, .frames = 1, .room = 1, .k = 1, .clients = 1}},
        {HZ_BAD_GEOMETRY, {.pages = 0, .page_size = 16, .frames = 0, .room = 0, .k = 0, .clients = 0}},
        {HZ_BAD_SETTINGS, {.pages = 1, .page_size = 16, .frames = 0, .room = 1, .k = 1, .clients = 1}},
        {HZ_BAD_SETTINGS, {.pages = 1, .page_size = 16, .frames = 65537, .room = 1, .k = 1, .clients = 1}},
        {HZ_BAD_SETTINGS, {.pages = 1, .page_size = 16, .frames = 1, .room = 0, .k = 1, .clients = 1}},
        {HZ_BAD_SETTINGS,
         {.pages = 1, .page_size = 16, .frames = 1, .room = ((size_t)1 << 61) + 1, .k = 1, .clients = 1}},
        {HZ_BAD_SETTINGS, {.pages = 1, .page_size = 16, .frames = 1, .room = 1, .k = 0, .clients = 1}},
        {HZ_BAD_SETTINGS, {.pages = 1, .page_size = 16, .frames = 1, .room = 1, .k = 17, .clients = 1}},
        {HZ_BAD_SETTINGS, {.pages = 1, .page_size = 16, .frames = 1, .room = 1, .k = 1, .clients = 0}},
        {HZ_BAD_SETTINGS, {.pages = 1, .page_size = 16, .frames = 1, .room = 1, .k = 1, .clients = 65}},
        {HZ_BAD_SETTINGS,
         {.pages = 1, .page_size = 16, .frames = 1, .room = 1, .correlated = (1ull << 62) + 1, .k = 1, .clients = 1}},
        {HZ_BAD_SETTINGS,
         {.pages = 1, .page_size = 16, .frames = 1, .room = 1, .retained = (1ull << 62) + 1, .k = 1, .clients = 1}},
        {HZ_DONE,
         {.pages = 1048576, .page_size = 65536, .frames = 1, .room = (size_t)1 << 61, .correlated = 1ull << 62,
          .retained = 1ull << 62, .k = 16, .clients = 64}},
        {HZ_DONE, {.pages = 1, .page_size = 16, .frames = 65536, .room = 1, .k = 1, .clients = 1}},
    };
    for (size_t i = 0; i < sizeof rows / sizeof *rows; i++) {
        CALL(rows[i].wanted, hz_core_new(&rows[i].config, &core));
        SAME(rows[i].wanted == HZ_DONE, core.is_live);
        if (rows[i].wanted == HZ_DONE) {
            CALL(HZ_HAS_CORE, hz_core_new(&rows[0].config, &core));
            CALL(HZ_DONE, hz_core_free(&core));
        }
    }
}

static void filled(uint8_t *image, uint8_t with)
{
    memset(image, with, SIZE);
}

/* Reads a page by its ticket, which a fix gave: the pass has the serial number that is wanted. */
static hz_grant end_read(uint8_t client, uint64_t page, uint64_t serial, uint8_t with)
{
    hz_grant pass = {0};
    uint8_t image[SIZE];
    filled(image, with);
    CALL(HZ_DONE, hz_read_end(&core, &out.grant, image, SIZE, &pass));
    IS_GRANT(pass, client, page, serial);
    return pass;
}

/* Clients, pages, lengths and offsets that are not of the core, and passes and tickets that were never given. */
static void strangers(void)
{
    hz_grant stranger = {.page = 3, .serial = 0, .client = 0}, pass;
    uint8_t image[SIZE], dirty = ODD;
    const uint8_t *bytes = image;
    uint64_t count = ODD;
    filled(image, ODD);
    memset(&pass, ODD, sizeof pass);
    CALL(HZ_BAD_CLIENT, hz_fix(&core, 2, 8, image, 0, &out));
    CALL(HZ_BAD_CLIENT, hz_flush(&core, 2, 8, image, 0, &out));
    CALL(HZ_BAD_CLIENT, hz_tick(&core, 2, 1));
    CALL(HZ_BAD_CLIENT, hz_mark(&core, 2, 1));
    CALL(HZ_BAD_CLIENT, hz_purge(&core, 2, &count));
    CALL(HZ_OUT_OF_PAGE, hz_fix(&core, 0, 8, image, SIZE, &out));
    GAVE(0, 0, 8, 0, 0, 0, 0);
    CALL(HZ_OUT_OF_PAGE, hz_fix(&core, 0, 7, image, SIZE - 1, &out));
    CALL(HZ_OUT_OF_PAGE, hz_flush(&core, 1, 8, image, SIZE, &out));
    CALL(HZ_OUT_OF_PAGE, hz_flush(&core, 1, 7, image, SIZE - 1, &out));
    GAVE(0, 1, 7, 0, 0, 0, 0);
    CALL(HZ_OUT_OF_PAGE, hz_read_end(&core, &stranger, image, SIZE - 1, &pass));
    CALL(HZ_OUT_OF_PAGE, hz_read(&core, &stranger, 9, image, 8));
    CALL(HZ_OUT_OF_PAGE, hz_read(&core, &stranger, SIZE_MAX, image, 1));
    CALL(HZ_OUT_OF_PAGE, hz_read(&core, &stranger, SIZE + 1, image, 0));
    CALL(HZ_OUT_OF_PAGE, hz_write(&core, &stranger, 17, image, 0, 1));
    CALL(HZ_OUT_OF_PAGE, hz_write(&core, &stranger, SIZE_MAX, image, 1, 1));
    CALL(HZ_OUT_OF_PAGE, hz_fix(&core, 0, 1ull << 32, image, SIZE, &out));
    CALL(HZ_OUT_OF_PAGE, hz_fix(&core, 0, UINT64_MAX, image, SIZE, &out));
    CALL(HZ_OUT_OF_PAGE, hz_fix(&core, 0, 7, image, 0, &out));
    CALL(HZ_OUT_OF_PAGE, hz_fix(&core, 0, 7, NULL, 0, &out));
    CALL(HZ_OUT_OF_PAGE, hz_fix(&core, 0, 7, image, SIZE_MAX, &out));
    CALL(HZ_OUT_OF_PAGE, hz_read_end(&core, &stranger, NULL, 0, &pass));
    CALL(HZ_OUT_OF_PAGE, hz_write(&core, &stranger, 0, image, SIZE_MAX, 1));
    CALL(HZ_BAD_CLIENT, hz_tick(&core, 255, 1));
    CALL(HZ_UNKNOWN_PASS, hz_read(&core, &stranger, 0, image, SIZE));
    CALL(HZ_UNKNOWN_PASS, hz_page(&core, &stranger, &bytes));
    CALL(HZ_UNKNOWN_PASS, hz_page_lsn(&core, &stranger, &count));
    CALL(HZ_OUT_OF_PAGE, hz_is_resident(&core, 8, &dirty));
    CALL(HZ_OUT_OF_PAGE, hz_is_resident(&core, UINT64_MAX, &dirty));
    CALL(HZ_UNKNOWN_PASS, hz_write(&core, &stranger, 0, image, SIZE, 1));
    CALL(HZ_UNKNOWN_PASS, hz_unfix(&core, &stranger));
    CALL(HZ_UNKNOWN_TICKET, hz_read_end(&core, &stranger, image, SIZE, &pass));
    CALL(HZ_UNKNOWN_TICKET, hz_read_failed(&core, &stranger, true));
    CALL(HZ_UNKNOWN_TICKET, hz_write_end(&core, &stranger, true, &dirty));
    SAME(true, is_filled(image, sizeof image, ODD) && is_filled(&pass, sizeof pass, ODD));
    SAME(ODD, dirty);
    SAME(ODD, count);
    SAME(true, bytes == image);
}

/* What differs in one field from a pass or a ticket that is out is a stranger. */
static void nearly(const hz_grant *own)
{
    const hz_grant others[] = {
        {.page = own->page, .serial = own->serial, .client = !own->client},
        {.page = own->page, .serial = own->serial, .client = 255},
        {.page = own->page + (1ull << 32), .serial = own->serial, .client = own->client},
        {.page = UINT64_MAX, .serial = own->serial, .client = own->client},
        {.page = own->page, .serial = own->serial + (1ull << 32), .client = own->client},
        {.page = own->page, .serial = UINT64_MAX, .client = own->client},
    };
    uint8_t image[SIZE] = {0}, dirty;
    const uint8_t *bytes = image;
    uint64_t lsn;
    hz_grant pass;
    for (size_t i = 0; i < sizeof others / sizeof *others; i++) {
        CALL(HZ_UNKNOWN_TICKET, hz_read_end(&core, &others[i], image, SIZE, &pass));
        CALL(HZ_UNKNOWN_TICKET, hz_read_failed(&core, &others[i], false));
        CALL(HZ_UNKNOWN_TICKET, hz_write_end(&core, &others[i], true, &dirty));
        CALL(HZ_UNKNOWN_PASS, hz_unfix(&core, &others[i]));
        CALL(HZ_UNKNOWN_PASS, hz_read(&core, &others[i], 0, image, SIZE));
        CALL(HZ_UNKNOWN_PASS, hz_page(&core, &others[i], &bytes));
        CALL(HZ_UNKNOWN_PASS, hz_page_lsn(&core, &others[i], &lsn));
        CALL(HZ_UNKNOWN_PASS, hz_write(&core, &others[i], 0, image, SIZE, 1));
    }
    SAME(true, bytes == image);
}

/* The one page that is unsaved, with its page LSN and the least LSN of what is not saved; or none, which is page 8. */
static void is_unsaved(uint64_t page, uint64_t lsn, uint64_t first_lsn)
{
    hz_unsaved next;
    uint64_t least = ODD;
    uint8_t has_page = page < 8, has_lsn = ODD;
    memset(&next, ODD, sizeof next);
    CALL(HZ_DONE, hz_next_unsaved(&core, 0, &next));
    SAME(has_page, next.has_page);
    SAME(has_page ? page : 0, next.page);
    SAME(lsn, next.lsn);
    SAME(first_lsn, next.first_lsn);
    CALL(HZ_DONE, hz_redo_from(&core, &least, &has_lsn));
    SAME(has_page, has_lsn);
    SAME(first_lsn, least);
    CALL(HZ_DONE, hz_next_unsaved(&core, page, &next));
    SAME(has_page, next.has_page);
    CALL(HZ_DONE, hz_next_unsaved(&core, page + 1, &next));
    SAME(0, next.has_page);
    CALL(HZ_DONE, hz_next_unsaved(&core, UINT64_MAX, &next));
    SAME(true, !next.page && !next.lsn && !next.first_lsn && !next.has_page);
}

static bool is_resident(uint64_t page)
{
    uint8_t is_resident = ODD;
    CALL(HZ_DONE, hz_is_resident(&core, page, &is_resident));
    return is_resident;
}

static uint64_t lsn_of(const hz_grant *pass)
{
    uint64_t lsn = ODD;
    CALL(HZ_DONE, hz_page_lsn(&core, pass, &lsn));
    return lsn;
}

/* Where the page of a pass is. */
static const uint8_t *lent(const hz_grant *pass)
{
    const uint8_t *bytes = NULL;
    CALL(HZ_DONE, hz_page(&core, pass, &bytes));
    SAME(true, bytes != NULL);
    return bytes;
}

/* Page 3 is read: twice in vain, and then well. Tickets 0 to 2. Gives its pass 0. */
static hz_grant loads(void)
{
    uint8_t image[SIZE], dirty;
    const uint8_t *bytes = image;
    filled(image, ODD);
    CALL(HZ_DONE, hz_fix(&core, 0, 3, image, SIZE, &out));
    GAVE(HZ_LOAD, 0, 3, 0, 0, 0, 0);
    hz_grant ticket = out.grant;
    nearly(&ticket);
    SAME(false, is_resident(3));
    CALL(HZ_UNKNOWN_PASS, hz_page(&core, &ticket, &bytes));
    SAME(true, bytes == image);
    CALL(HZ_UNKNOWN_TICKET, hz_write_end(&core, &ticket, true, &dirty));
    CALL(HZ_BUSY, hz_fix(&core, 1, 3, image, SIZE, &out));
    GAVE(0, 1, 3, 0, 0, 0, 0);
    CALL(HZ_BUSY, hz_flush(&core, 1, 3, image, SIZE, &out));
    CALL(HZ_DONE, hz_read_failed(&core, &ticket, false));
    CALL(HZ_UNKNOWN_TICKET, hz_read_failed(&core, &ticket, false));
    CALL(HZ_DONE, hz_fix(&core, 0, 3, image, SIZE, &out));
    GAVE(HZ_LOAD, 0, 3, 1, 0, 0, 0);
    CALL(HZ_DONE, hz_read_failed(&core, &out.grant, true));
    CALL(HZ_DONE, hz_fix(&core, 0, 3, image, SIZE, &out));
    GAVE(HZ_LOAD, 0, 3, 2, 0, 0, 0);
    SAME(true, is_filled(image, SIZE, ODD));
    ticket = out.grant;
    hz_grant pass = end_read(0, 3, 0, 0x33);
    hz_grant again = pass;
    CALL(HZ_UNKNOWN_TICKET, hz_read_end(&core, &ticket, image, SIZE, &again));
    IS_GRANT(again, 0, 3, 0);
    SAME(true, is_resident(3));
    SAME(0, lsn_of(&pass));
    is_unsaved(8, 0, 0);
    return pass;
}

/* Another pass of page 3, which is given back; and a part of the page is written under LSN 7. What was lent by either
 * pass has it then. */
static void parts(const hz_grant *pass)
{
    uint8_t image[SIZE], part[4] = {1, 2, 3, 4};
    const uint8_t *own = lent(pass);
    SAME(true, is_filled(own, SIZE, 0x33));
    filled(image, ODD);
    nearly(pass);
    CALL(HZ_DONE, hz_fix(&core, 1, 3, image, SIZE, &out));
    GAVE(HZ_HIT, 1, 3, 1, 0, 0, 0);
    SAME(true, is_filled(image, SIZE, ODD));
    hz_grant other = out.grant;
    const uint8_t *others = lent(&other);
    SAME(true, is_filled(others, SIZE, 0x33));
    CALL(HZ_DONE, hz_write(&core, pass, 12, part, sizeof part, 7));
    SAME(true, is_filled(own, 12, 0x33) && !memcmp(own + 12, part, sizeof part));
    SAME(0, memcmp(others, own, SIZE));
    CALL(HZ_DONE, hz_read(&core, &other, 11, image, 5));
    SAME(true, image[0] == 0x33 && !memcmp(image + 1, part, sizeof part) && is_filled(image + 5, SIZE - 5, ODD));
    CALL(HZ_DONE, hz_read(&core, &other, SIZE, NULL, 0));
    CALL(HZ_DONE, hz_write(&core, &other, SIZE, NULL, 0, 7));
    SAME(7, lsn_of(pass));
    SAME(7, lsn_of(&other));
    is_unsaved(3, 7, 7);
    CALL(HZ_DONE, hz_unfix(&core, &other));
    CALL(HZ_UNKNOWN_PASS, hz_unfix(&core, &other));
    CALL(HZ_UNKNOWN_PASS, hz_read(&core, &other, 0, image, SIZE));
    others = image;
    CALL(HZ_UNKNOWN_PASS, hz_page(&core, &other, &others));
    SAME(true, others == image);
    CALL(HZ_UNKNOWN_PASS, hz_write(&core, &other, 0, image, SIZE, 8));
}

/* Page 3 is written out: not ahead of the log; in vain; well, but written to meanwhile; and well. Tickets 3 to 5. */
static void flushes(const hz_grant *pass)
{
    uint8_t image[SIZE], last[SIZE], dirty = ODD, byte = 9;
    filled(image, ODD);
    CALL(HZ_NEED_LOG, hz_flush(&core, 1, 3, image, SIZE, &out));
    GAVE(0, 1, 3, 0, 7, 0, 0);
    CALL(HZ_DONE, hz_mark(&core, 0, 6));
    CALL(HZ_NEED_LOG, hz_flush(&core, 1, 3, image, SIZE, &out));
    SAME(true, is_filled(image, SIZE, ODD));
    CALL(HZ_DONE, hz_mark(&core, 0, 7));
    CALL(HZ_DONE, hz_flush(&core, 1, 3, image, SIZE, &out));
    GAVE(HZ_WRITE_FIRST, 1, 3, 3, 7, 0, 0);
    memset(last, 0x33, 12);
    memcpy(last + 12, (uint8_t[]){1, 2, 3, 4}, 4);
    SAME(0, memcmp(image, last, SIZE));
    hz_grant ticket = out.grant, none;
    nearly(&ticket);
    is_unsaved(3, 7, 7);
    CALL(HZ_UNKNOWN_TICKET, hz_read_end(&core, &ticket, image, SIZE, &none));
    CALL(HZ_BUSY, hz_flush(&core, 0, 3, image, SIZE, &out));
    SAME(ODD, dirty);
    CALL(HZ_DONE, hz_write_end(&core, &ticket, false, &dirty));
    SAME(1, dirty);
    dirty = ODD;
    CALL(HZ_UNKNOWN_TICKET, hz_write_end(&core, &ticket, true, &dirty));
    CALL(HZ_UNKNOWN_TICKET, hz_write_end(&core, &ticket, false, &dirty));
    SAME(ODD, dirty);
    CALL(HZ_DONE, hz_flush(&core, 1, 3, image, SIZE, &out));
    GAVE(HZ_WRITE_FIRST, 1, 3, 4, 7, 0, 0);
    CALL(HZ_DONE, hz_write(&core, pass, 0, &byte, 1, 9));
    is_unsaved(3, 9, 7);
    CALL(HZ_DONE, hz_write_end(&core, &out.grant, true, &dirty));
    SAME(1, dirty);
    is_unsaved(3, 9, 9);
    CALL(HZ_DONE, hz_mark(&core, 1, 9));
    CALL(HZ_DONE, hz_flush(&core, 0, 3, image, SIZE, &out));
    GAVE(HZ_WRITE_FIRST, 0, 3, 5, 9, 0, 0);
    last[0] = 9;
    SAME(0, memcmp(image, last, SIZE));
    CALL(HZ_DONE, hz_write_end(&core, &out.grant, true, &dirty));
    SAME(0, dirty);
    SAME(9, lsn_of(pass));
    is_unsaved(8, 0, 0);
    filled(image, ODD);
    CALL(HZ_DONE, hz_flush(&core, 1, 3, image, SIZE, &out));
    GAVE(HZ_CLEAN, 1, 3, 0, 0, 0, 0);
    CALL(HZ_DONE, hz_flush(&core, 0, 5, image, SIZE, &out));
    GAVE(HZ_ABSENT, 0, 5, 0, 0, 0, 0);
    SAME(true, is_filled(image, SIZE, ODD));
}

/* Page 3 stays pinned, and pages 4, 5 and 6 come after one another into the other frame. Tickets 6 to 9. */
static void replacements(void)
{
    uint8_t image[SIZE], dirty = ODD, bytes[2] = {5, 6};
    filled(image, ODD);
    CALL(HZ_DONE, hz_fix(&core, 0, 4, image, SIZE, &out));
    GAVE(HZ_LOAD, 0, 4, 6, 0, 0, 0);
    hz_grant pass = end_read(0, 4, 2, 0x44);
    CALL(HZ_NO_VICTIM, hz_fix(&core, 1, 5, image, SIZE, &out));
    GAVE(0, 1, 5, 0, 0, 0, 0);
    CALL(HZ_DONE, hz_unfix(&core, &pass));
    CALL(HZ_NO_VICTIM, hz_fix(&core, 1, 5, image, SIZE, &out));
    CALL(HZ_DONE, hz_tick(&core, 0, 1));
    CALL(HZ_DONE, hz_fix(&core, 1, 5, image, SIZE, &out));
    GAVE(HZ_LOAD, 1, 5, 7, 0, 1, 4);
    pass = end_read(1, 5, 3, 0x55);
    CALL(HZ_DONE, hz_write(&core, &pass, 2, bytes, sizeof bytes, 11));
    CALL(HZ_DONE, hz_unfix(&core, &pass));
    CALL(HZ_DONE, hz_tick(&core, 1, 1));
    CALL(HZ_NEED_LOG, hz_fix(&core, 0, 6, image, SIZE, &out));
    GAVE(0, 0, 6, 0, 11, 0, 0);
    SAME(true, is_filled(image, SIZE, ODD));
    CALL(HZ_DONE, hz_mark(&core, 0, 11));
    CALL(HZ_DONE, hz_fix(&core, 0, 6, image, SIZE, &out));
    GAVE(HZ_WRITE_FIRST, 0, 5, 8, 11, 0, 0);
    SAME(true, is_filled(image, 2, 0x55) && !memcmp(image + 2, bytes, 2) && is_filled(image + 4, SIZE - 4, 0x55));
    hz_grant ticket = out.grant;
    CALL(HZ_NO_VICTIM, hz_fix(&core, 1, 6, image, SIZE, &out));
    CALL(HZ_DONE, hz_write_end(&core, &ticket, true, &dirty));
    SAME(0, dirty);
    CALL(HZ_DONE, hz_fix(&core, 0, 6, image, SIZE, &out));
    GAVE(HZ_LOAD, 0, 6, 9, 0, 1, 5);
    pass = end_read(0, 6, 4, 0x66);
    CALL(HZ_DONE, hz_unfix(&core, &pass));
}

/* Pages 4 and 5, which were last used at 1 and 2 and are away, are forgotten. The clock then goes to its end. */
static void times(void)
{
    uint64_t count = ODD;
    CALL(HZ_DONE, hz_purge(&core, 0, &count));
    SAME(0, count);
    CALL(HZ_DONE, hz_tick(&core, 0, 9));
    CALL(HZ_DONE, hz_purge(&core, 1, &count));
    SAME(1, count);
    CALL(HZ_DONE, hz_tick(&core, 0, 1));
    CALL(HZ_DONE, hz_purge(&core, 1, &count));
    SAME(1, count);
    CALL(HZ_CLOCK_FULL, hz_tick(&core, 0, UINT64_MAX));
    CALL(HZ_CLOCK_FULL, hz_tick(&core, 0, (1ull << 62) - 12));
    CALL(HZ_DONE, hz_tick(&core, 0, (1ull << 62) - 13));
    CALL(HZ_CLOCK_FULL, hz_tick(&core, 0, 1));
}

/* One fix found its page; four reads, three write-outs and two replacements went well; three operations failed, and
 * nine calls were refused. Pages 3 and 6 are here, the first of them pinned. */
static void counts(void)
{
    hz_stats stats;
    memset(&stats, ODD, sizeof stats);
    CALL(HZ_DONE, hz_stats_of(&core, &stats, sizeof stats));
    SAME(1, stats.hits);
    SAME(4, stats.faults);
    SAME(2, stats.evictions);
    SAME(3, stats.writes);
    SAME(3, stats.failed);
    SAME(9, stats.refused);
    SAME(2, stats.resident);
    SAME(1, stats.pinned);
    SAME(0, stats.unsaved);
    SAME(0, stats.loading);
    SAME(0, stats.writing);
}

/* A core that may answer six calls: what passes and tickets that are out need for their ends is kept for them. Where no
 * room is left a page is lent all the same. */
static void little_room(void)
{
    hz_config config = usual(6);
    uint8_t image[SIZE];
    uint64_t count = ODD;
    filled(image, ODD);
    CALL(HZ_DONE, hz_core_new(&config, &core));
    CALL(HZ_DONE, hz_fix(&core, 0, 1, image, SIZE, &out));
    CALL(HZ_DONE, hz_tick(&core, 0, 1));
    CALL(HZ_TRAIL_FULL, hz_fix(&core, 0, 2, image, SIZE, &out));
    CALL(HZ_DONE, hz_flush(&core, 0, 2, image, SIZE, &out));
    CALL(HZ_TRAIL_FULL, hz_flush(&core, 0, 2, image, SIZE, &out));
    CALL(HZ_DONE, hz_mark(&core, 0, 0));
    CALL(HZ_TRAIL_FULL, hz_mark(&core, 0, 0));
    CALL(HZ_TRAIL_FULL, hz_tick(&core, 0, UINT64_MAX));
    CALL(HZ_TRAIL_FULL, hz_purge(&core, 0, &count));
    SAME(ODD, count);
    out.grant = (hz_grant){.page = 1, .serial = 0, .client = 0};
    filled(image, 0x11);
    hz_grant pass = out.grant;
    CALL(HZ_DONE, hz_read_end(&core, &pass, image, SIZE, &pass));
    IS_GRANT(pass, 0, 1, 0);
    filled(image, ODD);
    CALL(HZ_TRAIL_FULL, hz_read(&core, &pass, 0, image, SIZE));
    CALL(HZ_TRAIL_FULL, hz_write(&core, &pass, 0, image, SIZE, 1));
    SAME(true, is_filled(lent(&pass), SIZE, 0x11));
    CALL(HZ_DONE, hz_unfix(&core, &pass));
    SAME(true, is_filled(image, SIZE, ODD));
    CALL(HZ_DONE, hz_core_free(&core));
}

/* Passes enough of one page that the list of them has to grow: the fix that finds its page takes memory then. */
static void many_passes(void)
{
    enum { PASSES = 100 };
    hz_config config = usual(1000);
    uint8_t image[SIZE];
    CALL(HZ_DONE, hz_core_new(&config, &core));
    CALL(HZ_DONE, hz_fix(&core, 0, 1, image, SIZE, &out));
    end_read(0, 1, 0, 0x11);
    for (uint64_t serial = 1; serial < PASSES; serial++) {
        CALL(HZ_DONE, hz_fix(&core, 1, 1, image, SIZE, &out));
        GAVE(HZ_HIT, 1, 1, serial, 0, 0, 0);
    }
    CALL(HZ_DONE, hz_core_free(&core));
}

/* The text of each number, whole and cut short. */
static void texts(void)
{
    static const struct {
        uint16_t number;
        const char *text;
    } rows[] = {
        {HZ_DONE, "done"},
        {HZ_BAD_GEOMETRY, "the number of pages or the page size is out of its limits"},
        {HZ_BAD_SETTINGS, "a setting of the pool is out of its limits"},
        {HZ_NO_VICTIM, "no page may leave its frame"},
        {HZ_NEED_LOG, "the log must first be durable up to the LSN that is told"},
        {HZ_BUSY, "a device operation on the page is under way"},
        {HZ_UNKNOWN_PASS, "no such pass is out"},
        {HZ_UNKNOWN_TICKET, "no such ticket is out"},
        {HZ_READ_FAILED, "the page could not be read"},
        {HZ_WRITE_FAILED, "the page could not be written"},
        {HZ_WRONG_PAGE, "the page's place in its file has another page"},
        {HZ_TRAIL_FULL, "the trail has no room for the call"},
        {HZ_CLOCK_FULL, "the clock would pass its end"},
        {HZ_OUT_OF_MEMORY, "out of memory"},
        {HZ_BAD_CLIENT, "no client has this number here"},
        {HZ_OUT_OF_PAGE, "the page is not of the file, or the bytes are not within the page"},
        {HZ_NO_CORE, "the handle has no core"},
        {HZ_HAS_CORE, "the handle has a core already"},
        {HZ_NULL, "a pointer is null"},
        {24, "a mark came before the log rows of client 0 allow it"},
        {15, "unknown number"},
        {65535, "unknown number"},
    };
    for (size_t i = 0; i < sizeof rows / sizeof *rows; i++) {
        uint8_t into[96];
        size_t len = strlen(rows[i].text);
        memset(into, ODD, sizeof into);
        SAME(len, hz_text(rows[i].number, into, sizeof into));
        SAME(true, !memcmp(into, rows[i].text, len) && is_filled(into + len, sizeof into - len, ODD));
        memset(into, ODD, sizeof into);
        SAME(len, hz_text(rows[i].number, into, 3));
        SAME(true, !memcmp(into, rows[i].text, 3) && is_filled(into + 3, sizeof into - 3, ODD));
        SAME(len, hz_text(rows[i].number, NULL, 3));
        SAME(0, strcmp(rows[i].text, hz_strerror(rows[i].number)));
    }
    /* Both have the same text of each number. */
    for (uint32_t number = 0; number <= UINT16_MAX; number++) {
        uint8_t into[128];
        const char *text = hz_strerror((uint16_t)number);
        SAME(strlen(text), hz_text((uint16_t)number, into, sizeof into));
        SAME(true, !memcmp(into, text, strlen(text)));
    }
}

static void all(void)
{
    hz_config config = usual(1000);
    no_core();
    nulls();
    makings();
    CALL(HZ_DONE, hz_core_new(&config, &core));
    nulls();
    strangers();
    hz_grant pass = loads();
    parts(&pass);
    const uint8_t *page = lent(&pass);
    flushes(&pass);
    replacements();
    times();
    counts();
    SAME(true, page[0] == 9 && is_filled(page + 1, 11, 0x33) && !memcmp(page + 12, (uint8_t[]){1, 2, 3, 4}, 4));
    CALL(HZ_DONE, hz_core_free(&core));
    no_core();
    little_room();
    many_passes();
    texts();
}

int main(void)
{
    /* Round 0 refuses no request, and no call may then say that memory is wanting. */
    do {
        requests = refusals = 0;
        all();
        /* A refused request is told by the one call that met it. */
        if (refused && requests >= refused)
            SAME(1, refusals);
        refused++;
    } while (refused == 1 || requests >= refused - 1);
    for (size_t i = 0; i < TAKERS; i++)
        if (!was_refused[i])
            found_wrong(__LINE__, takers[i], 0);
    SAME(true, kinds_again[HZ_HIT] && kinds_again[HZ_LOAD] && kinds_again[HZ_WRITE_FIRST]);
    SAME(false, kinds_again[HZ_CLEAN] || kinds_again[HZ_ABSENT] || kinds_again[0]);
    printf("every refusal came; %lu requests for memory were refused in turn\n", refused - 2);
    return 0;
}
