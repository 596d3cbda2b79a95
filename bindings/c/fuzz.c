/* Random calls of the library, each held against a simple model of the pool, model.h: its number, what it writes, and
 * what it leaves. One call in four has input that is not of the core: another client, page, length or offset, a pass
 * or ticket that was made up or is back, a null pointer, a handle with no core. Each struct and buffer that is passed
 * ends where no memory is. What hz_page lent is held against the model's page after every call, until its pass is back;
 * and after every sixteenth, which pages are unsaved and what is counted.
 *
 *     fuzz CALLS [SEED]     prints how often each number came; status 0 where the model was right each time
 *
 * With -DLIBFUZZER it has the entry of libFuzzer instead, which gives the random numbers. check/bindings builds it.
 */
#include "drawn.h"
#include "model.h"
#include <stdio.h>
#include <stdlib.h>
#include <sys/mman.h>

enum { BLOCK = 4096, NUMBERS = 64 };

static void found_wrong(int line, const char *what, unsigned long long wanted, unsigned long long found);

#define SAME(wanted, value)                                      \
    do {                                                         \
        unsigned long long wanted_ = (wanted), value_ = (value); \
        if (wanted_ != value_)                                   \
            found_wrong(__LINE__, #value, wanted_, value_);      \
    } while (0)

/* --- What is passed: each struct and buffer lies before memory that cannot be read or written --- */

enum { ODD = 0xa5, NO_NULL = 9 };

static uint8_t *buffer_end;
static hz_core *live, *none; /* the handle of the core, and one of no core */
static hz_config *config;
static hz_fixed *out;
static hz_grant *held, *pass;
static hz_unsaved *unsaved;
static hz_stats *stats;
static uint64_t *count;
static const uint8_t **bytes_at;
static uint8_t *flag;

static uint64_t came[NUMBERS], kinds[HZ_ABSENT + 1], calls; /* the counts of each number and kind */
static hz_grant stale;                                      /* the newest grant that went back */

/* What went well while a page was lent. */
enum meanwhile { LOAD, EVICTION, WRITE_OUT, WRITE, OTHERS_WRITE, MEANWHILES };
static uint64_t meanwhile[MEANWHILES];

static void *before_the_end(size_t len)
{
    uint8_t *block = mmap(NULL, 2 * BLOCK, PROT_READ | PROT_WRITE, MAP_PRIVATE | MAP_ANONYMOUS, -1, 0);
    if (block == MAP_FAILED || mprotect(block + BLOCK, BLOCK, PROT_NONE))
        exit(2);
    return block + BLOCK - len;
}

static void prepare(void)
{
    buffer_end = before_the_end(0);
    live = before_the_end(sizeof *live);
    none = before_the_end(sizeof *none);
    config = before_the_end(sizeof *config);
    out = before_the_end(sizeof *out);
    held = before_the_end(sizeof *held);
    pass = before_the_end(sizeof *pass);
    unsaved = before_the_end(sizeof *unsaved);
    stats = before_the_end(sizeof *stats);
    count = before_the_end(sizeof *count);
    bytes_at = before_the_end(sizeof *bytes_at);
    flag = before_the_end(1);
}

/* The handle of a call, and the index of its pointer that is null. */
typedef struct how {
    hz_core *core;
    unsigned null;
} how;

static how picked(unsigned pointers)
{
    how h = {.core = one_in(64) ? none : live, .null = one_in(64) ? (unsigned)below(pointers) : NO_NULL};
    if (h.null == 0)
        h.core = NULL;
    return h;
}

#define UNLESS(place, pointer) (h.null == (place) ? NULL : (pointer))

/* Returns the refusal before the core is asked, or 0. The pointer of an empty buffer may be null. */
static uint16_t early(how h, bool is_empty_buffer)
{
    if (h.null != NO_NULL && !is_empty_buffer)
        return HZ_NULL;
    return h.core == none ? HZ_NO_CORE : 0;
}

static uint16_t noted(uint16_t number)
{
    calls++;
    came[number < NUMBERS ? number : 0]++;
    return number;
}

static uint8_t a_client(void)
{
    return (uint8_t)(one_in(40) ? drawn() : below(m.config.clients));
}

static uint64_t a_page(void)
{
    static const uint64_t others[] = {PAGES, 1048576, 1ull << 32, UINT64_MAX};
    return one_in(40) ? others[below(4)] : below(m.config.pages);
}

static size_t a_length(void)
{
    const size_t size = m.config.page_size, others[] = {0,     1,          size - 1, size + 1, 65536,
                                                        65537, SIZE_MAX, (size_t)1 << 63};
    return one_in(24) ? others[below(8)] : size;
}

static size_t a_number(size_t most)
{
    static const size_t others[] = {65536, SIZE_MAX, (size_t)1 << 63, SIZE_MAX - 15};
    return one_in(40) ? others[below(4)] : below(most + 1);
}

/* Returns a grant of a list, or one that may not be in it. */
static hz_grant a_grant(const grants *list)
{
    hz_grant grant = stale;
    if (list->count && !one_in(12))
        return list->out[below(list->count)];
    switch (below(4)) {
    case 0:
        return grant;
    case 1:
        grant = (hz_grant){.page = below(PAGES + 1), .serial = below(list->ever + 2), .client = (uint8_t)below(4)};
        return grant;
    default:
        if (list->count)
            grant = list->out[below(list->count)];
        *(one_in(2) ? &grant.page : &grant.serial) ^= 1ull << below(64);
        grant.client ^= (uint8_t)one_in(3);
        return grant;
    }
}

/* Returns memory of so many bytes, each of them ODD; at most a block. */
static uint8_t *odd_buffer(size_t len)
{
    len = len < BLOCK ? len : BLOCK;
    return memset(buffer_end - len, ODD, len);
}

static bool is_odd(const void *memory, size_t len)
{
    const uint8_t *bytes = memory;
    len = len < BLOCK ? len : BLOCK;
    for (size_t i = 0; i < len; i++)
        if (bytes[i] != ODD)
            return false;
    return true;
}

static void same_grant(const hz_grant *wanted, const hz_grant *value)
{
    SAME(wanted->page, value->page);
    SAME(wanted->serial, value->serial);
    SAME(wanted->client, value->client);
}

/* --- The calls --- */

static void try_fix(bool is_flush)
{
    how h = picked(3);
    uint8_t client = a_client();
    uint64_t page = a_page();
    size_t len = a_length();
    uint8_t *buffer = odd_buffer(len);
    memset(out, ODD, sizeof *out);
    uint16_t number = noted((is_flush ? hz_flush : hz_fix)(h.core, client, page, UNLESS(1, buffer), len,
                                                           UNLESS(2, out)));
    uint16_t first = early(h, h.null == 1 && len == 0);
    if (first) {
        SAME(first, number);
        SAME(true, is_odd(out, sizeof *out) && is_odd(buffer, len));
        return;
    }
    answer a = is_flush ? model_flush(client, page, len) : model_fix(client, page, len);
    SAME(a.number, number);
    same_grant(&a.out.grant, &out->grant);
    SAME(a.out.lsn, out->lsn);
    SAME(a.out.evicted, out->evicted);
    SAME(a.out.kind, out->kind);
    SAME(a.out.has_evicted, out->has_evicted);
    SAME(true, a.image ? !memcmp(buffer, a.image, len) : is_odd(buffer, len));
    kinds[a.out.kind]++;
}

static void model_read_end(const hz_grant *ticket, const uint8_t *image)
{
    model_page *page = &m.pages[ticket->page];
    memcpy(page->image, image, m.config.page_size);
    page->is_reading = false;
    page->is_here = true;
    page->lsn = 0;
    page->first_out = page->first = UINT64_MAX;
    page->pins = 1;
    refer(page, false);
    m.entries++;
    m.counted.faults++;
    stale = *ticket;
    take_back(&m.reads, ticket);
}

static void try_read_end(void)
{
    how h = picked(4);
    hz_grant ticket = *held = a_grant(&m.reads);
    size_t len = a_length();
    uint8_t *image = odd_buffer(len);
    for (size_t i = 0; i < len && i < BLOCK; i++)
        image[i] = (uint8_t)(m.entries + i);
    memset(pass, ODD, sizeof *pass);
    hz_grant *into = one_in(4) ? held : pass, before = *into;
    uint16_t number = noted(hz_read_end(h.core, UNLESS(1, held), UNLESS(2, image), len, UNLESS(3, into)));
    uint16_t wanted = early(h, h.null == 2 && len == 0);
    if (!wanted)
        wanted = len != m.config.page_size ? HZ_OUT_OF_PAGE : is_out(&m.reads, &ticket) ? 0 : HZ_UNKNOWN_TICKET;
    SAME(wanted, number);
    if (!wanted) {
        model_read_end(&ticket, image);
        before = give(&m.passes, &m.passes, ticket.client, ticket.page);
    }
    same_grant(&before, into);
}

static void try_read_failed(void)
{
    how h = picked(2);
    hz_grant ticket = *held = a_grant(&m.reads);
    bool is_wrong_page = one_in(2);
    uint16_t number = noted(hz_read_failed(h.core, UNLESS(1, held), is_wrong_page)), wanted = early(h, false);
    if (!wanted && !is_out(&m.reads, &ticket))
        wanted = HZ_UNKNOWN_TICKET;
    if (!wanted) {
        m.pages[ticket.page].is_reading = false;
        m.entries++;
        m.counted.failed++;
        stale = ticket;
        take_back(&m.reads, &ticket);
    }
    SAME(wanted, number);
}

/* Ends a write-out in the model, and returns is_still_dirty. */
static uint8_t model_write_end(const hz_grant *ticket, bool is_good)
{
    model_page *page = &m.pages[ticket->page];
    page->is_writing = false;
    if (is_good)
        page->is_unsaved = page->is_written_since;
    else
        page->first = least(page->first_out, page->first);
    page->first_out = UINT64_MAX;
    m.entries++;
    ++*(is_good ? &m.counted.writes : &m.counted.failed);
    stale = *ticket;
    take_back(&m.writes, ticket);
    return !is_good || page->is_unsaved;
}

static void try_write_end(void)
{
    how h = picked(3);
    hz_grant ticket = *held = a_grant(&m.writes);
    bool is_good = !one_in(4);
    *flag = ODD;
    uint16_t number = noted(hz_write_end(h.core, UNLESS(1, held), is_good, UNLESS(2, flag)));
    uint16_t wanted = early(h, false);
    uint8_t wanted_dirty = ODD;
    if (!wanted && !is_out(&m.writes, &ticket))
        wanted = HZ_UNKNOWN_TICKET;
    if (!wanted)
        wanted_dirty = model_write_end(&ticket, is_good);
    SAME(wanted, number);
    SAME(wanted_dirty, *flag);
}

static void try_unfix(void)
{
    how h = picked(2);
    hz_grant given_back = *held = a_grant(&m.passes);
    uint16_t number = noted(hz_unfix(h.core, UNLESS(1, held))), wanted = early(h, false);
    if (!wanted)
        wanted = is_out(&m.passes, &given_back) ? 0 : HZ_UNKNOWN_PASS;
    SAME(wanted, number);
    if (wanted)
        return;
    m.pages[given_back.page].pins--;
    m.entries++;
    stale = given_back;
    take_back(&m.passes, &given_back);
}

/* Returns the refusal of a read or a write of a part of a page, or 0. */
static uint16_t part_refused(const hz_grant *grant, size_t offset, size_t len)
{
    if (offset > m.config.page_size || len > m.config.page_size - offset)
        return HZ_OUT_OF_PAGE;
    if (room_left() < 1)
        return HZ_TRAIL_FULL;
    return is_out(&m.passes, grant) ? 0 : HZ_UNKNOWN_PASS;
}

static void try_read(void)
{
    how h = picked(3);
    hz_grant grant = *held = a_grant(&m.passes);
    size_t offset = a_number(m.config.page_size), len = a_number(m.config.page_size / 2);
    uint8_t *into = odd_buffer(len);
    uint16_t number = noted(hz_read(h.core, UNLESS(1, held), offset, UNLESS(2, into), len));
    uint16_t wanted = early(h, h.null == 2 && len == 0);
    if (!wanted)
        wanted = part_refused(&grant, offset, len);
    SAME(wanted, number);
    SAME(true, wanted ? is_odd(into, len) : !memcmp(into, m.pages[grant.page].image + offset, len));
    m.entries += !wanted;
}

static void try_page(void)
{
    how h = picked(3);
    hz_grant grant = *held = a_grant(&m.passes);
    memset(bytes_at, ODD, sizeof *bytes_at);
    uint16_t number = noted(hz_page(h.core, UNLESS(1, held), UNLESS(2, bytes_at))), wanted = early(h, false);
    if (!wanted)
        wanted = is_out(&m.passes, &grant) ? 0 : HZ_UNKNOWN_PASS;
    SAME(wanted, number);
    if (wanted) {
        SAME(true, is_odd(bytes_at, sizeof *bytes_at));
        return;
    }
    const uint8_t **lent = &m.passes.lent[place_of(&m.passes, &grant)];
    SAME(true, !*lent || *lent == *bytes_at);
    SAME(0, (uintptr_t)*bytes_at % 16);
    *lent = *bytes_at;
}

/* Checks that each lent page has the model's bytes. Returns the number of lent pages. */
static unsigned look_at_what_is_lent(void)
{
    unsigned lent = 0;
    for (unsigned place = 0; place < m.passes.count; place++)
        if (m.passes.lent[place]) {
            const uint8_t *image = m.pages[m.passes.out[place].page].image;
            SAME(true, !memcmp(m.passes.lent[place], image, m.config.page_size));
            lent++;
        }
    return lent;
}

/* Counts a write to a page that is lent. */
static void note_write(const hz_grant *by)
{
    for (unsigned place = 0; place < m.passes.count; place++)
        if (m.passes.lent[place] && m.passes.out[place].page == by->page)
            meanwhile[is_same(&m.passes.out[place], by) ? WRITE : OTHERS_WRITE]++;
}

static void try_write(void)
{
    how h = picked(3);
    hz_grant grant = *held = a_grant(&m.passes);
    size_t offset = a_number(m.config.page_size), len = a_number(m.config.page_size / 2);
    uint8_t *bytes = odd_buffer(len);
    uint64_t lsn = one_in(100) ? UINT64_MAX - below(2) : m.durable + below(4);
    for (size_t i = 0; i < len && i < BLOCK; i++)
        bytes[i] = (uint8_t)(m.entries * 3 + i);
    uint16_t number = noted(hz_write(h.core, UNLESS(1, held), offset, UNLESS(2, bytes), len, lsn));
    uint16_t wanted = early(h, h.null == 2 && len == 0);
    if (!wanted)
        wanted = part_refused(&grant, offset, len);
    SAME(wanted, number);
    if (wanted)
        return;
    model_page *page = &m.pages[grant.page];
    memcpy(page->image + offset, bytes, len);
    page->is_unsaved = page->is_written_since = true;
    page->lsn = lsn > page->lsn ? lsn : page->lsn;
    page->first = least(page->first, lsn);
    m.entries++;
    if (len > 0)
        note_write(&grant);
}

/* Returns the refusal of a client's call that needs room for one entry, or 0. */
static uint16_t step_refused(how h, uint8_t client)
{
    uint16_t first = early(h, false);
    if (first)
        return first;
    return client >= m.config.clients ? HZ_BAD_CLIENT : room_left() < 1 ? HZ_TRAIL_FULL : 0;
}

static void try_tick(void)
{
    const uint64_t end = 1ull << 62;
    how h = picked(1);
    uint8_t client = a_client();
    uint64_t n = one_in(50) ? end - m.clock + 1 + below(9) : below(4);
    if (one_in(5000))
        n = end - m.clock;
    uint16_t wanted = step_refused(h, client), number = noted(hz_tick(h.core, client, n));
    if (!wanted && n > end - m.clock)
        wanted = HZ_CLOCK_FULL;
    SAME(wanted, number);
    if (wanted)
        return;
    m.clock += n;
    m.entries++;
}

static void try_mark(void)
{
    how h = picked(1);
    uint8_t client = a_client();
    uint64_t lsn = one_in(9) ? below(m.durable + 1) : m.durable + below(3);
    uint16_t wanted = step_refused(h, client), number = noted(hz_mark(h.core, client, lsn));
    SAME(wanted, number);
    if (wanted)
        return;
    m.durable = lsn > m.durable ? lsn : m.durable;
    m.entries++;
}

static void try_purge(void)
{
    how h = picked(2);
    uint8_t client = a_client();
    uint64_t forgotten = 0;
    *count = ODD;
    uint16_t wanted = step_refused(h, client), number = noted(hz_purge(h.core, client, UNLESS(1, count)));
    SAME(wanted, number);
    for (unsigned i = 0; i < PAGES && !wanted; i++)
        if (is_old(&m.pages[i])) {
            m.pages[i].bursts = 0;
            forgotten++;
        }
    SAME(wanted ? ODD : forgotten, *count);
    m.entries += !wanted;
}

static void try_discard(void)
{
    how h = picked(2);
    uint8_t client = a_client(), was_here = ODD;
    uint64_t page = a_page();
    *flag = ODD;
    uint16_t number = noted(hz_discard(h.core, client, page, UNLESS(1, flag))), wanted = early(h, false);
    if (!wanted)
        wanted = misfit(client, page, m.config.page_size, 1);
    if (!wanted)
        wanted = model_discard(client, page, &was_here);
    SAME(wanted, number);
    SAME(was_here, *flag);
}

static void try_page_lsn(void)
{
    how h = picked(3);
    hz_grant grant = *held = a_grant(&m.passes);
    *count = ODD;
    uint16_t number = noted(hz_page_lsn(h.core, UNLESS(1, held), UNLESS(2, count))), wanted = early(h, false);
    if (!wanted)
        wanted = is_out(&m.passes, &grant) ? 0 : HZ_UNKNOWN_PASS;
    SAME(wanted, number);
    SAME(wanted ? ODD : m.pages[grant.page].lsn, *count);
}

static void same_unsaved(const hz_unsaved *wanted)
{
    SAME(wanted->page, unsaved->page);
    SAME(wanted->lsn, unsaved->lsn);
    SAME(wanted->first_lsn, unsaved->first_lsn);
    SAME(wanted->has_page, unsaved->has_page);
}

static void try_next_unsaved(void)
{
    how h = picked(2);
    uint64_t from = a_page();
    memset(unsaved, ODD, sizeof *unsaved);
    uint16_t number = noted(hz_next_unsaved(h.core, from, UNLESS(1, unsaved))), wanted = early(h, false);
    SAME(wanted, number);
    hz_unsaved next = model_next_unsaved(from);
    if (wanted)
        SAME(true, is_odd(unsaved, sizeof *unsaved));
    else
        same_unsaved(&next);
}

static void try_victim(void)
{
    how h = picked(3);
    *count = *flag = ODD;
    uint16_t number = noted(hz_victim(h.core, UNLESS(1, count), UNLESS(2, flag))), wanted = early(h, false);
    unsigned next = model_next_victim();
    SAME(wanted, number);
    SAME(wanted ? ODD : next < PAGES, *flag);
    SAME(wanted ? ODD : next < PAGES ? next : 0, *count);
}

static void try_redo_from(void)
{
    how h = picked(3);
    *count = *flag = ODD;
    uint16_t number = noted(hz_redo_from(h.core, UNLESS(1, count), UNLESS(2, flag))), wanted = early(h, false);
    bool has_lsn = model_next_unsaved(0).has_page;
    SAME(wanted, number);
    SAME(wanted ? ODD : has_lsn, *flag);
    SAME(wanted ? ODD : has_lsn ? model_redo_from() : 0, *count);
}

static void try_stats(void)
{
    how h = picked(2);
    size_t size = below(8) ? sizeof *stats : below(sizeof *stats + 1);
    memset(stats, ODD, sizeof *stats);
    uint16_t number = noted(hz_stats_of(h.core, UNLESS(1, stats), size)), wanted = early(h, false);
    hz_stats counts = model_stats();
    SAME(wanted, number);
    size = wanted ? 0 : size;
    SAME(0, memcmp(stats, &counts, size));
    SAME(true, is_odd((const uint8_t *)stats + size, sizeof *stats - size));
}

static void try_is_resident(void)
{
    how h = picked(2);
    uint64_t page = a_page();
    *flag = ODD;
    uint16_t number = noted(hz_is_resident(h.core, page, UNLESS(1, flag))), wanted = early(h, false);
    if (!wanted && page >= m.config.pages)
        wanted = HZ_OUT_OF_PAGE;
    SAME(wanted, number);
    SAME(wanted ? ODD : m.pages[page].is_here, *flag);
}

/* Checks all that the core tells of its pages without a pass. */
static void look_at_all_that_is_told(void)
{
    hz_stats counts = model_stats();
    SAME(HZ_DONE, hz_stats_of(live, stats, sizeof *stats));
    SAME(0, memcmp(stats, &counts, sizeof counts));
    unsigned gone = model_next_victim();
    SAME(HZ_DONE, hz_victim(live, count, flag));
    SAME(gone < PAGES, *flag);
    SAME(gone < PAGES ? gone : 0, *count);
    hz_unsaved next = model_next_unsaved(0);
    SAME(HZ_DONE, hz_redo_from(live, count, flag));
    SAME(next.has_page, *flag);
    SAME(next.has_page ? model_redo_from() : 0, *count);
    SAME(HZ_DONE, hz_next_unsaved(live, 0, unsaved));
    for (same_unsaved(&next); next.has_page; same_unsaved(&next)) {
        SAME(HZ_DONE, hz_next_unsaved(live, next.page + 1, unsaved));
        next = model_next_unsaved(next.page + 1);
    }
    for (uint64_t page = 0; page < m.config.pages; page++) {
        SAME(HZ_DONE, hz_is_resident(live, page, flag));
        SAME(m.pages[page].is_here, *flag);
    }
}

/* Checks that the text of a number is written as far as there is room, and no further. */
static void try_text(void)
{
    uint8_t whole[128];
    uint16_t number = (uint16_t)below(60);
    size_t len = a_number(80), length = hz_text(number, whole, sizeof whole);
    uint8_t *into = odd_buffer(len);
    len = len < BLOCK ? len : BLOCK;
    size_t cut = len < length ? len : length;
    SAME(length, hz_text(number, NULL, len));
    SAME(length, hz_text(number, into, len));
    SAME(true, length > 0 && !memcmp(into, whole, cut) && is_odd(into + cut, len - cut));
    calls += 3;
}

/* --- Cores --- */

/* Checks that a core is made only where there is none, by numbers within their limits. */
static void try_new(void)
{
    how h = {.core = one_in(3) ? live : none, .null = one_in(16) ? (unsigned)below(2) : NO_NULL};
    static const hz_config good = {.pages = 1, .page_size = 16, .frames = 1, .room = 1, .k = 1, .clients = 1};
    *config = good;
    uint16_t wanted = h.null != NO_NULL ? HZ_NULL : h.core == live ? HZ_HAS_CORE : HZ_BAD_SETTINGS;
    switch (below(6)) {
    case 0:
        config->pages = one_in(2) ? 0 : 1048577 + drawn();
        wanted = wanted == HZ_BAD_SETTINGS ? HZ_BAD_GEOMETRY : wanted;
        break;
    case 1:
        config->page_size = one_in(2) ? below(PAGES) * 16 + 1 + below(15) : 65552;
        wanted = wanted == HZ_BAD_SETTINGS ? HZ_BAD_GEOMETRY : wanted;
        break;
    case 2:
        config->frames = one_in(2) ? 0 : 65537 + drawn();
        break;
    case 3:
        config->k = one_in(2) ? 0 : 17;
        break;
    case 4:
        config->clients = one_in(2) ? 0 : 65;
        break;
    default:
        config->room = one_in(2) ? 0 : SIZE_MAX - below(9);
        break;
    }
    SAME(wanted, noted(hz_core_new(UNLESS(0, config), UNLESS(1, h.core))));
    SAME(false, none->is_live);
}

/* Makes a new core, and a new model of it. */
static void begin(void)
{
    memset(&m, 0, sizeof m);
    m.config = (hz_config){
        .pages = 1 + below(PAGES),
        .page_size = 16 * (1 + below(SIZE / 16)),
        .frames = 1 + below(FRAMES),
        .room = one_in(4) ? 1 + below(3000) : (size_t)1 << 61,
        .correlated = one_in(2) ? below(4) : 0,
        .retained = below(16),
        .k = (uint8_t)(1 + below(MOST_K)),
        .clients = (uint8_t)(1 + below(CLIENTS)),
    };
    m.clock = 1;
    *config = m.config;
    SAME(0, noted(hz_core_new(config, live)));
}

/* Frees the core, with all that is out, and checks that the handle then has none. */
static void end(void)
{
    SAME(HZ_NO_CORE, noted(hz_core_free(none)));
    SAME(HZ_NULL, noted(hz_core_free(NULL)));
    SAME(0, noted(hz_core_free(live)));
    SAME(HZ_NO_CORE, noted(hz_core_free(live)));
    *held = stale;
    SAME(HZ_NO_CORE, noted(hz_unfix(live, held)));
    SAME(false, live->is_live);
}

/* Returns true if one of these is to be ended or used: mostly where there is one. */
static bool is_worth(const grants *list)
{
    return list->count > 0 || one_in(8);
}

typedef void trial(void);

/* Returns one of the calls that change nothing. */
static trial *a_teller(void)
{
    static trial *const tellers[] = {try_page_lsn,  try_next_unsaved, try_victim,
                                     try_redo_from, try_stats,        try_is_resident};
    return tellers[below(sizeof tellers / sizeof *tellers)];
}

static void call(void)
{
    uint64_t which = below(100);
    if (which < 20 && is_worth(&m.passes))
        try_unfix();
    else if (which < 34 && m.passes.count < OUT && is_worth(&m.reads))
        try_read_end();
    else if (which < 37 && is_worth(&m.reads))
        try_read_failed();
    else if (which < 44 && is_worth(&m.writes))
        try_write_end();
    else if (which < 48 && is_worth(&m.passes))
        try_read();
    else if (which < 53 && is_worth(&m.passes))
        try_page();
    else if (which < 59 && is_worth(&m.passes))
        try_write();
    else if (which >= 59 && which < 66)
        try_tick();
    else if (which >= 66 && which < 70)
        try_mark();
    else if (which >= 70 && which < 75)
        try_fix(true);
    else if (which >= 75 && which < 77)
        (one_in(2) ? try_purge : try_discard)();
    else if (which >= 77 && which < 80)
        (which < 78 ? a_teller() : which < 79 ? try_text : try_new)();
    else if (m.passes.count < OUT - 1)
        try_fix(false);
    else
        try_unfix();
}

/* Makes a call, checks all that is lent, and sometimes all that the core tells. */
static void step(void)
{
    hz_stats before = m.counted;
    call();
    if (calls % 16 == 0)
        look_at_all_that_is_told();
    if (look_at_what_is_lent() > 0) {
        meanwhile[LOAD] += m.counted.faults - before.faults;
        meanwhile[EVICTION] += m.counted.evictions - before.evictions;
        meanwhile[WRITE_OUT] += m.counted.writes - before.writes;
    }
}

static void found_wrong(int line, const char *what, unsigned long long wanted, unsigned long long found)
{
    fprintf(stderr, "fuzz.c:%d: after %lu calls: %s is %llu, and not %llu\n", line, (unsigned long)calls, what, found,
            wanted);
    abort();
}

#ifdef LIBFUZZER
int LLVMFuzzerTestOneInput(const uint8_t *bytes, size_t len);

int LLVMFuzzerTestOneInput(const uint8_t *bytes, size_t len)
{
    if (!buffer_end)
        prepare();
    given = bytes;
    given_left = len;
    is_given = true;
    begin();
    while (given_left > 0)
        step();
    end();
    return 0;
}
#else

/* Checks that each number came, and each kind, except for 22, which needs memory that is full, and for 17, 18 and 19,
 * which are answers of hz_file.h; and that each call that must leave lent pages in place came while some were lent. */
static void look_whether_all_came(void)
{
    static const uint8_t numbers[] = {0, 1, 2, 11, 12, 13, 14, 16, 20, 21, 25, 41, 45, 50, 51, 52};
    for (size_t i = 0; i < sizeof numbers; i++) {
        SAME(true, came[numbers[i]] > 0);
        printf("%u: %lu%s", numbers[i], (unsigned long)came[numbers[i]], i + 1 < sizeof numbers ? ", " : "\n");
    }
    for (unsigned kind = HZ_HIT; kind <= HZ_ABSENT; kind++)
        SAME(true, kinds[kind] > 0);
    SAME(0, came[HZ_OUT_OF_MEMORY]);
    for (unsigned what = 0; what < MEANWHILES; what++)
        SAME(true, meanwhile[what] > 0);
    printf("while pages were lent: loads %lu, evictions %lu, write-outs %lu, writes by the pass %lu, by others %lu\n",
           (unsigned long)meanwhile[LOAD], (unsigned long)meanwhile[EVICTION], (unsigned long)meanwhile[WRITE_OUT],
           (unsigned long)meanwhile[WRITE], (unsigned long)meanwhile[OTHERS_WRITE]);
}

int main(int words, char **word)
{
    uint64_t wanted = words > 1 ? strtoull(word[1], NULL, 10) : 1000000, cores = 0;
    state = words > 2 ? strtoull(word[2], NULL, 10) : 1;
    prepare();
    for (; calls < wanted; cores++) {
        begin();
        for (uint64_t left = below(4000); left > 0 && calls < wanted; left--)
            step();
        end();
    }
    printf("%lu calls on %lu cores, seed %s; of each number ", (unsigned long)calls, (unsigned long)cores,
           words > 2 ? word[2] : "1");
    look_whether_all_came();
    return 0;
}
#endif
