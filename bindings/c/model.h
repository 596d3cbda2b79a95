/* A simple model of the pool, for fuzz.c: the answer and the new state of each call, written from the header and the
 * definition of LRU-K only. It keeps each page's bursts of references, and searches all pages for a victim.
 */
#include "hojzmated.h"
#include <string.h>

enum { PAGES = 24, SIZE = 64, FRAMES = 6, CLIENTS = 3, MOST_K = 4, OUT = 40 };

/* References of a page that count as one: the times of the first and the last, and whether the first was a hit. */
typedef struct burst {
    uint64_t first, last;
    bool is_hit;
} burst;

typedef struct model_page {
    bool is_here, is_reading, is_writing, is_unsaved, is_written_since;
    unsigned pins, bursts;
    uint64_t lsn;                /* the page LSN */
    uint64_t first_out, first;   /* the least LSN of the writes in the image on its way out, and of those in no image */
    burst newest[MOST_K]; /* the newest bursts, the newest one first */
    uint8_t image[SIZE];
} model_page;

typedef struct grants {
    hz_grant out[OUT];
    const uint8_t *lent[OUT]; /* of a pass: the place that hz_page told, or null before that */
    unsigned count;
    uint64_t ever; /* the number given, which is the next serial number */
} grants;

static struct {
    hz_config config;
    model_page pages[PAGES];
    grants passes, reads, writes; /* `reads.ever` counts the tickets of both kinds */
    uint64_t clock, durable, entries;
    hz_stats counted; /* without the pages of each kind */
} m;

static bool is_same(const hz_grant *a, const hz_grant *b)
{
    return a->page == b->page && a->serial == b->serial && a->client == b->client;
}

/* Returns the index of a grant in a list, or the length of the list. */
static unsigned place_of(const grants *list, const hz_grant *grant)
{
    unsigned place = 0;
    while (place < list->count && !is_same(&list->out[place], grant))
        place++;
    return place;
}

static bool is_out(const grants *list, const hz_grant *grant)
{
    return place_of(list, grant) < list->count;
}

static hz_grant give(grants *list, grants *counter, uint8_t client, uint64_t page)
{
    hz_grant grant = {.page = page, .serial = counter->ever++, .client = client};
    list->lent[list->count] = NULL;
    list->out[list->count++] = grant;
    return grant;
}

static void take_back(grants *list, const hz_grant *grant)
{
    unsigned place = place_of(list, grant);
    list->count--;
    list->out[place] = list->out[list->count];
    list->lent[place] = list->lent[list->count];
}

static uint64_t room_left(void)
{
    uint64_t owed = m.entries + m.passes.count + m.writes.count + 2 * m.reads.count;
    return owed < m.config.room ? m.config.room - owed : 0;
}

static uint64_t last_of(const model_page *page)
{
    return page->bursts ? page->newest[0].last : 0;
}

static void refer(model_page *page, bool is_hit)
{
    if (page->bursts && is_hit && m.clock - last_of(page) <= m.config.correlated) {
        page->newest[0].last = m.clock;
        return;
    }
    memmove(page->newest + 1, page->newest, (MOST_K - 1) * sizeof(burst));
    page->newest[0] = (burst){.first = m.clock, .last = m.clock, .is_hit = is_hit};
    if (page->bursts < MOST_K)
        page->bursts++;
}

/* The K-th newest reference, put later by the bursts between that a hit followed; 0 where there are fewer than K. */
static uint64_t stamp_of(const model_page *page)
{
    unsigned k = m.config.k;
    if (page->bursts < k)
        return 0;
    uint64_t stamp = page->newest[k - 1].first;
    for (unsigned place = 1; place < k; place++)
        if (page->newest[place - 1].is_hit)
            stamp += page->newest[place].last - page->newest[place].first;
    return stamp;
}

/* Returns the victim of LRU-K, or PAGES: least stamp, then least last reference, then least number. */
static unsigned victim(void)
{
    unsigned best = PAGES;
    for (unsigned i = 0; i < PAGES; i++) {
        const model_page *page = &m.pages[i], *first = &m.pages[best % PAGES];
        if (!page->is_here || page->pins || page->is_writing || m.clock - last_of(page) <= m.config.correlated)
            continue;
        if (best == PAGES || stamp_of(page) < stamp_of(first) ||
            (stamp_of(page) == stamp_of(first) && last_of(page) < last_of(first)))
            best = i;
    }
    return best;
}

static bool has_free_frame(void)
{
    unsigned taken = m.reads.count;
    for (unsigned i = 0; i < PAGES; i++)
        taken += m.pages[i].is_here;
    return taken < m.config.frames;
}

/* --- The calls of the model --- */

/* The answer of a fix or a flush, its number, and the image to write out or null. */
typedef struct answer {
    uint16_t number;
    hz_fixed out;
    const uint8_t *image;
} answer;

static answer refused(uint16_t number, uint8_t client, uint64_t page, uint64_t lsn)
{
    m.counted.refused += number == HZ_NO_VICTIM || number == HZ_NEED_LOG || number == HZ_BUSY || number == HZ_PAGE_PINNED;
    return (answer){.number = number, .out = {.grant = {.page = page, .client = client}, .lsn = lsn}};
}

static answer model_write_out(uint8_t client, uint64_t asked, uint64_t number)
{
    model_page *page = &m.pages[number];
    m.entries++;
    if (m.durable < page->lsn)
        return refused(HZ_NEED_LOG, client, asked, page->lsn);
    page->is_writing = true;
    page->is_written_since = false;
    page->first_out = page->first;
    page->first = UINT64_MAX;
    hz_grant ticket = give(&m.writes, &m.reads, client, number);
    return (answer){.out = {.grant = ticket, .lsn = page->lsn, .kind = HZ_WRITE_FIRST}, .image = page->image};
}

static answer model_load(uint8_t client, uint64_t number, unsigned gone)
{
    answer a = {.out = {.kind = HZ_LOAD}};
    m.entries++;
    if (gone < PAGES) {
        m.pages[gone].is_here = false;
        m.counted.evictions++;
        a.out.evicted = gone;
        a.out.has_evicted = 1;
    }
    m.pages[number].is_reading = true;
    a.out.grant = give(&m.reads, &m.reads, client, number);
    return a;
}

/* Returns the refusal of a fix or a flush whatever the state of the page, or 0. */
static uint16_t misfit(uint8_t client, uint64_t page, size_t len, uint64_t room)
{
    if (client >= m.config.clients)
        return HZ_BAD_CLIENT;
    if (page >= m.config.pages || len != m.config.page_size)
        return HZ_OUT_OF_PAGE;
    return room_left() < room ? HZ_TRAIL_FULL : 0;
}

static answer model_fix(uint8_t client, uint64_t number, size_t len)
{
    uint16_t why = misfit(client, number, len, 3);
    if (why)
        return refused(why, client, number, 0);
    model_page *page = &m.pages[number];
    if (page->is_reading) {
        m.entries++;
        return refused(HZ_BUSY, client, number, 0);
    }
    if (page->is_here) {
        m.entries++;
        m.counted.hits++;
        refer(page, true);
        page->pins++;
        return (answer){.out = {.grant = give(&m.passes, &m.passes, client, number), .kind = HZ_HIT}};
    }
    if (has_free_frame())
        return model_load(client, number, PAGES);
    unsigned gone = victim();
    if (gone == PAGES) {
        m.entries++;
        return refused(HZ_NO_VICTIM, client, number, 0);
    }
    return m.pages[gone].is_unsaved ? model_write_out(client, number, gone) : model_load(client, number, gone);
}

static answer model_flush(uint8_t client, uint64_t number, size_t len)
{
    uint16_t why = misfit(client, number, len, 2);
    if (why)
        return refused(why, client, number, 0);
    model_page *page = &m.pages[number];
    if (page->is_here && !page->is_writing && page->is_unsaved)
        return model_write_out(client, number, number);
    m.entries++;
    answer a = refused(page->is_reading || page->is_writing ? HZ_BUSY : 0, client, number, 0);
    if (a.number == 0)
        a.out.kind = page->is_here ? HZ_CLEAN : HZ_ABSENT;
    return a;
}

/* Returns the number of a discard, and puts into the flag whether the page was in a frame. */
static uint16_t model_discard(uint8_t client, uint64_t number, uint8_t *was_here)
{
    model_page *page = &m.pages[number];
    m.entries++;
    if (page->is_reading || page->is_writing)
        return refused(HZ_BUSY, client, number, 0).number;
    if (page->pins)
        return refused(HZ_PAGE_PINNED, client, number, 0).number;
    *was_here = page->is_here;
    m.counted.discards += page->is_here;
    page->is_here = page->is_unsaved = false;
    page->bursts = 0;
    return 0;
}

/* Returns true if a purge forgets the page. */
static bool is_old(const model_page *page)
{
    return page->bursts && !page->is_here && !page->is_reading && m.config.retained < m.clock - last_of(page);
}

static uint64_t least(uint64_t one, uint64_t other)
{
    return one < other ? one : other;
}

/* Returns the first unsaved page from this number on. */
static hz_unsaved model_next_unsaved(uint64_t from)
{
    for (uint64_t i = from; i < PAGES; i++) {
        const model_page *page = &m.pages[i];
        if (page->is_unsaved)
            return (hz_unsaved){.page = i, .lsn = page->lsn, .first_lsn = least(page->first_out, page->first),
                                .has_page = 1};
    }
    return (hz_unsaved){.has_page = 0};
}

/* Returns the page whose frame a fix takes for one that is away, or PAGES. */
static unsigned model_next_victim(void)
{
    return has_free_frame() ? PAGES : victim();
}

/* Returns the least LSN of all unsaved writes, or UINT64_MAX where all is saved. */
static uint64_t model_redo_from(void)
{
    uint64_t from = UINT64_MAX;
    for (hz_unsaved next = model_next_unsaved(0); next.has_page; next = model_next_unsaved(next.page + 1))
        from = least(from, next.first_lsn);
    return from;
}

static hz_stats model_stats(void)
{
    hz_stats stats = m.counted;
    for (unsigned i = 0; i < PAGES; i++) {
        const model_page *page = &m.pages[i];
        stats.resident += page->is_here;
        stats.pinned += page->pins > 0;
        stats.unsaved += page->is_unsaved;
        stats.loading += page->is_reading;
        stats.writing += page->is_writing;
    }
    return stats;
}
