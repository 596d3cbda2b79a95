/* Uses a second that empty locks give on the lines of memory that a hit touches, as a measure for a pool in parts.
 *
 *     peers/c/locks PAGES PARTS SECTIONS SECONDS [THREADS]
 *
 * There are PAGES pages of 1,024 bytes, and a line of 64 bytes for the history and for the frame of each. Page p is in
 * part p mod PARTS, and each part has a lock on a line of its own. A use takes the lock of its page's part SECTIONS
 * times: under the first it counts in the lines of history and frame, and under a second it looks at 16 bytes of the
 * page. The pages come at random, as in bench.c.
 *
 * Printed: uses a second of the wall clock, over all threads.
 */
#include "threads.h"

enum { PAGE_WORDS = 128, LINE_WORDS = 8, PLACE = 8 };

struct part {
    _Alignas(128) pthread_mutex_t lock;
};

static struct part *parts;
static uint64_t (*images)[PAGE_WORDS], (*histories)[LINE_WORDS], (*frames)[LINE_WORDS];
static uint64_t part_count, sections;

static uint64_t operate(uint64_t page)
{
    pthread_mutex_t *lock = &parts[(uint32_t)page % (uint32_t)part_count].lock;
    uint64_t found = 0;
    for (uint64_t section = 0; section < sections; section++) {
        pthread_mutex_lock(lock);
        if (section == 0)
            histories[page][0]++, frames[page][0]++;
        else
            found += images[page][PLACE] + images[page][PLACE + 1];
        pthread_mutex_unlock(lock);
    }
    return found;
}

static void *lines(size_t count, size_t size)
{
    void *made = aligned_alloc(128, (count * size + 127) / 128 * 128);
    if (!made)
        fail("memory");
    for (size_t at = 0; at < count * size; at++)
        ((volatile uint8_t *)made)[at] = 0;
    return made;
}

int main(int count, char **words)
{
    if (count < 5 || count > 6)
        fail("usage: locks PAGES PARTS SECTIONS SECONDS [THREADS]");
    uint64_t pages = strtoull(words[1], NULL, 10);
    unsigned threads = count == 6 ? (unsigned)strtoul(words[5], NULL, 10) : 1;
    part_count = strtoull(words[2], NULL, 10), sections = strtoull(words[3], NULL, 10);
    if (!pages || pages > UINT32_MAX || !part_count || part_count > 64 || !threads || threads > MOST_THREADS)
        fail("numbers");
    parts = lines(part_count, sizeof *parts);
    images = lines(pages, sizeof *images);
    histories = lines(pages, sizeof *histories);
    frames = lines(pages, sizeof *frames);
    for (uint64_t part = 0; part < part_count; part++)
        pthread_mutex_init(&parts[part].lock, NULL);
    settle(8 * pages, pages);
    double rate = rate_of(threads, pages, strtod(words[4], NULL));
    uint64_t done = 0, counted = 0;
    for (unsigned i = 0; i < threads; i++)
        done += workers[i].done;
    for (uint64_t page = 0; page < pages; page++)
        counted += histories[page][0];
    if (counted != done + 8 * pages)
        fail("a use is lost");
    printf("%.0f\n", rate);
    return 0;
}
