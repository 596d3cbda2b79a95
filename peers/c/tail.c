/* How long one hz_fix takes, at the longest too: with one load in HITS hits, and after a burst of hits.
 *
 *     peers/c/tail FRAMES HITS SECONDS
 *     peers/c/tail FRAMES burst ROUNDS
 *
 * A page has 128 bytes, and there are twice as many pages as frames. The pages come at random, and the clock moves by
 * one at each fix. In the first form HITS fixes of resident pages come between two loads, each of which has a page
 * leave. In the second each frame's page is hit once, and then a page is loaded: only that fix is timed. Before, eight
 * fixes for each frame come in the same way. The time is that of hz_fix alone, with some 20 ns for the clock itself.
 *
 * It measures a pool whose correlated period is an eighth of the frames, as Config::new in the Rust crate has it, and
 * one with no period; or with $PERIOD alone. K is 2, or what $K says. Where $CLOCK is processor, the time is that of the
 * processor, so without what others had of it meanwhile; its clock takes some 500 ns.
 *
 * Printed for each: K, the period, how many fixes were timed, and their median, 99.9 in 100 and greatest, in
 * nanoseconds; in the first form also operations a second, of fix and unfix.
 */
#include <stdbool.h>
#include <stdint.h>
#include <stdio.h>
#include <stdlib.h>
#include <string.h>
#include <time.h>

#include "hojzmated.h"

enum { SIZE = 128, MOST = 1 << 24 };

static hz_core core;
static uint8_t image[SIZE];
static unsigned pages, frames, resident_count, k;
static unsigned *residents; /* the resident pages */
static unsigned *place_of;  /* one more than the place of a page among them, or 0 */
static uint32_t *times;
static size_t timed;
static uint64_t state = 1;
static clockid_t clock_of_fixes = CLOCK_MONOTONIC;

static void fail(const char *what)
{
    fprintf(stderr, "tail: %s\n", what);
    exit(1);
}

static uint64_t now(clockid_t clock)
{
    struct timespec t;
    clock_gettime(clock, &t);
    return (uint64_t)t.tv_sec * 1000000000u + (uint64_t)t.tv_nsec;
}

static unsigned draw(unsigned below)
{
    state = state * 6364136223846793005u + 1442695040888963407u;
    return (unsigned)((state >> 33) % below);
}

/* Fixes a page and gives it back. The fix is timed where that is asked for. */
static void fix(unsigned page, bool is_timed)
{
    hz_fixed fixed;
    if (hz_tick(&core, 0, 1))
        fail("tick");
    uint64_t begin = is_timed ? now(clock_of_fixes) : 0;
    uint16_t refused = hz_fix(&core, 0, page, image, SIZE, &fixed);
    uint64_t took = is_timed ? now(clock_of_fixes) - begin : 0;
    if (refused)
        fail("fix");
    if (is_timed && timed < MOST)
        times[timed++] = (uint32_t)(took < UINT32_MAX ? took : UINT32_MAX);
    if (fixed.kind == HZ_LOAD) {
        if (hz_read_end(&core, &fixed.grant, image, SIZE, &fixed.grant))
            fail("read_end");
        unsigned place = resident_count;
        if (fixed.has_evicted) {
            place = place_of[fixed.evicted] - 1;
            place_of[fixed.evicted] = 0;
        } else {
            resident_count++;
        }
        residents[place] = page;
        place_of[page] = place + 1;
    }
    if (hz_unfix(&core, &fixed.grant))
        fail("unfix");
}

static unsigned absent(void)
{
    unsigned page = draw(pages);
    while (place_of[page])
        page = draw(pages);
    return page;
}

static int by_time(const void *a, const void *b)
{
    uint32_t x = *(const uint32_t *)a, y = *(const uint32_t *)b;
    return (x > y) - (x < y);
}

static void burst(unsigned round)
{
    for (unsigned at = 0; at < frames; at++)
        fix(residents[(at * 40503u + round) % frames], false);
    fix(absent(), true);
}

static void mix(unsigned hits)
{
    for (unsigned i = 0; i < hits; i++)
        fix(residents[draw(frames)], true);
    fix(absent(), true);
}

/* Makes a pool with a page in each frame. */
static void start(uint64_t period)
{
    hz_config config = {.pages = pages, .page_size = SIZE, .frames = frames, .room = (size_t)1 << 61,
                        .correlated = period, .retained = (uint64_t)1 << 62, .k = (uint8_t)k, .clients = 1};
    if (hz_core_new(&config, &core))
        fail("the pool");
    memset(place_of, 0, pages * sizeof *place_of);
    resident_count = 0;
    for (unsigned page = 0; page < frames; page++)
        fix(page, false);
}

/* Measures a pool with this period in one of the two forms, and prints what came of it. */
static void measure(uint64_t period, const char *form, double much)
{
    bool is_burst = !strcmp(form, "burst");
    unsigned hits = is_burst ? 0 : (unsigned)atoi(form);
    uint64_t operations = 0;
    start(period);
    for (uint64_t fixes = 0; fixes < 8 * (uint64_t)frames; fixes += is_burst ? frames : hits + 1)
        is_burst ? burst((unsigned)fixes) : mix(hits);
    timed = 0;
    uint64_t begin = now(CLOCK_MONOTONIC);
    for (int round = is_burst ? (int)much : 0; round > 0; round--)
        burst((unsigned)round);
    for (; !is_burst && (double)(now(CLOCK_MONOTONIC) - begin) < much * 1e9; operations += hits + 1)
        mix(hits);
    double took = (double)(now(CLOCK_MONOTONIC) - begin) * 1e-9;
    if (timed == 0)
        fail("nothing was timed");
    qsort(times, timed, sizeof *times, by_time);
    printf("K %u, period %lu: %zu fixes, median %u ns, 99.9 in 100 %u ns, greatest %u ns", k, (unsigned long)period,
           timed, times[timed / 2], times[timed - 1 - timed / 1000], times[timed - 1]);
    if (operations)
        printf(", %.0f operations a second", (double)operations / took);
    printf("\n");
    if (hz_core_free(&core))
        fail("the pool's end");
}

int main(int argc, char **argv)
{
    const char *period = getenv("PERIOD"), *wanted = getenv("K"), *clock = getenv("CLOCK");
    frames = argc == 4 ? (unsigned)atoi(argv[1]) : 0;
    if (frames < 1 || frames > 65536)
        fail("FRAMES HITS SECONDS, or FRAMES burst ROUNDS");
    if (clock && !strcmp(clock, "processor"))
        clock_of_fixes = CLOCK_THREAD_CPUTIME_ID;
    pages = 2 * frames, k = wanted ? (unsigned)atoi(wanted) : 2;
    residents = calloc(frames, sizeof *residents);
    place_of = calloc(pages, sizeof *place_of);
    times = malloc(MOST * sizeof *times);
    if (!residents || !place_of || !times)
        fail("the lists");
    memset(times, 0, MOST * sizeof *times);
    if (period) {
        measure(strtoull(period, NULL, 10), argv[2], atof(argv[3]));
        return 0;
    }
    measure(frames / 8, argv[2], atof(argv[3]));
    measure(0, argv[2], atof(argv[3]));
    return 0;
}
