/* What a fix that evicts costs in a pool with this correlated period.
 *
 *     peers/c/periods KIND FRAMES PERIOD K SECONDS
 *
 * There are four times as many pages as frames, of 128 bytes, and no device. One thread fixes a page and gives it back,
 * and the clock moves by one at each fix. KIND is how pages are drawn:
 *
 *     even       each is as likely
 *     hot        80 in 100 references go to 20 in 100 of the pages, and within these and the others each is as likely
 *     zipfian    the first i of n pages get a share of i / n to the power of log 0.8 / log 0.2
 *
 * Eight fixes for each frame come first, so that the pool is in its steady state. Then SECONDS long each fix is timed,
 * in processor time of the thread and less what the clock itself takes.
 *
 * Printed: the mean of the fixes that evicted in nanoseconds, the greatest of all fixes, how many evicted, and the hit
 * rate. 'none' is printed if the steady state was not come to in 60 seconds.
 */
#include <math.h>
#include <stdbool.h>
#include <stdint.h>
#include <stdio.h>
#include <stdlib.h>
#include <string.h>
#include <time.h>

#include "hojzmated.h"

enum { SIZE = 128, PAGES_A_FRAME = 4, FIXES_A_FRAME = 8, STRIDE = 256, MOST_SECONDS = 60 };
enum kind { EVEN, HOT, ZIPFIAN, KINDS };
static const char *const names[KINDS] = {"even", "hot", "zipfian"};

static enum kind kind;
static uint64_t pages;
static hz_core core;
static double overhead; /* of the clock, in nanoseconds */
static struct {
    uint64_t fixes, hits, evictions;
    double spent, greatest; /* nanoseconds */
} counts;

static void fail(const char *what)
{
    fprintf(stderr, "periods: %s\n", what);
    exit(1);
}

static double now(void)
{
    struct timespec t;
    clock_gettime(CLOCK_THREAD_CPUTIME_ID, &t);
    return (double)t.tv_sec * 1e9 + (double)t.tv_nsec;
}

static int by_size(const void *a, const void *b)
{
    double x = *(const double *)a, y = *(const double *)b;
    return (x > y) - (x < y);
}

/* The median of what two looks at the clock are apart. */
static double apart(void)
{
    static double looks[1001];
    for (size_t i = 0; i < 1001; i++) {
        double before = now();
        looks[i] = now() - before;
    }
    qsort(looks, 1001, sizeof *looks, by_size);
    return looks[500];
}

/* A number from 0 to below 1. */
static double any(void)
{
    static uint64_t state = 1;
    state = state * 6364136223846793005u + 1442695040888963407u;
    return (double)(state >> 11) * 0x1p-53;
}

static uint64_t drawn(void)
{
    double share = any(), of = (double)pages;
    if (kind == HOT)
        share = any() < 0.8 ? share * 0.2 : 0.2 + share * 0.8;
    else if (kind == ZIPFIAN)
        share = pow(share, log(0.2) / log(0.8));
    return (uint64_t)(share * of);
}

static void use_page(void)
{
    static uint8_t image[SIZE];
    hz_fixed fixed;
    uint64_t page = drawn();
    if (hz_tick(&core, 0, 1))
        fail("tick");
    double began = now();
    uint16_t refused = hz_fix(&core, 0, page, image, SIZE, &fixed);
    double took = now() - began - overhead;
    if (refused)
        fail("fix");
    if (fixed.kind == HZ_LOAD && hz_read_end(&core, &fixed.grant, image, SIZE, &fixed.grant))
        fail("read_end");
    if (hz_unfix(&core, &fixed.grant))
        fail("unfix");
    counts.fixes++, counts.hits += fixed.kind == HZ_HIT;
    counts.greatest = took > counts.greatest ? took : counts.greatest;
    if (fixed.has_evicted)
        counts.evictions++, counts.spent += took;
}

/* Comes to the steady state, and tells whether it did in time. */
static bool settled(uint64_t fixes)
{
    double end = now() + MOST_SECONDS * 1e9;
    while (counts.fixes < fixes && (counts.fixes % STRIDE != 0 || now() < end))
        use_page();
    return counts.fixes >= fixes;
}

int main(int argc, char **argv)
{
    for (kind = EVEN; kind < KINDS && (argc != 6 || strcmp(argv[1], names[kind])); kind++)
        ;
    if (kind == KINDS)
        fail("KIND FRAMES PERIOD K SECONDS");
    size_t frames = strtoul(argv[2], NULL, 10);
    pages = PAGES_A_FRAME * frames;
    hz_config config = {.pages = pages, .page_size = SIZE, .frames = frames, .room = (size_t)1 << 61,
                        .correlated = strtoull(argv[3], NULL, 10), .retained = (uint64_t)1 << 62,
                        .k = (uint8_t)atoi(argv[4]), .clients = 1};
    if (hz_core_new(&config, &core))
        fail("the pool");
    overhead = apart();
    if (!settled(FIXES_A_FRAME * frames)) {
        printf("none\n");
        return 0;
    }
    memset(&counts, 0, sizeof counts);
    for (double end = now() + atof(argv[5]) * 1e9; counts.fixes % STRIDE != 0 || now() < end;)
        use_page();
    if (counts.evictions == 0)
        fail("no page was evicted");
    printf("%.0f %.0f %lu %.3f\n", counts.spent / (double)counts.evictions, counts.greatest,
           (unsigned long)counts.evictions, (double)counts.hits / (double)counts.fixes);
    return hz_core_free(&core) ? 1 : 0;
}
