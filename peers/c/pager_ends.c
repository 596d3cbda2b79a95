/* Threads that end with pages fixed, beside one that frees their pager: hz_pager_free is refused with HZ_BUSY as long
 * as a page is fixed, and waits for a thread that is just giving its pages back.
 *
 *     pager_ends [ROUNDS]    check/bindings builds it with the library, and runs it
 */
#include "pager_test.h"
#include <sched.h>
#include <stdatomic.h>

enum { THREADS = 4, EACH = 2 };

static hz_pager pager;
static atomic_uint have_fixed;
static atomic_bool may_end;

/* A page of its own under each kind of latch, and a page that all look at. It has made its last call before it tells
 * that it has fixed them: what comes then is the end of the thread. */
static void *end_with_pages(void *number)
{
    uint64_t first = 1 + EACH * (uint64_t)(uintptr_t)number;
    static const uint32_t hows[EACH] = {HZ_EXCLUSIVE, HZ_SHARED};
    fixed(&pager, 0, HZ_SHARED);
    for (unsigned i = 0; i < EACH; i++)
        fixed(&pager, first + i, hows[i]);
    atomic_fetch_add(&have_fixed, 1);
    while (!atomic_load(&may_end))
        sched_yield();
    return NULL;
}

int main(int argc, char **argv)
{
    unsigned rounds = argc > 1 ? (unsigned)atoi(argv[1]) : 200;
    pthread_t threads[THREADS];
    for (unsigned round = 0; round < rounds; round++) {
        hz_pager_config config = usual();
        config.frames = PAGES, config.parts = 1 + round % 2;
        config.correlated = round % 4 < 2 ? HZ_NO_PERIOD : 0; /* with a period a pass stays when nobody uses its page */
        SAME(HZ_DONE, hz_pager_new(&config, &io, &pager));
        atomic_store(&have_fixed, 0), atomic_store(&may_end, false);
        for (uintptr_t i = 0; i < THREADS; i++)
            SAME(0, pthread_create(&threads[i], NULL, end_with_pages, (void *)i));
        while (atomic_load(&have_fixed) < THREADS)
            sched_yield();
        uint16_t number = hz_pager_free(&pager);
        SAME(HZ_BUSY, number);
        for (atomic_store(&may_end, true); number != HZ_DONE; number = hz_pager_free(&pager))
            SAME(HZ_BUSY, number);
        for (int i = 0; i < THREADS; i++)
            SAME(0, pthread_join(threads[i], NULL));
    }
    return 0;
}
