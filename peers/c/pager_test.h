/* What the tests of hojzmated_pager.h share: what has to be, and a device in memory that fails as it is told. */
#ifndef PAGER_TEST_H
#define PAGER_TEST_H

#include "hojzmated_pager.h"
#include <errno.h>
#include <pthread.h>
#include <stdio.h>
#include <stdlib.h>
#include <string.h>

enum { SIZE = 64, PAGES = 16, FRAMES = 4, ODD = 0xa5 };

/* ---- What has to be ---- */

static inline void wrong(const char *file, int line, const char *what, unsigned long long found)
{
    char text[200];
    hz_pager_text(text, sizeof text);
    fprintf(stderr, "%s:%d: %s is %llu (%s)\n", file, line, what, found, text);
    exit(1);
}

#define SAME(wanted, value)                                          \
    do {                                                             \
        unsigned long long found_ = (unsigned long long)(value);     \
        if (found_ != (unsigned long long)(wanted))                  \
            wrong(__FILE__, __LINE__, #value, found_);                         \
    } while (0)

/* A call that is refused, and what is told of that: its page, LSN and errno. */
#define REFUSED(wanted, has_page_, page_, lsn_, error_, call) \
    do {                                                      \
        hz_pager_fault fault_;                                \
        SAME(wanted, call);                                   \
        SAME(HZ_DONE, hz_pager_fault_of(&fault_));            \
        SAME(wanted, fault_.number);                          \
        SAME(has_page_, fault_.has_page);                     \
        SAME(page_, fault_.page);                             \
        SAME(lsn_, fault_.lsn);                               \
        SAME(error_, fault_.error);                           \
    } while (0)

static inline void says(const char *wanted, const char *file, int line)
{
    char text[200];
    SAME(strlen(wanted), hz_pager_text(text, sizeof text));
    if (strcmp(wanted, text))
        wrong(file, line, text, 0);
}

#define SAYS(wanted) says(wanted, __FILE__, __LINE__)

/* All of some memory is what it was filled with. */
static inline bool is_filled(const void *memory, size_t len, uint8_t with)
{
    for (size_t i = 0; i < len; i++)
        if (((const uint8_t *)memory)[i] != with)
            return false;
    return true;
}

/* ---- A device and a log in memory ---- */

static struct {
    pthread_mutex_t lock;
    uint8_t pages[PAGES][SIZE];
    uint64_t lsns[PAGES]; /* what each page was written with */
    uint64_t durable;
    int read_error, write_error, log_error, sync_error;
    unsigned reads, writes, logs, syncs;
    void (*inside)(void); /* is called in each callback */
    hz_pager *pager;
} device = {.lock = PTHREAD_MUTEX_INITIALIZER};

static inline void enter(void *own, unsigned *count)
{
    SAME((uintptr_t)&device, (uintptr_t)own);
    pthread_mutex_lock(&device.lock);
    ++*count;
    pthread_mutex_unlock(&device.lock);
    if (device.inside)
        device.inside();
}

static inline int read_page(void *own, uint64_t page, uint8_t *image, size_t size)
{
    enter(own, &device.reads);
    SAME(SIZE, size);
    SAME(true, page < PAGES);
    if (device.read_error)
        return device.read_error;
    pthread_mutex_lock(&device.lock);
    memcpy(image, device.pages[page], SIZE);
    pthread_mutex_unlock(&device.lock);
    return 0;
}

static inline int write_page(void *own, uint64_t page, uint8_t *image, size_t size, uint64_t lsn)
{
    enter(own, &device.writes);
    SAME(SIZE, size);
    pthread_mutex_lock(&device.lock);
    SAME(true, lsn <= device.durable);
    int error = device.write_error;
    if (!error) {
        memcpy(device.pages[page], image, SIZE);
        device.lsns[page] = lsn;
        memset(image, ODD, SIZE); /* it is a copy: the page in the pool stays */
    }
    pthread_mutex_unlock(&device.lock);
    return error;
}

static inline int make_log_durable(void *own, uint64_t lsn)
{
    enter(own, &device.logs);
    pthread_mutex_lock(&device.lock);
    int error = device.log_error;
    if (!error && device.durable < lsn)
        device.durable = lsn;
    pthread_mutex_unlock(&device.lock);
    return error;
}

static inline int sync_device(void *own)
{
    enter(own, &device.syncs);
    return device.sync_error;
}

static const hz_io io = {sizeof(hz_io), &device, read_page, write_page, make_log_durable, sync_device};

/* Else a page whose pass stays out for a while is fixed again without a lock. */
static uint64_t period = HZ_NO_PERIOD;

static inline hz_pager_config usual(void)
{
    hz_pager_config config = HZ_PAGER_CONFIG_INIT;
    config.pages = PAGES;
    config.page_size = SIZE;
    config.frames = FRAMES;
    config.parts = 1;
    config.correlated = period;
    config.pin_wait_ms = 20;
    return config;
}

/* A pager over a device on which page p is filled with p. */
static inline hz_pager start(void)
{
    hz_pager pager = {0};
    hz_pager_config config = usual();
    for (int page = 0; page < PAGES; page++)
        memset(device.pages[page], page, SIZE), device.lsns[page] = 0;
    device.durable = 0;
    device.read_error = device.write_error = device.log_error = device.sync_error = 0;
    device.reads = device.writes = device.logs = device.syncs = 0;
    device.inside = NULL;
    SAME(HZ_DONE, hz_pager_new(&config, &io, &pager));
    return pager;
}

static inline void end(hz_pager *pager)
{
    SAME(HZ_DONE, hz_pager_free(pager));
    SAME(0, (uintptr_t)pager->own);
}

static inline hz_ref fixed(const hz_pager *pager, uint64_t page, uint32_t how)
{
    hz_ref ref;
    SAME(HZ_DONE, hz_pager_fix(pager, page, how, &ref));
    SAME(page, ref.page);
    SAME(how & ~(uint32_t)HZ_TRY, ref.how);
    return ref;
}

/* Fills the first bytes of a page. */
static inline void change(const hz_pager *pager, uint64_t page, uint8_t with, uint64_t lsn)
{
    hz_ref ref = fixed(pager, page, HZ_EXCLUSIVE);
    uint8_t some[8];
    memset(some, with, sizeof some);
    SAME(HZ_DONE, hz_pager_put(&ref, 0, some, sizeof some, lsn));
    SAME(HZ_DONE, hz_pager_unfix(&ref));
}

/* Runs a function in a thread of its own, to its end. */
static inline void in_thread(void *(*function)(void *), void *argument)
{
    pthread_t thread;
    SAME(0, pthread_create(&thread, NULL, function, argument));
    SAME(0, pthread_join(thread, NULL));
}

#endif
