/* The least engine: a counter in each page of a file, to which four threads add one at each run. It keeps no log,
 * so each put has LSN 0, which needs none. */
#define _POSIX_C_SOURCE 200809L /* for ftruncate, where the compiler has no GNU extensions */
#include "hojzmated_pager.h"
#include <fcntl.h>
#include <pthread.h>
#include <stdio.h>
#include <string.h>
#include <unistd.h>

static hz_pager pager; /* all zero: none yet */
static hz_pager_config config = HZ_PAGER_CONFIG_INIT;

static uint16_t add(uint64_t number)
{
    hz_ref page;
    uint64_t count;
    uint16_t refused = hz_pager_fix(&pager, number, HZ_EXCLUSIVE, &page); /* no other thread has the page */
    if (refused)
        return refused;
    memcpy(&count, page.bytes, sizeof count); /* the page in place */
    count++;
    refused = hz_pager_put(&page, 0, (uint8_t *)&count, sizeof count, 0);
    hz_pager_unfix(&page);
    return refused;
}

static void *add_to_all(void *none)
{
    char text[200];
    for (uint64_t number = 0; number < config.pages; number++)
        if (add(number)) {
            hz_pager_text(text, sizeof text);
            fprintf(stderr, "%s\n", text);
            break;
        }
    return none;
}

int main(void)
{
    pthread_t threads[4];
    hz_ref last;
    uint64_t count, lsn;
    uint8_t has_lsn;
    int fd = open("pager.pages", O_RDWR | O_CREAT, 0600);
    config.pages = 100, config.page_size = 4096, config.frames = 8; /* the rest has defaults */
    if (fd < 0 || ftruncate(fd, 100 * 4096) || hz_pager_new_file(&config, fd, 1, &pager))
        return 1;
    for (int i = 0; i < 4; i++)
        pthread_create(&threads[i], NULL, add_to_all, NULL);
    for (int i = 0; i < 4; i++)
        pthread_join(threads[i], NULL);
    if (hz_pager_checkpoint(&pager, &lsn, &has_lsn)) /* writes out what is unsaved, and syncs the file */
        return 1;
    if (hz_pager_fix(&pager, 99, HZ_SHARED, &last))
        return 1;
    memcpy(&count, last.bytes, sizeof count);
    hz_pager_unfix(&last);
    printf("the last page counts %llu\n", (unsigned long long)count);
    return hz_pager_free(&pager);
}
