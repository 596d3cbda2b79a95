/* The least engine: a counter in each page of a file, to which each run adds one. It keeps no log, so each write
 * has LSN 0, which needs none. */
#include "hz_file.h"
#include <fcntl.h>
#include <stdio.h>
#include <string.h>

enum { PAGES = 100, SIZE = 4096 };

int main(void)
{
    static uint8_t slot[HZ_FILE_HEAD + SIZE];
    static hz_config config;
    static hz_core core; /* all zero: none yet */
    hz_file file;
    hz_fixed asked;
    const uint8_t *bytes;
    uint64_t count = 0;
    int fd = open("least.pages", O_RDWR | O_CREAT, 0600);
    uint16_t number = hz_file_init(&file, fd, 2, SIZE, slot, sizeof slot);
    if (!number && lseek(fd, 0, SEEK_END) == 0)
        number = hz_file_fill(&file, PAGES);
    config.pages = PAGES, config.page_size = SIZE, config.frames = 8;
    config.room = (size_t)1 << 61, config.clients = 1;
    config.k = 2, config.correlated = 1, config.retained = 1000;
    if (!number)
        number = hz_core_new(&config, &core);
    for (uint64_t page = 0; page < PAGES && !number; page++) {
        if ((number = hz_file_fix(&core, &file, 0, page, &asked)))
            break;
        if (!(number = hz_page(&core, &asked.grant, &bytes))) { /* where the page is, until hz_unfix */
            memcpy(&count, bytes, sizeof count);
            count++;
            number = hz_write(&core, &asked.grant, 0, (uint8_t *)&count, sizeof count, 0);
        }
        hz_unfix(&core, &asked.grant);
        hz_tick(&core, 0, 1); /* at each fix: pages leave only as the clock moves */
    }
    for (uint64_t page = 0; page < PAGES && !number; page++)
        number = hz_file_flush(&core, &file, 0, page, &asked);
    if (!number)
        number = hz_file_sync(&file);
    printf("%s: the last page counts %llu\n", hz_strerror(number), (unsigned long long)count);
    hz_core_free(&core);
    return number != 0;
}
