/* A checkpoint in a handler of atexit, when the thread-local objects of the thread are gone. For each format of a page
 * file: what was put is in the file then, a page can't be fixed any more, and the pager is freed. */
#include <fcntl.h>
#include <stdio.h>
#include <stdlib.h>
#include <string.h>
#include <unistd.h>

#include "hojzmated_pager.h"

enum { PAGES = 100, SIZE = 4096, HEAD = 16, PAGE = 7 };

static hz_pager pagers[2];
static int files[2];

static void must(int what, const char *text)
{
    if (!what) {
        printf("failed: %s\n", text);
        _exit(1);
    }
}

static void shut_down(void)
{
    for (int i = 0; i < 2; i++) {
        uint64_t lsn;
        uint8_t has_lsn;
        hz_ref page;
        char put[6];
        must(hz_pager_fix(&pagers[i], PAGE, HZ_SHARED, &page) == HZ_UNKNOWN_PASS, "a page is fixed");
        must(hz_pager_checkpoint(&pagers[i], &lsn, &has_lsn) == HZ_DONE, "no checkpoint");
        off_t place = i ? (off_t)PAGE * (HEAD + SIZE) + HEAD : (off_t)PAGE * SIZE;
        must(pread(files[i], put, sizeof put, place) == (ssize_t)sizeof put, "no page");
        must(!memcmp(put, "saved", sizeof put), "not in the file");
        must(hz_pager_free(&pagers[i]) == HZ_DONE, "not freed");
    }
    puts("saved at exit");
}

int main(void)
{
    const hz_pager_config config = {.size = sizeof config, .pages = PAGES, .page_size = SIZE, .frames = 8};
    must(!atexit(shut_down), "no atexit");
    for (int i = 0; i < 2; i++) {
        hz_ref page;
        files[i] = open(i ? "exit.2" : "exit.1", O_RDWR | O_CREAT | O_TRUNC, 0600);
        must(files[i] >= 0 && !ftruncate(files[i], (off_t)PAGES * (SIZE + i * HEAD)), "no file");
        must(hz_pager_new_file(&config, files[i], i + 1, &pagers[i]) == HZ_DONE, "no pager");
        must(hz_pager_new_page(&pagers[i], PAGE, &page) == HZ_DONE, "no page");
        must(hz_pager_put(&page, 0, (const uint8_t *)"saved", 6, 0) == HZ_DONE, "no put");
        must(hz_pager_unfix(&page) == HZ_DONE, "no unfix");
    }
    return 0;
}
