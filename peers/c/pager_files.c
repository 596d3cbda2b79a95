/* Pagers over page files: the formats, new files, what is no page file, and who else has it.
 *
 *     check/bindings        builds it with the library, and runs it
 */
#define _POSIX_C_SOURCE 200809L
#include "hz_file.h"
#include "pager_test.h"
#include <fcntl.h>
#include <sys/wait.h>
#include <unistd.h>

static void files(void)
{
    hz_pager_config config = usual();
    hz_pager pager = {0};
    hz_ref ref;
    uint64_t lsn;
    uint8_t has_lsn, slot[16 + SIZE];
    config.pages = 0;
    for (int format = 1; format <= 2; format++) {
        size_t head = format == 2 ? 16 : 0, size = head + SIZE;
        int fd = open("pager.pages", O_RDWR | O_CREAT | O_TRUNC, 0600);
        for (uint8_t page = 0; page < PAGES; page++) {
            memset(slot, page, sizeof slot);
            memset(slot, 0, 16);
            slot[0] = page;
            SAME(size, pwrite(fd, slot + 16 - head, size, (off_t)(page * size)));
        }
        SAME(HZ_DONE, hz_pager_new_file(&config, fd, format, &pager));
        REFUSED(HZ_OUT_OF_PAGE, 1, PAGES, 0, 0, hz_pager_fix(&pager, PAGES, HZ_SHARED, &ref));
        for (uint64_t page = 0; page < PAGES; page++) {
            ref = fixed(&pager, page, HZ_SHARED);
            SAME(true, is_filled(ref.bytes, SIZE, (uint8_t)page));
            SAME(HZ_DONE, hz_pager_unfix(&ref));
        }
        change(&pager, 3, 0x33, 0x1234);
        SAME(HZ_DONE, hz_pager_checkpoint(&pager, &lsn, &has_lsn));
        SAME(size, pread(fd, slot, size, (off_t)(3 * size)));
        SAME(true, is_filled(slot + head, 8, 0x33) && is_filled(slot + head + 8, SIZE - 8, 3));
        if (format == 2) {
            static const uint8_t wanted[16] = {3, 0, 0, 0, 0, 0, 0, 0, 0x34, 0x12};
            SAME(0, memcmp(slot, wanted, 16));
            SAME(1, pwrite(fd, "\7", 1, (off_t)(9 * size)));
            REFUSED(HZ_WRONG_PAGE, 1, 9, 0, 0, hz_pager_fix(&pager, 9, HZ_SHARED, &ref));
            SAYS("page 9: another page was found in its place, or a spoilt one");
        }
        SAME(0, ftruncate(fd, (off_t)(8 * size - 1))); /* page 7 is in no frame by now */
        REFUSED(HZ_READ_FAILED, 1, 7, 0, EIO, hz_pager_fix(&pager, 7, HZ_SHARED, &ref));
        end(&pager);
        for (config.grows = 0; config.grows < 2; config.grows++)
            for (config.pages = 0; config.pages <= 2 * PAGES; config.pages += 2 * PAGES)
                REFUSED(HZ_BAD_LENGTH, 0, 0, 0, 0, hz_pager_new_file(&config, fd, format, &pager)); /* no whole page */
        SAME(8 * size - 1, lseek(fd, 0, SEEK_END));
        SAME(0, ftruncate(fd, (off_t)(8 * size)));
        config.grows = 0, config.pages = 9;
        REFUSED(HZ_BAD_LENGTH, 0, 0, 0, 0, hz_pager_new_file(&config, fd, format, &pager)); /* eight pages */
        SAYS("the file has too few pages, or does not end with a whole one");
        config.pages = 8;
        SAME(HZ_DONE, hz_pager_new_file(&config, fd, format, &pager));
        end(&pager);
        SAME(0, ftruncate(fd, 0));
        config.pages = 0;
        for (config.grows = 0; config.grows < 2; config.grows++)
            REFUSED(HZ_BAD_LENGTH, 0, 0, 0, 0, hz_pager_new_file(&config, fd, format, &pager)); /* no page */
        config.grows = 0;
        SAME(0, ftruncate(fd, (off_t)(8 * size)));
        SAME(0, close(fd));
    }
    int fd = open("pager.pages", O_RDONLY);
    SAME(HZ_BAD_SETTINGS, hz_pager_new_file(&config, fd, 0, &pager));
    SAME(HZ_BAD_SETTINGS, hz_pager_new_file(&config, fd, 4, &pager));
    REFUSED(HZ_READ_FAILED, 0, 0, 0, EBADF, hz_pager_new_file(&config, -1, 1, &pager));
    SAYS("the file could not be read: Bad file descriptor (os error 9)");
    config.pages = 2;
    REFUSED(HZ_READ_FAILED, 0, 0, 0, EBADF, hz_pager_new_file(&config, -1, 2, &pager));
    SAME(0, close(fd));
    for (config.pages = 0; config.pages < 3; config.pages += 2)
        REFUSED(HZ_READ_FAILED, 0, 0, 0, EBADF, hz_pager_new_file(&config, fd, 1, &pager));
    SAME(0, (uintptr_t)pager.own);
}

/* What is no page file, or is open for reading alone. */
static void wrong_files(void)
{
    hz_pager_config config = usual();
    hz_pager pager = {0};
    uint64_t lsn;
    uint8_t has_lsn;
    int pipes[2], fd = open(".", O_RDONLY);
    REFUSED(HZ_NOT_A_FILE, 0, 0, 0, EISDIR, hz_pager_new_file(&config, fd, 1, &pager));
    SAYS("it is a directory, a pipe or a device, and no file: Is a directory (os error 21)");
    SAME(0, close(fd));
    SAME(0, pipe(pipes));
    for (int i = 0; i < 2; i++) {
        REFUSED(HZ_NOT_A_FILE, 0, 0, 0, 0, hz_pager_new_file(&config, pipes[i], 1, &pager));
        SAME(0, close(pipes[i]));
    }
    fd = open("pager.pages", O_RDWR | O_CREAT | O_TRUNC, 0600);
    SAME(0, ftruncate(fd, PAGES * SIZE));
    SAME(0, close(fd));
    fd = open("pager.pages", O_RDONLY);
    REFUSED(HZ_FILE_READ_ONLY, 0, 0, 0, 0, hz_pager_new_file(&config, fd, 1, &pager));
    SAYS("the file is open for reading alone");
    config.read_only = 1, config.page_size = SIZE + 8;
    REFUSED(HZ_BAD_GEOMETRY, 0, 0, 0, 0, hz_pager_new_file(&config, fd, 1, &pager));
    config.page_size = SIZE;
    SAME(HZ_DONE, hz_pager_new_file(&config, fd, 1, &pager));
    SAME(HZ_DONE, hz_pager_checkpoint(&pager, &lsn, &has_lsn));
    change(&pager, 1, 1, 1);
    REFUSED(HZ_WRITE_FAILED, 1, 1, 0, EACCES, hz_pager_flush(&pager, 1));
    end(&pager);
    config.pages = PAGES + 1, config.grows = 1;
    REFUSED(HZ_BAD_LENGTH, 0, 0, 0, 0, hz_pager_new_file(&config, fd, 1, &pager));
    SAME(0, close(fd));
    fd = open("pager.pages", O_WRONLY);
    REFUSED(HZ_READ_FAILED, 0, 0, 0, EBADF, hz_pager_new_file(&config, fd, 1, &pager));
    SAME(0, close(fd));
}

/* What another process, which is this program too, is answered for the file. */
static int asked_by_another(const char *program)
{
    int status = 0;
    pid_t child = fork();
    if (child == 0) {
        execl(program, program, "another", (char *)NULL);
        _exit(1);
    }
    SAME(child, waitpid(child, &status, 0));
    SAME(true, WIFEXITED(status));
    return WEXITSTATUS(status);
}

static int ask_as_another(void)
{
    const hz_pager_config config = {.size = sizeof config, .page_size = SIZE, .frames = FRAMES};
    hz_pager pager = {0};
    uint16_t number = hz_pager_new_file(&config, open("pager.pages", O_RDWR), 1, &pager);
    if (!number)
        end(&pager);
    return number;
}

/* One pager alone has a file, but for those that only read. */
static void locks(const char *program)
{
    hz_pager_config config = usual();
    hz_pager pager = {0}, other = {0};
    hz_ref ref;
    uint64_t lsn;
    uint8_t has_lsn;
    int fds[3] = {open("pager.pages", O_RDWR | O_CREAT | O_TRUNC, 0600)};
    config.grows = 1;
    fds[1] = dup(fds[0]), fds[2] = open("pager.pages", O_RDWR);
    SAME(HZ_DONE, hz_pager_new_file(&config, fds[0], 1, &pager));
    for (int i = 0; i < 3; i++)
        for (config.read_only = 0; config.read_only < 2; config.read_only++)
            REFUSED(HZ_FILE_IN_USE, 0, 0, 0, 0, hz_pager_new_file(&config, fds[i], 1, &other));
    SAYS("another pager or process has the file, or it cannot be locked");
    SAME(HZ_FILE_IN_USE, asked_by_another(program));
    change(&pager, 3, 1, 0);
    SAME(HZ_DONE, hz_pager_checkpoint(&pager, &lsn, &has_lsn));
    end(&pager);
    SAME(HZ_DONE, asked_by_another(program));
    config.read_only = 1;
    SAME(HZ_DONE, hz_pager_new_file(&config, fds[0], 1, &pager));
    SAME(HZ_DONE, hz_pager_new_file(&config, fds[1], 1, &other));
    end(&pager);
    ref = fixed(&other, 3, HZ_SHARED);
    SAME(1, ref.bytes[0]);
    SAME(HZ_DONE, hz_pager_unfix(&ref));
    SAME(HZ_FILE_IN_USE, asked_by_another(program));
    config.read_only = 0;
    REFUSED(HZ_FILE_IN_USE, 0, 0, 0, 0, hz_pager_new_file(&config, fds[2], 1, &pager));
    end(&other);
    /* The descriptors are open still, and keep nobody out. */
    SAME(HZ_DONE, asked_by_another(program));
    SAME(HZ_DONE, hz_pager_new_file(&config, fds[2], 1, &pager));
    end(&pager);
    for (int i = 0; i < 3; i++)
        SAME(0, close(fds[i]));
}

/* A page with another number, and one that is torn, are told by the head of format 3. */
static void checked_files(void)
{
    enum { SLOT = 32 + SIZE };
    static const uint8_t wanted[16] = {3, 0, 0, 0, 0, 0, 0, 0, 0x34, 0x12};
    hz_pager_config config = usual();
    hz_pager pager = {0};
    hz_ref ref;
    uint64_t lsn;
    uint8_t has_lsn, slot[SLOT];
    int fd = open("pager.pages", O_RDWR | O_CREAT | O_TRUNC, 0600);
    config.grows = 1;
    SAME(HZ_DONE, hz_pager_new_file(&config, fd, 3, &pager));
    SAME(PAGES * SLOT, lseek(fd, 0, SEEK_END));
    for (uint64_t page = 0; page < PAGES; page++)
        change(&pager, page, (uint8_t)(page + 1), page == 3 ? 0x1234 : 0);
    SAME(HZ_DONE, hz_pager_checkpoint(&pager, &lsn, &has_lsn));
    end(&pager);
    SAME(SLOT, pread(fd, slot, SLOT, 3 * SLOT));
    SAME(0, memcmp(slot, wanted, 16));
    SAME(true, is_filled(slot + 20, 12, 0) && is_filled(slot + 32, 8, 4));
    SAME(SLOT, pwrite(fd, slot, SLOT, 5 * SLOT));                      /* page 3 in the place of page 5 */
    SAME(1, pwrite(fd, "x", 1, 7 * SLOT + 60));                        /* a byte of page 7 */
    SAME(HZ_DONE, hz_pager_new_file(&config, fd, 3, &pager));
    for (uint64_t page = 0; page < PAGES; page++)
        if (page == 5 || page == 7) {
            REFUSED(HZ_WRONG_PAGE, 1, page, 0, 0, hz_pager_fix(&pager, page, HZ_SHARED, &ref));
        } else {
            ref = fixed(&pager, page, HZ_SHARED);
            SAME(true, is_filled(ref.bytes, 8, (uint8_t)(page + 1)));
            SAME(HZ_DONE, hz_pager_unfix(&ref));
        }
    end(&pager);
    SAME(0, close(fd));
}

/* A new file of each format, made as the header says: pages of zeros, by hz_file_fill or ftruncate, or by the pager; or
 * page by page. */
static void new_files(void)
{
    static uint8_t slot[HZ_FILE_HEAD + SIZE];
    hz_pager_config config = usual();
    hz_pager pager = {0};
    hz_ref ref;
    uint64_t lsn;
    uint8_t has_lsn;
    for (int format = 1; format <= 2; format++) {
        hz_file file;
        int fd = open("pager.pages", O_RDWR | O_CREAT | O_TRUNC, 0600);
        SAME(HZ_DONE, hz_file_init(&file, fd, format, SIZE, slot, sizeof slot));
        if (format == 2)
            SAME(HZ_DONE, hz_file_fill(&file, PAGES));
        else
            SAME(0, ftruncate(fd, PAGES * SIZE));
        config.pages = 0;
        SAME(HZ_DONE, hz_pager_new_file(&config, fd, format, &pager));
        for (uint64_t page = 0; page < PAGES; page++) {
            ref = fixed(&pager, page, HZ_SHARED);
            SAME(true, is_filled(ref.bytes, SIZE, 0));
            SAME(HZ_DONE, hz_pager_unfix(&ref));
        }
        REFUSED(HZ_OUT_OF_PAGE, 1, PAGES, 0, 0, hz_pager_fix(&pager, PAGES, HZ_SHARED, &ref));
        end(&pager);
        SAME(0, ftruncate(fd, 0));
        config.pages = PAGES, config.grows = 1;
        config.frames = 0; /* what is refused for another setting does not grow */
        SAME(HZ_BAD_SETTINGS, hz_pager_new_file(&config, fd, format, &pager));
        SAME(0, lseek(fd, 0, SEEK_END));
        config.frames = FRAMES;
        SAME(HZ_DONE, hz_pager_new_file(&config, fd, format, &pager));
        end(&pager);
        for (uint64_t page = 0; page < PAGES; page++) {
            SAME(HZ_DONE, hz_file_read(&file, page));
            SAME(true, is_filled(hz_file_image(&file), SIZE, 0));
        }
        SAME(0, ftruncate(fd, 0));
        config.grows = 0;
        REFUSED(HZ_BAD_LENGTH, 0, 0, 0, 0, hz_pager_new_file(&config, fd, format, &pager));
        SAME(0, ftruncate(fd, PAGES * (off_t)(SIZE + (format == 2 ? HZ_FILE_HEAD : 0))));
        SAME(HZ_DONE, hz_pager_new_file(&config, fd, format, &pager));
        for (uint64_t page = PAGES; page-- > 0;) {
            SAME(HZ_DONE, hz_pager_new_page(&pager, page, &ref));
            SAME(HZ_DONE, hz_pager_put(&ref, 8, (const uint8_t *)"new", 3, 0));
            SAME(HZ_DONE, hz_pager_unfix(&ref));
        }
        SAME(HZ_DONE, hz_pager_checkpoint(&pager, &lsn, &has_lsn));
        end(&pager);
        for (uint64_t page = 0; page < PAGES; page++) {
            SAME(HZ_DONE, hz_file_read(&file, page));
            SAME(0, memcmp(hz_file_image(&file), "\0\0\0\0\0\0\0\0new", 12));
        }
        SAME(0, close(fd));
    }
}

int main(int count, char **words)
{
    if (count > 1)
        return ask_as_another();
    files();
    new_files();
    checked_files();
    wrong_files();
    locks(words[0]);
    return 0;
}
