/* Makes transfers between a program and its files short, interrupted or failing, and tells what is asked of files. It
   is loaded before the C library, by LD_PRELOAD, and hands on to the system what it leaves as it is. A transfer is a
   read or a write of a regular file.

     DEVICE_HOW    short: the transfer moves half of its bytes; interrupted: none, with EINTR; failing: none, with EIO.
                   A sync of a file may fail too, and counts as a transfer then
     DEVICE_TURN   which transfer, from 1. With 0 it is each of them, but of interrupted ones each second, so that a
                   program which tries again goes on. With -1 it is none
     DEVICE_SAYS   the file descriptor to which a byte is written of each thing asked: t for such a transfer, s for a
                   sync of a file, r for another name of a file */
#include <errno.h>
#include <stdatomic.h>
#include <stdbool.h>
#include <stdio.h>
#include <stdlib.h>
#include <string.h>
#include <sys/stat.h>
#include <sys/syscall.h>
#include <unistd.h>

static atomic_long made;

static const char *setting(const char *name)
{
    const char *value = getenv(name);
    return value ? value : "";
}

static void say(char what)
{
    int why = errno;
    if (syscall(SYS_write, atoi(setting("DEVICE_SAYS")), &what, 1) != 1)
        _exit(125);
    errno = why;
}

static bool is_how(const char *how)
{
    return strcmp(setting("DEVICE_HOW"), how) == 0;
}

/* Whether this transfer is made otherwise. */
static bool is_turn(void)
{
    long number = atomic_fetch_add(&made, 1) + 1, turn = atol(setting("DEVICE_TURN"));
    if (turn ? number != turn : is_how("interrupted") && number % 2 == 0)
        return false;
    say('t');
    return true;
}

/* How many bytes of a transfer are asked of the system, or -1 where none are. */
static long left_of(int fd, size_t count)
{
    struct stat at;
    if (fstat(fd, &at) < 0 || !S_ISREG(at.st_mode) || !is_turn())
        return (long)count;
    if (is_how("short"))
        return count > 1 ? (long)(count / 2) : (long)count;
    errno = is_how("interrupted") ? EINTR : EIO;
    return -1;
}

static ssize_t moved(long call, int fd, void *bytes, size_t count, off_t start)
{
    long left = left_of(fd, count);
    return left < 0 ? -1 : syscall(call, fd, bytes, left, start);
}

ssize_t read(int fd, void *bytes, size_t count)
{
    return moved(SYS_read, fd, bytes, count, 0);
}

ssize_t write(int fd, const void *bytes, size_t count)
{
    return moved(SYS_write, fd, (void *)bytes, count, 0);
}

ssize_t pread(int fd, void *bytes, size_t count, off_t start)
{
    return moved(SYS_pread64, fd, bytes, count, start);
}

ssize_t pwrite(int fd, const void *bytes, size_t count, off_t start)
{
    return moved(SYS_pwrite64, fd, (void *)bytes, count, start);
}

ssize_t pread64(int fd, void *bytes, size_t count, off_t start)
{
    return pread(fd, bytes, count, start);
}

ssize_t pwrite64(int fd, const void *bytes, size_t count, off_t start)
{
    return pwrite(fd, bytes, count, start);
}

static int synced(long call, int fd)
{
    say('s');
    if (is_how("failing") && is_turn()) {
        errno = EIO;
        return -1;
    }
    return (int)syscall(call, fd);
}

int fsync(int fd)
{
    return synced(SYS_fsync, fd);
}

int fdatasync(int fd)
{
    return synced(SYS_fdatasync, fd);
}

int rename(const char *old, const char *new)
{
    say('r');
    return (int)syscall(SYS_rename, old, new);
}
