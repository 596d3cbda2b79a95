/* What the C library has under these names since 2.33, by the names that it had before and still has. release_wheel.py
 * links it into the pager of the wheel. */
#define _GNU_SOURCE
#include <sys/stat.h>

#define OWN __attribute__((visibility("hidden")))
enum { STRUCT_OF_X86_64 = 1 };

int __xstat64(int, const char *, struct stat64 *);
int __lxstat64(int, const char *, struct stat64 *);
int __fxstat64(int, int, struct stat64 *);
int __fxstatat64(int, int, const char *, struct stat64 *, int);

OWN int stat64(const char *path, struct stat64 *to)
{
    return __xstat64(STRUCT_OF_X86_64, path, to);
}

OWN int lstat64(const char *path, struct stat64 *to)
{
    return __lxstat64(STRUCT_OF_X86_64, path, to);
}

OWN int fstat64(int fd, struct stat64 *to)
{
    return __fxstat64(STRUCT_OF_X86_64, fd, to);
}

OWN int fstatat64(int fd, const char *path, struct stat64 *to, int flags)
{
    return __fxstatat64(STRUCT_OF_X86_64, fd, path, to, flags);
}
