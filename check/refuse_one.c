/* Refuses one request for memory: that whose number, from 1, is in REFUSE. It then writes one byte to the file
   descriptor that is in REFUSE_SAYS. It is loaded before the C library, by LD_PRELOAD, and hands all other requests on
   to it. */
#include <errno.h>
#include <stdatomic.h>
#include <stddef.h>
#include <stdlib.h>
#include <unistd.h>

void *__libc_malloc(size_t);
void *__libc_calloc(size_t, size_t);
void *__libc_realloc(void *, size_t);
void *__libc_memalign(size_t, size_t);

static atomic_long made;

static int refused(void)
{
    const char *number = getenv("REFUSE"), *says = getenv("REFUSE_SAYS");
    if (!number || !says || atomic_fetch_add(&made, 1) + 1 != atol(number))
        return 0;
    if (write(atoi(says), "r", 1) != 1)
        _exit(125);
    errno = ENOMEM;
    return 1;
}

void *malloc(size_t size)
{
    return refused() ? NULL : __libc_malloc(size);
}

void *calloc(size_t count, size_t size)
{
    return refused() ? NULL : __libc_calloc(count, size);
}

void *realloc(void *block, size_t size)
{
    return refused() ? NULL : __libc_realloc(block, size);
}

void *aligned_alloc(size_t alignment, size_t size)
{
    return refused() ? NULL : __libc_memalign(alignment, size);
}

void *memalign(size_t alignment, size_t size)
{
    return refused() ? NULL : __libc_memalign(alignment, size);
}

int posix_memalign(void **block, size_t alignment, size_t size)
{
    void *got = refused() ? NULL : __libc_memalign(alignment, size);
    if (!got)
        return ENOMEM;
    *block = got;
    return 0;
}
