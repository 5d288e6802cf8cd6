/* Refuses one allocation of a program: the one whose number, from 1 over all threads, is in the environment's REFUSE.
   Says so on standard error. */
#define _GNU_SOURCE
#include <dlfcn.h>
#include <errno.h>
#include <stdlib.h>
#include <unistd.h>

static int refused(void)
{
    static const char said[] = "refused\n";
    static long asked, number = -1;
    if (number < 0) {
        const char *text = getenv("REFUSE");
        number = text ? atol(text) : 0;
    }
    if (__atomic_add_fetch(&asked, 1, __ATOMIC_SEQ_CST) != number)
        return 0;
    return write(2, said, sizeof said - 1) != 0;
}

void *malloc(size_t size)
{
    static void *(*real)(size_t);
    if (!real)
        real = dlsym(RTLD_NEXT, "malloc");
    return refused() ? NULL : real(size);
}

void *realloc(void *old, size_t size)
{
    static void *(*real)(void *, size_t);
    if (!real)
        real = dlsym(RTLD_NEXT, "realloc");
    return refused() ? NULL : real(old, size);
}

int posix_memalign(void **out, size_t alignment, size_t size)
{
    static int (*real)(void **, size_t, size_t);
    if (!real)
        real = dlsym(RTLD_NEXT, "posix_memalign");
    return refused() ? ENOMEM : real(out, alignment, size);
}

void *aligned_alloc(size_t alignment, size_t size)
{
    static void *(*real)(size_t, size_t);
    if (!real)
        real = dlsym(RTLD_NEXT, "aligned_alloc");
    return refused() ? NULL : real(alignment, size);
}
