/* Spoils calls of a program at its files. The environment's SPOIL names the call: read, write or open. NUMBER, from 1,
   is the one that is spoiled, and 0 says each. ERROR is the error that it ends with; where that is 0, a read or write
   moves at most a hundred octets. Says a line on standard error for each call that is spoiled. */
#define _GNU_SOURCE
#include <dlfcn.h>
#include <errno.h>
#include <fcntl.h>
#include <stdarg.h>
#include <stdio.h>
#include <stdlib.h>
#include <string.h>
#include <unistd.h>

enum { MOST = 100 };

static int spoiled(const char *call)
{
    static long calls;
    const char *named = getenv("SPOIL"), *number = getenv("NUMBER");
    if (!named || !number || strcmp(named, call) != 0)
        return 0;
    long current = __atomic_add_fetch(&calls, 1, __ATOMIC_SEQ_CST);
    if (atol(number) != 0 && atol(number) != current)
        return 0;
    dprintf(2, "%s %ld\n", call, current);
    return 1;
}

/* Whether the call ends with an error. */
static int failed(void)
{
    const char *error = getenv("ERROR");
    errno = error ? atoi(error) : 0;
    return errno != 0;
}

ssize_t read(int file, void *octets, size_t size)
{
    static ssize_t (*real)(int, void *, size_t);
    if (!real)
        real = dlsym(RTLD_NEXT, "read");
    if (spoiled("read")) {
        if (failed())
            return -1;
        size = size < MOST ? size : MOST;
    }
    return real(file, octets, size);
}

ssize_t write(int file, const void *octets, size_t size)
{
    static ssize_t (*real)(int, const void *, size_t);
    if (!real)
        real = dlsym(RTLD_NEXT, "write");
    if (spoiled("write")) {
        if (failed())
            return -1;
        size = size < MOST ? size : MOST;
    }
    return real(file, octets, size);
}

int open(const char *path, int flags, ...)
{
    static int (*real)(const char *, int, ...);
    if (!real)
        real = dlsym(RTLD_NEXT, "open");
    va_list rest;
    va_start(rest, flags);
    mode_t mode = flags & O_CREAT ? va_arg(rest, mode_t) : 0;
    va_end(rest);
    return spoiled("open") && failed() ? -1 : real(path, flags, mode);
}
