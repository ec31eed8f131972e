/*
 * Stands in for the C library's read and write where the planner is run with it preloaded: on standard input and standard
 * output a call moves at most READ_MOST and WRITE_MOST bytes, and the calls from number READ_FAILS and WRITE_FAILS on
 * fail. A name that is not in the environment sets no limit.
 */
#define _GNU_SOURCE
#include <dlfcn.h>
#include <errno.h>
#include <stdint.h>
#include <stdlib.h>
#include <unistd.h>

static size_t limit(const char *name)
{
    const char *number = getenv(name);
    return number ? strtoul(number, NULL, 10) : SIZE_MAX;
}

static size_t least(size_t a, size_t b)
{
    return a < b ? a : b;
}

ssize_t read(int fd, void *buffer, size_t count)
{
    static size_t calls;
    ssize_t (*real)(int, void *, size_t) = (ssize_t (*)(int, void *, size_t))dlsym(RTLD_NEXT, "read");
    if (fd != STDIN_FILENO)
        return real(fd, buffer, count);
    if (++calls >= limit("READ_FAILS")) {
        errno = EIO;
        return -1;
    }
    return real(fd, buffer, least(count, limit("READ_MOST")));
}

ssize_t write(int fd, const void *buffer, size_t count)
{
    static size_t calls;
    ssize_t (*real)(int, const void *, size_t) = (ssize_t (*)(int, const void *, size_t))dlsym(RTLD_NEXT, "write");
    if (fd != STDOUT_FILENO)
        return real(fd, buffer, count);
    if (++calls >= limit("WRITE_FAILS")) {
        errno = EIO;
        return -1;
    }
    return real(fd, buffer, least(count, limit("WRITE_MOST")));
}
