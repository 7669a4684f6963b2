/* failing_read.c: loaded before the C library, it lets the first read of
   standard input give at most READ_FIRST octets (from the environment), and
   every later one fail. */

#define _GNU_SOURCE
#include <dlfcn.h>
#include <errno.h>
#include <stdlib.h>
#include <unistd.h>

ssize_t read(int fd, void *buffer, size_t n)
{
    static int reads;
    ssize_t (*next)(int, void *, size_t) = (ssize_t (*)(int, void *, size_t))dlsym(RTLD_NEXT, "read");
    const char *first = getenv("READ_FIRST");
    size_t most = first ? (size_t)atoi(first) : n;
    if (fd != 0)
        return next(fd, buffer, n);
    if (reads++ > 0) {
        errno = EIO;
        return -1;
    }
    return next(fd, buffer, most < n ? most : n);
}
