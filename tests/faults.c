/* faults.c: preloaded by tests/tool, makes system calls of the command fail. The
   fault is named by FAULT:
     read   the first read gives three octets, the next one fails
     write  the first write takes three octets, the next one finds no space
     zero   a write takes nothing
     close  standard output does not close
     slow   reads and writes go one octet at a time, each after an interruption
   No fault, and any other program (valgrind's own), sees the calls as they are. */

#define _GNU_SOURCE
#include <errno.h>
#include <stdlib.h>
#include <string.h>
#include <sys/syscall.h>
#include <unistd.h>

static int fault(const char *name)
{
    const char *wanted = getenv("FAULT");
    return wanted != NULL && strcmp(wanted, name) == 0
        && strcmp(program_invocation_short_name, "ctext") == 0;
}

static ssize_t fails(int why)
{
    errno = why;
    return -1;
}

/* One octet at a time, every other call interrupted. */
static ssize_t slowly(long call, int file, const void *octets, size_t n)
{
    static unsigned calls;
    return calls++ % 2 == 0 ? fails(EINTR) : syscall(call, file, octets, n < 1 ? n : (size_t)1);
}

ssize_t read(int file, void *octets, size_t n)
{
    static unsigned calls;
    if (fault("slow"))
        return slowly(SYS_read, file, octets, n);
    if (fault("read"))
        return calls++ > 0 ? fails(EIO) : syscall(SYS_read, file, octets, n < 3 ? n : (size_t)3);
    return syscall(SYS_read, file, octets, n);
}

ssize_t write(int file, const void *octets, size_t n)
{
    static unsigned calls;
    if (file == STDOUT_FILENO && fault("slow"))
        return slowly(SYS_write, file, octets, n);
    if (file == STDOUT_FILENO && fault("write"))
        return calls++ > 0 ? fails(ENOSPC) : syscall(SYS_write, file, octets, n < 3 ? n : (size_t)3);
    if (file == STDOUT_FILENO && fault("zero"))
        return 0;
    return syscall(SYS_write, file, octets, n);
}

int close(int file)
{
    if (file == STDOUT_FILENO && fault("close"))
        return (int)fails(EIO);
    return (int)syscall(SYS_close, file);
}
