/*
 * Preloaded into the program: the file of number MIDWAY (from 1, in the order
 * in which they are closed) gives seven bytes, and then fails. Every other
 * file gives seven bytes at a time.
 */
#define _GNU_SOURCE
#include <errno.h>
#include <stdlib.h>
#include <sys/syscall.h>
#include <unistd.h>

static int file = 1;
static int reads = 0;

ssize_t read(int fd, void *bytes, size_t length)
{
    const char *failing = getenv("MIDWAY");
    if (failing && atoi(failing) == file && reads++ > 0) {
        errno = EIO;
        return -1;
    }
    return syscall(SYS_read, fd, bytes, length < 7 ? length : 7);
}

int close(int fd)
{
    file++;
    reads = 0;
    return (int)syscall(SYS_close, fd);
}
