/* The C library's read and write, made to fail: tests/program.rs loads this before the library into the program that it tests.
 *
 *   FAULT_FILE, FAULT_READ   reads of the file of this name fail once they have brought this many bytes
 *   FAULT_WRITE              writes to standard output fail once they have taken this many bytes
 *   FAULT_STEP               no call moves more bytes than this
 */
#define _GNU_SOURCE
#include <errno.h>
#include <stdint.h>
#include <stdio.h>
#include <stdlib.h>
#include <string.h>
#include <sys/syscall.h>
#include <unistd.h>

static size_t number(const char *name)
{
    const char *text = getenv(name);
    return text ? strtoul(text, NULL, 10) : SIZE_MAX;
}

static size_t smaller(size_t a, size_t b)
{
    return a < b ? a : b;
}

static int is_the_file(int fd)
{
    const char *name = getenv("FAULT_FILE");
    char link[64];
    char path[4096];
    ssize_t length;
    const char *last;
    snprintf(link, sizeof link, "/proc/self/fd/%d", fd);
    length = readlink(link, path, sizeof path - 1);
    if (!name || length < 0)
        return 0;
    path[length] = 0;
    last = strrchr(path, '/');
    return last && strcmp(last + 1, name) == 0;
}

/* how many bytes a call may move; 0 if it has to fail */
static size_t allowed(size_t wanted, size_t limit, size_t moved)
{
    return smaller(smaller(wanted, number("FAULT_STEP")), limit - moved);
}

ssize_t read(int fd, void *bytes, size_t n)
{
    static size_t brought;
    int watched = is_the_file(fd);
    size_t most = allowed(n, watched ? number("FAULT_READ") : SIZE_MAX, watched ? brought : 0);
    ssize_t got;
    if (most == 0 && n > 0) {
        errno = EIO;
        return -1;
    }
    got = syscall(SYS_read, fd, bytes, most);
    if (watched && got > 0)
        brought += got;
    return got;
}

ssize_t write(int fd, const void *bytes, size_t n)
{
    static size_t taken;
    int watched = fd == STDOUT_FILENO;
    size_t most = allowed(n, watched ? number("FAULT_WRITE") : SIZE_MAX, watched ? taken : 0);
    ssize_t put;
    if (most == 0 && n > 0) {
        errno = ENOSPC;
        return -1;
    }
    put = syscall(SYS_write, fd, bytes, most);
    if (watched && put > 0)
        taken += put;
    return put;
}
