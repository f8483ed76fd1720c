// Preloaded into the program by shell.sh, whose standard input it makes slow:
//
//   SHORT_READ=N   a read gives at most N bytes
//   FAIL_READ=N    the Nth read fails
//   ONE_REPLY=1    each line has a reply of one line: before each read as many lines are written as were given, or the
//                  program ends with status 98

#define _GNU_SOURCE
#include <errno.h>
#include <stdlib.h>
#include <sys/syscall.h>
#include <sys/types.h>
#include <unistd.h>

enum { UNEVEN = 98 };

static long reads;
static long given;
static long written;

static long number_of(const char *name)
{
    const char *text = getenv(name);
    return text ? atol(text) : 0;
}

static long lines_in(const char *bytes, ssize_t count)
{
    long lines = 0;
    for (ssize_t at = 0; at < count; at++)
        lines += bytes[at] == '\n';
    return lines;
}

ssize_t read(int file, void *bytes, size_t count)
{
    if (file != STDIN_FILENO)
        return syscall(SYS_read, file, bytes, count);
    if (number_of("ONE_REPLY") && written != given)
        _exit(UNEVEN);
    if (++reads == number_of("FAIL_READ")) {
        errno = EIO;
        return -1;
    }
    size_t most = (size_t)number_of("SHORT_READ");
    ssize_t got = syscall(SYS_read, file, bytes, most && most < count ? most : count);
    given += lines_in(bytes, got);
    return got;
}

ssize_t write(int file, const void *bytes, size_t count)
{
    ssize_t got = syscall(SYS_write, file, bytes, count);
    if (file == STDOUT_FILENO)
        written += lines_in(bytes, got);
    return got;
}
