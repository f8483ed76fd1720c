// Preloaded into the program by refusals.sh, whose run it disturbs at one call, by the number of that call from 1:
//
//   REFUSE_GROWTH=N   the Nth growth (malloc, calloc, realloc) finds no memory
//   REFUSE_FROM=N     that one and all later ones find none
//
// or by explain.sh, at one call that looks at a file:
//
//   FAIL=CALL FAIL_AT=N     the Nth pread, flock, statx or realpath fails, as where a device does
//   FAIL=CALL FAIL_FROM=N   that one and all later ones fail
//
// Where the call is met, the file of the path MET is made. Only calls after the program's start count.

#define _GNU_SOURCE
#include <dlfcn.h>
#include <errno.h>
#include <fcntl.h>
#include <stdlib.h>
#include <string.h>
#include <sys/file.h>
#include <sys/stat.h>
#include <sys/syscall.h>
#include <unistd.h>

extern void *__libc_malloc(size_t size);
extern void *__libc_calloc(size_t count, size_t size);
extern void *__libc_realloc(void *block, size_t size);

static long refused;
static long refused_from;
static long growths;
static const char *failing;
static long fail_at;
static long fail_from;
static long looks;

static long number_of(const char *name)
{
    const char *text = getenv(name);
    return text ? atol(text) : 0;
}

__attribute__((constructor)) static void start(void)
{
    refused = number_of("REFUSE_GROWTH");
    refused_from = number_of("REFUSE_FROM");
    failing = getenv("FAIL");
    fail_at = number_of("FAIL_AT");
    fail_from = number_of("FAIL_FROM");
    growths = 0;
    looks = 0;
}

static void mark(void)
{
    const char *path = getenv("MET");
    if (path)
        close((int)syscall(SYS_openat, AT_FDCWD, path, O_CREAT | O_WRONLY, 0600));
}

static int is_refused(void)
{
    growths++;
    if (growths != refused && !(refused_from && growths >= refused_from))
        return 0;
    mark();
    errno = ENOMEM;
    return 1;
}

void *malloc(size_t size)
{
    return is_refused() ? NULL : __libc_malloc(size);
}

void *calloc(size_t count, size_t size)
{
    return is_refused() ? NULL : __libc_calloc(count, size);
}

void *realloc(void *block, size_t size)
{
    return is_refused() ? NULL : __libc_realloc(block, size);
}

static int fails(const char *call, int error)
{
    if (!failing || strcmp(failing, call))
        return 0;
    looks++;
    if (looks != fail_at && !(fail_from && looks >= fail_from))
        return 0;
    mark();
    errno = error;
    return 1;
}

ssize_t pread(int file, void *bytes, size_t count, off_t place)
{
    return fails("pread", EIO) ? -1 : syscall(SYS_pread64, file, bytes, count, place);
}

ssize_t pread64(int file, void *bytes, size_t count, off64_t place)
{
    return pread(file, bytes, count, place);
}

int flock(int file, int operation)
{
    return fails("flock", ENOLCK) ? -1 : (int)syscall(SYS_flock, file, operation);
}

int statx(int folder, const char *path, int flags, unsigned int mask, struct statx *facts)
{
    return fails("statx", EIO) ? -1 : (int)syscall(SYS_statx, folder, path, flags, mask, facts);
}

char *realpath(const char *path, char *whole)
{
    char *(*next)(const char *, char *);

    *(void **)&next = dlsym(RTLD_NEXT, "realpath");
    return fails("realpath", EIO) ? NULL : next(path, whole);
}
