// Preloaded into the program by crashes.sh: the program ends before one of the calls that change a file or a name, and
// the device then loses what it wasn't asked to keep.
//
//   STOP_AT=N   before which of these calls, from 1: the making of a file, pwrite, a write to a file, ftruncate, fsync, rename,
//               unlink; -1: when the program has ended
//   FATE=killed   what was done stays: the program ended, and not the machine
//   FATE=lost     nothing that wasn't synced is done
//   FATE=noise    each write that wasn't synced leaves any bytes, and names are changed
//   FATE=halves   each write that wasn't synced is done half, and names aren't changed
//   FATE=N        each such call has one of these fates, or is done, by the seed N
//
// A sync of a file keeps its bytes and its length, a sync of a folder the names in it. What a program that was killed, or
// ended, didn't ask to keep is noted in the file of the path PENDING, and what is noted there is lost with the rest by a
// program that begins with it.
//
//   FAIL_AT=N     that call fails, and the program goes on; nothing is lost
//   FAIL_FROM=N   that call and all later ones fail
//   DO_AT=N       before that call the shell does DO
//   SHORT_AT=N    the N-th read or write, also of a standard stream, moves one byte (SHORT=one), half of its bytes
//                 (SHORT=half), or none, since a signal comes (SHORT=again)
//   SINGLE_BYTES=1  each read of standard input gives one byte, so that a shell answers each line before it reads on
//
// Where the call is met, the file of the path MET is made. In the file of the path SYNCS stands how many calls of fsync were
// made by a program that has ended.

#define _GNU_SOURCE
#include <dirent.h>
#include <errno.h>
#include <fcntl.h>
#include <stdarg.h>
#include <stdio.h>
#include <stdlib.h>
#include <string.h>
#include <sys/stat.h>
#include <sys/syscall.h>
#include <unistd.h>

enum { STOPPED = 99, MOST_CALLS = 512, MOST_BYTES = 32768, MOST_FILES = 16, MOST_PATH = 600 };

enum kind { WRITE, LENGTH, MAKE, RENAME, UNLINK };

// A call that the device wasn't asked to keep.
struct call {
    enum kind kind;
    int file;
    off_t place, old_length, new_length;
    size_t count, old_count;
    // Of a name, its folder.
    dev_t folder_device;
    ino_t folder_inode;
    char old_bytes[MOST_BYTES], new_bytes[MOST_BYTES];
    char from[MOST_PATH], to[MOST_PATH], spare[MOST_PATH];
};

static struct call calls[MOST_CALLS];
static int call_count;
static struct { dev_t device; ino_t inode; int descriptor; } files[MOST_FILES];
static int file_count;
static long changes, stopped_at, failed_at, failed_from, done_at, moves, short_at;
static int spares, syncs;

static void load_pending(const char *path);

static void give_up(const char *why)
{
    dprintf(2, "crash: %s\n", why);
    _exit(98);
}

static long number_of(const char *name)
{
    const char *text = getenv(name);
    return text ? atol(text) : 0;
}

__attribute__((constructor)) static void start(void)
{
    stopped_at = number_of("STOP_AT");
    failed_at = number_of("FAIL_AT");
    failed_from = number_of("FAIL_FROM");
    done_at = number_of("DO_AT");
    short_at = number_of("SHORT_AT");
    if (getenv("PENDING"))
        load_pending(getenv("PENDING"));
}

static void mark(void)
{
    const char *path = getenv("MET");
    if (path)
        close((int)syscall(SYS_openat, AT_FDCWD, path, O_CREAT | O_WRONLY, 0600));
}

static off_t length_of(int file)
{
    struct stat about;
    if (fstat(file, &about) != 0)
        give_up("fstat");
    return about.st_size;
}

static int is_folder(int file)
{
    struct stat about;
    return fstat(file, &about) == 0 && S_ISDIR(about.st_mode);
}

// A descriptor of our own for an open file, which stays when the program closes its own.
static int file_of(int descriptor)
{
    struct stat about;
    char path[64];
    if (fstat(descriptor, &about) != 0)
        give_up("fstat");
    for (int i = 0; i < file_count; i++)
        if (files[i].device == about.st_dev && files[i].inode == about.st_ino)
            return files[i].descriptor;
    snprintf(path, sizeof path, "/proc/self/fd/%d", descriptor);
    int own = (int)syscall(SYS_openat, AT_FDCWD, path, O_RDWR | O_CLOEXEC, 0);
    if (own < 0)
        own = fcntl(descriptor, F_DUPFD_CLOEXEC, 3);
    if (own < 0 || file_count == MOST_FILES)
        give_up("a file can't be opened again");
    files[file_count].device = about.st_dev;
    files[file_count].inode = about.st_ino;
    files[file_count++].descriptor = own;
    return own;
}

// The folder of a path, which is one that the program was given, or without links.
static void folder_of(const char *path, char *folder)
{
    const char *end = strrchr(path, '/');
    snprintf(folder, MOST_PATH, "%.*s", end ? (int)(end - path) + 1 : 1, end ? path : ".");
}

static void note_folder(struct call *call)
{
    char folder[MOST_PATH];
    struct stat about;
    folder_of(call->from, folder);
    if (stat(folder, &about) != 0)
        give_up("stat");
    call->folder_device = about.st_dev;
    call->folder_inode = about.st_ino;
}

// A name in its folder that an open file has, or none.
static void name_of(int descriptor, char *path)
{
    char link[64], folder[MOST_PATH];
    struct stat about, there;
    snprintf(link, sizeof link, "/proc/self/fd/%d", descriptor);
    ssize_t length = readlink(link, path, MOST_PATH - 1);
    if (length < 0 || fstat(descriptor, &about) != 0)
        give_up("readlink");
    path[length] = 0;
    folder_of(path, folder);
    path[0] = 0;
    DIR *all = opendir(folder);
    for (struct dirent *one = all ? readdir(all) : NULL; one && !path[0]; one = readdir(all))
        if (one->d_ino == about.st_ino && fstatat(dirfd(all), one->d_name, &there, AT_SYMLINK_NOFOLLOW) == 0 && there.st_dev == about.st_dev)
            snprintf(path, MOST_PATH, "%.250s%.250s", folder, one->d_name);
    if (all)
        closedir(all);
}

static int index_of(int descriptor)
{
    for (int i = 0; i < file_count; i++)
        if (files[i].descriptor == descriptor)
            return i;
    return -1;
}

static void save_pending(const char *path)
{
    char name[MOST_PATH];
    FILE *to = fopen(path, "w");
    if (!to)
        give_up("what is pending can't be noted");
    fwrite(&file_count, sizeof file_count, 1, to);
    fwrite(&call_count, sizeof call_count, 1, to);
    for (int i = 0; i < file_count; i++) {
        name_of(files[i].descriptor, name);
        fwrite(name, sizeof name, 1, to);
    }
    for (int i = 0; i < call_count; i++) {
        calls[i].file = index_of(calls[i].file);
        fwrite(&calls[i], sizeof calls[i], 1, to);
    }
    if (fclose(to) != 0)
        give_up("what is pending can't be noted");
}

static int open_again(const char *path)
{
    struct stat about;
    int own = path[0] ? (int)syscall(SYS_openat, AT_FDCWD, path, O_RDWR | O_CLOEXEC, 0) : -1;
    if (own < 0 || fstat(own, &about) != 0 || file_count == MOST_FILES)
        return -1;
    files[file_count].device = about.st_dev;
    files[file_count].inode = about.st_ino;
    files[file_count++].descriptor = own;
    return own;
}

// Of a file that is gone nothing is left to be lost.
static void load_pending(const char *path)
{
    char name[MOST_PATH];
    int names = 0, count = 0, descriptors[MOST_FILES];
    FILE *from = fopen(path, "r");
    if (!from)
        return;
    if (fread(&names, sizeof names, 1, from) != 1 || fread(&count, sizeof count, 1, from) != 1)
        give_up("what is pending can't be read");
    for (int i = 0; i < names; i++)
        descriptors[i] = fread(name, sizeof name, 1, from) == 1 ? open_again(name) : -1;
    for (int i = 0; i < count; i++) {
        struct call *call = &calls[call_count];
        if (fread(call, sizeof *call, 1, from) != 1)
            give_up("what is pending can't be read");
        int is_name = call->kind == MAKE || call->kind == RENAME || call->kind == UNLINK;
        if (!is_name)
            call->file = call->file < 0 ? -1 : descriptors[call->file];
        if (is_name || call->file >= 0)
            call_count++;
    }
    memset(&calls[call_count], 0, sizeof calls[0]);
    fclose(from);
}

static struct call *another(enum kind kind)
{
    if (call_count == MOST_CALLS)
        give_up("too many calls");
    struct call *call = &calls[call_count++];
    call->kind = kind;
    return call;
}

static void put(int file, const char *bytes, size_t count, off_t place)
{
    if (syscall(SYS_pwrite64, file, bytes, count, place) != (ssize_t)count)
        give_up("pwrite");
}

static void name(const char *from, const char *to)
{
    if (syscall(SYS_rename, from, to) != 0)
        give_up("rename");
}

// The files as the device has them when none of these calls is done.
static void undo(struct call *call)
{
    switch (call->kind) {
    case WRITE:
        put(call->file, call->old_bytes, call->old_count, call->place);
        syscall(SYS_ftruncate, call->file, call->old_length);
        break;
    case LENGTH:
        syscall(SYS_ftruncate, call->file, call->old_length);
        put(call->file, call->old_bytes, call->old_count, call->place);
        break;
    case MAKE:
        name(call->from, call->spare);
        break;
    case RENAME:
        name(call->to, call->from);
        if (call->spare[0])
            name(call->spare, call->to);
        break;
    case UNLINK:
        name(call->spare, call->from);
        break;
    }
}

// Where the file is that a call gives another name: it has none since its making, which was an earlier call, is undone, or
// it has its name.
static const char *place_of(const struct call *renaming)
{
    for (const struct call *call = renaming - 1; call >= calls; call--)
        if (call->kind == MAKE && !strcmp(call->from, renaming->from))
            return access(call->spare, F_OK) == 0 ? call->spare : renaming->from;
    return renaming->from;
}

enum fate { DONE, LOST, HALF, NOISE };

static enum fate fate_of(unsigned *seed)
{
    const char *fate = getenv("FATE");
    if (!fate || !strcmp(fate, "killed"))
        return DONE;
    if (!strcmp(fate, "lost"))
        return LOST;
    if (!strcmp(fate, "noise"))
        return NOISE;
    if (!strcmp(fate, "halves"))
        return HALF;
    *seed = *seed * 1103515245 + 12345;
    return (enum fate)(*seed >> 16 & 3);
}

static void redo(struct call *call, enum fate fate)
{
    char noise[MOST_BYTES];
    if (fate == LOST)
        return;
    switch (call->kind) {
    case WRITE:
        for (size_t i = 0; i < call->count; i++)
            noise[i] = (char)(rand() >> 7);
        put(call->file, fate == NOISE ? noise : call->new_bytes, fate == HALF ? call->count / 2 : call->count, call->place);
        break;
    case LENGTH:
        syscall(SYS_ftruncate, call->file, call->new_length);
        break;
    case MAKE:
        if (fate != HALF)
            name(call->spare, call->from);
        break;
    case RENAME:
        if (fate != HALF)
            name(place_of(call), call->to);
        break;
    case UNLINK:
        if (fate != HALF)
            syscall(SYS_unlink, call->from);
        break;
    }
}

static void drop_spares(void)
{
    for (int i = 0; i < call_count; i++)
        if (calls[i].spare[0])
            syscall(SYS_unlink, calls[i].spare);
}

static void crash(void)
{
    const char *fate = getenv("FATE");
    unsigned seed = fate ? (unsigned)atol(fate) : 0;
    mark();
    if (getenv("PENDING") && fate && !strcmp(fate, "killed")) {
        save_pending(getenv("PENDING"));
        _exit(STOPPED);
    }
    srand(seed + (unsigned)stopped_at);
    for (int i = call_count - 1; i >= 0; i--)
        undo(&calls[i]);
    for (int i = 0; i < call_count; i++)
        redo(&calls[i], fate_of(&seed));
    drop_spares();
    _exit(STOPPED);
}

static void tell_syncs(const char *path)
{
    FILE *to = fopen(path, "w");
    if (!to || fprintf(to, "%d\n", syncs) < 0 || fclose(to) != 0)
        give_up("the syncs can't be noted");
}

__attribute__((destructor)) static void end(void)
{
    if (getenv("SYNCS"))
        tell_syncs(getenv("SYNCS"));
    if (stopped_at == -1)
        crash();
    if (getenv("PENDING"))
        save_pending(getenv("PENDING"));
    else
        drop_spares();
}

// Counts a call. Whether it fails.
static int fails(void)
{
    if (++changes == stopped_at)
        crash();
    if (changes == done_at) {
        mark();
        unsetenv("LD_PRELOAD");
        if (system(getenv("DO")) != 0)
            give_up("the shell failed");
    }
    if (changes != failed_at && !(failed_from && changes >= failed_from))
        return 0;
    mark();
    errno = ENOSPC;
    return 1;
}

// Forgets the calls that a sync keeps: of this file, or of the names in it where it is a folder.
static void keep(int descriptor)
{
    struct stat about;
    int names = is_folder(descriptor), file = names ? -1 : file_of(descriptor), kept = 0;
    if (fstat(descriptor, &about) != 0)
        give_up("fstat");
    for (int i = 0; i < call_count; i++) {
        struct call *call = &calls[i];
        int is_name = call->kind == MAKE || call->kind == RENAME || call->kind == UNLINK;
        int is_within = call->folder_device == about.st_dev && call->folder_inode == about.st_ino;
        if (is_name ? names && is_within : !names && call->file == file) {
            if (is_name && call->kind != MAKE && call->spare[0])
                syscall(SYS_unlink, call->spare);
            continue;
        }
        if (kept != i)
            calls[kept] = *call;
        kept++;
    }
    memset(&calls[kept], 0, (size_t)(call_count - kept) * sizeof calls[0]);
    call_count = kept;
}

// How many bytes a read or a write is to move, or -1 where a signal comes first.
static ssize_t moved(size_t count)
{
    if (++moves != short_at || count == 0)
        return (ssize_t)count;
    const char *how = getenv("SHORT");
    mark();
    if (how && !strcmp(how, "again")) {
        errno = EINTR;
        return -1;
    }
    return how && !strcmp(how, "half") && count > 1 ? (ssize_t)(count / 2) : 1;
}

ssize_t read(int file, void *bytes, size_t count)
{
    if (file == 0 && count > 1 && getenv("SINGLE_BYTES"))
        count = 1;
    ssize_t most = moved(count);
    return most < 0 ? -1 : syscall(SYS_read, file, bytes, (size_t)most);
}

ssize_t pread(int file, void *bytes, size_t count, off_t place)
{
    ssize_t most = moved(count);
    return most < 0 ? -1 : syscall(SYS_pread64, file, bytes, (size_t)most, place);
}

ssize_t pread64(int file, void *bytes, size_t count, off64_t place)
{
    return pread(file, bytes, count, place);
}

static ssize_t written(int descriptor, const void *bytes, size_t count, off_t place)
{
    ssize_t most = moved(count);
    if (most < 0 || fails())
        return -1;
    count = (size_t)most;
    if (count > MOST_BYTES)
        give_up("a long write");
    struct call *call = another(WRITE);
    call->file = file_of(descriptor);
    call->place = place;
    call->count = count;
    call->old_length = length_of(call->file);
    ssize_t old = syscall(SYS_pread64, call->file, call->old_bytes, count, place);
    call->old_count = old < 0 ? 0 : (size_t)old;
    memcpy(call->new_bytes, bytes, count);
    return syscall(SYS_pwrite64, descriptor, bytes, count, place);
}

ssize_t pwrite(int file, const void *bytes, size_t count, off_t place)
{
    return written(file, bytes, count, place);
}

ssize_t pwrite64(int file, const void *bytes, size_t count, off64_t place)
{
    return written(file, bytes, count, place);
}

ssize_t write(int file, const void *bytes, size_t count)
{
    if (file <= 2) {
        ssize_t most = moved(count);
        return most < 0 ? -1 : syscall(SYS_write, file, bytes, (size_t)most);
    }
    off_t place = lseek(file, 0, SEEK_CUR);
    ssize_t done = written(file, bytes, count, place);
    if (done > 0)
        lseek(file, place + done, SEEK_SET);
    return done;
}

// Whether a file has zeros alone from a place on: these come back with its length.
static int ends_in_zeros(int file, off_t place)
{
    char bytes[4096];
    ssize_t count;
    while ((count = syscall(SYS_pread64, file, bytes, sizeof bytes, place)) > 0) {
        for (ssize_t i = 0; i < count; i++)
            if (bytes[i])
                return 0;
        place += count;
    }
    return count == 0;
}

static int set_length(int descriptor, off_t length)
{
    if (fails())
        return -1;
    struct call *call = another(LENGTH);
    call->file = file_of(descriptor);
    call->old_length = length_of(call->file);
    call->new_length = length;
    call->place = length;
    int is_zero = ends_in_zeros(call->file, length);
    if (!is_zero && call->old_length - length > MOST_BYTES)
        give_up("a long cut");
    ssize_t old = length < call->old_length && !is_zero
                      ? syscall(SYS_pread64, call->file, call->old_bytes, (size_t)(call->old_length - length), length)
                      : 0;
    call->old_count = old < 0 ? 0 : (size_t)old;
    return (int)syscall(SYS_ftruncate, descriptor, length);
}

int ftruncate(int file, off_t length)
{
    return set_length(file, length);
}

int ftruncate64(int file, off64_t length)
{
    return set_length(file, length);
}

int fsync(int file)
{
    if (fails())
        return -1;
    int done = (int)syscall(SYS_fsync, file);
    syncs++;
    keep(file);
    return done;
}

int fdatasync(int file)
{
    return fsync(file);
}

static int opened(const char *path, int flags, int mode)
{
    int makes = (flags & O_CREAT) && access(path, F_OK) != 0;
    if (makes && fails())
        return -1;
    int file = (int)syscall(SYS_openat, AT_FDCWD, path, flags, mode);
    if (!makes || file < 0)
        return file;
    struct call *call = another(MAKE);
    snprintf(call->from, sizeof call->from, "%s", path);
    snprintf(call->spare, sizeof call->spare, "%.500s.spare%d.%d", path, (int)getpid(), spares++);
    note_folder(call);
    return file;
}

int open(const char *path, int flags, ...)
{
    va_list more;
    va_start(more, flags);
    int mode = va_arg(more, int);
    va_end(more);
    return opened(path, flags, mode);
}

int open64(const char *path, int flags, ...)
{
    va_list more;
    va_start(more, flags);
    int mode = va_arg(more, int);
    va_end(more);
    return opened(path, flags, mode);
}

// Another name for a file that is going to lose this one.
static void spare(struct call *call, const char *path)
{
    snprintf(call->spare, sizeof call->spare, "%.500s.spare%d.%d", path, (int)getpid(), spares++);
    if (syscall(SYS_link, path, call->spare) != 0)
        call->spare[0] = 0;
}

int rename(const char *from, const char *to)
{
    if (fails())
        return -1;
    struct call *call = another(RENAME);
    snprintf(call->from, sizeof call->from, "%s", from);
    snprintf(call->to, sizeof call->to, "%s", to);
    note_folder(call);
    spare(call, to);
    int done = (int)syscall(SYS_rename, from, to);
    if (done != 0)
        call_count--;
    return done;
}

int unlink(const char *path)
{
    if (fails())
        return -1;
    struct call *call = another(UNLINK);
    snprintf(call->from, sizeof call->from, "%s", path);
    note_folder(call);
    spare(call, path);
    int done = (int)syscall(SYS_unlink, path);
    if (done != 0)
        call_count--;
    return done;
}
