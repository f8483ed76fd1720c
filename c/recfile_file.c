/* Page files of the system's: their lock, their pages, and the side file in which old pages stand until a closing is
 * whole. The side file's bytes are told in docs/FORMAT.md. */
#ifndef _GNU_SOURCE
#define _GNU_SOURCE
#endif
#ifndef _FILE_OFFSET_BITS
#define _FILE_OFFSET_BITS 64
#endif

#include "recfile_file.h"

#include <errno.h>
#include <fcntl.h>
#include <limits.h>
#include <stdio.h>
#include <stdlib.h>
#include <string.h>
#include <sys/file.h>
#include <sys/stat.h>
#include <unistd.h>

enum { PAGE = 4096, HEADER = 40, OLD_HEADER = 32, ENTRY = 4100, MOST_PAGES = 1000001, MOST_NAME = 255 };

/* Where the fields of a side file's header stand; the first version has its sum where the second says the rest. */
enum { VERSION_AT = 8, LONG_AT = 12, KEPT_AT = 16, REST_AT = 24, OLD_SUM_AT = 24, SUM_AT = 32, VERSION = 2 };

static const uint8_t magic[8] = {'B', 'M', 'K', 'R', 'J', 'R', 'N', 'L'};

/* What a side file says: its version, how many pages the file had, how many of them are kept, and the sum over the others. */
typedef struct {
    uint16_t version;
    uint32_t length, kept;
    uint64_t rest;
} side_shape;

static const uint64_t sum_start = 0xcbf29ce484222325u, sum_prime = 0x100000001b3u;

/* A file's path without links, and those of its side file, of the one that is being made, of its log of commits, and of the
 * folder. */
typedef struct {
    char *file;
    char side[PATH_MAX + 16];
    char fresh[PATH_MAX + 16];
    char log[PATH_MAX + 16];
    char folder[PATH_MAX];
} names;

const char *recfile_status_text(int32_t status) {
    static const char *const texts[] = {
        [RECFILE_OK] = "ok",
        [RECFILE_CLOSED] = "the handle has no open file",
        [RECFILE_EMPTY_KEY] = "a key has at least one byte",
        [RECFILE_LONG_KEY] = "a key has at most 16 bytes",
        [RECFILE_LONG_RECORD] = "a record has at most 100 bytes",
        [RECFILE_BEGINS_SPENT] = "as many transactions were begun as may be",
        [RECFILE_NO_SUCH_TX] = "no such open transaction",
        [RECFILE_ROLLING] = "the transaction is being rolled back",
        [RECFILE_NOT_ROLLING] = "the transaction isn't being rolled back",
        [RECFILE_HELD] = "another transaction holds the key",
        [RECFILE_LOG_FULL] = "the log is full",
        [RECFILE_DEVICE] = "the device failed",
        [RECFILE_DAMAGED] = "a page is damaged",
        [RECFILE_FULL] = "the file has as many records as it may",
        [RECFILE_ABSENT] = "the key has no record",
        [RECFILE_TOO_DEEP] = "the transaction has 32 savepoints",
        [RECFILE_NO_SUCH_SAVE] = "no such savepoint",
        [RECFILE_STOPPED] = "a rollback stopped",
        [RECFILE_MEMORY] = "out of memory",
        [RECFILE_NO_SUCH_ENTRY] = "the list has no such entry",
        [RECFILE_NOT_CLOSED] = "the handle isn't closed, or has no steps",
        [RECFILE_BAD_RECORDS] = "the records limit is 1 to 1,000,000",
        [RECFILE_BAD_LOG] = "the log limit is 2 to 4,000,000",
        [RECFILE_BAD_BEGINS] = "the begins limit is 1 to 1,000,000",
        [RECFILE_STILL_OPEN] = "transactions have not ended",
        [RECFILE_BAD_LENGTH] = "the file has a length that no record file has",
        [RECFILE_BAD_MAGIC] = "the file is no record file",
        [RECFILE_BAD_VERSION] = "the file has another version",
        [RECFILE_BAD_ORDER] = "the order of the tree is not from 1 to 16",
        [RECFILE_NOT_CLEAN] = "the file was not closed cleanly",
        [RECFILE_BAD_HEADER] = "the header is not that of this file",
        [RECFILE_WRONG_COUNT] = "the header tells another number of records",
        [RECFILE_TOO_MANY_RECORDS] = "the file has more records than the limit",
        [RECFILE_BAD_JOURNAL] = "the side file isn't one of this file",
    };
    if (status < 0 || (size_t)status >= sizeof texts / sizeof texts[0])
        return "no such status";
    return texts[status];
}

static int32_t failed(recfile_failure *failure, const char *call) {
    failure->call = call;
    failure->error = errno;
    return RECFILE_DEVICE;
}

static void no_failure(recfile_failure *failure) {
    failure->call = NULL;
    failure->error = 0;
}

/* Reads or writes so many bytes from a place on. 0, or -1 with errno. */
static int move(int descriptor, uint8_t *bytes, size_t count, off_t place, int writes) {
    size_t done = 0;
    while (done < count) {
        off_t at = place + (off_t)done;
        ssize_t moved = writes ? pwrite(descriptor, bytes + done, count - done, at)
                               : pread(descriptor, bytes + done, count - done, at);
        if (moved < 0 && errno == EINTR)
            continue;
        if (moved <= 0) {
            if (moved == 0)
                errno = EIO;
            return -1;
        }
        done += (size_t)moved;
    }
    return 0;
}

static uint32_t number_at(const uint8_t *bytes) {
    return (uint32_t)bytes[0] << 24 | (uint32_t)bytes[1] << 16 | (uint32_t)bytes[2] << 8 | bytes[3];
}

static uint64_t long_number_at(const uint8_t *bytes) {
    return (uint64_t)number_at(bytes) << 32 | number_at(bytes + 4);
}

static void put_number(uint8_t *bytes, uint64_t number, int width) {
    for (int i = 0; i < width; i++)
        bytes[i] = (uint8_t)(number >> 8 * (width - 1 - i));
}

/* The sum goes on over these bytes, by words of four. */
static uint64_t sum_on(uint64_t sum, const uint8_t *bytes, size_t count) {
    for (size_t i = 0; i + 4 <= count; i += 4)
        sum = (sum ^ number_at(bytes + i)) * sum_prime;
    return sum;
}

/* Whether the name at the end of a path leaves no room for those of a side file. */
static int is_too_long(const char *path) {
    const char *slash = strrchr(path, '/');
    return strlen(slash ? slash + 1 : path) + strlen("-journal-new") > MOST_NAME;
}

/* The names of an open file, whose path still leads to it. OK, DEVICE. They are to be freed. */
static int32_t find_names(names *to, const char *path, int descriptor, recfile_failure *failure) {
    struct stat opened, named;
    to->file = realpath(path, NULL);
    if (to->file == NULL)
        return failed(failure, "realpath");
    if (fstat(descriptor, &opened) != 0 || stat(to->file, &named) != 0 || opened.st_dev != named.st_dev
        || opened.st_ino != named.st_ino || opened.st_nlink != 1 || !S_ISREG(opened.st_mode)) {
        free(to->file);
        errno = ESTALE;
        return failed(failure, "stat");
    }
    if (is_too_long(to->file)) {
        free(to->file);
        errno = ENAMETOOLONG;
        return failed(failure, "realpath");
    }
    snprintf(to->side, sizeof to->side, "%s-journal", to->file);
    snprintf(to->fresh, sizeof to->fresh, "%s-journal-new", to->file);
    snprintf(to->log, sizeof to->log, "%s-commits", to->file);
    snprintf(to->folder, sizeof to->folder, "%s", to->file);
    to->folder[strrchr(to->folder, '/') - to->folder + 1] = 0;
    return RECFILE_OK;
}

/* Has the device keep the names in the folder. */
static int32_t sync_names(const names *at, recfile_failure *failure) {
    int folder = open(at->folder, O_RDONLY | O_DIRECTORY | O_CLOEXEC);
    if (folder < 0)
        return failed(failure, "open");
    int32_t status = fsync(folder) == 0 ? RECFILE_OK : failed(failure, "fsync");
    close(folder);
    return status;
}

/* How many bytes stand before the pages of a side file. */
static off_t header_width(const side_shape *shape) {
    return shape->version == VERSION ? HEADER : OLD_HEADER;
}

/* The header of a side file that says this, with that sum over the pages that are kept. */
static void spell_header(uint8_t header[HEADER], const side_shape *shape, uint64_t sum) {
    int sum_at = shape->version == VERSION ? SUM_AT : OLD_SUM_AT;
    memset(header, 0, HEADER);
    memcpy(header, magic, sizeof magic);
    put_number(header + VERSION_AT, shape->version, 2);
    put_number(header + LONG_AT, shape->length, 4);
    put_number(header + KEPT_AT, shape->kept, 4);
    if (shape->version == VERSION)
        put_number(header + REST_AT, shape->rest, 8);
    put_number(header + sum_at, sum_on(sum, header, (size_t)sum_at), 8);
}

/* What a header says; what is no second version is held to be a first one. */
static side_shape shape_of(const uint8_t header[HEADER]) {
    side_shape shape = {.version = 1, .length = number_at(header + LONG_AT), .kept = number_at(header + KEPT_AT)};
    if (header[VERSION_AT] == 0 && header[VERSION_AT + 1] == VERSION) {
        shape.version = VERSION;
        shape.rest = long_number_at(header + REST_AT);
    }
    return shape;
}

/* The sum goes on over the pages of a file from one to below another. 0, or -1 with errno. */
static int sum_pages(int descriptor, uint32_t from, uint32_t to, uint64_t *sum) {
    uint8_t page[PAGE];
    for (uint32_t n = from; n < to; n++) {
        if (move(descriptor, page, PAGE, (off_t)n * PAGE, 0) != 0)
            return -1;
        *sum = sum_on(*sum, page, PAGE);
    }
    return 0;
}

/* Looks at a side file beside an open file that has so many pages: whether it is whole, and one of this file. OK, DEVICE,
 * BAD_JOURNAL. */
static int32_t look_at_side(int side, int descriptor, uint64_t pages, side_shape *shape, recfile_failure *failure) {
    struct stat about;
    uint8_t header[HEADER], wanted[HEADER], entry[ENTRY];
    uint64_t sum = sum_start, rest = sum_start;
    uint32_t least = 0;
    if (fstat(side, &about) != 0)
        return failed(failure, "fstat");
    if (about.st_size < HEADER)
        return RECFILE_BAD_JOURNAL;
    if (move(side, header, HEADER, 0, 0) != 0)
        return failed(failure, "pread");
    *shape = shape_of(header);
    off_t width = header_width(shape);
    if (about.st_size != width + (off_t)shape->kept * ENTRY || shape->kept == 0 || shape->length > MOST_PAGES
        || pages < shape->length)
        return RECFILE_BAD_JOURNAL;
    for (uint32_t i = 0; i < shape->kept; i++) {
        if (move(side, entry, ENTRY, width + (off_t)i * ENTRY, 0) != 0)
            return failed(failure, "pread");
        uint32_t n = number_at(entry);
        if (n < least || n >= shape->length || (i == 0 && n != 0))
            return RECFILE_BAD_JOURNAL;
        if (shape->version == VERSION && sum_pages(descriptor, least, n, &rest) != 0)
            return failed(failure, "pread");
        least = n + 1;
        sum = sum_on(sum, entry, ENTRY);
    }
    if (shape->version == VERSION && sum_pages(descriptor, least, shape->length, &rest) != 0)
        return failed(failure, "pread");
    spell_header(wanted, shape, sum);
    if (memcmp(header, wanted, (size_t)width) != 0 || (shape->version == VERSION && rest != shape->rest))
        return RECFILE_BAD_JOURNAL;
    return RECFILE_OK;
}

/* Takes the side file away. */
static int32_t remove_side(const names *at, recfile_failure *failure) {
    if (unlink(at->side) != 0)
        return failed(failure, "unlink");
    return sync_names(at, failure);
}

/* Cuts the file to its old length, puts the old pages back, and takes the side file away. */
static int32_t put_back(const names *at, int descriptor, int side, const side_shape *shape, recfile_failure *failure) {
    uint8_t entry[ENTRY];
    if (ftruncate(descriptor, (off_t)shape->length * PAGE) != 0)
        return failed(failure, "ftruncate");
    for (uint32_t i = 0; i < shape->kept; i++) {
        if (move(side, entry, ENTRY, header_width(shape) + (off_t)i * ENTRY, 0) != 0)
            return failed(failure, "pread");
        if (move(descriptor, entry + 4, PAGE, (off_t)number_at(entry) * PAGE, 1) != 0)
            return failed(failure, "pwrite");
    }
    if (fsync(descriptor) != 0)
        return failed(failure, "fsync");
    return remove_side(at, failure);
}

/* Opens the side file, which must be a regular one; one that a stop left with the mode of its making gets that of the file.
 * -1 with errno. */
static int open_side(const names *at, int descriptor) {
    struct stat side, about;
    if (stat(at->side, &side) != 0 || fstat(descriptor, &about) != 0)
        return -1;
    if (!S_ISREG(side.st_mode)) {
        errno = EINVAL;
        return -1;
    }
    if ((side.st_mode & 0777) == 0 && chmod(at->side, about.st_mode & 0777) != 0)
        return -1;
    return open(at->side, O_RDONLY | O_CLOEXEC);
}

/* Removes what a stop left of a side file that was being made: what is empty, what nobody may open, and what begins as a
 * side file does. OK, DEVICE, BAD_JOURNAL. */
static int32_t remove_fresh(const names *at, recfile_failure *failure) {
    struct stat about;
    uint8_t bytes[sizeof magic];
    if (lstat(at->fresh, &about) != 0)
        return errno == ENOENT ? RECFILE_OK : failed(failure, "lstat");
    if (!S_ISREG(about.st_mode))
        return RECFILE_BAD_JOURNAL;
    if (about.st_size > 0 && (about.st_mode & 0777) != 0) {
        int fresh = open(at->fresh, O_RDONLY | O_CLOEXEC);
        if (fresh < 0)
            return failed(failure, "open");
        ssize_t count = pread(fresh, bytes, sizeof bytes, 0);
        close(fresh);
        if (count != (ssize_t)sizeof bytes || memcmp(bytes, magic, sizeof magic) != 0)
            return RECFILE_BAD_JOURNAL;
    }
    return unlink(at->fresh) == 0 ? RECFILE_OK : failed(failure, "unlink");
}

/* Puts the old pages back where there is a side file. */
static int32_t put_back_named(const names *at, int descriptor, recfile_failure *failure) {
    struct stat about;
    side_shape shape;
    int side = open_side(at, descriptor);
    if (side < 0)
        return errno == ENOENT ? RECFILE_OK : failed(failure, "open");
    int32_t status = fstat(descriptor, &about) == 0
                         ? look_at_side(side, descriptor, (uint64_t)about.st_size / PAGE, &shape, failure)
                         : failed(failure, "fstat");
    if (status == RECFILE_OK)
        status = fsync(side) == 0 ? put_back(at, descriptor, side, &shape, failure) : failed(failure, "fsync");
    close(side);
    return status;
}

/* Answers OK where nothing has the name of a log of commits, which the program recfile alone puts in: whoever writes the file
 * without it would lose them. Else this status, or DEVICE. */
static int32_t expect_no_log(const names *at, int32_t otherwise, recfile_failure *failure) {
    struct stat about;
    if (lstat(at->log, &about) == 0)
        return otherwise;
    return errno == ENOENT ? RECFILE_OK : failed(failure, "lstat");
}

static int32_t restore_at(const names *at, int descriptor, recfile_failure *failure) {
    int32_t status = expect_no_log(at, RECFILE_NOT_CLEAN, failure);
    if (status == RECFILE_OK)
        status = put_back_named(at, descriptor, failure);
    if (status != RECFILE_OK)
        return status;
    status = remove_fresh(at, failure);
    if (status != RECFILE_OK)
        return status;
    if (fsync(descriptor) != 0)
        return failed(failure, "fsync");
    return sync_names(at, failure);
}

int32_t recfile_restore(const char *path, int descriptor, recfile_failure *failure) {
    names at;
    no_failure(failure);
    if (flock(descriptor, LOCK_EX | LOCK_NB) != 0)
        return failed(failure, "flock");
    int32_t status = find_names(&at, path, descriptor, failure);
    if (status != RECFILE_OK)
        return status;
    status = restore_at(&at, descriptor, failure);
    free(at.file);
    return status;
}

int32_t recfile_read_file(recfile *file, int descriptor, recfile_failure *failure) {
    struct stat about;
    uint8_t page[PAGE];
    no_failure(failure);
    if (fstat(descriptor, &about) != 0)
        return failed(failure, "fstat");
    if (about.st_size % PAGE != 0)
        return RECFILE_BAD_LENGTH;
    for (off_t at = 0; at < about.st_size; at += PAGE) {
        if (move(descriptor, page, PAGE, at, 0) != 0)
            return failed(failure, "pread");
        int32_t status = recfile_page(file, page);
        if (status != RECFILE_OK)
            return status;
    }
    return RECFILE_OK;
}

int32_t recfile_carry_out(recfile *file, int descriptor, recfile_failure *failure) {
    uint64_t count = 0;
    uint8_t page[PAGE];
    recfile_step_shown step;
    no_failure(failure);
    int32_t status = recfile_step_count(file, &count);
    for (uint64_t i = 0; i < count && status == RECFILE_OK; i++) {
        status = recfile_step(file, i, &step, page);
        if (status != RECFILE_OK)
            return status;
        if (step.kind == RECFILE_SET_PAGES && ftruncate(descriptor, (off_t)step.number * PAGE) != 0)
            return failed(failure, "ftruncate");
        if (step.kind == RECFILE_WRITE && move(descriptor, page, PAGE, (off_t)step.number * PAGE, 1) != 0)
            return failed(failure, "pwrite");
        if (step.kind == RECFILE_SYNC && fsync(descriptor) != 0)
            return failed(failure, "fsync");
    }
    return status;
}

/* Says of each of so many pages whether a step writes it. */
static int32_t find_written(recfile *file, uint64_t length, uint8_t *written) {
    uint64_t count = 0;
    uint8_t page[PAGE];
    recfile_step_shown step;
    int32_t status = recfile_step_count(file, &count);
    for (uint64_t i = 0; i < count && status == RECFILE_OK; i++) {
        status = recfile_step(file, i, &step, page);
        if (status == RECFILE_OK && step.kind == RECFILE_WRITE && step.number < length)
            written[step.number] = 1;
    }
    return status;
}

/* Writes a side file with the pages that will be written over, and has the device keep it. */
static int32_t fill_side(int side, int descriptor, uint32_t length, const uint8_t *written, recfile_failure *failure) {
    uint8_t header[HEADER], entry[ENTRY];
    uint64_t sum = sum_start;
    side_shape shape = {.version = VERSION, .length = length, .kept = 0, .rest = sum_start};
    for (uint32_t n = 0; n < length; n++) {
        put_number(entry, n, 4);
        if (move(descriptor, entry + 4, PAGE, (off_t)n * PAGE, 0) != 0)
            return failed(failure, "pread");
        if (!written[n]) {
            shape.rest = sum_on(shape.rest, entry + 4, PAGE);
            continue;
        }
        if (move(side, entry, ENTRY, HEADER + (off_t)shape.kept * ENTRY, 1) != 0)
            return failed(failure, "pwrite");
        sum = sum_on(sum, entry, ENTRY);
        shape.kept++;
    }
    spell_header(header, &shape, sum);
    if (move(side, header, HEADER, 0, 1) != 0)
        return failed(failure, "pwrite");
    return fsync(side) == 0 ? RECFILE_OK : failed(failure, "fsync");
}

/* Makes the side file, and gives it its name. */
static int32_t make_side(const names *at, int descriptor, const struct stat *about, const uint8_t *written,
                         recfile_failure *failure) {
    struct stat named;
    int side = open(at->fresh, O_RDWR | O_CREAT | O_EXCL | O_CLOEXEC, 0);
    if (side < 0)
        return failed(failure, "open");
    int32_t status = fill_side(side, descriptor, (uint32_t)(about->st_size / PAGE), written, failure);
    if (status == RECFILE_OK && fchmod(side, about->st_mode & 0777) != 0)
        status = failed(failure, "fchmod");
    close(side);
    if (status == RECFILE_OK
        && (stat(at->file, &named) != 0 || named.st_dev != about->st_dev || named.st_ino != about->st_ino)) {
        errno = ESTALE;
        status = failed(failure, "stat");
    }
    if (status == RECFILE_OK && rename(at->fresh, at->side) != 0)
        status = failed(failure, "rename");
    if (status != RECFILE_OK) {
        unlink(at->fresh);
        return status;
    }
    return sync_names(at, failure);
}

/* Carries the steps out with the pages that they write kept aside; where a call fails, the old ones are put back. */
static int32_t carry_out_at(recfile *file, const names *at, int descriptor, const struct stat *about,
                            const uint8_t *written, recfile_failure *failure) {
    recfile_failure second;
    int32_t status = make_side(at, descriptor, about, written, failure);
    if (status == RECFILE_OK)
        status = recfile_carry_out(file, descriptor, failure);
    if (status == RECFILE_OK)
        return remove_side(at, failure);
    put_back_named(at, descriptor, &second);
    return status;
}

/* Carries the steps of a new file out, and has the device keep its name. */
static int32_t carry_out_new(recfile *file, const char *path, int descriptor, recfile_failure *failure) {
    names at;
    int32_t status = find_names(&at, path, descriptor, failure);
    if (status != RECFILE_OK)
        return status;
    status = recfile_carry_out(file, descriptor, failure);
    if (status == RECFILE_OK)
        status = sync_names(&at, failure);
    free(at.file);
    return status;
}

int32_t recfile_carry_out_kept(recfile *file, const char *path, int descriptor, recfile_failure *failure) {
    names at;
    struct stat about;
    uint64_t count;
    no_failure(failure);
    int32_t status = recfile_step_count(file, &count);
    if (status != RECFILE_OK || count == 0)
        return status;
    if (fstat(descriptor, &about) != 0)
        return failed(failure, "fstat");
    if (about.st_size == 0)
        return carry_out_new(file, path, descriptor, failure);
    uint8_t *written = calloc((size_t)(about.st_size / PAGE) + 1, 1);
    if (written == NULL)
        return RECFILE_MEMORY;
    status = find_written(file, (uint64_t)about.st_size / PAGE, written);
    if (status == RECFILE_OK)
        status = find_names(&at, path, descriptor, failure);
    if (status == RECFILE_OK) {
        status = carry_out_at(file, &at, descriptor, &about, written, failure);
        free(at.file);
    }
    free(written);
    return status;
}

/* Answers a status, with a detail that has no more than it. */
static int32_t told(recfile_detail *detail, int32_t status) {
    memset(detail, 0, sizeof *detail);
    detail->status = status;
    return status;
}

/* Gives an opening up. */
static int32_t unopened(recfile *file, int *descriptor, int32_t status) {
    recfile_discard(file);
    close(*descriptor);
    *descriptor = -1;
    return status;
}

int32_t recfile_open_path(recfile *file, const char *path, uint32_t records, uint32_t log_records, uint32_t begins,
                          int *descriptor, recfile_detail *detail, recfile_failure *failure) {
    no_failure(failure);
    *descriptor = open(path, O_RDWR | O_CLOEXEC);
    if (*descriptor < 0)
        return told(detail, failed(failure, "open"));
    int32_t status = recfile_restore(path, *descriptor, failure);
    if (status == RECFILE_OK)
        status = recfile_read_file(file, *descriptor, failure);
    if (status == RECFILE_NOT_CLOSED) {
        close(*descriptor);
        *descriptor = -1;
        return told(detail, status);
    }
    if (status != RECFILE_OK)
        return unopened(file, descriptor, told(detail, status));
    status = recfile_open(file, records, log_records, begins, detail);
    return status == RECFILE_OK ? status : unopened(file, descriptor, status);
}

int32_t recfile_create_path(recfile *file, const char *path, uint16_t order, uint32_t records, uint32_t log_records,
                            uint32_t begins, int *descriptor, recfile_detail *detail, recfile_failure *failure) {
    names at;
    no_failure(failure);
    *descriptor = -1;
    int32_t status = recfile_create(file, order, records, log_records, begins, detail);
    if (status != RECFILE_OK)
        return status;
    errno = ENAMETOOLONG;
    if (!is_too_long(path))
        *descriptor = open(path, O_RDWR | O_CREAT | O_EXCL | O_CLOEXEC, 0666);
    if (*descriptor < 0) {
        recfile_discard(file);
        return told(detail, failed(failure, "open"));
    }
    status = flock(*descriptor, LOCK_EX | LOCK_NB) == 0 ? find_names(&at, path, *descriptor, failure)
                                                        : failed(failure, "flock");
    if (status == RECFILE_OK) {
        status = access(at.side, F_OK) == 0 ? RECFILE_BAD_JOURNAL : expect_no_log(&at, RECFILE_BAD_JOURNAL, failure);
        free(at.file);
    }
    if (status != RECFILE_OK) {
        unlink(path);
        return unopened(file, descriptor, told(detail, status));
    }
    return RECFILE_OK;
}

int32_t recfile_close_path(recfile *file, const char *path, int descriptor, recfile_detail *detail,
                           recfile_failure *failure) {
    no_failure(failure);
    int32_t status = recfile_close(file, detail);
    if (status != RECFILE_OK)
        return status;
    status = recfile_carry_out_kept(file, path, descriptor, failure);
    recfile_discard(file);
    close(descriptor);
    return told(detail, status);
}
