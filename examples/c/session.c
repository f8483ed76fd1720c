/* A session over a page file: two transactions, a partial rollback, a key that is held, a key that is claimed; then the
 * file is opened again.
 *
 *     session FILE          makes FILE, and opens it again
 *     session --list FILE   opens FILE, lists its records, and closes it
 */
#include "recfile_file.h"

#include <inttypes.h>
#include <stdio.h>
#include <stdlib.h>
#include <string.h>

/* Ends the program where a call did not answer as it should. */
static void check(int32_t status, int32_t expected, const char *what) {
    if (status != expected) {
        fprintf(stderr, "%s: status %" PRId32 "\n", what, status);
        exit(1);
    }
}

/* The same of a call that works on the file. */
static void check_file(int32_t status, recfile_failure failure, const char *path) {
    if (status == RECFILE_OK)
        return;
    fprintf(stderr, "%s: %s", path, recfile_status_text(status));
    if (failure.call != NULL)
        fprintf(stderr, ": %s: %s", failure.call, strerror(failure.error));
    fprintf(stderr, "\n");
    exit(1);
}

static const uint8_t *bytes(const char *text) { return (const uint8_t *)text; }

static int32_t put(recfile *file, uint32_t tx, const char *key, const char *value, recfile_detail *detail) {
    recfile_record before;
    int32_t status = recfile_put(file, tx, bytes(key), strlen(key), bytes(value), strlen(value), &before, detail);
    if (status == RECFILE_OK && before.is_there)
        printf("put %" PRIu32 " %s: before %.*s\n", tx, key, (int)before.len, (const char *)before.bytes);
    else if (status == RECFILE_OK)
        printf("put %" PRIu32 " %s: none before\n", tx, key);
    return status;
}

static int32_t claim(recfile *file, uint32_t tx, const char *key, recfile_detail *detail) {
    recfile_record seen;
    int32_t status = recfile_claim(file, tx, bytes(key), strlen(key), &seen, detail);
    if (status == RECFILE_OK && seen.is_there)
        printf("claim %" PRIu32 " %s: %.*s there\n", tx, key, (int)seen.len, (const char *)seen.bytes);
    else if (status == RECFILE_OK)
        printf("claim %" PRIu32 " %s: none there\n", tx, key);
    return status;
}

static void list(recfile *file) {
    recfile_detail detail;
    recfile_listed told;
    uint64_t count;
    check(recfile_entries(file, &count, &detail), RECFILE_OK, "entries");
    for (uint64_t i = 0; i < count; i++) {
        check(recfile_entry(file, i, &told), RECFILE_OK, "entry");
        printf("%.*s = %.*s", (int)told.key.len, (const char *)told.key.bytes, (int)told.value.len,
               (const char *)told.value.bytes);
        if (told.is_owned)
            printf(" (of %" PRIu32 ")", told.owner);
        printf("\n");
    }
    printf("%" PRIu64 " records\n", count);
}

static void list_keys(recfile *file, uint32_t tx) {
    recfile_key_bytes key;
    uint64_t count;
    check(recfile_keys_of(file, tx, &count), RECFILE_OK, "keys_of");
    for (uint64_t i = 0; i < count; i++) {
        check(recfile_key(file, i, &key), RECFILE_OK, "key");
        printf("%" PRIu32 " owns %.*s\n", tx, (int)key.len, (const char *)key.bytes);
    }
}

static void work(recfile *file) {
    recfile_detail detail;
    recfile_record found;
    uint32_t first, second, save, undone, length, use;
    check(recfile_begin(file, &first), RECFILE_OK, "begin");
    check(recfile_begin(file, &second), RECFILE_OK, "begin");
    check(put(file, first, "apple", "red", &detail), RECFILE_OK, "put");
    check(recfile_savepoint(file, first, &save), RECFILE_OK, "savepoint");
    check(put(file, first, "apple", "green", &detail), RECFILE_OK, "put");
    check(put(file, first, "plum", "dark blue", &detail), RECFILE_OK, "put");
    check(put(file, second, "pear", "yellow", &detail), RECFILE_OK, "put");
    check(put(file, first, "pear", "brown", &detail), RECFILE_HELD, "put");
    printf("pear is held by %" PRIu32 "\n", detail.owner);
    check(recfile_rollback_to(file, first, save, &undone, &detail), RECFILE_OK, "rollback_to");
    printf("%" PRIu32 " changes taken back\n", undone);
    check(recfile_get(file, first, bytes("apple"), 5, &found, &detail), RECFILE_OK, "get");
    printf("apple is %.*s\n", (int)found.len, (const char *)found.bytes);
    check(claim(file, second, "plum", &detail), RECFILE_OK, "claim");
    check(put(file, first, "plum", "blue", &detail), RECFILE_HELD, "put");
    printf("plum is held by %" PRIu32 "\n", detail.owner);
    list_keys(file, first);
    list_keys(file, second);
    list(file);
    check(recfile_log_len(file, &length), RECFILE_OK, "log_len");
    check(recfile_log_use(file, &use), RECFILE_OK, "log_use");
    printf("log %" PRIu32 " %" PRIu32 "\n", length, use);
    check(recfile_close(file, &detail), RECFILE_STILL_OPEN, "close");
    printf("%" PRIu32 " transactions are open\n", detail.left);
    check(recfile_commit(file, first), RECFILE_OK, "commit");
    check(recfile_abort(file, second, &undone, &detail), RECFILE_OK, "abort");
    printf("%" PRIu32 " changes taken back\n", undone);
}

/* Closes the file, so that it is the old one or the new one wherever this is stopped. */
static void finish(recfile *file, const char *path, int descriptor) {
    recfile_detail detail;
    recfile_failure failure;
    check_file(recfile_close_path(file, path, descriptor, &detail, &failure), failure, path);
    check(recfile_begin(file, &(uint32_t){0}), RECFILE_CLOSED, "begin");
}

static void make(recfile *file, const char *path) {
    recfile_detail detail;
    recfile_failure failure;
    int descriptor;
    check_file(recfile_create_path(file, path, 2, 1000, 1000, 1000, &descriptor, &detail, &failure), failure, path);
    work(file);
    finish(file, path, descriptor);
}

static void list_file(recfile *file, const char *path) {
    recfile_detail detail;
    recfile_failure failure;
    int descriptor;
    check_file(recfile_open_path(file, path, 1000, 1000, 1000, &descriptor, &detail, &failure), failure, path);
    list(file);
    finish(file, path, descriptor);
}

int main(int count, char **words) {
    recfile *file;
    int only_list = count == 3 && strcmp(words[1], "--list") == 0;
    if (count != 2 && !only_list) {
        fprintf(stderr, "usage: session [--list] FILE\n");
        return 2;
    }
    if (recfile_version() >> 16 != RECFILE_VERSION_MAJOR) {
        fprintf(stderr, "session: the library has another version\n");
        return 1;
    }
    check(recfile_new(&file), RECFILE_OK, "new");
    if (!only_list)
        make(file, words[1]);
    list_file(file, words[count - 1]);
    recfile_free(file);
    return 0;
}
