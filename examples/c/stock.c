/* Stock and orders: stock FILE.
 *
 * Two orders are open over one stock. A line that can't be had goes back to the savepoint before it, and the rest of the
 * order stays; an order that is called off backs out, and the other loses nothing. See that both are told of the lamp that
 * the first has taken, and that the third order gets the one that is left. */
#include <inttypes.h>
#include <recfile_file.h>
#include <stdio.h>
#include <stdlib.h>
#include <string.h>

static recfile *file;
static recfile_detail detail;
static recfile_failure failure;

typedef struct {
    const char *item;
    int wanted;
} line;

/* Ends the program where a call was refused. */
static void check(int32_t status) {
    if (status == RECFILE_OK)
        return;
    fprintf(stderr, "stock: %s", recfile_status_text(status));
    if (failure.call != NULL)
        fprintf(stderr, ": %s: %s", failure.call, strerror(failure.error));
    fputc('\n', stderr);
    exit(1);
}

static int32_t put(uint32_t order, const char *key, const char *record) {
    recfile_record before;
    return recfile_put(file, order, (const uint8_t *)key, strlen(key), (const uint8_t *)record, strlen(record), &before,
                       &detail);
}

/* The number that stands at a key, and 0 where none does. */
static int32_t get_number(uint32_t order, const char *key, int *number) {
    recfile_record found;
    char text[sizeof found.bytes + 1] = "";
    int32_t status = recfile_get(file, order, (const uint8_t *)key, strlen(key), &found, &detail);
    if (status == RECFILE_OK && found.is_there)
        memcpy(text, found.bytes, found.len);
    *number = atoi(text);
    return status;
}

/* Takes so many of an item for an order, all of it or nothing. */
static void take(uint32_t order, int number, const line *wanted) {
    char key[32], record[16];
    uint32_t savepoint, undone;
    int have;
    check(recfile_savepoint(file, order, &savepoint));
    snprintf(key, sizeof key, "line/%d/%s", number, wanted->item);
    snprintf(record, sizeof record, "%d", wanted->wanted);
    check(put(order, key, record));
    snprintf(key, sizeof key, "stock/%s", wanted->item);
    int32_t status = get_number(order, key, &have);
    if (status == RECFILE_OK && have >= wanted->wanted) {
        snprintf(record, sizeof record, "%d", have - wanted->wanted);
        check(put(order, key, record));
        check(recfile_release(file, order, savepoint));
        return;
    }
    if (status == RECFILE_HELD)
        printf("order %d: %s is held by %" PRIu32 "\n", number, wanted->item, detail.owner);
    else if (status == RECFILE_OK)
        printf("order %d: %s is short\n", number, wanted->item);
    else
        check(status);
    check(recfile_rollback_to(file, order, savepoint, &undone, &detail));
}

static uint32_t begin(void) {
    uint32_t order;
    check(recfile_begin(file, &order));
    return order;
}

static void fill(uint32_t order, int number, const line *lines, int count) {
    char key[32];
    snprintf(key, sizeof key, "order/%d", number);
    check(put(order, key, "open"));
    for (int i = 0; i < count; i++)
        take(order, number, &lines[i]);
}

static void list(void) {
    uint64_t count;
    recfile_listed entry;
    check(recfile_entries(file, &count, &detail));
    for (uint64_t i = 0; i < count; i++) {
        check(recfile_entry(file, i, &entry));
        printf("%.*s %.*s\n", entry.key.len, (const char *)entry.key.bytes, entry.value.len,
               (const char *)entry.value.bytes);
    }
}

static void work(void) {
    uint32_t undone, stock = begin();
    check(put(stock, "stock/lamp", "3"));
    check(put(stock, "stock/chair", "1"));
    check(put(stock, "stock/bed", "0"));
    check(recfile_commit(file, stock));
    uint32_t first = begin(), second = begin();
    fill(first, 1, (line[]){{"lamp", 2}, {"chair", 1}}, 2);
    fill(second, 2, (line[]){{"lamp", 1}, {"bed", 1}}, 2);
    check(recfile_abort(file, second, &undone, &detail));
    printf("order 2 is called off: %" PRIu32 " change\n", undone);
    check(recfile_commit(file, first));
    uint32_t third = begin();
    fill(third, 3, (line[]){{"lamp", 1}}, 1);
    check(recfile_commit(file, third));
    list();
}

int main(int count, char **words) {
    int descriptor;
    if (count != 2) {
        fputs("usage: stock FILE\n", stderr);
        return 2;
    }
    if (recfile_version() >> 16 != RECFILE_VERSION_MAJOR) {
        fputs("stock: librecfile has another version\n", stderr);
        return 1;
    }
    check(recfile_new(&file));
    check(recfile_create_path(file, words[1], 8, 1000, 1000, 1000, &descriptor, &detail, &failure));
    work();
    check(recfile_close_path(file, words[1], descriptor, &detail, &failure));
    recfile_free(file);
    return 0;
}
