/* The orders of a file in pages of ten, by the prefix of their keys: pages FILE.
 *
 * Each page is asked for from the key on that came last. See that the last one has the order of a transaction that is open, which
 * may yet go back. */
#include <inttypes.h>
#include <recfile_file.h>
#include <stdio.h>
#include <stdlib.h>
#include <string.h>

enum { PAGE = 10 };

static recfile *file;
static recfile_detail detail;
static recfile_failure failure;

/* Ends the program where a call was refused. */
static void check(int32_t status) {
    if (status == RECFILE_OK)
        return;
    fprintf(stderr, "pages: %s", recfile_status_text(status));
    if (failure.call != NULL)
        fprintf(stderr, ": %s: %s", failure.call, strerror(failure.error));
    fputc('\n', stderr);
    exit(1);
}

static void put(uint32_t order, const char *key, const char *record) {
    recfile_record before;
    check(recfile_put(file, order, (const uint8_t *)key, strlen(key), (const uint8_t *)record, strlen(record), &before, &detail));
}

static uint32_t begin(void) {
    uint32_t order;
    check(recfile_begin(file, &order));
    return order;
}

/* Tells of the records that were listed last: the key of the last of them that begins so, and how many those are. */
static uint64_t tell_page(int number, uint64_t count, const char *prefix, recfile_key_bytes *last) {
    recfile_listed entry;
    uint64_t shown = 0, open = 0;
    for (; shown < count; shown++) {
        check(recfile_entry(file, shown, &entry));
        if (entry.key.len < strlen(prefix) || memcmp(entry.key.bytes, prefix, strlen(prefix)) != 0)
            break;
        if (shown == 0)
            printf("page %d: %.*s", number, (int)entry.key.len, (const char *)entry.key.bytes);
        open += entry.is_owned;
        *last = entry.key;
    }
    if (shown > 0)
        printf(" to %.*s", (int)last->len, (const char *)last->bytes);
    if (open > 0)
        printf(", of which %" PRIu64 " may yet go back", open);
    if (shown > 0)
        putchar('\n');
    return shown;
}

static void tell_pages(const char *prefix) {
    recfile_key_bytes last = {.len = (uint8_t)strlen(prefix)};
    uint64_t count, shown = PAGE;
    memcpy(last.bytes, prefix, strlen(prefix));
    for (int number = 1; shown == PAGE; number++) {
        check(recfile_range(file, last.bytes, last.len, number == 1, 0, PAGE, &count, &detail));
        shown = tell_page(number, count, prefix, &last);
    }
}

int main(int count, char **words) {
    int descriptor;
    char key[16];
    uint32_t stock, order, undone;
    if (count != 2 || recfile_version() >> 16 != RECFILE_VERSION_MAJOR)
        return 2;
    check(recfile_new(&file));
    check(recfile_create_path(file, words[1], 16, 1000, 1000, 1000, &descriptor, &detail, &failure));
    stock = begin();
    for (int number = 1; number <= 25; number++) {
        snprintf(key, sizeof key, "order/%03d", number);
        put(stock, key, "open");
    }
    put(stock, "line/001/lamp", "2");
    put(stock, "stock/lamp", "3");
    check(recfile_commit(file, stock));
    order = begin();
    put(order, "order/026", "open");
    tell_pages("order/");
    check(recfile_abort(file, order, &undone, &detail));
    check(recfile_close_path(file, words[1], descriptor, &detail, &failure));
    recfile_free(file);
    return 0;
}
