/* The calls of recfile.h, each with its status and a number that it tells: claims in a small file, a session over a
 * file in memory, and the same over a page file, which is closed, its steps carried out in memory, and opened again. */
#include "recfile.h"

#include <inttypes.h>
#include <stdio.h>
#include <stdlib.h>
#include <string.h>

enum { MOST_PAGES = 8 };

/* What a call is given: a transaction or another number, a savepoint, a key, a record. */
typedef struct {
    uint32_t of;
    uint32_t save;
    const char *key;
    const char *value;
} arguments;

typedef struct {
    const char *name;
    int32_t (*call)(recfile *file, arguments given, uint64_t *number);
    arguments given;
    int32_t status;
    uint64_t number;
} row;

#define ROW(call, of, save, key, value, status, number)                                                                \
    { #call, call, {of, save, key, value}, RECFILE_##status, number }

/* Asked with no argument, of a number, at a key. */
#define ASK(call, status, number) ROW(call, 0, 0, "", "", status, number)
#define OF(call, of, status, number) ROW(call, of, 0, "", "", status, number)
#define AT(call, of, key, status, number) ROW(call, of, 0, key, "", status, number)
#define PUT(of, key, value, status, number) ROW(put, of, 0, key, value, status, number)
#define SAVE(call, of, save, status, number) ROW(call, of, save, "", "", status, number)

#define FIFTY "123456789 123456789 123456789 123456789 123456789 "

static const char WIDEST_RECORD[] = FIFTY FIFTY;
static const char LONG_RECORD[] = FIFTY FIFTY "1";

static const uint8_t *bytes(const char *text) { return (const uint8_t *)text; }

/* The first byte of a record, and 0 where there is none. */
static uint64_t first(const recfile_record *record) { return record->is_there ? record->bytes[0] : 0; }

static int32_t memory(recfile *file, arguments given, uint64_t *number) {
    (void)given;
    (void)number;
    return recfile_memory(file, 10, 100, 100);
}

/* With room for one record and for six records of the log. */
static int32_t small(recfile *file, arguments given, uint64_t *number) {
    (void)given;
    (void)number;
    return recfile_memory(file, 1, 6, 100);
}

static int32_t create(recfile *file, arguments given, uint64_t *number) {
    recfile_detail detail;
    (void)number;
    return recfile_create(file, (uint16_t)given.of, 10, 100, 100, &detail);
}

/* Asks for a number of 32 bits. */
static int32_t narrow(int32_t (*ask)(recfile *, uint32_t *), recfile *file, uint64_t *number) {
    uint32_t n = 0;
    int32_t status = ask(file, &n);
    *number = n;
    return status;
}

static int32_t begin(recfile *file, arguments given, uint64_t *number) {
    (void)given;
    return narrow(recfile_begin, file, number);
}

static int32_t put(recfile *file, arguments given, uint64_t *number) {
    recfile_record before = {0};
    recfile_detail detail;
    int32_t status = recfile_put(file, given.of, bytes(given.key), strlen(given.key), bytes(given.value),
                                 strlen(given.value), &before, &detail);
    *number = status == RECFILE_HELD ? detail.owner : first(&before);
    return status;
}

static int32_t claim(recfile *file, arguments given, uint64_t *number) {
    recfile_record seen = {0};
    recfile_detail detail;
    int32_t status = recfile_claim(file, given.of, bytes(given.key), strlen(given.key), &seen, &detail);
    *number = status == RECFILE_HELD ? detail.owner : first(&seen);
    return status;
}

static int32_t get(recfile *file, arguments given, uint64_t *number) {
    recfile_record found = {0};
    recfile_detail detail;
    int32_t status = recfile_get(file, given.of, bytes(given.key), strlen(given.key), &found, &detail);
    *number = first(&found);
    return status;
}

static int32_t record_length(recfile *file, arguments given, uint64_t *number) {
    recfile_record found = {0};
    recfile_detail detail;
    int32_t status = recfile_get(file, given.of, bytes(given.key), strlen(given.key), &found, &detail);
    *number = found.len;
    return status;
}

static int32_t take(recfile *file, arguments given, uint64_t *number) {
    recfile_record taken = {0};
    recfile_detail detail;
    int32_t status = recfile_remove(file, given.of, bytes(given.key), strlen(given.key), &taken, &detail);
    *number = first(&taken);
    return status;
}

static int32_t savepoint(recfile *file, arguments given, uint64_t *number) {
    uint32_t n = 0;
    int32_t status = recfile_savepoint(file, given.of, &n);
    *number = n;
    return status;
}

static int32_t release(recfile *file, arguments given, uint64_t *number) {
    (void)number;
    return recfile_release(file, given.of, given.save);
}

static int32_t rollback_to(recfile *file, arguments given, uint64_t *number) {
    uint32_t undone = 0;
    recfile_detail detail;
    int32_t status = recfile_rollback_to(file, given.of, given.save, &undone, &detail);
    *number = undone;
    return status;
}

/* Takes back what is left of a transaction: how many changes. */
static int32_t take_back(int32_t (*call)(recfile *, uint32_t, uint32_t *, recfile_detail *), recfile *file, uint32_t tx,
                         uint64_t *number) {
    uint32_t undone = 0;
    recfile_detail detail;
    int32_t status = call(file, tx, &undone, &detail);
    *number = undone;
    return status;
}

static int32_t roll_back(recfile *file, arguments given, uint64_t *number) {
    return take_back(recfile_abort, file, given.of, number);
}

static int32_t resume(recfile *file, arguments given, uint64_t *number) {
    return take_back(recfile_resume, file, given.of, number);
}

static int32_t commit(recfile *file, arguments given, uint64_t *number) {
    (void)number;
    return recfile_commit(file, given.of);
}

static int32_t live_changes(recfile *file, arguments given, uint64_t *number) {
    recfile_tx_status told = {0};
    int32_t status = recfile_status(file, given.of, &told);
    *number = told.live;
    return status;
}

static int32_t charged(recfile *file, arguments given, uint64_t *number) {
    (void)given;
    return recfile_charged(file, number);
}

static int32_t begun(recfile *file, arguments given, uint64_t *number) {
    (void)given;
    return narrow(recfile_begun, file, number);
}

static int32_t log_len(recfile *file, arguments given, uint64_t *number) {
    (void)given;
    return narrow(recfile_log_len, file, number);
}

static int32_t log_use(recfile *file, arguments given, uint64_t *number) {
    (void)given;
    return narrow(recfile_log_use, file, number);
}

static int32_t log_record(recfile *file, arguments given, uint64_t *number) {
    recfile_log_entry entry = {0};
    int32_t status = recfile_log_record(file, given.of, &entry);
    *number = entry.kind;
    return status;
}

static int32_t log_before(recfile *file, arguments given, uint64_t *number) {
    recfile_log_entry entry = {0};
    int32_t status = recfile_log_record(file, given.of, &entry);
    *number = first(&entry.before);
    return status;
}

static int32_t log_after(recfile *file, arguments given, uint64_t *number) {
    recfile_log_entry entry = {0};
    int32_t status = recfile_log_record(file, given.of, &entry);
    *number = first(&entry.after);
    return status;
}

static int32_t log_undo_next(recfile *file, arguments given, uint64_t *number) {
    recfile_log_entry entry = {0};
    int32_t status = recfile_log_record(file, given.of, &entry);
    *number = entry.undo_next;
    return status;
}

static int32_t entries(recfile *file, arguments given, uint64_t *number) {
    recfile_detail detail;
    (void)given;
    return recfile_entries(file, number, &detail);
}

static int32_t entry(recfile *file, arguments given, uint64_t *number) {
    recfile_listed told = {0};
    int32_t status = recfile_entry(file, given.of, &told);
    *number = first(&told.value);
    return status;
}

static int32_t count(recfile *file, arguments given, uint64_t *number) {
    (void)given;
    return narrow(recfile_count, file, number);
}

static int32_t committed(recfile *file, arguments given, uint64_t *number) {
    recfile_record found = {0};
    recfile_detail detail;
    int32_t status = recfile_committed(file, bytes(given.key), strlen(given.key), &found, &detail);
    *number = first(&found);
    return status;
}

static int32_t after(recfile *file, arguments given, uint64_t *number) {
    recfile_listed told = {0};
    recfile_detail detail;
    int32_t status = recfile_after(file, bytes(given.key), strlen(given.key), &told, &detail);
    *number = first(&told.value);
    return status;
}

static int32_t before(recfile *file, arguments given, uint64_t *number) {
    recfile_listed told = {0};
    recfile_detail detail;
    int32_t status = recfile_before(file, bytes(given.key), strlen(given.key), &told, &detail);
    *number = first(&told.value);
    return status;
}

/* So many entries past a key, and from it on; and the same the other way. */
static int32_t past(recfile *file, arguments given, uint64_t *number) {
    recfile_detail detail;
    return recfile_range(file, bytes(given.key), strlen(given.key), 0, 0, given.of, number, &detail);
}

static int32_t from(recfile *file, arguments given, uint64_t *number) {
    recfile_detail detail;
    return recfile_range(file, bytes(given.key), strlen(given.key), 1, 0, given.of, number, &detail);
}

static int32_t below(recfile *file, arguments given, uint64_t *number) {
    recfile_detail detail;
    return recfile_range(file, bytes(given.key), strlen(given.key), 0, 1, given.of, number, &detail);
}

static int32_t upto(recfile *file, arguments given, uint64_t *number) {
    recfile_detail detail;
    return recfile_range(file, bytes(given.key), strlen(given.key), 255, 255, given.of, number, &detail);
}

static int32_t keys_of(recfile *file, arguments given, uint64_t *number) {
    return recfile_keys_of(file, given.of, number);
}

static int32_t key_length(recfile *file, arguments given, uint64_t *number) {
    recfile_key_bytes told = {0};
    int32_t status = recfile_key(file, given.of, &told);
    *number = told.len;
    return status;
}

static int32_t close(recfile *file, arguments given, uint64_t *number) {
    recfile_detail detail;
    int32_t status = recfile_close(file, &detail);
    (void)given;
    *number = detail.left;
    return status;
}

static int32_t step_count(recfile *file, arguments given, uint64_t *number) {
    (void)given;
    return recfile_step_count(file, number);
}

static int32_t discard(recfile *file, arguments given, uint64_t *number) {
    (void)given;
    (void)number;
    return recfile_discard(file);
}

/* Claims, and what the log tells of them and of their taking back. */
static const row CLAIMS[] = {
    AT(claim, 1, "a", CLOSED, 0),
    ASK(small, OK, 0),
    ASK(begin, OK, 1),
    ASK(begin, OK, 2),
    AT(claim, 1, "", EMPTY_KEY, 0),
    AT(claim, 1, "12345678 12345678", LONG_KEY, 0),
    AT(claim, 3, "a", NO_SUCH_TX, 0),
    AT(claim, 1, "a", OK, 0),
    AT(claim, 2, "a", HELD, 1),
    AT(claim, 2, "b", FULL, 0),
    PUT(1, "a", "\1", OK, 0),
    AT(claim, 1, "a", OK, 1),
    AT(claim, 1, "a", LOG_FULL, 0),
    OF(live_changes, 1, OK, 3),
    OF(keys_of, 1, OK, 1),
    ASK(charged, OK, 1),
    SAVE(rollback_to, 1, 0, OK, 3),
    OF(keys_of, 1, OK, 0),
    ASK(log_len, OK, 6),
    OF(log_record, 1, OK, 3),
    OF(log_before, 1, OK, 0),
    OF(log_record, 2, OK, 1),
    OF(log_record, 3, OK, 3),
    OF(log_before, 3, OK, 1),
    OF(log_after, 3, OK, 0),
    OF(log_undo_next, 3, OK, 0),
    OF(log_record, 4, OK, 4),
    OF(log_before, 4, OK, 0),
    OF(log_after, 4, OK, 0),
    OF(log_undo_next, 4, OK, 2),
    OF(log_record, 5, OK, 2),
    OF(log_undo_next, 5, OK, 1),
    OF(log_record, 6, OK, 4),
    OF(log_undo_next, 6, OK, 0),
    OF(log_record, 7, OK, 0),
    OF(commit, 1, OK, 0),
    OF(commit, 2, OK, 0),
    ASK(close, OK, 0),
    AT(claim, 1, "a", CLOSED, 0),
};

/* Two transactions, a partial rollback, a key that is held, a key that is claimed. */
static const row SESSION[] = {
    ASK(begin, OK, 1),
    ASK(begin, OK, 2),
    PUT(1, "", "", EMPTY_KEY, 0),
    PUT(1, "a", LONG_RECORD, LONG_RECORD, 0),
    PUT(1, "12345678 12345678", "", LONG_KEY, 0),
    PUT(3, "a", "\1", NO_SUCH_TX, 0),
    PUT(1, "a", "\1", OK, 0),
    OF(savepoint, 1, OK, 1),
    PUT(1, "a", "\2", OK, 1),
    PUT(1, "b", "\3", OK, 0),
    PUT(2, "c", "\4", OK, 0),
    PUT(1, "c", "\5", HELD, 2),
    AT(claim, 1, "c", HELD, 2),
    AT(claim, 2, "c", OK, 4),
    AT(get, 1, "a", OK, 2),
    OF(live_changes, 1, OK, 3),
    SAVE(rollback_to, 1, 2, NO_SUCH_SAVE, 0),
    SAVE(rollback_to, 1, 1, OK, 2),
    SAVE(release, 1, 1, OK, 0),
    OF(resume, 1, NOT_ROLLING, 0),
    AT(get, 1, "a", OK, 1),
    AT(take, 1, "b", ABSENT, 0),
    PUT(1, "b", "\6", OK, 0),
    AT(take, 1, "b", OK, 6),
    OF(keys_of, 1, OK, 2),
    OF(key_length, 0, OK, 1),
    OF(key_length, 2, NO_SUCH_ENTRY, 0),
    ASK(entries, OK, 2),
    OF(entry, 1, OK, 4),
    OF(entry, 2, NO_SUCH_ENTRY, 0),
    ASK(count, OK, 2),
    AT(after, 0, "", OK, 1),
    AT(after, 0, "a", OK, 4),
    AT(after, 0, "b", OK, 4),
    AT(after, 0, "c", ABSENT, 0),
    AT(after, 0, "12345678 12345678", LONG_KEY, 0),
    AT(before, 0, "", OK, 4),
    AT(before, 0, "d", OK, 4),
    AT(before, 0, "c", OK, 1),
    AT(before, 0, "a", ABSENT, 0),
    AT(before, 0, "12345678 12345678", LONG_KEY, 0),
    AT(from, 9, "a", OK, 2),
    OF(entry, 0, OK, 1),
    OF(entry, 1, OK, 4),
    AT(past, 9, "a", OK, 1),
    OF(entry, 0, OK, 4),
    OF(entry, 1, NO_SUCH_ENTRY, 0),
    AT(upto, 9, "c", OK, 2),
    OF(entry, 0, OK, 4),
    OF(entry, 1, OK, 1),
    AT(below, 9, "c", OK, 1),
    OF(entry, 0, OK, 1),
    AT(past, 1, "", OK, 1),
    OF(entry, 0, OK, 1),
    AT(below, 1, "", OK, 1),
    OF(entry, 0, OK, 4),
    AT(from, 9, "12345678 12345678", LONG_KEY, 0),
    OF(entry, 0, OK, 4),
    AT(from, 0, "a", OK, 0),
    OF(entry, 0, NO_SUCH_ENTRY, 0),
    OF(key_length, 1, OK, 1),
    AT(committed, 0, "a", OK, 0),
    AT(committed, 0, "", EMPTY_KEY, 0),
    AT(committed, 0, "12345678 12345678", LONG_KEY, 0),
    ASK(charged, OK, 3),
    ASK(begun, OK, 2),
    ASK(log_len, OK, 9),
    ASK(log_use, OK, 14),
    OF(log_record, 5, OK, 3),
    OF(log_record, 6, OK, 2),
    OF(log_record, 10, OK, 0),
    ASK(memory, NOT_CLOSED, 0),
    ASK(step_count, NOT_CLOSED, 0),
    ASK(close, STILL_OPEN, 2),
    OF(commit, 1, OK, 0),
    OF(roll_back, 2, OK, 2),
    ASK(close, OK, 0),
    ASK(begin, CLOSED, 0),
    ASK(count, CLOSED, 0),
    AT(after, 0, "", CLOSED, 0),
    AT(before, 0, "", CLOSED, 0),
    AT(from, 9, "a", CLOSED, 0),
    AT(committed, 0, "a", CLOSED, 0),
};

static const row IN_MEMORY[] = {ASK(begin, CLOSED, 0), ASK(memory, OK, 0)};
static const row OF_MEMORY[] = {ASK(step_count, OK, 0), ASK(discard, OK, 0), ASK(discard, CLOSED, 0)};
static const row IN_PAGES[] = {OF(create, 17, BAD_ORDER, 0), OF(create, 2, OK, 0)};
static const row REOPENED[] = {
    ASK(entries, OK, 1), OF(entry, 0, OK, 1), AT(after, 0, "", OK, 1), AT(before, 0, "", OK, 1), AT(committed, 0, "a", OK, 1),
    ASK(count, OK, 1), ASK(close, OK, 0), ASK(step_count, OK, 0), ASK(discard, OK, 0),
};


/* A record of the greatest length. */
static const row WIDE[] = {
    ASK(memory, OK, 0),
    ASK(begin, OK, 1),
    PUT(1, "a", WIDEST_RECORD, OK, 0),
    PUT(1, "a", LONG_RECORD, LONG_RECORD, 0),
    AT(record_length, 1, "a", OK, 100),
    ASK(discard, OK, 0),
};

/* The three records of a file of the first version: 9 steps write its four pages. */
static const row OLD[] = {ASK(entries, OK, 3), OF(entry, 2, OK, 'z'), ASK(close, OK, 0), ASK(step_count, OK, 9)};
static const row RENEWED[] = {
    ASK(entries, OK, 3), OF(entry, 0, OK, 'x'), ASK(close, OK, 0), ASK(step_count, OK, 0), ASK(discard, OK, 0),
};

static void expect(int is_so, const char *what) {
    if (!is_so) {
        fprintf(stderr, "calls: not so: %s\n", what);
        exit(1);
    }
}

static void expect_rows(recfile *file, const row *rows, size_t count) {
    for (size_t i = 0; i < count; i++) {
        uint64_t number = 0;
        int32_t status = rows[i].call(file, rows[i].given, &number);
        if (status != rows[i].status || number != rows[i].number) {
            fprintf(stderr, "calls: row %zu, %s: status %" PRId32 ", number %" PRIu64 "\n", i, rows[i].name, status,
                    number);
            exit(1);
        }
    }
}

#define EXPECT(file, rows) expect_rows(file, rows, sizeof(rows) / sizeof(rows)[0])

/* The pages of a new file whose steps are carried out; how many there are. */
static uint32_t carry_out(recfile *file, uint8_t pages[MOST_PAGES][4096]) {
    uint32_t count = 0;
    uint64_t steps = 0;
    uint8_t page[4096];
    recfile_step_shown step;
    expect(recfile_step_count(file, &steps) == RECFILE_OK, "the file has steps");
    for (uint64_t i = 0; i < steps; i++) {
        expect(recfile_step(file, i, &step, page) == RECFILE_OK, "each step is told");
        if (step.kind == RECFILE_SET_PAGES)
            count = step.number;
        expect(count <= MOST_PAGES, "the file is small");
        if (step.kind == RECFILE_WRITE) {
            expect(step.number < count, "a page is written that is there");
            memcpy(pages[step.number], page, sizeof page);
        }
    }
    expect(recfile_step(file, steps, &step, page) == RECFILE_NO_SUCH_ENTRY, "no step comes after the last");
    return count;
}

/* Writes the bytes of a page from a place on. */
static void set(uint8_t *page, size_t from, const char *text, size_t len) { memcpy(page + from, text, len); }

#define SET(page, from, text) set(page, from, text, sizeof(text) - 1)

/* The file of order 1 with the records x, y and z at the keys a, b and c, in a version: the sons stand behind its places. */
static void three_records(uint8_t pages[MOST_PAGES][4096], uint8_t version) {
    memset(pages, 0, 4 * sizeof pages[0]);
    SET(pages[0], 0, "BMKRFILE\0\0\0\1\0\0\0\4\0\0\0\3\0\0\0\3\1");
    pages[0][9] = version;
    SET(pages[1], 0, "\1\0\0\1\0\0\0\0\1a");
    SET(pages[1], 25, "\1x");
    SET(pages[2], 0, "\1\0\0\1\0\0\0\0\1c");
    SET(pages[2], 25, "\1z");
    SET(pages[3], 0, "\2\0\0\1\0\0\0\0\1b");
    SET(pages[3], 25, "\1y");
    SET(pages[3], version == 1 ? 108 : 244, "\0\0\0\1\0\0\0\2");
}

/* The steps of a close, in their order: the length, the mark, the pages between 1 and the count, the header, and each time
 * that the device keeps them. */
static void expect_order(recfile *file, uint32_t written) {
    uint64_t steps = 0;
    uint8_t page[4096];
    expect(recfile_step_count(file, &steps) == RECFILE_OK && steps == written + 6, "so many steps");
    for (uint64_t i = 0; i < steps; i++) {
        uint32_t kind = RECFILE_WRITE;
        recfile_step_shown step;
        if (i == 0)
            kind = RECFILE_SET_PAGES;
        else if (i == 2 || i == steps - 3 || i == steps - 1)
            kind = RECFILE_SYNC;
        expect(recfile_step(file, i, &step, page) == RECFILE_OK && step.kind == kind, "each step's kind");
        if (kind == RECFILE_WRITE)
            expect((step.number == 0) == (i == 1 || i == steps - 2), "the header comes first and last");
    }
}

static int is_key(const recfile_key_bytes *key, const char *text) {
    return key->len == strlen(text) && memcmp(key->bytes, text, key->len) == 0;
}

static int is_record(const recfile_record *record, const char *text) {
    return record->is_there && record->len == strlen(text) && memcmp(record->bytes, text, record->len) == 0;
}

/* Keys and records of the greatest length are shown as they are, wherever a call shows one. */
static void expect_widest(recfile *file) {
    static const char KEY[] = "123456789 123456", OTHER[] = "another record";
    const size_t len = strlen(WIDEST_RECORD);
    uint32_t tx = 0;
    uint64_t count = 0;
    recfile_record shown;
    recfile_detail detail;
    recfile_listed listed;
    recfile_key_bytes key;
    recfile_log_entry entry;
    expect(recfile_memory(file, 10, 100, 100) == RECFILE_OK && recfile_begin(file, &tx) == RECFILE_OK, "a file is made");
    expect(recfile_put(file, tx, bytes(KEY), 16, bytes(WIDEST_RECORD), len, &shown, &detail) == RECFILE_OK, "put");
    expect(!shown.is_there && shown.len == 0, "none before");
    expect(recfile_put(file, tx, bytes(KEY), 16, bytes(OTHER), strlen(OTHER), &shown, &detail) == RECFILE_OK, "put again");
    expect(is_record(&shown, WIDEST_RECORD), "the record before");
    expect(recfile_log_record(file, 2, &entry) == RECFILE_OK, "a log record");
    expect(is_key(&entry.key, KEY) && is_record(&entry.before, WIDEST_RECORD) && is_record(&entry.after, OTHER), "its parts");
    expect(entry.kind == 1 && entry.lsn == 2 && entry.prev == 1 && entry.tx == tx && entry.undo_next == 0, "its numbers");
    expect(recfile_put(file, tx, bytes(KEY), 16, bytes(WIDEST_RECORD), len, &shown, &detail) == RECFILE_OK, "put back");
    expect(recfile_get(file, tx, bytes(KEY), 16, &shown, &detail) == RECFILE_OK && is_record(&shown, WIDEST_RECORD), "get");
    expect(recfile_claim(file, tx, bytes(KEY), 16, &shown, &detail) == RECFILE_OK && is_record(&shown, WIDEST_RECORD), "claim");
    expect(recfile_entries(file, &count, &detail) == RECFILE_OK && count == 1, "a list of one");
    expect(recfile_entry(file, 0, &listed) == RECFILE_OK && listed.is_owned && listed.owner == tx, "its owner");
    expect(is_key(&listed.key, KEY) && is_record(&listed.value, WIDEST_RECORD), "its key and record");
    expect(recfile_keys_of(file, tx, &count) == RECFILE_OK && count == 1, "one key");
    expect(recfile_key(file, 0, &key) == RECFILE_OK && is_key(&key, KEY), "the key");
    expect(recfile_remove(file, tx, bytes(KEY), 16, &shown, &detail) == RECFILE_OK && is_record(&shown, WIDEST_RECORD), "remove");
    expect(recfile_discard(file) == RECFILE_OK, "the file is given up");
}

static void reopen(recfile *file, uint8_t pages[MOST_PAGES][4096], uint32_t count) {
    recfile_detail detail;
    for (uint32_t n = 0; n < count; n++)
        expect(recfile_page(file, pages[n]) == RECFILE_OK, "a page is handed in");
    expect(recfile_open(file, 10, 100, 100, &detail) == RECFILE_OK, "the file is opened again");
}

/* A file of the first version becomes one of the second when it is closed, and that one is left as it is. */
static void renew(recfile *file, uint8_t pages[MOST_PAGES][4096]) {
    static uint8_t wanted[MOST_PAGES][4096];
    three_records(pages, 1);
    three_records(wanted, 2);
    reopen(file, pages, 4);
    EXPECT(file, OLD);
    expect_order(file, 3);
    expect(carry_out(file, pages) == 4, "the file keeps its pages");
    expect(memcmp(pages, wanted, 4 * sizeof pages[0]) == 0, "the file is of the second version");
    expect(recfile_discard(file) == RECFILE_OK, "the steps are given up");
    reopen(file, pages, 4);
    EXPECT(file, RENEWED);
}

int main(void) {
    static uint8_t pages[MOST_PAGES][4096];
    uint32_t count;
    recfile *file = NULL;
    expect(recfile_version() == RECFILE_VERSION_MAJOR * 65536 + RECFILE_VERSION_MINOR, "the header is the library's");
    expect(recfile_new(&file) == RECFILE_OK, "a handle is made");
    EXPECT(file, CLAIMS);
    EXPECT(file, OF_MEMORY);
    EXPECT(file, IN_MEMORY);
    EXPECT(file, SESSION);
    EXPECT(file, OF_MEMORY);
    EXPECT(file, WIDE);
    expect_widest(file);
    EXPECT(file, IN_PAGES);
    EXPECT(file, SESSION);
    expect_order(file, 1);
    count = carry_out(file, pages);
    expect(count == 2, "the file has two pages");
    expect(pages[0][10] == 0 && pages[0][11] == 2, "the file has the order that it was made with");
    expect(recfile_discard(file) == RECFILE_OK, "the steps are given up");
    reopen(file, pages, count);
    EXPECT(file, REOPENED);
    renew(file, pages);
    recfile_free(file);
    recfile_free(NULL);
    return 0;
}
