/* recfile: a keyed record file for programs in which several open units of work change shared records.
 *
 * Every call answers a status. RECFILE_OK comes first; the others are named below each call in the order in which they
 * are checked. A call that is refused leaves the file as it was; RECFILE_STOPPED alone leaves a rollback under way.
 *
 * Memory. A handle is made by recfile_new and given back by recfile_free; it owns all that lies behind it. What a call
 * writes goes into memory of the caller's, which may hold anything before. The library keeps no pointer that it was
 * given, has no global state, and reads no environment.
 *
 * The caller owes: pointers that are valid and not null, also where a length is 0; one call at a time on a handle;
 * a handle that recfile_new made and that was not yet freed. Different handles have nothing to do with one another.
 *
 * Limits: a key has 1 to 16 bytes, a record 0 to 100.
 *
 * Versions. Before its first call a program compares the major number of recfile_version with the one that it was
 * compiled with: where they differ, a struct or a call is another one, and nothing may be called.
 */
#ifndef RECFILE_H
#define RECFILE_H

#include <stddef.h>
#include <stdint.h>

#ifdef __cplusplus
extern "C" {
#endif

/* The version of this header. The major number changes where a struct, a call or a status becomes another one, the minor
 * one where there is a call, a status or a kind more. */
#define RECFILE_VERSION_MAJOR 1
#define RECFILE_VERSION_MINOR 0

/* The statuses. */
enum recfile_status_code {
    RECFILE_OK = 0,
    RECFILE_CLOSED = 1,            /* the handle has no open file */
    RECFILE_EMPTY_KEY = 2,         /* a key has at least one byte */
    RECFILE_LONG_KEY = 3,          /* a key has at most 16 bytes */
    RECFILE_LONG_RECORD = 4,       /* a record has at most 100 bytes */
    RECFILE_BEGINS_SPENT = 5,      /* as many transactions were begun as may be */
    RECFILE_NO_SUCH_TX = 6,        /* no such open transaction */
    RECFILE_ROLLING = 7,           /* the transaction is being rolled back */
    RECFILE_NOT_ROLLING = 8,       /* the transaction isn't being rolled back */
    RECFILE_HELD = 9,              /* another transaction holds the key: owner */
    RECFILE_LOG_FULL = 10,         /* the log is full */
    RECFILE_DEVICE = 11,           /* the device failed */
    RECFILE_DAMAGED = 12,          /* a page is damaged: page */
    RECFILE_FULL = 13,             /* the file has as many records as it may */
    RECFILE_ABSENT = 14,           /* the key has no record */
    RECFILE_TOO_DEEP = 15,         /* the transaction has 32 savepoints */
    RECFILE_NO_SUCH_SAVE = 16,     /* no such savepoint */
    RECFILE_STOPPED = 17,          /* a rollback stopped: undone, left, cause, and page where that is RECFILE_DAMAGED */
    RECFILE_MEMORY = 18,           /* out of memory */
    RECFILE_NO_SUCH_ENTRY = 19,    /* the list has no such entry */
    RECFILE_NOT_CLOSED = 20,       /* the handle isn't closed, or has no steps */
    RECFILE_BAD_RECORDS = 21,      /* the records limit is 1 to 1,000,000 */
    RECFILE_BAD_LOG = 22,          /* the log limit is 2 to 4,000,000 */
    RECFILE_BAD_BEGINS = 23,       /* the begins limit is 1 to 1,000,000 */
    RECFILE_STILL_OPEN = 24,       /* so many transactions have not ended: left */
    RECFILE_BAD_LENGTH = 25,       /* the file has a length that no record file has */
    RECFILE_BAD_MAGIC = 26,        /* the file is no record file */
    RECFILE_BAD_VERSION = 27,      /* the file has another version: page */
    RECFILE_BAD_ORDER = 28,        /* the order of the tree is not from 1 to 16 */
    RECFILE_NOT_CLEAN = 29,        /* the file was not closed cleanly */
    RECFILE_BAD_HEADER = 30,       /* the header is not that of this file */
    RECFILE_WRONG_COUNT = 31,      /* the header tells another number of records */
    RECFILE_TOO_MANY_RECORDS = 32  /* the file has more records than the limit */
};

/* A handle. */
typedef struct recfile recfile;

/* A status and what it carries; the rest is 0. */
typedef struct {
    int32_t status;
    uint32_t owner;  /* the transaction that holds the key */
    uint32_t page;   /* the damaged page; the version of a file that is not opened for it */
    uint32_t undone; /* how many changes a stopped rollback took back in this call */
    uint32_t left;   /* how many it has left; how many transactions have not ended */
    int32_t cause;   /* why it stopped: RECFILE_DEVICE, RECFILE_DAMAGED or RECFILE_MEMORY */
} recfile_detail;

/* A key: its first len bytes. */
typedef struct {
    uint8_t bytes[16];
    uint8_t len;
} recfile_key_bytes;

/* A record, where is_there isn't 0: its first len bytes. */
typedef struct {
    uint8_t bytes[100];
    uint8_t len;
    uint8_t is_there;
} recfile_record;

/* What an open transaction is doing. Where is_rolling is 0 it has saves savepoints and live live changes; else its
 * rollback has left changes left, and ends isn't 0 where it ends with it. */
typedef struct {
    uint8_t is_rolling;
    uint8_t ends;
    uint32_t saves;
    uint32_t live;
    uint32_t left;
} recfile_tx_status;

/* A record of the log: kind is 0 where there is none, 1 for an update, 2 for a compensation, whose after is what it
 * restored, 3 for a claim, whose before is what it has seen, 4 for a claim that was taken back. prev is the number of
 * the record of the same transaction before it, and 0 where there is none. */
typedef struct {
    uint32_t kind;
    uint32_t lsn;
    uint32_t prev;
    uint32_t tx;
    uint32_t undo_next;
    recfile_key_bytes key;
    recfile_record before;
    recfile_record after;
} recfile_log_entry;

/* A record in a list. Where is_owned isn't 0, owner is the transaction that owns its key. */
typedef struct {
    uint32_t owner;
    uint8_t is_owned;
    recfile_key_bytes key;
    recfile_record value;
} recfile_listed;

/* A step that carries the changes of a closed file out. */
enum recfile_step_kind {
    RECFILE_SET_PAGES = 1, /* make the file number pages long; new pages are zero */
    RECFILE_WRITE = 2,     /* write page number, which begins at byte 4096 * number */
    RECFILE_SYNC = 3       /* have the device keep what was written */
};

typedef struct {
    uint32_t kind;
    uint32_t number;
} recfile_step_shown;

/* The version of the library that runs: 65536 times its major number, and its minor one. */
uint32_t recfile_version(void);

/* Handles */

/* Makes a closed handle. OK; MEMORY, and *out is as it was. */
int32_t recfile_new(recfile **out);

/* Gives a handle's memory back, with all that lies behind it. NULL is no handle, and nothing is done. */
void recfile_free(recfile *file);

/* Gives up whatever lies behind a handle, which is closed then: an open file with its changes, pages handed in, steps.
 * OK, CLOSED. */
int32_t recfile_discard(recfile *file);

/* Opening */

/* Opens a closed handle on an empty file in memory. OK, NOT_CLOSED, BAD_RECORDS, BAD_LOG, BAD_BEGINS, MEMORY. */
int32_t recfile_memory(recfile *file, uint32_t records, uint32_t log_records, uint32_t begins);

/* Hands in the next page of a page file that is to be opened, from page 0 on. OK, NOT_CLOSED, MEMORY. */
int32_t recfile_page(recfile *file, const uint8_t page[4096]);

/* Opens the page file whose pages were all handed in. A file whose length isn't a multiple of 4,096 is none, and is not
 * handed in. A fault leaves the handle closed and with no page, as recfile_new made it. OK, NOT_CLOSED, BAD_RECORDS,
 * BAD_LOG, BAD_BEGINS, BAD_LENGTH, BAD_MAGIC, BAD_VERSION, BAD_ORDER, NOT_CLEAN, BAD_HEADER, DAMAGED, WRONG_COUNT,
 * TOO_MANY_RECORDS; and MEMORY where it is met. */
int32_t recfile_open(recfile *file, uint32_t records, uint32_t log_records, uint32_t begins, recfile_detail *detail);

/* Makes a page file of an order from 1 to 16. OK, NOT_CLOSED, BAD_LENGTH where a page was handed in, BAD_RECORDS,
 * BAD_LOG, BAD_BEGINS, BAD_ORDER, MEMORY. */
int32_t recfile_create(recfile *file, uint16_t order, uint32_t records, uint32_t log_records, uint32_t begins,
                       recfile_detail *detail);

/* Transactions */

/* Begins a transaction: *tx. OK, CLOSED, BEGINS_SPENT, MEMORY. */
int32_t recfile_begin(recfile *file, uint32_t *tx);

/* Puts a record at a key; *before is the one that stood there. OK, CLOSED, EMPTY_KEY, LONG_KEY, LONG_RECORD, NO_SUCH_TX,
 * ROLLING, HELD, LOG_FULL, DEVICE or DAMAGED, FULL, MEMORY. */
int32_t recfile_put(recfile *file, uint32_t tx, const uint8_t *key, size_t key_len, const uint8_t *value,
                    size_t value_len, recfile_record *before, recfile_detail *detail);

/* Claims a key without changing its record; *seen is the one that stands there. OK, CLOSED, EMPTY_KEY, LONG_KEY,
 * NO_SUCH_TX, ROLLING, HELD, LOG_FULL, DEVICE or DAMAGED, FULL, MEMORY. */
int32_t recfile_claim(recfile *file, uint32_t tx, const uint8_t *key, size_t key_len, recfile_record *seen,
                      recfile_detail *detail);

/* Looks a record up: *found. OK, CLOSED, EMPTY_KEY, LONG_KEY, NO_SUCH_TX, ROLLING, HELD, DEVICE or DAMAGED. */
int32_t recfile_get(recfile *file, uint32_t tx, const uint8_t *key, size_t key_len, recfile_record *found,
                    recfile_detail *detail);

/* Takes a record out: *taken. OK, CLOSED, EMPTY_KEY, LONG_KEY, NO_SUCH_TX, ROLLING, HELD, LOG_FULL, DEVICE or DAMAGED,
 * ABSENT, MEMORY. */
int32_t recfile_remove(recfile *file, uint32_t tx, const uint8_t *key, size_t key_len, recfile_record *taken,
                       recfile_detail *detail);

/* Sets a savepoint: *n is its number, from 1. OK, CLOSED, NO_SUCH_TX, ROLLING, TOO_DEEP. */
int32_t recfile_savepoint(recfile *file, uint32_t tx, uint32_t *n);

/* Drops savepoint n and those above it. OK, CLOSED, NO_SUCH_TX, ROLLING, NO_SUCH_SAVE. */
int32_t recfile_release(recfile *file, uint32_t tx, uint32_t n);

/* Takes back all since savepoint n, which stays; 0 is the beginning. *undone is how many changes. OK, CLOSED, NO_SUCH_TX,
 * ROLLING, NO_SUCH_SAVE, STOPPED. */
int32_t recfile_rollback_to(recfile *file, uint32_t tx, uint32_t n, uint32_t *undone, recfile_detail *detail);

/* Takes all of a transaction back, and ends it. OK, CLOSED, NO_SUCH_TX, ROLLING, STOPPED. */
int32_t recfile_abort(recfile *file, uint32_t tx, uint32_t *undone, recfile_detail *detail);

/* Goes on with a rollback that stopped. OK, CLOSED, NO_SUCH_TX, NOT_ROLLING, STOPPED. */
int32_t recfile_resume(recfile *file, uint32_t tx, uint32_t *undone, recfile_detail *detail);

/* Ends a transaction; its changes stay. OK, CLOSED, NO_SUCH_TX, ROLLING. */
int32_t recfile_commit(recfile *file, uint32_t tx);

/* Looking */

/* What an open transaction is doing. OK, CLOSED, NO_SUCH_TX. */
int32_t recfile_status(recfile *file, uint32_t tx, recfile_tx_status *status);

/* The record that stands at a key without the changes of open transactions: *found. No key is held here. OK, CLOSED, EMPTY_KEY,
 * LONG_KEY, DEVICE or DAMAGED. */
int32_t recfile_committed(recfile *file, const uint8_t *key, size_t key_len, recfile_record *found, recfile_detail *detail);

/* How many records there are, also where an open transaction put them. OK, CLOSED. */
int32_t recfile_count(recfile *file, uint32_t *n);

/* How many keys have a record or an owner; how many transactions were begun; the length of the log; that, and the live
 * changes of open transactions. OK, CLOSED. */
int32_t recfile_charged(recfile *file, uint64_t *n);
int32_t recfile_begun(recfile *file, uint32_t *n);
int32_t recfile_log_len(recfile *file, uint32_t *n);
int32_t recfile_log_use(recfile *file, uint32_t *n);

/* The log record with a number, which counts from 1; kind is 0 where there is none. OK, CLOSED. */
int32_t recfile_log_record(recfile *file, uint32_t lsn, recfile_log_entry *entry);

/* Lists the records in key order, *n of them. The list stays until it is made again or the file is closed. OK, CLOSED,
 * DEVICE or DAMAGED, MEMORY. */
int32_t recfile_entries(recfile *file, uint64_t *n, recfile_detail *detail);

/* Record i of the list, from 0. OK, CLOSED, NO_SUCH_ENTRY. */
int32_t recfile_entry(recfile *file, uint64_t i, recfile_listed *told);

/* The record of the least key above a key, of no bytes the first record; and the record of the greatest key below one, of no
 * bytes the last: *told, also where an open transaction put it. OK, CLOSED, LONG_KEY, DEVICE or DAMAGED, MEMORY, ABSENT. */
int32_t recfile_after(recfile *file, const uint8_t *key, size_t key_len, recfile_listed *told, recfile_detail *detail);
int32_t recfile_before(recfile *file, const uint8_t *key, size_t key_len, recfile_listed *told, recfile_detail *detail);

/* Lists at most `most` records from a key on, *n of them, in the place of the list before: in key order, or the greatest key
 * first where is_down isn't 0. The record at the key is among them where at_key isn't 0. Of no bytes they are those from that
 * end of the order on. OK, CLOSED, LONG_KEY, DEVICE or DAMAGED, MEMORY. */
int32_t recfile_range(recfile *file, const uint8_t *key, size_t key_len, uint8_t at_key, uint8_t is_down, uint32_t most,
                      uint64_t *n, recfile_detail *detail);

/* Lists the keys that an open transaction owns in order, *n of them. OK, CLOSED, NO_SUCH_TX, MEMORY. */
int32_t recfile_keys_of(recfile *file, uint32_t tx, uint64_t *n);

/* Key i of that list, from 0. OK, CLOSED, NO_SUCH_ENTRY. */
int32_t recfile_key(recfile *file, uint64_t i, recfile_key_bytes *told);

/* Closing */

/* Closes a file of which every transaction has ended. The steps are then to be carried out in order, and the handle
 * discarded. After MEMORY the file can only be closed again. OK, CLOSED, STILL_OPEN, MEMORY. */
int32_t recfile_close(recfile *file, recfile_detail *detail);

/* How many steps there are: *n. None for a file in memory, and for a page file of the second file version in which nothing
 * was changed; one of the first version is written anew. OK, CLOSED, NOT_CLOSED. */
int32_t recfile_step_count(recfile *file, uint64_t *n);

/* Step i, from 0, and the page that it writes where it writes one. OK, CLOSED, NOT_CLOSED, NO_SUCH_ENTRY. */
int32_t recfile_step(recfile *file, uint64_t i, recfile_step_shown *told, uint8_t page[4096]);

#ifdef __cplusplus
}
#endif

#endif
