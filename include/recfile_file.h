/* A page file of the system's under a recfile handle, so that no stop loses it. Written in C over the calls of recfile.h,
 * in c/recfile_file.c; of it nothing is proved.
 *
 * A program opens a file by recfile_open_path, or makes one by recfile_create_path, works on the handle, and closes it by
 * recfile_close_path. Until that is done the file on the disk is the old one, and no other program opens it. Where a
 * closing is stopped the old pages stand beside the file, in FILE-journal, and the next opening puts them back; that may be
 * done by the program recfile, too.
 *
 * A durable session of the program recfile keeps its commits beside the file, in FILE-commits, and where it was stopped the
 * program's next one puts them in: recfile run FILE </dev/null. These calls don't, so beside that name they open no file and
 * make none. */
#ifndef RECFILE_FILE_H
#define RECFILE_FILE_H

#include "recfile.h"

#ifdef __cplusplus
extern "C" {
#endif

/* A status more: the side file beside the file isn't one of this file, or a log of commits of another stands beside a new one.
 * Nothing is changed then. */
enum { RECFILE_BAD_JOURNAL = 33 };

/* What failed, where a status is RECFILE_DEVICE: the name of a call of the system's, with its errno; else NULL and 0. */
typedef struct {
    const char *call;
    int error;
} recfile_failure;

/* What a status says, in a few words. */
const char *recfile_status_text(int32_t status);

/* Opens the page file at a path under a closed handle: takes its lock, puts old pages back where a closing was stopped,
 * hands its pages in, and opens it. *descriptor is its descriptor, and -1 after a fault; the handle is closed then and has
 * no page. OK; DEVICE where a call of the system's failed, as where another program has the lock (EWOULDBLOCK); NOT_CLEAN where
 * something has the name FILE-commits, and nothing is changed then; BAD_JOURNAL; MEMORY; and the statuses of recfile_page and
 * recfile_open. */
int32_t recfile_open_path(recfile *file, const char *path, uint32_t records, uint32_t log_records, uint32_t begins,
                          int *descriptor, recfile_detail *detail, recfile_failure *failure);

/* Makes a page file of an order from 1 to 16 at a path where there is no file, and takes its lock. It has its first page
 * once it is closed. After a fault there is no file, and the rest is as above. OK; DEVICE; BAD_JOURNAL where a side file or
 * a log of commits of that name stands there; MEMORY; and the statuses of recfile_create. */
int32_t recfile_create_path(recfile *file, const char *path, uint16_t order, uint32_t records, uint32_t log_records,
                            uint32_t begins, int *descriptor, recfile_detail *detail, recfile_failure *failure);

/* Closes a file of which every transaction has ended, so that it is the old one or the new one wherever it is stopped, and
 * gives the lock up. After STILL_OPEN, CLOSED or NOT_CLOSED nothing has changed, and it can be closed again; after MEMORY too,
 * but where that answers CLOSED: then the handle is closed, and the file is the old one. After DEVICE the old file is put
 * back, at once or by the next opening; only where the last call failed, by which the device was to keep that the old pages
 * are gone, it may be the new one. The handle is closed then, too. OK, CLOSED, STILL_OPEN, MEMORY, DEVICE. */
int32_t recfile_close_path(recfile *file, const char *path, int descriptor, recfile_detail *detail,
                           recfile_failure *failure);

/* The steps of these calls, for programs that open a file themselves. */

/* Takes the lock of an open file without waiting, and puts old pages back where a closing was stopped. OK, DEVICE,
 * NOT_CLEAN as in opening, BAD_JOURNAL, MEMORY. */
int32_t recfile_restore(const char *path, int descriptor, recfile_failure *failure);

/* Hands every page of a file in. OK, DEVICE, BAD_LENGTH where the file has no whole number of pages, and the statuses of
 * recfile_page. */
int32_t recfile_read_file(recfile *file, int descriptor, recfile_failure *failure);

/* Carries the steps of a closed file out, in order, over the file itself. It stops at the first that fails. OK, DEVICE, and
 * the statuses of recfile_step_count and recfile_step. */
int32_t recfile_carry_out(recfile *file, int descriptor, recfile_failure *failure);

/* The same, with the old pages kept beside the file until all is carried out. OK, DEVICE, MEMORY, and those statuses. */
int32_t recfile_carry_out_kept(recfile *file, const char *path, int descriptor, recfile_failure *failure);

#ifdef __cplusplus
}
#endif

#endif
