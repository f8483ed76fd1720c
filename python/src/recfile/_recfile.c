/* The calls of recfile.h for Python: a Handle, and a Transaction whose look-ups and puts are slots of its type. What is
 * refused is raised as the exception that the function given to set_fault makes of it.
 *
 * Each call keeps the interpreter's lock, but for opening, reading and closing. Its answers are its own, so that a
 * signal's handler may use the same file between two calls. A handle belongs to one thread of one process, which every
 * call asks first: the library has one call at a time on a handle, and a child of a fork has its parent's lock. */
#define Py_LIMITED_API 0x03090000
#define PY_SSIZE_T_CLEAN
#include <Python.h>

#include <pthread.h>
#include <recfile_file.h>
#include <string.h>
#include <unistd.h>

/* Statuses of this module's own, beside those of recfile.h. */
enum { WRONG_THREAD = -1, WRONG_PROCESS = -2, ENDED = -3 };

typedef struct {
    PyObject_HEAD
    recfile *file;
    int descriptor;
    int is_new;     /* made by this handle, and not closed yet: the file on the disk has no bytes */
    int is_closing; /* recfile_close was accepted, and its steps are to be carried out */
    int has_failed; /* they were tried, and failed */
    int is_away;    /* a call works on it without the interpreter's lock */
    unsigned long thread;
    unsigned long generation;
} Handle;

typedef struct {
    PyObject_HEAD
    Handle *handle;
    uint32_t number;
    int has_ended;
} Transaction;

static PyObject *fault_maker;
static PyTypeObject *handle_type;
static unsigned long generation; /* one more in each child of a fork */

static void in_child(void) {
    generation++;
}

/* Raises what a status says; detail, failure, transaction and key are NULL where there is none. NULL. */
static PyObject *refuse(int32_t status, const recfile_detail *detail, const recfile_failure *failure,
                        PyObject *transaction, PyObject *key) {
    static const recfile_detail no_detail;
    static const recfile_failure no_failure;
    if (fault_maker == NULL)
        return PyErr_Format(PyExc_RuntimeError, "recfile status %d", (int)status);
    if (detail == NULL)
        detail = &no_detail;
    if (failure == NULL)
        failure = &no_failure;
    PyObject *fault = PyObject_CallFunction(
        fault_maker, "iIIIIiziOO", (int)status, (unsigned int)detail->owner, (unsigned int)detail->page,
        (unsigned int)detail->undone, (unsigned int)detail->left, (int)detail->cause, failure->call, failure->error,
        transaction ? transaction : Py_None, key ? key : Py_None);
    if (fault != NULL) {
        PyErr_SetObject((PyObject *)Py_TYPE(fault), fault);
        Py_DECREF(fault);
    }
    return NULL;
}

/* None, or what a status says. */
static PyObject *done(int32_t status) {
    if (status != RECFILE_OK)
        return refuse(status, NULL, NULL, NULL, NULL);
    Py_RETURN_NONE;
}

/* Whether this thread of this process may call a handle; else an exception is raised. */
static int is_ours(const Handle *handle, PyObject *transaction) {
    if (handle->generation != generation) {
        refuse(WRONG_PROCESS, NULL, NULL, transaction, NULL);
        return 0;
    }
    if (handle->thread != PyThread_get_thread_ident()) {
        refuse(WRONG_THREAD, NULL, NULL, transaction, NULL);
        return 0;
    }
    return 1;
}

static PyObject *bytes_of_record(const recfile_record *record) {
    if (!record->is_there)
        Py_RETURN_NONE;
    return PyBytes_FromStringAndSize((const char *)record->bytes, record->len);
}

/* Handles */

static PyObject *handle_new(PyTypeObject *type, PyObject *words, PyObject *names) {
    (void)words;
    (void)names;
    Handle *handle = (Handle *)PyType_GenericAlloc(type, 0);
    if (handle == NULL)
        return NULL;
    handle->descriptor = -1;
    handle->thread = PyThread_get_thread_ident();
    handle->generation = generation;
    if (recfile_new(&handle->file) != RECFILE_OK) {
        handle->file = NULL;
        Py_DECREF(handle);
        return refuse(RECFILE_MEMORY, NULL, NULL, NULL, NULL);
    }
    return (PyObject *)handle;
}

/* Gives up what lies behind a handle, and the lock. */
static void let_go(Handle *handle) {
    if (handle->file != NULL)
        recfile_discard(handle->file);
    if (handle->descriptor >= 0)
        close(handle->descriptor);
    handle->descriptor = -1;
}

static void handle_dealloc(PyObject *self) {
    PyTypeObject *type = Py_TYPE(self);
    let_go((Handle *)self);
    recfile_free(((Handle *)self)->file);
    ((freefunc)PyType_GetSlot(type, Py_tp_free))(self);
    Py_DECREF(type);
}

static PyObject *handle_memory(PyObject *self, PyObject *words) {
    unsigned int records, log, begins;
    if (!is_ours((Handle *)self, NULL) || !PyArg_ParseTuple(words, "III", &records, &log, &begins))
        return NULL;
    return done(recfile_memory(((Handle *)self)->file, records, log, begins));
}

static PyObject *handle_open(PyObject *self, PyObject *words) {
    Handle *handle = (Handle *)self;
    const char *path;
    unsigned int records, log, begins;
    recfile_detail detail = {0};
    recfile_failure failure = {0};
    int32_t status;
    if (!is_ours(handle, NULL) || !PyArg_ParseTuple(words, "yIII", &path, &records, &log, &begins))
        return NULL;
    handle->is_away = 1;
    Py_BEGIN_ALLOW_THREADS
    status = recfile_open_path(handle->file, path, records, log, begins, &handle->descriptor, &detail, &failure);
    Py_END_ALLOW_THREADS
    handle->is_away = 0;
    return status == RECFILE_OK ? done(status) : refuse(status, &detail, &failure, NULL, NULL);
}

static PyObject *handle_create(PyObject *self, PyObject *words) {
    Handle *handle = (Handle *)self;
    const char *path;
    unsigned short order;
    unsigned int records, log, begins;
    recfile_detail detail = {0};
    recfile_failure failure = {0};
    int32_t status;
    if (!is_ours(handle, NULL) || !PyArg_ParseTuple(words, "yHIII", &path, &order, &records, &log, &begins))
        return NULL;
    handle->is_away = 1;
    Py_BEGIN_ALLOW_THREADS
    status = recfile_create_path(handle->file, path, order, records, log, begins, &handle->descriptor, &detail,
                                 &failure);
    Py_END_ALLOW_THREADS
    handle->is_away = 0;
    if (status != RECFILE_OK)
        return refuse(status, &detail, &failure, NULL, NULL);
    handle->is_new = 1;
    Py_RETURN_NONE;
}

/* Opens a file of which nothing will be written: its lock and its descriptor stay the caller's. */
static PyObject *handle_read(PyObject *self, PyObject *words) {
    Handle *handle = (Handle *)self;
    int descriptor;
    unsigned int records, log, begins;
    recfile_detail detail = {0};
    recfile_failure failure = {0};
    int32_t status;
    if (!is_ours(handle, NULL) || !PyArg_ParseTuple(words, "iIII", &descriptor, &records, &log, &begins))
        return NULL;
    handle->is_away = 1;
    Py_BEGIN_ALLOW_THREADS
    status = recfile_read_file(handle->file, descriptor, &failure);
    if (status == RECFILE_OK)
        status = recfile_open(handle->file, records, log, begins, &detail);
    if (status != RECFILE_OK)
        recfile_discard(handle->file);
    Py_END_ALLOW_THREADS
    handle->is_away = 0;
    return status == RECFILE_OK ? done(status) : refuse(status, &detail, &failure, NULL, NULL);
}

/* Carries the steps of a closing out. Where that was tried before, a side file that still stands there has the old pages, and
 * would be made anew of half new ones; a file that is new and wasn't written whole has no page. */
static int32_t carry_out(Handle *handle, const char *path, recfile_failure *failure) {
    int32_t status = RECFILE_OK;
    if (handle->has_failed && !handle->is_new)
        status = recfile_restore(path, handle->descriptor, failure);
    if (status == RECFILE_OK)
        status = recfile_carry_out_kept(handle->file, path, handle->descriptor, failure);
    handle->has_failed = status != RECFILE_OK;
    if (handle->has_failed && handle->is_new)
        (void)!ftruncate(handle->descriptor, 0);
    return status;
}

/* What recfile_close_path does, step by step, so that a closing that failed can be tried again: on a full disk, say. */
static PyObject *handle_close(PyObject *self, PyObject *words) {
    Handle *handle = (Handle *)self;
    const char *path;
    recfile_detail detail = {0};
    recfile_failure failure = {0};
    int32_t status;
    if (!is_ours(handle, NULL) || !PyArg_ParseTuple(words, "y", &path))
        return NULL;
    if (!handle->is_closing) {
        status = recfile_close(handle->file, &detail);
        if (status != RECFILE_OK)
            return refuse(status, &detail, NULL, NULL, NULL);
        handle->is_closing = 1;
    }
    handle->is_away = 1;
    Py_BEGIN_ALLOW_THREADS
    status = carry_out(handle, path, &failure);
    Py_END_ALLOW_THREADS
    handle->is_away = 0;
    if (status != RECFILE_OK)
        return refuse(status, NULL, &failure, NULL, NULL);
    let_go(handle);
    Py_RETURN_NONE;
}

static PyObject *handle_drop(PyObject *self, PyObject *none) {
    (void)none;
    if (!is_ours((Handle *)self, NULL))
        return NULL;
    let_go((Handle *)self);
    Py_RETURN_NONE;
}

/* Makes a handle that nothing else uses this thread's. */
static PyObject *handle_adopt(PyObject *self, PyObject *none) {
    Handle *handle = (Handle *)self;
    (void)none;
    if (handle->generation != generation)
        return refuse(WRONG_PROCESS, NULL, NULL, NULL, NULL);
    if (handle->is_away)
        return refuse(WRONG_THREAD, NULL, NULL, NULL, NULL);
    handle->thread = PyThread_get_thread_ident();
    Py_RETURN_NONE;
}

static PyObject *number_of(PyObject *self, int32_t (*call)(recfile *, uint32_t *)) {
    uint32_t number;
    if (!is_ours((Handle *)self, NULL))
        return NULL;
    int32_t status = call(((Handle *)self)->file, &number);
    return status == RECFILE_OK ? PyLong_FromUnsignedLong(number) : done(status);
}

static PyObject *handle_begin(PyObject *self, PyObject *none) {
    (void)none;
    return number_of(self, recfile_begin);
}

static PyObject *handle_log_len(PyObject *self, PyObject *none) {
    (void)none;
    return number_of(self, recfile_log_len);
}

static PyObject *handle_log_use(PyObject *self, PyObject *none) {
    (void)none;
    return number_of(self, recfile_log_use);
}

static PyObject *handle_count(PyObject *self, PyObject *none) {
    (void)none;
    return number_of(self, recfile_count);
}

/* (key, record, owner or None) */
static PyObject *tuple_of_entry(const recfile_listed *entry) {
    const char *key = (const char *)entry->key.bytes, *value = (const char *)entry->value.bytes;
    Py_ssize_t key_len = entry->key.len, value_len = entry->value.len;
    if (entry->is_owned)
        return Py_BuildValue("y#y#I", key, key_len, value, value_len, (unsigned int)entry->owner);
    return Py_BuildValue("y#y#O", key, key_len, value, value_len, Py_None);
}

/* At most so many entries from a key on, copied: the library has one list a handle, which the next takes the place of. */
static PyObject *handle_range(PyObject *self, PyObject *words) {
    const char *key;
    Py_ssize_t key_len;
    int at_key, is_down;
    unsigned int most;
    uint64_t count;
    recfile_detail detail;
    recfile_listed entry;
    recfile *file = ((Handle *)self)->file;
    if (!is_ours((Handle *)self, NULL) || !PyArg_ParseTuple(words, "y#ppI", &key, &key_len, &at_key, &is_down, &most))
        return NULL;
    int32_t status = recfile_range(file, (const uint8_t *)key, (size_t)key_len, at_key != 0, is_down != 0, most, &count,
                                   &detail);
    if (status != RECFILE_OK)
        return refuse(status, &detail, NULL, NULL, NULL);
    PyObject *list = PyList_New(0);
    for (uint64_t i = 0; list != NULL && i < count; i++) {
        status = recfile_entry(file, i, &entry);
        PyObject *tuple = status == RECFILE_OK ? tuple_of_entry(&entry) : done(status);
        if (tuple == NULL || PyList_Append(list, tuple) != 0)
            Py_CLEAR(list);
        Py_XDECREF(tuple);
    }
    return list;
}

static PyObject *handle_committed(PyObject *self, PyObject *key) {
    char *bytes;
    Py_ssize_t len;
    recfile_record found;
    recfile_detail detail;
    if (!is_ours((Handle *)self, NULL) || PyBytes_AsStringAndSize(key, &bytes, &len) != 0)
        return NULL;
    int32_t status = recfile_committed(((Handle *)self)->file, (const uint8_t *)bytes, (size_t)len, &found, &detail);
    return status == RECFILE_OK ? bytes_of_record(&found) : refuse(status, &detail, NULL, NULL, key);
}

/* Takes back each open transaction, those too that no Transaction stands for, as where a signal broke a begin off. */
static PyObject *handle_end_all(PyObject *self, PyObject *none) {
    recfile *file = ((Handle *)self)->file;
    uint32_t begun, undone;
    recfile_tx_status told;
    recfile_detail detail;
    (void)none;
    if (!is_ours((Handle *)self, NULL))
        return NULL;
    int32_t status = recfile_begun(file, &begun);
    for (uint32_t number = 1; status == RECFILE_OK && number <= begun; number++) {
        if (recfile_status(file, number, &told) != RECFILE_OK)
            continue;
        if (told.is_rolling)
            status = recfile_resume(file, number, &undone, &detail);
        if (status == RECFILE_OK && !(told.is_rolling && told.ends))
            status = recfile_abort(file, number, &undone, &detail);
        if (status != RECFILE_OK)
            return refuse(status, &detail, NULL, NULL, NULL);
    }
    return done(status);
}

static PyMethodDef handle_methods[] = {
    {"memory", handle_memory, METH_VARARGS, NULL},
    {"open", handle_open, METH_VARARGS, NULL},
    {"create", handle_create, METH_VARARGS, NULL},
    {"read", handle_read, METH_VARARGS, NULL},
    {"close", handle_close, METH_VARARGS, NULL},
    {"drop", handle_drop, METH_NOARGS, NULL},
    {"adopt", handle_adopt, METH_NOARGS, NULL},
    {"begin", handle_begin, METH_NOARGS, NULL},
    {"log_len", handle_log_len, METH_NOARGS, NULL},
    {"log_use", handle_log_use, METH_NOARGS, NULL},
    {"count", handle_count, METH_NOARGS, NULL},
    {"range", handle_range, METH_VARARGS, NULL},
    {"committed", handle_committed, METH_O, NULL},
    {"end_all", handle_end_all, METH_NOARGS, NULL},
    {NULL, NULL, 0, NULL},
};
static PyType_Slot handle_slots[] = {
    {Py_tp_new, handle_new},
    {Py_tp_dealloc, handle_dealloc},
    {Py_tp_methods, handle_methods},
    {0, NULL},
};
static PyType_Spec handle_spec = {
    "recfile._recfile.Handle", sizeof(Handle), 0, Py_TPFLAGS_DEFAULT, handle_slots,
};

/* Transactions */

static PyObject *transaction_new(PyTypeObject *type, PyObject *words, PyObject *names) {
    PyObject *handle;
    unsigned int number;
    (void)names;
    if (!PyArg_ParseTuple(words, "O!I", handle_type, &handle, &number))
        return NULL;
    Transaction *transaction = (Transaction *)PyType_GenericAlloc(type, 0);
    if (transaction == NULL)
        return NULL;
    Py_INCREF(handle);
    transaction->handle = (Handle *)handle;
    transaction->number = number;
    return (PyObject *)transaction;
}

static void transaction_dealloc(PyObject *self) {
    PyTypeObject *type = Py_TYPE(self);
    Py_XDECREF((PyObject *)((Transaction *)self)->handle);
    ((freefunc)PyType_GetSlot(type, Py_tp_free))(self);
    Py_DECREF(type);
}

/* The file under a transaction that may be called here; else NULL, with an exception. */
static recfile *file_of(PyObject *self) {
    Transaction *transaction = (Transaction *)self;
    if (!is_ours(transaction->handle, self))
        return NULL;
    if (transaction->has_ended) {
        refuse(ENDED, NULL, NULL, self, NULL);
        return NULL;
    }
    return transaction->handle->file;
}

/* 0, or -1 with an exception. */
static int look_up(PyObject *self, PyObject *key, recfile_record *found) {
    char *bytes;
    Py_ssize_t len;
    recfile_detail detail;
    recfile *file = file_of(self);
    if (file == NULL || PyBytes_AsStringAndSize(key, &bytes, &len) != 0)
        return -1;
    int32_t status =
        recfile_get(file, ((Transaction *)self)->number, (const uint8_t *)bytes, (size_t)len, found, &detail);
    if (status == RECFILE_OK)
        return 0;
    refuse(status, &detail, NULL, self, key);
    return -1;
}

static PyObject *transaction_subscript(PyObject *self, PyObject *key) {
    recfile_record found;
    if (look_up(self, key, &found) != 0)
        return NULL;
    return found.is_there ? bytes_of_record(&found) : refuse(RECFILE_ABSENT, NULL, NULL, self, key);
}

static int transaction_contains(PyObject *self, PyObject *key) {
    recfile_record found;
    return look_up(self, key, &found) != 0 ? -1 : found.is_there != 0;
}

static PyObject *transaction_get(PyObject *self, PyObject *words) {
    PyObject *key, *otherwise = Py_None;
    recfile_record found;
    if (!PyArg_ParseTuple(words, "O|O", &key, &otherwise) || look_up(self, key, &found) != 0)
        return NULL;
    if (found.is_there)
        return bytes_of_record(&found);
    Py_INCREF(otherwise);
    return otherwise;
}

/* Puts a record, or takes one out where value is NULL. 0, or -1 with an exception. */
static int change(PyObject *self, PyObject *key, PyObject *value, recfile_record *before) {
    char *key_bytes, *bytes = NULL;
    Py_ssize_t key_len, len = 0;
    recfile_detail detail;
    int32_t status;
    uint32_t number = ((Transaction *)self)->number;
    recfile *file = file_of(self);
    if (file == NULL || PyBytes_AsStringAndSize(key, &key_bytes, &key_len) != 0
        || (value != NULL && PyBytes_AsStringAndSize(value, &bytes, &len) != 0))
        return -1;
    if (value == NULL)
        status = recfile_remove(file, number, (const uint8_t *)key_bytes, (size_t)key_len, before, &detail);
    else
        status = recfile_put(file, number, (const uint8_t *)key_bytes, (size_t)key_len, (const uint8_t *)bytes,
                             (size_t)len, before, &detail);
    if (status == RECFILE_OK)
        return 0;
    refuse(status, &detail, NULL, self, key);
    return -1;
}

static int transaction_set(PyObject *self, PyObject *key, PyObject *value) {
    recfile_record before;
    return change(self, key, value, &before);
}

static PyObject *transaction_put(PyObject *self, PyObject *words) {
    PyObject *key, *value;
    recfile_record before;
    if (!PyArg_ParseTuple(words, "OO", &key, &value) || change(self, key, value, &before) != 0)
        return NULL;
    return bytes_of_record(&before);
}

static PyObject *transaction_remove(PyObject *self, PyObject *key) {
    recfile_record before;
    return change(self, key, NULL, &before) != 0 ? NULL : bytes_of_record(&before);
}

static PyObject *transaction_claim(PyObject *self, PyObject *key) {
    char *bytes;
    Py_ssize_t len;
    recfile_record seen;
    recfile_detail detail;
    recfile *file = file_of(self);
    if (file == NULL || PyBytes_AsStringAndSize(key, &bytes, &len) != 0)
        return NULL;
    int32_t status =
        recfile_claim(file, ((Transaction *)self)->number, (const uint8_t *)bytes, (size_t)len, &seen, &detail);
    return status == RECFILE_OK ? bytes_of_record(&seen) : refuse(status, &detail, NULL, self, key);
}

static PyObject *transaction_savepoint(PyObject *self, PyObject *none) {
    uint32_t savepoint;
    recfile *file = file_of(self);
    (void)none;
    if (file == NULL)
        return NULL;
    int32_t status = recfile_savepoint(file, ((Transaction *)self)->number, &savepoint);
    return status == RECFILE_OK ? PyLong_FromUnsignedLong(savepoint) : refuse(status, NULL, NULL, self, NULL);
}

static PyObject *transaction_release(PyObject *self, PyObject *words) {
    unsigned int savepoint;
    recfile *file = file_of(self);
    if (file == NULL || !PyArg_ParseTuple(words, "I", &savepoint))
        return NULL;
    int32_t status = recfile_release(file, ((Transaction *)self)->number, savepoint);
    return status == RECFILE_OK ? done(status) : refuse(status, NULL, NULL, self, NULL);
}

/* What a rollback answered: how many changes. */
static PyObject *undone_or_fault(PyObject *self, int32_t status, uint32_t undone, const recfile_detail *detail) {
    return status == RECFILE_OK ? PyLong_FromUnsignedLong(undone) : refuse(status, detail, NULL, self, NULL);
}

static PyObject *transaction_rollback_to(PyObject *self, PyObject *words) {
    unsigned int savepoint;
    uint32_t undone = 0;
    recfile_detail detail;
    recfile *file = file_of(self);
    if (file == NULL || !PyArg_ParseTuple(words, "I", &savepoint))
        return NULL;
    int32_t status = recfile_rollback_to(file, ((Transaction *)self)->number, savepoint, &undone, &detail);
    return undone_or_fault(self, status, undone, &detail);
}

static PyObject *transaction_abort(PyObject *self, PyObject *none) {
    uint32_t undone = 0;
    recfile_detail detail;
    recfile *file = file_of(self);
    (void)none;
    if (file == NULL)
        return NULL;
    int32_t status = recfile_abort(file, ((Transaction *)self)->number, &undone, &detail);
    ((Transaction *)self)->has_ended = status == RECFILE_OK;
    return undone_or_fault(self, status, undone, &detail);
}

static PyObject *transaction_resume(PyObject *self, PyObject *none) {
    uint32_t undone = 0;
    recfile_detail detail;
    recfile_tx_status told = {0};
    recfile *file = file_of(self);
    (void)none;
    if (file == NULL)
        return NULL;
    recfile_status(file, ((Transaction *)self)->number, &told);
    int32_t status = recfile_resume(file, ((Transaction *)self)->number, &undone, &detail);
    ((Transaction *)self)->has_ended = status == RECFILE_OK && told.ends;
    return undone_or_fault(self, status, undone, &detail);
}

static PyObject *transaction_commit(PyObject *self, PyObject *none) {
    recfile *file = file_of(self);
    (void)none;
    if (file == NULL)
        return NULL;
    int32_t status = recfile_commit(file, ((Transaction *)self)->number);
    ((Transaction *)self)->has_ended = status == RECFILE_OK;
    return status == RECFILE_OK ? done(status) : refuse(status, NULL, NULL, self, NULL);
}

/* (is_rolling, ends, savepoints, live, left) */
static PyObject *transaction_status(PyObject *self, PyObject *none) {
    recfile_tx_status told;
    recfile *file = file_of(self);
    (void)none;
    if (file == NULL)
        return NULL;
    int32_t status = recfile_status(file, ((Transaction *)self)->number, &told);
    if (status != RECFILE_OK)
        return refuse(status, NULL, NULL, self, NULL);
    return Py_BuildValue("OOIII", told.is_rolling ? Py_True : Py_False, told.ends ? Py_True : Py_False,
                         (unsigned int)told.saves, (unsigned int)told.live, (unsigned int)told.left);
}

static PyObject *transaction_held(PyObject *self, PyObject *none) {
    uint64_t count;
    recfile_key_bytes key;
    recfile *file = file_of(self);
    (void)none;
    if (file == NULL)
        return NULL;
    int32_t status = recfile_keys_of(file, ((Transaction *)self)->number, &count);
    if (status != RECFILE_OK)
        return refuse(status, NULL, NULL, self, NULL);
    PyObject *list = PyList_New(0);
    for (uint64_t i = 0; list != NULL && i < count; i++) {
        status = recfile_key(file, i, &key);
        PyObject *bytes = status == RECFILE_OK ? PyBytes_FromStringAndSize((const char *)key.bytes, key.len)
                                               : refuse(status, NULL, NULL, self, NULL);
        if (bytes == NULL || PyList_Append(list, bytes) != 0)
            Py_CLEAR(list);
        Py_XDECREF(bytes);
    }
    return list;
}

/* The file is closed, and the transaction with it. */
static PyObject *transaction_forget(PyObject *self, PyObject *none) {
    (void)none;
    ((Transaction *)self)->has_ended = 1;
    Py_RETURN_NONE;
}

static PyObject *transaction_number(PyObject *self, void *none) {
    (void)none;
    return PyLong_FromUnsignedLong(((Transaction *)self)->number);
}

static PyObject *transaction_ended(PyObject *self, void *none) {
    (void)none;
    return PyBool_FromLong(((Transaction *)self)->has_ended);
}

static PyMethodDef transaction_methods[] = {
    {"get", transaction_get, METH_VARARGS, "get(key, default=None)\n--\n\nThe record at a key, or default."},
    {"put", transaction_put, METH_VARARGS,
     "put(key, record)\n--\n\nPuts a record, and returns the one that stood there, or None. Raises EmptyKey, LongKey, "
     "LongRecord, Held, Full, LogFull, OutOfMemory, Rolling, Ended."},
    {"remove", transaction_remove, METH_O,
     "remove(key)\n--\n\nTakes a record out, and returns it. Raises Absent, Held, LogFull, OutOfMemory, Rolling, Ended."},
    {"claim", transaction_claim, METH_O,
     "claim(key)\n--\n\nTakes a key, so that no other transaction changes or reads it, and returns the record that "
     "stands there, or None. Raises what put does."},
    {"held", transaction_held, METH_NOARGS, "held()\n--\n\nThe keys that it owns, in order."},
    {"_savepoint", transaction_savepoint, METH_NOARGS, NULL},
    {"_release", transaction_release, METH_VARARGS, NULL},
    {"_rollback_to", transaction_rollback_to, METH_VARARGS, NULL},
    {"_abort", transaction_abort, METH_NOARGS, NULL},
    {"_resume", transaction_resume, METH_NOARGS, NULL},
    {"_commit", transaction_commit, METH_NOARGS, NULL},
    {"_status", transaction_status, METH_NOARGS, NULL},
    {"_forget", transaction_forget, METH_NOARGS, NULL},
    {NULL, NULL, 0, NULL},
};
static PyGetSetDef transaction_fields[] = {
    {"number", transaction_number, NULL, "Its number, as Held.owner and Entry.owner tell it.", NULL},
    {"ended", transaction_ended, NULL, "Whether it has ended.", NULL},
    {NULL, NULL, NULL, NULL, NULL},
};
static PyType_Slot transaction_slots[] = {
    {Py_tp_new, transaction_new},
    {Py_tp_dealloc, transaction_dealloc},
    {Py_tp_methods, transaction_methods},
    {Py_tp_getset, transaction_fields},
    {Py_mp_subscript, transaction_subscript},
    {Py_mp_ass_subscript, transaction_set},
    {Py_sq_contains, transaction_contains},
    {0, NULL},
};
static PyType_Spec transaction_spec = {
    "recfile._recfile.Transaction", sizeof(Transaction), 0, Py_TPFLAGS_DEFAULT | Py_TPFLAGS_BASETYPE,
    transaction_slots,
};

/* The module */

static PyObject *set_fault(PyObject *self, PyObject *maker) {
    PyObject *before = fault_maker;
    (void)self;
    Py_INCREF(maker);
    fault_maker = maker;
    Py_XDECREF(before);
    Py_RETURN_NONE;
}

static PyObject *version(PyObject *self, PyObject *none) {
    (void)self;
    (void)none;
    return PyLong_FromUnsignedLong(recfile_version());
}

static PyObject *text(PyObject *self, PyObject *status) {
    long number = PyLong_AsLong(status);
    (void)self;
    if (number == -1 && PyErr_Occurred())
        return NULL;
    return PyUnicode_FromString(recfile_status_text((int32_t)number));
}

static PyMethodDef functions[] = {
    {"set_fault", set_fault, METH_O, NULL},
    {"version", version, METH_NOARGS, NULL},
    {"text", text, METH_O, NULL},
    {NULL, NULL, 0, NULL},
};
static struct PyModuleDef module = {
    PyModuleDef_HEAD_INIT, "recfile._recfile", NULL, -1, functions, NULL, NULL, NULL, NULL,
};

/* The numbers that the layer above goes by, under their names in recfile.h. */
static const struct {
    const char *name;
    long number;
} numbers[] = {
    {"VERSION_MAJOR", RECFILE_VERSION_MAJOR}, {"CLOSED", RECFILE_CLOSED}, {"EMPTY_KEY", RECFILE_EMPTY_KEY},
    {"LONG_KEY", RECFILE_LONG_KEY}, {"LONG_RECORD", RECFILE_LONG_RECORD}, {"BEGINS_SPENT", RECFILE_BEGINS_SPENT},
    {"NO_SUCH_TX", RECFILE_NO_SUCH_TX}, {"ROLLING", RECFILE_ROLLING}, {"NOT_ROLLING", RECFILE_NOT_ROLLING},
    {"HELD", RECFILE_HELD}, {"LOG_FULL", RECFILE_LOG_FULL}, {"DEVICE", RECFILE_DEVICE},
    {"DAMAGED", RECFILE_DAMAGED}, {"FULL", RECFILE_FULL}, {"ABSENT", RECFILE_ABSENT},
    {"TOO_DEEP", RECFILE_TOO_DEEP}, {"NO_SUCH_SAVE", RECFILE_NO_SUCH_SAVE}, {"STOPPED", RECFILE_STOPPED},
    {"MEMORY", RECFILE_MEMORY}, {"BAD_RECORDS", RECFILE_BAD_RECORDS}, {"BAD_LOG", RECFILE_BAD_LOG},
    {"BAD_BEGINS", RECFILE_BAD_BEGINS}, {"STILL_OPEN", RECFILE_STILL_OPEN}, {"BAD_LENGTH", RECFILE_BAD_LENGTH},
    {"BAD_MAGIC", RECFILE_BAD_MAGIC}, {"BAD_VERSION", RECFILE_BAD_VERSION}, {"BAD_ORDER", RECFILE_BAD_ORDER},
    {"NOT_CLEAN", RECFILE_NOT_CLEAN}, {"BAD_HEADER", RECFILE_BAD_HEADER}, {"WRONG_COUNT", RECFILE_WRONG_COUNT},
    {"TOO_MANY_RECORDS", RECFILE_TOO_MANY_RECORDS}, {"BAD_JOURNAL", RECFILE_BAD_JOURNAL},
    {"WRONG_THREAD", WRONG_THREAD}, {"WRONG_PROCESS", WRONG_PROCESS}, {"ENDED", ENDED},
};

/* Adds a value of which the module takes the place of the caller. 0, or -1 with an exception. */
static int add(PyObject *to, const char *name, PyObject *value) {
    if (value != NULL && PyModule_AddObject(to, name, value) == 0)
        return 0;
    Py_XDECREF(value);
    return -1;
}

PyMODINIT_FUNC PyInit__recfile(void) {
    static int is_known_to_fork;
    if (!is_known_to_fork && pthread_atfork(NULL, NULL, in_child) != 0)
        return PyErr_NoMemory();
    is_known_to_fork = 1;
    PyObject *made = PyModule_Create(&module);
    if (made == NULL)
        return NULL;
    handle_type = (PyTypeObject *)PyType_FromSpec(&handle_spec);
    Py_XINCREF(handle_type);
    int status = add(made, "Handle", (PyObject *)handle_type);
    if (status == 0)
        status = add(made, "Transaction", PyType_FromSpec(&transaction_spec));
    for (size_t i = 0; status == 0 && i < sizeof numbers / sizeof numbers[0]; i++)
        status = PyModule_AddIntConstant(made, numbers[i].name, numbers[i].number);
    if (status != 0)
        Py_CLEAR(made);
    return made;
}
