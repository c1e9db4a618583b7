/* The calls of a store that all threads of Python share, as an extension module of the stable ABI.
 *
 * Each call takes a session of the shard of its name and gives it back. Its result is a tuple: the
 * status, and what the function of include/lrc_store.h writes. A short call is tried once without
 * letting go of the GIL. A longer one, one that may free much, and one that waits, lets other
 * threads of Python run, and handles signals every 50 milliseconds. */
#define Py_LIMITED_API 0x030b0000
#define PY_SSIZE_T_CLEAN
#include <Python.h>

#include "lrc_store.h"

#include <string.h>
#include <time.h>

enum { SHORT_BYTES = 4096, SLICE_MS = 50, MOST_NUMBERS = 6, NS_OF_MS = 1000000, MOST_NAME = 32 };
/* How many repairs are planned at once, between which other threads call. */
enum { PLANNED_AT_ONCE = 512, RUNS_AT_ONCE = 64 };

/* What is guarded by the GIL. */
typedef struct {
    PyObject_HEAD lrc_shards *shards; /* NULL once it is closed */
    unsigned long calls_inside;
    uint32_t count, mends; /* how many shards there are, and how many mends began */
} store_calls;

/* A version of a blob that is held, with its name. */
typedef struct {
    PyObject_HEAD lrc_slot slot;
    PyThread_type_lock lock; /* of the call that uses it */
    unsigned long user;      /* its thread, or 0; guarded by the GIL */
    uint8_t name[MOST_NAME];
    Py_ssize_t name_len;
} held_version;

/* A lent range, or a run of one. A run has a reference to its range, and a memoryview one to its
 * run, so the range stays until all views are gone. */
typedef struct {
    PyObject_HEAD lrc_slot slot; /* that of a run is empty */
    PyObject *range;             /* NULL, unless it is a run */
    lrc_slice bytes;
} lent;

/* A call on a session of the shard of its name, or one of all shards; its arguments, and the
 * numbers that it writes. */
struct call {
    uint32_t (*run)(lrc_slot *session, struct call *call, int64_t timeout_ms);
    uint32_t (*run_all)(lrc_shards *shards, struct call *call, int64_t timeout_ms);
    const uint8_t *name;
    Py_ssize_t name_len;
    uint64_t first, second;
    uint8_t *bytes;
    Py_ssize_t len;
    held_version *held;
    lrc_slot *filled; /* by a hold or a lend */
    int may_be_long;  /* also with few bytes */
    lrc_slot *copy;   /* of what is put, once that was found busy */
    uint64_t numbers[MOST_NUMBERS];
};

static uint32_t put(lrc_slot *session, struct call *call, int64_t timeout_ms) {
    if (call->copy && call->copy->at)
        return lrc_store_put_from_wait(session, call->name, (size_t)call->name_len, call->copy,
                                       (uint32_t)call->first, &call->numbers[0], timeout_ms);
    return lrc_store_put_wait(session, call->name, (size_t)call->name_len, call->bytes,
                              (size_t)call->len, (uint32_t)call->first, &call->numbers[0],
                              timeout_ms);
}

static uint32_t read_range(lrc_slot *session, struct call *call, int64_t timeout_ms) {
    return lrc_store_read_wait(session, call->name, (size_t)call->name_len, call->first,
                               call->bytes, (size_t)call->len, &call->numbers[0], &call->numbers[1],
                               &call->numbers[2], timeout_ms);
}

static uint32_t stat_blob(lrc_slot *session, struct call *call, int64_t timeout_ms) {
    uint64_t *numbers = call->numbers;
    return lrc_store_stat_wait(session, call->name, (size_t)call->name_len, &numbers[0],
                               &numbers[1], &numbers[2], &numbers[3], timeout_ms);
}

static uint32_t delete_blob(lrc_slot *session, struct call *call, int64_t timeout_ms) {
    return lrc_store_delete_wait(session, call->name, (size_t)call->name_len, &call->numbers[0],
                                 timeout_ms);
}

static uint32_t lose(lrc_slot *session, struct call *call, int64_t timeout_ms) {
    return lrc_store_lose_wait(session, call->name, (size_t)call->name_len, call->first,
                               call->second, &call->numbers[0], timeout_ms);
}

static uint32_t repair(lrc_slot *session, struct call *call, int64_t timeout_ms) {
    return lrc_store_repair_wait(session, call->name, (size_t)call->name_len, call->first,
                                 call->second, &call->numbers[0], timeout_ms);
}

/* It is made in slices, each of which may discard some. */
static uint32_t trim(lrc_shards *shards, struct call *call, int64_t timeout_ms) {
    uint64_t discarded = 0;
    const uint32_t status = lrc_shards_trim(shards, call->first, &discarded, timeout_ms);
    call->numbers[0] += discarded;
    return status;
}

/* Copies what is to be put, so that no slice of the call copies and encodes it again. */
static uint32_t copy_once(const struct call *call) {
    lrc_buffer buffer = {(uint8_t *)"", 0};
    const uint32_t status = lrc_slot_reserve((size_t)call->len, call->copy);
    if (status != LRC_STORE_DONE) return status;
    lrc_slot_buffer(call->copy, &buffer);
    memcpy(buffer.at, call->bytes, buffer.len);
    return LRC_STORE_BUSY;
}

static uint32_t hold(lrc_slot *session, struct call *call, int64_t timeout_ms) {
    return lrc_store_hold_wait(session, call->name, (size_t)call->name_len, call->filled,
                               &call->numbers[0], &call->numbers[1], timeout_ms);
}

static uint32_t hold_with_name(lrc_slot *session, struct call *call, int64_t timeout_ms) {
    held_version *held = call->held;
    call->filled = &held->slot;
    const uint32_t status = hold(session, call, timeout_ms);
    if (status != LRC_STORE_DONE) return status;
    memcpy(held->name, call->name, (size_t)call->name_len);
    held->name_len = call->name_len;
    return status;
}

static uint32_t lend(lrc_slot *session, struct call *call, int64_t timeout_ms) {
    return lrc_store_lend_wait(session, call->name, (size_t)call->name_len, call->first,
                               call->second, call->filled, &call->numbers[0], &call->numbers[1],
                               timeout_ms);
}

static uint32_t restore(lrc_slot *session, struct call *call, int64_t timeout_ms) {
    return lrc_store_restore_wait(session, &call->held->slot, call->first, call->second,
                                  call->bytes, (size_t)call->len, &call->numbers[0], timeout_ms);
}

static uint32_t get_numbers(lrc_shards *shards, struct call *call, int64_t timeout_ms) {
    lrc_numbers found = {0};
    const uint32_t status = lrc_shards_numbers(shards, &found, timeout_ms);
    const uint64_t numbers[] = {found.blobs,         found.bytes, found.lost,
                                found.unrecoverable, found.calls, found.entries};
    memcpy(call->numbers, numbers, sizeof numbers);
    return status;
}

/* Plans a part of what a shard has lost, behind the part that is there. */
static uint32_t plan_part(lrc_shards *shards, struct call *call, int64_t timeout_ms) {
    lrc_pool *pool = NULL;
    lrc_slot *session = NULL;
    uint32_t status = lrc_shards_at(shards, (uint32_t)call->first, &pool);
    if (status == LRC_STORE_DONE) status = lrc_pool_take(pool, &session, timeout_ms);
    if (status != LRC_STORE_DONE) return status;
    status = lrc_store_plan_part_wait(session, call->filled, PLANNED_AT_ONCE, &call->numbers[0],
                                      timeout_ms);
    lrc_pool_give(pool, session);
    return status;
}

static int64_t now_ns(void) {
    struct timespec now;
    clock_gettime(CLOCK_MONOTONIC, &now);
    return (int64_t)now.tv_sec * 1000 * NS_OF_MS + now.tv_nsec;
}

/* How many milliseconds are left, rounded up. */
static int64_t left_ms(int64_t end) {
    const int64_t left = end - now_ns();
    return left > 0 ? (left - 1) / NS_OF_MS + 1 : 0;
}

static int64_t end_after(int64_t timeout_ms) {
    const int64_t now = now_ns();
    return timeout_ms < 0 || timeout_ms > (INT64_MAX - now) / NS_OF_MS
               ? INT64_MAX
               : now + timeout_ms * NS_OF_MS;
}

/* The wait for a session and the call have one deadline. */
static uint32_t run(lrc_shards *shards, struct call *call, int64_t timeout_ms) {
    lrc_pool *pool = NULL;
    lrc_slot *session = NULL;
    if (call->run_all) return call->run_all(shards, call, timeout_ms);
    const int64_t end = timeout_ms ? end_after(timeout_ms) : 0;
    uint32_t status = lrc_shards_find(shards, call->name, (size_t)call->name_len, &pool);
    if (status == LRC_STORE_DONE) status = lrc_pool_take(pool, &session, timeout_ms);
    if (status != LRC_STORE_DONE) return status;
    status = call->run(session, call, timeout_ms ? left_ms(end) : 0);
    lrc_pool_give(pool, session);
    return status;
}

/* A first attempt. After it, what is put is copied. */
static uint32_t run_first(lrc_shards *shards, struct call *call, int64_t end) {
    const uint32_t status = run(shards, call, 0);
    return status == LRC_STORE_BUSY && call->copy && left_ms(end) ? copy_once(call) : status;
}

/* Makes the call without the GIL, in slices between which Python handles signals. The status is
 * LRC_STORE_BUSY at the deadline. Returns -1 if a handler raised an exception. */
static int wait_for(lrc_shards *shards, struct call *call, int64_t timeout_ms, uint32_t *status) {
    const int64_t end = end_after(timeout_ms);
    for (int is_first = !call->run_all;; is_first = 0) {
        const int64_t left = left_ms(end);
        PyThreadState *thread = PyEval_SaveThread();
        *status = is_first ? run_first(shards, call, end)
                           : run(shards, call, left < SLICE_MS ? left : SLICE_MS);
        PyEval_RestoreThread(thread);
        if (PyErr_CheckSignals() < 0) return -1;
        if (*status != LRC_STORE_BUSY || !left) return 0;
    }
}

/* Makes the call. Returns -1 if there is an exception. */
static int make(store_calls *self, struct call *call, int64_t timeout_ms, uint32_t *status) {
    int result = 0;
    if (!self->shards) {
        *status = LRC_STORE_EMPTY;
        return 0;
    }
    self->calls_inside++;
    *status = LRC_STORE_BUSY;
    if (call->len <= SHORT_BYTES && !call->may_be_long) *status = run(self->shards, call, 0);
    if (*status == LRC_STORE_BUSY) result = wait_for(self->shards, call, timeout_ms, status);
    self->calls_inside--;
    return result;
}

/* The status and the first `count` numbers as a tuple. */
static PyObject *reply(uint32_t status, const struct call *call, Py_ssize_t count) {
    PyObject *tuple = PyTuple_New(1 + count);
    if (!tuple) return NULL;
    for (Py_ssize_t i = 0; i <= count; i++) {
        PyObject *number = PyLong_FromUnsignedLongLong(i ? call->numbers[i - 1] : status);
        if (!number || PyTuple_SetItem(tuple, i, number) < 0) {
            Py_DECREF(tuple);
            return NULL;
        }
    }
    return tuple;
}

static PyObject *made(store_calls *self, struct call *call, int64_t timeout_ms, Py_ssize_t count) {
    uint32_t status;
    return make(self, call, timeout_ms, &status) < 0 ? NULL : reply(status, call, count);
}

static int count_is(const char *method, Py_ssize_t count, Py_ssize_t wanted) {
    if (count == wanted) return 1;
    PyErr_Format(PyExc_TypeError, "%s takes %zd arguments, not %zd", method, wanted, count);
    return 0;
}

/* The bytes of a name, which may be str or bytes. A str without UTF-8 is no name: it has no
 * bytes. Returns -1 if there is an exception. */
static int name_to(struct call *call, PyObject *name) {
    if (PyUnicode_Check(name)) {
        call->name = (const uint8_t *)PyUnicode_AsUTF8AndSize(name, &call->name_len);
        if (call->name) return 0;
        PyErr_Clear();
        call->name = (const uint8_t *)"";
        call->name_len = 0;
        return 0;
    }
    if (PyBytes_Check(name)) {
        char *bytes;
        if (PyBytes_AsStringAndSize(name, &bytes, &call->name_len) < 0) return -1;
        call->name = (const uint8_t *)bytes;
        return 0;
    }
    PyErr_SetString(PyExc_TypeError, "the name is neither str nor bytes");
    return -1;
}

static int number_to(uint64_t *number, PyObject *object, uint64_t most) {
    *number = PyLong_AsUnsignedLongLong(object);
    const int is_outside =
        PyErr_Occurred() ? PyErr_ExceptionMatches(PyExc_OverflowError) : *number > most;
    if (is_outside) {
        PyErr_Clear();
        PyErr_Format(PyExc_ValueError, "%R is not in 0 to %llu", object, (unsigned long long)most);
    }
    return PyErr_Occurred() ? -1 : 0;
}

static int timeout_to(int64_t *timeout_ms, PyObject *object) {
    *timeout_ms = PyLong_AsLongLong(object);
    return PyErr_Occurred() ? -1 : 0;
}

/* Empties a slot, whose content may be large, without the GIL. */
static void release(lrc_slot *slot) {
    if (!slot->at) return;
    PyThreadState *thread = PyEval_SaveThread();
    lrc_slot_release(slot);
    PyEval_RestoreThread(thread);
}

/* put(name, blob, data_fragments, timeout_ms) -> (status, version) */
static PyObject *calls_put(store_calls *self, PyObject *const *words, Py_ssize_t count) {
    lrc_slot copy = LRC_SLOT_EMPTY;
    struct call call = {.run = put, .copy = &copy};
    int64_t timeout_ms;
    Py_buffer blob;
    if (!count_is("put", count, 4) || name_to(&call, words[0]) < 0 ||
        number_to(&call.first, words[2], UINT32_MAX) < 0 || timeout_to(&timeout_ms, words[3]) < 0 ||
        PyObject_GetBuffer(words[1], &blob, PyBUF_SIMPLE) < 0)
        return NULL;
    call.bytes = blob.len ? blob.buf : (uint8_t *)"";
    call.len = blob.len;
    PyObject *result = made(self, &call, timeout_ms, 1);
    release(&copy);
    PyBuffer_Release(&blob);
    return result;
}

/* read_into(name, start, buffer, timeout_ms) -> (status, version) */
static PyObject *calls_read_into(store_calls *self, PyObject *const *words, Py_ssize_t count) {
    struct call call = {.run = read_range};
    int64_t timeout_ms;
    Py_buffer target;
    if (!count_is("read_into", count, 4) || name_to(&call, words[0]) < 0 ||
        number_to(&call.first, words[1], UINT64_MAX) < 0 || timeout_to(&timeout_ms, words[3]) < 0 ||
        PyObject_GetBuffer(words[2], &target, PyBUF_WRITABLE) < 0)
        return NULL;
    uint8_t empty;
    call.bytes = target.len ? target.buf : &empty;
    call.len = target.len;
    PyObject *result = made(self, &call, timeout_ms, 1);
    PyBuffer_Release(&target);
    return result;
}

/* Reads so many bytes into `bytes`, a new object. Returns -1 if there is an exception. */
static int read_new(store_calls *self, struct call *call, uint64_t length, int64_t timeout_ms,
                    PyObject **bytes, uint32_t *status) {
    if (length > (uint64_t)PY_SSIZE_T_MAX - 64) {
        PyErr_NoMemory();
        return -1;
    }
    call->len = (Py_ssize_t)length;
    *bytes = PyBytes_FromStringAndSize(NULL, call->len);
    if (!*bytes) return -1;
    call->bytes = (uint8_t *)PyBytes_AsString(*bytes);
    if (make(self, call, timeout_ms, status) < 0 || *status != LRC_STORE_DONE) Py_CLEAR(*bytes);
    return PyErr_Occurred() ? -1 : 0;
}

/* Copies the bytes of a version from `start` on into `bytes`, a new object, and empties the slot.
 * Returns -1 if there is an exception. */
static int take_rest(lrc_slot *version, uint64_t start, uint64_t length, PyObject **bytes,
                     uint32_t *status) {
    *bytes = PyBytes_FromStringAndSize(NULL, (Py_ssize_t)length);
    char *target = *bytes ? PyBytes_AsString(*bytes) : NULL;
    PyThreadState *thread = length <= SHORT_BYTES ? NULL : PyEval_SaveThread();
    if (target) *status = lrc_slot_copy(version, start, (uint8_t *)target, (size_t)length);
    lrc_slot_release(version);
    if (thread) PyEval_RestoreThread(thread);
    if (target && *status != LRC_STORE_DONE) Py_CLEAR(*bytes);
    return target ? 0 : -1;
}

/* Reads all bytes from `call->first` on, of the version that the blob has now. Returns -1 if there
 * is an exception. */
static int read_rest(store_calls *self, struct call *call, int64_t timeout_ms, PyObject **bytes,
                     uint32_t *status) {
    lrc_slot version = LRC_SLOT_EMPTY;
    call->run = hold;
    call->filled = &version;
    const int failed = make(self, call, timeout_ms, status);
    const uint64_t start = call->first, size = call->numbers[1];
    if (!failed && *status == LRC_STORE_DONE && start <= size)
        return take_rest(&version, start, size - start, bytes, status);
    if (*status == LRC_STORE_DONE) *status = LRC_STORE_OUT_OF_RANGE;
    release(&version);
    return failed;
}

/* get(name, start, length or None, timeout_ms) -> (status, version, bytes or None), of one version.
 * Without a length it reads all bytes from `start` on. */
static PyObject *calls_get(store_calls *self, PyObject *const *words, Py_ssize_t count) {
    struct call call = {.run = read_range};
    int64_t timeout_ms;
    uint64_t length = 0;
    uint32_t status;
    PyObject *bytes = NULL;
    if (!count_is("get", count, 4) || name_to(&call, words[0]) < 0 ||
        number_to(&call.first, words[1], UINT64_MAX) < 0 || timeout_to(&timeout_ms, words[3]) < 0)
        return NULL;
    const int is_whole = words[2] == Py_None;
    if (!is_whole && number_to(&length, words[2], UINT64_MAX) < 0) return NULL;
    const int failed = is_whole ? read_rest(self, &call, timeout_ms, &bytes, &status)
                                : read_new(self, &call, length, timeout_ms, &bytes, &status);
    if (failed) return NULL;
    if (!bytes) return Py_BuildValue("(IKO)", status, 0ULL, Py_None);
    return Py_BuildValue("(IKN)", status, (unsigned long long)call.numbers[0], bytes);
}

/* A call of a name alone, or of a name and two numbers, whose reply has so many numbers. */
static PyObject *named(store_calls *self, struct call *call, const char *method,
                       PyObject *const *words, Py_ssize_t count, Py_ssize_t numbers) {
    const Py_ssize_t wanted = call->run == lose || call->run == repair ? 4 : 2;
    int64_t timeout_ms;
    if (!count_is(method, count, wanted) || name_to(call, words[0]) < 0 ||
        timeout_to(&timeout_ms, words[wanted - 1]) < 0)
        return NULL;
    if (wanted == 4 && (number_to(&call->first, words[1], UINT64_MAX) < 0 ||
                        number_to(&call->second, words[2], UINT64_MAX) < 0))
        return NULL;
    return made(self, call, timeout_ms, numbers);
}

/* stat(name, timeout_ms) -> (status, version, length, stripes, lost) */
static PyObject *calls_stat(store_calls *self, PyObject *const *words, Py_ssize_t count) {
    struct call call = {.run = stat_blob};
    return named(self, &call, "stat", words, count, 4);
}

/* delete(name, timeout_ms) -> (status, version) */
static PyObject *calls_delete(store_calls *self, PyObject *const *words, Py_ssize_t count) {
    struct call call = {.run = delete_blob, .may_be_long = 1};
    return named(self, &call, "delete", words, count, 1);
}

/* lose(name, stripe, fragment, timeout_ms) -> (status, version) */
static PyObject *calls_lose(store_calls *self, PyObject *const *words, Py_ssize_t count) {
    struct call call = {.run = lose};
    return named(self, &call, "lose", words, count, 1);
}

/* repair(name, stripe, fragment, timeout_ms) -> (status, version) */
static PyObject *calls_repair(store_calls *self, PyObject *const *words, Py_ssize_t count) {
    struct call call = {.run = repair};
    return named(self, &call, "repair", words, count, 1);
}

/* trim(keep, timeout_ms) -> (status, discarded) */
static PyObject *calls_trim(store_calls *self, PyObject *const *words, Py_ssize_t count) {
    struct call call = {.run_all = trim, .may_be_long = 1};
    int64_t timeout_ms;
    if (!count_is("trim", count, 2) || number_to(&call.first, words[0], UINT64_MAX) < 0 ||
        timeout_to(&timeout_ms, words[1]) < 0)
        return NULL;
    return made(self, &call, timeout_ms, 1);
}

/* A mend: the shards that it visits, from one on, and a part of the plan of the one at hand. */
struct mend {
    uint32_t first, visited, count;
    lrc_slot plan;
    int is_planned, is_last; /* whether there is a part, and whether no other is behind */
    uint64_t repaired, steps;
};

/* Goes to the next part of the plan, or to the next shard. */
static void end_part(struct mend *mend) {
    mend->is_planned = 0;
    if (!mend->is_last) return;
    lrc_slot_release(&mend->plan);
    mend->visited++;
}

/* Plans a part, or repairs the next fragment of one. A fragment that cannot be repaired, or need
 * not be any more, is left out. */
static uint32_t plan_or_repair(lrc_slot *session, struct mend *mend, int64_t timeout_ms) {
    uint64_t items = 0, version;
    uint32_t status;
    if (!mend->is_planned) {
        status =
            lrc_store_plan_part_wait(session, &mend->plan, PLANNED_AT_ONCE, &items, timeout_ms);
        mend->is_planned = status == LRC_STORE_DONE;
        mend->is_last = items < PLANNED_AT_ONCE;
        return status;
    }
    status = lrc_store_mend_step_wait(session, &mend->plan, &version, timeout_ms);
    mend->repaired += status == LRC_STORE_DONE;
    if (status == LRC_STORE_NOTHING_LEFT) end_part(mend);
    const int is_past = status == LRC_STORE_NOTHING_LEFT || status == LRC_STORE_NO_NAME ||
                        status == LRC_STORE_NO_FRAGMENT || status == LRC_STORE_NOT_LOST ||
                        status == LRC_STORE_UNRECOVERABLE;
    return is_past ? LRC_STORE_DONE : status;
}

/* Makes steps of a mend for a slice of time. LRC_STORE_NOTHING_LEFT once all is repaired. */
static uint32_t mend_for_a_slice(lrc_shards *shards, struct mend *mend, int64_t timeout_ms) {
    const int64_t end = end_after(SLICE_MS);
    uint32_t status = LRC_STORE_DONE;
    while (status == LRC_STORE_DONE && left_ms(end)) {
        lrc_pool *pool = NULL;
        lrc_slot *session = NULL;
        if (mend->visited == mend->count) return LRC_STORE_NOTHING_LEFT;
        status = lrc_shards_at(shards, (mend->first + mend->visited) % mend->count, &pool);
        if (status == LRC_STORE_DONE) status = lrc_pool_take(pool, &session, timeout_ms);
        if (status != LRC_STORE_DONE) return status;
        status = plan_or_repair(session, mend, timeout_ms);
        lrc_pool_give(pool, session);
        mend->steps += status == LRC_STORE_DONE;
    }
    return status;
}

/* Makes a mend without the GIL, in slices between which Python handles signals. The deadline is for
 * each of its steps. Returns -1 if a handler raised an exception. */
static int mend_all(lrc_shards *shards, struct mend *mend, int64_t timeout_ms, uint32_t *status) {
    int64_t end = end_after(timeout_ms);
    for (;;) {
        const uint64_t steps = mend->steps;
        const int64_t left = left_ms(end);
        PyThreadState *thread = PyEval_SaveThread();
        *status = mend_for_a_slice(shards, mend, left < SLICE_MS ? left : SLICE_MS);
        PyEval_RestoreThread(thread);
        if (PyErr_CheckSignals() < 0) return -1;
        if (mend->steps != steps) end = end_after(timeout_ms);
        if (*status == LRC_STORE_DONE || (*status == LRC_STORE_BUSY && left)) continue;
        if (*status == LRC_STORE_NOTHING_LEFT) *status = LRC_STORE_DONE;
        return 0;
    }
}

/* mend(timeout_ms) -> (status, repaired). Of two that begin one after the other, the first shards
 * lie far apart. */
static PyObject *calls_mend(store_calls *self, PyObject *const *words, Py_ssize_t count) {
    struct mend mend = {.count = self->count, .plan = LRC_SLOT_EMPTY};
    struct call call = {.run = NULL};
    int64_t timeout_ms;
    uint32_t status = LRC_STORE_EMPTY;
    int failed = 0;
    if (!count_is("mend", count, 1) || timeout_to(&timeout_ms, words[0]) < 0) return NULL;
    if (self->shards) {
        const uint64_t before = self->mends++;
        mend.first = (uint32_t)((before * UINT64_C(0x9E3779B9) & UINT32_MAX) * mend.count >> 32);
        self->calls_inside++;
        failed = mend_all(self->shards, &mend, timeout_ms, &status);
        self->calls_inside--;
        release(&mend.plan);
    }
    call.numbers[0] = mend.repaired;
    return failed ? NULL : reply(status, &call, 1);
}

/* Appends the items of a part of a plan to a list, and leaves none in the part. Returns -1 if there
 * is an exception. */
static int append_items(PyObject *list, lrc_slot *plan) {
    lrc_item item = {{(const uint8_t *)"", 0}, 0, 0, 0};
    uint64_t count = 0;
    while (lrc_slot_items(plan, &item, 1, &count) == LRC_STORE_DONE && count) {
        PyObject *tuple =
            Py_BuildValue("s#KKK", (const char *)item.name.at, (Py_ssize_t)item.name.len,
                          (unsigned long long)item.version, (unsigned long long)item.stripe,
                          (unsigned long long)item.fragment);
        const int failed = !tuple || PyList_Append(list, tuple) < 0;
        Py_XDECREF(tuple);
        if (failed) return -1;
        lrc_slot_skip(plan);
    }
    return 0;
}

/* Appends what a shard has lost to a list, planned in parts. Returns -1 if there is an exception.
 */
static int append_lost(store_calls *self, PyObject *list, uint32_t shard, int64_t timeout_ms,
                       uint32_t *status) {
    lrc_slot plan = LRC_SLOT_EMPTY;
    struct call call = {.run_all = plan_part, .first = shard, .filled = &plan, .may_be_long = 1};
    int failed;
    do
        failed = make(self, &call, timeout_ms, status) < 0 ||
                 (*status == LRC_STORE_DONE && append_items(list, &plan) < 0);
    while (!failed && *status == LRC_STORE_DONE && call.numbers[0] == PLANNED_AT_ONCE);
    release(&plan);
    return failed ? -1 : 0;
}

/* lost_fragments(timeout_ms) -> (status, list of (name, version, stripe, fragment)) */
static PyObject *calls_lost_fragments(store_calls *self, PyObject *const *words, Py_ssize_t count) {
    int64_t timeout_ms;
    uint32_t status = self->shards ? LRC_STORE_DONE : LRC_STORE_EMPTY;
    if (!count_is("lost_fragments", count, 1) || timeout_to(&timeout_ms, words[0]) < 0) return NULL;
    PyObject *list = PyList_New(0);
    int failed = !list;
    for (uint32_t shard = 0; !failed && status == LRC_STORE_DONE && shard < self->count; shard++)
        failed = append_lost(self, list, shard, timeout_ms, &status) < 0;
    if (!failed) return Py_BuildValue("(kN)", (unsigned long)status, list);
    Py_XDECREF(list);
    return NULL;
}

/* numbers(timeout_ms) -> (status, blobs, bytes, lost, unrecoverable, calls, entries) */
static PyObject *calls_numbers(store_calls *self, PyObject *const *words, Py_ssize_t count) {
    struct call call = {.run_all = get_numbers};
    int64_t timeout_ms;
    if (!count_is("numbers", count, 1) || timeout_to(&timeout_ms, words[0]) < 0) return NULL;
    return made(self, &call, timeout_ms, 6);
}

static PyObject *held_new(PyTypeObject *type, PyObject *words, PyObject *named) {
    (void)words;
    (void)named;
    held_version *made = (held_version *)((allocfunc)PyType_GetSlot(type, Py_tp_alloc))(type, 0);
    if (!made) return NULL;
    made->lock = PyThread_allocate_lock();
    if (made->lock) return (PyObject *)made;
    Py_DECREF(made);
    return PyErr_NoMemory();
}

static void held_dealloc(PyObject *object) {
    held_version *self = (held_version *)object;
    PyTypeObject *type = Py_TYPE(object);
    release(&self->slot);
    if (self->lock) PyThread_free_lock(self->lock);
    ((freefunc)PyType_GetSlot(type, Py_tp_free))(object);
    Py_DECREF(type);
}

/* An object that is to be a version, or NULL with an exception. */
static held_version *held_of(PyObject *object) {
    if (PyType_GetSlot(Py_TYPE(object), Py_tp_dealloc) == (void *)held_dealloc)
        return (held_version *)object;
    PyErr_SetString(PyExc_TypeError, "the version is no Held");
    return NULL;
}

/* Waits until no other call uses the version, without the GIL. Returns -1 with an exception if that
 * is one of this thread, which a signal handler has interrupted. */
static int enter(held_version *held) {
    const unsigned long thread_id = PyThread_get_thread_ident();
    if (held->user == thread_id) {
        PyErr_SetString(PyExc_RuntimeError, "a call of this thread uses the version");
        return -1;
    }
    if (!PyThread_acquire_lock(held->lock, NOWAIT_LOCK)) {
        PyThreadState *thread = PyEval_SaveThread();
        PyThread_acquire_lock(held->lock, WAIT_LOCK);
        PyEval_RestoreThread(thread);
    }
    held->user = thread_id;
    return 0;
}

static void leave(held_version *held) {
    held->user = 0;
    PyThread_release_lock(held->lock);
}

/* hold(name, held, timeout_ms) -> (status, version, length) */
static PyObject *calls_hold(store_calls *self, PyObject *const *words, Py_ssize_t count) {
    struct call call = {.run = hold_with_name};
    int64_t timeout_ms;
    if (!count_is("hold", count, 3) || name_to(&call, words[0]) < 0 ||
        !(call.held = held_of(words[1])) || timeout_to(&timeout_ms, words[2]) < 0)
        return NULL;
    if (enter(call.held) < 0) return NULL;
    PyObject *result = made(self, &call, timeout_ms, 2);
    leave(call.held);
    return result;
}

/* Makes the call on the shard of the version's name. */
static PyObject *install_with(store_calls *self, struct call *call, int64_t timeout_ms) {
    if (enter(call->held) < 0) return NULL;
    call->name = call->held->name;
    call->name_len = call->held->name_len;
    PyObject *result =
        call->name_len ? made(self, call, timeout_ms, 1) : reply(LRC_STORE_EMPTY, call, 1);
    leave(call->held);
    return result;
}

/* restore(held, stripe, fragment, bytes, timeout_ms) -> (status, version) */
static PyObject *calls_restore(store_calls *self, PyObject *const *words, Py_ssize_t count) {
    struct call call = {.run = restore};
    int64_t timeout_ms;
    Py_buffer whole;
    if (!count_is("restore", count, 5) || !(call.held = held_of(words[0])) ||
        number_to(&call.first, words[1], UINT64_MAX) < 0 ||
        number_to(&call.second, words[2], UINT64_MAX) < 0 ||
        timeout_to(&timeout_ms, words[4]) < 0 ||
        PyObject_GetBuffer(words[3], &whole, PyBUF_SIMPLE) < 0)
        return NULL;
    call.bytes = whole.len ? whole.buf : (uint8_t *)"";
    call.len = whole.len;
    PyObject *result = install_with(self, &call, timeout_ms);
    PyBuffer_Release(&whole);
    return result;
}

/* shape() -> (status, version, length, stripes, lost, width, data_fragments) */
static PyObject *held_shape(held_version *self, PyObject *ignored) {
    lrc_shape found = {0};
    (void)ignored;
    if (enter(self) < 0) return NULL;
    const uint32_t status = lrc_slot_shape(&self->slot, &found);
    leave(self);
    const struct call call = {.numbers = {found.version, found.len, found.stripes, found.lost,
                                          found.width, found.data_fragments}};
    return reply(status, &call, 6);
}

/* lost(stripe) -> (status, the set of lost fragments as bits) */
static PyObject *held_lost(held_version *self, PyObject *stripe) {
    struct call call = {.run = NULL};
    uint16_t found = 0;
    if (number_to(&call.first, stripe, UINT64_MAX) < 0 || enter(self) < 0) return NULL;
    const uint32_t status = lrc_slot_lost(&self->slot, call.first, &found);
    leave(self);
    call.numbers[0] = found;
    return reply(status, &call, 1);
}

/* The status of a range that does not lie inside the version, whose bytes are not to be reserved.
 */
static uint32_t range_status(held_version *self, uint64_t start, uint64_t length) {
    lrc_shape shape = {0};
    const uint32_t status = lrc_slot_shape(&self->slot, &shape);
    if (status != LRC_STORE_DONE) return status;
    return start > shape.len || length > shape.len - start ? LRC_STORE_OUT_OF_RANGE : status;
}

/* read(start, length) -> (status, bytes or None) */
static PyObject *held_read(held_version *self, PyObject *const *words, Py_ssize_t count) {
    uint64_t start, length;
    PyObject *bytes = NULL;
    if (!count_is("read", count, 2) || number_to(&start, words[0], UINT64_MAX) < 0 ||
        number_to(&length, words[1], UINT64_MAX) < 0 || enter(self) < 0)
        return NULL;
    uint32_t status = range_status(self, start, length);
    if (status == LRC_STORE_DONE) bytes = PyBytes_FromStringAndSize(NULL, (Py_ssize_t)length);
    if (bytes) {
        char *target = PyBytes_AsString(bytes);
        PyThreadState *thread = PyEval_SaveThread();
        status = lrc_slot_copy(&self->slot, start, (uint8_t *)target, (size_t)length);
        PyEval_RestoreThread(thread);
    }
    leave(self);
    if (status != LRC_STORE_DONE) {
        Py_XDECREF(bytes);
        return Py_BuildValue("(IO)", status, Py_None);
    }
    return bytes ? Py_BuildValue("(IN)", status, bytes) : NULL;
}

/* fragment(stripe, fragment) -> (status, bytes or None) */
static PyObject *held_fragment(held_version *self, PyObject *const *words, Py_ssize_t count) {
    uint64_t stripe, fragment;
    lrc_slice found = {(const uint8_t *)"", 0};
    if (!count_is("fragment", count, 2) || number_to(&stripe, words[0], UINT64_MAX) < 0 ||
        number_to(&fragment, words[1], UINT64_MAX) < 0 || enter(self) < 0)
        return NULL;
    const uint32_t status = lrc_slot_fragment(&self->slot, stripe, fragment, &found);
    PyObject *result = status == LRC_STORE_DONE
                           ? Py_BuildValue("(Iy#)", status, found.at, (Py_ssize_t)found.len)
                           : Py_BuildValue("(IO)", status, Py_None);
    leave(self);
    return result;
}

static void lent_dealloc(PyObject *object) {
    lent *dropped = (lent *)object;
    PyTypeObject *type = Py_TYPE(object);
    release(&dropped->slot);
    Py_XDECREF(dropped->range);
    ((freefunc)PyType_GetSlot(type, Py_tp_free))(object);
    Py_DECREF(type);
}

static int lent_getbuffer(PyObject *object, Py_buffer *view, int flags) {
    const lrc_slice bytes = ((lent *)object)->bytes;
    return PyBuffer_FillInfo(view, object, (void *)bytes.at, (Py_ssize_t)bytes.len, 1, flags);
}

/* An object that is to be a lent range, or NULL with an exception. */
static lent *lent_of(PyObject *object) {
    if (PyType_GetSlot(Py_TYPE(object), Py_tp_dealloc) == (void *)lent_dealloc)
        return (lent *)object;
    PyErr_SetString(PyExc_TypeError, "the range is no Lent");
    return NULL;
}

/* Appends a view of a run of the range. Returns -1 if there is an exception. */
static int append_view(PyObject *views, PyObject *range, lrc_slice bytes) {
    PyTypeObject *type = Py_TYPE(range);
    lent *run = (lent *)((allocfunc)PyType_GetSlot(type, Py_tp_alloc))(type, 0);
    if (!run) return -1;
    run->range = Py_NewRef(range);
    run->bytes = bytes;
    PyObject *view = PyMemoryView_FromObject((PyObject *)run);
    const int result = view ? PyList_Append(views, view) : -1;
    Py_XDECREF(view);
    Py_DECREF(run);
    return result;
}

/* The runs of a range as a list of memoryviews, or None if it was not lent. */
static PyObject *views_of(lent *range, uint32_t status) {
    if (status != LRC_STORE_DONE) return Py_NewRef(Py_None);
    PyObject *views = PyList_New(0);
    uint64_t from = 0, count = RUNS_AT_ONCE;
    while (views && count == RUNS_AT_ONCE) {
        lrc_slice runs[RUNS_AT_ONCE];
        for (int i = 0; i < RUNS_AT_ONCE; i++) runs[i] = (lrc_slice){(const uint8_t *)"", 0};
        lrc_slot_runs(&range->slot, from, runs, RUNS_AT_ONCE, &count);
        for (uint64_t i = 0; views && i < count; i++) {
            from += runs[i].len;
            if (append_view(views, (PyObject *)range, runs[i]) < 0) Py_CLEAR(views);
        }
    }
    return views;
}

/* lend(name, start, length, range, timeout_ms) -> (status, version, runs or None) */
static PyObject *calls_lend(store_calls *self, PyObject *const *words, Py_ssize_t count) {
    struct call call = {.run = lend};
    int64_t timeout_ms;
    uint32_t status;
    lent *range;
    if (!count_is("lend", count, 5) || name_to(&call, words[0]) < 0 ||
        number_to(&call.first, words[1], UINT64_MAX) < 0 ||
        number_to(&call.second, words[2], UINT64_MAX) < 0 || !(range = lent_of(words[3])) ||
        timeout_to(&timeout_ms, words[4]) < 0)
        return NULL;
    call.filled = &range->slot;
    call.may_be_long = call.second > SHORT_BYTES;
    if (make(self, &call, timeout_ms, &status) < 0) return NULL;
    PyObject *views = views_of(range, status);
    return views ? Py_BuildValue("(IKN)", status, (unsigned long long)call.numbers[0], views)
                 : NULL;
}

/* lend(start, length, range) -> (status, runs or None) */
static PyObject *held_lend(held_version *self, PyObject *const *words, Py_ssize_t count) {
    uint64_t start, length, pieces;
    lent *range;
    if (!count_is("lend", count, 3) || number_to(&start, words[0], UINT64_MAX) < 0 ||
        number_to(&length, words[1], UINT64_MAX) < 0 || !(range = lent_of(words[2])) ||
        enter(self) < 0)
        return NULL;
    PyThreadState *thread = PyEval_SaveThread();
    const uint32_t status = lrc_slot_lend(&self->slot, start, length, &range->slot, &pieces);
    PyEval_RestoreThread(thread);
    leave(self);
    PyObject *views = views_of(range, status);
    return views ? Py_BuildValue("(IN)", status, views) : NULL;
}

/* close() -> (status, entries, lawful). No call may be inside, or the status is NOT_ALONE. */
static PyObject *calls_close(store_calls *self, PyObject *ignored) {
    struct call call = {.run = NULL};
    uint32_t status = LRC_STORE_EMPTY, lawful = 0;
    (void)ignored;
    if (self->calls_inside) {
        status = LRC_STORE_NOT_ALONE;
    } else if (self->shards) {
        lrc_shards *shards = self->shards;
        self->shards = NULL;
        PyThreadState *thread = PyEval_SaveThread();
        status = lrc_shards_close(shards, &call.numbers[0], &lawful);
        PyEval_RestoreThread(thread);
    }
    call.numbers[1] = lawful;
    return reply(status, &call, 2);
}

/* open(width, limit or None, shards) -> (status,). A limit of 0 is refused. */
static PyObject *calls_open(store_calls *self, PyObject *const *words, Py_ssize_t count) {
    struct call call = {.run = NULL};
    uint64_t width, shards, limit = 0;
    uint32_t status = LRC_STORE_OCCUPIED;
    if (!count_is("open", count, 3) || number_to(&width, words[0], UINT32_MAX) < 0 ||
        (words[1] != Py_None && number_to(&limit, words[1], UINT32_MAX) < 0) ||
        number_to(&shards, words[2], UINT32_MAX) < 0)
        return NULL;
    if (words[1] != Py_None && limit == 0) limit = UINT32_MAX;
    if (!self->shards) {
        const lrc_options options = {sizeof options, (uint32_t)width, (uint32_t)shards,
                                     (uint32_t)limit, 0};
        status = lrc_shards_open(&options, &self->shards);
        self->count = options.shards;
    }
    return reply(status, &call, 0);
}

static void calls_dealloc(PyObject *object) {
    store_calls *self = (store_calls *)object;
    PyTypeObject *type = Py_TYPE(object);
    uint64_t entries;
    uint32_t lawful;
    if (self->shards) lrc_shards_close(self->shards, &entries, &lawful);
    freefunc release = (freefunc)PyType_GetSlot(type, Py_tp_free);
    release(object);
    Py_DECREF(type);
}

#define FAST(type, name)                                                                           \
    { #name, (PyCFunction)(void (*)(void))type##_##name, METH_FASTCALL, NULL }
static PyMethodDef calls_methods[] = {
    FAST(calls, open),
    FAST(calls, put),
    FAST(calls, get),
    FAST(calls, read_into),
    FAST(calls, stat),
    FAST(calls, delete),
    FAST(calls, lose),
    FAST(calls, repair),
    FAST(calls, trim),
    FAST(calls, mend),
    FAST(calls, lost_fragments),
    FAST(calls, numbers),
    FAST(calls, hold),
    FAST(calls, restore),
    FAST(calls, lend),
    {"close", (PyCFunction)calls_close, METH_NOARGS, NULL},
    {NULL, NULL, 0, NULL},
};

static PyType_Slot calls_slots[] = {
    {Py_tp_dealloc, calls_dealloc},
    {Py_tp_methods, calls_methods},
    {Py_tp_doc, "The calls of a store, which any thread may make."},
    {0, NULL},
};

static PyType_Spec calls_spec = {
    .name = "lrcstore._native.Calls",
    .basicsize = sizeof(store_calls),
    .flags = Py_TPFLAGS_DEFAULT,
    .slots = calls_slots,
};

static PyMethodDef held_methods[] = {
    FAST(held, read),
    FAST(held, fragment),
    FAST(held, lend),
    {"shape", (PyCFunction)held_shape, METH_NOARGS, NULL},
    {"lost", (PyCFunction)held_lost, METH_O, NULL},
    {NULL, NULL, 0, NULL},
};

static PyType_Slot held_slots[] = {
    {Py_tp_new, held_new},
    {Py_tp_dealloc, held_dealloc},
    {Py_tp_methods, held_methods},
    {Py_tp_doc, "A version of a blob, once a call has held one."},
    {0, NULL},
};

static PyType_Spec held_spec = {
    .name = "lrcstore._native.Held",
    .basicsize = sizeof(held_version),
    .flags = Py_TPFLAGS_DEFAULT,
    .slots = held_slots,
};

static PyType_Slot lent_slots[] = {
    {Py_tp_dealloc, lent_dealloc},
    {Py_bf_getbuffer, lent_getbuffer},
    {Py_tp_doc, "A range that a call has lent, or a run of one."},
    {0, NULL},
};

static PyType_Spec lent_spec = {
    .name = "lrcstore._native.Lent",
    .basicsize = sizeof(lent),
    .flags = Py_TPFLAGS_DEFAULT,
    .slots = lent_slots,
};

/* text(status) -> what it means */
static PyObject *native_text(PyObject *module, PyObject *status) {
    const unsigned long number = PyLong_AsUnsignedLong(status);
    (void)module;
    if (PyErr_Occurred()) return NULL;
    return PyUnicode_FromString(lrc_store_text((uint32_t)number));
}

/* name(key) -> the name of a key, which may be any buffer */
static PyObject *native_name(PyObject *module, PyObject *key) {
    uint8_t name[LRC_STORE_NAME_LEN];
    Py_buffer bytes;
    (void)module;
    if (PyObject_GetBuffer(key, &bytes, PyBUF_SIMPLE) < 0) return NULL;
    lrc_store_name(bytes.len ? bytes.buf : (uint8_t *)"", (size_t)bytes.len, name);
    PyBuffer_Release(&bytes);
    return PyUnicode_FromStringAndSize((const char *)name, sizeof name);
}

static PyMethodDef functions[] = {
    {"text", native_text, METH_O, NULL},
    {"name", native_name, METH_O, NULL},
    {NULL, NULL, 0, NULL},
};

static int add_type(PyObject *module, const char *name, PyType_Spec *spec) {
    PyObject *type = PyType_FromSpec(spec);
    if (!type) return -1;
    const int result = PyModule_AddObjectRef(module, name, type);
    Py_DECREF(type);
    return result;
}

static int add_types(PyObject *module) {
    if (add_type(module, "Calls", &calls_spec) < 0) return -1;
    return add_type(module, "Held", &held_spec) < 0 ? -1 : add_type(module, "Lent", &lent_spec);
}

static PyModuleDef_Slot module_slots[] = {{Py_mod_exec, add_types}, {0, NULL}};

static struct PyModuleDef module = {
    PyModuleDef_HEAD_INIT,
    .m_name = "_native",
    .m_methods = functions,
    .m_slots = module_slots,
};

PyMODINIT_FUNC PyInit__native(void) { return PyModuleDef_Init(&module); }
