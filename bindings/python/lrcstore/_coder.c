/* The coder's calls on buffers of Python, as an extension module of the stable ABI.
 *
 * The library reads and writes the bytes where they lie. A call returns what it makes, or a status:
 * that of the library, LRC_BAD_ARGUMENT for what cannot be an argument of it, or OVERLAP. coder.py
 * says what was wrong. Buffers are held until a call ends, so that none is resized. A long call
 * lets other threads of Python run. */
#define Py_LIMITED_API 0x030b0000
#define PY_SSIZE_T_CLEAN
#include <Python.h>

#include "lrc_coder.h"

enum { MOST_FRAGMENTS = 16, MOST_TARGETS = 4 };
/* How many bytes of a fragment are coded without letting go of the GIL. */
enum { SHORT_BYTES = 16384 };
/* Python has raised an exception; a target overlaps another buffer. */
enum { RAISED = -1, OVERLAP = 256 };

/* What a slice or a target of no bytes has as its address. */
static uint8_t no_bytes;

/* A call, its arguments, the buffers that it holds, and the objects that it makes. */
struct call {
    uint32_t (*run)(struct call *call);
    size_t data_fragments, start, len;
    lrc_slice slices[MOST_FRAGMENTS];
    uint16_t lost; /* the fragments without a slice, as bits */
    uint8_t number, numbers[MOST_TARGETS];
    const uint8_t *plan;
    uint8_t *targets[MOST_TARGETS];
    size_t target_lens[MOST_TARGETS];
    Py_buffer sources[MOST_FRAGMENTS], written[MOST_TARGETS];
    int source_count, written_count, made_count;
    int has_targets;              /* that the caller has given */
    PyObject *made[MOST_TARGETS]; /* new bytes, if it has given none */
};

#define TARGETS(call)                                                                              \
    call->targets[0], call->target_lens[0], call->targets[1], call->target_lens[1],                \
        call->targets[2], call->target_lens[2], call->targets[3], call->target_lens[3]

static uint32_t encode(struct call *call) {
    return lrc_encode(call->slices, call->data_fragments, TARGETS(call));
}

static uint32_t encode_add(struct call *call) {
    return lrc_encode_add(call->data_fragments, call->number, call->slices[0].at,
                          call->slices[0].len, TARGETS(call));
}

static uint32_t rebuild(struct call *call) {
    return lrc_rebuild(call->data_fragments, call->slices, call->lost, call->number, call->start,
                       call->targets[0], call->target_lens[0]);
}

static uint32_t decode(struct call *call) {
    return lrc_decode(call->data_fragments, call->slices, call->lost, call->numbers, call->start,
                      call->len, TARGETS(call));
}

static uint32_t plan_decode(struct call *call) {
    return lrc_plan_decode(call->plan, call->slices, call->start, call->len, TARGETS(call));
}

static uint32_t add(struct call *call) {
    return lrc_add(call->targets[0], call->target_lens[0], call->number, call->slices[0].at,
                   call->slices[0].len);
}

static void begin(struct call *call, uint32_t (*run)(struct call *call)) {
    call->run = run;
    call->data_fragments = call->start = call->len = 0;
    call->lost = UINT16_MAX;
    call->source_count = call->written_count = call->made_count = call->has_targets = 0;
    for (int i = 0; i < MOST_FRAGMENTS; i++) call->slices[i] = (lrc_slice){&no_bytes, 0};
    for (int i = 0; i < MOST_TARGETS; i++) {
        call->numbers[i] = LRC_NONE;
        call->targets[i] = &no_bytes;
        call->target_lens[i] = 0;
    }
}

/* The status if Python refuses an argument. coder.py raises the exception again, with its place. */
static int refused(void) {
    if (!PyErr_ExceptionMatches(PyExc_TypeError) && !PyErr_ExceptionMatches(PyExc_ValueError) &&
        !PyErr_ExceptionMatches(PyExc_OverflowError) && !PyErr_ExceptionMatches(PyExc_BufferError))
        return RAISED;
    PyErr_Clear();
    return LRC_BAD_ARGUMENT;
}

static int number_to(size_t *number, PyObject *object, size_t most) {
    const Py_ssize_t found = PyLong_CheckExact(object)
                                 ? PyLong_AsSsize_t(object)
                                 : PyNumber_AsSsize_t(object, PyExc_OverflowError);
    if (found == -1 && PyErr_Occurred()) return refused();
    *number = (size_t)found;
    return found < 0 || *number > most ? LRC_BAD_ARGUMENT : LRC_DONE;
}

static int byte_to(uint8_t *number, PyObject *object, size_t most) {
    size_t found = 0;
    const int status = number_to(&found, object, most);
    if (status == LRC_DONE) *number = (uint8_t)found;
    return status;
}

/* Holds the bytes of an object as a slice. Those of `bytes` stay where they are, also without a
 * view by Python, which takes longer. */
static int take(struct call *call, PyObject *object, lrc_slice *slice) {
    Py_buffer *view = &call->sources[call->source_count];
    if (PyBytes_CheckExact(object)) {
        char *bytes;
        if (PyBytes_AsStringAndSize(object, &bytes, &view->len) < 0) return RAISED;
        view->obj = Py_NewRef(object);
        view->buf = bytes;
    } else if (PyObject_GetBuffer(object, view, PyBUF_SIMPLE) < 0) {
        return refused();
    }
    call->source_count++;
    if (view->len) *slice = (lrc_slice){view->buf, (size_t)view->len};
    return LRC_DONE;
}

/* A fragment that remains. Those past the code's are ignored. */
static int take_fragment(struct call *call, PyObject *key, PyObject *object) {
    size_t number = 0;
    const int status = number_to(&number, key, MOST_FRAGMENTS - 1);
    if (status != LRC_DONE) return status;
    if (!(call->lost >> number & 1)) return LRC_BAD_ARGUMENT;
    call->lost = (uint16_t)(call->lost & ~(1u << number));
    return number < call->data_fragments + 4 ? take(call, object, &call->slices[number]) : LRC_DONE;
}

/* The remaining fragments by their numbers, in a dict that a buffer's own code may change. */
static int take_left(struct call *call, PyObject *left) {
    PyObject *key, *object;
    Py_ssize_t at = 0;
    int status = PyDict_Check(left) ? LRC_DONE : LRC_BAD_ARGUMENT;
    while (status == LRC_DONE && PyDict_Next(left, &at, &key, &object)) {
        Py_INCREF(key);
        Py_INCREF(object);
        status = take_fragment(call, key, object);
        Py_DECREF(object);
        Py_DECREF(key);
    }
    return status;
}

/* Those that a plan reads, by a tuple of their numbers. */
static int take_read(struct call *call, PyObject *left, PyObject *reads) {
    int status = PyDict_Check(left) && PyTuple_Check(reads) ? LRC_DONE : LRC_BAD_ARGUMENT;
    for (Py_ssize_t i = 0; status == LRC_DONE && i < PyTuple_Size(reads); i++) {
        PyObject *key = PyTuple_GetItem(reads, i);
        PyObject *object = PyDict_GetItemWithError(left, key);
        if (!object) return PyErr_Occurred() ? RAISED : LRC_BAD_ARGUMENT;
        Py_INCREF(object);
        status = take_fragment(call, key, object);
        Py_DECREF(object);
    }
    return status;
}

/* The data fragments of a stripe, a tuple. */
static int take_data(struct call *call, PyObject *data) {
    int status = LRC_DONE;
    if (!PyTuple_Check(data) || PyTuple_Size(data) > MOST_FRAGMENTS) return LRC_BAD_ARGUMENT;
    call->data_fragments = (size_t)PyTuple_Size(data);
    for (size_t i = 0; status == LRC_DONE && i < call->data_fragments; i++)
        status = take(call, PyTuple_GetItem(data, (Py_ssize_t)i), &call->slices[i]);
    return status;
}

static int is_overlap(const Py_buffer *one, const Py_buffer *other) {
    const uintptr_t first = (uintptr_t)one->buf, second = (uintptr_t)other->buf;
    return first < second + (uintptr_t)other->len && second < first + (uintptr_t)one->len;
}

/* Whether a target that is given overlaps a fragment or another target. */
static int has_overlap(const struct call *call) {
    for (int i = 0; i < call->written_count; i++) {
        for (int j = 0; j < call->source_count; j++)
            if (is_overlap(&call->written[i], &call->sources[j])) return 1;
        for (int j = 0; j < i; j++)
            if (is_overlap(&call->written[i], &call->written[j])) return 1;
    }
    return 0;
}

/* The targets that are given, a tuple of `count`. */
static int aim(struct call *call, PyObject *targets, Py_ssize_t count) {
    call->has_targets = 1;
    if (!PyTuple_Check(targets) || PyTuple_Size(targets) != count) return LRC_BAD_ARGUMENT;
    for (int i = 0; i < count; i++) {
        Py_buffer *view = &call->written[i];
        if (PyObject_GetBuffer(PyTuple_GetItem(targets, i), view, PyBUF_WRITABLE) < 0)
            return refused();
        call->written_count++;
        if (view->len) call->targets[i] = view->buf;
        call->target_lens[i] = (size_t)view->len;
    }
    return has_overlap(call) ? OVERLAP : LRC_DONE;
}

/* As targets, new bytes. */
static int make_bytes(struct call *call, Py_ssize_t count) {
    for (int i = 0; i < count; i++) {
        PyObject *bytes = PyBytes_FromStringAndSize(NULL, (Py_ssize_t)call->len);
        if (!bytes) return RAISED;
        call->made[call->made_count++] = bytes;
        call->targets[i] = (uint8_t *)PyBytes_AsString(bytes);
        call->target_lens[i] = call->len;
    }
    return LRC_DONE;
}

/* The range that the targets get: `length` bytes from `start` on. With None they are as many as
 * given targets have, or those to the end of the fragments, which have one length then. */
static int range_to(struct call *call, PyObject *start, PyObject *length) {
    int status = number_to(&call->start, start, PY_SSIZE_T_MAX);
    const int has_length = call->has_targets || length != Py_None;
    if (call->has_targets)
        call->len = call->target_lens[0];
    else if (has_length && status == LRC_DONE)
        status = number_to(&call->len, length, PY_SSIZE_T_MAX);
    if (status != LRC_DONE || !call->source_count) return status;
    const size_t common = (size_t)call->sources[0].len;
    if (!has_length && call->start > common) return LRC_BAD_ARGUMENT;
    if (!has_length) call->len = common - call->start;
    for (int i = 0; i < call->source_count; i++) {
        const size_t len = (size_t)call->sources[i].len;
        if (has_length ? len < call->start + call->len : len != common) return LRC_BAD_ARGUMENT;
    }
    return LRC_DONE;
}

/* As targets of a range, those that are given, or new bytes for None. */
static int aim_at_range(struct call *call, PyObject *start, PyObject *length, PyObject *targets,
                        Py_ssize_t count) {
    int status = targets == Py_None ? LRC_DONE : aim(call, targets, count);
    if (status == LRC_DONE) status = range_to(call, start, length);
    if (status == LRC_DONE && targets == Py_None) status = make_bytes(call, count);
    return status;
}

/* Makes the call, and lets other threads run if it is long. */
static int make(struct call *call) {
    if (call->target_lens[0] <= SHORT_BYTES) return (int)call->run(call);
    PyThreadState *thread = PyEval_SaveThread();
    const uint32_t status = call->run(call);
    PyEval_RestoreThread(thread);
    return (int)status;
}

static void release(Py_buffer *source) {
    if (source->obj && PyBytes_CheckExact(source->obj))
        Py_DECREF(source->obj);
    else
        PyBuffer_Release(source);
}

/* Lets go of what a call holds. Returns its status as an object, or NULL with an exception. */
static PyObject *end(struct call *call, int status) {
    for (int i = 0; i < call->source_count; i++) release(&call->sources[i]);
    for (int i = 0; i < call->written_count; i++) PyBuffer_Release(&call->written[i]);
    for (int i = 0; i < call->made_count; i++) Py_DECREF(call->made[i]);
    return status == RAISED ? NULL : PyLong_FromLong(status);
}

/* The new bytes of a call as one object, as a list, and by the numbers of their fragments. */
static PyObject *as_bytes(struct call *call, PyObject *numbers) {
    (void)numbers;
    return Py_NewRef(call->made[0]);
}

static PyObject *as_list(struct call *call, PyObject *numbers) {
    PyObject **made = call->made;
    (void)numbers;
    return Py_BuildValue("[OOOO]", made[0], made[1], made[2], made[3]);
}

static PyObject *as_dict(struct call *call, PyObject *numbers) {
    PyObject *found = PyDict_New();
    for (int i = 0; found && i < call->made_count; i++)
        if (PyDict_SetItem(found, PyTuple_GetItem(numbers, i), call->made[i]) < 0) Py_CLEAR(found);
    return found;
}

/* Makes the call if its arguments could be taken, and ends it. Returns the new bytes, or a status
 * if it fails or wrote to targets that are given. */
static PyObject *result(struct call *call, int status, PyObject *numbers,
                        PyObject *(*shape)(struct call *call, PyObject *numbers)) {
    if (status == LRC_DONE) status = make(call);
    if (status != LRC_DONE || call->has_targets) return end(call, status);
    PyObject *found = shape(call, numbers);
    Py_XDECREF(end(call, LRC_DONE));
    return found;
}

/* Whether a method has as many arguments as it takes. */
static int count_is(const char *method, Py_ssize_t count, Py_ssize_t wanted) {
    if (count == wanted) return 1;
    PyErr_Format(PyExc_TypeError, "%s takes %zd arguments, not %zd", method, wanted, count);
    return 0;
}

/* encode(data, targets or None) -> list of bytes, or a status */
static PyObject *coder_encode(PyObject *module, PyObject *const *words, Py_ssize_t count) {
    struct call call;
    (void)module;
    if (!count_is("encode", count, 2)) return NULL;
    begin(&call, encode);
    int status = take_data(&call, words[0]);
    call.len = call.slices[0].len;
    if (status == LRC_DONE)
        status = words[1] == Py_None ? make_bytes(&call, MOST_TARGETS)
                                     : aim(&call, words[1], MOST_TARGETS);
    return result(&call, status, NULL, as_list);
}

/* encode_add(data_fragments, fragment, source, targets) -> a status */
static PyObject *coder_encode_add(PyObject *module, PyObject *const *words, Py_ssize_t count) {
    struct call call;
    (void)module;
    if (!count_is("encode_add", count, 4)) return NULL;
    begin(&call, encode_add);
    int status = number_to(&call.data_fragments, words[0], MOST_FRAGMENTS);
    if (status == LRC_DONE) status = byte_to(&call.number, words[1], MOST_FRAGMENTS - 1);
    if (status == LRC_DONE) status = take(&call, words[2], &call.slices[0]);
    if (status == LRC_DONE) status = aim(&call, words[3], MOST_TARGETS);
    if (status == LRC_DONE) status = make(&call);
    return end(&call, status);
}

/* rebuild(data_fragments, left, fragment, start, length or None, targets or None) -> bytes, or a
 * status */
static PyObject *coder_rebuild(PyObject *module, PyObject *const *words, Py_ssize_t count) {
    struct call call;
    (void)module;
    if (!count_is("rebuild", count, 6)) return NULL;
    begin(&call, rebuild);
    int status = number_to(&call.data_fragments, words[0], MOST_FRAGMENTS);
    if (status == LRC_DONE) status = byte_to(&call.number, words[2], MOST_FRAGMENTS - 1);
    if (status == LRC_DONE) status = take_left(&call, words[1]);
    if (status == LRC_DONE) status = aim_at_range(&call, words[3], words[4], words[5], 1);
    return result(&call, status, NULL, as_bytes);
}

/* The numbers of up to four lost fragments, a tuple. Of more, one is unrecoverable. */
static int numbers_to(struct call *call, PyObject *numbers) {
    if (!PyTuple_Check(numbers)) return LRC_BAD_ARGUMENT;
    const Py_ssize_t count = PyTuple_Size(numbers);
    int status = count > MOST_TARGETS ? LRC_UNRECOVERABLE : LRC_DONE;
    for (Py_ssize_t i = 0; status == LRC_DONE && i < count; i++)
        status = byte_to(&call->numbers[i], PyTuple_GetItem(numbers, i), MOST_FRAGMENTS - 1);
    return status;
}

/* decode(data_fragments, left, numbers, start, length or None) -> dict of bytes, or a status */
static PyObject *coder_decode(PyObject *module, PyObject *const *words, Py_ssize_t count) {
    struct call call;
    (void)module;
    if (!count_is("decode", count, 5)) return NULL;
    begin(&call, decode);
    int status = number_to(&call.data_fragments, words[0], MOST_FRAGMENTS);
    if (status == LRC_DONE) status = numbers_to(&call, words[2]);
    if (status == LRC_DONE) status = take_left(&call, words[1]);
    if (status == LRC_DONE)
        status = aim_at_range(&call, words[3], words[4], Py_None, PyTuple_Size(words[2]));
    return result(&call, status, words[2], as_dict);
}

/* plan(data_fragments, lost, numbers) -> (plan, the set of read fragments as bits), or a status */
static PyObject *coder_plan(PyObject *module, PyObject *words) {
    Py_ssize_t data_fragments;
    unsigned short lost;
    uint16_t reads;
    uint8_t plan[LRC_PLAN_BYTES];
    PyObject *numbers;
    struct call call;
    (void)module;
    if (!PyArg_ParseTuple(words, "nHO!", &data_fragments, &lost, &PyTuple_Type, &numbers))
        return NULL;
    begin(&call, NULL);
    int status = numbers_to(&call, numbers);
    if (status == LRC_DONE)
        status = (int)lrc_plan((size_t)data_fragments, lost, call.numbers, plan, &reads);
    return status == LRC_DONE ? Py_BuildValue("y#I", plan, (Py_ssize_t)sizeof plan, reads)
                              : end(&call, status);
}

/* plan_decode((plan, reads, numbers), left, start, length or None, targets or None) -> dict of
 * bytes, or a status */
static PyObject *coder_plan_decode(PyObject *module, PyObject *const *words, Py_ssize_t count) {
    const char *plan;
    Py_ssize_t plan_len;
    PyObject *reads, *numbers;
    struct call call;
    (void)module;
    if (!count_is("plan_decode", count, 5) ||
        !PyArg_ParseTuple(words[0], "y#OO", &plan, &plan_len, &reads, &numbers))
        return NULL;
    begin(&call, plan_decode);
    call.plan = (const uint8_t *)plan;
    call.data_fragments = MOST_FRAGMENTS;
    int status = plan_len == LRC_PLAN_BYTES ? numbers_to(&call, numbers) : LRC_BAD_ARGUMENT;
    if (status == LRC_DONE) status = take_read(&call, words[1], reads);
    if (status == LRC_DONE)
        status = aim_at_range(&call, words[2], words[3], words[4], PyTuple_Size(numbers));
    return result(&call, status, numbers, as_dict);
}

/* recipe(data_fragments, lost, fragment) -> list of (fragment, coefficient), or a status */
static PyObject *coder_recipe(PyObject *module, PyObject *words) {
    Py_ssize_t data_fragments;
    unsigned short lost;
    unsigned char fragment;
    uint8_t fragments[MOST_FRAGMENTS], coefficients[MOST_FRAGMENTS];
    uint32_t count;
    (void)module;
    if (!PyArg_ParseTuple(words, "nHb", &data_fragments, &lost, &fragment)) return NULL;
    const uint32_t status =
        lrc_recipe((size_t)data_fragments, lost, fragment, fragments, coefficients, &count);
    if (status != LRC_DONE) return PyLong_FromUnsignedLong(status);
    PyObject *terms = PyList_New(0);
    for (uint32_t i = 0; terms && i < count; i++) {
        PyObject *term = Py_BuildValue("(BB)", fragments[i], coefficients[i]);
        if (!term || PyList_Append(terms, term) < 0) Py_CLEAR(terms);
        Py_XDECREF(term);
    }
    return terms;
}

/* add(targets, coefficient, source) -> a status; there is one target */
static PyObject *coder_add(PyObject *module, PyObject *const *words, Py_ssize_t count) {
    struct call call;
    (void)module;
    if (!count_is("add", count, 3)) return NULL;
    begin(&call, add);
    int status = byte_to(&call.number, words[1], UINT8_MAX);
    if (status == LRC_DONE) status = take(&call, words[2], &call.slices[0]);
    if (status == LRC_DONE) status = aim(&call, words[0], 1);
    if (status == LRC_DONE) status = make(&call);
    return end(&call, status);
}

/* is_open(data_fragments, lost, fragment) -> a status */
static PyObject *coder_is_open(PyObject *module, PyObject *words) {
    Py_ssize_t data_fragments;
    unsigned short lost;
    unsigned char fragment;
    (void)module;
    if (!PyArg_ParseTuple(words, "nHb", &data_fragments, &lost, &fragment)) return NULL;
    return PyLong_FromUnsignedLong(lrc_is_open((size_t)data_fragments, lost, fragment));
}

/* text(status) -> what it means */
static PyObject *coder_text(PyObject *module, PyObject *status) {
    const unsigned long number = PyLong_AsUnsignedLong(status);
    (void)module;
    if (PyErr_Occurred()) return NULL;
    return PyUnicode_FromString(number == OVERLAP ? "a target overlaps another buffer"
                                                  : lrc_coder_text((uint32_t)number));
}

#define FAST(name)                                                                                 \
    { #name, (PyCFunction)(void (*)(void))coder_##name, METH_FASTCALL, NULL }
static PyMethodDef methods[] = {
    FAST(encode),
    FAST(encode_add),
    FAST(rebuild),
    FAST(decode),
    FAST(plan_decode),
    FAST(add),
    {"plan", coder_plan, METH_VARARGS, NULL},
    {"recipe", coder_recipe, METH_VARARGS, NULL},
    {"is_open", coder_is_open, METH_VARARGS, NULL},
    {"text", coder_text, METH_O, NULL},
    {NULL, NULL, 0, NULL},
};

static PyModuleDef_Slot module_slots[] = {{0, NULL}};

static struct PyModuleDef module = {
    PyModuleDef_HEAD_INIT,
    .m_name = "_coder",
    .m_methods = methods,
    .m_slots = module_slots,
};

PyMODINIT_FUNC PyInit__coder(void) { return PyModuleDef_Init(&module); }
