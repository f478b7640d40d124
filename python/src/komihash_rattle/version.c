/* A version of komihash, which VERSION names, as a module for CPython: `v4` or `v5`. */
#define PY_SSIZE_T_CLEAN
#include <Python.h>
#include <komihash_rattle.h>

#define JOINED(name, version, rest) name##version##rest
#define NAMED(name, version, rest) JOINED(name, version, rest)
#define KOMIHASH(rest) NAMED(komihash_v, VERSION, rest)
#define QUOTED(name) #name
#define NAME_OF(name) QUOTED(name)
#define PACKAGE "komihash_rattle.v" NAME_OF(VERSION) "."

/* From this many bytes on, other threads run while they are hashed. One that computes may then go
 * on for five milliseconds, so fewer bytes take less time without it. */
enum { MANY = 1 << 17 };

/* A stream, and its seed if it is known, with which `reset` begins. */
typedef struct {
    KOMIHASH(_stream) stream;
    uint64_t seed;
    bool has_seed;
} State;

/* Other threads run during a long write. The first one makes a lock, which from then on everyone
 * takes who reads or changes the state. */
typedef struct {
    PyObject_HEAD
    PyThread_type_lock lock;
    State state;
} Stream;

typedef struct {
    PyObject_HEAD
    KOMIHASH(_rand) state;
} Generator;

static bool is_word(PyObject *number, const char *name, uint64_t *word) {
    PyObject *index = PyIndex_Check(number) ? PyNumber_Index(number) : NULL;
    if (index == NULL)
        return !PyErr_Occurred() && PyErr_Format(PyExc_TypeError, "%s must be an int", name);
    *word = PyLong_AsUnsignedLongLong(index);
    Py_DECREF(index);
    return *word != UINT64_MAX || !PyErr_Occurred() ||
        PyErr_Format(PyExc_OverflowError, "%s must be from 0 to 2**64 - 1", name) != NULL;
}

static bool has_bytes(PyObject *data, Py_buffer *bytes) {
    if (!PyUnicode_Check(data))
        return PyObject_GetBuffer(data, bytes, PyBUF_SIMPLE) == 0;
    return PyErr_Format(PyExc_TypeError, "Strings must be encoded before hashing") != NULL;
}

static PyObject *as_int(uint64_t hash) { return PyLong_FromUnsignedLongLong(hash); }

static PyObject *as_bytes(uint64_t hash) {
    char bytes[8];
    for (int i = 0; i < 8; i++)
        bytes[i] = (char)(hash >> (56 - 8 * i));
    return PyBytes_FromStringAndSize(bytes, sizeof bytes);
}

static PyObject *as_digits(uint64_t hash) {
    char digits[16];
    for (int i = 0; i < 16; i++)
        digits[i] = "0123456789abcdef"[hash >> (60 - 4 * i) & 15];
    return PyUnicode_FromStringAndSize(digits, sizeof digits);
}

/* Returns the hash of a message as one of these, for the function of this name. */
static PyObject *hash(PyObject *as(uint64_t), const char *name, PyObject *const *args,
                      Py_ssize_t count, PyObject *names) {
    Py_ssize_t all = count + (names == NULL ? 0 : PyTuple_Size(names));
    Py_buffer bytes;
    uint64_t seed = 0, hash;
    if (count < 1 || all > 2 ||
        (all > count && PyUnicode_CompareWithASCIIString(PyTuple_GetItem(names, 0), "seed") != 0))
        return PyErr_Format(PyExc_TypeError, "%s() takes (data, /, seed=0)", name);
    if ((all == 2 && !is_word(args[1], "seed", &seed)) || !has_bytes(args[0], &bytes))
        return NULL;
    PyThreadState *thread = bytes.len < MANY ? NULL : PyEval_SaveThread();
    hash = KOMIHASH()(bytes.buf, (size_t)bytes.len, seed);
    if (thread != NULL)
        PyEval_RestoreThread(thread);
    PyBuffer_Release(&bytes);
    return as(hash);
}

#define ONE_SHOT(name, as)                                                                       \
    static PyObject *hash_##as(PyObject *module, PyObject *const *args, Py_ssize_t count,        \
                               PyObject *names) {                                                \
        return hash(as, name, args, count, names);                                               \
    }
ONE_SHOT("komihash_int", as_int)
ONE_SHOT("komihash_digest", as_bytes)
ONE_SHOT("komihash_hexdigest", as_digits)

static Stream *locked(PyObject *self) {
    Stream *stream = (Stream *)self;
    if (stream->lock != NULL && !PyThread_acquire_lock(stream->lock, NOWAIT_LOCK)) {
        Py_BEGIN_ALLOW_THREADS
        PyThread_acquire_lock(stream->lock, WAIT_LOCK);
        Py_END_ALLOW_THREADS
    }
    return stream;
}

static void unlock(Stream *stream) {
    if (stream->lock != NULL)
        PyThread_release_lock(stream->lock);
}

/* Absorbs many bytes in one thread while others run, as long as there is memory for a lock. */
static bool absorb(PyObject *self, PyObject *data) {
    Py_buffer bytes;
    if (!has_bytes(data, &bytes))
        return false;
    if (bytes.len >= MANY && ((Stream *)self)->lock == NULL)
        ((Stream *)self)->lock = PyThread_allocate_lock();
    Stream *stream = locked(self);
    const bool shared = bytes.len >= MANY && stream->lock != NULL;
    PyThreadState *thread = shared ? PyEval_SaveThread() : NULL;
    KOMIHASH(_write)(&stream->state.stream, bytes.buf, (size_t)bytes.len);
    unlock(stream);
    if (shared)
        PyEval_RestoreThread(thread);
    PyBuffer_Release(&bytes);
    return true;
}

static State state_of(PyObject *self) {
    Stream *stream = locked(self);
    State state = stream->state;
    unlock(stream);
    return state;
}

static void set_state(PyObject *self, State state) {
    Stream *stream = locked(self);
    stream->state = state;
    unlock(stream);
}

static State started(uint64_t seed) { return (State){KOMIHASH(_start)(seed), seed, true}; }

static PyObject *new_stream(PyTypeObject *type, PyObject *args, PyObject *names) {
    Stream *stream = (Stream *)PyType_GenericAlloc(type, 0);
    if (stream != NULL)
        stream->state = started(0);
    return (PyObject *)stream;
}

static int start_stream(PyObject *self, PyObject *args, PyObject *names) {
    static char *known[] = {"data", "seed", "usedforsecurity", NULL};
    PyObject *data = NULL, *number = NULL;
    uint64_t seed = 0;
    int ignored;
    if (!PyArg_ParseTupleAndKeywords(args, names, "|OO$p:komihash", known, &data, &number,
                                     &ignored) ||
        (number != NULL && !is_word(number, "seed", &seed)))
        return -1;
    const State before = state_of(self);
    set_state(self, started(seed));
    if (data == NULL || absorb(self, data))
        return 0;
    set_state(self, before);
    return -1;
}

static void drop_stream(PyObject *self) {
    PyTypeObject *type = Py_TYPE(self);
    if (((Stream *)self)->lock != NULL)
        PyThread_free_lock(((Stream *)self)->lock);
    ((freefunc)PyType_GetSlot(type, Py_tp_free))(self);
    Py_DECREF(type);
}

static PyObject *update(PyObject *self, PyObject *data) {
    return absorb(self, data) ? Py_BuildValue("") : NULL;
}

static PyObject *seed_of(PyObject *self, void *unused) {
    State state = state_of(self);
    return state.has_seed ? as_int(state.seed) : Py_BuildValue("");
}

static PyObject *reset(PyObject *self, PyObject *unused) {
    State state = state_of(self);
    if (!state.has_seed)
        return PyErr_Format(PyExc_ValueError, "the seed of this resumed stream is not known");
    set_state(self, started(state.seed));
    return Py_BuildValue("");
}

static uint64_t finish(PyObject *self) {
    State state = state_of(self);
    return KOMIHASH(_finish)(&state.stream);
}

static PyObject *intdigest(PyObject *self, PyObject *unused) { return as_int(finish(self)); }
static PyObject *digest(PyObject *self, PyObject *unused) { return as_bytes(finish(self)); }
static PyObject *hexdigest(PyObject *self, PyObject *unused) { return as_digits(finish(self)); }

static PyObject *save(PyObject *self, PyObject *unused) {
    State state = state_of(self);
    char text[KOMIHASH_LONGEST_TEXT];
    size_t length = KOMIHASH(_save)(&state.stream, text, sizeof text);
    return PyBytes_FromStringAndSize(text, (Py_ssize_t)length);
}

static PyObject *resume(PyObject *type, PyObject *args, PyObject *names) {
    static char *known[] = {"", "seed", NULL};
    PyObject *saved, *number = Py_None;
    State state = {.seed = 0};
    Py_buffer bytes;
    if (!PyArg_ParseTupleAndKeywords(args, names, "O|O:resume", known, &saved, &number))
        return NULL;
    state.has_seed = number != Py_None;
    if ((state.has_seed && !is_word(number, "seed", &state.seed)) ||
        PyObject_GetBuffer(saved, &bytes, PyBUF_SIMPLE) != 0)
        return NULL;
    PyObject *self = new_stream((PyTypeObject *)type, NULL, NULL);
    if (self != NULL && KOMIHASH(_resume)(&state.stream, bytes.buf, (size_t)bytes.len)) {
        ((Stream *)self)->state = state;
    } else if (self != NULL) {
        PyErr_SetString(PyExc_ValueError, "the bytes are not what save() of this version returns");
        Py_CLEAR(self);
    }
    PyBuffer_Release(&bytes);
    return self;
}

/* Returns the attributes, which objects of subclasses have, or None. */
static PyObject *attributes(PyObject *self) {
    if (!PyType_HasFeature(Py_TYPE(self), Py_TPFLAGS_HAVE_GC)) /* without which there are none */
        return Py_BuildValue("");
    PyObject *dictionary = PyObject_GetAttrString(self, "__dict__");
    if (dictionary != NULL || !PyErr_ExceptionMatches(PyExc_AttributeError))
        return dictionary;
    PyErr_Clear();
    return Py_BuildValue("");
}

/* Returns what pickle stores. Before Python 3.11, `object` has no `__getstate__`. */
static PyObject *reduced(PyObject *self, const char *method, PyCFunction arguments) {
    PyObject *extra = PyObject_HasAttrString(self, "__getstate__")
        ? PyObject_CallMethod(self, "__getstate__", NULL)
        : attributes(self);
    return extra == NULL
        ? NULL
        : Py_BuildValue("NNN", PyObject_GetAttrString((PyObject *)Py_TYPE(self), method),
                        arguments(self, NULL), extra);
}

static PyObject *text_and_seed(PyObject *self, PyObject *unused) {
    return Py_BuildValue("NN", save(self, NULL), seed_of(self, NULL));
}

static PyObject *reduce_stream(PyObject *self, PyObject *unused) {
    return reduced(self, "resume", text_and_seed);
}

static PyObject *copy(PyObject *self, PyObject *unused) {
    PyObject *copy = new_stream(Py_TYPE(self), NULL, NULL), *theirs = NULL, *ours = NULL;
    if (copy != NULL) {
        ((Stream *)copy)->state = state_of(self);
        theirs = attributes(self);
        ours = attributes(copy);
    }
    if (theirs == NULL || ours == NULL || (theirs != Py_None && PyDict_Update(ours, theirs) != 0))
        Py_CLEAR(copy);
    Py_XDECREF(theirs);
    Py_XDECREF(ours);
    return copy;
}

static PyObject *new_generator(PyTypeObject *type, PyObject *args, PyObject *names) {
    Generator *generator = (Generator *)PyType_GenericAlloc(type, 0);
    if (generator != NULL)
        generator->state = KOMIHASH(_rand_init)(0);
    return (PyObject *)generator;
}

static int start_generator(PyObject *self, PyObject *args, PyObject *names) {
    static char *known[] = {"seed", "extra_seed", NULL};
    PyObject *number, *extra = Py_None;
    uint64_t seed, extra_seed;
    if (!PyArg_ParseTupleAndKeywords(args, names, "O|O:Komirand", known, &number, &extra) ||
        !is_word(number, "seed", &seed) ||
        !is_word(extra == Py_None ? number : extra, "extra_seed", &extra_seed))
        return -1;
    ((Generator *)self)->state = KOMIHASH(_rand_init_with_extra_seed)(seed, extra_seed);
    return 0;
}

static PyObject *from_words(PyObject *type, PyObject *args) {
    PyObject *numbers[2];
    uint64_t s1, s2;
    if (!PyArg_ParseTuple(args, "OO:from_words", &numbers[0], &numbers[1]) ||
        !is_word(numbers[0], "s1", &s1) || !is_word(numbers[1], "s2", &s2))
        return NULL;
    PyObject *self = new_generator((PyTypeObject *)type, NULL, NULL);
    if (self != NULL)
        ((Generator *)self)->state = KOMIHASH(_rand_init_words)(s1, s2);
    return self;
}

static PyObject *next(PyObject *self, PyObject *unused) {
    return PyLong_FromUnsignedLongLong(KOMIHASH(_rand_next)(&((Generator *)self)->state));
}

static PyObject *fill(PyObject *self, PyObject *number) {
    Py_ssize_t length = PyNumber_AsSsize_t(number, PyExc_OverflowError);
    if (length < 0)
        return PyErr_Occurred() ? NULL : PyErr_Format(PyExc_ValueError, "negative length");
    PyObject *bytes = PyBytes_FromStringAndSize(NULL, length);
    if (bytes != NULL)
        KOMIHASH(_rand_fill)(&((Generator *)self)->state, PyBytes_AsString(bytes), (size_t)length);
    return bytes;
}

static PyObject *words(PyObject *self, PyObject *unused) {
    const uint64_t *state = ((Generator *)self)->state.state;
    return Py_BuildValue("KK", (unsigned long long)state[0], (unsigned long long)state[1]);
}

static PyObject *reduce_generator(PyObject *self, PyObject *unused) {
    return reduced(self, "from_words", words);
}

#define DOC(call, text) PyDoc_STR(call "\n--\n\n" text)

static PyMethodDef stream_methods[] = {
    {"update", update, METH_O, DOC("update($self, data, /)", "Add bytes to the message.")},
    {"digest", digest, METH_NOARGS,
     DOC("digest($self)", "Return the hash of all bytes so far, as eight big-endian bytes.")},
    {"hexdigest", hexdigest, METH_NOARGS,
     DOC("hexdigest($self)", "Return the hash of all bytes so far, as 16 hexadecimal digits.")},
    {"intdigest", intdigest, METH_NOARGS,
     DOC("intdigest($self)", "Return the hash of all bytes so far, as an int below 2**64.")},
    {"copy", copy, METH_NOARGS,
     DOC("copy($self)", "Return a copy that goes on by itself. It lacks a subclass's __slots__.")},
    {"reset", reset, METH_NOARGS,
     DOC("reset($self)", "Begin anew with the seed.\n\nRaise ValueError if it isn't known.")},
    {"save", save, METH_NOARGS,
     DOC("save($self)", "Return the state as at most 131 bytes, which resume() takes.\n\n"
         "Keep them as secret as the seed and the message, of which they have up to 63 bytes.")},
    {"resume", (PyCFunction)(void (*)(void))resume, METH_VARARGS | METH_KEYWORDS | METH_CLASS,
     DOC("resume($type, saved, /, seed=None)",
         "Return the stream whose save() returned these bytes. Only reset() needs its seed.\n\n"
         "Raise ValueError for other bytes, but most damaged ones are those of another stream.")},
    {"__reduce__", reduce_stream, METH_NOARGS, NULL}, {NULL}};

static PyGetSetDef stream_attributes[] = {
    {"seed", seed_of, NULL, PyDoc_STR("The seed, or None if it isn't known."), NULL}, {NULL}};

static PyType_Slot stream_slots[] = {
    {Py_tp_doc, DOC("komihash(data=b'', seed=0, *, usedforsecurity=True)",
                    "A stream, like hashlib's objects. It hashes data and what update() adds.\n\n"
                    "The seed is from 0 to 2**64 - 1. usedforsecurity is ignored.")},
    {Py_tp_new, new_stream}, {Py_tp_init, start_stream}, {Py_tp_dealloc, drop_stream},
    {Py_tp_methods, stream_methods}, {Py_tp_getset, stream_attributes}, {0}};

static PyMethodDef generator_methods[] = {
    {"from_words", from_words, METH_VARARGS | METH_CLASS,
     DOC("from_words($type, s1, s2, /)", "Return the generator that has these two ints as state.")},
    {"words", words, METH_NOARGS,
     DOC("words($self)", "Return the state: two ints, which from_words() takes.")},
    {"next", next, METH_NOARGS, DOC("next($self)", "Return the next output, an int below 2**64.")},
    {"fill", fill, METH_O, DOC("fill($self, length, /)",
                               "Return length bytes of the next outputs, each little-endian.\n\n"
                               "What is left of the last one is dropped.")},
    {"__reduce__", reduce_generator, METH_NOARGS, NULL}, {NULL}};

static PyType_Slot generator_slots[] = {
    {Py_tp_doc, DOC("Komirand(seed, extra_seed=None)",
                    "A pseudorandom generator, which is not for secrets.\n\nSeeds are from 0 to "
                    "2**64 - 1. Without an extra_seed, the seed is taken for both.")},
    {Py_tp_new, new_generator}, {Py_tp_init, start_generator},
    {Py_tp_methods, generator_methods}, {0}};

#define TYPE Py_TPFLAGS_DEFAULT | Py_TPFLAGS_BASETYPE
static PyType_Spec stream_type = {PACKAGE "komihash", sizeof(Stream), 0, TYPE, stream_slots};
static PyType_Spec random_type = {PACKAGE "Komirand", sizeof(Generator), 0, TYPE, generator_slots};

/* Sets an attribute of the module or of a type to a new object, or fails if one is missing. */
static int set(PyObject *of, const char *name, PyObject *value) {
    int failed = of == NULL || value == NULL || PyObject_SetAttrString(of, name, value) != 0;
    Py_XDECREF(value);
    return failed;
}

static int fill_module(PyObject *module) {
    PyObject *stream = PyType_FromSpec(&stream_type);
    int failed = set(stream, "name", PyUnicode_FromString("komihash_v" NAME_OF(VERSION))) ||
        set(stream, "digest_size", PyLong_FromLong(8)) ||
        set(stream, "block_size", PyLong_FromLong(64)) ||
        PyObject_SetAttrString(module, "komihash", stream) != 0 ||
        set(module, "Komirand", PyType_FromSpec(&random_type));
    Py_XDECREF(stream);
    return -failed;
}

#define FUNCTION(name, as, text)                                                               \
    {name, (PyCFunction)(void (*)(void))hash_##as, METH_FASTCALL | METH_KEYWORDS,               \
     DOC(name "($module, data, /, seed=0)", "Return the hash of a message, as " text ".\n\n"     \
         "The data is bytes-like, and the seed is from 0 to 2**64 - 1.")}
static PyMethodDef functions[] = {
    FUNCTION("komihash_int", as_int, "an int below 2**64"),
    FUNCTION("komihash_digest", as_bytes, "eight bytes, big-endian"),
    FUNCTION("komihash_hexdigest", as_digits, "16 hexadecimal digits"), {NULL}};

static PyModuleDef_Slot slots[] = {{Py_mod_exec, fill_module}, {0}, {0}};
static PyModuleDef definition = {
    PyModuleDef_HEAD_INIT, "v" NAME_OF(VERSION), .m_methods = functions, .m_slots = slots,
    .m_doc = "Version " NAME_OF(VERSION) " of the hash komihash.\n\nDon't use it where an "
             "attacker may choose the messages. Version 4 is for hashes that exist already."};

PyMODINIT_FUNC NAMED(PyInit_v, VERSION, )(void) {
#if PY_VERSION_HEX >= 0x030b0000
    /* Since 3.12, subinterpreters may have a lock each (Py_mod_multiple_interpreters). */
    if (Py_Version >= 0x030c0000)
        slots[1] = (PyModuleDef_Slot){3, (void *)2};
#endif
    return PyModuleDef_Init(&definition);
}
