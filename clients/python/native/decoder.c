/* The class of values in progress. */
#include "native.h"

struct decoder {
    PyObject_HEAD
    struct shared *shared;
    struct held *held; /* NULL once it is closed */
    uint32_t type;
    uint16_t depth;
    bool is_finished;
    uint64_t taken; /* the number of bytes taken when it was finished */
    uint64_t memory; /* the budget, or 0 for none */
};

/* Starts the session of a decoder, whose registry this is. */
static int start(struct decoder *self, PyObject *registry, const struct arguments *given) {
    struct call call = {.shared = shared_of(registry)};
    self->shared = call.shared;
    if (!call.shared) return -1;
    if (read_type(call.shared->state, registry, given->type, &call.type) < 0) return -1;
    if (read_limits(given->depth, given->limit, given->memory, &call.limits) < 0) return -1;
    self->type = call.type;
    self->depth = call.limits.depth;
    self->memory = budget_of(&call.limits, call.limits.limit);
    self->held = start_session(&call, self->memory, -1);
    return self->held ? 0 : -1;
}

static PyObject *decoder_new(PyTypeObject *class, PyObject *args, PyObject *keywords) {
    static char *names[] = {"registry", "type", "depth", "limit", "memory", NULL};
    struct arguments given = {0};
    PyObject *registry, *module = module_of(class);
    if (!module) return NULL;
    PyTypeObject *owner = state_of(module)->registry_class;
    int is_read = PyArg_ParseTupleAndKeywords(args, keywords, "O!O|$OOO:Decoder", names, owner,
                                              &registry, &given.type, &given.depth, &given.limit,
                                              &given.memory);
    Py_DECREF(module);
    if (!is_read) return NULL;
    struct decoder *self = (struct decoder *)PyType_GenericAlloc(class, 0);
    if (self && start(self, registry, &given) < 0) {
        Py_DECREF(self);
        return NULL;
    }
    return (PyObject *)self;
}

/* Frees the session, after the calls under way if there are some. */
static PyObject *decoder_close(PyObject *object, PyObject *unused) {
    struct decoder *self = (struct decoder *)object;
    struct held *held = self->held;
    (void)unused;
    self->held = NULL;
    if (held) drop(self->shared, held);
    return new_ref(Py_None);
}

static void decoder_dealloc(PyObject *object) {
    PyTypeObject *class = Py_TYPE(object);
    struct decoder *self = (struct decoder *)object;
    if (self->held) drop(self->shared, self->held);
    if (self->shared) release(self->shared);
    PyObject_Del(object);
    Py_DECREF(class);
}

/* Begins a call on the session, or raises what is wrong with the decoder. A session that another thread closes isn't freed
 * before the call ends. */
static scaleview_session *begin(struct decoder *self) {
    enter(self->shared, true);
    bool is_torn = self->shared->is_torn;
    if (self->held && !is_torn) return &self->held->session;
    leave(self->shared);
    if (is_torn)
        raise_torn();
    else
        PyErr_SetString(PyExc_ValueError, "the decoder is closed");
    return NULL;
}

static PyObject *decoder_feed(PyObject *object, PyObject *piece) {
    struct decoder *self = (struct decoder *)object;
    scaleview_answer answer;
    const uint8_t *bytes;
    size_t length;
    PyObject *kept = bytes_of(piece, &bytes, &length);
    scaleview_session *session = kept ? begin(self) : NULL;
    if (session) {
        PyThreadState *state = length >= LONG_INPUT ? PyEval_SaveThread() : NULL;
        scaleview_feed(session, bytes, length, &answer);
        if (state) PyEval_RestoreThread(state);
        leave(self->shared);
    }
    Py_XDECREF(kept);
    if (!session) return NULL;
    if (answer.code == SCALEVIEW_MORE) return new_ref(Py_None);
    if (answer.code == SCALEVIEW_OK) return PyLong_FromUnsignedLongLong(answer.length);
    raise_answer(self->shared->state, &answer, self->type, -1, self->memory);
    return NULL;
}

/* Keeps how many bytes were taken, which the library forgets. */
static void keep_taken(struct decoder *self, scaleview_session *session) {
    scaleview_answer answer;
    if (self->is_finished) return;
    scaleview_taken(session, &answer);
    self->taken = answer.length;
    self->is_finished = true;
}

static PyObject *decoder_finish(PyObject *object, PyObject *unused) {
    struct decoder *self = (struct decoder *)object;
    struct scratch scratch = take_scratch(self->shared);
    PyObject *value = NULL;
    size_t nodes = 32, bytes = 256;
    (void)unused;
    while (make_room(&scratch, nodes, bytes) == 0) {
        scaleview_answer answer;
        scaleview_session *session = begin(self);
        if (!session) break;
        keep_taken(self, session);
        PyThreadState *state = nodes + bytes >= LONG_INPUT ? PyEval_SaveThread() : NULL;
        scaleview_finish_nodes(session, scratch.nodes, scratch.node_room, scratch.bytes, scratch.byte_room, &answer);
        if (state) PyEval_RestoreThread(state);
        leave(self->shared);
        if (answer.code == SCALEVIEW_NO_ROOM) {
            nodes = (size_t)answer.length;
            bytes = (size_t)answer.at + 1;
            continue;
        }
        if (answer.code == SCALEVIEW_OK)
            value = value_of(self->shared, scratch.nodes, (size_t)answer.length, scratch.bytes);
        else
            raise_answer(self->shared->state, &answer, self->type, -1, self->memory);
        break;
    }
    give_scratch(self->shared, scratch);
    return value;
}

struct text_call {
    scaleview_session *session;
    struct scratch *scratch;
    scaleview_answer *answer;
};

static uint32_t finish_text(void *context) {
    const struct text_call *text = context;
    return scaleview_finish(text->session, text->scratch->bytes, text->scratch->byte_room, text->answer);
}

static PyObject *decoder_finish_json(PyObject *object, PyObject *unused) {
    struct decoder *self = (struct decoder *)object;
    struct scratch scratch = take_scratch(self->shared);
    PyObject *made = NULL;
    size_t room = 0;
    (void)unused;
    for (;;) {
        scaleview_answer answer = {SCALEVIEW_MEMORY, 0, 0, 0};
        if (room == 0) room = 4 * (size_t)(self->taken < LIMIT ? self->taken : LIMIT) + 256;
        if (make_room(&scratch, 0, room) < 0) break;
        scaleview_session *session = begin(self);
        if (!session) break;
        keep_taken(self, session);
        struct text_call text = {session, &scratch, &answer};
        bool is_long = self->taken >= LONG_INPUT || self->depth > DEPTH;
        PyThreadState *state = is_long ? PyEval_SaveThread() : NULL;
        uint32_t code = with_stack(self->depth, finish_text, &text);
        if (state) PyEval_RestoreThread(state);
        leave(self->shared);
        room = (size_t)answer.length;
        if (code == SCALEVIEW_NO_ROOM) continue;
        if (code == SCALEVIEW_OK)
            made = PyUnicode_FromStringAndSize((const char *)scratch.bytes, (Py_ssize_t)answer.length);
        else
            raise_answer(self->shared->state, &answer, self->type, -1, self->memory);
        break;
    }
    give_scratch(self->shared, scratch);
    return made;
}

typedef uint32_t count_call(scaleview_session *session, scaleview_answer *answer);

static PyObject *count(PyObject *object, count_call *call, bool is_taken) {
    struct decoder *self = (struct decoder *)object;
    scaleview_answer answer;
    scaleview_session *session = begin(self);
    if (!session) return NULL;
    call(session, &answer);
    leave(self->shared);
    return PyLong_FromUnsignedLongLong(is_taken && self->is_finished ? self->taken : answer.length);
}

static PyObject *get_taken(PyObject *self, void *unused) {
    (void)unused;
    return count(self, scaleview_taken, true);
}

static PyObject *get_nodes(PyObject *self, void *unused) {
    (void)unused;
    return count(self, scaleview_nodes, false);
}

static PyObject *get_text_bytes(PyObject *self, void *unused) {
    (void)unused;
    return count(self, scaleview_text_bytes, false);
}

static PyObject *get_closed(PyObject *self, void *unused) {
    (void)unused;
    return PyBool_FromLong(!((struct decoder *)self)->held);
}

static PyObject *decoder_repr(PyObject *object) {
    struct decoder *self = (struct decoder *)object;
    if (!self->held) return PyUnicode_FromFormat("<Decoder of type %u, closed>", self->type);
    PyObject *taken = get_taken(object, NULL);
    PyObject *made = taken ? PyUnicode_FromFormat("<Decoder of type %u, %S bytes taken>", self->type, taken) : NULL;
    Py_XDECREF(taken);
    return made;
}

static PyObject *decoder_enter(PyObject *self, PyObject *unused) {
    (void)unused;
    return new_ref(self);
}

static PyGetSetDef getters[] = {
    {"taken", get_taken, NULL, "The number of bytes of all pieces that were taken.", NULL},
    {"nodes", get_nodes, NULL, "The number of nodes of the value that are held.", NULL},
    {"text_bytes", get_text_bytes, NULL, "The number of bytes of texts, byte runs and bit sequences that are held.", NULL},
    {"closed", get_closed, NULL, "Whether the decoder is closed.", NULL},
    {0},
};

static PyMethodDef methods[] = {
    {"feed", decoder_feed, METH_O,
     "feed($self, piece, /)\n--\n\n"
     "Takes the next piece. Returns None while the value is incomplete, and otherwise how many bytes of the\n"
     "piece belong to it: 0 for each later one.\n\n"
     "Raises:\n"
     "    Refused: The value is rejected, with the reason and the place in all pieces; so is each later piece.\n"
     "    OutOfMemory: An allocation failed, or would have exceeded `memory`.\n"
     "    TypeError: `piece` has no buffer.\n"
     "    ValueError: The decoder is closed."},
    {"finish", decoder_finish, METH_NOARGS,
     "finish($self, /)\n--\n\n"
     "Ends the value, and returns it as Registry.decode does. It may be asked for again.\n\n"
     "Raises:\n"
     "    Refused: The value is incomplete or was rejected, with the reason and the place.\n"
     "    OutOfMemory: An allocation failed, or would have exceeded `memory`.\n"
     "    ValueError: The decoder is closed."},
    {"finish_json", decoder_finish_json, METH_NOARGS,
     "finish_json($self, /)\n--\n\n"
     "Ends the value, and returns its JSON text. It raises what `finish` does."},
    {"close", decoder_close, METH_NOARGS, "close($self, /)\n--\n\nFrees the value; a second call does nothing."},
    {"__enter__", decoder_enter, METH_NOARGS, NULL},
    {"__exit__", decoder_close, METH_VARARGS, NULL},
    {0},
};

static PyType_Slot slots[] = {
    {Py_tp_doc, "Decoder(registry, type, *, depth=64, limit=16777216, memory=...)\n--\n\n"
                "A value whose bytes come in pieces. The arguments are those of Registry.decode. If `memory` isn't\n"
                "given, it is 64 MiB and 64 times `limit`, since the length isn't known.\n\n"
                "It keeps what it needs of its registry. Any thread may use it: calls on the decoders of a registry\n"
                "run one at a time.\n\n"
                "Raises:\n"
                "    Refused: The registry has no such type, or a limit is out of range.\n"
                "    OverflowError: A number is out of range.\n"
                "    ValueError: The registry is closed."},
    {Py_tp_new, decoder_new},
    {Py_tp_dealloc, decoder_dealloc},
    {Py_tp_repr, decoder_repr},
    {Py_tp_methods, methods},
    {Py_tp_getset, getters},
    {0},
};

static PyType_Spec spec = {"scaleview.Decoder", sizeof(struct decoder), 0, Py_TPFLAGS_DEFAULT, slots};

int make_decoder_class(PyObject *module) {
    return add_class(module, &state_of(module)->decoder_class, &spec, NULL, "Decoder");
}
