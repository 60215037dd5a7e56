/* Values of bytes, and their JSON text. */
#include "native.h"

/* Takes the length off the front of an opaque value. */
static int skip_length(struct input *input) {
    scaleview_answer answer = {.code = SCALEVIEW_UNKNOWN_TYPE};
    if (!input->call->is_opaque) return 0;
    if (input->call->type < input->call->shared->count)
        scaleview_opaque(input->bytes, input->length, &answer);
    if (answer.code != SCALEVIEW_OK) {
        raise_answer(input->call->shared->state, &answer, input->call->type, input->item, 0);
        return -1;
    }
    input->before = answer.at;
    input->bytes += answer.at;
    input->length = (size_t)answer.length;
    return 0;
}

/* Finds the bytes of a value. Returns what keeps them, or NULL with an exception. */
static PyObject *find_bytes(PyObject *data, struct input *input) {
    struct whose whose = {input->call->shared->state, "value", input->item};
    return given_bytes(&whose, data, &input->bytes, &input->length);
}

/* Reads where the bytes of a value are, and what it may take. Returns what keeps them, or NULL with
 * an exception. */
static PyObject *read_input(PyObject *data, struct input *input) {
    PyObject *kept = find_bytes(data, input);
    if (kept && skip_length(input) < 0) Py_CLEAR(kept);
    if (kept) input->memory = budget_of(&input->call->limits, input->length);
    return kept;
}

/* Decodes a value by one call of the library, during which no signal is handled. */
static PyObject *decode_at_once(const struct input *input) {
    const struct call *call = input->call;
    struct shared *shared = call->shared;
    size_t length = input->length, nodes = length / 4 + 32;
    struct scratch scratch = take_scratch(shared);
    PyObject *value = NULL;
    for (;;) {
        scaleview_answer answer;
        if (make_room(&scratch, nodes, length + 1) < 0) break;
        enter(shared, false);
        PyThreadState *state = length >= LONG_INPUT ? PyEval_SaveThread() : NULL;
        uint32_t code = scaleview_decode_nodes(
            shared->registry, call->type, call->limits.depth, call->limits.limit, input->memory,
            input->bytes, length, scratch.nodes, scratch.node_room, scratch.bytes,
            scratch.byte_room, &answer);
        if (state) PyEval_RestoreThread(state);
        leave(shared);
        if (code == SCALEVIEW_NO_ROOM) {
            nodes = (size_t)answer.length;
            if (answer.at <= length || make_room(&scratch, 0, (size_t)answer.at) == 0) continue;
        } else if (code == SCALEVIEW_OK) {
            value = value_of(shared, scratch.nodes, (size_t)answer.length, scratch.bytes);
        } else {
            fail_input(input, &answer);
        }
        break;
    }
    give_scratch(shared, scratch);
    return value;
}

/* Decodes a value, which is at this position of several, or at -1. */
static PyObject *decode_one(const struct call *call, PyObject *data, Py_ssize_t item) {
    struct input input = {.call = call, .item = item};
    PyObject *kept = read_input(data, &input), *value;
    size_t used;
    if (!kept) return NULL;
    if (input.length >= LONG_VALUE && !is_torn(call->shared))
        value = decode_pieces(&input, &used);
    else
        value = decode_at_once(&input);
    Py_DECREF(kept);
    return value;
}

/* Finds the bytes of a buffer that begins with a value. They are copied in pieces, if they stand in
 * a row, so that what follows the value costs nothing. */
static PyObject *front_of(PyObject *data, struct input *input) {
    if (PyBytes_Check(data) || PyUnicode_Check(data)) return find_bytes(data, input);
    PyObject *view = view_of(data);
    if (!view) return NULL;
    input->view = PyObject_CallMethod(view, "cast", "s", "B");
    Py_DECREF(view);
    if (input->view) {
        input->length = (size_t)PyObject_Size(input->view);
        return input->view;
    }
    if (!PyErr_ExceptionMatches(PyExc_TypeError) && !PyErr_ExceptionMatches(PyExc_ValueError))
        return NULL;
    PyErr_Clear();
    return bytes_of(data, &input->bytes, &input->length);
}

/* The value that all the bytes of a call spell. */
PyObject *decode_value(const struct call *call) {
    return decode_one(call, call->value, -1);
}

/* (the value that the first bytes spell, how many bytes it takes) */
PyObject *decode_front(const struct call *call) {
    struct input input = {.call = call, .item = -1, .is_front = true};
    size_t used;
    PyObject *kept = front_of(call->value, &input);
    if (!kept) return NULL;
    input.memory = budget_of(&call->limits, input.length);
    PyObject *value = decode_pieces(&input, &used);
    Py_DECREF(kept);
    return value ? Py_BuildValue("(NK)", value, (unsigned long long)used) : NULL;
}

/* A list of the values of several inputs. */
PyObject *decode_items(const struct call *call) {
    PyObject *items = PyObject_GetIter(call->value), *values = items ? PyList_New(0) : NULL, *item;
    for (Py_ssize_t at = 0; values && (item = PyIter_Next(items)); at++) {
        PyObject *value = decode_one(call, item, at);
        bool has_failed = !value || PyList_Append(values, value) < 0 || PyErr_CheckSignals() < 0;
        if (has_failed) Py_CLEAR(values);
        Py_XDECREF(value);
        Py_DECREF(item);
    }
    if (values && PyErr_Occurred()) Py_CLEAR(values);
    Py_XDECREF(items);
    return values;
}

struct text_call {
    const struct input *input;
    struct scratch *scratch;
    scaleview_answer *answer;
};

static uint32_t write_text(void *context) {
    const struct text_call *text = context;
    const struct input *input = text->input;
    const struct call *call = input->call;
    return scaleview_decode(call->shared->registry, call->type, call->limits.depth,
                            call->limits.limit, input->memory, input->bytes, input->length,
                            text->scratch->bytes, text->scratch->byte_room, text->answer);
}

static PyObject *text_of(const struct input *input) {
    struct shared *shared = input->call->shared;
    uint16_t depth = input->call->limits.depth;
    scaleview_answer answer = {SCALEVIEW_MEMORY, 0, 0, 0};
    struct scratch scratch = take_scratch(shared);
    PyObject *made = NULL;
    size_t room = 4 * input->length + 256;
    while (make_room(&scratch, 0, room) == 0) {
        struct text_call text = {input, &scratch, &answer};
        enter(shared, false);
        bool is_long = input->length >= LONG_INPUT || depth > DEPTH;
        PyThreadState *state = is_long ? PyEval_SaveThread() : NULL;
        uint32_t code = with_stack(depth, write_text, &text);
        if (state) PyEval_RestoreThread(state);
        leave(shared);
        room = (size_t)answer.length;
        if (code == SCALEVIEW_NO_ROOM) continue;
        if (code == SCALEVIEW_OK)
            made = PyUnicode_FromStringAndSize((const char *)scratch.bytes,
                                               (Py_ssize_t)answer.length);
        else
            fail_input(input, &answer);
        break;
    }
    give_scratch(shared, scratch);
    return made;
}


/* The JSON text of the value that all the bytes of a call spell. */
PyObject *decode_text(const struct call *call) {
    struct input input = {.call = call, .item = -1};
    PyObject *kept = read_input(call->value, &input), *made = kept ? text_of(&input) : NULL;
    Py_XDECREF(kept);
    return made;
}
