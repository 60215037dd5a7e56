/* Sessions, and values that are decoded in pieces, between which signals are handled. */
#include "native.h"

enum { PIECE = 1 << 16 };

static const char torn[] = "the process was forked during a call on a decoder of this registry: open another registry";

void raise_torn(void) {
    PyErr_SetString(PyExc_RuntimeError, torn);
}

/* Starts a session, which the caller drops. Raises an exception and returns NULL if there is none. */
struct held *start_session(const struct call *call, uint64_t memory, Py_ssize_t item) {
    struct shared *shared = call->shared;
    scaleview_answer answer = {0};
    struct held *held = calloc(1, sizeof *held);
    if (!held) return (struct held *)PyErr_NoMemory();
    enter(shared, true);
    bool is_torn = shared->is_torn;
    if (!is_torn)
        scaleview_start(shared->registry, call->type, call->limits.depth, call->limits.limit, memory, &held->session,
                        &answer);
    leave(shared);
    if (!is_torn && answer.code == SCALEVIEW_OK) return held;
    free(held);
    if (is_torn)
        raise_torn();
    else
        raise_answer(shared->state, &answer, call->type, item, memory);
    return NULL;
}

/* Feeds a piece of the bytes. A session that no other call knows is fed like a registry that is read. */
static int feed_piece(const struct input *input, struct held *held, size_t from, size_t length, scaleview_answer *answer) {
    struct shared *shared = input->call->shared;
    const uint8_t *bytes = input->bytes ? input->bytes + from : NULL;
    PyObject *kept = NULL;
    if (!bytes) {
        PyObject *slice = PySequence_GetSlice(input->view, (Py_ssize_t)from, (Py_ssize_t)(from + length));
        kept = slice ? bytes_of(slice, &bytes, &length) : NULL;
        Py_XDECREF(slice);
        if (!kept) return -1;
    }
    enter(shared, false);
    PyThreadState *state = length >= LONG_INPUT ? PyEval_SaveThread() : NULL;
    scaleview_feed(&held->session, bytes, length, answer);
    if (state) PyEval_RestoreThread(state);
    leave(shared);
    Py_XDECREF(kept);
    return 0;
}

/* Feeds pieces until the value is complete, and reports how many bytes it takes. */
static int feed_pieces(const struct input *input, struct held *held, size_t *used) {
    scaleview_answer answer;
    *used = 0;
    do {
        size_t left = input->length - *used, piece = left < PIECE ? left : PIECE;
        if (feed_piece(input, held, *used, piece, &answer) < 0) return -1;
        if (answer.code != SCALEVIEW_OK && answer.code != SCALEVIEW_MORE) return fail_input(input, &answer);
        *used += answer.code == SCALEVIEW_OK ? (size_t)answer.length : piece;
        if (PyErr_CheckSignals() < 0) return -1;
    } while (answer.code == SCALEVIEW_MORE && *used < input->length);
    if (*used == input->length || input->is_front) return 0;
    answer = (scaleview_answer){SCALEVIEW_VALUE_TRAILING_BYTES, 0, *used, 0};
    return fail_input(input, &answer);
}

/* Ends the value, and writes its nodes, which it counts. */
static int finish_pieces(const struct input *input, struct held *held, struct scratch *scratch, size_t *count) {
    struct shared *shared = input->call->shared;
    scaleview_answer answer;
    enter(shared, false);
    scaleview_nodes(&held->session, &answer);
    size_t nodes = (size_t)answer.length;
    scaleview_text_bytes(&held->session, &answer);
    size_t bytes = (size_t)answer.length;
    leave(shared);
    for (;;) {
        if (make_room(scratch, nodes, bytes) < 0) return -1;
        enter(shared, false);
        PyThreadState *state = nodes + bytes >= LONG_INPUT ? PyEval_SaveThread() : NULL;
        scaleview_finish_nodes(&held->session, scratch->nodes, scratch->node_room, scratch->bytes, scratch->byte_room,
                               &answer);
        if (state) PyEval_RestoreThread(state);
        leave(shared);
        if (answer.code != SCALEVIEW_NO_ROOM) break;
        nodes = (size_t)answer.length;
        bytes = (size_t)answer.at;
    }
    if (answer.code != SCALEVIEW_OK) return fail_input(input, &answer);
    *count = (size_t)answer.length;
    return 0;
}

/* Decodes a value in pieces, and reports how many bytes it takes. */
PyObject *decode_pieces(const struct input *input, size_t *used) {
    struct shared *shared = input->call->shared;
    size_t count = 0;
    struct held *held = start_session(input->call, input->memory, input->item);
    if (!held) return NULL;
    struct scratch scratch = take_scratch(shared);
    int code = feed_pieces(input, held, used);
    if (code == 0) code = finish_pieces(input, held, &scratch, &count);
    drop(shared, held);
    PyObject *value = code == 0 ? value_of(shared, scratch.nodes, count, scratch.bytes) : NULL;
    give_scratch(shared, scratch);
    return value;
}
