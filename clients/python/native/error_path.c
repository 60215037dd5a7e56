/* Where in a value its bytes are rejected. */
#include "native.h"

/* The steps to where the first bytes of a value end, or -1 if there are none. */
static int read_steps(const struct call *call, uint64_t memory, const uint8_t *bytes, size_t length,
                      scaleview_step *steps, size_t room) {
    struct shared *shared = call->shared;
    scaleview_answer answer;
    enter(shared, false);
    PyThreadState *state = length >= LONG_INPUT ? PyEval_SaveThread() : NULL;
    scaleview_path_of(shared->registry, call->type, call->limits.depth, call->limits.limit, memory,
                      bytes, length, steps, room, &answer);
    if (state) PyEval_RestoreThread(state);
    leave(shared);
    return answer.code == SCALEVIEW_OK && answer.at == 1 ? (int)answer.length : -1;
}

/* The path with one more step. Takes the path, and returns NULL with an exception if it can't. */
static PyObject *with_step(struct shared *shared, PyObject *path, const scaleview_step *step) {
    const struct type_info *info = info_of(shared, step->type);
    bool is_arm = info && info->arms && step->arm < info->shape.parts;
    const struct arm *arm = is_arm ? &info->arms[step->arm] : NULL;
    const struct fields *fields = arm ? &arm->fields : info ? &info->fields : NULL;
    PyObject *name = fields && step->part < fields->count ? fields->names[step->part] : NULL;
    PyObject *longer = NULL, *whole = NULL;
    if (info) longer = arm ? PyUnicode_FromFormat("%U.%U", path, arm->name) : new_ref(path);
    Py_DECREF(path);
    if (longer && name) whole = PyUnicode_FromFormat("%U.%U", longer, name);
    if (longer && !name) whole = PyUnicode_FromFormat("%U[%u]", longer, (unsigned)step->part);
    Py_XDECREF(longer);
    return whole;
}

static PyObject *text_of_steps(struct shared *shared, const scaleview_step *steps, int count) {
    PyObject *path = count < 0 ? NULL : PyUnicode_FromString("value");
    for (int i = 0; path && i < count; i++) path = with_step(shared, path, &steps[i]);
    return path;
}

/* The path to where the bytes of an input are rejected, such as "value.fields[3].name". The bytes
 * before that place lead to the same. Returns NULL, without an exception, if there is none or no
 * memory for it. */
PyObject *path_of_error(const struct input *input, const scaleview_answer *answer) {
    const struct call *call = input->call;
    /* There are at most as many steps as levels. */
    size_t room = call->limits.depth + (size_t)1, length = input->length;
    const uint8_t *bytes = input->bytes;
    if (answer->code < SCALEVIEW_VALUE_TRUNCATED || answer->code > SCALEVIEW_VALUE_UNUSED_BITS)
        return NULL;
    if (answer->at < length) length = (size_t)answer->at;
    PyObject *slice = NULL, *kept = NULL, *path = NULL;
    scaleview_step *steps = malloc(room * sizeof *steps);
    if (!bytes) slice = PySequence_GetSlice(input->view, 0, (Py_ssize_t)length);
    if (slice) kept = bytes_of(slice, &bytes, &length);
    if (steps && (kept || input->bytes))
        path = text_of_steps(call->shared, steps,
                             read_steps(call, input->memory, bytes, length, steps, room));
    if (!path) PyErr_Clear();
    Py_XDECREF(kept);
    Py_XDECREF(slice);
    free(steps);
    return path;
}
