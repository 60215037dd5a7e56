/* What metadata names. */
#include "native.h"

enum { SHORT_NAME = 256 };

/* A question whose answer is written: the name at an index, or the bytes of a name. */
struct question {
    uint32_t (*ask)(const struct question *question, uint8_t *out, size_t room, scaleview_answer *answer);
    struct shared *shared;
    uint32_t index;
    const uint8_t *name;
    size_t length;
};

static uint32_t ask_name(const struct question *question, uint8_t *out, size_t room, scaleview_answer *answer) {
    return scaleview_name_at(question->shared->registry, question->index, out, room, answer);
}

static uint32_t ask_bytes(const struct question *question, uint8_t *out, size_t room, scaleview_answer *answer) {
    return scaleview_name_bytes(question->shared->registry, question->name, question->length, out, room, answer);
}

/* Asks with as much memory as the answer wants. Returns -1 with an exception if there is none. */
static int ask(const struct question *question, struct scratch *scratch, scaleview_answer *answer) {
    size_t room = SHORT_NAME;
    do {
        if (make_room(scratch, 0, room) < 0) return -1;
        enter(question->shared, false);
        question->ask(question, scratch->bytes, scratch->byte_room, answer);
        leave(question->shared);
        room = (size_t)answer->length;
    } while (answer->code == SCALEVIEW_NO_ROOM);
    return 0;
}

/* (type, whether it has bytes) */
PyObject *find_name(struct shared *shared, PyObject *name) {
    scaleview_answer answer;
    PyObject *text = PyUnicode_AsUTF8String(name);
    if (!text) return NULL;
    const uint8_t *bytes = (const uint8_t *)PyBytes_AsString(text);
    size_t length = (size_t)PyBytes_Size(text);
    enter(shared, false);
    uint32_t code = scaleview_name(shared->registry, bytes, length, &answer);
    leave(shared);
    Py_DECREF(text);
    if (code == SCALEVIEW_OK) return Py_BuildValue("(kO)", (unsigned long)answer.from, answer.at ? Py_True : Py_False);
    raise_name(shared->state, &answer, name);
    return NULL;
}

/* (name, type, whether it has bytes). The format has no length: what the headers of 3.13 make of one
 * doesn't run before 3.13. */
static PyObject *named(const struct scratch *scratch, const scaleview_answer *answer) {
    const char *bytes = (const char *)scratch->bytes;
    PyObject *name = PyUnicode_FromStringAndSize(bytes, (Py_ssize_t)answer->length);
    if (!name) return NULL;
    return Py_BuildValue("(NkO)", name, (unsigned long)answer->from, answer->at ? Py_True : Py_False);
}

/* (name, type, whether it has bytes), or None if there are no more names. */
PyObject *name_at(struct shared *shared, uint32_t index) {
    struct question question = {ask_name, shared, index, NULL, 0};
    struct scratch scratch = take_scratch(shared);
    scaleview_answer answer;
    PyObject *made = NULL;
    if (ask(&question, &scratch, &answer) == 0) {
        if (answer.code == SCALEVIEW_OK)
            made = named(&scratch, &answer);
        else
            made = new_ref(Py_None);
    }
    give_scratch(shared, scratch);
    return made;
}

/* The bytes that the metadata has for a name. */
PyObject *bytes_of_name(struct shared *shared, PyObject *name) {
    PyObject *text = PyUnicode_AsUTF8String(name), *made = NULL;
    if (!text) return NULL;
    struct question question = {ask_bytes, shared, 0, (const uint8_t *)PyBytes_AsString(text), (size_t)PyBytes_Size(text)};
    struct scratch scratch = take_scratch(shared);
    scaleview_answer answer;
    if (ask(&question, &scratch, &answer) == 0) {
        if (answer.code == SCALEVIEW_OK)
            made = PyBytes_FromStringAndSize((const char *)scratch.bytes, (Py_ssize_t)answer.length);
        else
            raise_name(shared->state, &answer, name);
    }
    give_scratch(shared, scratch);
    Py_DECREF(text);
    return made;
}
