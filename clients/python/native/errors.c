/* Exceptions. */
#include "native.h"

int import_classes(struct state *state) {
    PyObject *module = PyImport_ImportModule("scaleview._base");
    if (!module) return -1;
    state->refused_class = PyObject_GetAttrString(module, "Refused");
    state->unknown_name_class = PyObject_GetAttrString(module, "UnknownName");
    state->encode_error_class = PyObject_GetAttrString(module, "EncodeError");
    state->out_of_memory_class = PyObject_GetAttrString(module, "OutOfMemory");
    state->empties_class = PyObject_GetAttrString(module, "Empties");
    state->bits_class = PyObject_GetAttrString(module, "Bits");
    Py_DECREF(module);
    bool has_refusals = state->refused_class && state->unknown_name_class;
    bool has_errors = has_refusals && state->encode_error_class && state->out_of_memory_class;
    return has_errors && state->empties_class && state->bits_class ? 0 : -1;
}

PyObject *reason_of(uint32_t code) {
    scaleview_answer answer;
    uint8_t name[32];
    if (scaleview_reason(code, name, sizeof name, &answer) != SCALEVIEW_OK) answer.length = 0;
    return PyUnicode_DecodeASCII((const char *)name, (Py_ssize_t)answer.length, NULL);
}

static PyObject *number_or_none(bool is_there, unsigned long long number) {
    return is_there ? PyLong_FromUnsignedLongLong(number) : new_ref(Py_None);
}

static void raise_new(PyObject *class, PyObject *arguments) {
    PyObject *error = arguments ? PyObject_CallObject(class, arguments) : NULL;
    Py_XDECREF(arguments);
    if (error) PyErr_SetObject(class, error);
    Py_XDECREF(error);
}

static const char *part_of(uint32_t code) {
    if (code == SCALEVIEW_REGISTRY_UNKNOWN_REFERENCE) return "check";
    if (code >= 101 && code < 200) return "registry";
    if (code == SCALEVIEW_LIMIT_OUT_OF_RANGE) return "limits";
    return code >= 300 ? "value" : "type";
}

/* Raises that a call with this budget, or none if it is 0, got no memory. The library doesn't say which of the two it was. */
void raise_out_of_memory(const struct state *state, uint64_t memory) {
    if (memory == 0)
        PyErr_SetString(state->out_of_memory_class, "an allocation failed");
    else
        PyErr_Format(state->out_of_memory_class,
                     "the budget of %llu bytes of memory is reached, or an allocation failed", (unsigned long long)memory);
}

/* Raises that a call would exceed this budget. */
void raise_over_budget(const struct state *state, uint64_t memory) {
    PyErr_Format(state->out_of_memory_class, "the budget of %llu bytes of memory is reached",
                 (unsigned long long)memory);
}

/* Raises a refusal. `path` is NULL, or where in a value it is. */
static void raise_refused(const struct state *state, const scaleview_answer *answer, const char *part, uint32_t type,
                          Py_ssize_t item, PyObject *path) {
    uint32_t code = answer->code;
    bool has_types = code == SCALEVIEW_REGISTRY_UNKNOWN_REFERENCE, is_unknown = code == SCALEVIEW_UNKNOWN_TYPE;
    bool has_place = !has_types && code != SCALEVIEW_REGISTRY_TOO_LARGE && (code < 200 || code >= 300);
    bool has_target = has_types || is_unknown || code == SCALEVIEW_METADATA_UNKNOWN_REFERENCE;
    uint64_t target = has_types ? answer->at : is_unknown ? type : answer->from;
    raise_new(state->refused_class,
              Py_BuildValue("(INsNNNNOO)", code, reason_of(code), part, number_or_none(has_place, answer->at),
                            number_or_none(has_types, answer->from), number_or_none(has_target, target),
                            number_or_none(item >= 0, (unsigned long long)item), Py_None,
                            path ? path : Py_None));
}

/* Raises what a call with this budget of memory answered: on this type, and on this item of several if it isn't negative. */
void raise_answer(const struct state *state, const scaleview_answer *answer, uint32_t type, Py_ssize_t item,
                  uint64_t memory) {
    if (answer->code == SCALEVIEW_MEMORY)
        raise_out_of_memory(state, memory);
    else
        raise_refused(state, answer, part_of(answer->code), type, item, NULL);
}

/* Raises what the opening of a registry answered, whose bytes stand after so many others. A value's
 * codes are then about what follows it in metadata. */
void raise_unopened(const struct state *state, const scaleview_answer *answer, uint64_t before) {
    scaleview_answer placed = *answer;
    uint32_t code = answer->code;
    if (code == SCALEVIEW_MEMORY) {
        raise_out_of_memory(state, 0);
        return;
    }
    if (code != SCALEVIEW_REGISTRY_UNKNOWN_REFERENCE) placed.at += before;
    const char *part = code >= SCALEVIEW_VALUE_TRUNCATED ? "registry" : part_of(code);
    raise_refused(state, &placed, part, 0, -1, NULL);
}

/* Raises that text doesn't spell bytes, for a reason of the package's, at this character. */
void raise_wrong_text(const struct whose *whose, const char *reason, size_t place) {
    PyObject *item = number_or_none(whose->item >= 0, (unsigned long long)whose->item);
    raise_new(whose->state->refused_class,
              Py_BuildValue("(IssnOON)", NO_CODE, reason, whose->part, (Py_ssize_t)place, Py_None,
                            Py_None, item));
}

/* Raises that the metadata doesn't have a name, or no bytes for it. */
void raise_name(const struct state *state, const scaleview_answer *answer, PyObject *name) {
    uint32_t code = answer->code;
    bool is_unknown = code == SCALEVIEW_UNKNOWN_NAME;
    raise_new(is_unknown ? state->unknown_name_class : state->refused_class,
              Py_BuildValue("(INsOOOOO)", code, reason_of(code), part_of(code), Py_None, Py_None,
                            Py_None, Py_None, name));
}

/* Raises what a call on an input answered. */
int fail_input(const struct input *input, const scaleview_answer *answer) {
    const struct call *call = input->call;
    const struct state *state = call->shared->state;
    scaleview_answer placed = *answer;
    placed.at += input->before;
    if (answer->code == SCALEVIEW_MEMORY) {
        raise_out_of_memory(state, input->memory);
        return -1;
    }
    PyObject *path = path_of_error(input, answer);
    raise_refused(state, &placed, part_of(answer->code), call->type, input->item, path);
    Py_XDECREF(path);
    return -1;
}

/* Raises the refusal of a node, which has this path. */
void raise_rejected_node(const struct state *state, const scaleview_answer *answer, PyObject *path) {
    raise_new(state->encode_error_class, Py_BuildValue("(INON)", answer->code, reason_of(answer->code), path,
                                                       PyLong_FromUnsignedLongLong(answer->at)));
}
