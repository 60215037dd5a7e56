/* The class of a chain's metadata, which decodes what every chain names. */
#include "native.h"

/* Finds the type of a name. */
static int find_type(PyObject *registry, const char *name, uint32_t *type) {
    struct shared *shared = shared_of(registry);
    scaleview_answer answer;
    if (!shared) return -1;
    enter(shared, false);
    uint32_t code = scaleview_name(shared->registry, (const uint8_t *)name, strlen(name), &answer);
    leave(shared);
    PyObject *text = code == SCALEVIEW_OK ? NULL : PyUnicode_FromString(name);
    if (text) raise_name(shared->state, &answer, text);
    Py_XDECREF(text);
    release(shared);
    *type = answer.from;
    return code == SCALEVIEW_OK ? 0 : -1;
}

static PyObject *metadata_extrinsic(PyObject *self, PyObject *args, PyObject *keywords) {
    static struct form form = {"O|$OOO:extrinsic", {"data", "depth", "limit", "memory", NULL}};
    struct arguments given = {.is_opaque = true};
    if (read_data(&form, args, keywords, &given) < 0) return NULL;
    if (find_type(self, "extrinsic", &given.type_id) < 0) return NULL;
    return run_call(self, &given, decode_value);
}

static PyObject *metadata_call(PyObject *self, PyObject *args, PyObject *keywords) {
    static struct form form = {"O|$OOO:call", {"data", "depth", "limit", "memory", NULL}};
    struct arguments given = {0};
    if (read_data(&form, args, keywords, &given) < 0) return NULL;
    if (find_type(self, "call", &given.type_id) < 0) return NULL;
    return run_call(self, &given, decode_value);
}

#define KEYWORDS METH_VARARGS | METH_KEYWORDS

static PyMethodDef methods[] = {
    {"extrinsic", (PyCFunction)(void (*)(void))metadata_extrinsic, KEYWORDS,
     "extrinsic($self, /, data, *, depth=64, limit=16777216, memory=...)\n--\n\n"
     "Returns an extrinsic as it stands in a block, with its length in front, which places count\n"
     "as well. The arguments and exceptions are those of `decode`, and UnknownName if the metadata\n"
     "doesn't say what extrinsics are."},
    {"call", (PyCFunction)(void (*)(void))metadata_call, KEYWORDS,
     "call($self, /, data, *, depth=64, limit=16777216, memory=...)\n--\n\n"
     "Returns a call of any pallet. The arguments and exceptions are those of `decode`."},
    {0},
};

static PyType_Slot slots[] = {
    {Py_tp_doc, "Metadata(data, *, bits=False)\n--\n\nThe part of metadata that is written in C."},
    {Py_tp_methods, methods},
    {0},
};

static PyType_Spec spec = {
    "scaleview._native.Metadata", 0, 0, Py_TPFLAGS_DEFAULT | Py_TPFLAGS_BASETYPE, slots,
};

int make_metadata_class(PyObject *module) {
    PyObject *bases = PyTuple_Pack(1, state_of(module)->registry_class);
    if (!bases) return -1;
    int code = add_class(module, &state_of(module)->metadata_class, &spec, bases, "Metadata");
    Py_DECREF(bases);
    return code;
}
