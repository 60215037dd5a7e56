/* The class of types, which decode and encode their values. */
#include "native.h"

struct type {
    PyObject_HEAD
    PyObject *registry;
    uint32_t id;
};

PyObject *registry_of_type(PyObject *type) {
    return ((struct type *)type)->registry;
}

uint32_t id_of_type(PyObject *type) {
    return ((struct type *)type)->id;
}

static PyObject *type_new(PyTypeObject *class, PyObject *args, PyObject *keywords) {
    static char *names[] = {"registry", "type_id", NULL};
    PyObject *registry, *position, *module = module_of(class);
    uint64_t number;
    if (!module) return NULL;
    PyTypeObject *owner = state_of(module)->registry_class;
    int is_read = PyArg_ParseTupleAndKeywords(args, keywords, "O!O:Type", names, owner, &registry,
                                              &position);
    Py_DECREF(module);
    if (!is_read || read_number("type", position, UINT32_MAX, &number) < 0) return NULL;
    allocfunc alloc = (allocfunc)PyType_GetSlot(class, Py_tp_alloc);
    struct type *self = (struct type *)alloc(class, 0);
    if (!self) return NULL;
    self->registry = new_ref(registry);
    self->id = (uint32_t)number;
    return (PyObject *)self;
}

/* It doesn't visit the class, which the module keeps. */
static int type_traverse(PyObject *self, visitproc visit, void *arg) {
    Py_VISIT(registry_of_type(self));
    return 0;
}

static void type_dealloc(PyObject *self) {
    PyTypeObject *class = Py_TYPE(self);
    freefunc free_self = (freefunc)PyType_GetSlot(class, Py_tp_free);
    PyObject_GC_UnTrack(self);
    Py_XDECREF(registry_of_type(self));
    free_self(self);
    Py_DECREF(class);
}

static PyObject *type_decode(PyObject *self, PyObject *args, PyObject *keywords) {
    static struct form form = {
        "O|$OOOp:decode", {"data", "depth", "limit", "memory", "opaque", NULL},
    };
    struct arguments given = {.type_id = id_of_type(self)};
    if (read_data(&form, args, keywords, &given) < 0) return NULL;
    return run_call(registry_of_type(self), &given, decode_value);
}

static PyObject *type_encode(PyObject *self, PyObject *args, PyObject *keywords) {
    static char *names[] = {"value", "depth", "memory", NULL};
    struct arguments given = {.type_id = id_of_type(self)};
    if (!PyArg_ParseTupleAndKeywords(args, keywords, "O|$OO:encode", names, &given.value,
                                     &given.depth, &given.memory))
        return NULL;
    return run_call(registry_of_type(self), &given, encode_value);
}

static PyObject *type_index(PyObject *self) {
    return PyLong_FromUnsignedLong(id_of_type(self));
}

static PyMemberDef members[] = {
    {"registry", T_OBJECT_EX, offsetof(struct type, registry), READONLY,
     "The registry that it belongs to."},
    {"id", T_UINT, offsetof(struct type, id), READONLY, "Its position in the registry."},
    {0},
};

#define KEYWORDS METH_VARARGS | METH_KEYWORDS

static PyMethodDef methods[] = {
    {"decode", (PyCFunction)(void (*)(void))type_decode, KEYWORDS,
     "decode($self, /, data, *, depth=64, limit=16777216, memory=..., opaque=False)\n--\n\n"
     "Returns the value that all the bytes spell. The arguments and exceptions are those of\n"
     "Registry.decode."},
    {"encode", (PyCFunction)(void (*)(void))type_encode, KEYWORDS,
     "encode($self, /, value, *, depth=64, memory=...)\n--\n\n"
     "Returns the bytes of a value. The arguments and exceptions are those of Registry.encode."},
    {0},
};

static PyType_Slot slots[] = {
    {Py_tp_doc, "Type(registry, type_id)\n--\n\nThe part of a type that is written in C."},
    {Py_tp_new, type_new},
    {Py_tp_dealloc, type_dealloc},
    {Py_tp_traverse, type_traverse},
    {Py_tp_methods, methods},
    {Py_tp_members, members},
    {Py_nb_index, type_index},
    {0},
};

static PyType_Spec spec = {
    "scaleview._native.Type", sizeof(struct type), 0,
    Py_TPFLAGS_DEFAULT | Py_TPFLAGS_BASETYPE | Py_TPFLAGS_HAVE_GC, slots,
};

int make_type_class(PyObject *module) {
    return add_class(module, &state_of(module)->type_class, &spec, NULL, "Type");
}
