/* The class of variants' values. */
#include "native.h"

struct variant {
    PyObject_HEAD
    PyObject *name, *fields;
    int index; /* the arm's, or NO_INDEX */
};

/* Returns the value of an arm. It takes the reference to the fields. */
PyObject *variant_of(PyTypeObject *class, PyObject *name, PyObject *fields, int index) {
    struct variant *variant = (struct variant *)PyType_GenericAlloc(class, 0);
    if (!variant) {
        Py_DECREF(fields);
        return NULL;
    }
    variant->name = new_ref(name);
    variant->fields = fields;
    variant->index = index;
    return (PyObject *)variant;
}

PyObject *variant_name(PyObject *variant) {
    return ((struct variant *)variant)->name;
}

PyObject *variant_fields(PyObject *variant) {
    return ((struct variant *)variant)->fields;
}

int variant_index(PyObject *variant) {
    return ((struct variant *)variant)->index;
}

static PyObject *variant_new(PyTypeObject *class, PyObject *args, PyObject *keywords) {
    static char *names[] = {"name", "fields", "index", NULL};
    PyObject *name, *fields = NULL, *index = Py_None;
    uint64_t number = 0;
    if (!PyArg_ParseTupleAndKeywords(args, keywords, "U|OO:Variant", names, &name, &fields, &index)) return NULL;
    if (index != Py_None && read_number("index", index, MOST_INDEX, &number) < 0) return NULL;
    /* Their deallocation bounds the use of stack, and they break cycles. */
    if (fields && !PyDict_Check(fields) && !PyList_Check(fields) && !PyTuple_Check(fields)) {
        PyErr_SetString(PyExc_TypeError, "the fields of a Variant have to be a dict, a list or a tuple");
        return NULL;
    }
    fields = fields ? new_ref(fields) : PyList_New(0);
    return fields ? variant_of(class, name, fields, index == Py_None ? NO_INDEX : (int)number) : NULL;
}

/* It doesn't visit the class, which the module keeps. */
static int variant_traverse(PyObject *self, visitproc visit, void *arg) {
    Py_VISIT(((struct variant *)self)->name);
    Py_VISIT(((struct variant *)self)->fields);
    return 0;
}

static void variant_dealloc(PyObject *self) {
    PyTypeObject *class = Py_TYPE(self);
    struct variant *variant = (struct variant *)self;
    PyObject_GC_UnTrack(self);
    Py_XDECREF(variant->name);
    Py_XDECREF(variant->fields);
    PyObject_GC_Del(self);
    Py_DECREF(class);
}

/* Like PyObject_RichCompareBool in variant_compare, PyObject_Repr counts the levels of recursion: Py_EnterRecursiveCall is too
 * new. The fields come first, since PyUnicode_FromFormat would take much stack on each level. */
static PyObject *variant_repr(PyObject *self) {
    PyObject *name = variant_name(self), *fields = PyObject_Repr(variant_fields(self)), *made;
    int index = variant_index(self);
    if (!fields) return NULL;
    if (index == NO_INDEX)
        made = PyUnicode_FromFormat("Variant(%R, %U)", name, fields);
    else
        made = PyUnicode_FromFormat("Variant(%R, %U, index=%d)", name, fields, index);
    Py_DECREF(fields);
    return made;
}

/* The index isn't compared, so that a Variant that a program makes equals a decoded one. */
static PyObject *variant_compare(PyObject *self, PyObject *other, int how) {
    if (Py_TYPE(other) != Py_TYPE(self) || (how != Py_EQ && how != Py_NE)) return new_ref(Py_NotImplemented);
    int is_same = PyObject_RichCompareBool(variant_name(self), variant_name(other), Py_EQ);
    if (is_same > 0) is_same = PyObject_RichCompareBool(variant_fields(self), variant_fields(other), Py_EQ);
    return is_same < 0 ? NULL : PyBool_FromLong(is_same == (how == Py_EQ));
}

static PyObject *get_index(PyObject *self, void *unused) {
    int index = variant_index(self);
    (void)unused;
    return index == NO_INDEX ? new_ref(Py_None) : PyLong_FromLong(index);
}

static PyObject *variant_reduce(PyObject *self, PyObject *unused) {
    (void)unused;
    return Py_BuildValue("(O(OON))", Py_TYPE(self), variant_name(self), variant_fields(self), get_index(self, NULL));
}

static PyMemberDef members[] = {
    {"name", T_OBJECT_EX, offsetof(struct variant, name), READONLY, "The arm's name."},
    {"fields", T_OBJECT_EX, offsetof(struct variant, fields), READONLY, "The arm's fields: a dict or a list."},
    {0},
};

static PyGetSetDef getters[] = {
    {"index", get_index, NULL, "The arm's index, the first byte of its values, or None if it wasn't given.", NULL},
    {0},
};

static PyMethodDef methods[] = {{"__reduce__", variant_reduce, METH_NOARGS, NULL}, {0}};

static PyType_Slot slots[] = {
    {Py_tp_doc, "Variant(name, fields=[], index=None)\n--\n\n"
                "A variant's value: the name of its arm, the arm's fields, and the arm's index.\n\n"
                "The fields are a dict in field order if all have names, which differ, and otherwise a\n"
                "list. A decoded Variant has the index, by which `encode` finds the arm; without it, `encode`\n"
                "goes by the name and the fields. Name and fields are compared, and the index isn't, so that\n"
                "a Variant made without it equals a decoded one. A Variant isn't hashable."},
    {Py_tp_new, variant_new},
    {Py_tp_dealloc, variant_dealloc},
    {Py_tp_traverse, variant_traverse},
    {Py_tp_repr, variant_repr},
    {Py_tp_richcompare, variant_compare},
    {Py_tp_members, members},
    {Py_tp_getset, getters},
    {Py_tp_methods, methods},
    {0},
};

static PyType_Spec spec = {"scaleview.Variant", sizeof(struct variant), 0, Py_TPFLAGS_DEFAULT | Py_TPFLAGS_HAVE_GC, slots};

int make_variant_class(PyObject *module) {
    PyTypeObject **class = &state_of(module)->variant_class;
    if (add_class(module, class, &spec, NULL, "Variant") < 0) return -1;
    PyObject *names = Py_BuildValue("(ss)", "name", "fields");
    int code = names ? PyObject_SetAttrString((PyObject *)*class, "__match_args__", names) : -1;
    Py_XDECREF(names);
    return code;
}
