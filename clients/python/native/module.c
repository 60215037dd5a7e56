/* The extension module scaleview._native: the proved decoder, with Python's objects in place of nodes. */
#include "native.h"

/* The slots that Python 3.12 added, whose headers don't come with the limited API of 3.8. */
enum { MULTIPLE_INTERPRETERS = 3 };
#define PER_INTERPRETER_LOCK ((void *)2)

enum { BEFORE_3_12, SINCE_3_12, DEFINITIONS };

static struct PyModuleDef definitions[DEFINITIONS];

static bool is_native(PyObject *module) {
    if (!PyModule_Check(module)) return false;
    struct PyModuleDef *its = PyModule_GetDef(module);
    return its == &definitions[BEFORE_3_12] || its == &definitions[SINCE_3_12];
}

/* Returns the module of a class, or of the one that it derives from: PyType_GetModule is too new. */
PyObject *module_of(PyTypeObject *class) {
    PyObject *module = PyObject_GetAttrString((PyObject *)class, "__native__");
    if (!module || is_native(module)) return module;
    Py_DECREF(module);
    PyErr_SetString(PyExc_TypeError, "__native__ has to be the module scaleview._native");
    return NULL;
}

/* Makes a class, of these bases if there are some, and adds it to the module and its state. */
int add_class(PyObject *module, PyTypeObject **made, PyType_Spec *spec, PyObject *bases,
              const char *name) {
    *made = (PyTypeObject *)PyType_FromSpecWithBases(spec, bases);
    if (!*made || PyObject_SetAttrString((PyObject *)*made, "__native__", module) < 0) return -1;
    Py_INCREF(*made);
    return PyModule_AddObject(module, name, (PyObject *)*made);
}

/* Returns the number of the version of Python that runs, or -1 with an exception. */
long version_of_python(void) {
    PyObject *number = PySys_GetObject("hexversion");
    if (number) return PyLong_AsLong(number);
    PyErr_SetString(PyExc_ImportError, "sys has no hexversion");
    return -1;
}

static PyObject *reason(PyObject *module, PyObject *number) {
    uint64_t code;
    (void)module;
    return read_number("code", number, UINT32_MAX, &code) < 0 ? NULL : reason_of((uint32_t)code);
}

static PyObject *after_fork(PyObject *module, PyObject *unused) {
    (void)module;
    (void)unused;
    note_fork();
    return new_ref(Py_None);
}

static PyMethodDef functions[] = {
    {"_after_fork", after_fork, METH_NOARGS, NULL},
    {"reason", reason, METH_O, "reason(code, /)\n--\n\nReturns the library's name of a code."},
    {0},
};

static int check_version(void) {
    uint32_t version = scaleview_version();
    if (version == SCALEVIEW_VERSION) return 0;
    PyErr_Format(PyExc_ImportError,
                 "scaleview was built with the header %u and the library %u: run `bash clients/build`, and install it "
                 "again", SCALEVIEW_VERSION, version);
    return -1;
}

static int execute(PyObject *module) {
    struct state *state = state_of(module);
    if (check_version() < 0 || choose_interning(state) < 0 || import_classes(state) < 0) return -1;
    if (make_variant_class(module) < 0 || make_registry_class(module) < 0) return -1;
    if (make_metadata_class(module) < 0 || make_type_class(module) < 0) return -1;
    if (make_decoder_class(module) < 0) return -1;
    if (PyModule_AddIntConstant(module, "DEPTH", DEPTH) < 0 || PyModule_AddIntConstant(module, "LIMIT", LIMIT) < 0) return -1;
    return PyModule_AddIntConstant(module, "LIBRARY_VERSION", SCALEVIEW_VERSION);
}

/* Python 3.8 visits modules before they have a state. */
static int traverse(PyObject *module, visitproc visit, void *arg) {
    const struct state *state = state_of(module);
    if (!state) return 0;
    Py_VISIT(state->refused_class);
    Py_VISIT(state->unknown_name_class);
    Py_VISIT(state->encode_error_class);
    Py_VISIT(state->out_of_memory_class);
    Py_VISIT(state->empties_class);
    Py_VISIT(state->bits_class);
    Py_VISIT(state->variant_class);
    Py_VISIT(state->registry_class);
    Py_VISIT(state->metadata_class);
    Py_VISIT(state->type_class);
    Py_VISIT(state->decoder_class);
    return 0;
}

static int clear(PyObject *module) {
    struct state *state = state_of(module);
    if (!state) return 0;
    Py_CLEAR(state->refused_class);
    Py_CLEAR(state->unknown_name_class);
    Py_CLEAR(state->encode_error_class);
    Py_CLEAR(state->out_of_memory_class);
    Py_CLEAR(state->empties_class);
    Py_CLEAR(state->bits_class);
    Py_CLEAR(state->variant_class);
    Py_CLEAR(state->registry_class);
    Py_CLEAR(state->metadata_class);
    Py_CLEAR(state->type_class);
    Py_CLEAR(state->decoder_class);
    return 0;
}

static void free_state(void *module) {
    clear(module);
}

static PyModuleDef_Slot old_slots[] = {{Py_mod_exec, execute}, {0}};
static PyModuleDef_Slot slots[] = {
    {Py_mod_exec, execute},
    {MULTIPLE_INTERPRETERS, PER_INTERPRETER_LOCK},
    {0},
};

#define DOC "The part of the package that is written in C."
#define DEFINITION(its_slots) \
    { \
        PyModuleDef_HEAD_INIT, "scaleview._native", DOC, sizeof(struct state), functions, \
            its_slots, traverse, clear, free_state, \
    }

static struct PyModuleDef definitions[DEFINITIONS] = {DEFINITION(old_slots), DEFINITION(slots)};

/* The headers of 3.8 don't export it themselves. */
__attribute__((visibility("default"))) PyMODINIT_FUNC PyInit__native(void);

PyMODINIT_FUNC PyInit__native(void) {
    long version = version_of_python();
    if (version < 0) return NULL;
    return PyModuleDef_Init(&definitions[version >= 0x030c0000 ? SINCE_3_12 : BEFORE_3_12]);
}
