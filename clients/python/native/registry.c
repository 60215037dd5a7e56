/* The class of registries. */
#include "native.h"

struct registry {
    PyObject_HEAD
    struct shared *shared; /* NULL once it is closed */
    PyObject *data;        /* the bytes that it was opened from, or NULL once it is closed */
    bool is_metadata;      /* it was opened as metadata */
};

/* Returns a registry's data with a reference of the caller's, or NULL with an exception. */
struct shared *shared_of(PyObject *registry) {
    struct shared *shared = ((struct registry *)registry)->shared;
    if (shared) return retain(shared);
    PyErr_SetString(PyExc_ValueError, "the registry is closed");
    return NULL;
}

/* Takes off what a node answers to a question for metadata of a version: the option's byte and the
 * length, which counts all that follows. */
static void unwrap(struct source *source) {
    scaleview_answer answer;
    if (source->length == 0 || source->bytes[0] != 1) return;
    if (scaleview_opaque(source->bytes + 1, source->length - 1, &answer) != SCALEVIEW_OK) return;
    source->before = 1 + answer.at;
    source->bytes += source->before;
    source->length = (size_t)answer.length;
}

/* Opens what the bytes of a source hold. `metadata` is an object that says whether they are
 * metadata, or None if their first letters do. */
static struct shared *open_source(PyObject *module, PyObject *metadata, struct source *source) {
    bool begins = source->length >= 4 && !memcmp(source->bytes, "meta", 4);
    int is_metadata = metadata == Py_None ? begins : PyObject_IsTrue(metadata);
    if (is_metadata < 0) return NULL;
    if (is_metadata) source->flags |= SCALEVIEW_METADATA;
    if (source->flags & SCALEVIEW_NAMES) unwrap(source);
    return open_shared(module, source);
}

/* Makes the object of an open registry, which takes over the caller's reference to `shared`. */
static PyObject *registry_of(PyTypeObject *class, struct shared *shared, PyObject *data, bool is_metadata) {
    allocfunc alloc = (allocfunc)PyType_GetSlot(class, Py_tp_alloc);
    /* Bytes of a subclass may refer to anything, which no collector would find here. */
    PyObject *kept = PyBytes_CheckExact(data)
                         ? new_ref(data)
                         : PyBytes_FromStringAndSize(PyBytes_AsString(data), PyBytes_Size(data));
    struct registry *self = kept ? (struct registry *)alloc(class, 0) : NULL;
    if (!self) {
        Py_XDECREF(kept);
        release(shared);
        return NULL;
    }
    self->shared = shared;
    self->data = kept;
    self->is_metadata = is_metadata;
    return (PyObject *)self;
}

static PyObject *registry_new(PyTypeObject *class, PyObject *args, PyObject *keywords) {
    static char *names[] = {"data", "metadata", "bits", "_names", NULL};
    PyObject *data, *metadata = Py_None;
    struct source source = {0};
    int has_bits = 0, has_names = 0;
    if (!PyArg_ParseTupleAndKeywords(args, keywords, "O|$Opp:Registry", names, &data, &metadata,
                                     &has_bits, &has_names))
        return NULL;
    source.flags = (has_bits ? SCALEVIEW_BITS : 0) | (has_names ? SCALEVIEW_NAMES : 0);
    PyObject *module = module_of(class);
    if (!module) return NULL;
    struct whose whose = {state_of(module), "registry", -1};
    PyObject *kept = given_bytes(&whose, data, &source.bytes, &source.length);
    struct shared *shared = kept ? open_source(module, metadata, &source) : NULL;
    bool is_metadata = source.flags & SCALEVIEW_METADATA;
    PyObject *self = shared ? registry_of(class, shared, kept, is_metadata) : NULL;
    Py_DECREF(module);
    Py_XDECREF(kept);
    return self;
}

/* Drops what an open registry has. */
static void close_registry(struct registry *registry) {
    struct shared *shared = registry->shared;
    PyObject *data = registry->data;
    registry->shared = NULL;
    registry->data = NULL;
    if (shared) release(shared);
    Py_XDECREF(data);
}

static PyObject *registry_close(PyObject *self, PyObject *unused) {
    (void)unused;
    close_registry((struct registry *)self);
    return new_ref(Py_None);
}

static void registry_dealloc(PyObject *self) {
    PyTypeObject *class = Py_TYPE(self);
    freefunc free_self = (freefunc)PyType_GetSlot(class, Py_tp_free);
    close_registry((struct registry *)self);
    free_self(self);
    Py_DECREF(class);
}

/* Makes a call on a registry, and returns what it returns. */
PyObject *run_call(PyObject *registry, const struct arguments *given, run_of_call *run) {
    struct call call = {shared_of(registry), given->value, given->type_id, given->is_opaque, {0}};
    if (!call.shared) return NULL;
    const struct state *state = call.shared->state;
    int code = given->type ? read_type(state, registry, given->type, &call.type) : 0;
    if (code == 0) code = read_limits(given->depth, given->limit, given->memory, &call.limits);
    PyObject *made = code == 0 ? run(&call) : NULL;
    release(call.shared);
    return made;
}

/* Reads the arguments of a call that decodes values of a type that is known. */
int read_data(struct form *form, PyObject *args, PyObject *keywords, struct arguments *given) {
    if (!keywords && PyTuple_Size(args) == 1) {
        given->value = PyTuple_GetItem(args, 0);
        return 0;
    }
    int is_read = PyArg_ParseTupleAndKeywords(args, keywords, form->format, form->names,
                                              &given->value, &given->depth, &given->limit,
                                              &given->memory, &given->is_opaque);
    return is_read ? 0 : -1;
}

/* Reads the arguments of a call that decodes, and makes it. */
static PyObject *call_by(struct form *form, PyObject *self, PyObject *args, PyObject *keywords,
                         run_of_call *run) {
    struct arguments given = {0};
    if (!keywords && PyTuple_Size(args) == 2) {
        given.type = PyTuple_GetItem(args, 0);
        given.value = PyTuple_GetItem(args, 1);
    } else if (!PyArg_ParseTupleAndKeywords(args, keywords, form->format, form->names, &given.type,
                                            &given.value, &given.depth, &given.limit, &given.memory,
                                            &given.is_opaque)) {
        return NULL;
    }
    return run_call(self, &given, run);
}

static PyObject *registry_decode(PyObject *self, PyObject *args, PyObject *keywords) {
    static struct form form = {
        "OO|$OOOp:decode", {"type", "data", "depth", "limit", "memory", "opaque", NULL},
    };
    return call_by(&form, self, args, keywords, decode_value);
}

static PyObject *registry_decode_prefix(PyObject *self, PyObject *args, PyObject *keywords) {
    static struct form form = {
        "OO|$OOO:decode_prefix", {"type", "data", "depth", "limit", "memory", NULL},
    };
    return call_by(&form, self, args, keywords, decode_front);
}

static PyObject *registry_decode_many(PyObject *self, PyObject *args, PyObject *keywords) {
    static struct form form = {
        "OO|$OOOp:decode_many", {"type", "items", "depth", "limit", "memory", "opaque", NULL},
    };
    return call_by(&form, self, args, keywords, decode_items);
}

static PyObject *registry_decode_json(PyObject *self, PyObject *args, PyObject *keywords) {
    static struct form form = {
        "OO|$OOOp:decode_json", {"type", "data", "depth", "limit", "memory", "opaque", NULL},
    };
    return call_by(&form, self, args, keywords, decode_text);
}

static PyObject *registry_encode(PyObject *self, PyObject *args, PyObject *keywords) {
    static char *names[] = {"type", "value", "depth", "memory", NULL};
    struct arguments given = {0};
    if (!PyArg_ParseTupleAndKeywords(args, keywords, "OO|$OO:encode", names, &given.type,
                                     &given.value, &given.depth, &given.memory))
        return NULL;
    return run_call(self, &given, encode_value);
}

/* Reads a type's number, and returns what a function reports about it. */
static PyObject *describe(PyObject *self, PyObject *number, PyObject *(*report)(struct shared *, uint32_t)) {
    uint32_t type;
    struct shared *shared = shared_of(self);
    if (!shared) return NULL;
    int code = read_type(shared->state, self, number, &type);
    PyObject *made = code == 0 ? report(shared, type) : NULL;
    release(shared);
    return made;
}

static PyObject *registry_shape(PyObject *self, PyObject *number) {
    return describe(self, number, shape_tuple);
}

/* It isn't named `_fields`, by which `help` knows a named tuple, whose private names it lists. */
static PyObject *registry_parts(PyObject *self, PyObject *number) {
    return describe(self, number, fields_list);
}

static PyObject *registry_arms(PyObject *self, PyObject *number) {
    return describe(self, number, arms_list);
}

static PyObject *registry_path(PyObject *self, PyObject *number) {
    return describe(self, number, path_of);
}

static PyObject *registry_line(PyObject *self, PyObject *number) {
    return describe(self, number, line_of);
}

static PyObject *registry_params(PyObject *self, PyObject *number) {
    return describe(self, number, params_list);
}

/* Reads a type's number and the positions of a part of it, and returns what a function reports about that. */
static PyObject *describe_part(PyObject *self, PyObject *args,
                               PyObject *(*report)(struct shared *, uint32_t, uint32_t, uint32_t)) {
    PyObject *number;
    unsigned long arm = SCALEVIEW_NONE, part = SCALEVIEW_NONE;
    uint32_t type;
    if (!PyArg_ParseTuple(args, "O|kk", &number, &arm, &part)) return NULL;
    struct shared *shared = shared_of(self);
    if (!shared) return NULL;
    int code = read_type(shared->state, self, number, &type);
    PyObject *made = code == 0 ? report(shared, type, (uint32_t)arm, (uint32_t)part) : NULL;
    release(shared);
    return made;
}

static PyObject *registry_docs(PyObject *self, PyObject *args) {
    return describe_part(self, args, docs_list);
}

static PyObject *registry_type_name(PyObject *self, PyObject *args) {
    return describe_part(self, args, type_name_of);
}

static PyObject *registry_find(PyObject *self, PyObject *args) {
    PyObject *path;
    unsigned long from = 0;
    if (!PyArg_ParseTuple(args, "U|k:_find", &path, &from)) return NULL;
    struct shared *shared = shared_of(self);
    if (!shared) return NULL;
    PyObject *found = find_path(shared, (uint32_t)from, path);
    release(shared);
    return found;
}

/* Reads a name, and returns what a function reports about it. */
static PyObject *describe_name(PyObject *self, PyObject *args, PyObject *(*report)(struct shared *, PyObject *)) {
    PyObject *name;
    if (!PyArg_ParseTuple(args, "U", &name)) return NULL;
    struct shared *shared = shared_of(self);
    if (!shared) return NULL;
    PyObject *made = report(shared, name);
    release(shared);
    return made;
}

static PyObject *registry_name(PyObject *self, PyObject *args) {
    return describe_name(self, args, find_name);
}

static PyObject *registry_name_bytes(PyObject *self, PyObject *args) {
    return describe_name(self, args, bytes_of_name);
}

static PyObject *registry_name_at(PyObject *self, PyObject *number) {
    uint64_t index;
    if (read_number("index", number, UINT32_MAX, &index) < 0) return NULL;
    struct shared *shared = shared_of(self);
    if (!shared) return NULL;
    PyObject *made = name_at(shared, (uint32_t)index);
    release(shared);
    return made;
}

static PyObject *registry_enter(PyObject *self, PyObject *unused) {
    (void)unused;
    return new_ref(self);
}

static PyObject *registry_exit(PyObject *self, PyObject *args) {
    return registry_close(self, args);
}

static PyObject *get_count(PyObject *self, void *unused) {
    struct shared *shared = shared_of(self);
    (void)unused;
    if (!shared) return NULL;
    PyObject *count = PyLong_FromUnsignedLong(shared->count);
    release(shared);
    return count;
}

static PyObject *get_version(PyObject *self, void *unused) {
    struct shared *shared = shared_of(self);
    (void)unused;
    if (!shared) return NULL;
    PyObject *version = shared->version ? PyLong_FromUnsignedLong(shared->version) : new_ref(Py_None);
    release(shared);
    return version;
}

static PyObject *get_end(PyObject *self, void *unused) {
    struct shared *shared = shared_of(self);
    (void)unused;
    if (!shared) return NULL;
    PyObject *end = PyLong_FromUnsignedLongLong(shared->end);
    release(shared);
    return end;
}

static PyObject *get_closed(PyObject *self, void *unused) {
    (void)unused;
    return PyBool_FromLong(!((struct registry *)self)->shared);
}

/* (the bytes that it was opened from, whether as metadata, whether it reads bit sequences) */
static PyObject *get_source(PyObject *self, void *unused) {
    struct shared *shared = shared_of(self);
    struct registry *registry = (struct registry *)self;
    (void)unused;
    if (!shared) return NULL;
    PyObject *is_metadata = registry->is_metadata ? Py_True : Py_False;
    PyObject *source = PyTuple_Pack(3, registry->data, is_metadata, shared->has_bits ? Py_True : Py_False);
    release(shared);
    return source;
}

static PyGetSetDef getters[] = {
    {"_count", get_count, NULL, NULL, NULL},
    {"_source", get_source, NULL, NULL, NULL},
    {"version", get_version, NULL, "The version of the metadata, 14 or 15, or None for a registry alone.", NULL},
    {"end", get_end, NULL, "Where the registry's own types end, in bytes from the start of the data.", NULL},
    {"closed", get_closed, NULL, "Whether the registry is closed.", NULL},
    {0},
};

#define KEYWORDS METH_VARARGS | METH_KEYWORDS

static PyMethodDef methods[] = {
    {"decode", (PyCFunction)(void (*)(void))registry_decode, KEYWORDS,
     "decode($self, /, type, data, *, depth=64, limit=16777216, memory=..., opaque=False)\n--\n\n"
     "Returns the value of a type that all the bytes spell.\n\n"
     "Args:\n"
     "    type: A Type of this registry, or its position.\n"
     "    data: Bytes, another object with a buffer, or text of hexadecimal digits, with or\n"
     "        without 0x before them.\n"
     "    depth: The greatest depth of a part, up to 1024; the value itself has depth 0.\n"
     "    limit: The greatest number of bytes of the value, up to 2**40.\n"
     "    memory: The most bytes that the library allocates for it, without the Python objects: 64 MiB and 64\n"
     "        times the length of `data` if it isn't given. None or 0 sets no bound.\n"
     "    opaque: Whether the value has its length in front, as an extrinsic has. Places count from there; `limit`\n"
     "        doesn't count the length.\n\n"
     "Raises:\n"
     "    Refused: The value, the type or a limit is rejected, with the reason and the place.\n"
     "    OutOfMemory: An allocation failed, or would have exceeded `memory`.\n"
     "    OverflowError: A number is out of range.\n"
     "    TypeError: `data` has no buffer.\n"
     "    ValueError: The registry is closed."},
    {"decode_json", (PyCFunction)(void (*)(void))registry_decode_json, KEYWORDS,
     "decode_json($self, /, type, data, *, depth=64, limit=16777216, memory=..., opaque=False)\n--\n\n"
     "Returns the value as JSON text. The arguments and exceptions are those of `decode`."},
    {"decode_prefix", (PyCFunction)(void (*)(void))registry_decode_prefix, KEYWORDS,
     "decode_prefix($self, /, type, data, *, depth=64, limit=16777216, memory=...)\n--\n\n"
     "Returns the value that the first bytes spell, and how many bytes it takes.\n\n"
     "What follows the value isn't read. The other arguments and exceptions are those of `decode`."},
    {"decode_many", (PyCFunction)(void (*)(void))registry_decode_many, KEYWORDS,
     "decode_many($self, /, type, items, *, depth=64, limit=16777216, memory=..., opaque=False)\n--\n\n"
     "Returns a list of the values of one type. The other arguments and exceptions are those of `decode`, and\n"
     "hold for each value; `Refused.item` is the position of a rejected one."},
    {"encode", (PyCFunction)(void (*)(void))registry_encode, KEYWORDS,
     "encode($self, /, type, value, *, depth=64, memory=...)\n--\n\n"
     "Returns the bytes of a value, which `decode` turns into an equal value.\n\n"
     "A dict's fields may stand in any order. For a Variant, a pair of its name and fields is accepted; for\n"
     "bytes, any object with a buffer; for a list or a tuple, the other one or another sequence; for a Bits,\n"
     "any sequence of bool. If `memory` isn't given, it is that of `decode` for 16 MiB.\n\n"
     "Raises:\n"
     "    TypeError, ValueError, OverflowError: The value isn't one of the type; the text begins with the path\n"
     "        of the wrong part.\n"
     "    EncodeError: The library rejects a part, such as one that is too deep, with the reason and the path.\n"
     "    Refused: The type is rejected.\n"
     "    OutOfMemory: An allocation failed, or would have exceeded `memory`."},
    {"close", registry_close, METH_NOARGS,
     "close($self, /)\n--\n\n"
     "Closes the registry; a second call does nothing.\n\n"
     "Its decoders stay usable, and its memory is freed with the last of them. A registry that is dropped is\n"
     "closed as well."},
    {"_shape", registry_shape, METH_O, NULL},
    {"_parts", registry_parts, METH_O, NULL},
    {"_arms", registry_arms, METH_O, NULL},
    {"_path", registry_path, METH_O, NULL},
    {"_line", registry_line, METH_O, NULL},
    {"_params", registry_params, METH_O, NULL},
    {"_docs", registry_docs, METH_VARARGS, NULL},
    {"_type_name", registry_type_name, METH_VARARGS, NULL},
    {"_find", registry_find, METH_VARARGS, NULL},
    {"_name", registry_name, METH_VARARGS, NULL},
    {"_name_at", registry_name_at, METH_O, NULL},
    {"_name_bytes", registry_name_bytes, METH_VARARGS, NULL},
    {"__enter__", registry_enter, METH_NOARGS, NULL},
    {"__exit__", registry_exit, METH_VARARGS, NULL},
    {0},
};

static PyType_Slot slots[] = {
    {Py_tp_doc, "Registry(data, *, metadata=None, bits=False)\n--\n\nThe part of a registry that is written in C."},
    {Py_tp_new, registry_new},
    {Py_tp_dealloc, registry_dealloc},
    {Py_tp_methods, methods},
    {Py_tp_getset, getters},
    {0},
};

static PyType_Spec spec = {
    "scaleview._native.Registry", sizeof(struct registry), 0, Py_TPFLAGS_DEFAULT | Py_TPFLAGS_BASETYPE, slots,
};

int make_registry_class(PyObject *module) {
    return add_class(module, &state_of(module)->registry_class, &spec, NULL, "Registry");
}
