/* What the parts of the extension module share. Each interpreter has a module with classes and
 * registries of its own. All functions need the interpreter's lock, which also guards this data: a
 * module for the limited API isn't loaded by a Python without one. */
#ifndef NATIVE_H
#define NATIVE_H
#define PY_SSIZE_T_CLEAN
#ifndef Py_LIMITED_API
#define Py_LIMITED_API 0x03080000
#endif
#include <Python.h>
#include "scaleview.h"
#include <pythread.h>
#include <stdlib.h>
#include <string.h>
#include <structmember.h>

enum {
    DEPTH = 64,             /* the depth where no other is named */
    MOST_DEPTH = 1024,      /* the greatest depth that the library takes */
    LIMIT = 1 << 24,        /* the limit of bytes where no other is named */
    MEMORY = 1 << 26,       /* the budget of memory where no other is named, for an empty input */
    MEMORY_OF_A_BYTE = 64,  /* what each byte of the input adds to it */
    LONG_INPUT = 1 << 12,   /* calls on this many bytes release the GIL */
    LONG_VALUE = 1 << 18,   /* values of this many bytes are decoded in pieces */
    KEPT_SCRATCH = 1 << 20, /* scratch memory above this many bytes is freed after a call */
    MOST_INDEX = 255,       /* the greatest index of an arm */
    NO_INDEX = -1,          /* a Variant that was made without an index */
    NO_CODE = 0,            /* a refusal that isn't the library's */
};

/* The state of a module: what its interpreter has. */
struct state {
    PyObject *refused_class, *unknown_name_class, *encode_error_class, *out_of_memory_class;
    PyObject *empties_class, *bits_class;
    PyTypeObject *variant_class, *registry_class, *metadata_class, *type_class, *decoder_class;
    bool interns; /* names of types are interned */
};

/* The fields of a composite or of an arm, or the members of a tuple. */
struct fields {
    uint32_t count;
    bool are_named;   /* all have names, which differ, and there is at least one */
    PyObject **names; /* NULL for a field without a name */
    uint32_t *types;
};

/* An arm of a variant. */
struct arm {
    PyObject *name;
    uint32_t index;
    bool is_shadowed; /* an earlier arm has its index */
    struct fields fields;
};

/* Where the bits of a bit sequence stand in its words. */
struct bit_form {
    uint32_t width; /* the number of a word's bits, or 0 if the registry doesn't read the values */
    bool is_msb0;   /* the first bit of a word is the one of the highest value */
};

/* What the registry says about a type, read when it is first asked for. */
struct type_info {
    scaleview_type_shape shape;
    struct fields fields;
    struct arm *arms;
    PyObject *arm_positions; /* a dict by name of the first arms that aren't shadowed */
    uint32_t *arms_by_index; /* of a variant, the position of the first arm of each index, or NO_ARM */
    uint32_t target;         /* the primitive that a compact wraps, or NO_TARGET */
    struct bit_form form;    /* of a bit sequence */
};

#define NO_TARGET UINT32_MAX
#define NO_ARM UINT32_MAX

/* A thread that waits for its turn on a registry. */
struct waiter {
    PyThread_type_lock lock;
    bool writes;
    struct waiter *next;
};

/* A session's handle. */
struct held {
    scaleview_session session;
    struct held *next;
};

/* Memory for the nodes and bytes of a call. */
struct scratch {
    scaleview_node *nodes;
    size_t node_room;
    uint8_t *bytes;
    size_t byte_room;
};

/* An open registry. The Registry object, each Decoder and each call under way hold a reference. */
struct shared {
    scaleview_registry registry;
    PyObject *module; /* which keeps the state */
    const struct state *state;
    size_t references;
    uint32_t count, version;
    bool has_bits; /* it reads values of bit sequences */
    uint64_t end;
    struct type_info **infos; /* one for each type, or NULL */
    struct scratch scratch;
    /* The calls under way: any number that read, or one that writes. The others wait, first come, first served. */
    size_t readers;
    bool is_written;
    bool is_torn;   /* the process was forked during a call that wrote, so no session may be used */
    unsigned forks; /* how often the process had been forked when a call last began */
    struct waiter *first, *last;
    /* Sessions of decoders that are gone, which are freed as soon as no call is under way. */
    struct held *dropped;
};

#if PY_VERSION_HEX < 0x030c0000
/* The headers before 3.12 count the references of all objects. Since 3.12 interpreters with locks of
 * their own share some, whose counts are negative as 32 bits, and which nobody may write. */
static inline bool is_immortal(const PyObject *object) {
    return (int32_t)object->ob_refcnt < 0;
}

static inline void count_reference(PyObject *object) {
    if (!is_immortal(object)) object->ob_refcnt++;
}

static inline void drop_reference(PyObject *object) {
    if (!is_immortal(object) && --object->ob_refcnt == 0) _Py_Dealloc(object);
}

static inline void drop_any_reference(PyObject *object) {
    if (object) drop_reference(object);
}

#undef Py_INCREF
#undef Py_DECREF
#undef Py_XDECREF
#define Py_INCREF(object) count_reference((PyObject *)(object))
#define Py_DECREF(object) drop_reference((PyObject *)(object))
#define Py_XDECREF(object) drop_any_reference((PyObject *)(object))
#endif

static inline PyObject *new_ref(PyObject *object) {
    Py_INCREF(object);
    return object;
}

/* Whether a node has no children of its own. */
static inline bool is_leaf(const scaleview_node *node) {
    return node->kind < SCALEVIEW_NODE_FIELDS || node->kind == SCALEVIEW_NODE_BITS;
}

/* The number of bytes of the words of so many bits. */
static inline uint64_t bytes_of_bits(struct bit_form form, uint64_t count) {
    return form.width / 8 * ((count + form.width - 1) / form.width);
}

/* The place of a bit in the bytes of the words, eight for each. The lowest byte of a word is the first, so with Lsb0 the
 * width makes no difference. With Msb0 the bits of a word are reversed: their number is a power of two. */
static inline uint64_t place_of_bit(struct bit_form form, uint64_t bit) {
    return form.is_msb0 ? bit ^ (form.width - 1) : bit;
}

/* The depth and the limits of a call. */
struct limits {
    uint16_t depth;
    bool has_memory; /* the caller names `memory`, which is 0 for no budget */
    uint64_t limit, memory;
};

/* The arguments of a call on a registry. */
struct call {
    struct shared *shared;
    PyObject *value; /* borrowed */
    uint32_t type;
    bool is_opaque; /* the value has its length in front */
    struct limits limits;
};

/* What a program gives for a call: NULL where it gives nothing. */
struct arguments {
    PyObject *type, *value, *depth, *limit, *memory; /* borrowed */
    uint32_t type_id;                                /* the type's position if `type` is NULL */
    int is_opaque;
};

/* How the arguments of a call that decodes are given. */
struct form {
    const char *format;
    char *names[7];
};

typedef PyObject *run_of_call(const struct call *call);

/* The bytes that a registry is opened from. */
struct source {
    const uint8_t *bytes;
    size_t length;
    uint64_t before; /* the number of bytes before them, which places count as well */
    uint32_t flags;
};

/* What bytes are given for: a part that is rejected by this name, and an item of several, or -1. */
struct whose {
    const struct state *state;
    const char *part;
    Py_ssize_t item;
};

/* The bytes of a value, and what it may take. */
struct input {
    const struct call *call;
    const uint8_t *bytes; /* NULL if each piece is copied from the view */
    PyObject *view;
    size_t length;
    Py_ssize_t item; /* its position among several, or -1 */
    uint64_t memory; /* the budget, or 0 for none */
    bool is_front;   /* other bytes may follow the value */
    uint64_t before; /* the number of bytes before the value, which places count as well */
};

/* shared.c: registries, turns and memory. */
struct shared *open_shared(PyObject *module, const struct source *source);
struct shared *retain(struct shared *shared);
void release(struct shared *shared);
void enter(struct shared *shared, bool writes);
void leave(struct shared *shared);
void note_fork(void);
bool is_torn(struct shared *shared);
void drop(struct shared *shared, struct held *held);
struct scratch take_scratch(struct shared *shared);
void give_scratch(struct shared *shared, struct scratch scratch);
int make_room(struct scratch *scratch, size_t nodes, size_t bytes);
uint32_t with_stack(uint16_t depth, uint32_t (*call)(void *), void *context);

/* errors.c: exceptions. */
int import_classes(struct state *state);
void raise_answer(const struct state *state, const scaleview_answer *answer, uint32_t type, Py_ssize_t item, uint64_t memory);
void raise_unopened(const struct state *state, const scaleview_answer *answer, uint64_t before);
void raise_wrong_text(const struct whose *whose, const char *reason, size_t place);
void raise_name(const struct state *state, const scaleview_answer *answer, PyObject *name);
int fail_input(const struct input *input, const scaleview_answer *answer);
void raise_rejected_node(const struct state *state, const scaleview_answer *answer, PyObject *path);
void raise_out_of_memory(const struct state *state, uint64_t memory);
void raise_over_budget(const struct state *state, uint64_t memory);
PyObject *reason_of(uint32_t code);

/* error_path.c: where in a value its bytes are rejected. */
PyObject *path_of_error(const struct input *input, const scaleview_answer *answer);

/* arguments.c: numbers, types, limits and bytes. */
int read_number(const char *name, PyObject *object, uint64_t most, uint64_t *number);
int read_type(const struct state *state, PyObject *registry, PyObject *object, uint32_t *type);
int read_limits(PyObject *depth, PyObject *limit, PyObject *memory, struct limits *limits);
uint64_t budget_of(const struct limits *limits, uint64_t length);
PyObject *view_of(PyObject *data);
PyObject *bytes_of(PyObject *data, const uint8_t **bytes, size_t *length);
PyObject *given_bytes(const struct whose *whose, PyObject *data, const uint8_t **bytes,
                      size_t *length);

/* types.c: what a registry says about its types. */
extern const char *const primitive_names[15];
int choose_interning(struct state *state);
const struct type_info *info_of(struct shared *shared, uint32_t type);
void free_info(struct type_info *info);
PyObject *shape_tuple(struct shared *shared, uint32_t type);
PyObject *fields_list(struct shared *shared, uint32_t type);
PyObject *arms_list(struct shared *shared, uint32_t type);
PyObject *params_list(struct shared *shared, uint32_t type);
PyObject *docs_list(struct shared *shared, uint32_t type, uint32_t arm, uint32_t part);
PyObject *type_name_of(struct shared *shared, uint32_t type, uint32_t arm, uint32_t part);
PyObject *path_of(struct shared *shared, uint32_t type);
PyObject *line_of(struct shared *shared, uint32_t type);
PyObject *find_path(struct shared *shared, uint32_t from, PyObject *path);

/* names.c: what metadata names. */
PyObject *find_name(struct shared *shared, PyObject *name);
PyObject *name_at(struct shared *shared, uint32_t index);
PyObject *bytes_of_name(struct shared *shared, PyObject *name);

/* variant.c: the class of variants' values. */
int make_variant_class(PyObject *module);
PyObject *variant_of(PyTypeObject *class, PyObject *name, PyObject *fields, int index);
PyObject *variant_name(PyObject *variant);
PyObject *variant_fields(PyObject *variant);
int variant_index(PyObject *variant);

/* pieces.c: sessions, and values decoded in pieces. */
void raise_torn(void);
struct held *start_session(const struct call *call, uint64_t memory, Py_ssize_t item);
PyObject *decode_pieces(const struct input *input, size_t *used);

/* decode.c: values of bytes, and their text. */
run_of_call decode_value, decode_front, decode_items, decode_text;

/* values.c: values of nodes. */
PyObject *value_of(struct shared *shared, const scaleview_node *nodes, size_t count, const uint8_t *pool);

/* encode.c: nodes of values. */
run_of_call encode_value;

/* The other classes, each in the file of its name. */
int make_registry_class(PyObject *module);
int make_metadata_class(PyObject *module);
int make_type_class(PyObject *module);
int make_decoder_class(PyObject *module);
struct shared *shared_of(PyObject *registry);
int read_data(struct form *form, PyObject *args, PyObject *keywords, struct arguments *given);
PyObject *run_call(PyObject *registry, const struct arguments *given, run_of_call *run);
PyObject *registry_of_type(PyObject *type);
uint32_t id_of_type(PyObject *type);

/* module.c: the module and its state. */
long version_of_python(void);
PyObject *module_of(PyTypeObject *class);
int add_class(PyObject *module, PyTypeObject **made, PyType_Spec *spec, PyObject *bases,
              const char *name);

static inline struct state *state_of(PyObject *module) {
    return PyModule_GetState(module);
}

#endif
