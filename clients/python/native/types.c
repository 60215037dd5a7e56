/* What a registry says about its types. */
#include "native.h"

const char *const primitive_names[15] = {
    "bool", "char", "str", "u8", "u16", "u32", "u64", "u128", "u256", "i8", "i16", "i32", "i64", "i128", "i256",
};
static const char *const kind_names[] = {
    "composite", "variant", "sequence", "array", "tuple", "primitive", "compact", "bitsequence",
};
static const char *const class_names[] = {"NoValue", "Empty", "Sized"};

enum { SHORT_TEXT = 256, INTERNED = 64 };

/* Finds out whether names are interned, so that they are the keys that programs spell. Python 3.12
 * would not free them. */
int choose_interning(struct state *state) {
    long version = version_of_python();
    state->interns = version >> 16 != 0x030c;
    return version < 0 ? -1 : 0;
}

/* A text of the registry, which is of a type, of one of its arms, or of a field of either. */
struct text_of {
    uint32_t (*read)(const struct text_of *text, uint8_t *out, size_t room, scaleview_answer *answer);
    struct shared *shared;
    uint32_t type, arm, part;
    uint32_t line; /* of a documentation */
    bool may_lack; /* there need not be such a part */
};

static uint32_t read_part(const struct text_of *text, uint8_t *out, size_t room, scaleview_answer *answer) {
    return scaleview_part(text->shared->registry, text->type, text->part, out, room, answer);
}

static uint32_t read_arm(const struct text_of *text, uint8_t *out, size_t room, scaleview_answer *answer) {
    return scaleview_arm(text->shared->registry, text->type, text->arm, out, room, answer);
}

static uint32_t read_arm_field(const struct text_of *text, uint8_t *out, size_t room, scaleview_answer *answer) {
    return scaleview_arm_field(text->shared->registry, text->type, text->arm, text->part, out, room, answer);
}

static uint32_t read_path(const struct text_of *text, uint8_t *out, size_t room, scaleview_answer *answer) {
    return scaleview_path(text->shared->registry, text->type, out, room, answer);
}

static uint32_t read_line(const struct text_of *text, uint8_t *out, size_t room, scaleview_answer *answer) {
    return scaleview_type_line(text->shared->registry, text->type, out, room, answer);
}

static uint32_t read_param(const struct text_of *text, uint8_t *out, size_t room, scaleview_answer *answer) {
    return scaleview_param(text->shared->registry, text->type, text->part, out, room, answer);
}

static uint32_t read_type_name(const struct text_of *text, uint8_t *out, size_t room, scaleview_answer *answer) {
    return scaleview_type_name(text->shared->registry, text->type, text->arm, text->part, out, room, answer);
}

static uint32_t read_docs_line(const struct text_of *text, uint8_t *out, size_t room, scaleview_answer *answer) {
    return scaleview_docs(text->shared->registry, text->type, text->arm, text->part, text->line, out, room, answer);
}

/* Returns a text, and what else the call reports in `answer`. NULL without an exception is a part that may lack and does. */
static PyObject *read_text(const struct text_of *text, scaleview_answer *answer) {
    uint8_t few[SHORT_TEXT], *out = few, *many = NULL;
    size_t room = sizeof few;
    PyObject *made = NULL;
    for (;;) {
        enter(text->shared, false);
        uint32_t code = text->read(text, out, room, answer);
        leave(text->shared);
        if (code != SCALEVIEW_NO_ROOM) break;
        free(many);
        room = (size_t)answer->length;
        out = many = malloc(room);
        if (!many) return PyErr_NoMemory();
    }
    if (answer->code == SCALEVIEW_OK)
        made = PyUnicode_FromStringAndSize((const char *)out, (Py_ssize_t)answer->length);
    else if (!text->may_lack || answer->code != SCALEVIEW_UNKNOWN_PART)
        raise_answer(text->shared->state, answer, text->type, -1, 0);
    free(many);
    bool is_interned = text->shared->state->interns && answer->length <= INTERNED;
    if (made && is_interned) PyUnicode_InternInPlace(&made);
    return made;
}

static int are_distinct(const struct fields *fields) {
    if (fields->count == 1) return 1;
    PyObject *set = PySet_New(NULL);
    if (!set) return -1;
    int is_added = 0;
    for (uint32_t i = 0; i < fields->count && is_added == 0; i++) is_added = PySet_Add(set, fields->names[i]);
    int found = is_added < 0 ? -1 : PySet_Size(set) == (Py_ssize_t)fields->count;
    Py_DECREF(set);
    return found;
}

static int read_fields(struct text_of text, uint32_t count, struct fields *fields) {
    fields->names = calloc((size_t)count + 1, sizeof *fields->names);
    fields->types = calloc((size_t)count + 1, sizeof *fields->types);
    if (!fields->names || !fields->types) {
        PyErr_NoMemory();
        return -1;
    }
    bool are_named = count > 0;
    for (text.part = 0; text.part < count; text.part++) {
        scaleview_answer answer;
        PyObject *name = read_text(&text, &answer);
        if (!name) return -1;
        fields->types[text.part] = answer.from;
        if (answer.at == 1) {
            fields->names[text.part] = name;
        } else {
            Py_DECREF(name);
            are_named = false;
        }
        fields->count = text.part + 1;
    }
    int is_distinct = are_named ? are_distinct(fields) : 0;
    fields->are_named = is_distinct > 0;
    return is_distinct < 0 ? -1 : 0;
}

static void free_fields(struct fields *fields) {
    for (uint32_t i = 0; i < fields->count; i++) Py_XDECREF(fields->names[i]);
    free(fields->names);
    free(fields->types);
}

void free_info(struct type_info *info) {
    if (!info) return;
    free_fields(&info->fields);
    for (uint32_t i = 0; info->arms && i < info->shape.parts; i++) {
        Py_XDECREF(info->arms[i].name);
        free_fields(&info->arms[i].fields);
    }
    free(info->arms);
    free(info->arms_by_index);
    Py_XDECREF(info->arm_positions);
    free(info);
}

static int read_arm_positions(struct type_info *info) {
    info->arm_positions = PyDict_New();
    info->arms_by_index = malloc((MOST_INDEX + 1) * sizeof *info->arms_by_index);
    if (!info->arms_by_index) PyErr_NoMemory();
    if (!info->arm_positions || !info->arms_by_index) return -1;
    for (size_t index = 0; index <= MOST_INDEX; index++) info->arms_by_index[index] = NO_ARM;
    for (uint32_t i = 0; i < info->shape.parts; i++) {
        struct arm *arm = &info->arms[i];
        uint32_t *first = &info->arms_by_index[arm->index & MOST_INDEX];
        arm->is_shadowed = *first != NO_ARM;
        if (arm->is_shadowed) continue;
        *first = i;
        if (PyDict_GetItemWithError(info->arm_positions, arm->name)) continue;
        PyObject *position = PyErr_Occurred() ? NULL : PyLong_FromUnsignedLong(i);
        int code = position ? PyDict_SetItem(info->arm_positions, arm->name, position) : -1;
        Py_XDECREF(position);
        if (code < 0) return -1;
    }
    return 0;
}

static int read_arms(struct shared *shared, uint32_t type, struct type_info *info) {
    info->arms = calloc((size_t)info->shape.parts + 1, sizeof *info->arms);
    if (!info->arms) {
        PyErr_NoMemory();
        return -1;
    }
    for (uint32_t i = 0; i < info->shape.parts; i++) {
        scaleview_answer answer;
        struct arm *arm = &info->arms[i];
        struct text_of text = {read_arm, shared, type, i, 0, 0, false};
        arm->name = read_text(&text, &answer);
        if (!arm->name) return -1;
        arm->index = answer.from;
        text.read = read_arm_field;
        if (read_fields(text, (uint32_t)answer.at, &arm->fields) < 0) return -1;
    }
    return read_arm_positions(info);
}

static uint32_t read_shape(struct shared *shared, uint32_t type, scaleview_type_shape *shape) {
    scaleview_answer answer;
    enter(shared, false);
    scaleview_type(shared->registry, type, shape, &answer);
    leave(shared);
    if (answer.code != SCALEVIEW_OK) raise_answer(shared->state, &answer, type, -1, 0);
    return answer.code;
}

/* Finds the primitive that a compact wraps, through composites of one field and tuples of one member. */
static int read_target(struct shared *shared, struct type_info *info) {
    scaleview_type_shape shape = info->shape;
    uint32_t type = info->shape.element;
    for (uint32_t steps = 0; steps <= shared->count; steps++) {
        scaleview_answer answer;
        if (read_shape(shared, type, &shape) != SCALEVIEW_OK) return -1;
        if (shape.kind == SCALEVIEW_PRIMITIVE) {
            bool is_unsigned = shape.primitive >= SCALEVIEW_U8 && shape.primitive <= SCALEVIEW_U128;
            info->target = is_unsigned ? shape.primitive : NO_TARGET;
            return 0;
        }
        if ((shape.kind != SCALEVIEW_COMPOSITE && shape.kind != SCALEVIEW_TUPLE) || shape.parts != 1) break;
        struct text_of text = {read_part, shared, type, 0, 0, 0, false};
        PyObject *name = read_text(&text, &answer);
        Py_XDECREF(name);
        if (!name) return -1;
        type = answer.from;
    }
    info->target = NO_TARGET;
    return 0;
}

static bool is_last_segment(const char *path, size_t length, const char *segment) {
    size_t its = strlen(segment);
    if (length < its || memcmp(path + length - its, segment, its)) return false;
    return length == its || (length >= its + 2 && !memcmp(path + length - its - 2, "::", 2));
}

/* Reads the order of a bit sequence of this width. Of another order the form stays 0. */
static int read_order(struct shared *shared, uint32_t order, uint32_t width, struct bit_form *form) {
    scaleview_type_shape shape;
    if (read_shape(shared, order, &shape) != SCALEVIEW_OK) return -1;
    if (shape.kind != SCALEVIEW_COMPOSITE || shape.parts > 0) return 0;
    PyObject *text = path_of(shared, order), *bytes = text ? PyUnicode_AsUTF8String(text) : NULL;
    Py_XDECREF(text);
    if (!bytes) return -1;
    const char *path = PyBytes_AsString(bytes);
    size_t length = (size_t)PyBytes_Size(bytes);
    form->is_msb0 = is_last_segment(path, length, "Msb0");
    if (form->is_msb0 || is_last_segment(path, length, "Lsb0")) form->width = width;
    Py_DECREF(bytes);
    return 0;
}

/* Reads where the bits of a bit sequence stand, if the library reads its values. Its store and its order need not exist. */
static int read_bit_form(struct shared *shared, struct type_info *info) {
    uint32_t store = info->shape.element, order = info->shape.order;
    scaleview_type_shape shape;
    if (!shared->has_bits || store >= shared->count || order >= shared->count) return 0;
    if (read_shape(shared, store, &shape) != SCALEVIEW_OK) return -1;
    if (shape.kind != SCALEVIEW_PRIMITIVE || shape.primitive < SCALEVIEW_U8 || shape.primitive > SCALEVIEW_U64) return 0;
    return read_order(shared, order, 8u << (shape.primitive - SCALEVIEW_U8), &info->form);
}

static int read_info(struct shared *shared, uint32_t type, struct type_info *info) {
    info->target = NO_TARGET;
    if (read_shape(shared, type, &info->shape) != SCALEVIEW_OK) return -1;
    switch (info->shape.kind) {
    case SCALEVIEW_COMPOSITE:
    case SCALEVIEW_TUPLE:
        return read_fields((struct text_of){read_part, shared, type, 0, 0, 0, false}, info->shape.parts, &info->fields);
    case SCALEVIEW_VARIANT: return read_arms(shared, type, info);
    case SCALEVIEW_COMPACT: return read_target(shared, info);
    case SCALEVIEW_BIT_SEQUENCE: return read_bit_form(shared, info);
    default: return 0;
    }
}

/* Returns what the registry says about a type, which is kept as long as the registry, or NULL with an exception. */
const struct type_info *info_of(struct shared *shared, uint32_t type) {
    if (type < shared->count && shared->infos[type]) return shared->infos[type];
    struct type_info *info = calloc(1, sizeof *info);
    if (!info) return (struct type_info *)PyErr_NoMemory();
    if (read_info(shared, type, info) < 0) {
        free_info(info);
        return NULL;
    }
    /* Another thread may have read it meanwhile, and may use what it has read. */
    if (shared->infos[type])
        free_info(info);
    else
        shared->infos[type] = info;
    return shared->infos[type];
}

/* (kind, class, element or None, order or None, length or None) */
PyObject *shape_tuple(struct shared *shared, uint32_t type) {
    scaleview_type_shape shape;
    if (read_shape(shared, type, &shape) != SCALEVIEW_OK) return NULL;
    bool is_array = shape.kind == SCALEVIEW_ARRAY, is_bits = shape.kind == SCALEVIEW_BIT_SEQUENCE;
    bool has_element = is_array || is_bits || shape.kind == SCALEVIEW_SEQUENCE || shape.kind == SCALEVIEW_COMPACT;
    const char *kind = shape.kind == SCALEVIEW_PRIMITIVE ? primitive_names[shape.primitive] : kind_names[shape.kind];
    return Py_BuildValue("(ssNNN)", kind, class_names[shape.value_class],
                         has_element ? PyLong_FromUnsignedLong(shape.element) : new_ref(Py_None),
                         is_bits ? PyLong_FromUnsignedLong(shape.order) : new_ref(Py_None),
                         is_array ? PyLong_FromUnsignedLong(shape.length) : new_ref(Py_None));
}

static PyObject *list_of(const struct fields *fields) {
    PyObject *list = PyList_New(0);
    for (uint32_t i = 0; list && i < fields->count; i++) {
        PyObject *name = fields->names[i] ? fields->names[i] : Py_None;
        PyObject *pair = Py_BuildValue("(Ok)", name, (unsigned long)fields->types[i]);
        if (!pair || PyList_Append(list, pair) < 0) Py_CLEAR(list);
        Py_XDECREF(pair);
    }
    return list;
}

/* The fields of a composite or the members of a tuple: [(name or None, type), ..]. */
PyObject *fields_list(struct shared *shared, uint32_t type) {
    const struct type_info *info = info_of(shared, type);
    return info ? list_of(&info->fields) : NULL;
}

/* The arms of a variant: [(name, index, fields), ..]. */
PyObject *arms_list(struct shared *shared, uint32_t type) {
    const struct type_info *info = info_of(shared, type);
    PyObject *list = info ? PyList_New(0) : NULL;
    for (uint32_t i = 0; list && info->arms && i < info->shape.parts; i++) {
        const struct arm *found = &info->arms[i];
        PyObject *fields = list_of(&found->fields);
        PyObject *arm = fields ? Py_BuildValue("(OkO)", found->name, (unsigned long)found->index, fields) : NULL;
        if (!arm || PyList_Append(list, arm) < 0) Py_CLEAR(list);
        Py_XDECREF(fields);
        Py_XDECREF(arm);
    }
    return list;
}

PyObject *path_of(struct shared *shared, uint32_t type) {
    scaleview_answer answer;
    return read_text(&(struct text_of){read_path, shared, type, 0, 0, 0, false}, &answer);
}

PyObject *line_of(struct shared *shared, uint32_t type) {
    scaleview_answer answer;
    return read_text(&(struct text_of){read_line, shared, type, 0, 0, 0, false}, &answer);
}

/* Appends what it takes over to a list, or clears the list. */
static void append_new(PyObject **list, PyObject *made) {
    if (!made || PyList_Append(*list, made) < 0) Py_CLEAR(*list);
    Py_XDECREF(made);
}

/* The parameters of a type: [(name, type or None), ..]. */
PyObject *params_list(struct shared *shared, uint32_t type) {
    struct text_of text = {read_param, shared, type, 0, 0, 0, true};
    PyObject *list = PyList_New(0), *name;
    scaleview_answer answer;
    for (; list && (name = read_text(&text, &answer)); text.part++) {
        PyObject *argument = answer.at == 1 ? PyLong_FromUnsignedLong(answer.from) : new_ref(Py_None);
        append_new(&list, Py_BuildValue("(NN)", name, argument));
    }
    if (PyErr_Occurred()) Py_CLEAR(list);
    return list;
}

/* The lines of the documentation of a type or of a part of it. */
PyObject *docs_list(struct shared *shared, uint32_t type, uint32_t arm, uint32_t part) {
    struct text_of text = {read_docs_line, shared, type, arm, part, 0, true};
    PyObject *list = PyList_New(0), *line;
    scaleview_answer answer;
    for (; list && (line = read_text(&text, &answer)); text.line++) append_new(&list, line);
    if (PyErr_Occurred()) Py_CLEAR(list);
    return list;
}

/* The name of a field's type as the source has it, or None. */
PyObject *type_name_of(struct shared *shared, uint32_t type, uint32_t arm, uint32_t part) {
    scaleview_answer answer;
    PyObject *name = read_text(&(struct text_of){read_type_name, shared, type, arm, part, 0, true}, &answer);
    if (name && answer.at == 1) return name;
    Py_XDECREF(name);
    return PyErr_Occurred() ? NULL : new_ref(Py_None);
}

/* The first type from this position on that has the path, or None. */
PyObject *find_path(struct shared *shared, uint32_t from, PyObject *path) {
    PyObject *bytes = PyUnicode_AsUTF8String(path);
    if (!bytes) return NULL;
    scaleview_answer answer;
    const uint8_t *at = (const uint8_t *)PyBytes_AsString(bytes);
    size_t length = (size_t)PyBytes_Size(bytes);
    if (length == 0) { /* types without a path aren't found by it */
        Py_DECREF(bytes);
        return new_ref(Py_None);
    }
    enter(shared, false);
    uint32_t code = scaleview_find(shared->registry, from, at, length, &answer);
    leave(shared);
    Py_DECREF(bytes);
    return code == SCALEVIEW_OK ? PyLong_FromUnsignedLongLong(answer.at) : new_ref(Py_None);
}
