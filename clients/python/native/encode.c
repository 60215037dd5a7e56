/* Nodes of Python values. */
#include "native.h"
#include <stdarg.h>

enum { FEW = 24, LEAST_MEMORY_OF_A_NODE = 24, MOST_BYTES_OF_A_NODE = 17, LONG_NODES = 1 << 8 };

/* A value whose children are being read. */
struct level {
    PyObject *source;            /* a list or a tuple, or a dict if the fields are named; NULL while a path is looked for */
    const struct fields *fields; /* NULL for the elements of an array or a sequence */
    PyObject *arm;               /* the name of a variant's arm, borrowed */
    uint32_t at, count, element;
};

struct writer {
    struct shared *shared;
    scaleview_node *nodes;
    uint8_t *pool;
    PyObject *arm; /* the name of the arm whose fields are looked at, borrowed, or NULL */
    size_t count, node_room, length, pool_room, depth, level_room, most_depth;
    uint64_t memory; /* the budget, or 0 for none */
    bool is_cut; /* a node is too deep, which the library is left to say */
    struct level *levels, few[FEW];
};

/* Where the child is that is being read, as "value.fields[3].name". */
static PyObject *path_here(const struct writer *writer) {
    PyObject *path = PyUnicode_FromString("value");
    for (size_t i = 0; path && i < writer->depth; i++) {
        const struct level *level = &writer->levels[i];
        PyObject *longer = level->arm ? PyUnicode_FromFormat("%U.%U", path, level->arm) : new_ref(path);
        Py_DECREF(path);
        path = NULL;
        if (!longer) break;
        if (level->at == 0)
            path = new_ref(longer);
        else if (level->fields && level->fields->are_named)
            path = PyUnicode_FromFormat("%U.%U", longer, level->fields->names[level->at - 1]);
        else
            path = PyUnicode_FromFormat("%U[%u]", longer, level->at - 1);
        Py_DECREF(longer);
    }
    if (path && writer->arm) {
        PyObject *longer = PyUnicode_FromFormat("%U.%U", path, writer->arm);
        Py_DECREF(path);
        path = longer;
    }
    return path;
}

/* Raises an exception that begins with the path. It replaces one that is set. */
static int fail(const struct writer *writer, PyObject *class, const char *format, ...) {
    va_list arguments;
    PyErr_Clear();
    va_start(arguments, format);
    PyObject *message = PyUnicode_FromFormatV(format, arguments);
    va_end(arguments);
    PyObject *path = message ? path_here(writer) : NULL;
    if (path) PyErr_Format(class, "%U: %U", path, message);
    Py_XDECREF(message);
    Py_XDECREF(path);
    return -1;
}

static int expected(const struct writer *writer, const char *what, PyObject *value) {
    PyObject *name = PyObject_GetAttrString((PyObject *)Py_TYPE(value), "__name__");
    if (!name) return -1;
    int code = fail(writer, PyExc_TypeError, "expected %s, not %U", what, name);
    Py_DECREF(name);
    return code;
}

/* Raises OutOfMemory if the budget is too small for this many more nodes and bytes. The library needs more for them than is
 * counted here, so only values are rejected that it would reject too. */
static int check_budget(const struct writer *writer, size_t nodes, size_t bytes) {
    uint64_t least = LEAST_MEMORY_OF_A_NODE * ((uint64_t)writer->count + nodes) + writer->length + bytes;
    if (writer->memory == 0 || least <= writer->memory) return 0;
    raise_over_budget(writer->shared->state, writer->memory);
    return -1;
}

static int add_node(struct writer *writer, scaleview_node node) {
    if (check_budget(writer, 1, 0) < 0) return -1;
    if (writer->count == writer->node_room) {
        size_t room = 2 * writer->node_room + 64;
        scaleview_node *nodes = realloc(writer->nodes, room * sizeof *nodes);
        if (!nodes) {
            PyErr_NoMemory();
            return -1;
        }
        writer->nodes = nodes;
        writer->node_room = room;
    }
    writer->nodes[writer->count++] = node;
    return 0;
}

/* Makes room for the bytes of one more node in the pool. */
static int make_pool_room(struct writer *writer, size_t length) {
    if (check_budget(writer, 1, length) < 0) return -1;
    if (writer->pool_room - writer->length >= length) return 0;
    size_t room = 2 * writer->pool_room + length + 64;
    uint8_t *pool = realloc(writer->pool, room);
    if (!pool) {
        PyErr_NoMemory();
        return -1;
    }
    writer->pool = pool;
    writer->pool_room = room;
    return 0;
}

/* Adds a node whose bytes stand in the pool. */
static int add_bytes(struct writer *writer, uint32_t kind, uint32_t type, const void *bytes, size_t length) {
    if (make_pool_room(writer, length) < 0) return -1;
    if (length > 0) memcpy(writer->pool + writer->length, bytes, length);
    scaleview_node node = {kind, type, 0, 0, writer->length, length};
    writer->length += length;
    return add_node(writer, node);
}

/* Sets the bits of words that are 0. There is a byte for each bit. */
static void gather_bits(struct bit_form form, const char *bits, size_t count, uint8_t *words) {
    for (size_t bit = 0; bit < count; bit++) {
        uint64_t place = place_of_bit(form, bit);
        words[place / 8] |= (uint8_t)((bits[bit] != 0) << place % 8);
    }
}

/* Adds the node of a bit sequence, of a byte for each bit. */
static int add_bits(struct writer *writer, uint32_t type, struct bit_form form, const char *bits, size_t count) {
    size_t length = (size_t)bytes_of_bits(form, count);
    if (make_pool_room(writer, length) < 0) return -1;
    if (length > 0) memset(writer->pool + writer->length, 0, length);
    gather_bits(form, bits, count, writer->pool + writer->length);
    scaleview_node node = {SCALEVIEW_NODE_BITS, type, 0, 0, writer->length, count};
    writer->length += length;
    return add_node(writer, node);
}

static int push_level(struct writer *writer, struct level level) {
    if (writer->depth == writer->level_room) {
        size_t room = 2 * writer->level_room;
        struct level *levels = malloc(room * sizeof *levels);
        if (!levels) {
            Py_DECREF(level.source);
            PyErr_NoMemory();
            return -1;
        }
        memcpy(levels, writer->levels, writer->depth * sizeof *levels);
        if (writer->levels != writer->few) free(writer->levels);
        writer->levels = levels;
        writer->level_room = room;
    }
    writer->levels[writer->depth++] = level;
    return 0;
}

/* Whether an integer of limbs, the lowest first, and of this sign fits into so many bits. */
static bool fits(const uint64_t limbs[4], bool is_negative, unsigned bits, bool is_signed) {
    if (is_negative && !is_signed) return false;
    unsigned first = is_signed ? bits - 1 : bits;
    for (unsigned i = 0; i < 4; i++) {
        unsigned from = first > 64 * i ? first - 64 * i : 0;
        if (from < 64 && (is_negative ? ~limbs[i] : limbs[i]) >> from) return false;
    }
    return true;
}

/* Reads the limbs of an int: 1 if it is out of range of them, and -1 after an exception. */
static int read_limbs(PyObject *number, uint64_t limbs[4], bool *is_negative) {
    int overflow;
    long long small = PyLong_AsLongLongAndOverflow(number, &overflow);
    if (!overflow) {
        if (small == -1 && PyErr_Occurred()) return -1;
        *is_negative = small < 0;
        limbs[0] = (uint64_t)small;
        limbs[1] = limbs[2] = limbs[3] = small < 0 ? UINT64_MAX : 0;
        return 0;
    }
    *is_negative = overflow < 0;
    PyObject *width = PyLong_FromLong(64), *rest = width ? new_ref(number) : NULL;
    for (int i = 0; rest && i < 4; i++) {
        limbs[i] = PyLong_AsUnsignedLongLongMask(rest);
        PyObject *shifted = PyNumber_Rshift(rest, width);
        Py_DECREF(rest);
        rest = shifted;
    }
    Py_XDECREF(width);
    if (!rest) return -1;
    small = PyLong_AsLongLongAndOverflow(rest, &overflow);
    Py_DECREF(rest);
    return overflow || small != (*is_negative ? -1 : 0);
}

static int put_integer(struct writer *writer, uint32_t type, uint32_t primitive, bool is_compact, PyObject *value) {
    static const unsigned widths[] = {8, 16, 32, 64, 128, 256};
    bool is_signed = primitive >= SCALEVIEW_I8, is_negative;
    unsigned bits = widths[primitive - (is_signed ? SCALEVIEW_I8 : SCALEVIEW_U8)];
    uint64_t limbs[4];
    uint8_t bytes[32];
    if (PyBool_Check(value) || !PyIndex_Check(value)) return expected(writer, "an int", value);
    PyObject *number = PyLong_Check(value) ? new_ref(value) : PyNumber_Index(value);
    if (!number) return -1;
    int code = read_limbs(number, limbs, &is_negative);
    Py_DECREF(number);
    if (code < 0) return -1;
    if (code > 0 || !fits(limbs, is_negative, bits, is_signed))
        return fail(writer, PyExc_OverflowError, "the number is out of range of %s", primitive_names[primitive]);
    if (bits == 256) {
        for (int i = 0; i < 32; i++) bytes[i] = (uint8_t)(limbs[i / 8] >> (i % 8 * 8));
        return add_bytes(writer, SCALEVIEW_NODE_WIDE, type, bytes, sizeof bytes);
    }
    uint32_t kind = is_compact ? SCALEVIEW_NODE_COMPACT : is_signed ? SCALEVIEW_NODE_SIGNED : SCALEVIEW_NODE_UNSIGNED;
    return add_node(writer, (scaleview_node){kind, type, 0, 0, limbs[0], limbs[1]});
}

static int put_text(struct writer *writer, uint32_t type, PyObject *value) {
    if (!PyUnicode_Check(value)) return expected(writer, "a str", value);
    PyObject *bytes = PyUnicode_AsUTF8String(value);
    if (!bytes) {
        if (!PyErr_ExceptionMatches(PyExc_UnicodeEncodeError)) return -1;
        return fail(writer, PyExc_ValueError, "the text has a surrogate");
    }
    int code = add_bytes(writer, SCALEVIEW_NODE_TEXT, type, PyBytes_AsString(bytes), (size_t)PyBytes_Size(bytes));
    Py_DECREF(bytes);
    return code;
}

static int put_primitive(struct writer *writer, uint32_t type, uint32_t primitive, PyObject *value) {
    Py_UCS4 code;
    switch (primitive) {
    case SCALEVIEW_BOOL:
        if (!PyBool_Check(value)) return expected(writer, "a bool", value);
        return add_node(writer, (scaleview_node){SCALEVIEW_NODE_BOOL, type, 0, 0, value == Py_True, 0});
    case SCALEVIEW_CHAR:
        if (!PyUnicode_Check(value)) return expected(writer, "a str", value);
        if (PyUnicode_GetLength(value) != 1) return fail(writer, PyExc_ValueError, "expected a str of one character");
        code = PyUnicode_ReadChar(value, 0);
        if (code >= 0xd800 && code < 0xe000) return fail(writer, PyExc_ValueError, "the character is a surrogate");
        return add_node(writer, (scaleview_node){SCALEVIEW_NODE_CHAR, type, 0, 0, code, 0});
    case SCALEVIEW_STR: return put_text(writer, type, value);
    default: return put_integer(writer, type, primitive, false, value);
    }
}

static int put_byte_run(struct writer *writer, uint32_t type, const struct type_info *info, PyObject *value) {
    const uint8_t *bytes;
    size_t length;
    PyObject *kept = PyUnicode_Check(value) ? NULL : bytes_of(value, &bytes, &length);
    if (!kept) {
        if (PyErr_Occurred() && !PyErr_ExceptionMatches(PyExc_TypeError)) return -1;
        return expected(writer, "bytes", value);
    }
    int code;
    if (info->shape.kind == SCALEVIEW_ARRAY && length != info->shape.length)
        code = fail(writer, PyExc_ValueError, "expected %u bytes, not %zu", info->shape.length, length);
    else
        code = add_bytes(writer, SCALEVIEW_NODE_BYTES, type, bytes, length);
    Py_DECREF(kept);
    return code;
}

/* What the items of a sequence become, which says what they take at least. */
enum items { AS_NODES, AS_BITS };

/* Copies a sequence's items to a list, unless as many nodes or bits would exceed the budget. */
static PyObject *copied_items(const struct writer *writer, PyObject *value, enum items become) {
    Py_ssize_t length = PySequence_Size(value);
    if (length < 0) return NULL;
    size_t nodes = become == AS_NODES ? (size_t)length : 1, bytes = become == AS_BITS ? (size_t)length / 8 : 0;
    return check_budget(writer, nodes, bytes) < 0 ? NULL : PySequence_List(value);
}

/* Returns a list or a tuple of a value's items, or NULL. */
static PyObject *items_of(const struct writer *writer, PyObject *value, enum items become, Py_ssize_t *length) {
    PyObject *items;
    if (PyList_Check(value) || PyTuple_Check(value)) {
        items = new_ref(value);
    } else if (PySequence_Check(value) && !PyUnicode_Check(value) && !PyBytes_Check(value) && !PyByteArray_Check(value)) {
        items = copied_items(writer, value, become);
    } else {
        expected(writer, become == AS_BITS ? "a Bits or a list of bool" : "a list or a tuple", value);
        return NULL;
    }
    if (!items) return NULL;
    *length = PyList_Check(items) ? PyList_Size(items) : PyTuple_Size(items);
    if ((unsigned long long)*length <= UINT32_MAX) return items;
    fail(writer, PyExc_OverflowError, "%zd items are too many", *length);
    Py_DECREF(items);
    return NULL;
}

/* A sequence of elements that take no bytes: an Empties, or so many None. */
static int put_count(struct writer *writer, uint32_t type, PyObject *value) {
    uint64_t count = 0;
    int is_empties = PyObject_IsInstance(value, writer->shared->state->empties_class);
    if (is_empties < 0) return -1;
    if (is_empties) {
        PyObject *number = PyObject_GetAttrString(value, "_count");
        int code = number ? read_number("count", number, UINT32_MAX, &count) : -1;
        Py_XDECREF(number);
        if (code < 0) return -1;
    } else {
        Py_ssize_t length;
        PyObject *items = items_of(writer, value, AS_NODES, &length);
        if (!items) return -1;
        for (Py_ssize_t i = 0; i < length; i++) {
            PyObject *item = PyList_Check(items) ? PyList_GetItem(items, i) : PyTuple_GetItem(items, i);
            if (item != Py_None) {
                PyErr_Clear();
                Py_DECREF(items);
                return fail(writer, PyExc_TypeError, "expected an Empties or a list of None");
            }
        }
        count = (uint64_t)length;
        Py_DECREF(items);
    }
    return add_node(writer, (scaleview_node){SCALEVIEW_NODE_COUNT, type, 0, 0, count, 0});
}

/* Raises that an item of a sequence of bits, whose reference this takes, isn't a bool. */
static int fail_bit(struct writer *writer, PyObject *items, Py_ssize_t at) {
    struct level level = {items, NULL, NULL, (uint32_t)at + 1, (uint32_t)at + 1, 0};
    if (push_level(writer, level) < 0) return -1;
    PyObject *item = PyList_Check(items) ? PyList_GetItem(items, at) : PyTuple_GetItem(items, at);
    return item ? expected(writer, "a bool", item) : fail(writer, PyExc_ValueError, "the list got shorter meanwhile");
}

/* Returns bytes of a sequence of bool, one for each, or NULL. */
static PyObject *bytes_of_bools(struct writer *writer, PyObject *value) {
    Py_ssize_t length;
    PyObject *items = items_of(writer, value, AS_BITS, &length);
    PyObject *bits = items ? PyBytes_FromStringAndSize(NULL, length) : NULL;
    char *at = bits ? PyBytes_AsString(bits) : NULL;
    for (Py_ssize_t i = 0; bits && i < length; i++) {
        PyObject *item = PyList_Check(items) ? PyList_GetItem(items, i) : PyTuple_GetItem(items, i);
        if (item && PyBool_Check(item)) {
            at[i] = item == Py_True;
            continue;
        }
        Py_DECREF(bits);
        fail_bit(writer, items, i);
        return NULL;
    }
    Py_XDECREF(items);
    return bits;
}

/* A bit sequence: a Bits, or another sequence of bool. */
static int put_bits(struct writer *writer, uint32_t type, struct bit_form form, PyObject *value) {
    int is_bits = PyObject_IsInstance(value, writer->shared->state->bits_class);
    if (is_bits < 0) return -1;
    PyObject *bits = is_bits ? PyObject_GetAttrString(value, "_bits") : bytes_of_bools(writer, value);
    if (!bits) return -1;
    int code;
    if (!PyBytes_Check(bits))
        code = expected(writer, "bytes in a Bits", bits);
    else if ((unsigned long long)PyBytes_Size(bits) > UINT32_MAX)
        code = fail(writer, PyExc_OverflowError, "%zd items are too many", PyBytes_Size(bits));
    else
        code = add_bits(writer, type, form, PyBytes_AsString(bits), (size_t)PyBytes_Size(bits));
    Py_DECREF(bits);
    return code;
}

static int put_list(struct writer *writer, uint32_t type, const struct type_info *info, PyObject *value) {
    const struct type_info *element = info_of(writer->shared, info->shape.element);
    Py_ssize_t length;
    if (!element) return -1;
    if (element->shape.kind == SCALEVIEW_PRIMITIVE && element->shape.primitive == SCALEVIEW_U8)
        return put_byte_run(writer, type, info, value);
    if (element->shape.value_class == SCALEVIEW_EMPTY) return put_count(writer, type, value);
    PyObject *items = items_of(writer, value, AS_NODES, &length);
    if (!items) return -1;
    if (info->shape.kind == SCALEVIEW_ARRAY && length != (Py_ssize_t)info->shape.length) {
        Py_DECREF(items);
        return fail(writer, PyExc_ValueError, "expected %u items, not %zd", info->shape.length, length);
    }
    if (add_node(writer, (scaleview_node){SCALEVIEW_NODE_LIST, type, (uint32_t)length, 0, 0, 0}) < 0) {
        Py_DECREF(items);
        return -1;
    }
    return push_level(writer, (struct level){items, NULL, NULL, 0, (uint32_t)length, info->shape.element});
}

/* Raises what is wrong with the keys of a dict. */
static int fail_keys(const struct writer *writer, const struct fields *fields, PyObject *value) {
    PyObject *key, *item;
    for (uint32_t i = 0; i < fields->count; i++) {
        if (PyDict_GetItemWithError(value, fields->names[i])) continue;
        return PyErr_Occurred() ? -1 : fail(writer, PyExc_ValueError, "the field %R is missing", fields->names[i]);
    }
    PyObject *names = PySet_New(NULL);
    int is_name = names ? 1 : -1;
    for (uint32_t i = 0; i < fields->count && is_name > 0; i++) {
        if (PySet_Add(names, fields->names[i]) < 0) is_name = -1;
    }
    for (Py_ssize_t at = 0; is_name > 0 && PyDict_Next(value, &at, &key, &item);) is_name = PySet_Contains(names, key);
    Py_XDECREF(names);
    if (is_name < 0) return -1;
    if (is_name == 0) return fail(writer, PyExc_ValueError, "there is no field %R", key);
    return fail(writer, PyExc_ValueError, "the fields changed meanwhile");
}

/* Adds the node of fields, of an arm if there is one, and goes on with them. */
static int put_fields(struct writer *writer, scaleview_node node, const struct fields *fields, PyObject *arm,
                      PyObject *value) {
    PyObject *source;
    node.children = fields->count;
    if (fields->are_named) {
        if (!PyDict_Check(value)) return expected(writer, "a dict", value);
        if (PyDict_Size(value) != (Py_ssize_t)fields->count) return fail_keys(writer, fields, value);
        source = new_ref(value);
    } else {
        Py_ssize_t length = 0;
        bool is_nothing = fields->count == 0 && PyDict_Check(value) && PyDict_Size(value) == 0;
        source = is_nothing ? new_ref(value) : items_of(writer, value, AS_NODES, &length);
        if (!source) return -1;
        if (length != (Py_ssize_t)fields->count) {
            Py_DECREF(source);
            return fail(writer, PyExc_ValueError, "expected %u fields, not %zd", fields->count, length);
        }
    }
    if (add_node(writer, node) < 0) {
        Py_DECREF(source);
        return -1;
    }
    return push_level(writer, (struct level){source, fields, arm, 0, fields->count, 0});
}

/* Whether fields are as many as those of an arm, and have its names. */
static int are_fields_of(const struct arm *arm, PyObject *value) {
    if (!arm->fields.are_named) {
        if (PyList_Check(value)) return PyList_Size(value) == (Py_ssize_t)arm->fields.count;
        return PyTuple_Check(value) && PyTuple_Size(value) == (Py_ssize_t)arm->fields.count;
    }
    if (!PyDict_Check(value) || PyDict_Size(value) != (Py_ssize_t)arm->fields.count) return 0;
    for (uint32_t i = 0; i < arm->fields.count; i++) {
        if (!PyDict_GetItemWithError(value, arm->fields.names[i])) return PyErr_Occurred() ? -1 : 0;
    }
    return 1;
}

/* Finds the arm of that name. If several have it, the fields decide, or it is the first. */
static int find_arm(const struct writer *writer, const struct type_info *info, PyObject *name, PyObject *fields,
                    uint32_t *arm) {
    PyObject *position = PyDict_GetItemWithError(info->arm_positions, name);
    if (!position) return PyErr_Occurred() ? -1 : fail(writer, PyExc_ValueError, "there is no arm %R", name);
    uint32_t first = *arm = (uint32_t)PyLong_AsUnsignedLong(position);
    int is_found = are_fields_of(&info->arms[first], fields);
    for (uint32_t i = first + 1; is_found == 0 && i < info->shape.parts; i++) {
        int is_same = PyObject_RichCompareBool(info->arms[i].name, name, Py_EQ);
        if (is_same > 0 && !info->arms[i].is_shadowed) is_same = is_found = are_fields_of(&info->arms[i], fields);
        if (is_same < 0) return -1;
        if (is_found > 0) *arm = i;
    }
    return is_found < 0 ? -1 : 0;
}

/* Finds the arm of that index, which has to have that name. */
static int find_arm_by_index(const struct writer *writer, const struct type_info *info, PyObject *name, int index,
                             uint32_t *arm) {
    uint32_t found = info->arms_by_index[index];
    if (found == NO_ARM) return fail(writer, PyExc_ValueError, "there is no arm %R of index %d", name, index);
    int is_same = PyObject_RichCompareBool(info->arms[found].name, name, Py_EQ);
    if (is_same < 0) return -1;
    if (is_same == 0)
        return fail(writer, PyExc_ValueError, "the arm of index %d is %R, not %R", index, info->arms[found].name, name);
    *arm = found;
    return 0;
}

static int put_variant(struct writer *writer, uint32_t type, const struct type_info *info, PyObject *value) {
    PyObject *name, *fields;
    int index = NO_INDEX;
    if (Py_TYPE(value) == writer->shared->state->variant_class) {
        name = variant_name(value);
        fields = variant_fields(value);
        index = variant_index(value);
    } else if (PyTuple_Check(value) && PyTuple_Size(value) == 2 && PyUnicode_Check(PyTuple_GetItem(value, 0))) {
        name = PyTuple_GetItem(value, 0);
        fields = PyTuple_GetItem(value, 1);
    } else {
        return expected(writer, "a Variant or a pair of a name and fields", value);
    }
    uint32_t arm = 0;
    int is_found = index == NO_INDEX ? find_arm(writer, info, name, fields, &arm)
                                     : find_arm_by_index(writer, info, name, index, &arm);
    if (is_found < 0) return -1;
    const struct arm *of_arm = &info->arms[arm];
    scaleview_node node = {SCALEVIEW_NODE_ARM, type, 0, arm, 0, 0};
    writer->arm = of_arm->name;
    int code = put_fields(writer, node, &of_arm->fields, of_arm->name, fields);
    writer->arm = NULL;
    return code;
}

static int put_value(struct writer *writer, uint32_t type, PyObject *value) {
    scaleview_node leaf = {SCALEVIEW_NODE_EMPTY, type, 0, 0, 0, 0};
    if (writer->depth > writer->most_depth) {
        writer->is_cut = true;
        return add_node(writer, leaf);
    }
    const struct type_info *info = info_of(writer->shared, type);
    if (!info) return -1;
    if (info->shape.value_class == SCALEVIEW_NO_VALUE) return add_node(writer, leaf);
    if (info->shape.value_class == SCALEVIEW_EMPTY)
        return value == Py_None ? add_node(writer, leaf) : expected(writer, "None", value);
    switch (info->shape.kind) {
    case SCALEVIEW_PRIMITIVE: return put_primitive(writer, type, info->shape.primitive, value);
    case SCALEVIEW_COMPACT:
        if (info->target != NO_TARGET) return put_integer(writer, type, info->target, true, value);
        return add_node(writer, (scaleview_node){SCALEVIEW_NODE_COMPACT, type, 0, 0, 0, 0});
    case SCALEVIEW_SEQUENCE:
    case SCALEVIEW_ARRAY: return put_list(writer, type, info, value);
    case SCALEVIEW_VARIANT: return put_variant(writer, type, info, value);
    case SCALEVIEW_COMPOSITE:
    case SCALEVIEW_TUPLE:
        return put_fields(writer, (scaleview_node){SCALEVIEW_NODE_FIELDS, type, 0, 0, 0, 0}, &info->fields, NULL, value);
    default:
        if (info->form.width > 0) return put_bits(writer, type, info->form, value);
        return add_node(writer, leaf); /* a bit sequence that the library rejects */
    }
}

/* The next child of a value, borrowed, or NULL with an exception. */
static PyObject *next_child(struct writer *writer, struct level *level, uint32_t *type) {
    uint32_t at = level->at++;
    PyObject *child;
    *type = level->fields ? level->fields->types[at] : level->element;
    if (level->fields && level->fields->are_named) {
        child = PyDict_GetItemWithError(level->source, level->fields->names[at]);
        if (!child && !PyErr_Occurred()) {
            level->at = 0;
            fail_keys(writer, level->fields, level->source);
        }
        return child;
    }
    child = PyList_Check(level->source) ? PyList_GetItem(level->source, at) : PyTuple_GetItem(level->source, at);
    if (!child) fail(writer, PyExc_ValueError, "the list got shorter meanwhile");
    return child;
}

static int put_all(struct writer *writer, uint32_t type, PyObject *value) {
    if (put_value(writer, type, value) < 0) return -1;
    while (writer->depth > 0 && !writer->is_cut) {
        struct level *top = &writer->levels[writer->depth - 1];
        if (top->at == top->count) {
            Py_DECREF(top->source);
            writer->depth--;
            continue;
        }
        PyObject *child = next_child(writer, top, &type);
        if (!child) return -1;
        Py_INCREF(child);
        int code = put_value(writer, type, child);
        Py_DECREF(child);
        if (code < 0) return -1;
    }
    return 0;
}

static void drop_levels(struct writer *writer) {
    while (writer->depth > 0) {
        writer->depth--;
        Py_XDECREF(writer->levels[writer->depth].source);
    }
}

/* Raises the refusal of a node with the path of its value. */
static void raise_rejected(struct writer *writer, const scaleview_answer *answer) {
    drop_levels(writer);
    for (size_t i = 0; i <= answer->at && i < writer->count; i++) {
        const scaleview_node *node = &writer->nodes[i];
        while (writer->depth > 0 && writer->levels[writer->depth - 1].at == writer->levels[writer->depth - 1].count)
            writer->depth--;
        if (writer->depth > 0) writer->levels[writer->depth - 1].at++;
        if (i == answer->at || is_leaf(node)) continue;
        struct level level = {NULL, NULL, NULL, 0, node->children, 0};
        if (node->kind != SCALEVIEW_NODE_LIST) {
            const struct type_info *info = info_of(writer->shared, node->type);
            if (!info) return;
            bool is_arm = node->kind == SCALEVIEW_NODE_ARM;
            level.arm = is_arm ? info->arms[node->arm].name : NULL;
            level.fields = is_arm ? &info->arms[node->arm].fields : &info->fields;
        }
        if (push_level(writer, level) < 0) return;
    }
    PyObject *path = path_here(writer);
    if (path) raise_rejected_node(writer->shared->state, answer, path);
    Py_XDECREF(path);
}

static PyObject *bytes_of_nodes(struct writer *writer, uint32_t type, uint16_t depth) {
    scaleview_answer answer;
    size_t room = writer->length + MOST_BYTES_OF_A_NODE * writer->count;
    struct scratch scratch = take_scratch(writer->shared);
    PyObject *made = NULL;
    for (;;) {
        if (make_room(&scratch, 0, room) < 0) break;
        enter(writer->shared, false);
        bool is_long = writer->count > LONG_NODES || writer->length > LONG_INPUT;
        PyThreadState *state = is_long ? PyEval_SaveThread() : NULL;
        uint32_t code = scaleview_encode_nodes(writer->shared->registry, type, depth, writer->memory, writer->nodes,
                                               writer->count, writer->pool, writer->length, scratch.bytes,
                                               scratch.byte_room, &answer);
        if (state) PyEval_RestoreThread(state);
        leave(writer->shared);
        if (code == SCALEVIEW_OK) {
            made = PyBytes_FromStringAndSize((const char *)scratch.bytes, (Py_ssize_t)answer.length);
        } else if (code == SCALEVIEW_NO_ROOM) {
            room = (size_t)answer.length;
            continue;
        } else if (code > 400) {
            raise_rejected(writer, &answer);
        } else {
            raise_answer(writer->shared->state, &answer, type, -1, writer->memory);
        }
        break;
    }
    give_scratch(writer->shared, scratch);
    return made;
}

/* Returns the bytes of a call's value. */
PyObject *encode_value(const struct call *call) {
    const struct limits *limits = &call->limits;
    struct writer writer;
    PyObject *made = NULL;
    memset(&writer, 0, offsetof(struct writer, few));
    writer.shared = call->shared;
    writer.levels = writer.few;
    writer.level_room = FEW;
    writer.most_depth = limits->depth;
    writer.memory = budget_of(limits, LIMIT);
    if (put_all(&writer, call->type, call->value) == 0)
        made = bytes_of_nodes(&writer, call->type, limits->depth);
    drop_levels(&writer);
    if (writer.levels != writer.few) free(writer.levels);
    free(writer.nodes);
    free(writer.pool);
    return made;
}
