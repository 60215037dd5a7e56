/* Python values of nodes. */
#include "native.h"

enum { FEW = 24, HEX_DIGITS = 64, NODES_BETWEEN_SIGNALS = 1 << 16 };

/* A value that is being filled with those of its node's children. */
struct level {
    PyObject *container; /* a list, a tuple or a dict */
    PyObject **names;    /* the keys of a dict */
    const struct arm *arm;
    uint32_t at, count;
    enum { A_LIST, A_TUPLE, A_DICT } kind;
};

struct reader {
    struct shared *shared;
    const uint8_t *pool;
    struct level *levels, few[FEW];
    size_t depth, room;
};

/* An integer of limbs, the lowest first, by its hexadecimal digits. */
static PyObject *long_of(const uint64_t *limbs, size_t count, bool is_negative) {
    char digits[HEX_DIGITS + 2], *at = digits + sizeof digits;
    uint64_t carry = 1;
    *--at = 0;
    for (size_t i = 0; i < count; i++) {
        uint64_t limb = limbs[i];
        if (is_negative) {
            limb = ~limb + carry;
            carry = carry && limb == 0;
        }
        for (int digit = 0; digit < 16; digit++, limb >>= 4) *--at = "0123456789abcdef"[limb & 15];
    }
    while (*at == '0' && at[1]) at++;
    if (is_negative) *--at = '-';
    return PyLong_FromString(at, NULL, 16);
}

static PyObject *signed_of(uint64_t low, uint64_t high) {
    if (high == (low >> 63 ? UINT64_MAX : 0)) return PyLong_FromLongLong((long long)low);
    return long_of((uint64_t[]){low, high}, 2, high >> 63);
}

static PyObject *unsigned_of(uint64_t low, uint64_t high) {
    return high == 0 ? PyLong_FromUnsignedLongLong(low) : long_of((uint64_t[]){low, high}, 2, false);
}

static PyObject *wide_of(struct reader *reader, const scaleview_node *node) {
    const struct type_info *info = info_of(reader->shared, node->type);
    const uint8_t *bytes = reader->pool + node->low;
    uint64_t limbs[4] = {0};
    if (!info) return NULL;
    for (int i = 0; i < 32; i++) limbs[i / 8] |= (uint64_t)bytes[i] << (i % 8 * 8);
    return long_of(limbs, 4, info->shape.primitive == SCALEVIEW_I256 && limbs[3] >> 63);
}

static const char *bytes_at(const struct reader *reader, const scaleview_node *node) {
    return (const char *)reader->pool + node->low;
}

/* Writes a byte, 0 or 1, for each bit of these words. */
static void spread_bits(struct bit_form form, const uint8_t *words, uint64_t count, char *out) {
    for (uint64_t bit = 0; bit < count; bit++) {
        uint64_t place = place_of_bit(form, bit);
        out[bit] = words[place / 8] >> place % 8 & 1;
    }
}

/* A Bits of a node. */
static PyObject *bits_of(struct reader *reader, const scaleview_node *node) {
    const struct type_info *info = info_of(reader->shared, node->type);
    PyObject *bits = info ? PyBytes_FromStringAndSize(NULL, (Py_ssize_t)node->high) : NULL;
    if (!bits) return NULL;
    spread_bits(info->form, reader->pool + node->low, node->high, PyBytes_AsString(bits));
    PyObject *made = PyObject_CallMethod(reader->shared->state->bits_class, "_of", "O", bits);
    Py_DECREF(bits);
    return made;
}

/* The value of a node without children. */
static PyObject *leaf_of(struct reader *reader, const scaleview_node *node) {
    switch (node->kind) {
    case SCALEVIEW_NODE_EMPTY: return new_ref(Py_None);
    case SCALEVIEW_NODE_BOOL: return new_ref(node->low ? Py_True : Py_False);
    case SCALEVIEW_NODE_CHAR: return PyUnicode_FromOrdinal((int)node->low);
    case SCALEVIEW_NODE_COMPACT:
    case SCALEVIEW_NODE_UNSIGNED: return unsigned_of(node->low, node->high);
    case SCALEVIEW_NODE_SIGNED: return signed_of(node->low, node->high);
    case SCALEVIEW_NODE_COUNT:
        return PyObject_CallFunction(reader->shared->state->empties_class, "K", (unsigned long long)node->low);
    case SCALEVIEW_NODE_TEXT: return PyUnicode_FromStringAndSize(bytes_at(reader, node), (Py_ssize_t)node->high);
    case SCALEVIEW_NODE_BYTES: return PyBytes_FromStringAndSize(bytes_at(reader, node), (Py_ssize_t)node->high);
    case SCALEVIEW_NODE_WIDE: return wide_of(reader, node);
    case SCALEVIEW_NODE_BITS: return bits_of(reader, node);
    default: PyErr_Format(PyExc_SystemError, "the library made a node of the unknown kind %u", node->kind); return NULL;
    }
}

static int open_level(struct reader *reader, const scaleview_node *node, struct level *level) {
    const struct fields *fields = NULL;
    *level = (struct level){NULL, NULL, NULL, 0, node->children, A_LIST};
    if (node->kind != SCALEVIEW_NODE_LIST) {
        const struct type_info *info = info_of(reader->shared, node->type);
        if (!info) return -1;
        if (node->kind == SCALEVIEW_NODE_ARM) {
            level->arm = &info->arms[node->arm];
            fields = &level->arm->fields;
        } else {
            fields = &info->fields;
            level->kind = A_TUPLE;
        }
        if (fields->are_named) {
            level->kind = A_DICT;
            level->names = fields->names;
        }
    }
    switch (level->kind) {
    case A_LIST: level->container = PyList_New(node->children); break;
    case A_TUPLE: level->container = PyTuple_New(node->children); break;
    case A_DICT: level->container = PyDict_New(); break;
    }
    return level->container ? 0 : -1;
}

/* Takes the reference to the item. */
static int put_item(struct level *level, PyObject *item) {
    uint32_t at = level->at++;
    if (level->kind == A_LIST) return PyList_SetItem(level->container, at, item);
    if (level->kind == A_TUPLE) return PyTuple_SetItem(level->container, at, item);
    int code = PyDict_SetItem(level->container, level->names[at], item);
    Py_DECREF(item);
    return code;
}

static PyObject *close_level(const struct reader *reader, struct level *level) {
    const struct arm *arm = level->arm;
    if (!arm) return level->container;
    return variant_of(reader->shared->state->variant_class, arm->name, level->container, (int)arm->index);
}

static int push_level(struct reader *reader, struct level level) {
    if (reader->depth == reader->room) {
        size_t room = 2 * reader->room;
        struct level *levels = malloc(room * sizeof *levels);
        if (!levels) {
            Py_DECREF(level.container);
            PyErr_NoMemory();
            return -1;
        }
        memcpy(levels, reader->levels, reader->depth * sizeof *levels);
        if (reader->levels != reader->few) free(reader->levels);
        reader->levels = levels;
        reader->room = room;
    }
    reader->levels[reader->depth++] = level;
    return 0;
}

/* Puts a value where it belongs, and closes the levels that are then full. Returns the complete value, or NULL. */
static PyObject *put_value(struct reader *reader, PyObject *value) {
    while (value && reader->depth > 0) {
        struct level *top = &reader->levels[reader->depth - 1];
        if (put_item(top, value) < 0 || top->at < top->count) return NULL;
        value = close_level(reader, top);
        reader->depth--;
    }
    return value;
}

static PyObject *read_nodes(struct reader *reader, const scaleview_node *nodes, size_t count) {
    for (size_t i = 0; i < count; i++) {
        const scaleview_node *node = &nodes[i];
        PyObject *value;
        if ((i + 1) % NODES_BETWEEN_SIGNALS == 0 && PyErr_CheckSignals() < 0) return NULL;
        if (is_leaf(node)) {
            value = leaf_of(reader, node);
        } else {
            struct level level;
            if (open_level(reader, node, &level) < 0) return NULL;
            if (level.count > 0) {
                if (push_level(reader, level) < 0) return NULL;
                continue;
            }
            value = close_level(reader, &level);
        }
        value = put_value(reader, value);
        if (value) return value;
        if (PyErr_Occurred()) return NULL;
    }
    PyErr_SetString(PyExc_SystemError, "the library made too few nodes");
    return NULL;
}

/* Returns the value that the library has decoded into these nodes. */
PyObject *value_of(struct shared *shared, const scaleview_node *nodes, size_t count, const uint8_t *pool) {
    struct reader reader;
    reader.shared = shared;
    reader.pool = pool;
    reader.levels = reader.few;
    reader.depth = 0;
    reader.room = FEW;
    PyObject *value = read_nodes(&reader, nodes, count);
    while (reader.depth > 0) Py_DECREF(reader.levels[--reader.depth].container);
    if (reader.levels != reader.few) free(reader.levels);
    return value;
}
