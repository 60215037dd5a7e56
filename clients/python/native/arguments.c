/* Arguments: numbers, types, limits and bytes. */
#include "native.h"

enum { NO_DIGIT = 16 };

/* Reads a number from 0 to the greatest. */
int read_number(const char *name, PyObject *object, uint64_t most, uint64_t *number) {
    PyObject *index = PyNumber_Index(object);
    if (!index) return -1;
    *number = PyLong_AsUnsignedLongLong(index);
    Py_DECREF(index);
    bool has_failed = *number == UINT64_MAX && PyErr_Occurred();
    if (has_failed && !PyErr_ExceptionMatches(PyExc_OverflowError)) return -1;
    if (!has_failed && *number <= most) return 0;
    PyErr_Clear();
    PyErr_Format(PyExc_OverflowError, "%s is out of range: it has to be in 0 to %llu", name,
                 (unsigned long long)most);
    return -1;
}

/* Raises that this names no type. */
static int fail_type(PyObject *object) {
    PyObject *class = PyObject_GetAttrString((PyObject *)Py_TYPE(object), "__name__");
    static const char by_text[] = "; find() gives the type of a path, and type_of() of a Metadata "
                                  "that of a name";
    const char *hint = PyUnicode_Check(object) ? by_text : "";
    if (class)
        PyErr_Format(PyExc_TypeError, "a type is its position or a Type, not %R%s", class, hint);
    Py_XDECREF(class);
    return -1;
}

/* Reads a type's position from an int, or from a Type of this registry. */
int read_type(const struct state *state, PyObject *registry, PyObject *object, uint32_t *type) {
    uint64_t number;
    if (PyObject_TypeCheck(object, state->type_class)) {
        *type = id_of_type(object);
        if (registry_of_type(object) == registry) return 0;
        PyErr_SetString(PyExc_ValueError, "the type belongs to another registry");
        return -1;
    }
    if (PyBool_Check(object) || !PyIndex_Check(object)) return fail_type(object);
    if (read_number("type", object, UINT32_MAX, &number) < 0) return -1;
    *type = (uint32_t)number;
    return 0;
}

/* Reads the limits of a call; NULL stands for the usual one, and so does `...` as `memory`. */
int read_limits(PyObject *depth, PyObject *limit, PyObject *memory, struct limits *limits) {
    uint64_t number = DEPTH;
    *limits = (struct limits){DEPTH, memory && memory != Py_Ellipsis, LIMIT, 0};
    if (depth && read_number("depth", depth, MOST_DEPTH, &number) < 0) return -1;
    limits->depth = (uint16_t)number;
    if (limit && read_number("limit", limit, UINT64_MAX, &limits->limit) < 0) return -1;
    bool is_number = limits->has_memory && memory != Py_None;
    return is_number ? read_number("memory", memory, UINT64_MAX, &limits->memory) : 0;
}

/* Returns the budget of memory for an input of this many bytes, or 0 for none. An input above the
 * greatest limit is rejected whatever its budget is. */
uint64_t budget_of(const struct limits *limits, uint64_t length) {
    return limits->has_memory ? limits->memory : MEMORY + MEMORY_OF_A_BYTE * length;
}

/* Returns a memoryview of a buffer. */
PyObject *view_of(PyObject *data) {
    PyObject *view = PyMemoryView_FromObject(data);
    if (view || !PyErr_ExceptionMatches(PyExc_TypeError)) return view;
    PyErr_Clear();
    PyObject *class = PyObject_GetAttrString((PyObject *)Py_TYPE(data), "__name__");
    static const char expected[] = "expected bytes or another object with a buffer, not %U";
    if (class) PyErr_Format(PyExc_TypeError, expected, class);
    Py_XDECREF(class);
    return NULL;
}

/* Returns an object that keeps the bytes of a buffer, and where they are. Bytes stay where they
 * are, also a subclass's, whose own `__len__` isn't asked. Others are copied, since they may change
 * during a call. */
PyObject *bytes_of(PyObject *data, const uint8_t **bytes, size_t *length) {
    PyObject *kept;
    if (PyBytes_Check(data)) {
        kept = new_ref(data);
    } else {
        PyObject *view = view_of(data);
        if (!view) return NULL;
        kept = PyObject_CallMethod(view, "tobytes", NULL);
        Py_DECREF(view);
        if (!kept) return NULL;
    }
    *bytes = (const uint8_t *)PyBytes_AsString(kept);
    *length = (size_t)PyBytes_Size(kept);
    return kept;
}

/* Returns the value of a hexadecimal digit, or NO_DIGIT. */
static unsigned digit_of(char letter) {
    if (letter >= '0' && letter <= '9') return (unsigned)(letter - '0');
    if (letter >= 'a' && letter <= 'f') return (unsigned)(letter - 'a' + 10);
    if (letter >= 'A' && letter <= 'F') return (unsigned)(letter - 'A' + 10);
    return NO_DIGIT;
}

/* Returns how many characters stand before a line end, if there is one. */
static size_t length_of_line(const char *letters, size_t length) {
    if (length == 0 || letters[length - 1] != '\n') return length;
    return length >= 2 && letters[length - 2] == '\r' ? length - 2 : length - 1;
}

/* Returns the bytes that two hexadecimal digits each spell, which stand from `start` to `end`. */
static PyObject *bytes_of_digits(const struct whose *whose, const char *letters, size_t start,
                                 size_t end) {
    if ((end - start) % 2 == 1) {
        raise_wrong_text(whose, "OddHex", end);
        return NULL;
    }
    PyObject *made = PyBytes_FromStringAndSize(NULL, (Py_ssize_t)((end - start) / 2));
    char *out = made ? PyBytes_AsString(made) : NULL;
    for (size_t at = start; made && at < end; at++) {
        unsigned digit = digit_of(letters[at]);
        if (digit == NO_DIGIT) {
            Py_DECREF(made);
            raise_wrong_text(whose, "BadHex", at);
            return NULL;
        }
        bool is_second = (at - start) % 2 == 1;
        char *byte = &out[(at - start) / 2];
        *byte = (char)(is_second ? (unsigned char)*byte | digit : digit << 4);
    }
    return made;
}

/* Returns the bytes that text of hexadecimal digits spells. 0x before them and a line end after
 * them are optional, as for the command. */
static PyObject *bytes_of_text(const struct whose *whose, PyObject *text) {
    PyObject *ascii = PyUnicode_AsEncodedString(text, "ascii", "replace");
    if (!ascii) return NULL;
    const char *letters = PyBytes_AsString(ascii);
    size_t end = length_of_line(letters, (size_t)PyBytes_Size(ascii));
    size_t start = end >= 2 && letters[0] == '0' && letters[1] == 'x' ? 2 : 0;
    PyObject *made = bytes_of_digits(whose, letters, start, end);
    Py_DECREF(ascii);
    return made;
}

/* Returns an object that keeps the bytes of a buffer, or those that text of hexadecimal digits
 * spells, and where they are. */
PyObject *given_bytes(const struct whose *whose, PyObject *data, const uint8_t **bytes,
                      size_t *length) {
    if (!PyUnicode_Check(data)) return bytes_of(data, bytes, length);
    PyObject *made = bytes_of_text(whose, data);
    if (!made) return NULL;
    *bytes = (const uint8_t *)PyBytes_AsString(made);
    *length = (size_t)PyBytes_Size(made);
    return made;
}
