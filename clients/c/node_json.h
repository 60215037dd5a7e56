/* Writes the nodes of a value as the JSON that scaleview_decode writes, by the calls that describe types. It shows how nodes
 * are walked; the tables of test vectors are checked by it. */
#ifndef NODE_JSON_H
#define NODE_JSON_H
#include "scaleview.h"
#include <stdio.h>
#include <stdlib.h>
#include <string.h>

/* Nodes with their pool and their registry, and a text that is written; `at` is its end. */
struct node_text {
    scaleview_registry registry;
    const uint8_t *pool;
    char *at;
};

/* A field of an object: its name, and which child of its node it is. */
struct node_field {
    uint8_t *name;
    size_t length;
    uint32_t child;
};

/* Ends the program where a name was not read. */
static inline void expect_name(const scaleview_answer *answer) {
    if (answer->code == SCALEVIEW_OK) return;
    fprintf(stderr, "scaleview: a name was not read: code %u\n", answer->code);
    exit(5);
}

/* Memory for a name that has no room yet, which the caller frees. */
static inline uint8_t *name_room(const scaleview_answer *answer) {
    uint8_t *name = malloc((size_t)answer->length + 1);
    if (!name) exit(4);
    return name;
}

/* Writes the name of a node's child, or of its arm if `child` is NULL. */
static inline uint32_t write_name(scaleview_registry registry, const scaleview_node *node,
                                  const uint32_t *child, uint8_t *out, size_t room,
                                  scaleview_answer *answer) {
    if (!child) return scaleview_arm(registry, node->type, node->arm, out, room, answer);
    if (node->kind == SCALEVIEW_NODE_ARM)
        return scaleview_arm_field(registry, node->type, node->arm, *child, out, room, answer);
    return scaleview_part(registry, node->type, *child, out, room, answer);
}

/* The same name in memory that the caller frees. */
static inline uint8_t *name_of(scaleview_registry registry, const scaleview_node *node,
                               const uint32_t *child, scaleview_answer *answer) {
    write_name(registry, node, child, NULL, 0, answer);
    uint8_t *name = name_room(answer);
    write_name(registry, node, child, name, (size_t)answer->length, answer);
    expect_name(answer);
    return name;
}

static inline void put_bytes(struct node_text *text, const void *bytes, size_t length) {
    memcpy(text->at, bytes, length);
    text->at += length;
}

static inline void put_string(struct node_text *text, const uint8_t *bytes, size_t length) {
    static const char short_escapes[] = "\b\f\n\r\t\"\\", letters[] = "bfnrt\"\\";
    *text->at++ = '"';
    for (size_t i = 0; i < length; i++) {
        const char *found = bytes[i] ? strchr(short_escapes, bytes[i]) : NULL;
        if (found)
            text->at += sprintf(text->at, "\\%c", letters[found - short_escapes]);
        else if (bytes[i] < 0x20)
            text->at += sprintf(text->at, "\\u%04x", bytes[i]);
        else
            *text->at++ = (char)bytes[i];
    }
    *text->at++ = '"';
}

static inline void put_char(struct node_text *text, uint32_t code) {
    uint8_t utf8[4];
    size_t length = code < 0x80 ? 1 : code < 0x800 ? 2 : code < 0x10000 ? 3 : 4;
    static const uint8_t leads[] = {0, 0, 0xc0, 0xe0, 0xf0};
    for (size_t i = length; i-- > 1; code >>= 6) utf8[i] = (uint8_t)(0x80 | (code & 0x3f));
    utf8[0] = (uint8_t)(leads[length] | code);
    put_string(text, utf8, length);
}

/* The decimal digits of an integer of two halves. */
static inline void put_digits(struct node_text *text, uint64_t high, uint64_t low) {
    // `__extension__` says that this type of the compiler's own is meant.
    __extension__ typedef unsigned __int128 wide;
    char digits[40];
    size_t count = 0;
    wide number = (wide)high << 64 | low;
    do digits[count++] = (char)('0' + (unsigned)(number % 10));
    while ((number /= 10) > 0);
    while (count > 0) *text->at++ = digits[--count];
}

/* A text of the hexadecimal digits of bytes. */
static inline void put_hex(struct node_text *text, const uint8_t *bytes, uint64_t length, bool backwards) {
    put_bytes(text, "\"0x", 3);
    for (uint64_t i = 0; i < length; i++) text->at += sprintf(text->at, "%02x", bytes[backwards ? length - 1 - i : i]);
    *text->at++ = '"';
}

/* A text of the bits of a bit sequence. Its type says how they stand in its words. */
static inline void put_bits(struct node_text *text, const scaleview_node *node) {
    scaleview_type_shape shape, word;
    scaleview_answer answer;
    scaleview_type(text->registry, node->type, &shape, &answer);
    scaleview_type(text->registry, shape.element, &word, &answer);
    scaleview_path(text->registry, shape.order, NULL, 0, &answer);
    uint8_t *order = name_room(&answer);
    scaleview_path(text->registry, shape.order, order, (size_t)answer.length, &answer);
    expect_name(&answer);
    bool is_msb = order[answer.length - 4] == 'M';
    free(order);
    uint64_t width = 8ull << (word.primitive - SCALEVIEW_U8);
    put_bytes(text, "\"0b", 3);
    for (uint64_t i = 0; i < node->high; i++) {
        uint64_t in_word = is_msb ? width - 1 - i % width : i % width;
        uint8_t byte = text->pool[node->low + i / width * (width / 8) + in_word / 8];
        *text->at++ = byte >> in_word % 8 & 1 ? '1' : '0';
    }
    *text->at++ = '"';
}

/* What the values of a type that wraps one primitive are, as a compact does. */
static inline uint32_t primitive_of(scaleview_registry registry, uint32_t type) {
    scaleview_type_shape shape;
    scaleview_answer answer;
    while (scaleview_type(registry, type, &shape, &answer) == SCALEVIEW_OK) {
        if (shape.kind == SCALEVIEW_PRIMITIVE) return shape.primitive;
        if (shape.kind == SCALEVIEW_COMPACT) {
            type = shape.element;
        } else {
            uint32_t code = scaleview_part(registry, type, 0, NULL, 0, &answer);
            if (code != SCALEVIEW_OK && code != SCALEVIEW_NO_ROOM) break;
            type = answer.from;
        }
    }
    return SCALEVIEW_U8;
}

/* An integer of at most 128 bits, as a text if its type has more than eight bytes. */
static inline void put_integer(struct node_text *text, const scaleview_node *node) {
    uint32_t primitive = primitive_of(text->registry, node->type);
    bool is_text = primitive == SCALEVIEW_U128 || primitive == SCALEVIEW_I128;
    bool is_negative = node->kind == SCALEVIEW_NODE_SIGNED && node->high >> 63;
    if (is_text) *text->at++ = '"';
    if (is_negative) *text->at++ = '-';
    put_digits(text, is_negative ? ~node->high + (node->low == 0) : node->high, is_negative ? 0 - node->low : node->low);
    if (is_text) *text->at++ = '"';
}

static inline int by_name(const void *one, const void *other) {
    const struct node_field *a = one, *b = other;
    size_t length = a->length < b->length ? a->length : b->length;
    int order = length ? memcmp(a->name, b->name, length) : 0;
    return order ? order : (a->length > b->length) - (a->length < b->length);
}

/* The names of a node's fields in order; false if one has none or two are the same. */
static inline bool read_names(struct node_text *text, const scaleview_node *node, struct node_field *fields) {
    bool are_named = node->children > 0;
    for (uint32_t i = 0; i < node->children; i++) {
        scaleview_answer answer;
        struct node_field *field = &fields[i];
        *field = (struct node_field){name_of(text->registry, node, &i, &answer), 0, i};
        field->length = (size_t)answer.length;
        are_named = are_named && answer.at == 1;
    }
    if (are_named) qsort(fields, node->children, sizeof *fields, by_name);
    for (uint32_t i = 1; i < node->children && are_named; i++) are_named = by_name(&fields[i - 1], &fields[i]) != 0;
    return are_named;
}

static inline const scaleview_node *after(const scaleview_node *node) {
    bool is_branch = node->kind >= SCALEVIEW_NODE_FIELDS && node->kind <= SCALEVIEW_NODE_LIST;
    return node + (is_branch ? node->low : 1);
}

static inline void put_node(struct node_text *text, const scaleview_node *node);

/* The children of a node: an object if `fields` has their names, and else an array. */
static inline void put_children(struct node_text *text, const scaleview_node *node, const struct node_field *fields) {
    *text->at++ = fields ? '{' : '[';
    const scaleview_node *next = node + 1;
    for (uint32_t i = 0; i < node->children; i++) {
        if (i > 0) *text->at++ = ',';
        if (fields) {
            put_string(text, fields[i].name, fields[i].length);
            *text->at++ = ':';
            next = node + 1;
            for (uint32_t child = 0; child < fields[i].child; child++) next = after(next);
        }
        put_node(text, next);
        next = after(next);
    }
    *text->at++ = fields ? '}' : ']';
}

static inline void put_fields(struct node_text *text, const scaleview_node *node) {
    struct node_field *fields = calloc(node->children + 1, sizeof *fields);
    if (!fields) exit(4);
    put_children(text, node, read_names(text, node, fields) ? fields : NULL);
    for (uint32_t i = 0; i < node->children; i++) free(fields[i].name);
    free(fields);
}

static inline void put_arm(struct node_text *text, const scaleview_node *node) {
    scaleview_answer answer;
    uint8_t *name = name_of(text->registry, node, NULL, &answer);
    *text->at++ = '{';
    put_string(text, name, (size_t)answer.length);
    free(name);
    *text->at++ = ':';
    put_fields(text, node);
    *text->at++ = '}';
}

static inline void put_node(struct node_text *text, const scaleview_node *node) {
    switch (node->kind) {
    case SCALEVIEW_NODE_EMPTY: put_bytes(text, "null", 4); return;
    case SCALEVIEW_NODE_BOOL: text->at += sprintf(text->at, "%s", node->low ? "true" : "false"); return;
    case SCALEVIEW_NODE_CHAR: put_char(text, (uint32_t)node->low); return;
    case SCALEVIEW_NODE_COUNT: text->at += sprintf(text->at, "{\"count\":%llu}", (unsigned long long)node->low); return;
    case SCALEVIEW_NODE_TEXT: put_string(text, text->pool + node->low, (size_t)node->high); return;
    case SCALEVIEW_NODE_BYTES: put_hex(text, text->pool + node->low, node->high, false); return;
    case SCALEVIEW_NODE_WIDE: put_hex(text, text->pool + node->low, node->high, true); return;
    case SCALEVIEW_NODE_BITS: put_bits(text, node); return;
    case SCALEVIEW_NODE_FIELDS: put_fields(text, node); return;
    case SCALEVIEW_NODE_ARM: put_arm(text, node); return;
    case SCALEVIEW_NODE_LIST: put_children(text, node, NULL); return;
    default: put_integer(text, node);
    }
}

/* Writes the value with these nodes to `out`, which has room for it, and returns the text's length. */
static inline size_t node_json(scaleview_registry registry, const scaleview_node *nodes, const uint8_t *pool, char *out) {
    struct node_text text = {registry, pool, out};
    put_node(&text, nodes);
    return (size_t)(text.at - out);
}
#endif
