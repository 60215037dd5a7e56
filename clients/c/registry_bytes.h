/* Writes a registry, type by type, for tests. */
#ifndef REGISTRY_BYTES_H
#define REGISTRY_BYTES_H
#include "scaleview.h"
#include <stdlib.h>
#include <string.h>

/* Bytes that are written; `at` is allocated, and freed by the caller. */
struct bytes {
    uint8_t *at;
    size_t length, room;
};

static inline void put(struct bytes *bytes, const void *from, size_t length) {
    if (bytes->room - bytes->length < length) {
        bytes->room = 2 * (bytes->length + length);
        bytes->at = realloc(bytes->at, bytes->room);
        if (!bytes->at) exit(4);
    }
    memcpy(bytes->at + bytes->length, from, length);
    bytes->length += length;
}

static inline void put_byte(struct bytes *bytes, uint8_t byte) { put(bytes, &byte, 1); }

/* A number below 2^30 as a compact. */
static inline void put_compact(struct bytes *bytes, uint32_t number) {
    int length = number < 1 << 6 ? 1 : number < 1 << 14 ? 2 : 4;
    uint32_t spelled = number << 2 | (uint32_t)length / 2;
    for (int i = 0; i < length; i++) put_byte(bytes, (uint8_t)(spelled >> 8 * i));
}

/* What stands before the definition of the type at this position: the position, no path and no parameters. The definition
 * is followed by a byte 0: no documents. */
static inline void put_front(struct bytes *bytes, uint32_t position) {
    put_compact(bytes, position);
    put_byte(bytes, 0);
    put_byte(bytes, 0);
}

static inline void put_primitive(struct bytes *bytes, uint32_t position, uint8_t primitive) {
    put_front(bytes, position);
    put_byte(bytes, SCALEVIEW_PRIMITIVE);
    put_byte(bytes, primitive);
    put_byte(bytes, 0);
}

static inline void put_unit(struct bytes *bytes, uint32_t position) {
    put_front(bytes, position);
    put_byte(bytes, SCALEVIEW_TUPLE);
    put_compact(bytes, 0);
    put_byte(bytes, 0);
}

static inline void put_sequence(struct bytes *bytes, uint32_t position, uint32_t element) {
    put_front(bytes, position);
    put_byte(bytes, SCALEVIEW_SEQUENCE);
    put_compact(bytes, element);
    put_byte(bytes, 0);
}

/* A field of a composite or an arm, without a name if `name` is NULL. */
static inline void put_field(struct bytes *bytes, const char *name, uint32_t type) {
    put_byte(bytes, name != NULL);
    if (name) {
        put_compact(bytes, (uint32_t)strlen(name));
        put(bytes, name, strlen(name));
    }
    put_compact(bytes, type);
    put_byte(bytes, 0);
    put_byte(bytes, 0);
}

/* A composite of one field. */
static inline void put_composite(struct bytes *bytes, uint32_t position, const char *name, uint32_t type) {
    put_front(bytes, position);
    put_byte(bytes, SCALEVIEW_COMPOSITE);
    put_compact(bytes, 1);
    put_field(bytes, name, type);
    put_byte(bytes, 0);
}
#endif
