/* Decodes SCALE, the binary codec of Polkadot and Substrate chains, into JSON text or records, and encodes records, using a
 * registry of types.
 *
 * The library behind these calls is proved: whatever bytes it gets, a call returns what it promises, or a code and a place.
 * The proof covers the library, not its caller, who must keep these rules:
 *
 * - A pointer may be NULL if its length is 0, as may `inside` of a handle; no other is. What a call writes to must not overlap
 *   anything else that it is given. No call keeps a pointer to bytes.
 * - A handle is null or was set by a call. A null handle, or one of the other kind, is answered by SCALEVIEW_NO_HANDLE. A
 *   copy of a closed or freed handle can't be recognised, and must not be used.
 * - A handle may be used on any thread. Any number of threads may make calls on one registry at the same time, and start and
 *   free sessions of it: the registry counts its sessions by an atomic number. Only during scaleview_close no other call may
 *   run on the registry or on a session of it.
 * - A session is used by one call at a time. Calls on different sessions may run at the same time.
 *
 * Places and lengths are in bytes.
 *
 * Stack: scaleview_decode and scaleview_finish use stack for each level of a value while they write its JSON. Give them a
 * thread of 128 KiB for values of depth 64, and one of 1 MiB for depth 1024. They need up to 32 KiB and 408 KiB, as measured
 * on x86-64 with glibc. No other call needs more than 16 KiB, at any depth.
 */
#ifndef SCALEVIEW_H
#define SCALEVIEW_H
#include <stdbool.h>
#include <stddef.h>
#include <stdint.h>
#ifdef __cplusplus
extern "C" {
#endif

/* The version of this header: 10000 times the major number, 100 times the minor one, and the patch number. */
#define SCALEVIEW_VERSION 100

/* The codes that a call returns. The numbers never change; new ones may be added. */
enum scaleview_code {
    SCALEVIEW_OK = 0,        /* the call succeeded */
    SCALEVIEW_MORE = 1,      /* the piece was taken, and the value is incomplete */
    SCALEVIEW_NO_ROOM = 2,   /* the text has `length` bytes and does not fit; nothing is lost */
    SCALEVIEW_MEMORY = 3,    /* an allocation failed, or would have exceeded `memory` */
    SCALEVIEW_LENT = 4,      /* a session of the registry is not freed yet, so it stays open */
    SCALEVIEW_NO_HANDLE = 5, /* the handle is null or of the other kind; nothing changes */
    SCALEVIEW_TAKEN = 6,     /* the handle to be set is not null, and is unchanged */

    /* The registry's bytes are rejected, at `at`. */
    SCALEVIEW_REGISTRY_TRUNCATED = 101,
    SCALEVIEW_REGISTRY_BAD_UTF8 = 102,
    SCALEVIEW_REGISTRY_COMPACT_NOT_SHORTEST = 103,
    SCALEVIEW_REGISTRY_COMPACT_TOO_LARGE = 104,
    SCALEVIEW_REGISTRY_BAD_OPTION = 105,
    SCALEVIEW_REGISTRY_BAD_DEFINITION = 106,
    SCALEVIEW_REGISTRY_BAD_PRIMITIVE = 107,
    SCALEVIEW_REGISTRY_ID_OUT_OF_PLACE = 108,
    SCALEVIEW_REGISTRY_NOT_METADATA = 109,
    SCALEVIEW_REGISTRY_WRONG_VERSION = 110,
    SCALEVIEW_REGISTRY_TRAILING_BYTES = 111,    /* bytes follow the registry, which ends at `at` */
    SCALEVIEW_REGISTRY_UNKNOWN_REFERENCE = 112, /* the type `from` refers to the type `at`, which does not exist */

    /* What follows the registry in metadata refers, at the place `at`, to the type `from`, which does not exist. */
    SCALEVIEW_METADATA_UNKNOWN_REFERENCE = 113,

    /* There are more types, references, names, fields or bytes of a name than numbers of 32 bits. */
    SCALEVIEW_REGISTRY_TOO_LARGE = 114,

    SCALEVIEW_UNKNOWN_TYPE = 201,       /* the registry has no type at this position */
    SCALEVIEW_LIMIT_OUT_OF_RANGE = 202, /* a limit is above 1024 for the depth, or above 2^40 for the bytes */
    SCALEVIEW_UNKNOWN_PART = 203,       /* the type has no such field, member or arm */
    SCALEVIEW_UNKNOWN_NAME = 204,       /* the metadata has no such name */
    SCALEVIEW_NO_BYTES = 205,           /* the metadata has no bytes for the name */

    /* The value's bytes are rejected, at `at`; or, by scaleview_open, what follows the registry in metadata. */
    SCALEVIEW_VALUE_TRUNCATED = 301,
    SCALEVIEW_VALUE_BAD_BOOL = 302,
    SCALEVIEW_VALUE_BAD_CHAR = 303,
    SCALEVIEW_VALUE_BAD_UTF8 = 304,
    SCALEVIEW_VALUE_COMPACT_NOT_SHORTEST = 305,
    SCALEVIEW_VALUE_COMPACT_TOO_LARGE = 306,
    SCALEVIEW_VALUE_NO_SUCH_VARIANT = 307,
    SCALEVIEW_VALUE_TOO_DEEP = 308,
    SCALEVIEW_VALUE_NO_FINITE_VALUE = 309,
    SCALEVIEW_VALUE_BIT_SEQUENCE = 310,
    SCALEVIEW_VALUE_BAD_COMPACT = 311,
    SCALEVIEW_VALUE_TOO_LONG = 312,
    SCALEVIEW_VALUE_TRAILING_BYTES = 313, /* bytes follow the value, which ends at `at` */
    SCALEVIEW_VALUE_UNUSED_BITS = 314,    /* a bit that stands for none of a bit sequence is 1 */

    /* The node at the position `at` is rejected. */
    SCALEVIEW_NODES_TOO_DEEP = 401,       /* it is deeper than `depth` */
    SCALEVIEW_NODES_NO_FINITE_VALUE = 402, /* its type has no finite value */
    SCALEVIEW_NODES_BIT_SEQUENCE = 403,   /* its type is a bit sequence that the registry doesn't read */
    SCALEVIEW_NODES_BAD_COMPACT = 404,    /* its type is a compact that wraps no unsigned integer */
    SCALEVIEW_NODES_WRONG_KIND = 405,     /* it is of another kind than its type, of no kind, or follows a complete value */
    SCALEVIEW_NODES_OUT_OF_RANGE = 406,   /* a number, a length, a range of the pool or a number of children is out of range, a
                                           * number without a meaning is not 0, or an unused bit is 1 */
    SCALEVIEW_NODES_NO_SUCH_VARIANT = 407, /* no arm has this position, or an earlier arm has its index */
    SCALEVIEW_NODES_UNFINISHED_VALUE = 408, /* a node is missing; `at` is the number of nodes */
    SCALEVIEW_NODES_BAD_TEXT = 409        /* a text is not UTF-8 */
};

/* How scaleview_open opens a registry: 0, or these joined by `|`. Other bits are ignored. */
enum scaleview_flag {
    SCALEVIEW_METADATA = 1, /* the bytes are a chain's metadata, version 14 or 15, which begins with the registry */
    SCALEVIEW_NAMES = 2,    /* the names that the metadata gives to types are read as well */
    SCALEVIEW_BITS = 4      /* values of bit sequences are read, where the store and the order are known */
};

/* The kinds of types, in the order of scale-info's TypeDef. */
enum scaleview_kind {
    SCALEVIEW_COMPOSITE = 0,
    SCALEVIEW_VARIANT = 1,
    SCALEVIEW_SEQUENCE = 2,
    SCALEVIEW_ARRAY = 3,
    SCALEVIEW_TUPLE = 4,
    SCALEVIEW_PRIMITIVE = 5,
    SCALEVIEW_COMPACT = 6,
    SCALEVIEW_BIT_SEQUENCE = 7
};

/* How many bytes the values of a type take. */
enum scaleview_class {
    SCALEVIEW_NO_VALUE = 0, /* the type has no finite value */
    SCALEVIEW_EMPTY = 1,    /* the type has one value, of no bytes */
    SCALEVIEW_SIZED = 2     /* the values take bytes */
};

/* The primitive types, in the order of scale-info's TypeDefPrimitive. */
enum scaleview_primitive {
    SCALEVIEW_BOOL = 0,
    SCALEVIEW_CHAR = 1,
    SCALEVIEW_STR = 2,
    SCALEVIEW_U8 = 3,
    SCALEVIEW_U16 = 4,
    SCALEVIEW_U32 = 5,
    SCALEVIEW_U64 = 6,
    SCALEVIEW_U128 = 7,
    SCALEVIEW_U256 = 8,
    SCALEVIEW_I8 = 9,
    SCALEVIEW_I16 = 10,
    SCALEVIEW_I32 = 11,
    SCALEVIEW_I64 = 12,
    SCALEVIEW_I128 = 13,
    SCALEVIEW_I256 = 14
};

/* What a type is. Numbers are 0 unless the kind gives them a meaning. Types are given by their positions in the registry. */
typedef struct scaleview_type_shape {
    uint32_t kind;        /* of enum scaleview_kind */
    uint32_t value_class; /* of enum scaleview_class */
    uint32_t primitive;   /* of enum scaleview_primitive, if the kind is SCALEVIEW_PRIMITIVE */
    uint32_t element;     /* the type of a sequence's or an array's elements, a compact's target, or a bit sequence's store */
    uint32_t order;       /* the type that names the order of a bit sequence, by the last segment of its path */
    uint32_t length;      /* the number of elements of an array */
    uint32_t parts;       /* the number of fields of a composite, of members of a tuple, or of arms of a variant */
} scaleview_type_shape;

/* The kinds of nodes. */
enum scaleview_node_kind {
    SCALEVIEW_NODE_EMPTY = 0,    /* the one value of a type that takes no bytes */
    SCALEVIEW_NODE_BOOL = 1,     /* `low` is 0 or 1 */
    SCALEVIEW_NODE_CHAR = 2,     /* `low` is the code point */
    SCALEVIEW_NODE_UNSIGNED = 3, /* an unsigned integer of at most 128 bits, its halves in `low` and `high` */
    SCALEVIEW_NODE_SIGNED = 4,   /* a signed one, as 128 bits of two's complement */
    SCALEVIEW_NODE_COMPACT = 5,  /* a compact integer, its halves in `low` and `high` */
    SCALEVIEW_NODE_COUNT = 6,    /* a sequence of `low` elements that take no bytes */
    SCALEVIEW_NODE_TEXT = 7,     /* a text: `high` bytes of UTF-8 from the position `low` of the pool on */
    SCALEVIEW_NODE_BYTES = 8,    /* a sequence or an array of u8: `high` bytes from the position `low` of the pool on */
    SCALEVIEW_NODE_WIDE = 9,     /* a 256-bit integer: 32 bytes, the lowest first, from the position `low` of the pool on */
    SCALEVIEW_NODE_FIELDS = 10,  /* a composite or a tuple */
    SCALEVIEW_NODE_ARM = 11,     /* a variant, whose arm is at the position `arm` of its type */
    SCALEVIEW_NODE_LIST = 12,    /* an array or a sequence of another type than u8 */
    SCALEVIEW_NODE_BITS = 13     /* a bit sequence of `high` bits, whose words begin at the position `low` of the pool */
};

/* A node of a value. The nodes of a value stand in the order of their bytes, each before its children, and the bytes of its
 * texts, byte runs, bit sequences and 256-bit integers in the same order in a pool beside them. Numbers are 0 unless the kind
 * gives them a meaning.
 *
 * The type of a SCALEVIEW_NODE_BITS says where each bit is. In the shape that scaleview_type reports of it, `element` is the
 * type of a word: u8, u16, u32 or u64, so its width w is 8, 16, 32 or 64. `order` is a type whose path ends with Lsb0 or Msb0.
 * The words have w / 8 * ceil(high / w) bytes in the pool, and each is little-endian. Bit i is in the word floor(i / w), where
 * it has the value 2^(i mod w) with Lsb0, and 2^(w - 1 - i mod w) with Msb0. The unused bits of the last word are 0. */
typedef struct scaleview_node {
    uint32_t kind;     /* of enum scaleview_node_kind */
    uint32_t type;     /* the position of its type */
    uint32_t children; /* how many children it has; each follows with its own subtree */
    uint32_t arm;      /* the position of a variant's arm, which is not its index */
    uint64_t low;      /* a number's low half, or a place in the pool; of a composite, a tuple, a variant or a list how many
                        * nodes its subtree has, itself included */
    uint64_t high;     /* a number's high half, how many bytes it has in the pool, or how many bits it has */
} scaleview_node;

/* A step of the path from a value to one of its parts: a node, and which of its parts is meant. */
typedef struct scaleview_step {
    uint32_t type; /* the position of the node's type */
    uint32_t arm;  /* of a variant, the position of its arm, which is not its index; otherwise 0 */
    uint32_t part; /* the position of the part, from 0: of a field, a member or an element */
} scaleview_step;

/* What a call reports besides its code, which is repeated here. Numbers are 0 unless the code gives them a meaning. */
typedef struct scaleview_answer {
    uint32_t code;
    uint32_t from;   /* the position of the type that has the unknown reference, or that metadata refers to; the version of an
                      * open registry's metadata; the type of a part, of a name or at the end of a path; or the index of an
                      * arm */
    uint64_t at;     /* the place of an error, or where an open registry ends or an opaque value begins, in bytes from the
                      * start of the input; 1 if a part has a name, a name has bytes or a path ends at a node; the number of an
                      * arm's fields; the position of a type or of a node; or the number of bytes of a pool */
    uint64_t length; /* the number of bytes of a text, of a name's bytes, of an opaque value, of types, of nodes, of steps, or
                      * of bytes of a piece that belong to the value */
} scaleview_answer;

/* An open registry, or null: `inside` is NULL, as after `= {NULL}` and after scaleview_close. It may be copied. All copies
 * are the same registry, and none may be used once one was closed. */
typedef struct scaleview_registry {
    void *inside;
} scaleview_registry;

/* A value in progress, or null: `inside` is NULL. It has one owner, and no copy of it may be used. */
typedef struct scaleview_session {
    void *inside;
} scaleview_session;

/* Opens the registry that all the bytes hold. `flags` is 0, or of enum scaleview_flag. With SCALEVIEW_METADATA the bytes are a
 * chain's metadata, version 14 or 15, which begins with the registry; what follows it is only read with SCALEVIEW_NAMES. The
 * bytes are not kept.
 *
 * Opening has no budget of memory: it may hold some 35 times `length` bytes, and holds some 8 times for a runtime's registry. To
 * bound the memory for bytes that aren't trusted, bound `length`.
 *
 * With both, all of the metadata is read, and it has to end with the bytes. The registry then has its own types and, after
 * them, synthetic ones: those of extrinsics, of storage keys and of the parameters of runtime calls, and the few small types
 * that these need. Its own types never refer to synthetic ones. scaleview_name and the calls after it ask for the names.
 * Without SCALEVIEW_METADATA the flag SCALEVIEW_NAMES is ignored.
 *
 * With SCALEVIEW_BITS, values of a bit sequence are read if its store is the primitive u8, u16, u32 or u64 itself, and its
 * order is a composite without fields, with a path that ends with Lsb0 or Msb0. Values of all others, and of every bit sequence
 * without the flag, are rejected with SCALEVIEW_VALUE_BIT_SEQUENCE. The calls that describe types report the same either way.
 *
 * `registry` must be null, or the call returns SCALEVIEW_TAKEN. After SCALEVIEW_OK it is a registry that the caller closes;
 * `answer->length` is its number of types, synthetic ones included, `answer->at` is where its own bytes end, and
 * `answer->from` is the version of the metadata, or 0 without SCALEVIEW_METADATA. Otherwise the call returns SCALEVIEW_MEMORY
 * or a code of SCALEVIEW_REGISTRY_*, and `registry` stays null.
 *
 * With the names, errors are looked for in this order: those of the registry's bytes; those of what follows it, which are
 * SCALEVIEW_VALUE_TRUNCATED, _BAD_UTF8, _COMPACT_NOT_SHORTEST, _COMPACT_TOO_LARGE, _NO_SUCH_VARIANT and, above 2^28 bytes,
 * _TOO_LONG; SCALEVIEW_REGISTRY_TRAILING_BYTES if bytes follow the metadata, which ends at `at`;
 * SCALEVIEW_METADATA_UNKNOWN_REFERENCE; and SCALEVIEW_REGISTRY_UNKNOWN_REFERENCE. All places count from the first byte of the
 * metadata. */
uint32_t scaleview_open(const uint8_t *bytes, size_t length, uint32_t flags, scaleview_registry *registry,
                        scaleview_answer *answer);

/* Frees a registry, sets it to null and returns SCALEVIEW_OK. While a session of it is not freed, the call returns
 * SCALEVIEW_LENT and changes nothing: free the sessions first, in any order. Otherwise it returns SCALEVIEW_NO_HANDLE. */
uint32_t scaleview_close(scaleview_registry *registry);

/* Reports the number of types of a registry, synthetic ones included, in `answer->length`; their positions are below that.
 * Otherwise it returns SCALEVIEW_NO_HANDLE. */
uint32_t scaleview_types(scaleview_registry registry, scaleview_answer *answer);

/* Writes the line of the registry's type at this position to the front of `out`: its position, class, kind and path,
 * separated by one space, and a line feed. It is UTF-8 of `answer->length` bytes, without a terminating 0.
 *
 * Otherwise it returns SCALEVIEW_NO_ROOM, SCALEVIEW_UNKNOWN_TYPE, SCALEVIEW_MEMORY or SCALEVIEW_NO_HANDLE, and `out` is
 * unchanged. */
uint32_t scaleview_type_line(scaleview_registry registry, uint32_t type, uint8_t *out, size_t room,
                             scaleview_answer *answer);

/* Reports what the registry's type at this position is, in `shape`.
 *
 * Otherwise it returns SCALEVIEW_UNKNOWN_TYPE or SCALEVIEW_NO_HANDLE, and `shape` is unchanged. */
uint32_t scaleview_type(scaleview_registry registry, uint32_t type, scaleview_type_shape *shape,
                        scaleview_answer *answer);

/* Reports the field of a composite, or the member of a tuple, at the position `part`: `answer->from` is its type,
 * `answer->at` is 1 if it has a name and otherwise 0, and `answer->length` is the number of bytes of the name. The name is
 * written to the front of `out`: UTF-8, without a terminating 0. A member of a tuple and a field of a tuple struct have none.
 *
 * After SCALEVIEW_NO_ROOM the numbers are the same, and `out` is unchanged. Otherwise the call returns
 * SCALEVIEW_UNKNOWN_TYPE, SCALEVIEW_NO_HANDLE, or SCALEVIEW_UNKNOWN_PART if the type is neither a composite nor a tuple or has
 * no more parts, and `out` is unchanged. */
uint32_t scaleview_part(scaleview_registry registry, uint32_t type, uint32_t part, uint8_t *out, size_t room,
                        scaleview_answer *answer);

/* Reports the arm of a variant at the position `arm`: `answer->from` is its index, which is the first byte of its values,
 * `answer->at` is the number of its fields, and `answer->length` is the number of bytes of its name. The name is written to
 * the front of `out`: UTF-8, without a terminating 0.
 *
 * After SCALEVIEW_NO_ROOM the numbers are the same, and `out` is unchanged. Otherwise the call returns
 * SCALEVIEW_UNKNOWN_TYPE, SCALEVIEW_NO_HANDLE, or SCALEVIEW_UNKNOWN_PART if the type is no variant or has no more arms, and
 * `out` is unchanged. */
uint32_t scaleview_arm(scaleview_registry registry, uint32_t type, uint32_t arm, uint8_t *out, size_t room,
                       scaleview_answer *answer);

/* Reports the field, at the position `field`, of the arm of a variant at the position `arm`, as scaleview_part does. It
 * returns SCALEVIEW_UNKNOWN_PART if the type is no variant, or has no such arm, or the arm no such field. */
uint32_t scaleview_arm_field(scaleview_registry registry, uint32_t type, uint32_t arm, uint32_t field, uint8_t *out,
                             size_t room, scaleview_answer *answer);

/* Stands for no position of an arm or of a field. */
#define SCALEVIEW_NONE UINT32_MAX

/* Reports the parameter at the position `param` of a generic type: `answer->from` is the type that stands for it,
 * `answer->at` is 1 if there is one and otherwise 0, and `answer->length` is the number of bytes of the parameter's name. The
 * name is written to the front of `out`: UTF-8, without a terminating 0.
 *
 * After SCALEVIEW_NO_ROOM the numbers are the same, and `out` is unchanged. Otherwise the call returns
 * SCALEVIEW_UNKNOWN_TYPE, SCALEVIEW_NO_HANDLE, or SCALEVIEW_UNKNOWN_PART if the type has no more parameters, and `out` is
 * unchanged. A type that stands for a parameter need not be one of the registry's. */
uint32_t scaleview_param(scaleview_registry registry, uint32_t type, uint32_t param, uint8_t *out, size_t room,
                         scaleview_answer *answer);

/* Writes the name of a field's type, as the source has it, to the front of `out`: UTF-8 of `answer->length` bytes, without a
 * terminating 0. `answer->at` is 1 if the registry has it and otherwise 0. `arm` is the position of a variant's arm, or
 * SCALEVIEW_NONE for a field of a composite.
 *
 * After SCALEVIEW_NO_ROOM the numbers are the same, and `out` is unchanged. Otherwise the call returns
 * SCALEVIEW_UNKNOWN_TYPE, SCALEVIEW_NO_HANDLE, or SCALEVIEW_UNKNOWN_PART if there is no such field, and `out` is unchanged. */
uint32_t scaleview_type_name(scaleview_registry registry, uint32_t type, uint32_t arm, uint32_t field, uint8_t *out,
                             size_t room, scaleview_answer *answer);

/* Writes the line at the position `line` of a documentation to the front of `out`: UTF-8 of `answer->length` bytes, without
 * a terminating 0. With SCALEVIEW_NONE for both `arm` and `field` it is the type's, with SCALEVIEW_NONE for `field` that of the
 * arm at the position `arm`, with SCALEVIEW_NONE for `arm` that of a composite's field, and otherwise that of an arm's field.
 *
 * After SCALEVIEW_NO_ROOM the length is the same, and `out` is unchanged. Otherwise the call returns SCALEVIEW_UNKNOWN_TYPE,
 * SCALEVIEW_NO_HANDLE, or SCALEVIEW_UNKNOWN_PART if there is no such part or it has no more lines, and `out` is unchanged. */
uint32_t scaleview_docs(scaleview_registry registry, uint32_t type, uint32_t arm, uint32_t field, uint32_t line, uint8_t *out,
                        size_t room, scaleview_answer *answer);

/* Writes the path of the registry's type at this position to the front of `out`, its segments joined by "::". It is UTF-8 of
 * `answer->length` bytes, without a terminating 0; a type without a path has no byte.
 *
 * Otherwise it returns SCALEVIEW_NO_ROOM, SCALEVIEW_UNKNOWN_TYPE, SCALEVIEW_MEMORY or SCALEVIEW_NO_HANDLE, and `out` is
 * unchanged. */
uint32_t scaleview_path(scaleview_registry registry, uint32_t type, uint8_t *out, size_t room, scaleview_answer *answer);

/* Finds the first type, from the position `from` on, whose path is these bytes, as scaleview_path writes it, and reports its
 * position in `answer->at`. To find all types of a path, call it again from the next position. An empty path finds the first
 * type that has none. Otherwise it returns SCALEVIEW_UNKNOWN_TYPE or SCALEVIEW_NO_HANDLE. */
uint32_t scaleview_find(scaleview_registry registry, uint32_t from, const uint8_t *path, size_t length,
                        scaleview_answer *answer);

/* Finds the name that these bytes are, such as "storage:System.Account", and reports the position of its type in
 * `answer->from`. `answer->at` is 1 if the metadata has bytes for it and otherwise 0, and `answer->length` is the number of
 * those bytes. Names are compared byte by byte and as a whole. The time is linear in the number of names times `length`.
 *
 * With P a pallet, E a storage entry, C a constant, A a runtime API, M a method and X a custom value, each as it stands in the
 * metadata, the names and their types are
 *
 * - extrinsic: the synthetic type of extrinsics; scaleview_opaque reads the length in front of them;
 * - call, event, error: the outer enums;
 * - calls:P, events:P, errors:P: those of a pallet;
 * - storage:P.E, key:P.E: the value of a storage entry, and the synthetic type of its keys;
 * - constant:P.C, custom:X: that of the constant or of the custom value;
 * - result:A.M, params:A.M: a method's output, and the synthetic type of its inputs, a composite.
 *
 * A constant and a custom value have bytes, and so has a storage entry whose absent values have a default.
 *
 * Otherwise it returns SCALEVIEW_UNKNOWN_NAME or SCALEVIEW_NO_HANDLE. A registry that was opened without SCALEVIEW_NAMES has
 * no names. */
uint32_t scaleview_name(scaleview_registry registry, const uint8_t *name, size_t length, scaleview_answer *answer);

/* Writes the name at this index to the front of `out`: UTF-8 of `answer->length` bytes, without a terminating 0. Indices are
 * from 0 on in the order of the command's `names`, where each name stands once. `answer->from` is the position of its type,
 * and `answer->at` is 1 if the metadata has bytes for it and otherwise 0.
 *
 * The time doesn't depend on the index. After SCALEVIEW_NO_ROOM the numbers are the same, and `out` is unchanged. Otherwise the
 * call returns SCALEVIEW_UNKNOWN_NAME if there are no more names, SCALEVIEW_MEMORY or SCALEVIEW_NO_HANDLE, and `out` is
 * unchanged. */
uint32_t scaleview_name_at(scaleview_registry registry, uint32_t index, uint8_t *out, size_t room, scaleview_answer *answer);

/* Writes the bytes that the metadata has for a name to the front of `out`: `answer->length` bytes. They are the value of a
 * constant or a custom value, or the default of a storage entry, and are not looked at before they are decoded.
 *
 * Otherwise it returns SCALEVIEW_NO_ROOM with the same length, SCALEVIEW_UNKNOWN_NAME, SCALEVIEW_NO_BYTES or
 * SCALEVIEW_NO_HANDLE, and `out` is unchanged. */
uint32_t scaleview_name_bytes(scaleview_registry registry, const uint8_t *name, size_t length, uint8_t *out, size_t room,
                              scaleview_answer *answer);

/* Reads the length in front of an opaque value, as an extrinsic in a block is: `answer->at` is where the value begins, and
 * `answer->length` is its number of bytes, which end with the input. It needs no registry. The value itself is not read: a
 * call that decodes it, from `bytes + answer->at` on, counts places from there, and the caller adds `answer->at`.
 *
 * Otherwise it returns SCALEVIEW_VALUE_COMPACT_TOO_LARGE, SCALEVIEW_VALUE_COMPACT_NOT_SHORTEST, SCALEVIEW_VALUE_TRUNCATED at
 * the end of the input, or SCALEVIEW_VALUE_TRAILING_BYTES at the end of the bytes that the length counts. */
uint32_t scaleview_opaque(const uint8_t *bytes, size_t length, scaleview_answer *answer);

/* Decodes the value, of the type at this position, that all the bytes spell, and writes its JSON to the front of `out`: UTF-8
 * of `answer->length` bytes, without a terminating 0. The value has at most `limit` bytes, up to 2^40, and no part of it is
 * deeper than `depth`, up to 1024; the value itself has depth 0. A bit sequence is a string: 0b, and each bit in order as 0
 * or 1.
 *
 * `memory` is the most bytes that the library may hold at once for the value and its text; 0 stands for no budget. If more
 * are needed, the call returns SCALEVIEW_MEMORY. What counts:
 *
 * - the value: a list of its nodes, 24 bytes each; one of its open levels, 24 bytes each; and one of the bytes of its
 *   texts, byte runs, bit sequences and integers above 64 bits. Each has spare capacity: at first for 16 elements, and
 *   later for up to three times as many as it has;
 * - the text while it is written. Its capacity is at most 256 bytes more than twice its length. A value that is one
 *   byte run, or one text without an escape, takes no memory here.
 *
 * Where `realloc` moves a list or text that grows, the heap has the old memory too until it is copied; that doesn't count. Nor
 * do the registry; a fixed number of bytes for each call and session; and, while the text is written, 40 bytes for each field
 * of an open object with more than eight fields whose names are out of order.
 *
 * Otherwise it returns SCALEVIEW_NO_ROOM, SCALEVIEW_UNKNOWN_TYPE, SCALEVIEW_LIMIT_OUT_OF_RANGE, SCALEVIEW_MEMORY,
 * SCALEVIEW_NO_HANDLE or a code of SCALEVIEW_VALUE_*, and `out` is unchanged. After SCALEVIEW_NO_ROOM a call with more room
 * decodes again; a session keeps its value. */
uint32_t scaleview_decode(scaleview_registry registry, uint32_t type, uint16_t depth, uint64_t limit, uint64_t memory,
                          const uint8_t *bytes, size_t length, uint8_t *out, size_t room, scaleview_answer *answer);

/* Decodes a value as scaleview_decode does, and writes its nodes to the front of `nodes` and their bytes to the front of
 * `pool`: `answer->length` nodes and `answer->at` bytes. `memory` bounds the value alone, since there is no text.
 *
 * If either has no room, the call returns SCALEVIEW_NO_ROOM with the same numbers. Otherwise it returns what scaleview_decode
 * does. Unless it returns SCALEVIEW_OK, nothing is written. */
uint32_t scaleview_decode_nodes(scaleview_registry registry, uint32_t type, uint16_t depth, uint64_t limit, uint64_t memory,
                                const uint8_t *bytes, size_t length, scaleview_node *nodes, size_t node_room, uint8_t *pool,
                                size_t pool_room, scaleview_answer *answer);

/* Reports where in a value its bytes are rejected or end. The numbers are those of scaleview_decode, which returned a code of
 * SCALEVIEW_VALUE_* for the same bytes. They are decoded again, up to the error, and nothing after it matters.
 *
 * The path is written to the front of `steps`: `answer->length` steps, the first one from the value itself, the next one from
 * the part that the first one names, and so on. The part that the last step names is the node at which the bytes are rejected
 * or end; `answer->from` is its type, and `answer->at` is 1. It is the value itself if there are no steps. A type that is
 * wrapped has a step too, since it is the only part of a composite or of a tuple. If the bytes begin with a complete value,
 * as they do with SCALEVIEW_VALUE_TRAILING_BYTES, there are no steps, and both numbers are 0.
 *
 * There are at most `depth` + 1 steps. If they have no room, the call returns SCALEVIEW_NO_ROOM with the same numbers.
 * Otherwise it returns SCALEVIEW_UNKNOWN_TYPE, SCALEVIEW_LIMIT_OUT_OF_RANGE, SCALEVIEW_MEMORY or SCALEVIEW_NO_HANDLE. Unless
 * it returns SCALEVIEW_OK, nothing is written. */
uint32_t scaleview_path_of(scaleview_registry registry, uint32_t type, uint16_t depth, uint64_t limit, uint64_t memory,
                           const uint8_t *bytes, size_t length, scaleview_step *steps, size_t room, scaleview_answer *answer);

/* Encodes the value, of the type at this position, whose nodes these are, and writes its bytes to the front of `out`:
 * `answer->length` bytes, which scaleview_decode_nodes turns into the same nodes. No node is deeper than `depth`, up to 1024.
 * `memory` is the most bytes that the library allocates at once for the value and its bytes; 0 stands for no budget.
 *
 * Of a node, `type` is read only if it is a SCALEVIEW_NODE_BITS: it has to be the node's own type, which says how many bytes
 * its words have. `low` of a composite, a tuple, a variant or a list is not read. Every other number that its kind gives no
 * meaning has to be 0. Two nodes may have the same bytes of the pool.
 *
 * Otherwise it returns SCALEVIEW_NO_ROOM, SCALEVIEW_UNKNOWN_TYPE, SCALEVIEW_LIMIT_OUT_OF_RANGE, SCALEVIEW_MEMORY,
 * SCALEVIEW_NO_HANDLE, or a code of SCALEVIEW_NODES_* with the position of the first node that is rejected in
 * `answer->at`, and `out` is unchanged. */
uint32_t scaleview_encode_nodes(scaleview_registry registry, uint32_t type, uint16_t depth, uint64_t memory,
                                const scaleview_node *nodes, size_t count, const uint8_t *pool, size_t pool_length,
                                uint8_t *out, size_t room, scaleview_answer *answer);

/* Starts a value whose bytes come in pieces. The numbers are those of scaleview_decode, and `memory` bounds what all calls on
 * the session hold. The registry can't be closed until the session is freed.
 *
 * `session` must be null, or the call returns SCALEVIEW_TAKEN. After SCALEVIEW_OK it is a session that the caller frees.
 * Otherwise the call returns SCALEVIEW_UNKNOWN_TYPE, SCALEVIEW_LIMIT_OUT_OF_RANGE, SCALEVIEW_MEMORY or
 * SCALEVIEW_NO_HANDLE, and `session` stays null. */
uint32_t scaleview_start(scaleview_registry registry, uint32_t type, uint16_t depth, uint64_t limit, uint64_t memory,
                         scaleview_session *session, scaleview_answer *answer);

/* Feeds the next piece, which may be empty. It returns
 *
 * - SCALEVIEW_MORE if all bytes of the piece were taken and the value is incomplete;
 * - SCALEVIEW_OK if the value is complete, with `answer->length` bytes of this piece; every later call returns it with 0;
 * - SCALEVIEW_MEMORY or a code of SCALEVIEW_VALUE_* with its place in all pieces, as does every later call;
 * - SCALEVIEW_NO_HANDLE. */
uint32_t scaleview_feed(scaleview_session *session, const uint8_t *piece, size_t length, scaleview_answer *answer);

/* Report the number of bytes taken of all pieces, of nodes held, and of bytes of texts, byte runs and bit sequences held, in
 * `answer->length`. After an error no nodes and no bytes are held. After scaleview_finish the number of bytes taken is 0, and
 * the others are those of the value, which is kept. Otherwise they return SCALEVIEW_NO_HANDLE. */
uint32_t scaleview_taken(scaleview_session *session, scaleview_answer *answer);
uint32_t scaleview_nodes(scaleview_session *session, scaleview_answer *answer);
uint32_t scaleview_text_bytes(scaleview_session *session, scaleview_answer *answer);

/* Ends the value, and writes its JSON to the front of `out` as scaleview_decode does. The value is kept until the session is
 * freed, and its text is made in each call: after SCALEVIEW_NO_ROOM call it again with more room. If there is no memory for
 * the text, the call returns SCALEVIEW_MEMORY, and a later call may succeed.
 *
 * If the value is incomplete, the call returns SCALEVIEW_VALUE_TRUNCATED at the number of bytes taken; if it was rejected,
 * that code, also SCALEVIEW_MEMORY; every later call returns the same. No piece is taken afterwards: scaleview_feed then
 * returns SCALEVIEW_OK for a complete value, and that code for others. Otherwise it returns SCALEVIEW_NO_HANDLE. */
uint32_t scaleview_finish(scaleview_session *session, uint8_t *out, size_t room, scaleview_answer *answer);

/* Ends the value as scaleview_finish does, and writes its nodes as scaleview_decode_nodes does. It needs no memory. */
uint32_t scaleview_finish_nodes(scaleview_session *session, scaleview_node *nodes, size_t node_room, uint8_t *pool,
                                size_t pool_room, scaleview_answer *answer);

/* Frees a session, sets it to null and returns SCALEVIEW_OK, or SCALEVIEW_NO_HANDLE if it is null. */
uint32_t scaleview_free(scaleview_session *session);

/* Writes the name of a code, such as "Truncated", to the front of `out`: ASCII of `answer->length` bytes, at most 18, without
 * a terminating 0. For a number that is no code the name is empty. Otherwise it returns SCALEVIEW_NO_ROOM, and `out` is
 * unchanged. */
uint32_t scaleview_reason(uint32_t code, uint8_t *out, size_t room, scaleview_answer *answer);

/* Returns the version of the library, which is SCALEVIEW_VERSION if this header is its own. */
uint32_t scaleview_version(void);

#ifdef __cplusplus
}
#endif
#endif
