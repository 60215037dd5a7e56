/* Measures how much stack calls need: the smallest multiple of 4 KiB with which a thread makes a call on a value of a given
 * depth. A stack that is too small ends the process, so each size is tried in a process of its own. */
#define _DEFAULT_SOURCE
#include "chain_bytes.h"
#include "registry_bytes.h"
#include "scaleview.h"
#include <pthread.h>
#include <stdio.h>
#include <sys/resource.h>
#include <sys/wait.h>
#include <unistd.h>

enum { KIB = 1 << 10, STEP = 4 * KIB, LEAST = 16 * KIB, MOST = 4 << 20, GUARD = 1 << 20 };
enum { OUT_ROOM = 1 << 16, NODE_ROOM = 1 << 12 };

/* How a process ends that was not ended by its stack: no thread has a stack so small, or the call failed. */
enum { TOO_SMALL = 2, FAILED = 3 };

static int failures = 0;

static void check(const char *what, bool is_so) {
    if (!is_so) {
        printf("stack: not so: %s\n", what);
        failures++;
    }
}

/* A value of this depth, and memory for what is made of it. */
struct value {
    struct bytes registry_bytes, bytes;
    uint16_t depth;
    scaleview_registry registry;
    scaleview_node nodes[NODE_ROOM];
    uint64_t count; /* of its nodes */
    uint8_t out[OUT_ROOM], pool[1];
};

static struct value value;

/* How the fields of a shape are named: not at all, one in order, or two out of order. */
enum names { UNNAMED, NAMED, OUT_OF_ORDER };

/* A field of the type `next`, and if names are to be out of order one of the type `byte` after it. */
static void put_fields(enum names names, uint32_t next, uint32_t byte) {
    put_compact(&value.registry_bytes, names == OUT_OF_ORDER ? 2 : 1);
    put_field(&value.registry_bytes, names == UNNAMED ? NULL : "next", next);
    if (names == OUT_OF_ORDER) put_field(&value.registry_bytes, "a", byte);
}

/* Composites in each other, and in the last one a u8. */
static void put_composites(uint32_t depth, enum names names) {
    put_compact(&value.registry_bytes, depth + 1);
    for (uint32_t i = 0; i < depth; i++) {
        put_front(&value.registry_bytes, i);
        put_byte(&value.registry_bytes, SCALEVIEW_COMPOSITE);
        put_fields(names, i + 1, depth);
        put_byte(&value.registry_bytes, 0);
    }
    put_primitive(&value.registry_bytes, depth, SCALEVIEW_U8);
    for (uint32_t i = 0; i <= (names == OUT_OF_ORDER ? depth : 0); i++) put_byte(&value.bytes, 7);
}

static void put_arm_name(const char *name) {
    put_compact(&value.registry_bytes, (uint32_t)strlen(name));
    put(&value.registry_bytes, name, strlen(name));
}

/* A variant of two arms, one of which has a field of the variant, and values of that in each other. */
static void put_arms(uint32_t depth, enum names names) {
    put_compact(&value.registry_bytes, 2);
    put_front(&value.registry_bytes, 0);
    put_byte(&value.registry_bytes, SCALEVIEW_VARIANT);
    put_compact(&value.registry_bytes, 2);
    put_arm_name("Last");
    put(&value.registry_bytes, "\0\0\0", 3); /* no field, index 0, no documents */
    put_arm_name("More");
    put_fields(names, 0, 1);
    put(&value.registry_bytes, "\1\0\0", 3); /* index 1, no documents; none of the type either */
    put_primitive(&value.registry_bytes, 1, SCALEVIEW_U8);
    for (uint32_t i = 0; i < depth; i++) put_byte(&value.bytes, 1);
    put_byte(&value.bytes, 0);
    for (uint32_t i = 0; i < (names == OUT_OF_ORDER ? depth : 0); i++) put_byte(&value.bytes, 7);
}

static bool opens(void) {
    scaleview_registry registry = {NULL};
    scaleview_answer answer;
    uint32_t code = scaleview_open(value.registry_bytes.at, value.registry_bytes.length, 0, &registry, &answer);
    return code == SCALEVIEW_OK && scaleview_close(&registry) == SCALEVIEW_OK;
}

static bool decodes(void) {
    scaleview_answer answer;
    return scaleview_decode(value.registry, 0, value.depth, 1 << 24, 0, value.bytes.at, value.bytes.length, value.out,
                            OUT_ROOM, &answer) == SCALEVIEW_OK;
}

static bool decodes_nodes(void) {
    scaleview_answer answer;
    uint32_t code = scaleview_decode_nodes(value.registry, 0, value.depth, 1 << 24, 0, value.bytes.at, value.bytes.length,
                                           value.nodes, NODE_ROOM, value.pool, sizeof value.pool, &answer);
    value.count = answer.length;
    return code == SCALEVIEW_OK;
}

static bool encodes_nodes(void) {
    scaleview_answer answer;
    return scaleview_encode_nodes(value.registry, 0, value.depth, 0, value.nodes, (size_t)value.count, value.pool,
                                  sizeof value.pool, value.out, OUT_ROOM, &answer) == SCALEVIEW_OK;
}

static bool feeds(void) {
    scaleview_session session = {NULL};
    scaleview_answer answer;
    scaleview_start(value.registry, 0, value.depth, 1 << 24, 0, &session, &answer);
    uint32_t code = scaleview_feed(&session, value.bytes.at, value.bytes.length, &answer);
    return code == SCALEVIEW_OK && scaleview_free(&session) == SCALEVIEW_OK;
}

static bool finishes(void) {
    scaleview_session session = {NULL};
    scaleview_answer answer;
    scaleview_start(value.registry, 0, value.depth, 1 << 24, 0, &session, &answer);
    scaleview_feed(&session, value.bytes.at, value.bytes.length, &answer);
    uint32_t code = scaleview_finish(&session, value.out, OUT_ROOM, &answer);
    return code == SCALEVIEW_OK && scaleview_free(&session) == SCALEVIEW_OK;
}

static bool finishes_nodes(void) {
    scaleview_session session = {NULL};
    scaleview_answer answer;
    scaleview_start(value.registry, 0, value.depth, 1 << 24, 0, &session, &answer);
    scaleview_feed(&session, value.bytes.at, value.bytes.length, &answer);
    uint32_t code = scaleview_finish_nodes(&session, value.nodes, NODE_ROOM, value.pool, sizeof value.pool, &answer);
    return code == SCALEVIEW_OK && scaleview_free(&session) == SCALEVIEW_OK;
}

static bool describes(void) {
    scaleview_type_shape shape;
    scaleview_answer answer;
    return scaleview_type_line(value.registry, 0, value.out, OUT_ROOM, &answer) == SCALEVIEW_OK &&
           scaleview_path(value.registry, 0, value.out, OUT_ROOM, &answer) == SCALEVIEW_OK &&
           scaleview_find(value.registry, 0, value.out, 0, &answer) == SCALEVIEW_OK &&
           scaleview_type(value.registry, 0, &shape, &answer) == SCALEVIEW_OK;
}

static bool asks_for_names(void) {
    static const uint8_t name[] = "custom:Owner", opaque[] = {0x04, 0x07};
    scaleview_registry registry = {NULL};
    scaleview_answer answer;
    scaleview_open(chain_bytes, sizeof chain_bytes, SCALEVIEW_METADATA | SCALEVIEW_NAMES, &registry, &answer);
    return scaleview_name(registry, name, sizeof name - 1, &answer) == SCALEVIEW_OK &&
           scaleview_name_bytes(registry, name, sizeof name - 1, value.out, OUT_ROOM, &answer) == SCALEVIEW_OK &&
           scaleview_name_at(registry, 0, value.out, OUT_ROOM, &answer) == SCALEVIEW_OK &&
           scaleview_opaque(opaque, sizeof opaque, &answer) == SCALEVIEW_OK && scaleview_close(&registry) == SCALEVIEW_OK;
}

struct call {
    const char *name;
    bool (*make)(void);
};

static void *make_call(void *call) { return ((const struct call *)call)->make() ? call : NULL; }

/* Whether a thread with a stack of this size makes the call, in a process of its own. */
static bool does(const struct call *call, size_t size) {
    fflush(stdout);
    pid_t child = fork();
    if (child == 0) {
        pthread_attr_t attributes;
        pthread_t thread;
        void *made = NULL;
        /* The guard is larger than any frame, so that no write lands behind it. */
        bool is_set = !pthread_attr_init(&attributes) && !pthread_attr_setstacksize(&attributes, size) &&
                      !pthread_attr_setguardsize(&attributes, GUARD);
        if (!is_set || pthread_create(&thread, &attributes, make_call, (void *)call)) _exit(TOO_SMALL);
        _exit(!pthread_join(thread, &made) && made ? 0 : FAILED);
    }
    int status;
    if (child < 0 || waitpid(child, &status, 0) != child) exit(4);
    check(call->name, !WIFEXITED(status) || WEXITSTATUS(status) != FAILED);
    return WIFEXITED(status) && WEXITSTATUS(status) == 0;
}

/* The smallest size that is enough. */
static size_t needed(const struct call *call) {
    size_t least = LEAST, most = MOST;
    while (least < most) {
        size_t middle = least + (most - least) / 2 / STEP * STEP;
        if (does(call, middle))
            most = middle;
        else
            least = middle + STEP;
    }
    return least;
}

static const struct call texts[] = {{"decode", decodes}, {"finish", finishes}};
static const struct call others[] = {
    {"open", opens}, {"describe", describes}, {"names", asks_for_names},
    {"decode_nodes", decodes_nodes}, {"encode_nodes", encodes_nodes},
    {"feed", feeds}, {"finish_nodes", finishes_nodes},
};

/* The largest that one of these calls needs. */
static size_t needed_by_all(const struct call *calls, size_t count) {
    size_t most = 0;
    for (size_t i = 0; i < count; i++) {
        size_t now = needed(&calls[i]);
        most = now > most ? now : most;
    }
    return most;
}

/* Values of a shape, and what stack is to be enough for their texts: about twice of what was measured. */
static const struct shape {
    const char *name;
    void (*put)(uint32_t depth, enum names names);
    enum names names;
    size_t at_1024;
} shapes[] = {
    {"composites, a field without a name", put_composites, UNNAMED, 512 * KIB},
    {"composites, a field with one", put_composites, NAMED, 512 * KIB},
    {"composites, names out of order", put_composites, OUT_OF_ORDER, 1024 * KIB},
    {"arms, a field without a name", put_arms, UNNAMED, 512 * KIB},
    {"arms, a field with one", put_arms, NAMED, 512 * KIB},
    {"arms, names out of order", put_arms, OUT_OF_ORDER, 1024 * KIB},
};

static void measure(const struct shape *shape, uint16_t depth, size_t enough) {
    scaleview_answer answer;
    value.depth = depth;
    shape->put(depth, shape->names);
    check("opened", scaleview_open(value.registry_bytes.at, value.registry_bytes.length, 0, &value.registry, &answer) ==
                        SCALEVIEW_OK);
    check("its nodes", decodes_nodes() && value.count > depth);
    size_t for_text = needed_by_all(texts, sizeof texts / sizeof *texts);
    size_t for_others = needed_by_all(others, sizeof others / sizeof *others);
    printf("c: stack at depth %u: %s: %zu KiB for the text, %zu for others\n", depth, shape->name, for_text / KIB,
           for_others / KIB);
    check("enough for the text", for_text <= enough);
    check("enough for others", for_others <= 32 * KIB);
    check("closed", scaleview_close(&value.registry) == SCALEVIEW_OK);
    free(value.registry_bytes.at);
    free(value.bytes.at);
    value.registry_bytes = value.bytes = (struct bytes){0};
}

int main(void) {
    const struct rlimit none = {0, 0};
    setrlimit(RLIMIT_CORE, &none);
    for (size_t i = 0; i < sizeof shapes / sizeof *shapes; i++) {
        measure(&shapes[i], 64, 128 * KIB);
        measure(&shapes[i], 1024, shapes[i].at_1024);
    }
    return failures > 0;
}
