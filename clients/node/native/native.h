/* What the parts of the addon share. Everything stands in the data of an instance, of which each
 * thread of JavaScript has one, so no call here waits for another thread. */
#ifndef NATIVE_H
#define NATIVE_H
#define NAPI_VERSION 8
#include "scaleview.h"
#include <node_api.h>
#include <stdlib.h>
#include <string.h>

enum {
    BATCH = 32,  /* the most values of one call of `decode` */
    SHALLOW = 64,        /* JSON of values up to this depth is made on the stack of the caller */
    FEW = 256,           /* names of up to this many bytes need no allocation */
    BYTES_HELD = 4,      /* bytes of memory that a registry has for each of its own bytes */
    SESSION_BYTES = 1024 /* bytes of memory that a session has at first */
};

/* What a call reads and writes besides its arguments. It stands in a buffer of JavaScript, which
 * has the same places in `src/native.js`. */
struct control {
    uint32_t slot, type, depth, count;
    uint32_t code, from, done, unused;
    double at, length, pool_length;
    double limit, memory, memory_of_a_byte;
    uint32_t words[BATCH];     /* lengths of the inputs of `decode`, and numbers of other calls */
    uint32_t nodes[BATCH + 1]; /* where the nodes of each value begin */
    uint32_t pools[BATCH + 1]; /* where the bytes of each value begin in the pool */
};

/* An open registry. Its external and each of its sessions hold a reference. */
struct shared {
    struct state *state;
    scaleview_registry registry;
    size_t references;
    uint32_t slot;
    int64_t held;
    bool is_closed;
};

struct session {
    struct shared *shared;
    scaleview_session session;
};

/* The data of an instance. The instance and each open registry hold a reference. */
struct state {
    size_t references;
    struct control *control;
    scaleview_node *nodes;
    uint8_t *pool, *input;
    size_t node_room, pool_room, input_room;
    napi_ref buffers[4]; /* which keep the memory above */
    struct shared **slots;
    uint32_t slot_room, free_slot; /* no slot before `free_slot` is free */
};

struct bytes {
    const uint8_t *at;
    size_t length;
};

/* The arguments of a call, and the state of its instance. */
struct call {
    napi_env env;
    struct state *state;
    struct control *control;
    napi_value arguments[4];
};

struct call call_of(napi_env env, napi_callback_info info);
struct bytes bytes_of(const struct call *call, napi_value value);
void answer(const struct call *call, const scaleview_answer *from);
void answer_memory(const struct call *call);
napi_value string_of(const struct call *call, const uint8_t *bytes, size_t length);
scaleview_registry registry_of(const struct call *call);
struct shared *shared_of(const struct call *call);
void retain(struct shared *shared);
void release(napi_env env, struct shared *shared);
void release_state(struct state *state);

/* The budget of memory for an input of this length. */
uint64_t memory_for(const struct control *control, size_t length);

napi_value open_registry(napi_env env, napi_callback_info info);
napi_value close_registry(napi_env env, napi_callback_info info);
napi_value decode(napi_env env, napi_callback_info info);
napi_value decode_text(napi_env env, napi_callback_info info);
napi_value encode(napi_env env, napi_callback_info info);
napi_value start(napi_env env, napi_callback_info info);
napi_value feed(napi_env env, napi_callback_info info);
napi_value taken(napi_env env, napi_callback_info info);
napi_value finish(napi_env env, napi_callback_info info);
napi_value finish_text(napi_env env, napi_callback_info info);
napi_value end(napi_env env, napi_callback_info info);
napi_value shape(napi_env env, napi_callback_info info);
napi_value describe(napi_env env, napi_callback_info info);
napi_value find(napi_env env, napi_callback_info info);
napi_value name(napi_env env, napi_callback_info info);
napi_value name_bytes(napi_env env, napi_callback_info info);
napi_value opaque(napi_env env, napi_callback_info info);
napi_value path_of(napi_env env, napi_callback_info info);

/* A call of the library that writes text of the room that it gets. */
typedef uint32_t text_writer(void *context, uint8_t *out, size_t room, scaleview_answer *answer);

/* Returns the text that a call writes, or NULL after it has answered otherwise. Up to a depth of 64
 * it runs on the stack of the caller, and otherwise on a thread with a larger one. */
napi_value written(const struct call *call, uint32_t depth, text_writer *write, void *context);
#endif
