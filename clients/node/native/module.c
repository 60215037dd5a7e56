/* The addon's functions and the data of its instance. */
#include "native.h"

struct call call_of(napi_env env, napi_callback_info info) {
    struct call call = {.env = env};
    size_t count = 4;
    void *data = NULL;
    napi_get_cb_info(env, info, &count, call.arguments, NULL, &data);
    call.state = data;
    call.control = call.state->control;
    return call;
}

/* Returns the bytes of a typed array of bytes. Of a detached one there are none. */
struct bytes bytes_of(const struct call *call, napi_value value) {
    napi_typedarray_type type;
    void *at = NULL;
    size_t length = 0;
    if (napi_get_typedarray_info(call->env, value, &type, &length, &at, NULL, NULL) != napi_ok ||
        type != napi_uint8_array)
        return (struct bytes){NULL, 0};
    return (struct bytes){at, length};
}

void answer(const struct call *call, const scaleview_answer *from) {
    struct control *control = call->control;
    control->code = from->code;
    control->from = from->from;
    control->at = (double)from->at;
    control->length = (double)from->length;
}

void answer_memory(const struct call *call) {
    answer(call, &(scaleview_answer){.code = SCALEVIEW_MEMORY});
}

/* Returns text as a string. One that JavaScript has no memory for is reported as such. */
napi_value string_of(const struct call *call, const uint8_t *bytes, size_t length) {
    napi_value made = NULL;
    if (napi_create_string_utf8(call->env, (const char *)bytes, length, &made) == napi_ok)
        return made;
    answer_memory(call);
    return NULL;
}

static void *buffer_of(napi_env env, napi_value value, size_t *length) {
    void *at = NULL;
    napi_get_arraybuffer_info(env, value, &at, length);
    return at;
}

/* attach(control, nodes, pool, input): the buffers that calls read and write from now on. */
static napi_value attach(napi_env env, napi_callback_info info) {
    struct call call = call_of(env, info);
    struct state *state = call.state;
    size_t length = 0;
    for (int i = 0; i < 4; i++) {
        if (state->buffers[i]) napi_delete_reference(env, state->buffers[i]);
        state->buffers[i] = NULL;
        napi_create_reference(env, call.arguments[i], 1, &state->buffers[i]);
    }
    state->control = buffer_of(env, call.arguments[0], &length);
    state->nodes = buffer_of(env, call.arguments[1], &length);
    state->node_room = length / sizeof *state->nodes;
    state->pool = buffer_of(env, call.arguments[2], &state->pool_room);
    state->input = buffer_of(env, call.arguments[3], &state->input_room);
    return NULL;
}

/* reason(code): the library's name of a code. */
static napi_value reason(napi_env env, napi_callback_info info) {
    struct call call = call_of(env, info);
    scaleview_answer named = {0};
    uint8_t name_of_code[32];
    uint32_t code = 0;
    napi_get_value_uint32(env, call.arguments[0], &code);
    scaleview_reason(code, name_of_code, sizeof name_of_code, &named);
    return string_of(&call, name_of_code, (size_t)named.length);
}

/* isDetached(buffer): whether a buffer has given its memory away. */
static napi_value is_detached(napi_env env, napi_callback_info info) {
    struct call call = call_of(env, info);
    napi_value made = NULL;
    bool found = false;
    napi_is_detached_arraybuffer(env, call.arguments[0], &found);
    napi_get_boolean(env, found, &made);
    return made;
}

void release_state(struct state *state) {
    if (--state->references > 0) return;
    free(state->slots);
    free(state);
}

static void drop_state(napi_env env, void *data, void *hint) {
    (void)env;
    (void)hint;
    release_state(data);
}

static const struct {
    const char *name;
    napi_callback call;
} functions[] = {
    {"attach", attach},           {"reason", reason},        {"isDetached", is_detached},
    {"open", open_registry},      {"close", close_registry}, {"decode", decode},
    {"decodeText", decode_text},  {"encode", encode},        {"start", start},
    {"feed", feed},               {"taken", taken},          {"finish", finish},
    {"finishText", finish_text},  {"end", end},              {"shape", shape},
    {"describe", describe},       {"find", find},            {"name", name},
    {"nameBytes", name_bytes},    {"opaque", opaque},        {"pathOf", path_of},
};

NAPI_MODULE_INIT() {
    struct state *state = calloc(1, sizeof *state);
    if (!state) {
        napi_throw_error(env, "ERR_OUT_OF_MEMORY", "an allocation failed");
        return NULL;
    }
    state->references = 1;
    if (napi_set_instance_data(env, state, drop_state, NULL) != napi_ok) {
        free(state);
        return NULL;
    }
    for (size_t i = 0; i < sizeof functions / sizeof *functions; i++) {
        napi_value function;
        if (napi_create_function(env, functions[i].name, NAPI_AUTO_LENGTH, functions[i].call,
                                 state, &function) != napi_ok ||
            napi_set_named_property(env, exports, functions[i].name, function) != napi_ok)
            return NULL;
    }
    return exports;
}
