/* Values of bytes, and bytes of values. */
#include "native.h"
#include <pthread.h>

enum { DEEP_STACK = 1 << 21 };

uint64_t memory_for(const struct control *control, size_t length) {
    return (uint64_t)(control->memory + control->memory_of_a_byte * (double)length);
}

/* Decodes one value to what is left of the buffers. */
static uint32_t decode_one(const struct call *call, scaleview_registry registry, struct bytes bytes,
                           scaleview_answer *decoded) {
    const struct state *state = call->state;
    struct control *control = call->control;
    uint32_t at = control->nodes[control->done], pool = control->pools[control->done];
    return scaleview_decode_nodes(registry, control->type, (uint16_t)control->depth,
                                  (uint64_t)control->limit, memory_for(control, bytes.length),
                                  bytes.at, bytes.length, state->nodes + at, state->node_room - at,
                                  state->pool + pool, state->pool_room - pool, decoded);
}

/* decode(bytes or nothing): values of the bytes, or of as many inputs as `count` says. `done` says
 * how many were decoded before one was rejected or had no room. */
napi_value decode(napi_env env, napi_callback_info info) {
    struct call call = {.env = env};
    size_t count = 1;
    void *data = NULL;
    napi_get_cb_info(env, info, &count, call.arguments, NULL, &data);
    call.state = data;
    struct control *control = call.control = call.state->control;
    scaleview_registry registry = registry_of(&call);
    scaleview_answer decoded = {0};
    struct bytes bytes = {call.state->input, 0};
    if (count > 0) bytes = bytes_of(&call, call.arguments[0]);
    control->nodes[0] = control->pools[0] = 0;
    for (control->done = 0; control->done < control->count; control->done++) {
        uint32_t item = control->done;
        if (count == 0) bytes.length = control->words[item];
        if (decode_one(&call, registry, bytes, &decoded) != SCALEVIEW_OK) break;
        control->nodes[item + 1] = control->nodes[item] + (uint32_t)decoded.length;
        control->pools[item + 1] = control->pools[item] + (uint32_t)decoded.at;
        bytes.at += bytes.length;
    }
    answer(&call, &decoded);
    return NULL;
}

struct written_text {
    text_writer *write;
    void *context;
    uint8_t *out;
    size_t room;
    scaleview_answer answer;
};

static void *write_text(void *context) {
    struct written_text *text = context;
    text->write(text->context, text->out, text->room, &text->answer);
    return NULL;
}

/* Writes a text on a stack that is large enough. */
static void write_with_stack(struct written_text *text, uint32_t depth) {
    pthread_attr_t attributes;
    pthread_t thread;
    text->answer = (scaleview_answer){.code = SCALEVIEW_MEMORY};
    if (depth <= SHALLOW) {
        write_text(text);
        return;
    }
    if (pthread_attr_init(&attributes)) return;
    if (!pthread_attr_setstacksize(&attributes, DEEP_STACK) &&
        !pthread_create(&thread, &attributes, write_text, text))
        pthread_join(thread, NULL);
    pthread_attr_destroy(&attributes);
}

napi_value written(const struct call *call, uint32_t depth, text_writer *write, void *context) {
    uint8_t few[FEW], *many = NULL;
    struct written_text text = {write, context, few, sizeof few, {0}};
    napi_value made = NULL;
    for (;;) {
        write_with_stack(&text, depth);
        if (text.answer.code != SCALEVIEW_NO_ROOM) break;
        free(many);
        text.room = (size_t)text.answer.length;
        text.out = many = malloc(text.room);
        if (!many) {
            text.answer.code = SCALEVIEW_MEMORY;
            break;
        }
    }
    answer(call, &text.answer);
    if (text.answer.code == SCALEVIEW_OK)
        made = string_of(call, text.out, (size_t)text.answer.length);
    free(many);
    return made;
}

struct text_call {
    const struct call *call;
    struct bytes bytes;
};

static uint32_t write_json(void *context, uint8_t *out, size_t room, scaleview_answer *from) {
    const struct text_call *text = context;
    const struct control *control = text->call->control;
    size_t length = text->bytes.length;
    return scaleview_decode(registry_of(text->call), control->type, (uint16_t)control->depth,
                            (uint64_t)control->limit, memory_for(control, length), text->bytes.at,
                            length, out, room, from);
}

/* decodeText(bytes): the JSON of a value. */
napi_value decode_text(napi_env env, napi_callback_info info) {
    struct call call = call_of(env, info);
    struct text_call text = {&call, bytes_of(&call, call.arguments[0])};
    return written(&call, call.control->depth, write_json, &text);
}

static struct session *session_of(const struct call *call) {
    void *data = NULL;
    napi_get_value_external(call->env, call->arguments[0], &data);
    return data;
}

static void free_session(napi_env env, struct session *session) {
    int64_t total;
    if (!session->shared) return;
    scaleview_free(&session->session);
    napi_adjust_external_memory(env, -SESSION_BYTES, &total);
    release(env, session->shared);
    session->shared = NULL;
}

static void drop_session(napi_env env, void *data, void *hint) {
    (void)hint;
    free_session(env, data);
    free(data);
}

/* start(): an external of a session. */
napi_value start(napi_env env, napi_callback_info info) {
    struct call call = call_of(env, info);
    const struct control *control = call.control;
    struct session *session = calloc(1, sizeof *session);
    scaleview_answer started = {.code = SCALEVIEW_MEMORY};
    napi_value external = NULL;
    int64_t total;
    if (session && scaleview_start(registry_of(&call), control->type, (uint16_t)control->depth,
                                   (uint64_t)control->limit, memory_for(control, 0),
                                   &session->session, &started) == SCALEVIEW_OK) {
        if (napi_create_external(env, session, drop_session, NULL, &external) == napi_ok) {
            session->shared = shared_of(&call);
            retain(session->shared);
            napi_adjust_external_memory(env, SESSION_BYTES, &total);
        } else {
            started.code = SCALEVIEW_MEMORY;
            scaleview_free(&session->session);
        }
    }
    if (!external) free(session);
    answer(&call, &started);
    return external;
}

/* feed(session, bytes) */
napi_value feed(napi_env env, napi_callback_info info) {
    struct call call = call_of(env, info);
    struct bytes bytes = bytes_of(&call, call.arguments[1]);
    scaleview_answer fed;
    scaleview_feed(&session_of(&call)->session, bytes.at, bytes.length, &fed);
    answer(&call, &fed);
    return NULL;
}

/* taken(session): the number of bytes that the library has taken. */
napi_value taken(napi_env env, napi_callback_info info) {
    struct call call = call_of(env, info);
    scaleview_answer found;
    scaleview_taken(&session_of(&call)->session, &found);
    answer(&call, &found);
    return NULL;
}

/* finish(session): the nodes and bytes of a value. */
napi_value finish(napi_env env, napi_callback_info info) {
    struct call call = call_of(env, info);
    const struct state *state = call.state;
    struct control *control = call.control;
    scaleview_answer finished;
    scaleview_finish_nodes(&session_of(&call)->session, state->nodes, state->node_room,
                           state->pool, state->pool_room, &finished);
    control->nodes[0] = control->pools[0] = 0;
    control->pools[1] = (uint32_t)finished.at;
    answer(&call, &finished);
    return NULL;
}

static uint32_t write_finished(void *context, uint8_t *out, size_t room, scaleview_answer *from) {
    struct session *session = context;
    return scaleview_finish(&session->session, out, room, from);
}

/* finishText(session): the JSON of a value. */
napi_value finish_text(napi_env env, napi_callback_info info) {
    struct call call = call_of(env, info);
    return written(&call, call.control->depth, write_finished, session_of(&call));
}

/* end(session): frees it before it is collected. */
napi_value end(napi_env env, napi_callback_info info) {
    struct call call = call_of(env, info);
    free_session(env, session_of(&call));
    return NULL;
}

/* encode(nodes, pool, out): the bytes of a value of `count` nodes and `poolLength` bytes. */
napi_value encode(napi_env env, napi_callback_info info) {
    struct call call = call_of(env, info);
    const struct control *control = call.control;
    struct bytes nodes = bytes_of(&call, call.arguments[0]);
    struct bytes pool = bytes_of(&call, call.arguments[1]);
    struct bytes out = bytes_of(&call, call.arguments[2]);
    scaleview_answer encoded;
    scaleview_encode_nodes(registry_of(&call), control->type, (uint16_t)control->depth,
                           memory_for(control, 0), (const scaleview_node *)(const void *)nodes.at,
                           control->count, pool.at, (size_t)control->pool_length,
                           (uint8_t *)out.at, out.length, &encoded);
    answer(&call, &encoded);
    return NULL;
}
