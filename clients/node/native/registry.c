/* Open registries, and what they say about their types and names. */
#include "native.h"

/* Returns the registry of a call, or NULL if it is closed. */
struct shared *shared_of(const struct call *call) {
    uint32_t slot = call->control->slot;
    struct shared *shared = slot < call->state->slot_room ? call->state->slots[slot] : NULL;
    return shared && !shared->is_closed ? shared : NULL;
}

scaleview_registry registry_of(const struct call *call) {
    struct shared *shared = shared_of(call);
    return shared ? shared->registry : (scaleview_registry){NULL};
}

void retain(struct shared *shared) {
    shared->references++;
}

void release(napi_env env, struct shared *shared) {
    int64_t total;
    if (--shared->references > 0) return;
    struct state *state = shared->state;
    scaleview_close(&shared->registry);
    napi_adjust_external_memory(env, -shared->held, &total);
    state->slots[shared->slot] = NULL;
    if (shared->slot < state->free_slot) state->free_slot = shared->slot;
    free(shared);
    release_state(state);
}

/* Gives up the reference of the external, at once or when it is collected. */
static void close_shared(napi_env env, struct shared *shared) {
    shared->is_closed = true;
    release(env, shared);
}

static void drop_registry(napi_env env, void *data, void *hint) {
    struct shared **held = data;
    (void)hint;
    if (*held) close_shared(env, *held);
    free(held);
}

/* Finds a free slot for a registry. */
static bool take_slot(struct state *state, uint32_t *slot) {
    uint32_t room = state->slot_room;
    for (*slot = state->free_slot; *slot < room; ++*slot) {
        if (state->slots[*slot]) continue;
        state->free_slot = *slot;
        return true;
    }
    struct shared **slots = realloc(state->slots, (2 * (size_t)room + 8) * sizeof *slots);
    if (!slots) return false;
    state->slots = slots;
    state->slot_room = 2 * room + 8;
    state->free_slot = room;
    memset(slots + room, 0, (state->slot_room - room) * sizeof *slots);
    return true;
}

/* Returns the external that keeps a registry open. */
static napi_value keep(const struct call *call, struct shared *shared) {
    struct shared **held = malloc(sizeof *held);
    napi_value external = NULL;
    int64_t total;
    if (!held || napi_create_external(call->env, held, drop_registry, NULL, &external) != napi_ok) {
        free(held);
        return NULL;
    }
    *held = shared;
    shared->references = 1;
    shared->state = call->state;
    call->state->references++;
    call->state->slots[shared->slot] = shared;
    call->control->slot = shared->slot;
    napi_adjust_external_memory(call->env, shared->held, &total);
    return external;
}

/* open(bytes, flags): an external that keeps a registry open. */
napi_value open_registry(napi_env env, napi_callback_info info) {
    struct call call = call_of(env, info);
    struct bytes bytes = bytes_of(&call, call.arguments[0]);
    struct shared *shared = calloc(1, sizeof *shared);
    scaleview_answer opened;
    uint32_t flags = 0;
    napi_get_value_uint32(env, call.arguments[1], &flags);
    if (!shared || !take_slot(call.state, &shared->slot)) {
        free(shared);
        answer_memory(&call);
        return NULL;
    }
    shared->held = BYTES_HELD * (int64_t)bytes.length;
    napi_value external = NULL;
    if (scaleview_open(bytes.at, bytes.length, flags, &shared->registry, &opened) == SCALEVIEW_OK) {
        external = keep(&call, shared);
        if (!external) {
            scaleview_close(&shared->registry);
            opened.code = SCALEVIEW_MEMORY;
        }
    }
    if (!external) free(shared);
    answer(&call, &opened);
    return external;
}

/* close(external): closes a registry as soon as its last session is freed. */
napi_value close_registry(napi_env env, napi_callback_info info) {
    struct call call = call_of(env, info);
    void *data = NULL;
    if (napi_get_value_external(env, call.arguments[0], &data) != napi_ok) return NULL;
    struct shared **held = data;
    if (*held) close_shared(env, *held);
    *held = NULL;
    return NULL;
}

/* shape(): what the type of the call is, as numbers in `words`. */
napi_value shape(napi_env env, napi_callback_info info) {
    struct call call = call_of(env, info);
    scaleview_type_shape found = {0};
    scaleview_answer shaped;
    scaleview_type(registry_of(&call), call.control->type, &found, &shaped);
    uint32_t numbers[] = {found.kind,  found.value_class, found.primitive, found.element,
                          found.order, found.length,      found.parts};
    memcpy(call.control->words, numbers, sizeof numbers);
    answer(&call, &shaped);
    return NULL;
}

/* What `describe` writes, which is the first of its words. The others are positions. */
enum subject { PART, ARM, ARM_FIELD, PATH, LINE, NAME };

static uint32_t write_subject(void *context, uint8_t *out, size_t room, scaleview_answer *from) {
    const struct call *call = context;
    const uint32_t *words = call->control->words;
    uint32_t type = call->control->type;
    scaleview_registry registry = registry_of(call);
    switch ((enum subject)words[0]) {
    case PART: return scaleview_part(registry, type, words[1], out, room, from);
    case ARM: return scaleview_arm(registry, type, words[1], out, room, from);
    case ARM_FIELD:
        return scaleview_arm_field(registry, type, words[1], words[2], out, room, from);
    case PATH: return scaleview_path(registry, type, out, room, from);
    case LINE: return scaleview_type_line(registry, type, out, room, from);
    case NAME: return scaleview_name_at(registry, words[1], out, room, from);
    }
    return SCALEVIEW_UNKNOWN_PART;
}

/* describe(): a text of the registry. */
napi_value describe(napi_env env, napi_callback_info info) {
    struct call call = call_of(env, info);
    return written(&call, 0, write_subject, &call);
}

/* find(path): the first type of this path, from the type of the call on. */
napi_value find(napi_env env, napi_callback_info info) {
    struct call call = call_of(env, info);
    struct bytes path = bytes_of(&call, call.arguments[0]);
    scaleview_answer found;
    scaleview_find(registry_of(&call), call.control->type, path.at, path.length, &found);
    answer(&call, &found);
    return NULL;
}

/* name(text): the type of a name. */
napi_value name(napi_env env, napi_callback_info info) {
    struct call call = call_of(env, info);
    struct bytes text = bytes_of(&call, call.arguments[0]);
    scaleview_answer found;
    scaleview_name(registry_of(&call), text.at, text.length, &found);
    answer(&call, &found);
    return NULL;
}

/* nameBytes(text, out): the bytes that the metadata has for a name. */
napi_value name_bytes(napi_env env, napi_callback_info info) {
    struct call call = call_of(env, info);
    struct bytes text = bytes_of(&call, call.arguments[0]);
    struct bytes out = bytes_of(&call, call.arguments[1]);
    scaleview_answer found;
    scaleview_name_bytes(registry_of(&call), text.at, text.length, (uint8_t *)out.at, out.length,
                         &found);
    answer(&call, &found);
    return NULL;
}

/* opaque(bytes): where the bytes of an opaque value begin. */
napi_value opaque(napi_env env, napi_callback_info info) {
    struct call call = call_of(env, info);
    struct bytes bytes = bytes_of(&call, call.arguments[0]);
    scaleview_answer found;
    scaleview_opaque(bytes.at, bytes.length, &found);
    answer(&call, &found);
    return NULL;
}
