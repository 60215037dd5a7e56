/* Where in a value its bytes are rejected. */
#include "native.h"

static napi_value array_of(napi_env env, const scaleview_step *steps, size_t count) {
    napi_value buffer = NULL, made = NULL;
    void *at = NULL;
    size_t length = count * sizeof *steps, numbers = length / sizeof(uint32_t);
    if (napi_create_arraybuffer(env, length, &at, &buffer) != napi_ok) return NULL;
    if (count > 0) memcpy(at, steps, length);
    napi_create_typedarray(env, napi_uint32_array, numbers, buffer, 0, &made);
    return made;
}

/* pathOf(bytes): the type, the arm and the part of each step to where the bytes of a value are
 * rejected; nothing if there is none, or no memory. */
napi_value path_of(napi_env env, napi_callback_info info) {
    struct call call = call_of(env, info);
    const struct control *control = call.control;
    struct bytes bytes = bytes_of(&call, call.arguments[0]);
    /* There are at most as many steps as levels. */
    size_t room = control->depth + (size_t)1;
    scaleview_step *steps = malloc(room * sizeof *steps);
    scaleview_answer found = {0};
    if (!steps) return NULL;
    uint32_t code = scaleview_path_of(registry_of(&call), control->type, (uint16_t)control->depth,
                                      (uint64_t)control->limit, memory_for(control, bytes.length),
                                      bytes.at, bytes.length, steps, room, &found);
    bool is_found = code == SCALEVIEW_OK && found.at == 1;
    napi_value made = is_found ? array_of(env, steps, (size_t)found.length) : NULL;
    free(steps);
    return made;
}
