/* Decodes a value many times by the library: MODE REGISTRY ID VALUE TIMES. The mode `text` writes its JSON, `decoder` feeds
 * it to a session and frees that, `nodes` writes its nodes, and `encode` encodes the nodes, which are decoded once before.
 * The script `library` counts the instructions. */
#include "scaleview.h"
#include <stdio.h>
#include <stdlib.h>
#include <string.h>

static uint8_t *read_file(const char *path, size_t *length) {
    FILE *file = fopen(path, "rb");
    if (!file) exit(2);
    fseek(file, 0, SEEK_END);
    *length = (size_t)ftell(file);
    rewind(file);
    uint8_t *bytes = malloc(*length + 1);
    if (!bytes || fread(bytes, 1, *length, file) != *length) exit(2);
    fclose(file);
    return bytes;
}

/* A value, and memory for what is made of it, which is allocated once. */
struct value {
    scaleview_registry registry;
    uint32_t type;
    const uint8_t *bytes;
    size_t length;
    uint8_t *out, *pool;
    scaleview_node *nodes;
    scaleview_answer counts; /* of the nodes, once they are decoded */
};

enum { OUT_ROOM = 64 << 20, NODE_ROOM = 1 << 21, POOL_ROOM = 1 << 22 };

static uint32_t write_text(struct value *value) {
    scaleview_answer answer;
    return scaleview_decode(value->registry, value->type, 64, 1 << 24, 0, value->bytes, value->length, value->out, OUT_ROOM,
                            &answer);
}

static uint32_t feed_session(struct value *value) {
    scaleview_session session = {NULL};
    scaleview_answer answer;
    uint32_t failed = scaleview_start(value->registry, value->type, 64, 1 << 24, 0, &session, &answer);
    failed |= scaleview_feed(&session, value->bytes, value->length, &answer);
    return failed | scaleview_free(&session);
}

static uint32_t write_nodes(struct value *value) {
    return scaleview_decode_nodes(value->registry, value->type, 64, 1 << 24, 0, value->bytes, value->length, value->nodes,
                                  NODE_ROOM, value->pool, POOL_ROOM, &value->counts);
}

static uint32_t encode_nodes(struct value *value) {
    scaleview_answer answer;
    return scaleview_encode_nodes(value->registry, value->type, 64, 0, value->nodes, (size_t)value->counts.length,
                                  value->pool, (size_t)value->counts.at, value->out, OUT_ROOM, &answer);
}

int main(int count, char **words) {
    static const struct {
        const char *name;
        uint32_t (*call)(struct value *value);
    } modes[] = {{"text", write_text}, {"decoder", feed_session}, {"nodes", write_nodes}, {"encode", encode_nodes}};
    if (count != 6) return 2;
    uint32_t (*call)(struct value *value) = NULL;
    for (size_t i = 0; i < sizeof modes / sizeof *modes; i++)
        if (!strcmp(words[1], modes[i].name)) call = modes[i].call;
    size_t registry_length;
    uint8_t *registry_bytes = read_file(words[2], &registry_length);
    struct value value = {.type = (uint32_t)atoi(words[3])};
    value.bytes = read_file(words[4], &value.length);
    value.out = malloc(OUT_ROOM);
    value.pool = malloc(POOL_ROOM);
    value.nodes = malloc(NODE_ROOM * sizeof *value.nodes);
    scaleview_answer answer;
    if (!call || !value.out || !value.pool || !value.nodes) return 2;
    if (scaleview_open(registry_bytes, registry_length, false, &value.registry, &answer) != SCALEVIEW_OK) return 2;
    uint32_t failed = call == encode_nodes ? write_nodes(&value) : SCALEVIEW_OK;
    for (long times = atol(words[5]); times > 0; times--) failed |= call(&value);
    scaleview_close(&value.registry);
    free(registry_bytes);
    free((uint8_t *)value.bytes);
    free(value.out);
    free(value.pool);
    free(value.nodes);
    return failed != 0;
}
