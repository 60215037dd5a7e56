/* Writes nodes as JSON, by node_json.h, where names are longer than any room on the stack: it is the
 * JSON that the library writes. It prints nothing if all is as it should be.
 */
#include "node_json.h"
#include "registry_bytes.h"

enum { LONGEST = 100000, TYPE = 1, TEXT_ROOM = 4 * LONGEST };

/* A u8, and a variant of one arm with two fields, all with names of so many letters. */
static struct bytes types_of(uint32_t length) {
    static char name[LONGEST + 1];
    struct bytes types = {NULL, 0, 0};
    put_compact(&types, 2);
    put_primitive(&types, 0, SCALEVIEW_U8);
    put_front(&types, TYPE);
    put_byte(&types, SCALEVIEW_VARIANT);
    put_compact(&types, 1);
    memset(name, 'v', length);
    name[length] = 0;
    put_compact(&types, length);
    put(&types, name, length);
    put_compact(&types, 2);
    for (int letter = 'b'; letter >= 'a'; letter--) {
        memset(name, letter, length);
        put_field(&types, name, 0);
    }
    // The arm's index, and no documents of the arm and of the type.
    for (int i = 0; i < 3; i++) put_byte(&types, 0);
    return types;
}

/* Whether the text of a value's nodes is the library's. */
static bool is_equal(uint32_t length) {
    static char by_nodes[TEXT_ROOM];
    static uint8_t text[TEXT_ROOM];
    static const uint8_t value[] = {0, 7, 9};
    struct bytes types = types_of(length);
    scaleview_registry registry = {NULL};
    scaleview_answer answer;
    scaleview_node nodes[3];
    uint32_t code = scaleview_open(types.at, types.length, 0, &registry, &answer);
    free(types.at);
    if (code) return false;
    code = scaleview_decode_nodes(registry, TYPE, 64, 64, 0, value, sizeof value, nodes, 3, NULL, 0, &answer);
    size_t written = code ? 0 : node_json(registry, nodes, NULL, by_nodes);
    code = scaleview_decode(registry, TYPE, 64, 64, 0, value, sizeof value, text, sizeof text, &answer);
    scaleview_close(&registry);
    return !code && written == answer.length && !memcmp(by_nodes, text, written);
}

int main(void) {
    static const uint32_t lengths[] = {0, 1, 4095, 4096, 4097, LONGEST};
    int wrong = 0;
    for (size_t i = 0; i < sizeof lengths / sizeof *lengths; i++) {
        if (is_equal(lengths[i])) continue;
        printf("node_names: not so: names of %u bytes\n", lengths[i]);
        wrong = 1;
    }
    return wrong;
}
