/* Two registries with short values whose nodes or text are huge. With a budget of 64 MiB the calls return SCALEVIEW_MEMORY,
 * the process stays small, and a smaller value is decoded afterwards. And a long text byte by byte, in linear time. */
#define _DEFAULT_SOURCE
#include "registry_bytes.h"
#include "scaleview.h"
#include <stdio.h>
#include <sys/resource.h>
#include <time.h>

enum { MIB = 1 << 20, BUDGET = 64 * MIB, PEAK = 160 * MIB, OUT_ROOM = 4 * MIB, NODE_ROOM = 1 << 18 };

static int failures = 0;

static void check(const char *what, bool is_so) {
    if (!is_so) {
        printf("hostile: not so: %s\n", what);
        failures++;
    }
}

static uint8_t out[OUT_ROOM];
static scaleview_node nodes[NODE_ROOM];

/* A registry, the position of a type of sequences, and what becomes of sequences whose elements are bytes 7. */
struct hostile {
    const char *name;
    struct bytes registry;
    uint32_t type;
    uint32_t elements;    /* of the value that is too large */
    uint32_t nodes_code;  /* what the calls return that decode it without making a text */
    uint64_t small_nodes; /* of a value of two elements, how many nodes it has, and how many bytes of text */
    uint64_t small_text;
};

static struct bytes value_of(uint32_t elements) {
    struct bytes value = {0};
    put_compact(&value, elements);
    for (uint32_t i = 0; i < elements; i++) put_byte(&value, 7);
    return value;
}

/* Each element has a byte, 100,001 nodes, and the text [null,null,..,7]. */
static struct hostile many_units(void) {
    enum { UNITS = 99999 };
    struct hostile made = {"a composite of 99,999 units and a u8", .type = 3, .elements = 1000};
    made.nodes_code = SCALEVIEW_MEMORY;
    made.small_nodes = 1 + 2 * (UNITS + 2);
    made.small_text = 3 + 2 * (5 * UNITS + 3);
    put_compact(&made.registry, 4);
    put_unit(&made.registry, 0);
    put_primitive(&made.registry, 1, SCALEVIEW_U8);
    put_front(&made.registry, 2);
    put_byte(&made.registry, SCALEVIEW_COMPOSITE);
    put_compact(&made.registry, UNITS + 1);
    for (int i = 0; i < UNITS; i++) put_field(&made.registry, NULL, 0);
    put_field(&made.registry, NULL, 1);
    put_byte(&made.registry, 0);
    put_sequence(&made.registry, 3, 2);
    return made;
}

/* Each element has a byte, two nodes, and the text {"aa..a":7}. */
static struct hostile long_name(void) {
    enum { LETTERS = 1000000 };
    struct hostile made = {"a field's name of 1 MB", .type = 2, .elements = 2000};
    made.nodes_code = SCALEVIEW_OK;
    made.small_nodes = 1 + 2 * 2;
    made.small_text = 3 + 2 * (LETTERS + 6);
    char *name = malloc(LETTERS + 1);
    if (!name) exit(4);
    memset(name, 'a', LETTERS);
    name[LETTERS] = 0;
    put_compact(&made.registry, 3);
    put_primitive(&made.registry, 0, SCALEVIEW_U8);
    put_composite(&made.registry, 1, name, 0);
    put_sequence(&made.registry, 2, 1);
    free(name);
    return made;
}

static size_t peak(void) {
    struct rusage usage;
    getrusage(RUSAGE_SELF, &usage);
    return (size_t)usage.ru_maxrss * 1024;
}

/* By one call and by a session, with the budget: what the calls return that make a text, and the others. */
static void check_value(const struct hostile *hostile, scaleview_registry registry, uint32_t elements, uint32_t text_code,
                        uint32_t nodes_code) {
    struct bytes value = value_of(elements);
    scaleview_session session = {NULL};
    scaleview_answer answer;
    uint32_t code = scaleview_decode(registry, hostile->type, 64, 1 << 24, BUDGET, value.at, value.length, out, OUT_ROOM,
                                     &answer);
    check("a text", code == text_code && (code != SCALEVIEW_OK || answer.length == hostile->small_text));
    code = scaleview_decode_nodes(registry, hostile->type, 64, 1 << 24, BUDGET, value.at, value.length, nodes, NODE_ROOM,
                                  out, OUT_ROOM, &answer);
    check("nodes", code == nodes_code && (text_code != SCALEVIEW_OK || answer.length == hostile->small_nodes));
    code = scaleview_start(registry, hostile->type, 64, 1 << 24, BUDGET, &session, &answer);
    check("started", code == SCALEVIEW_OK);
    check("fed", scaleview_feed(&session, value.at, value.length, &answer) == nodes_code);
    for (int time = 0; time < 2; time++) {
        code = scaleview_finish(&session, out, OUT_ROOM, &answer);
        check("its end", code == text_code && (code != SCALEVIEW_OK || answer.length == hostile->small_text));
    }
    check("freed", scaleview_free(&session) == SCALEVIEW_OK);
    free(value.at);
}

static void check_hostile(struct hostile hostile) {
    scaleview_registry registry = {NULL};
    scaleview_answer answer;
    uint32_t code = scaleview_open(hostile.registry.at, hostile.registry.length, 0, &registry, &answer);
    check("opened", code == SCALEVIEW_OK);
    free(hostile.registry.at);
    check_value(&hostile, registry, hostile.elements, SCALEVIEW_MEMORY, hostile.nodes_code);
    check_value(&hostile, registry, 2, SCALEVIEW_OK, SCALEVIEW_OK);
    check("closed", scaleview_close(&registry) == SCALEVIEW_OK);
    check("the peak", peak() < PEAK);
    printf("c: hostile: %s: at most %zu MiB resident\n", hostile.name, (peak() + MIB - 1) / MIB);
}

/* The processor time of a session that is fed a text of this many bytes, byte by byte. */
static double seconds_of(scaleview_registry registry, uint32_t length) {
    struct bytes value = {0};
    scaleview_session session = {NULL};
    scaleview_answer answer;
    uint32_t code = SCALEVIEW_MORE;
    put_compact(&value, length);
    for (uint32_t i = 0; i < length; i++) put_byte(&value, 'a');
    check("a text is started", scaleview_start(registry, 0, 64, 1 << 24, 0, &session, &answer) == SCALEVIEW_OK);
    clock_t began = clock();
    for (size_t i = 0; i < value.length; i++) code = scaleview_feed(&session, value.at + i, 1, &answer);
    double seconds = (double)(clock() - began) / CLOCKS_PER_SEC;
    check("a text byte by byte", code == SCALEVIEW_OK && answer.length == 1);
    check("its session is freed", scaleview_free(&session) == SCALEVIEW_OK);
    free(value.at);
    return seconds;
}

/* A text of four times the bytes takes at most eight times as long, so none is looked at anew for each byte. */
static void check_single_bytes(void) {
    struct bytes bytes = {0};
    scaleview_registry registry = {NULL};
    scaleview_answer answer;
    put_compact(&bytes, 1);
    put_primitive(&bytes, 0, SCALEVIEW_STR);
    check("a text is opened", scaleview_open(bytes.at, bytes.length, 0, &registry, &answer) == SCALEVIEW_OK);
    free(bytes.at);
    double small = seconds_of(registry, MIB), large = seconds_of(registry, 4 * MIB);
    check("the time of single bytes", large < 8 * small);
    check("it is closed", scaleview_close(&registry) == SCALEVIEW_OK);
    printf("c: hostile: 4 MiB byte by byte: %.1f times the time of 1 MiB\n", large / small);
}

int main(void) {
    check_hostile(many_units());
    check_hostile(long_name());
    check_single_bytes();
    return failures > 0;
}
