/* What the calls that describe a registry's types report. */
#include "scaleview.h"
#include <stdio.h>
#include <string.h>

static int failures = 0;

static void check(const char *what, bool is_so) {
    if (!is_so) {
        printf("types: not so: %s\n", what);
        failures++;
    }
}

static const uint8_t registry_bytes[] = {
    0x28,
    0x00, 0x00, 0x00, 0x05, 0x03, 0x00,                                                  /* 0: u8 */
    0x04, 0x08, 0x04, 'a', 0x10, 'P', 'a', 'i', 'r', 0x00, 0x00, 0x08,                   /* 1: a::Pair { x: 0, 2 } */
    0x01, 0x04, 'x', 0x00, 0x00, 0x00, 0x00, 0x08, 0x00, 0x00, 0x00,
    0x08, 0x08, 0x04, 'a', 0x10, 'P', 'a', 'i', 'r', 0x00, 0x01, 0x08,                   /* 2: a::Pair, End or Next */
    0x0c, 'E', 'n', 'd', 0x00, 0x07, 0x00,
    0x10, 'N', 'e', 'x', 't', 0x08, 0x01, 0x04, 'n', 0x00, 0x00, 0x00, 0x00, 0x0c, 0x00, 0x00, 0x09, 0x00, 0x00,
    0x0c, 0x00, 0x00, 0x02, 0x00, 0x00,                                                  /* 3: [0] */
    0x10, 0x00, 0x00, 0x03, 0x05, 0x00, 0x00, 0x00, 0x0c, 0x00,                          /* 4: [3; 5] */
    0x14, 0x00, 0x00, 0x04, 0x08, 0x00, 0x04, 0x00,                                      /* 5: (0, 1) */
    0x18, 0x00, 0x00, 0x06, 0x00, 0x00,                                                  /* 6: compact of 0 */
    0x1c, 0x00, 0x00, 0x07, 0x00, 0x08, 0x00,                                            /* 7: bits in 0, by 2 */
    0x20, 0x00, 0x00, 0x04, 0x00, 0x00,                                                  /* 8: () */
    0x24, 0x00, 0x00, 0x01, 0x00, 0x00,                                                  /* 9: no arm */
};

static scaleview_registry opened(void) {
    scaleview_registry registry = {NULL};
    scaleview_answer answer;
    check("opened", scaleview_open(registry_bytes, sizeof registry_bytes, 0, &registry, &answer) == SCALEVIEW_OK);
    check("ten types", answer.length == 10);
    return registry;
}

static bool is_answer(scaleview_answer answer, uint32_t code, uint32_t from, uint64_t at, uint64_t length) {
    return answer.code == code && answer.from == from && answer.at == at && answer.length == length;
}

static void check_shapes(scaleview_registry registry) {
    static const scaleview_type_shape wanted[] = {
        {SCALEVIEW_PRIMITIVE, SCALEVIEW_SIZED, SCALEVIEW_U8, 0, 0, 0, 0},
        {SCALEVIEW_COMPOSITE, SCALEVIEW_SIZED, 0, 0, 0, 0, 2},
        {SCALEVIEW_VARIANT, SCALEVIEW_SIZED, 0, 0, 0, 0, 2},
        {SCALEVIEW_SEQUENCE, SCALEVIEW_SIZED, 0, 0, 0, 0, 0},
        {SCALEVIEW_ARRAY, SCALEVIEW_SIZED, 0, 3, 0, 5, 0},
        {SCALEVIEW_TUPLE, SCALEVIEW_SIZED, 0, 0, 0, 0, 2},
        {SCALEVIEW_COMPACT, SCALEVIEW_SIZED, 0, 0, 0, 0, 0},
        {SCALEVIEW_BIT_SEQUENCE, SCALEVIEW_SIZED, 0, 0, 2, 0, 0},
        {SCALEVIEW_TUPLE, SCALEVIEW_EMPTY, 0, 0, 0, 0, 0},
        {SCALEVIEW_VARIANT, SCALEVIEW_NO_VALUE, 0, 0, 0, 0, 0},
    };
    scaleview_type_shape shape;
    scaleview_answer answer;
    for (uint32_t i = 0; i < sizeof wanted / sizeof *wanted; i++) {
        memset(&shape, 0xff, sizeof shape);
        check("a shape", scaleview_type(registry, i, &shape, &answer) == SCALEVIEW_OK);
        check("its numbers", !memcmp(&shape, &wanted[i], sizeof shape) && is_answer(answer, SCALEVIEW_OK, 0, 0, 0));
    }
    scaleview_type_shape before = shape;
    check("no type", scaleview_type(registry, 10, &shape, &answer) == SCALEVIEW_UNKNOWN_TYPE);
    check("the shape stays", !memcmp(&shape, &before, sizeof shape));
}

static void check_parts(scaleview_registry registry) {
    scaleview_answer answer;
    uint8_t out[8] = "????????";
    check("a named field", scaleview_part(registry, 1, 0, out, sizeof out, &answer) == SCALEVIEW_OK);
    check("its numbers", is_answer(answer, SCALEVIEW_OK, 0, 1, 1) && !memcmp(out, "x?", 2));
    check("no room", scaleview_part(registry, 1, 0, out + 1, 0, &answer) == SCALEVIEW_NO_ROOM);
    check("its numbers", is_answer(answer, SCALEVIEW_NO_ROOM, 0, 1, 1) && out[1] == '?');
    check("a field without a name", scaleview_part(registry, 1, 1, out, sizeof out, &answer) == SCALEVIEW_OK);
    check("its numbers", is_answer(answer, SCALEVIEW_OK, 2, 0, 0) && out[0] == 'x');
    check("a member", scaleview_part(registry, 5, 1, out, sizeof out, &answer) == SCALEVIEW_OK);
    check("its numbers", is_answer(answer, SCALEVIEW_OK, 1, 0, 0));
    check("no more fields", scaleview_part(registry, 1, 2, out, sizeof out, &answer) == SCALEVIEW_UNKNOWN_PART);
    check("its numbers", is_answer(answer, SCALEVIEW_UNKNOWN_PART, 0, 0, 0));
    check("no more members", scaleview_part(registry, 5, 2, out, sizeof out, &answer) == SCALEVIEW_UNKNOWN_PART);
    check("a part of a variant", scaleview_part(registry, 2, 0, out, sizeof out, &answer) == SCALEVIEW_UNKNOWN_PART);
    check("a part of no type", scaleview_part(registry, 10, 0, out, sizeof out, &answer) == SCALEVIEW_UNKNOWN_TYPE);
}

static void check_arms(scaleview_registry registry) {
    scaleview_answer answer;
    uint8_t out[8] = "????????";
    check("an arm", scaleview_arm(registry, 2, 0, out, sizeof out, &answer) == SCALEVIEW_OK);
    check("its numbers", is_answer(answer, SCALEVIEW_OK, 7, 0, 3) && !memcmp(out, "End?", 4));
    check("no room", scaleview_arm(registry, 2, 1, out, 3, &answer) == SCALEVIEW_NO_ROOM);
    check("its numbers", is_answer(answer, SCALEVIEW_NO_ROOM, 9, 2, 4) && !memcmp(out, "End?", 4));
    check("room", scaleview_arm(registry, 2, 1, out, 4, &answer) == SCALEVIEW_OK && !memcmp(out, "Next?", 5));
    check("no more arms", scaleview_arm(registry, 2, 2, out, sizeof out, &answer) == SCALEVIEW_UNKNOWN_PART);
    check("an arm of a composite", scaleview_arm(registry, 1, 0, out, sizeof out, &answer) == SCALEVIEW_UNKNOWN_PART);
    check("an arm of no type", scaleview_arm(registry, 10, 0, out, sizeof out, &answer) == SCALEVIEW_UNKNOWN_TYPE);

    check("an arm's field", scaleview_arm_field(registry, 2, 1, 0, out, sizeof out, &answer) == SCALEVIEW_OK);
    check("its numbers", is_answer(answer, SCALEVIEW_OK, 0, 1, 1) && out[0] == 'n');
    check("one without a name", scaleview_arm_field(registry, 2, 1, 1, out, sizeof out, &answer) == SCALEVIEW_OK);
    check("its numbers", is_answer(answer, SCALEVIEW_OK, 3, 0, 0));
    check("no more fields", scaleview_arm_field(registry, 2, 1, 2, out, sizeof out, &answer) == SCALEVIEW_UNKNOWN_PART);
    check("no fields", scaleview_arm_field(registry, 2, 0, 0, out, sizeof out, &answer) == SCALEVIEW_UNKNOWN_PART);
    check("no such arm", scaleview_arm_field(registry, 2, 2, 0, out, sizeof out, &answer) == SCALEVIEW_UNKNOWN_PART);
    check("no such type", scaleview_arm_field(registry, 10, 0, 0, out, sizeof out, &answer) == SCALEVIEW_UNKNOWN_TYPE);
}

static void check_paths(scaleview_registry registry) {
    scaleview_answer answer;
    uint8_t out[8] = "????????";
    check("a path", scaleview_path(registry, 1, out, sizeof out, &answer) == SCALEVIEW_OK);
    check("its bytes", is_answer(answer, SCALEVIEW_OK, 0, 0, 7) && !memcmp(out, "a::Pair?", 8));
    check("no room", scaleview_path(registry, 2, out, 6, &answer) == SCALEVIEW_NO_ROOM && answer.length == 7);
    check("no path", scaleview_path(registry, 0, out, 0, &answer) == SCALEVIEW_OK && answer.length == 0);
    check("a path of no type", scaleview_path(registry, 10, out, 8, &answer) == SCALEVIEW_UNKNOWN_TYPE);

    static const struct {
        uint32_t from;
        const char *path;
        uint32_t code;
        uint64_t at;
    } finds[] = {
        {0, "a::Pair", SCALEVIEW_OK, 1},          {1, "a::Pair", SCALEVIEW_OK, 1},
        {2, "a::Pair", SCALEVIEW_OK, 2},          {3, "a::Pair", SCALEVIEW_UNKNOWN_TYPE, 0},
        {0, "", SCALEVIEW_OK, 0},                 {1, "", SCALEVIEW_OK, 3},
        {0, "a", SCALEVIEW_UNKNOWN_TYPE, 0},      {0, "a::Pai", SCALEVIEW_UNKNOWN_TYPE, 0},
        {0, "a::Pairs", SCALEVIEW_UNKNOWN_TYPE, 0}, {0, "a:Pair", SCALEVIEW_UNKNOWN_TYPE, 0},
        {10, "", SCALEVIEW_UNKNOWN_TYPE, 0},      {UINT32_MAX, "", SCALEVIEW_UNKNOWN_TYPE, 0},
    };
    for (size_t i = 0; i < sizeof finds / sizeof *finds; i++) {
        const char *path = finds[i].path;
        uint32_t code = scaleview_find(registry, finds[i].from, (const uint8_t *)path, strlen(path), &answer);
        check(path, code == finds[i].code && is_answer(answer, code, 0, finds[i].at, 0));
    }
}

static const uint8_t annotated_bytes[] = {
    0x0c,
    /* 0: W<T = 1, U> { x: 1 as T, 1 } */
    0x00, 0x04, 0x04, 'W', 0x08, 0x04, 'T', 0x01, 0x04, 0x04, 'U', 0x00, 0x00, 0x08,
    0x01, 0x04, 'x', 0x04, 0x01, 0x04, 'T', 0x04, 0x10, 'o', 'f', ' ', 'x', 0x00, 0x04, 0x00, 0x00,
    0x08, 0x0c, 'o', 'n', 'e', 0x00,
    /* 1: A(2 as u8) */
    0x04, 0x00, 0x00, 0x01, 0x04, 0x04, 'A', 0x04, 0x00, 0x08, 0x01, 0x08, 'u', '8', 0x08, 0x04, 'f', 0x04, 'g',
    0x00, 0x04, 0x18, 'a', 'n', ' ', 'a', 'r', 'm', 0x00,
    /* 2: u8 */
    0x08, 0x00, 0x00, 0x05, 0x03, 0x00,
};

static void check_params(scaleview_registry registry) {
    scaleview_answer answer;
    uint8_t out[8] = "????????";
    check("a parameter", scaleview_param(registry, 0, 0, out, sizeof out, &answer) == SCALEVIEW_OK);
    check("its numbers", is_answer(answer, SCALEVIEW_OK, 1, 1, 1) && !memcmp(out, "T?", 2));
    check("no room", scaleview_param(registry, 0, 1, out, 0, &answer) == SCALEVIEW_NO_ROOM);
    check("the same numbers", is_answer(answer, SCALEVIEW_NO_ROOM, 0, 0, 1) && out[0] == 'T');
    check("one without a type", scaleview_param(registry, 0, 1, out, sizeof out, &answer) == SCALEVIEW_OK && out[0] == 'U');
    check("no more", scaleview_param(registry, 0, 2, out, sizeof out, &answer) == SCALEVIEW_UNKNOWN_PART);
    check("of no type", scaleview_param(registry, 3, 0, out, sizeof out, &answer) == SCALEVIEW_UNKNOWN_TYPE);
}

/* The name of a field's type, or the code that says why there is none. */
static void check_type_names(scaleview_registry registry) {
    static const struct {
        uint32_t type, arm, field, code;
        uint64_t at;
        const char *name;
    } names[] = {
        {0, SCALEVIEW_NONE, 0, SCALEVIEW_OK, 1, "T"},  {0, SCALEVIEW_NONE, 1, SCALEVIEW_OK, 0, ""},
        {1, 0, 0, SCALEVIEW_OK, 1, "u8"},              {0, SCALEVIEW_NONE, 2, SCALEVIEW_UNKNOWN_PART, 0, ""},
        {0, 0, 0, SCALEVIEW_UNKNOWN_PART, 0, ""},      {1, SCALEVIEW_NONE, 0, SCALEVIEW_UNKNOWN_PART, 0, ""},
        {1, 0, 1, SCALEVIEW_UNKNOWN_PART, 0, ""},      {1, 1, 0, SCALEVIEW_UNKNOWN_PART, 0, ""},
        {1, 0, SCALEVIEW_NONE, SCALEVIEW_UNKNOWN_PART, 0, ""},
        {2, SCALEVIEW_NONE, SCALEVIEW_NONE, SCALEVIEW_UNKNOWN_PART, 0, ""},
        {3, SCALEVIEW_NONE, 0, SCALEVIEW_UNKNOWN_TYPE, 0, ""},
    };
    scaleview_answer answer;
    uint8_t out[8];
    for (size_t i = 0; i < sizeof names / sizeof *names; i++) {
        uint64_t length = strlen(names[i].name);
        uint32_t code = scaleview_type_name(registry, names[i].type, names[i].arm, names[i].field, out, sizeof out, &answer);
        check("a type's name", code == names[i].code && is_answer(answer, code, 0, names[i].at, length));
        check("its bytes", !memcmp(out, names[i].name, length));
    }
}

/* A line of documentation, or the code that says why there is none. */
static void check_docs(scaleview_registry registry) {
    static const struct {
        uint32_t type, arm, field, line, code;
        const char *text;
    } lines[] = {
        {0, SCALEVIEW_NONE, SCALEVIEW_NONE, 0, SCALEVIEW_OK, "one"},
        {0, SCALEVIEW_NONE, SCALEVIEW_NONE, 1, SCALEVIEW_OK, ""},
        {0, SCALEVIEW_NONE, SCALEVIEW_NONE, 2, SCALEVIEW_UNKNOWN_PART, ""},
        {0, SCALEVIEW_NONE, 0, 0, SCALEVIEW_OK, "of x"},
        {0, SCALEVIEW_NONE, 1, 0, SCALEVIEW_UNKNOWN_PART, ""},
        {0, 0, SCALEVIEW_NONE, 0, SCALEVIEW_UNKNOWN_PART, ""},
        {1, 0, SCALEVIEW_NONE, 0, SCALEVIEW_OK, "an arm"},
        {1, 0, 0, 1, SCALEVIEW_OK, "g"},
        {1, 0, 0, 2, SCALEVIEW_UNKNOWN_PART, ""},
        {1, SCALEVIEW_NONE, 0, 0, SCALEVIEW_UNKNOWN_PART, ""},
        {2, SCALEVIEW_NONE, SCALEVIEW_NONE, 0, SCALEVIEW_UNKNOWN_PART, ""},
        {3, SCALEVIEW_NONE, SCALEVIEW_NONE, 0, SCALEVIEW_UNKNOWN_TYPE, ""},
    };
    scaleview_answer answer;
    uint8_t out[8];
    for (size_t i = 0; i < sizeof lines / sizeof *lines; i++) {
        uint64_t length = strlen(lines[i].text);
        uint32_t code = scaleview_docs(registry, lines[i].type, lines[i].arm, lines[i].field, lines[i].line, out, sizeof out,
                                       &answer);
        check("a line", code == lines[i].code && is_answer(answer, code, 0, 0, length));
        check("its bytes", !memcmp(out, lines[i].text, length));
    }
    check("no room", scaleview_docs(registry, 1, 0, SCALEVIEW_NONE, 0, out, 5, &answer) == SCALEVIEW_NO_ROOM);
    check("its length", is_answer(answer, SCALEVIEW_NO_ROOM, 0, 0, 6));
}

static void check_annotations(void) {
    scaleview_registry registry = {NULL};
    scaleview_answer answer;
    uint32_t code = scaleview_open(annotated_bytes, sizeof annotated_bytes, 0, &registry, &answer);
    check("annotated", code == SCALEVIEW_OK && answer.length == 3);
    check_params(registry);
    check_type_names(registry);
    check_docs(registry);
    check("closed", scaleview_close(&registry) == SCALEVIEW_OK);
}

static void check_null(void) {
    scaleview_registry registry = {NULL};
    scaleview_type_shape shape;
    scaleview_answer answer;
    uint8_t out[1];
    check("a type of null", scaleview_type(registry, 0, &shape, &answer) == SCALEVIEW_NO_HANDLE);
    check("a part of null", scaleview_part(registry, 0, 0, out, 1, &answer) == SCALEVIEW_NO_HANDLE);
    check("an arm of null", scaleview_arm(registry, 0, 0, out, 1, &answer) == SCALEVIEW_NO_HANDLE);
    check("a field of null", scaleview_arm_field(registry, 0, 0, 0, out, 1, &answer) == SCALEVIEW_NO_HANDLE);
    check("a parameter of null", scaleview_param(registry, 0, 0, out, 1, &answer) == SCALEVIEW_NO_HANDLE);
    check("a type's name of null", scaleview_type_name(registry, 0, 0, 0, out, 1, &answer) == SCALEVIEW_NO_HANDLE);
    check("docs of null", scaleview_docs(registry, 0, 0, 0, 0, out, 1, &answer) == SCALEVIEW_NO_HANDLE);
    check("a path of null", scaleview_path(registry, 0, out, 1, &answer) == SCALEVIEW_NO_HANDLE);
    check("a search in null", scaleview_find(registry, 0, out, 0, &answer) == SCALEVIEW_NO_HANDLE);
}

static void check_name(void) {
    scaleview_answer answer;
    uint8_t out[16];
    check("a code's name", scaleview_reason(SCALEVIEW_UNKNOWN_PART, out, sizeof out, &answer) == SCALEVIEW_OK);
    check("its bytes", SCALEVIEW_UNKNOWN_PART == 203 && answer.length == 11 && !memcmp(out, "UnknownPart", 11));
}

int main(void) {
    scaleview_registry registry = opened();
    check_shapes(registry);
    check_parts(registry);
    check_arms(registry);
    check_paths(registry);
    check("closed", scaleview_close(&registry) == SCALEVIEW_OK);
    check_annotations();
    check_null();
    check_name();
    return failures > 0;
}
