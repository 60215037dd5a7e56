/* What a chain's names are, which bytes they have, and how opaque values are read. */
#include "chain_bytes.h"
#include "scaleview.h"
#include <stdio.h>
#include <string.h>

enum { WITH_NAMES = SCALEVIEW_METADATA | SCALEVIEW_NAMES, OWN_TYPES = 13, ALL_TYPES = 24 };

static int failures = 0;

static void check(const char *what, bool is_so) {
    if (!is_so) {
        printf("names: not so: %s\n", what);
        failures++;
    }
}

static bool is_answer(scaleview_answer answer, uint32_t code, uint32_t from, uint64_t at, uint64_t length) {
    return answer.code == code && answer.from == from && answer.at == at && answer.length == length;
}

/* The chain's names in order, their types, and their bytes. */
static const struct {
    const char *name;
    uint32_t type;
    const char *bytes;
    size_t length;
} names[] = {
    {"extrinsic", 13, NULL, 0},
    {"call", 3, NULL, 0},
    {"event", 11, NULL, 0},
    {"error", 12, NULL, 0},
    {"calls:Sys", 3, NULL, 0},
    {"events:Sys", 11, NULL, 0},
    {"errors:Sys", 12, NULL, 0},
    {"storage:Sys.Now", 1, "\x2a\0\0\0", 4},
    {"key:Sys.Now", 14, NULL, 0},
    {"storage:Sys.Last", 1, NULL, 0},
    {"key:Sys.Last", 15, NULL, 0},
    {"storage:Sys.Code", 2, NULL, 0},
    {"key:Sys.Code", 16, NULL, 0},
    {"storage:Sys.Owner", 2, NULL, 0},
    {"key:Sys.Owner", 17, NULL, 0},
    {"storage:Sys.Vote", 0, "\x07", 1},
    {"key:Sys.Vote", 18, NULL, 0},
    {"constant:Sys.Limit", 1, "\0\x10\0\0", 4},
    {"constant:Sys.Name", 2, "\x0c" "abc", 4},
    {"events:Other", 11, NULL, 0},
    {"constant:Other.Pair", 5, "\x01\0\0\0\x02", 5},
    {"result:Core.version", 1, NULL, 0},
    {"params:Core.version", 19, NULL, 0},
    {"result:Core.run", 4, NULL, 0},
    {"params:Core.run", 20, NULL, 0},
    {"result:Pool.check", 5, NULL, 0},
    {"params:Pool.check", 21, NULL, 0},
    {"custom:Owner", 1, "\x01\0\0\0", 4},
    {"custom:Sys.Now", 0, "\x05", 1},
};

enum { NAMES = sizeof names / sizeof *names };

static const char *const unknown_names[] = {
    "",           "Call",        "storage:",    "storage:Sys", "storage:Sys.now",   "storage:Sys.No", "storage:Sys.Nows",
    "key:Sys",    "calls:Other", "errors:Other", "result:Core", "params:Core.check", "custom:Sys",     "extrinsic:",
};

static scaleview_registry opened(uint32_t flags) {
    scaleview_registry registry = {NULL};
    scaleview_answer answer;
    check("opened", scaleview_open(chain_bytes, sizeof chain_bytes, flags, &registry, &answer) == SCALEVIEW_OK);
    uint32_t types = flags & SCALEVIEW_NAMES ? ALL_TYPES : OWN_TYPES;
    check("its numbers", is_answer(answer, SCALEVIEW_OK, 15, CHAIN_REGISTRY_END, types));
    check("its types", scaleview_types(registry, &answer) == SCALEVIEW_OK && answer.length == types);
    return registry;
}

static uint32_t find(scaleview_registry registry, const char *name, scaleview_answer *answer) {
    return scaleview_name(registry, (const uint8_t *)name, strlen(name), answer);
}

static uint32_t bytes_of(scaleview_registry registry, const char *name, uint8_t *out, size_t room, scaleview_answer *answer) {
    return scaleview_name_bytes(registry, (const uint8_t *)name, strlen(name), out, room, answer);
}

static void check_found(scaleview_registry registry) {
    scaleview_answer answer;
    uint8_t out[1] = "?";
    for (uint32_t i = 0; i < NAMES; i++) {
        check("a name", find(registry, names[i].name, &answer) == SCALEVIEW_OK);
        check(names[i].name, is_answer(answer, SCALEVIEW_OK, names[i].type, names[i].bytes != NULL, names[i].length));
    }
    for (size_t i = 0; i < sizeof unknown_names / sizeof *unknown_names; i++) {
        const char *name = unknown_names[i];
        check(name, find(registry, name, &answer) == SCALEVIEW_UNKNOWN_NAME);
        check("its numbers", is_answer(answer, SCALEVIEW_UNKNOWN_NAME, 0, 0, 0));
        check("its bytes", bytes_of(registry, name, out, sizeof out, &answer) == SCALEVIEW_UNKNOWN_NAME && out[0] == '?');
        check("its numbers", is_answer(answer, SCALEVIEW_UNKNOWN_NAME, 0, 0, 0));
    }
    check("a name before a 0", scaleview_name(registry, (const uint8_t *)"call", 5, &answer) == SCALEVIEW_UNKNOWN_NAME);
    check("a name of no bytes", scaleview_name(registry, NULL, 0, &answer) == SCALEVIEW_UNKNOWN_NAME);
}

static void check_listed(scaleview_registry registry) {
    scaleview_answer answer;
    for (uint32_t i = 0; i < NAMES; i++) {
        uint8_t out[32];
        size_t length = strlen(names[i].name);
        bool has_bytes = names[i].bytes != NULL;
        memset(out, '?', sizeof out);
        check("no room", scaleview_name_at(registry, i, out, length - 1, &answer) == SCALEVIEW_NO_ROOM && out[0] == '?');
        check("its numbers", is_answer(answer, SCALEVIEW_NO_ROOM, names[i].type, has_bytes, length));
        check("room", scaleview_name_at(registry, i, out, length, &answer) == SCALEVIEW_OK);
        check("its numbers", is_answer(answer, SCALEVIEW_OK, names[i].type, has_bytes, length));
        check(names[i].name, !memcmp(out, names[i].name, length) && out[length] == '?');
    }
    check("no room at all", scaleview_name_at(registry, 0, NULL, 0, &answer) == SCALEVIEW_NO_ROOM && answer.length == 9);
    check("no more names", scaleview_name_at(registry, NAMES, NULL, 0, &answer) == SCALEVIEW_UNKNOWN_NAME);
    check("its numbers", is_answer(answer, SCALEVIEW_UNKNOWN_NAME, 0, 0, 0));
    check("no such index", scaleview_name_at(registry, UINT32_MAX, NULL, 0, &answer) == SCALEVIEW_UNKNOWN_NAME);
}

static void check_bytes(scaleview_registry registry) {
    scaleview_answer answer;
    for (uint32_t i = 0; i < NAMES; i++) {
        uint8_t out[8] = "????????";
        size_t length = names[i].length;
        if (!names[i].bytes) {
            check("no bytes", bytes_of(registry, names[i].name, out, sizeof out, &answer) == SCALEVIEW_NO_BYTES);
            check("its numbers", is_answer(answer, SCALEVIEW_NO_BYTES, 0, 0, 0) && out[0] == '?');
            continue;
        }
        check("no room", bytes_of(registry, names[i].name, out, length - 1, &answer) == SCALEVIEW_NO_ROOM && out[0] == '?');
        check("its length", answer.length == length);
        check("bytes", bytes_of(registry, names[i].name, out, length, &answer) == SCALEVIEW_OK && answer.length == length);
        check(names[i].name, !memcmp(out, names[i].bytes, length) && out[length] == '?');
    }
    check("no room at all", bytes_of(registry, "custom:Owner", NULL, 0, &answer) == SCALEVIEW_NO_ROOM && answer.length == 4);
}

/* A value of the type that has this name, opaque or not. */
static void check_value(scaleview_registry registry, const char *name, const char *bytes, size_t length, const char *json) {
    const uint8_t *value = (const uint8_t *)bytes;
    scaleview_answer answer, front = {.length = length};
    uint8_t out[256];
    find(registry, name, &answer);
    if (!strcmp(name, "extrinsic")) check("an opaque value", scaleview_opaque(value, length, &front) == SCALEVIEW_OK);
    uint32_t code = scaleview_decode(registry, answer.from, 64, 1 << 24, 0, value + front.at, (size_t)front.length, out,
                                     sizeof out, &answer);
    check(name, code == SCALEVIEW_OK && answer.length == strlen(json) && !memcmp(out, json, strlen(json)));
}

static void check_values(scaleview_registry registry) {
    static const char hash[] = "aaaaaaaaaaaaaaaabbbbbbbbbbbbbbbbcccccccc\x01\0\0\0\x02";
    check_value(registry, "extrinsic", "\x18\x04\x01\xd2\x04\0\0", 7, "{\"bare\":{\"call\":{\"set\":{\"now\":1234}}}}");
    check_value(registry, "params:Core.run", "\x04\xff\x07\0\0\0", 6, "{\"at\":7,\"block\":\"0xff\"}");
    check_value(registry, "params:Pool.check", "\x01\x07\0\0\0", 5, "[1,7]");
    check_value(registry, "params:Core.version", "", 0, "null");
    check_value(registry, "storage:Sys.Owner", "\x08\x01\x02", 3, "\"0x0102\"");
    check_value(registry, "key:Sys.Vote", hash, 45,
                "{\"entry\":\"0x62626262626262626262626262626262\",\"hash0\":\"0x6363636363636363\",\"key0\":1,\"key1\":2,"
                "\"pallet\":\"0x61616161616161616161616161616161\"}");
}

/* Without the flag, and with it for a registry alone, there are no names and no synthetic types. */
static void check_unnamed(void) {
    const size_t front = 5;
    scaleview_registry alone = {NULL}, unnamed = opened(SCALEVIEW_METADATA);
    scaleview_answer answer;
    scaleview_open(chain_bytes + front, CHAIN_REGISTRY_END - front, SCALEVIEW_NAMES, &alone, &answer);
    check("a registry alone", is_answer(answer, SCALEVIEW_OK, 0, CHAIN_REGISTRY_END - front, OWN_TYPES));
    scaleview_registry registries[] = {alone, unnamed};
    for (size_t i = 0; i < 2; i++) {
        check("no name", find(registries[i], "call", &answer) == SCALEVIEW_UNKNOWN_NAME);
        check("none to list", scaleview_name_at(registries[i], 0, NULL, 0, &answer) == SCALEVIEW_UNKNOWN_NAME);
        check("none of bytes", bytes_of(registries[i], "custom:Owner", NULL, 0, &answer) == SCALEVIEW_UNKNOWN_NAME);
        check("closed", scaleview_close(&registries[i]) == SCALEVIEW_OK);
    }
}

/* Metadata of which one byte is another one, or which has another length. What follows the registry is read for names alone. */
static void check_rejected(void) {
    static const struct {
        size_t length, changed;
        uint8_t byte;
        uint32_t code, from;
        uint64_t at;
    } rejected[] = {
        {CHAIN_REGISTRY_END, 0, 'm', SCALEVIEW_VALUE_TRUNCATED, 0, CHAIN_REGISTRY_END},
        {455, 0, 'm', SCALEVIEW_VALUE_TRUNCATED, 0, 455},
        {457, 0, 'm', SCALEVIEW_REGISTRY_TRAILING_BYTES, 0, 456},
        {456, 219, 0xff, SCALEVIEW_VALUE_BAD_UTF8, 0, 219},           /* the name of the first pallet */
        {456, 249, 0x01, SCALEVIEW_VALUE_COMPACT_NOT_SHORTEST, 0, 249}, /* the length of a default */
        {456, 217, 0x07, SCALEVIEW_VALUE_COMPACT_TOO_LARGE, 0, 217},  /* the number of pallets */
        {456, 222, 0x02, SCALEVIEW_VALUE_NO_SUCH_VARIANT, 0, 222},    /* whether it has storage */
        {456, 232, 0x03, SCALEVIEW_VALUE_NO_SUCH_VARIANT, 0, 232},    /* the modifier of the first entry */
        {456, 234, 0x34, SCALEVIEW_METADATA_UNKNOWN_REFERENCE, 13, 234}, /* its type */
        {457, 234, 0x34, SCALEVIEW_REGISTRY_TRAILING_BYTES, 0, 456},
    };
    uint8_t bytes[sizeof chain_bytes + 1] = {0};
    scaleview_registry registry = {NULL};
    scaleview_answer answer;
    for (size_t i = 0; i < sizeof rejected / sizeof *rejected; i++) {
        memcpy(bytes, chain_bytes, sizeof chain_bytes);
        bytes[rejected[i].changed] = rejected[i].byte;
        check("rejected", scaleview_open(bytes, rejected[i].length, WITH_NAMES, &registry, &answer) == rejected[i].code);
        check("its numbers", is_answer(answer, rejected[i].code, rejected[i].from, rejected[i].at, 0) && !registry.inside);
        scaleview_open(bytes, rejected[i].length, SCALEVIEW_METADATA, &registry, &answer);
        check("taken without names", is_answer(answer, SCALEVIEW_OK, 15, CHAIN_REGISTRY_END, OWN_TYPES));
        check("closed", scaleview_close(&registry) == SCALEVIEW_OK);
    }
    memcpy(bytes, chain_bytes, sizeof chain_bytes);
    bytes[22] = OWN_TYPES << 2;
    /* The registry's own types never refer to a synthetic one. */
    scaleview_open(bytes, sizeof chain_bytes, WITH_NAMES, &registry, &answer);
    check("an own type refers to none", is_answer(answer, SCALEVIEW_REGISTRY_UNKNOWN_REFERENCE, 2, OWN_TYPES, 0));
}

/* Opens bytes with their names: either all names can be listed, or the code has a name and the place lies in the bytes. */
static bool is_opened(const uint8_t *bytes, size_t length) {
    scaleview_registry registry = {NULL};
    scaleview_answer answer, listed;
    uint8_t out[256];
    if (scaleview_open(bytes, length, WITH_NAMES, &registry, &answer) == SCALEVIEW_OK) {
        uint32_t names_seen = 0;
        while (scaleview_name_at(registry, names_seen, out, sizeof out, &listed) == SCALEVIEW_OK) names_seen++;
        check("all names are listed", listed.code == SCALEVIEW_UNKNOWN_NAME);
        check("closed", scaleview_close(&registry) == SCALEVIEW_OK);
        return true;
    }
    check("a code with a name", scaleview_reason(answer.code, out, sizeof out, &listed) == SCALEVIEW_OK && listed.length > 0);
    check("a place", answer.code == SCALEVIEW_REGISTRY_UNKNOWN_REFERENCE || answer.at <= length);
    return false;
}

/* Metadata that ends anywhere, and metadata of which any one bit is another, is answered. */
static void check_damaged(void) {
    uint8_t bytes[sizeof chain_bytes];
    memcpy(bytes, chain_bytes, sizeof bytes);
    for (size_t length = 0; length < sizeof bytes; length++) check("a front is rejected", !is_opened(bytes, length));
    for (size_t bit = 0; bit < 8 * sizeof bytes; bit++) {
        bytes[bit / 8] ^= (uint8_t)(1 << bit % 8);
        is_opened(bytes, sizeof bytes);
        bytes[bit / 8] ^= (uint8_t)(1 << bit % 8);
    }
    check("all are as they were", is_opened(bytes, sizeof bytes));
}

static void check_opaque(void) {
    static const struct {
        const char *bytes;
        size_t length;
        uint32_t code;
        uint64_t at, counted;
    } values[] = {
        {"\x0c\x01\x02\x03", 4, SCALEVIEW_OK, 1, 3},
        {"\x00", 1, SCALEVIEW_OK, 1, 0},
        {"", 0, SCALEVIEW_VALUE_TRUNCATED, 0, 0},
        {"\x01", 1, SCALEVIEW_VALUE_TRUNCATED, 1, 0},
        {"\x0c\x01\x02", 3, SCALEVIEW_VALUE_TRUNCATED, 3, 0},
        {"\x0c\x01\x02\x03\x04", 5, SCALEVIEW_VALUE_TRAILING_BYTES, 4, 0},
        {"\x0d\x00\x02\x03", 4, SCALEVIEW_VALUE_COMPACT_NOT_SHORTEST, 0, 0},
        {"\x07\x01\x02\x03", 4, SCALEVIEW_VALUE_COMPACT_TOO_LARGE, 0, 0},
    };
    uint8_t many[66] = {0x01, 0x01};
    scaleview_answer answer;
    for (size_t i = 0; i < sizeof values / sizeof *values; i++) {
        uint32_t code = scaleview_opaque((const uint8_t *)values[i].bytes, values[i].length, &answer);
        check("an opaque value", code == values[i].code && is_answer(answer, code, 0, values[i].at, values[i].counted));
    }
    scaleview_opaque(many, sizeof many, &answer);
    check("a length of two bytes", is_answer(answer, SCALEVIEW_OK, 0, 2, 64));
    check("no bytes", scaleview_opaque(NULL, 0, &answer) == SCALEVIEW_VALUE_TRUNCATED);
}

/* A null handle and a session's are reported, and nothing is written. */
static void check_handles(scaleview_registry registry) {
    scaleview_session session = {NULL};
    scaleview_answer answer;
    check("started", scaleview_start(registry, 0, 64, 9, 0, &session, &answer) == SCALEVIEW_OK);
    scaleview_registry wrong[] = {{NULL}, {session.inside}};
    for (size_t i = 0; i < 2; i++) {
        uint8_t out[16] = "?";
        check("a name of none", find(wrong[i], "call", &answer) == SCALEVIEW_NO_HANDLE);
        check("its numbers", is_answer(answer, SCALEVIEW_NO_HANDLE, 0, 0, 0));
        check("names of none", scaleview_name_at(wrong[i], 0, out, sizeof out, &answer) == SCALEVIEW_NO_HANDLE);
        check("bytes of none", bytes_of(wrong[i], "custom:Owner", out, sizeof out, &answer) == SCALEVIEW_NO_HANDLE);
        check("nothing is written", out[0] == '?');
    }
    check("freed", scaleview_free(&session) == SCALEVIEW_OK);
}

int main(void) {
    scaleview_registry registry = opened(WITH_NAMES);
    check_found(registry);
    check_listed(registry);
    check_bytes(registry);
    check_values(registry);
    check_handles(registry);
    check("closed", scaleview_close(&registry) == SCALEVIEW_OK);
    check_unnamed();
    check_rejected();
    check_damaged();
    check_opaque();
    return failures > 0;
}
