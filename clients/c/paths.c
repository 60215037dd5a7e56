/* Where in a value its bytes are rejected or end: the steps by hand, too little room, no memory, wrong handles. */
#include "scaleview.h"
#include <stdio.h>
#include <string.h>

static int failures = 0;

static void check(const char *what, bool is_so) {
    if (!is_so) {
        printf("paths: not so: %s\n", what);
        failures++;
    }
}

enum { BOOL = 0, STR = 1, AMOUNT = 2, BYTES = 5, ID = 6, PAIR = 7, CALL = 8, OUTER = 9, TX = 10, CALLS = 11, BITS = 12, CHAIN = 14 };

static const uint8_t registry_bytes[] = {
    0x3c,
    0x00, 0x00, 0x00, 0x05, 0x00, 0x00,                         /* 0: bool */
    0x04, 0x00, 0x00, 0x05, 0x02, 0x00,                         /* 1: str */
    0x08, 0x00, 0x00, 0x06, 0x0c, 0x00,                         /* 2: Compact<u32> */
    0x0c, 0x00, 0x00, 0x05, 0x05, 0x00,                         /* 3: u32 */
    0x10, 0x00, 0x00, 0x05, 0x03, 0x00,                         /* 4: u8 */
    0x14, 0x00, 0x00, 0x03, 0x04, 0x00, 0x00, 0x00, 0x10, 0x00, /* 5: [u8; 4] */
    0x18, 0x00, 0x00, 0x00, 0x04, 0x00, 0x14, 0x00, 0x00, 0x00, /* 6: struct Id([u8; 4]) */
    0x1c, 0x00, 0x00, 0x04, 0x08, 0x00, 0x00, 0x00,             /* 7: (bool, bool) */
    /* 8: enum Call { Stop = 0, Transfer { dest: Id, value: Compact<u32> } = 5 } */
    0x20, 0x00, 0x00, 0x01, 0x08,
    0x10, 'S', 't', 'o', 'p', 0x00, 0x00, 0x00,
    0x20, 'T', 'r', 'a', 'n', 's', 'f', 'e', 'r', 0x08,
    0x01, 0x10, 'd', 'e', 's', 't', 0x18, 0x00, 0x00,
    0x01, 0x14, 'v', 'a', 'l', 'u', 'e', 0x08, 0x00, 0x00,
    0x05, 0x00, 0x00,
    /* 9: enum Outer { Balances(Call) = 3 } */
    0x24, 0x00, 0x00, 0x01, 0x04,
    0x20, 'B', 'a', 'l', 'a', 'n', 'c', 'e', 's', 0x04, 0x00, 0x20, 0x00, 0x00, 0x03, 0x00, 0x00,
    /* 10: struct Tx { calls: Vec<Outer>, ok: bool, pair: (bool, bool), memo: str, tail: a bit sequence } */
    0x28, 0x00, 0x00, 0x00, 0x14,
    0x01, 0x14, 'c', 'a', 'l', 'l', 's', 0x2c, 0x00, 0x00,
    0x01, 0x08, 'o', 'k', 0x00, 0x00, 0x00,
    0x01, 0x10, 'p', 'a', 'i', 'r', 0x1c, 0x00, 0x00,
    0x01, 0x10, 'm', 'e', 'm', 'o', 0x04, 0x00, 0x00,
    0x01, 0x10, 't', 'a', 'i', 'l', 0x30, 0x00, 0x00,
    0x00,
    0x2c, 0x00, 0x00, 0x02, 0x24, 0x00,       /* 11: Vec<Outer> */
    0x30, 0x00, 0x00, 0x07, 0x10, 0x34, 0x00, /* 12: bits in 4, by 13 */
    0x34, 0x00, 0x00, 0x00, 0x00, 0x00,       /* 13: struct Order {} */
    /* 14: enum Chain { End = 0, Next(Chain) = 1 } */
    0x38, 0x00, 0x00, 0x01, 0x08,
    0x0c, 'E', 'n', 'd', 0x00, 0x00, 0x00,
    0x10, 'N', 'e', 'x', 't', 0x04, 0x00, 0x38, 0x00, 0x00, 0x01, 0x00, 0x00,
};

/* Two calls, of which the second is a transfer; true; false and true; "hi". A bit sequence follows, which isn't read. */
static const uint8_t tx[] = {0x08, 0x03, 0x00, 0x03, 0x05, 0x01, 0x02, 0x03, 0x04, 0x04, 0x01, 0x00, 0x01, 0x08, 'h', 'i'};

static scaleview_registry registry = {NULL};

static bool is_answer(scaleview_answer answer, uint32_t code, uint32_t from, uint64_t at, uint64_t length) {
    return answer.code == code && answer.from == from && answer.at == at && answer.length == length;
}

/* The bytes are rejected with this code at this place, and these steps lead to the type `end`. */
static void check_path(const char *what, uint32_t type, uint16_t depth, uint64_t limit, const uint8_t *bytes, size_t length,
                       uint32_t code, uint64_t place, const scaleview_step *steps, size_t count, uint32_t end) {
    scaleview_answer answer;
    scaleview_step found[8];
    scaleview_decode(registry, type, depth, limit, 0, bytes, length, NULL, 0, &answer);
    check(what, is_answer(answer, code, 0, place, 0));
    memset(found, 0xff, sizeof found);
    check(what, scaleview_path_of(registry, type, depth, limit, 0, bytes, length, found, 8, &answer) == SCALEVIEW_OK);
    check(what, is_answer(answer, SCALEVIEW_OK, end, 1, count));
    check(what, !memcmp(found, steps, count * sizeof *steps) && found[count].type == UINT32_MAX);
}

/* The same for a transaction of which the byte at this place is another one. */
static void check_byte(const char *what, size_t at, uint8_t byte, uint32_t code, uint64_t place, const scaleview_step *steps,
                       size_t count, uint32_t end) {
    uint8_t bytes[sizeof tx];
    memcpy(bytes, tx, sizeof tx);
    bytes[at] = byte;
    check_path(what, TX, 64, 1 << 24, bytes, sizeof bytes, code, place, steps, count, end);
}

static void check_steps(void) {
    const scaleview_step second[] = {{TX, 0, 0}, {CALLS, 0, 1}, {OUTER, 0, 0}, {CALL, 1, 0}, {ID, 0, 0}};
    const scaleview_step amount[] = {{TX, 0, 0}, {CALLS, 0, 1}, {OUTER, 0, 0}, {CALL, 1, 1}};
    const scaleview_step first[] = {{TX, 0, 0}, {CALLS, 0, 0}};
    const scaleview_step calls = {TX, 0, 0}, ok = {TX, 0, 1}, memo = {TX, 0, 3}, tail = {TX, 0, 4};
    const scaleview_step pair[] = {{TX, 0, 2}, {PAIR, 0, 1}};
    check_path("no byte", TX, 64, 1 << 24, NULL, 0, SCALEVIEW_VALUE_TRUNCATED, 0, &calls, 1, CALLS);
    check_byte("a field", 10, 2, SCALEVIEW_VALUE_BAD_BOOL, 10, &ok, 1, BOOL);
    check_byte("a member", 12, 2, SCALEVIEW_VALUE_BAD_BOOL, 12, pair, 2, BOOL);
    check_byte("a first element", 1, 4, SCALEVIEW_VALUE_NO_SUCH_VARIANT, 1, first, 2, OUTER);
    check_byte("an arm's field", 4, 1, SCALEVIEW_VALUE_NO_SUCH_VARIANT, 4, second, 3, CALL);
    check_byte("a second field of an arm", 9, 0x13, SCALEVIEW_VALUE_COMPACT_TOO_LARGE, 9, amount, 4, AMOUNT);
    check_byte("inside a text", 15, 0xff, SCALEVIEW_VALUE_BAD_UTF8, 15, &memo, 1, STR);
    check_path("inside a wrapped array", TX, 64, 1 << 24, tx, 7, SCALEVIEW_VALUE_TRUNCATED, 7, second, 5, BYTES);
    check_path("a type that isn't read", TX, 64, 1 << 24, tx, sizeof tx, SCALEVIEW_VALUE_BIT_SEQUENCE, 16, &tail, 1, BITS);
    check_path("after the limit", TX, 64, 10, tx, sizeof tx, SCALEVIEW_VALUE_TOO_LONG, 10, &ok, 1, BOOL);
}

static void check_ends(void) {
    static const uint8_t chain[] = {1, 1, 1, 0}, two = 2, trailing[] = {1, 0};
    const scaleview_step next[] = {{CHAIN, 1, 0}, {CHAIN, 1, 0}, {CHAIN, 1, 0}};
    scaleview_step step = {7, 7, 7};
    scaleview_answer answer;
    check_path("too deep", CHAIN, 2, 4, chain, sizeof chain, SCALEVIEW_VALUE_TOO_DEEP, 3, next, 3, CHAIN);
    check_path("the value itself", BOOL, 64, 4, &two, 1, SCALEVIEW_VALUE_BAD_BOOL, 0, NULL, 0, BOOL);
    check("a complete value", scaleview_path_of(registry, BOOL, 64, 4, 0, trailing, 2, &step, 1, &answer) == SCALEVIEW_OK);
    check("no node", is_answer(answer, SCALEVIEW_OK, 0, 0, 0) && step.type == 7);
}

static void check_refusals(void) {
    scaleview_step steps[5] = {{7, 7, 7}};
    scaleview_registry none = {NULL};
    scaleview_session session = {NULL};
    scaleview_answer answer;
    check("no room", scaleview_path_of(registry, TX, 64, 99, 0, tx, 7, steps, 4, &answer) == SCALEVIEW_NO_ROOM);
    check("the same numbers", is_answer(answer, SCALEVIEW_NO_ROOM, BYTES, 1, 5) && steps[0].type == 7);
    check("no room at all", scaleview_path_of(registry, TX, 64, 99, 0, tx, 7, NULL, 0, &answer) == SCALEVIEW_NO_ROOM);
    check("room", scaleview_path_of(registry, TX, 64, 99, 0, tx, 7, steps, 5, &answer) == SCALEVIEW_OK && steps[4].type == ID);
    steps[0].type = 7;
    check("no type", scaleview_path_of(registry, 15, 64, 99, 0, tx, 7, steps, 5, &answer) == SCALEVIEW_UNKNOWN_TYPE);
    check("a depth", scaleview_path_of(registry, 0, 1025, 99, 0, tx, 7, steps, 5, &answer) == SCALEVIEW_LIMIT_OUT_OF_RANGE);
    check("a budget", scaleview_path_of(registry, TX, 64, 99, 1, tx, 7, steps, 5, &answer) == SCALEVIEW_MEMORY);
    check("no registry", scaleview_path_of(none, TX, 64, 99, 0, tx, 7, steps, 5, &answer) == SCALEVIEW_NO_HANDLE);
    scaleview_start(registry, TX, 64, 99, 0, &session, &answer);
    scaleview_registry wrong = {session.inside};
    check("a session", scaleview_path_of(wrong, TX, 64, 99, 0, tx, 7, steps, 5, &answer) == SCALEVIEW_NO_HANDLE);
    check("nothing is written", steps[0].type == 7 && is_answer(answer, SCALEVIEW_NO_HANDLE, 0, 0, 0));
    scaleview_free(&session);
}

int main(void) {
    scaleview_answer answer;
    check("opened", scaleview_open(registry_bytes, sizeof registry_bytes, 0, &registry, &answer) == SCALEVIEW_OK);
    check_steps();
    check_ends();
    check_refusals();
    check("closed", scaleview_close(&registry) == SCALEVIEW_OK);
    return failures > 0;
}
