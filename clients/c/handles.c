/* What handles do: sessions beside each other, a registry that is lent, wrong kinds, none, every order of freeing, numbers
 * of codes, bit sequences by a flag, too little room, too little memory, no memory at all. */
#include "scaleview.h"
#include <stdio.h>
#include <string.h>

static int failures = 0;

static void check(const char *what, bool is_so) {
    if (!is_so) {
        printf("handles: not so: %s\n", what);
        failures++;
    }
}

static const uint8_t u16_registry[] = {0x04, 0x00, 0x00, 0x00, 0x05, 0x04, 0x00};

static const uint8_t bits_registry[] = {
    0x0c,
    0x00, 0x00, 0x00, 0x07, 0x04, 0x08, 0x00,                     /* 0: bits in 1, by 2 */
    0x04, 0x00, 0x00, 0x05, 0x04, 0x00,                           /* 1: u16 */
    0x08, 0x04, 0x10, 'M', 's', 'b', '0', 0x00, 0x00, 0x00, 0x00, /* 2: Msb0 */
};

static void check_lending(void) {
    scaleview_registry registry = {NULL};
    scaleview_session first = {NULL}, second = {NULL};
    scaleview_answer answer;
    check("opened", scaleview_open(u16_registry, sizeof u16_registry, 0, &registry, &answer) == SCALEVIEW_OK);
    check("one type", answer.length == 1);
    check("first", scaleview_start(registry, 0, 64, 1 << 24, 0, &first, &answer) == SCALEVIEW_OK);
    check("second", scaleview_start(registry, 0, 64, 1 << 24, 0, &second, &answer) == SCALEVIEW_OK);
    check("lent twice", scaleview_close(&registry) == SCALEVIEW_LENT && registry.inside);
    check("more", scaleview_feed(&first, (const uint8_t *)"\x01", 1, &answer) == SCALEVIEW_MORE);
    check("whole", scaleview_feed(&second, (const uint8_t *)"\x02\x00\xff", 3, &answer) == SCALEVIEW_OK);
    check("two bytes used", answer.length == 2);
    check("taken", scaleview_taken(&first, &answer) == SCALEVIEW_OK && answer.length == 1);
    check("freed", scaleview_free(&first) == SCALEVIEW_OK && !first.inside);
    check("lent once", scaleview_close(&registry) == SCALEVIEW_LENT);

    uint8_t out[2] = {'?', '?'};
    check("no room", scaleview_finish(&second, out, 0, &answer) == SCALEVIEW_NO_ROOM && answer.length == 1);
    check("room", scaleview_finish(&second, out, 1, &answer) == SCALEVIEW_OK && answer.length == 1);
    check("the text and no more", !memcmp(out, "2?", 2));
    check("the text again", scaleview_finish(&second, out, 2, &answer) == SCALEVIEW_OK && out[0] == '2');
    check("freed", scaleview_free(&second) == SCALEVIEW_OK);
    check("closed", scaleview_close(&registry) == SCALEVIEW_OK && !registry.inside);
}

/* A handle of the other kind is reported, and stays. */
static void check_kinds(void) {
    scaleview_registry registry = {NULL};
    scaleview_session session = {NULL}, other = {NULL};
    scaleview_answer answer;
    uint8_t out[64];
    scaleview_open(u16_registry, sizeof u16_registry, 0, &registry, &answer);
    scaleview_start(registry, 0, 64, 1 << 24, 0, &session, &answer);
    scaleview_registry wrong = {session.inside};
    check("types of a session", scaleview_types(wrong, &answer) == SCALEVIEW_NO_HANDLE);
    check("a line of a session", scaleview_type_line(wrong, 0, out, sizeof out, &answer) == SCALEVIEW_NO_HANDLE);
    check("a value of a session", scaleview_decode(wrong, 0, 64, 1, 0, out, 0, out, 0, &answer) == SCALEVIEW_NO_HANDLE);
    check("a session of one", scaleview_start(wrong, 0, 64, 1, 0, &other, &answer) == SCALEVIEW_NO_HANDLE && !other.inside);
    check("a session closed", scaleview_close(&wrong) == SCALEVIEW_NO_HANDLE && wrong.inside == session.inside);
    scaleview_session none = {registry.inside};
    check("a registry fed", scaleview_feed(&none, out, 0, &answer) == SCALEVIEW_NO_HANDLE && none.inside == registry.inside);
    check("a registry's bytes", scaleview_taken(&none, &answer) == SCALEVIEW_NO_HANDLE && answer.length == 0);
    check("a registry's nodes", scaleview_nodes(&none, &answer) == SCALEVIEW_NO_HANDLE && answer.length == 0);
    check("a registry's texts", scaleview_text_bytes(&none, &answer) == SCALEVIEW_NO_HANDLE && answer.length == 0);
    check("a registry reported its counts", none.inside == registry.inside);
    check("a registry ended", scaleview_finish(&none, out, 0, &answer) == SCALEVIEW_NO_HANDLE);
    check("a registry freed", scaleview_free(&none) == SCALEVIEW_NO_HANDLE && none.inside == registry.inside);
    check("freed", scaleview_free(&session) == SCALEVIEW_OK);
    check("closed", scaleview_close(&registry) == SCALEVIEW_OK);
}

/* None is reported, and stays. */
static void check_none(void) {
    scaleview_registry registry = {NULL};
    scaleview_session session = {NULL};
    scaleview_answer answer;
    uint8_t out[64] = {'?'};
    check("types of none", scaleview_types(registry, &answer) == SCALEVIEW_NO_HANDLE && answer.code == SCALEVIEW_NO_HANDLE);
    check("a line of none", scaleview_type_line(registry, 0, out, sizeof out, &answer) == SCALEVIEW_NO_HANDLE);
    check("a value of none", scaleview_decode(registry, 0, 64, 9, 0, out, 1, out + 1, 9, &answer) == SCALEVIEW_NO_HANDLE);
    check("nothing is written", out[0] == '?' && out[1] == 0);
    check("a session of none", scaleview_start(registry, 0, 64, 9, 0, &session, &answer) == SCALEVIEW_NO_HANDLE && !session.inside);
    check("none is closed", scaleview_close(&registry) == SCALEVIEW_NO_HANDLE && !registry.inside);
    check("none is fed", scaleview_feed(&session, out, 1, &answer) == SCALEVIEW_NO_HANDLE && !session.inside);
    check("taken of none", scaleview_taken(&session, &answer) == SCALEVIEW_NO_HANDLE && answer.length == 0);
    check("nodes of none", scaleview_nodes(&session, &answer) == SCALEVIEW_NO_HANDLE && answer.length == 0);
    check("texts of none", scaleview_text_bytes(&session, &answer) == SCALEVIEW_NO_HANDLE && answer.length == 0);
    check("none is ended", scaleview_finish(&session, out, 1, &answer) == SCALEVIEW_NO_HANDLE && out[0] == '?');
    check("none is freed", scaleview_free(&session) == SCALEVIEW_NO_HANDLE && !session.inside);
}

/* A handle that is not none isn't set, so nothing is lost. */
static void check_taken(void) {
    scaleview_registry registry = {NULL};
    scaleview_session session = {NULL};
    scaleview_answer answer;
    scaleview_open(u16_registry, sizeof u16_registry, 0, &registry, &answer);
    void *inside = registry.inside;
    check("opened over another", scaleview_open(u16_registry, sizeof u16_registry, 0, &registry, &answer) == SCALEVIEW_TAKEN);
    check("the one before", registry.inside == inside && answer.code == SCALEVIEW_TAKEN);
    scaleview_start(registry, 0, 64, 9, 0, &session, &answer);
    inside = session.inside;
    check("started over another", scaleview_start(registry, 0, 64, 9, 0, &session, &answer) == SCALEVIEW_TAKEN);
    check("the session before", session.inside == inside);
    check("freed", scaleview_free(&session) == SCALEVIEW_OK);
    check("closed", scaleview_close(&registry) == SCALEVIEW_OK);
}

/* An open registry reports where it ends, and the version of metadata. */
static void check_opened(void) {
    static const uint8_t metadata[] = {0x6d, 0x65, 0x74, 0x61, 0x0f, 0x04, 0x00, 0x00, 0x00, 0x05, 0x04, 0x00, 0xff};
    scaleview_registry registry = {NULL};
    scaleview_answer answer;
    scaleview_open(u16_registry, sizeof u16_registry, 0, &registry, &answer);
    check("a registry alone", answer.from == 0 && answer.at == sizeof u16_registry && answer.length == 1);
    scaleview_close(&registry);
    scaleview_open(metadata, sizeof metadata, SCALEVIEW_METADATA, &registry, &answer);
    check("metadata 15", answer.from == 15 && answer.at == sizeof metadata - 1 && answer.length == 1);
    scaleview_close(&registry);
}

/* Each code has a name, and other numbers have none. */
static void check_names(void) {
    static const struct {
        uint32_t code;
        const char *name;
    } named[] = {{SCALEVIEW_OK, "Ok"},
                 {SCALEVIEW_TAKEN, "Taken"},
                 {SCALEVIEW_TAKEN + 1, ""},
                 {SCALEVIEW_REGISTRY_TRUNCATED - 1, ""},
                 {SCALEVIEW_REGISTRY_TRUNCATED, "Truncated"},
                 {SCALEVIEW_REGISTRY_COMPACT_NOT_SHORTEST, "CompactNotShortest"},
                 {SCALEVIEW_REGISTRY_UNKNOWN_REFERENCE, "UnknownType"},
                 {SCALEVIEW_METADATA_UNKNOWN_REFERENCE, "UnknownReference"},
                 {SCALEVIEW_REGISTRY_TOO_LARGE, "TooLarge"},
                 {SCALEVIEW_REGISTRY_TOO_LARGE + 1, ""},
                 {SCALEVIEW_UNKNOWN_TYPE, "UnknownType"},
                 {SCALEVIEW_LIMIT_OUT_OF_RANGE, "LimitOutOfRange"},
                 {SCALEVIEW_UNKNOWN_NAME, "UnknownName"},
                 {SCALEVIEW_NO_BYTES, "NoBytes"},
                 {SCALEVIEW_NO_BYTES + 1, ""},
                 {SCALEVIEW_VALUE_BAD_CHAR, "BadChar"},
                 {SCALEVIEW_VALUE_TRAILING_BYTES, "TrailingBytes"},
                 {SCALEVIEW_VALUE_UNUSED_BITS, "UnusedBits"},
                 {SCALEVIEW_VALUE_UNUSED_BITS + 1, ""},
                 {UINT32_MAX, ""}};
    uint8_t out[18];
    scaleview_answer answer;
    for (size_t i = 0; i < sizeof named / sizeof *named; i++) {
        size_t length = strlen(named[i].name);
        check("a name", scaleview_reason(named[i].code, out, sizeof out, &answer) == SCALEVIEW_OK && answer.length == length);
        check(named[i].name, !memcmp(out, named[i].name, length));
    }
    check("no room", scaleview_reason(SCALEVIEW_VALUE_BAD_CHAR, out, 6, &answer) == SCALEVIEW_NO_ROOM && answer.length == 7);
    check("the version", scaleview_version() == SCALEVIEW_VERSION);
}

/* Bytes of texts and of runs are held, and given back. */
static void check_counts(void) {
    static const uint8_t bytes_registry[] = {0x08, 0x00, 0x00, 0x00, 0x05, 0x03, 0x00, 0x04, 0x00, 0x00, 0x02, 0x00, 0x00};
    scaleview_registry registry = {NULL};
    scaleview_session session = {NULL};
    scaleview_answer answer;
    uint8_t out[8];
    scaleview_open(bytes_registry, sizeof bytes_registry, 0, &registry, &answer);
    scaleview_start(registry, 1, 64, 99, 0, &session, &answer);
    check("a run goes on", scaleview_feed(&session, (const uint8_t *)"\x0c\x01", 2, &answer) == SCALEVIEW_MORE);
    check("one byte of it", scaleview_text_bytes(&session, &answer) == SCALEVIEW_OK && answer.length == 1);
    check("no node yet", scaleview_nodes(&session, &answer) == SCALEVIEW_OK && answer.length == 0);
    check("the run is whole", scaleview_feed(&session, (const uint8_t *)"\x02\xff", 2, &answer) == SCALEVIEW_OK && answer.length == 2);
    check("three bytes", scaleview_text_bytes(&session, &answer) == SCALEVIEW_OK && answer.length == 3);
    check("one node", scaleview_nodes(&session, &answer) == SCALEVIEW_OK && answer.length == 1);
    check("the run's text", scaleview_finish(&session, out, sizeof out, &answer) == SCALEVIEW_NO_ROOM && answer.length == 10);
    check("its node is kept", scaleview_nodes(&session, &answer) == SCALEVIEW_OK && answer.length == 1);
    check("and its bytes", scaleview_text_bytes(&session, &answer) == SCALEVIEW_OK && answer.length == 3);
    scaleview_free(&session);
    scaleview_close(&registry);
}

/* A limit of bytes: what is fed up to it goes on, and the byte past it is refused for good. */
static void check_limit(void) {
    static const uint8_t u32_registry[] = {0x04, 0x00, 0x00, 0x00, 0x05, 0x05, 0x00};
    scaleview_registry registry = {NULL};
    scaleview_session session = {NULL};
    scaleview_answer answer;
    uint8_t out[8];
    scaleview_open(u32_registry, sizeof u32_registry, 0, &registry, &answer);
    scaleview_start(registry, 0, 64, 2, 0, &session, &answer);
    check("up to the limit", scaleview_feed(&session, (const uint8_t *)"\x01\x02", 2, &answer) == SCALEVIEW_MORE);
    check("cut at the limit", scaleview_finish(&session, out, sizeof out, &answer) == SCALEVIEW_VALUE_TRUNCATED && answer.at == 2);
    scaleview_free(&session);
    scaleview_start(registry, 0, 64, 2, 0, &session, &answer);
    for (int time = 0; time < 2; time++) {
        check("past the limit", scaleview_feed(&session, (const uint8_t *)"\x01\x02\x03", 3, &answer) == SCALEVIEW_VALUE_TOO_LONG);
        check("at the limit", answer.at == 2);
        check("two bytes are taken", scaleview_taken(&session, &answer) == SCALEVIEW_OK && answer.length == 2);
    }
    check("refused at its end", scaleview_finish(&session, out, sizeof out, &answer) == SCALEVIEW_VALUE_TOO_LONG && answer.at == 2);
    scaleview_free(&session);
    check("closed", scaleview_close(&registry) == SCALEVIEW_OK);
}

/* Budgets of memory from a byte on: the answer is SCALEVIEW_MEMORY up to one that is enough, by one call and by a session. A
 * session whose text finds no memory keeps its value. */
static void check_memory(void) {
    scaleview_registry registry = {NULL};
    scaleview_answer answer;
    uint8_t out[8];
    bool is_enough = false, is_kept = false;
    scaleview_open(u16_registry, sizeof u16_registry, 0, &registry, &answer);
    for (uint64_t memory = 1; memory <= 4096; memory++) {
        const uint8_t *bytes = (const uint8_t *)"\x01\x02";
        scaleview_session session = {NULL};
        uint32_t code = scaleview_decode(registry, 0, 64, 9, memory, bytes, 2, out, sizeof out, &answer);
        check("a budget is enough or not", code == SCALEVIEW_OK || (code == SCALEVIEW_MEMORY && !is_enough));
        is_enough = code == SCALEVIEW_OK;
        check("started in a budget", scaleview_start(registry, 0, 64, 9, memory, &session, &answer) == SCALEVIEW_OK);
        uint32_t fed = scaleview_feed(&session, bytes, 2, &answer);
        check("fed in a budget", fed == SCALEVIEW_OK || fed == SCALEVIEW_MEMORY);
        for (int time = 0; time < 2; time++)
            check("ended in a budget", scaleview_finish(&session, out, sizeof out, &answer) == code);
        check("fed again", scaleview_feed(&session, bytes, 2, &answer) == fed);
        check("freed", scaleview_free(&session) == SCALEVIEW_OK);
        is_kept = is_kept || (fed == SCALEVIEW_OK && code == SCALEVIEW_MEMORY);
    }
    check("4096 bytes are enough", is_enough);
    check("memory for the value alone", is_kept);
    check("closed", scaleview_close(&registry) == SCALEVIEW_OK);
}

enum { FRESH, MORE, WHOLE, REFUSED, ENDED, CUT, STATES };

/* A session of a text, as far as this. */
static scaleview_session started(scaleview_registry registry, int state) {
    static const struct {
        const char *bytes;
        size_t length;
    } fed[STATES] = {{"", 0}, {"\x08h", 2}, {"\x08hi", 3}, {"\x08\xc3\x28", 3}, {"\x08hi", 3}, {"\x08h", 2}};
    scaleview_session session = {NULL};
    scaleview_answer answer;
    uint8_t out[8];
    check("started", scaleview_start(registry, 0, 64, 99, 0, &session, &answer) == SCALEVIEW_OK);
    if (state != FRESH) scaleview_feed(&session, (const uint8_t *)fed[state].bytes, fed[state].length, &answer);
    if (state == ENDED) check("ended", scaleview_finish(&session, out, sizeof out, &answer) == SCALEVIEW_OK && answer.length == 4);
    if (state == CUT) check("cut", scaleview_finish(&session, out, sizeof out, &answer) == SCALEVIEW_VALUE_TRUNCATED && answer.at == 2);
    if (state == REFUSED) check("refused", answer.code == SCALEVIEW_VALUE_BAD_UTF8 && answer.at == 1);
    return session;
}

/* A session in each state is fed once more: what was answered is answered, and what was ended takes nothing. */
static void check_later_pieces(void) {
    static const uint8_t str_registry[] = {0x04, 0x00, 0x00, 0x00, 0x05, 0x02, 0x00};
    static const struct {
        uint32_t code;
        uint64_t at, length, taken;
    } wanted[STATES] = {
        {SCALEVIEW_OK, 0, 1, 1},
        {SCALEVIEW_VALUE_BAD_UTF8, 2, 0, 3},
        {SCALEVIEW_OK, 0, 0, 3},
        {SCALEVIEW_VALUE_BAD_UTF8, 1, 0, 3},
        {SCALEVIEW_OK, 0, 0, 0},
        {SCALEVIEW_VALUE_TRUNCATED, 2, 0, 0},
    };
    static const char *pieces[STATES] = {"\x00", "\xff", "i", "i", "i", "i"};
    scaleview_registry registry = {NULL};
    scaleview_answer answer;
    scaleview_open(str_registry, sizeof str_registry, 0, &registry, &answer);
    for (int state = 0; state < STATES; state++) {
        scaleview_session session = started(registry, state);
        uint32_t code = scaleview_feed(&session, (const uint8_t *)pieces[state], 1, &answer);
        check("a later piece's code", code == wanted[state].code && answer.code == code);
        check("a later piece's numbers", answer.at == wanted[state].at && answer.length == wanted[state].length);
        check("taken", scaleview_taken(&session, &answer) == SCALEVIEW_OK && answer.length == wanted[state].taken);
        check("freed", scaleview_free(&session) == SCALEVIEW_OK);
    }
    check("closed", scaleview_close(&registry) == SCALEVIEW_OK);
}

/* Two sessions in every two states are freed in both orders; the registry is closed after them, and not before. */
static void check_orders(void) {
    static const uint8_t str_registry[] = {0x04, 0x00, 0x00, 0x00, 0x05, 0x02, 0x00};
    for (int order = 0; order < STATES * STATES * 4; order++) {
        bool asks = order & 1, second_first = order & 2;
        scaleview_registry registry = {NULL};
        scaleview_answer answer;
        scaleview_open(str_registry, sizeof str_registry, 0, &registry, &answer);
        scaleview_session a = started(registry, order / 4 / STATES), b = started(registry, order / 4 % STATES);
        check("both have it", !asks || scaleview_close(&registry) == SCALEVIEW_LENT);
        check("one is freed", scaleview_free(second_first ? &b : &a) == SCALEVIEW_OK);
        check("one has it", !asks || scaleview_close(&registry) == SCALEVIEW_LENT);
        check("none is freed", scaleview_free(second_first ? &b : &a) == SCALEVIEW_NO_HANDLE);
        check("the other is freed", scaleview_free(second_first ? &a : &b) == SCALEVIEW_OK);
        check("it is closed", scaleview_close(&registry) == SCALEVIEW_OK && !registry.inside);
        check("none is closed", scaleview_close(&registry) == SCALEVIEW_NO_HANDLE);
    }
}

/* A registry is lent until the last of 300 sessions is freed: from the first on, from the last on, and in two other orders. */
static void check_many_sessions(void) {
    enum { SESSIONS = 300 };
    static const int steps[] = {1, SESSIONS - 1, 7, 149}; /* each has no factor in common with 300 */
    static scaleview_session sessions[SESSIONS];
    scaleview_answer answer;
    for (size_t order = 0; order < sizeof steps / sizeof *steps; order++) {
        scaleview_registry registry = {NULL};
        int started = 0, lent = 0, freed = 0;
        scaleview_open(u16_registry, sizeof u16_registry, 0, &registry, &answer);
        for (int i = 0; i < SESSIONS; i++) {
            sessions[i].inside = NULL;
            started += scaleview_start(registry, 0, 64, 2, 0, &sessions[i], &answer) == SCALEVIEW_OK;
        }
        for (int i = 0; i < SESSIONS; i++) {
            lent += scaleview_close(&registry) == SCALEVIEW_LENT;
            freed += scaleview_free(&sessions[i * steps[order] % SESSIONS]) == SCALEVIEW_OK;
        }
        check("300 sessions are started", started == SESSIONS);
        check("the registry is lent before each is freed", lent == SESSIONS);
        check("each is freed", freed == SESSIONS);
        check("the registry is closed after them", scaleview_close(&registry) == SCALEVIEW_OK);
    }
}

/* The numbers that callers may have written down. */
static void check_numbers(void) {
    check("answers", SCALEVIEW_OK == 0 && SCALEVIEW_MORE == 1 && SCALEVIEW_NO_ROOM == 2 && SCALEVIEW_MEMORY == 3 &&
                         SCALEVIEW_LENT == 4 && SCALEVIEW_NO_HANDLE == 5 && SCALEVIEW_TAKEN == 6);
    check("types and limits", SCALEVIEW_UNKNOWN_TYPE == 201 && SCALEVIEW_LIMIT_OUT_OF_RANGE == 202);
    check("names", SCALEVIEW_UNKNOWN_NAME == 204 && SCALEVIEW_NO_BYTES == 205);
    check("flags", SCALEVIEW_METADATA == true && SCALEVIEW_NAMES == 2 && SCALEVIEW_BITS == 4);
    check("the last kind of nodes", SCALEVIEW_NODE_BITS == 13);
    const uint32_t of_registries[] = {
        SCALEVIEW_REGISTRY_TRUNCATED,
        SCALEVIEW_REGISTRY_BAD_UTF8,
        SCALEVIEW_REGISTRY_COMPACT_NOT_SHORTEST,
        SCALEVIEW_REGISTRY_COMPACT_TOO_LARGE,
        SCALEVIEW_REGISTRY_BAD_OPTION,
        SCALEVIEW_REGISTRY_BAD_DEFINITION,
        SCALEVIEW_REGISTRY_BAD_PRIMITIVE,
        SCALEVIEW_REGISTRY_ID_OUT_OF_PLACE,
        SCALEVIEW_REGISTRY_NOT_METADATA,
        SCALEVIEW_REGISTRY_WRONG_VERSION,
        SCALEVIEW_REGISTRY_TRAILING_BYTES,
        SCALEVIEW_REGISTRY_UNKNOWN_REFERENCE,
        SCALEVIEW_METADATA_UNKNOWN_REFERENCE,
        SCALEVIEW_REGISTRY_TOO_LARGE,
    };
    for (uint32_t i = 0; i < sizeof of_registries / sizeof *of_registries; i++) {
        check("a name of a registry's refusal", of_registries[i] == 101 + i);
    }
    const uint32_t of_values[] = {
        SCALEVIEW_VALUE_TRUNCATED,
        SCALEVIEW_VALUE_BAD_BOOL,
        SCALEVIEW_VALUE_BAD_CHAR,
        SCALEVIEW_VALUE_BAD_UTF8,
        SCALEVIEW_VALUE_COMPACT_NOT_SHORTEST,
        SCALEVIEW_VALUE_COMPACT_TOO_LARGE,
        SCALEVIEW_VALUE_NO_SUCH_VARIANT,
        SCALEVIEW_VALUE_TOO_DEEP,
        SCALEVIEW_VALUE_NO_FINITE_VALUE,
        SCALEVIEW_VALUE_BIT_SEQUENCE,
        SCALEVIEW_VALUE_BAD_COMPACT,
        SCALEVIEW_VALUE_TOO_LONG,
        SCALEVIEW_VALUE_TRAILING_BYTES,
        SCALEVIEW_VALUE_UNUSED_BITS,
    };
    for (uint32_t i = 0; i < sizeof of_values / sizeof *of_values; i++) {
        check("a name of a value's refusal", of_values[i] == 301 + i);
    }
    struct {
        const char *bytes;
        size_t length;
        uint32_t flags;
        uint32_t code;
        uint64_t at;
        uint32_t from;
    } registries[] = {
        {"\x04", 1, 0, 101, 1, 0},
        {"\x04\x00\x04\x04\xff", 5, 0, 102, 4, 0},
        {"\x01\x00", 2, 0, 103, 0, 0},
        {"\x07", 1, 0, 104, 0, 0},
        {"\x04\x00\x00\x00\x00\x04\x02", 7, 0, 105, 6, 0},
        {"\x04\x00\x00\x00\x08\x00", 6, 0, 106, 4, 0},
        {"\x04\x00\x00\x00\x05\x0f\x00", 7, 0, 107, 5, 0},
        {"\x04\x04\x00\x00\x05\x03\x00", 7, 0, 108, 1, 0},
        {"\x6d\x66", 2, SCALEVIEW_METADATA, 109, 1, 0},
        {"\x6d\x65\x74\x61\x10", 5, SCALEVIEW_METADATA, 110, 4, 0},
        {"\x04\x00\x00\x00\x05\x03\x00\xff", 8, 0, 111, 7, 0},
        {"\x04\x00\x00\x00\x02\x04\x00", 7, 0, 112, 1, 0},
        {"\x08\x00\x00\x00\x05\x03\x00\x04\x00\x00\x02\x08\x00", 13, 0, 112, 2, 1},
    };
    for (size_t i = 0; i < sizeof registries / sizeof *registries; i++) {
        scaleview_registry registry = {NULL};
        scaleview_answer answer;
        uint32_t code = scaleview_open((const uint8_t *)registries[i].bytes, registries[i].length, registries[i].flags,
                                       &registry, &answer);
        check("a registry's code", code == registries[i].code && answer.code == code && answer.from == registries[i].from);
        check("a registry's place", answer.at == registries[i].at && !registry.inside);
    }
    struct {
        const char *registry;
        size_t registry_length;
        const char *bytes;
        size_t length;
        uint16_t depth;
        uint64_t limit;
        uint32_t code;
        uint64_t at;
    } values[] = {
        {"\x04\x00\x00\x00\x05\x04\x00", 7, "\x01", 1, 64, 99, 301, 1},
        {"\x04\x00\x00\x00\x05\x00\x00", 7, "\x02", 1, 64, 99, 302, 0},
        {"\x04\x00\x00\x00\x05\x01\x00", 7, "\x00\xd8\x00\x00", 4, 64, 99, 303, 0},
        {"\x04\x00\x00\x00\x05\x02\x00", 7, "\x08\xc3\x28", 3, 64, 99, 304, 1},
        {"\x04\x00\x00\x00\x05\x02\x00", 7, "\x01\x00", 2, 64, 99, 305, 0},
        {"\x04\x00\x00\x00\x05\x02\x00", 7, "\x07", 1, 64, 99, 306, 0},
        {"\x04\x00\x00\x00\x01\x04\x04\x41\x00\x03\x00\x00", 12, "\x00", 1, 64, 99, 307, 0},
        {"\x04\x00\x00\x00\x01\x08\x0c\x45\x6e\x64\x00\x00\x00\x10\x4e\x65\x78\x74\x04\x00\x00\x00\x00\x01\x00\x00", 26,
         "\x01\x01\x01", 3, 2, 99, 308, 3},
        {"\x04\x00\x00\x00\x00\x04\x00\x00\x00\x00\x00", 11, "", 0, 64, 99, 309, 0},
        {"\x04\x00\x00\x00\x07\x00\x00\x00", 8, "", 0, 64, 99, 310, 0},
        {"\x04\x00\x00\x00\x06\x00\x00", 7, "", 0, 64, 99, 311, 0},
        {"\x04\x00\x00\x00\x05\x04\x00", 7, "\x01\x00", 2, 64, 1, 312, 1},
        {"\x04\x00\x00\x00\x05\x04\x00", 7, "\x01\x00\xff", 3, 64, 99, 313, 2},
        {(const char *)bits_registry, sizeof bits_registry, "\x24\x01", 2, 64, 99, 314, 1},
        {"\x00", 1, "", 0, 64, 99, 201, 0},
        {"\x04\x00\x00\x00\x05\x04\x00", 7, "\x01\x00", 2, 1025, 99, 202, 0},
        {"\x04\x00\x00\x00\x05\x04\x00", 7, "\x01\x00", 2, 64, 1099511627777, 202, 0},
    };
    for (size_t i = 0; i < sizeof values / sizeof *values; i++) {
        scaleview_registry registry = {NULL};
        scaleview_answer answer;
        uint8_t out[64];
        check("a registry", scaleview_open((const uint8_t *)values[i].registry, values[i].registry_length, SCALEVIEW_BITS,
                                           &registry, &answer) == SCALEVIEW_OK);
        scaleview_decode(registry, 0, values[i].depth, values[i].limit, 0, (const uint8_t *)values[i].bytes, values[i].length,
                         out, sizeof out, &answer);
        if (answer.code != values[i].code || answer.at != values[i].at) printf("handles: code %u for %u\n", answer.code, values[i].code);
        check("a value's code and place", answer.code == values[i].code && answer.at == values[i].at);
        scaleview_close(&registry);
    }
}

static bool is_answer(scaleview_answer answer, uint32_t code, uint64_t at, uint64_t length) {
    return answer.code == code && answer.at == at && answer.length == length;
}

static const uint8_t nine_bits[] = {0x24, 0x00, 0x92};

/* Nine bits, of which each third is 1: their text and their node, whole and byte by byte. */
static void check_bits_read(scaleview_registry registry) {
    scaleview_session session = {NULL};
    scaleview_answer answer;
    scaleview_node node, fed;
    uint8_t out[16], pool[2];
    scaleview_decode(registry, 0, 64, 9, 0, nine_bits, sizeof nine_bits, out, sizeof out, &answer);
    check("the text of bits", is_answer(answer, SCALEVIEW_OK, 0, 13) && !memcmp(out, "\"0b100100100\"", 13));
    scaleview_decode_nodes(registry, 0, 64, 9, 0, nine_bits, sizeof nine_bits, &node, 1, pool, sizeof pool, &answer);
    check("the node of bits", is_answer(answer, SCALEVIEW_OK, 2, 1) && node.kind == SCALEVIEW_NODE_BITS && node.type == 0);
    check("its numbers", node.children == 0 && node.arm == 0 && node.low == 0 && node.high == 9);
    check("its words", !memcmp(pool, nine_bits + 1, 2));
    scaleview_start(registry, 0, 64, 9, 0, &session, &answer);
    for (size_t at = 0; at < sizeof nine_bits; at++) {
        scaleview_feed(&session, nine_bits + at, 1, &answer);
        check("fed", is_answer(answer, at < 2 ? SCALEVIEW_MORE : SCALEVIEW_OK, 0, at < 2 ? 0 : 1));
        scaleview_text_bytes(&session, &answer);
        check("its bytes are held", is_answer(answer, SCALEVIEW_OK, 0, at));
    }
    scaleview_finish_nodes(&session, &fed, 1, pool, sizeof pool, &answer);
    check("the same node", is_answer(answer, SCALEVIEW_OK, 2, 1) && !memcmp(&node, &fed, sizeof node));
    check("freed", scaleview_free(&session) == SCALEVIEW_OK);
}

/* Nodes of bits are encoded or rejected. */
static void check_bits_encoded(scaleview_registry registry) {
    static const struct {
        uint32_t kind, type;
        uint64_t low, high;
        uint32_t code;
    } nodes[] = {
        {SCALEVIEW_NODE_BITS, 0, 1, 9, SCALEVIEW_OK},
        {SCALEVIEW_NODE_BITS, 0, 1, 7, SCALEVIEW_OK},
        {SCALEVIEW_NODE_BITS, 0, 1, 6, SCALEVIEW_NODES_OUT_OF_RANGE}, /* an unused bit is 1 */
        {SCALEVIEW_NODE_BITS, 0, 1, 17, SCALEVIEW_NODES_OUT_OF_RANGE},
        {SCALEVIEW_NODE_BITS, 0, 2, 9, SCALEVIEW_NODES_OUT_OF_RANGE},
        {SCALEVIEW_NODE_BITS, 0, UINT64_MAX, 9, SCALEVIEW_NODES_OUT_OF_RANGE},
        {SCALEVIEW_NODE_BITS, 0, 1, (uint64_t)1 << 32, SCALEVIEW_NODES_OUT_OF_RANGE},
        {SCALEVIEW_NODE_BITS, 1, 1, 9, SCALEVIEW_NODES_OUT_OF_RANGE}, /* its type has no words */
        {SCALEVIEW_NODE_BITS, 3, 1, 9, SCALEVIEW_NODES_OUT_OF_RANGE},
        {SCALEVIEW_NODE_BYTES, 0, 1, 2, SCALEVIEW_NODES_WRONG_KIND},
        {SCALEVIEW_NODE_BITS + 1, 0, 1, 9, SCALEVIEW_NODES_WRONG_KIND},
    };
    scaleview_answer answer;
    uint8_t out[4];
    for (size_t i = 0; i < sizeof nodes / sizeof *nodes; i++) {
        scaleview_node node = {nodes[i].kind, nodes[i].type, 0, 0, nodes[i].low, nodes[i].high};
        scaleview_encode_nodes(registry, 0, 64, 0, &node, 1, nine_bits, sizeof nine_bits, out, sizeof out, &answer);
        check("a node of bits", is_answer(answer, nodes[i].code, 0, nodes[i].code == SCALEVIEW_OK ? 3 : 0));
        bool is_same = out[0] == nodes[i].high << 2 && !memcmp(out + 1, nine_bits + 1, 2);
        check("its bytes", answer.code != SCALEVIEW_OK || is_same);
    }
}

/* Bits are read by the flag, whatever else the flags are, and otherwise rejected; the types are the same. */
static void check_bits(void) {
    static const scaleview_type_shape wanted = {SCALEVIEW_BIT_SEQUENCE, SCALEVIEW_SIZED, 0, 1, 2, 0, 0};
    static const uint32_t flags[] = {0, SCALEVIEW_BITS, 0xfffffffa, 0xfffffffa | SCALEVIEW_BITS};
    for (size_t i = 0; i < sizeof flags / sizeof *flags; i++) {
        bool are_read = flags[i] & SCALEVIEW_BITS;
        scaleview_registry registry = {NULL};
        scaleview_type_shape shape;
        scaleview_answer answer;
        scaleview_node node = {.kind = SCALEVIEW_NODE_BITS, .low = 1, .high = 9};
        uint8_t out[16];
        check("opened", scaleview_open(bits_registry, sizeof bits_registry, flags[i], &registry, &answer) == SCALEVIEW_OK);
        scaleview_type(registry, 0, &shape, &answer);
        check("its shape", answer.code == SCALEVIEW_OK && !memcmp(&shape, &wanted, sizeof shape));
        scaleview_decode(registry, 0, 64, 9, 0, nine_bits, sizeof nine_bits, out, sizeof out, &answer);
        check("bits", is_answer(answer, are_read ? SCALEVIEW_OK : SCALEVIEW_VALUE_BIT_SEQUENCE, 0, are_read ? 13 : 0));
        scaleview_encode_nodes(registry, 0, 64, 0, &node, 1, nine_bits, sizeof nine_bits, out, sizeof out, &answer);
        check("bits encoded", is_answer(answer, are_read ? SCALEVIEW_OK : SCALEVIEW_NODES_BIT_SEQUENCE, 0, are_read ? 3 : 0));
        if (are_read) {
            check_bits_read(registry);
            check_bits_encoded(registry);
        }
        check("closed", scaleview_close(&registry) == SCALEVIEW_OK);
    }
}

static const uint8_t small_registry[] = {
    0x14,
    0x00, 0x00, 0x00, 0x04, 0x00, 0x00,                                                 /* 0: () */
    0x04, 0x00, 0x00, 0x05, 0x03, 0x00,                                                 /* 1: u8 */
    0x08, 0x00, 0x00, 0x00, 0x04, 0x00, 0x04, 0x00, 0x00, 0x00,                         /* 2: a composite of 1 */
    0x0c, 0x00, 0x00, 0x01, 0x04, 0x00, 0x04, 0x00, 0x04, 0x00, 0x00, 0x00, 0x00, 0x00, /* 3: an arm of 1, named "" */
    0x10, 0x00, 0x00, 0x05, 0x02, 0x00,                                                 /* 4: str */
};

/* A pointer may be NULL if its length is 0: by the calls that describe types. */
static void check_null_names(scaleview_registry registry) {
    scaleview_answer answer;
    scaleview_type_line(registry, 1, NULL, 0, &answer);
    check("no room for a line", is_answer(answer, SCALEVIEW_NO_ROOM, 0, 14));
    scaleview_part(registry, 2, 0, NULL, 0, &answer);
    check("a part without a name", is_answer(answer, SCALEVIEW_OK, 0, 0) && answer.from == 1);
    scaleview_arm(registry, 3, 0, NULL, 0, &answer);
    check("an arm with a name of no bytes", is_answer(answer, SCALEVIEW_OK, 1, 0));
    scaleview_arm_field(registry, 3, 0, 0, NULL, 0, &answer);
    check("an arm's field without a name", is_answer(answer, SCALEVIEW_OK, 0, 0) && answer.from == 1);
    scaleview_path(registry, 2, NULL, 0, &answer);
    check("no path", is_answer(answer, SCALEVIEW_OK, 0, 0));
    scaleview_find(registry, 2, NULL, 0, &answer);
    check("a type without a path", is_answer(answer, SCALEVIEW_OK, 2, 0));
    scaleview_reason(SCALEVIEW_OK, NULL, 0, &answer);
    check("no room for a name", is_answer(answer, SCALEVIEW_NO_ROOM, 0, 2));
    scaleview_reason(UINT32_MAX, NULL, 0, &answer);
    check("no name", is_answer(answer, SCALEVIEW_OK, 0, 0));
}

/* By the calls on values at once: the value of no bytes of the type 0, and one of the type 1. */
static void check_null_values(scaleview_registry registry) {
    scaleview_answer answer;
    scaleview_node node, other = {.kind = SCALEVIEW_NODE_UNSIGNED, .type = 1, .low = 7};
    uint8_t out[8], seven = 7, zero = 0;
    scaleview_decode(registry, 0, 64, 9, 0, NULL, 0, out, sizeof out, &answer);
    check("a value of no bytes", is_answer(answer, SCALEVIEW_OK, 0, 4) && !memcmp(out, "null", 4));
    scaleview_decode(registry, 0, 64, 9, 0, NULL, 0, NULL, 0, &answer);
    check("and no room for it", is_answer(answer, SCALEVIEW_NO_ROOM, 0, 4));
    scaleview_decode(registry, 1, 64, 9, 0, NULL, 0, NULL, 0, &answer);
    check("bytes that lack", is_answer(answer, SCALEVIEW_VALUE_TRUNCATED, 0, 0));
    scaleview_decode(registry, 1, 64, 9, 0, &seven, 1, NULL, 0, &answer);
    check("no room for a text", is_answer(answer, SCALEVIEW_NO_ROOM, 0, 1));

    scaleview_decode_nodes(registry, 0, 64, 9, 0, NULL, 0, NULL, 0, NULL, 0, &answer);
    check("no room for a node", is_answer(answer, SCALEVIEW_NO_ROOM, 0, 1));
    scaleview_decode_nodes(registry, 0, 64, 9, 0, NULL, 0, &node, 1, NULL, 0, &answer);
    check("a node without a pool", is_answer(answer, SCALEVIEW_OK, 0, 1) && node.kind == SCALEVIEW_NODE_EMPTY);
    scaleview_encode_nodes(registry, 0, 64, 0, &node, 1, NULL, 0, NULL, 0, &answer);
    check("encoded to no bytes", is_answer(answer, SCALEVIEW_OK, 0, 0));
    scaleview_encode_nodes(registry, 0, 64, 0, NULL, 0, NULL, 0, NULL, 0, &answer);
    check("no node", is_answer(answer, SCALEVIEW_NODES_UNFINISHED_VALUE, 0, 0));
    scaleview_encode_nodes(registry, 1, 64, 0, &other, 1, NULL, 0, NULL, 0, &answer);
    check("no room for a byte", is_answer(answer, SCALEVIEW_NO_ROOM, 0, 1));

    scaleview_decode_nodes(registry, 4, 64, 9, 0, &zero, 1, &node, 1, NULL, 0, &answer);
    check("a text of no bytes", is_answer(answer, SCALEVIEW_OK, 0, 1) && node.kind == SCALEVIEW_NODE_TEXT);
    scaleview_encode_nodes(registry, 4, 64, 0, &node, 1, NULL, 0, out, sizeof out, &answer);
    check("encoded without a pool", is_answer(answer, SCALEVIEW_OK, 0, 1) && out[0] == 0);
}

/* Numbers of a node that its kind gives no meaning have to be 0. The types are one without bytes, u8 and text. */
static void check_spare_numbers(scaleview_registry registry) {
    static const struct {
        scaleview_node node; /* kind, type, children, arm, low, high */
        uint32_t code;
    } nodes[] = {
        {{SCALEVIEW_NODE_EMPTY, 0, 0, 0, 0, 0}, SCALEVIEW_OK},
        {{SCALEVIEW_NODE_EMPTY, 0, 3, 0, 0, 0}, SCALEVIEW_NODES_OUT_OF_RANGE},
        {{SCALEVIEW_NODE_EMPTY, 0, 0, 1, 0, 0}, SCALEVIEW_NODES_OUT_OF_RANGE},
        {{SCALEVIEW_NODE_EMPTY, 0, 0, 0, 9, 0}, SCALEVIEW_NODES_OUT_OF_RANGE},
        {{SCALEVIEW_NODE_EMPTY, 0, 0, 0, 0, 77}, SCALEVIEW_NODES_OUT_OF_RANGE},
        {{SCALEVIEW_NODE_UNSIGNED, 1, 0, 0, 7, 0}, SCALEVIEW_OK},
        {{SCALEVIEW_NODE_UNSIGNED, 1, 4000000000, 0, 7, 0}, SCALEVIEW_NODES_OUT_OF_RANGE},
        {{SCALEVIEW_NODE_UNSIGNED, 1, 0, 7, 7, 0}, SCALEVIEW_NODES_OUT_OF_RANGE},
        {{SCALEVIEW_NODE_UNSIGNED, 1, 0, 0, 7, 1}, SCALEVIEW_NODES_OUT_OF_RANGE},
        {{SCALEVIEW_NODE_TEXT, 4, 0, 0, 0, 0}, SCALEVIEW_OK},
        {{SCALEVIEW_NODE_TEXT, 4, 9, 0, 0, 0}, SCALEVIEW_NODES_OUT_OF_RANGE},
        {{SCALEVIEW_NODE_TEXT, 4, 0, 1, 0, 0}, SCALEVIEW_NODES_OUT_OF_RANGE},
    };
    scaleview_answer answer;
    uint8_t out[8];
    for (size_t i = 0; i < sizeof nodes / sizeof *nodes; i++) {
        const scaleview_node *node = &nodes[i].node;
        uint32_t code = scaleview_encode_nodes(registry, node->type, 64, 0, node, 1, NULL, 0, out, sizeof out, &answer);
        check("a number without a meaning", code == nodes[i].code && answer.at == 0);
    }
}

/* By the calls on a session of this type, whose value is the one byte 7, or none. */
static void check_null_session(scaleview_registry registry, uint32_t type, size_t length) {
    scaleview_session session = {NULL};
    scaleview_answer answer;
    scaleview_node node;
    uint8_t seven = 7;
    check("started", scaleview_start(registry, type, 64, 9, 0, &session, &answer) == SCALEVIEW_OK);
    scaleview_feed(&session, NULL, 0, &answer);
    check("fed nothing", is_answer(answer, length ? SCALEVIEW_MORE : SCALEVIEW_OK, 0, 0));
    scaleview_feed(&session, length ? &seven : NULL, length, &answer);
    check("fed", is_answer(answer, SCALEVIEW_OK, 0, length));
    scaleview_feed(&session, NULL, 0, &answer);
    check("fed nothing more", is_answer(answer, SCALEVIEW_OK, 0, 0));
    scaleview_finish(&session, NULL, 0, &answer);
    check("no room for the text", is_answer(answer, SCALEVIEW_NO_ROOM, 0, length ? 1 : 4));
    scaleview_finish_nodes(&session, NULL, 0, NULL, 0, &answer);
    check("no room for its node", is_answer(answer, SCALEVIEW_NO_ROOM, 0, 1));
    scaleview_finish_nodes(&session, &node, 1, NULL, 0, &answer);
    check("its node", is_answer(answer, SCALEVIEW_OK, 0, 1) && node.type == type);
    check("freed", scaleview_free(&session) == SCALEVIEW_OK);
}

static void check_null(void) {
    scaleview_registry registry = {NULL};
    scaleview_answer answer;
    for (uint32_t flags = 0; flags <= (SCALEVIEW_METADATA | SCALEVIEW_NAMES | SCALEVIEW_BITS); flags++) {
        scaleview_open(NULL, 0, flags, &registry, &answer);
        check("no registry", is_answer(answer, SCALEVIEW_REGISTRY_TRUNCATED, 0, 0) && !registry.inside);
    }
    check("opened", scaleview_open(small_registry, sizeof small_registry, 0, &registry, &answer) == SCALEVIEW_OK);
    check_null_names(registry);
    check_null_values(registry);
    check_spare_numbers(registry);
    check_null_session(registry, 0, 0);
    check_null_session(registry, 1, 1);
    check("closed", scaleview_close(&registry) == SCALEVIEW_OK);
}

int main(void) {
    check_lending();
    check_kinds();
    check_none();
    check_taken();
    check_opened();
    check_names();
    check_counts();
    check_limit();
    check_memory();
    check_later_pieces();
    check_orders();
    check_many_sessions();
    check_numbers();
    check_bits();
    check_null();
    return failures > 0;
}
