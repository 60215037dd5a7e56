/* Checks the tables of test vectors: each registry's answer and type lines, and each value whole and in pieces of 1, 7 and
 * 4096 bytes, with what a session holds, as nodes by one call and by a session, and back from its nodes. The values of
 * bits.tsv are read with bits. Of chain.tsv it takes the command lines that list names, and those that decode by a name with
 * no other options than --opaque, --bits, --depth and --bytes.
 *
 *   vectors registries.tsv values.tsv bits.tsv metadata.tsv chain.tsv
 */
#include "node_json.h"
#include "scaleview.h"
#include <stdio.h>
#include <stdlib.h>
#include <string.h>

enum { COLUMNS = 11, NAME_ROOM = 1 << 12, TEXT_ROOM = 1 << 20, NODE_ROOM = 1 << 16 };

static unsigned rows = 0, ways = 0, wrong = 0, lines = 0, used_lines = 0;

/* A column, which is not ended by a 0. */
struct text {
    const char *at;
    size_t length;
};

static struct text text_of(const char *text) {
    return (struct text){text, strlen(text)};
}

static bool equal(struct text one, struct text other) {
    return one.length == other.length && (one.length == 0 || !memcmp(one.at, other.at, one.length));
}

static void *allocated(void *memory) {
    if (!memory) exit(4);
    return memory;
}

static struct text read_file(const char *path) {
    FILE *file = fopen(path, "rb");
    if (!file || fseek(file, 0, SEEK_END)) {
        perror(path);
        exit(3);
    }
    long length = ftell(file);
    rewind(file);
    char *bytes = allocated(malloc((size_t)length + 1));
    struct text read = {bytes, fread(bytes, 1, (size_t)length, file)};
    fclose(file);
    return read;
}

/* Takes the next row off the front of a table, column by column; false at its end. */
static bool next_row(struct text *table, struct text row[COLUMNS]) {
    while (table->length > 0) {
        const char *end = memchr(table->at, '\n', table->length);
        struct text line = {table->at, end ? (size_t)(end - table->at) : table->length};
        size_t taken = end ? line.length + 1 : line.length;
        table->at += taken;
        table->length -= taken;
        if (line.length == 0 || line.at[0] == '#') continue;
        for (int column = 0; column < COLUMNS; column++) {
            const char *tab = line.length ? memchr(line.at, '\t', line.length) : NULL;
            size_t length = tab ? (size_t)(tab - line.at) : line.length;
            row[column] = (struct text){line.at, length};
            line.at += tab ? length + 1 : length;
            line.length -= tab ? length + 1 : length;
        }
        return true;
    }
    return false;
}

static int digit(char c) {
    return c <= '9' ? c - '0' : c - 'a' + 10;
}

/* Bytes in hexadecimal digits, where a dash stands for none; the caller frees them. */
static uint8_t *bytes_of(struct text column, size_t *length) {
    *length = column.length == 1 ? 0 : column.length / 2;
    uint8_t *bytes = allocated(malloc(*length + 1));
    for (size_t i = 0; i < *length; i++) bytes[i] = (uint8_t)(digit(column.at[2 * i]) << 4 | digit(column.at[2 * i + 1]));
    return bytes;
}

static uint64_t number_of(struct text column) {
    uint64_t number = 0;
    for (size_t i = 0; i < column.length; i++) number = 10 * number + (uint64_t)(column.at[i] - '0');
    return number;
}

/* What a call answered, in the words of the tables. */
static struct text told(scaleview_answer answer, char line[128]) {
    unsigned long long at = answer.at;
    uint32_t code = answer.code;
    scaleview_answer named;
    uint8_t name[18];
    scaleview_reason(code, name, sizeof name, &named);
    int length = (int)named.length;
    if (code == SCALEVIEW_REGISTRY_UNKNOWN_REFERENCE)
        snprintf(line, 128, "%.*s %llu in type %u", length, name, at, answer.from);
    else if (code == SCALEVIEW_METADATA_UNKNOWN_REFERENCE)
        snprintf(line, 128, "%.*s to type %u at %llu", length, name, answer.from, at);
    else if (code >= SCALEVIEW_UNKNOWN_TYPE && code < SCALEVIEW_VALUE_TRUNCATED)
        snprintf(line, 128, "%.*s", length, name);
    else if (code >= SCALEVIEW_REGISTRY_TRUNCATED && length)
        snprintf(line, 128, "%.*s at %llu", length, name, at);
    else
        snprintf(line, 128, "code %u", code);
    return text_of(line);
}

static void check(struct text name, const char *way, struct text wanted, struct text found) {
    ways++;
    if (equal(wanted, found)) return;
    printf("%.*s: %s: %.*s, not %.*s\n", (int)name.length, name.at, way, (int)found.length, found.at, (int)wanted.length,
           wanted.at);
    wrong++;
}

static void check_number(struct text name, const char *way, uint64_t wanted, uint64_t found) {
    char one[32], other[32];
    snprintf(one, sizeof one, "%llu", (unsigned long long)wanted);
    snprintf(other, sizeof other, "%llu", (unsigned long long)found);
    check(name, way, text_of(one), text_of(other));
}

static struct text shown(scaleview_answer answer, const uint8_t *out, char line[128]) {
    return answer.code == SCALEVIEW_OK ? (struct text){(const char *)out, (size_t)answer.length} : told(answer, line);
}

/* The lines of all types, in the words of a row; the caller frees them. */
static struct text lines_of(scaleview_registry registry, uint8_t *out) {
    scaleview_answer answer;
    scaleview_types(registry, &answer);
    uint64_t count = answer.length;
    char *lines = allocated(malloc(TEXT_ROOM));
    size_t length = 0;
    for (uint32_t type = 0; type < count; type++) {
        if (scaleview_type_line(registry, type, out, TEXT_ROOM, &answer) != SCALEVIEW_OK) exit(1);
        if (type > 0) length += (size_t)sprintf(lines + length, " / ");
        memcpy(lines + length, out, (size_t)answer.length - 1);
        length += (size_t)answer.length - 1;
    }
    if (count == 0) length = (size_t)sprintf(lines, "-");
    return (struct text){lines, length};
}

/* Each type's path is the one of its line, and finds it. */
static void check_paths(struct text name, scaleview_registry registry, uint8_t *out) {
    uint8_t *path = allocated(malloc(TEXT_ROOM)), *quoted = allocated(malloc(TEXT_ROOM));
    scaleview_answer answer;
    scaleview_types(registry, &answer);
    uint64_t count = answer.length;
    for (uint32_t type = 0; type < count; type++) {
        scaleview_type_line(registry, type, out, TEXT_ROOM, &answer);
        struct text line = {(char *)out, (size_t)answer.length - 1};
        scaleview_path(registry, type, path, TEXT_ROOM, &answer);
        struct node_text text = {registry, NULL, (char *)quoted};
        put_string(&text, path, (size_t)answer.length);
        size_t length = (size_t)(text.at - (char *)quoted);
        bool ends = length <= line.length && !memcmp(line.at + line.length - length, quoted, length);
        check(name, "path", line, ends ? line : (struct text){(char *)quoted, length});
        scaleview_find(registry, type, path, (size_t)answer.length, &answer);
        check_number(name, "find", type, answer.code == SCALEVIEW_OK ? answer.at : UINT64_MAX);
    }
    free(path);
    free(quoted);
}

/* What the call is to answer to all bytes of a registry's row: the first refusal, or nothing. */
static struct text registry_refusal(struct text row[COLUMNS], size_t length, char line[128]) {
    struct text read = row[3], none = text_of("");
    if (read.at[0] < '0' || read.at[0] > '9') return read;
    bool is_alone = equal(row[1], text_of("none"));
    if (is_alone && number_of(read) < length) {
        snprintf(line, 128, "TrailingBytes at %.*s", (int)read.length, read.at);
        return text_of(line);
    }
    return row[4].at[0] == 'W' ? none : row[4];
}

static void check_registry(struct text row[COLUMNS], uint8_t *out) {
    char wanted[128], found[128];
    size_t length;
    uint8_t *bytes = bytes_of(row[2], &length);
    uint32_t flags = equal(row[1], text_of("metadata")) ? SCALEVIEW_METADATA : 0;
    scaleview_registry registry = {NULL};
    scaleview_answer answer;
    uint32_t code = scaleview_open(bytes, length, flags, &registry, &answer);
    rows++;
    check(row[0], "open", registry_refusal(row, length, wanted), code == SCALEVIEW_OK ? text_of("") : told(answer, found));
    if (code == SCALEVIEW_OK) {
        struct text lines = lines_of(registry, out);
        check(row[0], "types", row[5], lines);
        free((char *)lines.at);
        check_paths(row[0], registry, out);
        scaleview_close(&registry);
    }
    free(bytes);
}

/* A value's row. */
struct value {
    struct text name, answer, json;
    uint32_t type;
    uint16_t depth;
    uint64_t limit, taken, nodes, texts;
    uint8_t *bytes;
    size_t length;
    scaleview_registry registry;
};

/* What is to be answered to all bytes, which are to be one value; with no byte after it where `front`. */
static struct text value_answer(const struct value *value, bool front, char line[128]) {
    if (equal(value->answer, text_of("Done"))) {
        if (front || value->taken == value->length) return value->json;
        snprintf(line, 128, "TrailingBytes at %llu", (unsigned long long)value->taken);
        return text_of(line);
    }
    if (!equal(value->answer, text_of("More"))) return value->answer;
    snprintf(line, 128, "Truncated at %zu", value->length);
    return text_of(line);
}

static void check_whole(const struct value *value, uint8_t *out) {
    char wanted[128], found[128];
    scaleview_answer answer;
    scaleview_decode(value->registry, value->type, value->depth, value->limit, 0, value->bytes, value->length, out, TEXT_ROOM,
                     &answer);
    check(value->name, "decode", value_answer(value, false, wanted), shown(answer, out, found));
}

/* The nodes of a value, and their bytes. */
struct nodes {
    scaleview_node *at;
    uint8_t *pool;
    scaleview_answer answer;
};

/* Room for the nodes of a value, which the caller frees. */
static struct nodes node_room(void) {
    return (struct nodes){allocated(calloc(NODE_ROOM, sizeof(scaleview_node))), allocated(calloc(1, TEXT_ROOM)), {0}};
}

static void free_nodes(struct nodes nodes) {
    free(nodes.at);
    free(nodes.pool);
}

static bool same_nodes(struct nodes one, struct nodes other) {
    size_t count = (size_t)one.answer.length, bytes = (size_t)one.answer.at;
    return one.answer.code == other.answer.code && one.answer.length == other.answer.length &&
           one.answer.at == other.answer.at && !memcmp(one.at, other.at, count * sizeof *one.at) &&
           !memcmp(one.pool, other.pool, bytes);
}

/* Nodes that are decoded show the value's JSON, are the table's number, and are encoded as the value's bytes, of which they
 * are decoded again; one node less has no room, and is rejected. */
static void check_back(const struct value *value, struct nodes nodes, uint8_t *out) {
    char found[128];
    scaleview_answer answer;
    size_t count = (size_t)nodes.answer.length, bytes = (size_t)nodes.answer.at;
    check(value->name, "node json", value->json,
          (struct text){(char *)out, node_json(value->registry, nodes.at, nodes.pool, (char *)out)});
    check_number(value->name, "node count", value->nodes, count);
    uint32_t code = scaleview_encode_nodes(value->registry, value->type, value->depth, 0, nodes.at, count, nodes.pool, bytes,
                                           out, TEXT_ROOM, &answer);
    check(value->name, "encode", (struct text){(const char *)value->bytes, value->length}, shown(answer, out, found));
    struct nodes again = node_room();
    scaleview_decode_nodes(value->registry, value->type, value->depth, value->limit, 0, out, (size_t)answer.length, again.at,
                           NODE_ROOM, again.pool, TEXT_ROOM, &again.answer);
    check(value->name, "decoded again", text_of("same"), text_of(code == SCALEVIEW_OK && same_nodes(nodes, again) ? "same" : "other"));
    scaleview_encode_nodes(value->registry, value->type, value->depth, 0, nodes.at, count - 1, nodes.pool, bytes, out, TEXT_ROOM,
                           &answer);
    bool is_rejected = answer.code == SCALEVIEW_NODES_UNFINISHED_VALUE && answer.at == count - 1;
    check(value->name, "one node less", text_of("rejected"), text_of(is_rejected ? "rejected" : "taken"));
    code = scaleview_decode_nodes(value->registry, value->type, value->depth, value->limit, 0, value->bytes, value->length,
                                  again.at, count - 1, again.pool, bytes, &again.answer);
    bool says = code == SCALEVIEW_NO_ROOM && again.answer.length == count && again.answer.at == bytes;
    check(value->name, "room for one node less", text_of("none"), text_of(says ? "none" : "enough"));
    free_nodes(again);
}

static void check_nodes(const struct value *value, uint8_t *out) {
    char wanted[128], found[128];
    struct nodes nodes = node_room(), by_session = node_room();
    scaleview_session session = {NULL};
    scaleview_answer answer;
    uint32_t code = scaleview_decode_nodes(value->registry, value->type, value->depth, value->limit, 0, value->bytes,
                                           value->length, nodes.at, NODE_ROOM, nodes.pool, TEXT_ROOM, &nodes.answer);
    if (code == SCALEVIEW_OK)
        check_back(value, nodes, out);
    else
        check(value->name, "nodes", value_answer(value, false, wanted), told(nodes.answer, found));
    if (scaleview_start(value->registry, value->type, value->depth, value->limit, 0, &session, &answer) == SCALEVIEW_OK) {
        scaleview_feed(&session, value->bytes, value->length, &answer);
        scaleview_finish_nodes(&session, by_session.at, NODE_ROOM, by_session.pool, TEXT_ROOM, &by_session.answer);
        bool is_same = code == SCALEVIEW_VALUE_TRAILING_BYTES ? by_session.answer.code == SCALEVIEW_OK
                       : code == SCALEVIEW_OK                 ? same_nodes(nodes, by_session)
                                                              : by_session.answer.code == code;
        check(value->name, "nodes by a session", text_of("same"), text_of(is_same ? "same" : "other"));
        scaleview_free(&session);
    }
    free_nodes(nodes);
    free_nodes(by_session);
}

static void check_held(const struct value *value, scaleview_session *session) {
    scaleview_answer answer;
    scaleview_taken(session, &answer);
    check_number(value->name, "taken", value->taken, answer.length);
    scaleview_nodes(session, &answer);
    check_number(value->name, "nodes", value->nodes, answer.length);
    scaleview_text_bytes(session, &answer);
    check_number(value->name, "text_bytes", value->texts, answer.length);
}

static void check_pieces(const struct value *value, size_t step, uint8_t *out) {
    char wanted[128], found[128];
    scaleview_session session = {NULL};
    scaleview_answer answer;
    uint32_t code = scaleview_start(value->registry, value->type, value->depth, value->limit, 0, &session, &answer);
    if (code != SCALEVIEW_OK) {
        check(value->name, "start", value->answer, told(answer, found));
        return;
    }
    size_t at = 0;
    do {
        size_t length = value->length - at < step ? value->length - at : step;
        code = scaleview_feed(&session, value->bytes + at, length, &answer);
        at += length;
    } while (code == SCALEVIEW_MORE && at < value->length);
    check_held(value, &session);
    scaleview_finish(&session, out, TEXT_ROOM, &answer);
    check(value->name, "pieces", value_answer(value, true, wanted), shown(answer, out, found));
    scaleview_free(&session);
}

/* The registry of these bytes, which the caller closes. */
static scaleview_registry registry_of(struct text column, uint32_t flags) {
    scaleview_registry registry = {NULL};
    scaleview_answer answer;
    size_t length;
    uint8_t *bytes = bytes_of(column, &length);
    scaleview_open(bytes, length, flags, &registry, &answer);
    free(bytes);
    return registry;
}

/* A column of the row of that name. */
static struct text column_named(struct text table, struct text name, int column) {
    struct text row[COLUMNS];
    while (next_row(&table, row)) {
        if (equal(row[0], name)) return row[column];
    }
    return text_of("-");
}

/* Checks a value's row, and closes its registry. */
static void check_value(scaleview_registry registry, struct text row[COLUMNS], uint8_t *out) {
    struct value value = {.name = row[0], .answer = row[6], .json = row[10]};
    value.type = (uint32_t)number_of(row[2]);
    value.depth = (uint16_t)number_of(row[3]);
    value.limit = number_of(row[4]);
    value.taken = number_of(row[7]);
    value.nodes = number_of(row[8]);
    value.texts = number_of(row[9]);
    value.bytes = bytes_of(row[5], &value.length);
    value.registry = registry;
    rows++;
    check_whole(&value, out);
    check_nodes(&value, out);
    check_pieces(&value, 1, out);
    check_pieces(&value, 7, out);
    check_pieces(&value, 4096, out);
    scaleview_close(&value.registry);
    free(value.bytes);
}

/* A registry has the same types whether its bits are read or not. */
static void check_types(struct text row[COLUMNS], uint8_t *out) {
    scaleview_registry without = registry_of(row[1], 0), with = registry_of(row[1], SCALEVIEW_BITS);
    struct text wanted = lines_of(without, out), found = lines_of(with, out);
    check(row[0], "types with bits", wanted, found);
    free((char *)wanted.at);
    free((char *)found.at);
    scaleview_close(&without);
    scaleview_close(&with);
}

static uint64_t types_of(scaleview_registry registry) {
    scaleview_answer answer;
    return scaleview_types(registry, &answer) == SCALEVIEW_OK ? answer.length : 0;
}

/* Opens metadata with its names, which the caller closes. If it is rejected, `line` is what the command says. */
static scaleview_registry open_names(struct text column, uint32_t flags, char line[160]) {
    char reason[128];
    scaleview_registry registry = {NULL};
    scaleview_answer answer;
    size_t length;
    uint8_t *bytes = bytes_of(column, &length);
    scaleview_open(bytes, length, SCALEVIEW_METADATA | SCALEVIEW_NAMES | flags, &registry, &answer);
    free(bytes);
    const char *part = answer.code == SCALEVIEW_REGISTRY_UNKNOWN_REFERENCE ? "check" : "registry";
    if (answer.code != SCALEVIEW_OK) snprintf(line, 160, "%s: %s", part, told(answer, reason).at);
    return registry;
}

/* How many types the registry has by itself, how many with the synthetic ones, and how many names there are. */
static void check_metadata(struct text row[COLUMNS]) {
    char found[160];
    scaleview_registry with = open_names(row[1], 0, found);
    rows++;
    if (with.inside) {
        scaleview_registry without = registry_of(row[1], SCALEVIEW_METADATA);
        unsigned long long own = types_of(without), all = types_of(with);
        scaleview_answer answer;
        uint32_t names = 0;
        while (scaleview_name_at(with, names, NULL, 0, &answer) == SCALEVIEW_NO_ROOM) names++;
        snprintf(found, sizeof found, "%llu %llu %u", own, all, names);
        scaleview_close(&without);
        scaleview_close(&with);
    }
    check(row[0], "names", row[2], text_of(found));
}

/* The words of a command line that decodes by a name. */
struct asked {
    struct text name;
    bool has_value, is_opaque;
    uint32_t flags;
    uint16_t depth;
    uint64_t limit;
};

/* Takes the next word off the front of a line. */
static struct text next_word(struct text *line) {
    const char *space = line->length ? memchr(line->at, ' ', line->length) : NULL;
    struct text word = {line->at, space ? (size_t)(space - line->at) : line->length};
    size_t taken = space ? word.length + 1 : word.length;
    line->at += taken;
    line->length -= taken;
    return word;
}

static bool read_option(struct text option, struct text *line, struct asked *asked) {
    if (equal(option, text_of("v")))
        asked->has_value = true;
    else if (equal(option, text_of("--opaque")))
        asked->is_opaque = true;
    else if (equal(option, text_of("--bits")))
        asked->flags = SCALEVIEW_BITS;
    else if (equal(option, text_of("--depth")))
        asked->depth = (uint16_t)number_of(next_word(line));
    else if (equal(option, text_of("--bytes")))
        asked->limit = number_of(next_word(line));
    else
        return false;
    return true;
}

/* Reads what stands after `decode r`, unless it is more than a name, a value and the options that are known here. */
static bool read_words(struct text line, struct asked *asked) {
    *asked = (struct asked){.name = next_word(&line), .depth = 64, .limit = 1 << 24};
    asked->is_opaque = equal(asked->name, text_of("extrinsic"));
    bool is_known = asked->name.length > 0 && asked->name.at[0] >= 'a';
    while (is_known && line.length > 0) is_known = read_option(next_word(&line), &line, asked);
    return is_known;
}

/* Writes the line that the command prints if a value isn't decoded. */
static void put_refusal(struct node_text *text, const char *part, scaleview_answer answer, const struct text *name) {
    char reason[128];
    text->at += sprintf(text->at, "scaleview: %s: %s", part, told(answer, reason).at);
    if (name) {
        *text->at++ = ' ';
        put_string(text, (const uint8_t *)name->at, name->length);
    }
    *text->at++ = '\n';
}

/* Writes what the command prints of a value: its JSON, or why there is none. */
static void put_value(struct node_text *text, const struct asked *asked, const uint8_t *value, size_t length) {
    const uint8_t *name = (const uint8_t *)asked->name.at;
    scaleview_answer type, answer, front = {.length = length};
    uint8_t *own = allocated(malloc(TEXT_ROOM));
    if (!asked->has_value) value = own;
    if (scaleview_name(text->registry, name, asked->name.length, &type) != SCALEVIEW_OK) {
        put_refusal(text, "type", type, &asked->name);
    } else if (!asked->has_value &&
               scaleview_name_bytes(text->registry, name, asked->name.length, own, TEXT_ROOM, &front) != SCALEVIEW_OK) {
        put_refusal(text, "type", front, &asked->name);
    } else if (asked->is_opaque && scaleview_opaque(value, (size_t)front.length, &front) != SCALEVIEW_OK) {
        put_refusal(text, "value", front, NULL);
    } else if (scaleview_decode(text->registry, type.from, asked->depth, asked->limit, 0, value + front.at,
                                (size_t)front.length, (uint8_t *)text->at, TEXT_ROOM, &answer) == SCALEVIEW_OK) {
        text->at += answer.length;
        *text->at++ = '\n';
    } else {
        answer.at += front.at;
        put_refusal(text, "value", answer, NULL);
    }
    free(own);
}

/* Writes what the command lists. A name with a control character is a JSON string. */
static void put_names(struct node_text *text) {
    uint8_t name[NAME_ROOM];
    scaleview_answer answer;
    for (uint32_t i = 0; scaleview_name_at(text->registry, i, name, sizeof name, &answer) == SCALEVIEW_OK; i++) {
        size_t length = (size_t)answer.length, plain = 0;
        while (plain < length && name[plain] >= 0x20) plain++;
        if (plain < length)
            put_string(text, name, length);
        else
            put_bytes(text, name, length);
        text->at += sprintf(text->at, " %u\n", answer.from);
    }
}

/* What stands in a column of what is printed, which shows a line feed as \n and a backslash twice. */
static struct text shown_text(struct text column, char *to) {
    size_t length = 0;
    for (size_t i = 0; i < column.length; i++) {
        bool is_escaped = column.at[i] == '\\' && i + 1 < column.length;
        if (is_escaped) i++;
        to[length++] = is_escaped && column.at[i] == 'n' ? '\n' : column.at[i];
    }
    return equal(column, text_of("-")) ? text_of("") : (struct text){to, length};
}

/* Checks a command line, if the calls here can do what it asks for. */
static void check_line(struct text metadata, struct text row[COLUMNS], uint8_t *out) {
    char refused[160], *wanted = allocated(malloc(TEXT_ROOM));
    struct text line = row[1], command = next_word(&line);
    struct asked asked = {.flags = 0};
    bool lists = equal(row[1], text_of("names r")), is_answered = row[4].at[0] <= '1';
    bool decodes = equal(command, text_of("decode")) && equal(next_word(&line), text_of("r")) && read_words(line, &asked);
    lines++;
    if (is_answered && (lists || decodes)) {
        struct node_text text = {open_names(column_named(metadata, row[2], 1), asked.flags, refused), NULL, (char *)out};
        size_t length;
        uint8_t *value = bytes_of(row[3], &length);
        if (!text.registry.inside)
            text.at += sprintf(text.at, "scaleview: %s\n", refused);
        else if (lists)
            put_names(&text);
        else
            put_value(&text, &asked, value, length);
        struct text found = {(char *)out, (size_t)(text.at - (char *)out)};
        check(row[0], "line", shown_text(equal(row[6], text_of("-")) ? row[5] : row[6], wanted), found);
        free(value);
        scaleview_close(&text.registry);
        used_lines++;
    }
    free(wanted);
}

int main(int count, char **words) {
    enum { REGISTRIES, VALUES, BITS, METADATA, CHAIN, TABLES };
    struct text tables[TABLES], table, row[COLUMNS];
    if (count != 1 + TABLES) {
        fprintf(stderr, "usage: vectors registries.tsv values.tsv bits.tsv metadata.tsv chain.tsv\n");
        return 2;
    }
    for (int i = 0; i < TABLES; i++) tables[i] = read_file(words[1 + i]);
    uint8_t *out = allocated(malloc(2 * TEXT_ROOM));
    for (table = tables[REGISTRIES]; next_row(&table, row);) check_registry(row, out);
    for (table = tables[VALUES]; next_row(&table, row);)
        check_value(registry_of(column_named(tables[REGISTRIES], row[1], 2), 0), row, out);
    for (table = tables[BITS]; next_row(&table, row);) {
        check_types(row, out);
        check_value(registry_of(row[1], SCALEVIEW_BITS), row, out);
    }
    for (table = tables[METADATA]; next_row(&table, row);) check_metadata(row);
    for (table = tables[CHAIN]; next_row(&table, row);) check_line(tables[METADATA], row, out);
    printf("c: %u rows in %u ways, and %u of %u command lines, %u wrong\n", rows, ways, used_lines, lines, wrong);
    for (int i = 0; i < TABLES; i++) free((char *)tables[i].at);
    free(out);
    return wrong > 0;
}
