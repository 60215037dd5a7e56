/* Decodes a value as the command does, whole or in pieces, or lists the types of a registry.
 *
 *   decode types FILE [--metadata]
 *   decode decode FILE ID VALUEFILE [--metadata] [--bits] [--depth D] [--pieces N]
 */
#include "scaleview.h"
#include <errno.h>
#include <limits.h>
#include <stdio.h>
#include <stdlib.h>
#include <string.h>

struct bytes {
    uint8_t *at;
    size_t length;
};

static struct bytes read_file(const char *path) {
    FILE *file = fopen(path, "rb");
    if (!file) {
        perror(path);
        exit(3);
    }
    size_t room = 65536;
    struct bytes read = {malloc(room), 0};
    for (size_t n; read.at && (n = fread(read.at + read.length, 1, room - read.length, file)) > 0;) {
        read.length += n;
        if (read.length == room) read.at = realloc(read.at, room *= 2);
    }
    if (!read.at) exit(4);
    if (ferror(file)) {
        perror(path);
        exit(3);
    }
    fclose(file);
    return read;
}

/* Tells why there is no answer, in the command's words. */
static int refuse(scaleview_answer answer, uint32_t type) {
    unsigned long long at = answer.at;
    uint32_t code = answer.code;
    scaleview_answer named;
    uint8_t name[18];
    scaleview_reason(code, name, sizeof name, &named);
    if (code >= SCALEVIEW_VALUE_TRUNCATED)
        fprintf(stderr, "scaleview: value: %.*s at %llu\n", (int)named.length, name, at);
    else if (code >= SCALEVIEW_REGISTRY_TRUNCATED && code <= SCALEVIEW_REGISTRY_TRAILING_BYTES)
        fprintf(stderr, "scaleview: registry: %.*s at %llu\n", (int)named.length, name, at);
    else if (code == SCALEVIEW_REGISTRY_UNKNOWN_REFERENCE)
        fprintf(stderr, "scaleview: check: UnknownType %llu in type %u\n", at, answer.from);
    else if (code == SCALEVIEW_UNKNOWN_TYPE)
        fprintf(stderr, "scaleview: type: UnknownType %u\n", type);
    else if (code == SCALEVIEW_REGISTRY_TOO_LARGE)
        fprintf(stderr, "scaleview: registry: TooLarge\n");
    else if (code == SCALEVIEW_MEMORY)
        fprintf(stderr, "scaleview: memory\n");
    else
        fprintf(stderr, "scaleview: code %u\n", code);
    return code == SCALEVIEW_MEMORY || code == SCALEVIEW_REGISTRY_TOO_LARGE ? 4 : 1;
}

/* More room, where a text wants it. */
static bool grow(struct bytes *out, scaleview_answer answer) {
    if (answer.code != SCALEVIEW_NO_ROOM) return false;
    out->at = realloc(out->at, answer.length);
    out->length = answer.length;
    if (!out->at) exit(4);
    return true;
}

static int list(scaleview_registry registry, struct bytes *out) {
    scaleview_answer answer;
    scaleview_types(registry, &answer);
    uint32_t types = (uint32_t)answer.length;
    for (uint32_t type = 0; type < types; type++) {
        do scaleview_type_line(registry, type, out->at, out->length, &answer);
        while (grow(out, answer));
        if (answer.code != SCALEVIEW_OK) return refuse(answer, type);
        fwrite(out->at, 1, answer.length, stdout);
    }
    return 0;
}

static int show(struct bytes *out, scaleview_answer answer, uint32_t type) {
    if (answer.code != SCALEVIEW_OK) return refuse(answer, type);
    fwrite(out->at, 1, answer.length, stdout);
    putchar('\n');
    return 0;
}

static int decode(scaleview_registry registry, uint32_t type, uint16_t depth, struct bytes value, struct bytes *out) {
    scaleview_answer answer;
    do scaleview_decode(registry, type, depth, 1 << 24, 0, value.at, value.length, out->at, out->length, &answer);
    while (grow(out, answer));
    return show(out, answer, type);
}

/* Feeds so many bytes at a time; bytes after the value are refused. */
static uint64_t feed(scaleview_session *session, struct bytes value, size_t step, scaleview_answer *answer) {
    uint64_t taken = 0;
    answer->code = SCALEVIEW_MORE;
    for (size_t at = 0; at < value.length && answer->code == SCALEVIEW_MORE; at += step) {
        size_t length = value.length - at < step ? value.length - at : step;
        scaleview_feed(session, value.at + at, length, answer);
        taken += answer->code == SCALEVIEW_OK ? answer->length : length;
    }
    return taken;
}

static int decode_in_pieces(scaleview_registry registry, uint32_t type, uint16_t depth, struct bytes value, size_t step,
                            struct bytes *out) {
    scaleview_session session = {NULL};
    scaleview_answer answer;
    if (scaleview_start(registry, type, depth, 1 << 24, 0, &session, &answer) != SCALEVIEW_OK) return refuse(answer, type);
    uint64_t taken = feed(&session, value, step, &answer);
    if (answer.code == SCALEVIEW_OK && taken < value.length) {
        answer.code = SCALEVIEW_VALUE_TRAILING_BYTES;
        answer.at = taken;
    }
    if (answer.code == SCALEVIEW_OK || answer.code == SCALEVIEW_MORE) {
        do scaleview_finish(&session, out->at, out->length, &answer);
        while (grow(out, answer));
    }
    int status = show(out, answer, type);
    scaleview_free(&session);
    return status;
}

static int usage(void) {
    fprintf(stderr, "scaleview: usage: decode types FILE [--metadata]\n"
                    "       or: decode decode FILE ID VALUEFILE [--metadata] [--bits] [--depth D] [--pieces N]\n");
    return 2;
}

/* Reads a number of decimal digits alone, which is at most `most`. */
static bool parse(const char *word, unsigned long most, unsigned long *number) {
    if (!*word || word[strspn(word, "0123456789")]) return false;
    errno = 0;
    *number = strtoul(word, NULL, 10);
    return !errno && *number <= most;
}

int main(int count, char **words) {
    uint32_t flags = 0;
    unsigned long type = 0, depth = 64, step = 0;
    const char *names[4] = {0};
    int named = 0;
    for (int i = 1; i < count; i++) {
        if (!strcmp(words[i], "--metadata")) {
            flags |= SCALEVIEW_METADATA;
        } else if (!strcmp(words[i], "--bits")) {
            flags |= SCALEVIEW_BITS;
        } else if (!strcmp(words[i], "--depth") && i + 1 < count) {
            if (!parse(words[++i], 1024, &depth)) return usage();
        } else if (!strcmp(words[i], "--pieces") && i + 1 < count) {
            if (!parse(words[++i], ULONG_MAX, &step) || !step) return usage();
        } else if (named < 4 && strncmp(words[i], "--", 2)) {
            names[named++] = words[i];
        } else {
            return usage();
        }
    }
    bool lists = named == 2 && !strcmp(names[0], "types");
    if (!lists && !(named == 4 && !strcmp(names[0], "decode") && parse(names[2], UINT32_MAX, &type))) return usage();
    struct bytes file = read_file(names[1]), out = {malloc(64), 64};
    scaleview_registry registry = {NULL};
    scaleview_answer answer;
    int status;
    if (scaleview_open(file.at, file.length, flags, &registry, &answer) != SCALEVIEW_OK) {
        status = refuse(answer, 0);
    } else if (lists) {
        status = list(registry, &out);
    } else {
        struct bytes value = read_file(names[3]);
        status = step ? decode_in_pieces(registry, (uint32_t)type, (uint16_t)depth, value, step, &out)
                      : decode(registry, (uint32_t)type, (uint16_t)depth, value, &out);
        free(value.at);
    }
    if (registry.inside) scaleview_close(&registry);
    free(file.at);
    free(out.at);
    if (fflush(stdout) && status == 0) {
        perror("stdout");
        status = 3;
    }
    return status;
}
