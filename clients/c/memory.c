/* Refuses each request for memory of a run in turn: memory REGISTRY ID VALUE. The call that makes it says so, a text that
 * found no memory comes by another call, and when all is freed no block is left. A second run opens a chain with its names. It
 * is linked so that the library's requests come here (--wrap). */
#include "chain_bytes.h"
#include "scaleview.h"
#include <stdio.h>
#include <stdlib.h>

void *__real_malloc(size_t size);
void *__real_realloc(void *block, size_t size);
void __real_free(void *block);

/* The request that is refused, by how many come before it; and the blocks that are not freed yet. */
static long before = -1, blocks = 0;

static bool is_refused(void) { return before >= 0 && before-- == 0; }

void *__wrap_malloc(size_t size) {
    void *block = is_refused() ? NULL : __real_malloc(size);
    blocks += block != NULL;
    return block;
}

void *__wrap_realloc(void *block, size_t size) {
    void *moved = is_refused() ? NULL : __real_realloc(block, size);
    blocks += !block && moved;
    return moved;
}

void __wrap_free(void *block) {
    blocks -= block != NULL;
    __real_free(block);
}

static int failures = 0;

static void check(const char *what, bool is_so, long request) {
    if (!is_so) {
        printf("memory: request %ld refused, and not so: %s\n", request, what);
        failures++;
    }
}

static uint8_t bytes[2][1 << 16], out[1 << 20], pool[1 << 20];
static scaleview_node nodes[1 << 16];
static size_t registry_length, length;
static uint32_t type;

static size_t read_file(const char *path, uint8_t *to) {
    FILE *file = fopen(path, "rb");
    if (!file) {
        perror(path);
        exit(3);
    }
    size_t taken = fread(to, 1, sizeof bytes[0], file);
    fclose(file);
    return taken;
}

static bool is_answer(uint32_t code) { return code == SCALEVIEW_OK || code == SCALEVIEW_MORE || code == SCALEVIEW_MEMORY; }

/* A value by one call and in pieces. Says how many calls wanted memory. */
static int run(long request) {
    scaleview_registry registry = {NULL};
    scaleview_session session = {NULL};
    scaleview_answer answer;
    uint32_t code = scaleview_open(bytes[0], registry_length, SCALEVIEW_BITS, &registry, &answer);
    int wants = code == SCALEVIEW_MEMORY;
    check("opened or not", code == SCALEVIEW_OK ? registry.inside != NULL : code == SCALEVIEW_MEMORY && !registry.inside, request);
    if (code != SCALEVIEW_OK) return wants;
    code = scaleview_type_line(registry, type, out, sizeof out, &answer);
    check("a line", is_answer(code), request);
    wants += code == SCALEVIEW_MEMORY;
    code = scaleview_path(registry, type, out, sizeof out, &answer);
    check("a path", is_answer(code), request);
    wants += code == SCALEVIEW_MEMORY;
    code = scaleview_decode(registry, type, 64, 1 << 24, 0, bytes[1], length, out, sizeof out, &answer);
    check("a value", is_answer(code), request);
    wants += code == SCALEVIEW_MEMORY;
    scaleview_step steps[65];
    code = scaleview_path_of(registry, type, 64, 1 << 24, 0, bytes[1], length / 2, steps, 65, &answer);
    check("a path to where it ends", is_answer(code), request);
    wants += code == SCALEVIEW_MEMORY;
    scaleview_answer room;
    code = scaleview_decode_nodes(registry, type, 64, 1 << 24, 0, bytes[1], length, nodes, 1 << 16, pool, sizeof pool, &room);
    check("nodes", is_answer(code), request);
    wants += code == SCALEVIEW_MEMORY;
    if (code == SCALEVIEW_OK) {
        code = scaleview_encode_nodes(registry, type, 64, 0, nodes, room.length, pool, room.at, out, sizeof out, &answer);
        check("encoded", is_answer(code) && (code == SCALEVIEW_MEMORY || answer.length == length), request);
        wants += code == SCALEVIEW_MEMORY;
    }
    code = scaleview_start(registry, type, 64, 1 << 24, 0, &session, &answer);
    check("started or not", code == SCALEVIEW_OK ? session.inside != NULL : code == SCALEVIEW_MEMORY && !session.inside, request);
    bool wanted = code == SCALEVIEW_MEMORY;
    if (!wanted) {
        for (size_t at = 0; at < length; at += 7) {
            code = scaleview_feed(&session, bytes[1] + at, length - at < 7 ? length - at : 7, &answer);
            check("a piece", is_answer(code) && (!wanted || code == SCALEVIEW_MEMORY), request);
            wanted = wanted || code == SCALEVIEW_MEMORY;
        }
        bool is_lost = wanted;
        code = scaleview_finish(&session, out, sizeof out, &answer);
        check("the end", is_answer(code) && (!is_lost || code == SCALEVIEW_MEMORY), request);
        bool is_kept = !is_lost && code == SCALEVIEW_MEMORY;
        wanted = wanted || is_kept;
        code = scaleview_finish(&session, out, sizeof out, &answer);
        check("the end again", is_answer(code) && (!is_lost || code == SCALEVIEW_MEMORY), request);
        check("the text at last", !is_kept || code == SCALEVIEW_OK, request);
        wanted = wanted || code == SCALEVIEW_MEMORY;
        check("freed", scaleview_free(&session) == SCALEVIEW_OK, request);
    }
    check("closed", scaleview_close(&registry) == SCALEVIEW_OK, request);
    return wants + wanted;
}

/* A chain with its names, of which only one by its index wants memory. Says how many calls wanted memory. */
static int run_names(long request) {
    static const uint8_t name[] = "custom:Owner";
    scaleview_registry registry = {NULL};
    scaleview_answer answer;
    uint32_t flags = SCALEVIEW_METADATA | SCALEVIEW_NAMES;
    uint32_t code = scaleview_open(chain_bytes, sizeof chain_bytes, flags, &registry, &answer);
    check("opened or not", code == (registry.inside ? SCALEVIEW_OK : SCALEVIEW_MEMORY), request);
    if (code != SCALEVIEW_OK) return code == SCALEVIEW_MEMORY;
    check("a name", scaleview_name(registry, name, sizeof name - 1, &answer) == SCALEVIEW_OK, request);
    code = scaleview_name_bytes(registry, name, sizeof name - 1, out, sizeof out, &answer);
    check("its bytes", code == SCALEVIEW_OK, request);
    code = scaleview_name_at(registry, 0, out, sizeof out, &answer);
    check("a name by its index", is_answer(code), request);
    check("closed", scaleview_close(&registry) == SCALEVIEW_OK, request);
    return code == SCALEVIEW_MEMORY;
}

/* Makes this run until none of its requests is left to be refused. */
static void refuse_in_turn(int (*run_once)(long request)) {
    int wants = 0;
    for (long request = 0;; request++) {
        before = request;
        int now = run_once(request);
        bool is_last = before >= 0;
        check("one call at most wants memory", now <= 1, request);
        check("nothing is refused, so nothing is wanted", !is_last || now == 0, request);
        check("every block is freed", blocks == 0, request);
        wants += now;
        if (is_last || failures > 0) break;
    }
    check("memory was wanted", wants > 0, -1);
}

int main(int count, char **words) {
    if (count != 4) return 2;
    registry_length = read_file(words[1], bytes[0]);
    type = (uint32_t)strtoul(words[2], NULL, 10);
    length = read_file(words[3], bytes[1]);
    refuse_in_turn(run);
    refuse_in_turn(run_names);
    return failures > 0;
}
