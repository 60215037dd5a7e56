/* Four threads decode and encode a value on one registry at the same time, each also by a session of its own: threads REGISTRY
 * ID VALUE TIMES. Each result is compared with one that was made before the threads began. */
#define _POSIX_C_SOURCE 200809L
#include "scaleview.h"
#include <pthread.h>
#include <stdio.h>
#include <stdlib.h>
#include <string.h>

enum { THREADS = 4, FILE_ROOM = 1 << 16, TEXT_ROOM = 1 << 16, NODE_ROOM = 1 << 10 };

static uint8_t registry_bytes[FILE_ROOM], value[FILE_ROOM];
static size_t value_length;
static scaleview_registry registry;
static uint32_t type;
static long times;
static pthread_barrier_t begun;

/* What is made of the value. */
struct made {
    uint8_t text[TEXT_ROOM], pool[TEXT_ROOM], bytes[TEXT_ROOM], session_pool[TEXT_ROOM];
    scaleview_node nodes[NODE_ROOM], session_nodes[NODE_ROOM];
    scaleview_answer of_text, of_nodes, of_bytes, of_session;
};

static struct made first, others[THREADS];

static size_t read_file(const char *path, uint8_t *to) {
    FILE *file = fopen(path, "rb");
    if (!file) {
        perror(path);
        exit(3);
    }
    size_t length = fread(to, 1, FILE_ROOM, file);
    fclose(file);
    return length;
}

/* Whether a session that is fed in pieces of three bytes gives the nodes that one call gave. */
static bool feed(struct made *made) {
    scaleview_session session = {NULL};
    scaleview_answer answer;
    if (scaleview_start(registry, type, 64, 1 << 24, 0, &session, &answer) != SCALEVIEW_OK) return false;
    for (size_t at = 0; at < value_length; at += 3)
        scaleview_feed(&session, value + at, value_length - at < 3 ? value_length - at : 3, &answer);
    scaleview_taken(&session, &answer);
    bool is_so = answer.length == value_length;
    scaleview_finish_nodes(&session, made->session_nodes, NODE_ROOM, made->session_pool, TEXT_ROOM, &made->of_session);
    is_so = scaleview_free(&session) == SCALEVIEW_OK && is_so;
    return is_so && made->of_session.code == SCALEVIEW_OK && made->of_session.length == made->of_nodes.length &&
           made->of_session.at == made->of_nodes.at &&
           !memcmp(made->session_nodes, made->nodes, (size_t)made->of_nodes.length * sizeof *made->nodes) &&
           !memcmp(made->session_pool, made->pool, (size_t)made->of_nodes.at);
}

/* Whether each call succeeds, and the bytes of the value come back. */
static bool make(struct made *made) {
    scaleview_decode(registry, type, 64, 1 << 24, 0, value, value_length, made->text, TEXT_ROOM, &made->of_text);
    scaleview_decode_nodes(registry, type, 64, 1 << 24, 0, value, value_length, made->nodes, NODE_ROOM, made->pool,
                           TEXT_ROOM, &made->of_nodes);
    if (made->of_text.code != SCALEVIEW_OK || made->of_nodes.code != SCALEVIEW_OK) return false;
    scaleview_encode_nodes(registry, type, 64, 0, made->nodes, (size_t)made->of_nodes.length, made->pool,
                           (size_t)made->of_nodes.at, made->bytes, TEXT_ROOM, &made->of_bytes);
    return feed(made) && made->of_bytes.code == SCALEVIEW_OK && made->of_bytes.length == value_length &&
           !memcmp(made->bytes, value, value_length);
}

static bool is_first(const struct made *made) {
    return made->of_text.length == first.of_text.length && made->of_nodes.length == first.of_nodes.length &&
           made->of_nodes.at == first.of_nodes.at && !memcmp(made->text, first.text, (size_t)first.of_text.length) &&
           !memcmp(made->nodes, first.nodes, (size_t)first.of_nodes.length * sizeof *first.nodes) &&
           !memcmp(made->pool, first.pool, (size_t)first.of_nodes.at);
}

/* Returns what it was given if all results are as the first. */
static void *run(void *given) {
    struct made *made = given;
    bool is_so = true;
    pthread_barrier_wait(&begun);
    for (long time = 0; time < times; time++) is_so = make(made) && is_first(made) && is_so;
    return is_so ? given : NULL;
}

int main(int count, char **words) {
    if (count != 5) return 2;
    size_t registry_length = read_file(words[1], registry_bytes);
    type = (uint32_t)strtoul(words[2], NULL, 10);
    value_length = read_file(words[3], value);
    times = strtol(words[4], NULL, 10);
    scaleview_answer answer;
    pthread_t threads[THREADS];
    int failures = 0;
    if (scaleview_open(registry_bytes, registry_length, 0, &registry, &answer) != SCALEVIEW_OK) return 3;
    if (!make(&first)) return 3;
    pthread_barrier_init(&begun, NULL, THREADS);
    for (int i = 0; i < THREADS; i++)
        if (pthread_create(&threads[i], NULL, run, &others[i])) return 3;
    for (int i = 0; i < THREADS; i++) {
        void *returned;
        if (pthread_join(threads[i], &returned) || !returned) {
            printf("threads: the thread %d made something else\n", i);
            failures++;
        }
    }
    pthread_barrier_destroy(&begun);
    if (scaleview_close(&registry) != SCALEVIEW_OK) return 3;
    return failures > 0;
}
