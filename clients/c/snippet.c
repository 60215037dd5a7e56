/* Runs a snippet of a README, which is included, on a registry and a value. `out` has ROOM bytes.
 * FLAGS is what the registry is opened with if the snippet takes an open one.
 *
 *   snippet REGISTRY VALUE
 */
#include "scaleview.h"
#include <stdio.h>
#include <stdlib.h>

static uint8_t *read_file(const char *path, size_t *length) {
    FILE *file = fopen(path, "rb");
    uint8_t *bytes = malloc(1 << 20);
    if (!file || !bytes) exit(3);
    *length = fread(bytes, 1, 1 << 20, file);
    fclose(file);
    return bytes;
}

int main(int count, char **words) {
    if (count != 3) return 2;
    size_t length, value_length, room = ROOM;
    uint8_t *bytes = read_file(words[1], &length);
    uint8_t *value = read_file(words[2], &value_length);
    uint8_t out[ROOM];
#ifdef FLAGS
    scaleview_registry registry = {NULL};
    scaleview_answer answer;
    if (scaleview_open(bytes, length, FLAGS, &registry, &answer)) return 3;
#endif
#include "snippet.h"
    (void)room;
    if (registry.inside) scaleview_close(&registry);
    free(bytes);
    free(value);
    return 0;
}
