/* Eight threads call at once over one font, every other one on a heap of its own, each on a small stack.
 * usage: threads FONT NAME NAME TURNS */
#include "t1subset.h"

#include <pthread.h>
#include <stdio.h>
#include <stdlib.h>
#include <string.h>

#define THREADS 8
#define STACK ((size_t) 128 << 10)

static uint8_t font[1 << 22];
static size_t size;
static t1subset_bytes names[2];
static t1subset_answer both;
static long turns;
static char own_heap;

static void *resize(void *blocks, void *block, size_t bytes) {
    if (bytes == 0) {
        --*(long *) blocks;
        free(block);
        return NULL;
    }
    void *given = realloc(block, bytes);
    if (given && !block) ++*(long *) blocks;
    return given;
}

/* Cuts the font to each name, merges, and compares with the subset of both. */
static const char *turn(void) {
    t1subset_answer one, other, merged;
    if (t1subset_subset(font, size, names, 1, T1SUBSET_PFA, &one)) return "the first subset is refused";
    if (t1subset_subset(font, size, names + 1, 1, T1SUBSET_PFB, &other)) return "the second subset is refused";
    const t1subset_bytes parts[] = {other.bytes, one.bytes};
    if (t1subset_merge(parts, 2, T1SUBSET_PFA, &merged)) return "the merge is refused";
    const int same = merged.bytes.size == both.bytes.size && !memcmp(merged.bytes.data, both.bytes.data, both.bytes.size);
    t1subset_free(&one);
    t1subset_free(&other);
    t1subset_free(&merged);
    return same ? NULL : "the merge is not the subset of both names";
}

static void *work(void *has_heap) {
    long blocks = 0;
    const t1subset_heap heap = {resize, &blocks};
    const char *wrong = NULL;
    if (has_heap) t1subset_use(&heap);
    for (long at = 0; at < turns && !wrong; at++) wrong = turn();
    if (blocks && !wrong) wrong = "a block is left";
    return (void *) wrong;
}

int main(int count, char **words) {
    FILE *file = count == 5 ? fopen(words[1], "rb") : NULL;
    if (!file) return 2;
    size = fread(font, 1, sizeof font, file);
    fclose(file);
    for (int at = 0; at < 2; at++) names[at] = (t1subset_bytes) {(const uint8_t *) words[at + 2], strlen(words[at + 2])};
    turns = atol(words[4]);
    if (t1subset_subset(font, size, names, 2, T1SUBSET_PFA, &both)) return 2;
    pthread_t threads[THREADS];
    pthread_attr_t small;
    int status = 0;
    if (pthread_attr_init(&small) || pthread_attr_setstacksize(&small, STACK)) return 2;
    for (int at = 0; at < THREADS; at++) {
        if (pthread_create(&threads[at], &small, work, at % 2 ? &own_heap : NULL)) return 2;
    }
    for (int at = 0; at < THREADS; at++) {
        void *wrong;
        pthread_join(threads[at], &wrong);
        if (wrong) {
            printf("thread %d: %s\n", at, (const char *) wrong);
            status = 1;
        }
    }
    t1subset_free(&both);
    return status;
}
