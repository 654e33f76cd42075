/* Milliseconds of processor time of one call of libt1subset, and the most bytes that it held. usage: calls SECONDS FONT NAME...
 * Prints `check`, `subset` (to every fourth NAME) and `merge` (of the four such subsets), a line each. */
#include "t1subset.h"

#include <stdio.h>
#include <stdlib.h>
#include <string.h>
#include <time.h>

#define PARTS 4

static uint8_t *font;
static size_t size, counts[PARTS];
static t1subset_bytes *names[PARTS], parts[PARTS];

static uint32_t check(t1subset_answer *to) { return t1subset_check(font, size, to); }
static uint32_t subset(t1subset_answer *to) { return t1subset_subset(font, size, names[0], counts[0], T1SUBSET_PFA, to); }
static uint32_t merge(t1subset_answer *to) { return t1subset_merge(parts, PARTS, T1SUBSET_PFA, to); }

/* The least time of one call among turns of a hundredth of the seconds. */
static double least(uint32_t (*call)(t1subset_answer *), double seconds) {
    const double all = seconds * CLOCKS_PER_SEC;
    double best = 1e300;
    for (const clock_t first = clock(); (double) (clock() - first) < all;) {
        const clock_t began = clock();
        long calls = 0;
        for (; (double) (clock() - began) < all / 100; calls++) {
            t1subset_answer answer;
            if (call(&answer)) exit(1);
            t1subset_free(&answer);
        }
        const double each = (double) (clock() - began) / (double) calls;
        if (each < best) best = each;
    }
    return best * 1000 / CLOCKS_PER_SEC;
}

/* A heap that counts the bytes of its blocks; the size of each stands 16 bytes before it. */
struct counted {
    size_t now, most;
};

static void *resize(void *user, void *block, size_t bytes) {
    struct counted *held = user;
    size_t *old = block ? (size_t *) (void *) ((char *) block - 16) : NULL;
    const size_t had = old ? *old : 0;
    if (bytes == 0) {
        held->now -= had;
        free(old);
        return NULL;
    }
    size_t *given = realloc(old, bytes + 16);
    if (!given) return NULL;
    *given = bytes;
    held->now += bytes - had;
    if (held->now > held->most) held->most = held->now;
    return (char *) given + 16;
}

static size_t peak(uint32_t (*call)(t1subset_answer *)) {
    struct counted held = {0, 0};
    const t1subset_heap heap = {resize, &held};
    t1subset_answer answer;
    t1subset_use(&heap);
    if (call(&answer)) exit(1);
    t1subset_free(&answer);
    t1subset_use(NULL);
    return held.most;
}

static void report(const char *name, uint32_t (*call)(t1subset_answer *), double seconds) {
    printf("%s %.4f %zu\n", name, least(call, seconds), peak(call));
}

static void read_font(const char *path) {
    FILE *file = fopen(path, "rb");
    if (!file || fseek(file, 0, SEEK_END)) exit(2);
    size = (size_t) ftell(file);
    rewind(file);
    font = malloc(size + 1);
    if (!font || fread(font, 1, size, file) != size) exit(2);
    fclose(file);
}

int main(int count, char **words) {
    if (count < 3 + PARTS) return 2;
    const double seconds = atof(words[1]);
    read_font(words[2]);
    for (int part = 0; part < PARTS; part++) {
        names[part] = calloc((size_t) count, sizeof **names);
        if (!names[part]) return 2;
        for (int at = 3 + part; at < count; at += PARTS) {
            names[part][counts[part]++] = (t1subset_bytes) {(const uint8_t *) words[at], strlen(words[at])};
        }
        t1subset_answer answer;
        if (t1subset_subset(font, size, names[part], counts[part], T1SUBSET_PFA, &answer)) return 1;
        parts[part] = answer.bytes;
    }
    report("check", check, seconds);
    report("subset", subset, seconds);
    report("merge", merge, seconds);
    return 0;
}
