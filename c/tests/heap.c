/* The functions of c/t1subset.c that the proved code calls, held to what the proofs suppose of them, and what t1subset_level
 * passes on. No usage. */
#include "../t1subset.c"

#include <pthread.h>
#include <stdio.h>
#include <string.h>

static int faults;

static void expect(bool right, const char *what) {
    if (right) return;
    printf("not so: %s\n", what);
    faults++;
}

/* A heap that notes what it was asked for, and refuses growths where refuses is set. */
struct noted {
    void *block;
    size_t size;
    long calls;
    bool refuses;
};

static void *noting(void *user, void *block, size_t size) {
    struct noted *noted = user;
    noted->block = block;
    noted->size = size;
    noted->calls++;
    if (size == 0) {
        free(block);
        return &faults; /* anything */
    }
    return noted->refuses ? NULL : realloc(block, size);
}

static bool aligned(const void *block, size_t align) {
    return (uintptr_t) block % align == 0;
}

static void blocks(void) {
    for (size_t align = 1; align <= 16; align *= 2) {
        for (size_t size = 0; size <= 4096; size = size * 2 + 1) {
            struct tried one = rattle_alloc(size, align), other = rattle_alloc(size, align);
            expect(one.ok && other.ok && one.block != other.block, "each block is one of its own, also of size 0");
            expect(aligned(one.block, align) && aligned(other.block, align), "a block is aligned");
            memset(one.block, 1, size);
            struct tried more = rattle_realloc(one.block, size, size + 100, align);
            expect(more.ok && aligned(more.block, align), "a block grows, and is aligned");
            bool kept = true;
            for (size_t at = 0; at < size; at++) kept = kept && ((char *) more.block)[at] == 1;
            expect(kept, "a block that grows keeps its bytes");
            struct tried none = rattle_realloc(more.block, 0, 0, align);
            expect(none.ok && none.block, "a block of size 0 is a block");
            rattle_dealloc(none.block);
            rattle_dealloc(other.block);
        }
    }
}

static void refused(void) {
    volatile size_t huge = PTRDIFF_MAX;
    struct tried none = rattle_alloc(huge, 16);
    expect(!none.ok && none.block, "malloc's refusal is told, and the pointer is not null");
    struct tried block = rattle_alloc(3, 1);
    memcpy(block.block, "abc", 3);
    none = rattle_realloc(block.block, 3, huge, 1);
    expect(!none.ok && none.block && !memcmp(block.block, "abc", 3), "realloc's refusal leaves the block");
    rattle_dealloc(block.block);
}

static void hooked(void) {
    struct noted noted = {NULL, 0, 0, false};
    const t1subset_heap own = {noting, &noted};
    t1subset_use(&own);
    struct tried block = rattle_alloc(0, 8);
    expect(block.ok && noted.calls == 1 && !noted.block && noted.size == 8, "size 0 is asked for as the alignment");
    struct tried more = rattle_realloc(block.block, 0, 3, 1);
    expect(more.ok && noted.calls == 2 && noted.block == block.block && noted.size == 3, "a growth is one call");
    memcpy(more.block, "abc", 3);
    noted.refuses = true;
    struct tried none = rattle_realloc(more.block, 3, 9, 1);
    expect(!none.ok && none.block && !memcmp(more.block, "abc", 3), "a refused growth leaves the block");
    none = rattle_alloc(1, 1);
    expect(!none.ok && none.block, "a refused block is told, and the pointer is not null");
    t1subset_answer answer = {7, 7, {more.block, 3}};
    noted.calls = 0;
    t1subset_free(&answer);
    expect(noted.calls == 1 && noted.block == more.block && noted.size == 0, "an answer is freed by the heap");
    expect(!answer.detail && answer.input == -1 && !answer.bytes.size && answer.bytes.data, "it then holds nothing");
    t1subset_free(&answer);
    answer.bytes.data = NULL;
    t1subset_free(&answer);
    expect(noted.calls == 1, "an answer without bytes frees nothing");
    t1subset_use(NULL);
    rattle_dealloc(rattle_alloc(1, 1).block);
    expect(noted.calls == 1, "without a heap of its own a thread uses malloc");
}

/* In place of the proved call. */
uint32_t level_answers(const t1subset_bytes *documents, size_t count, t1subset_answer *answers, size_t answers_count) {
    const bool right = count == 3 && answers_count == 3 && documents[2].size == 7 && answers[2].detail == 8;
    return right ? 9 : 0;
}

static void levels(void) {
    const t1subset_bytes documents[3] = {{NULL, 0}, {NULL, 0}, {(const uint8_t *) "seventh", 7}};
    t1subset_answer answers[3] = {T1SUBSET_ANSWER, T1SUBSET_ANSWER, {8, -1, {NULL, 0}}};
    expect(t1subset_level(documents, 3, answers) == 9, "documents and as many answers are passed on");
}

static void *in_another_thread(void *user) {
    (void) user;
    rattle_dealloc(rattle_alloc(1, 1).block);
    return NULL;
}

static void threads(void) {
    struct noted noted = {NULL, 0, 0, false};
    const t1subset_heap own = {noting, &noted};
    t1subset_use(&own);
    pthread_t thread;
    if (pthread_create(&thread, NULL, in_another_thread, NULL)) exit(2);
    pthread_join(thread, NULL);
    expect(noted.calls == 0, "a heap is that of its thread alone");
    t1subset_use(NULL);
}

int main(void) {
    blocks();
    refused();
    hooked();
    threads();
    levels();
    return faults != 0;
}
