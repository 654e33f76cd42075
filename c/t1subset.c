/* What libt1subset adds in C to the proved code: the heap that this code calls, the freeing of an answer, the count of the
 * answers of t1subset_level, and the version. No proof covers this file; what the proofs suppose of the heap stands at its functions. */
#include "t1subset.h"

#include <stdbool.h>
#include <stdlib.h>

/* Whether there is a block, and where. If there is none, the pointer owns nothing, but it is not null. */
struct tried {
    bool ok;
    void *block;
};

struct tried rattle_alloc(size_t size, size_t align);
struct tried rattle_realloc(void *block, size_t kept, size_t size, size_t align);
void rattle_dealloc(void *block);

_Static_assert(_Alignof(max_align_t) >= 16, "the proved code asks malloc for blocks that are aligned to 16 bytes");

static _Thread_local const t1subset_heap *heap;
static char nowhere;

static void *resize(void *block, size_t size) {
    if (heap) return heap->resize(heap->user, block, size);
    if (size) return realloc(block, size);
    free(block);
    return NULL;
}

/* A block of size 0 is one of its own too. The heap frees where it is asked for 0 bytes, so it is asked for some. */
static struct tried tried(void *block, size_t size, size_t align) {
    void *given = resize(block, size ? size : align);
    return (struct tried) {given != NULL, given ? given : &nowhere};
}

/* A new block for size bytes, aligned to align, which divides 16. */
struct tried rattle_alloc(size_t size, size_t align) {
    return tried(NULL, size, align);
}

/* The block, with size bytes. The first kept bytes are as they were; if there is no room, the block is as it was. */
struct tried rattle_realloc(void *block, size_t kept, size_t size, size_t align) {
    (void) kept;
    return tried(block, size, align);
}

/* Frees what one of these two gave. */
void rattle_dealloc(void *block) {
    resize(block, 0);
}

/* The proved call: it has the count of its answers, and a count that is not that of the documents is a bad call. */
uint32_t level_answers(const t1subset_bytes *documents, size_t count, t1subset_answer *answers, size_t answers_count);

uint32_t t1subset_level(const t1subset_bytes *documents, size_t count, t1subset_answer *answers) {
    return level_answers(documents, count, answers, count);
}

void t1subset_use(const t1subset_heap *other) {
    heap = other;
}

/* An answer's bytes are a block of this heap, but bytes of size 0 are not: they may point anywhere. */
void t1subset_free(t1subset_answer *answer) {
    if (answer->bytes.size) resize((void *) answer->bytes.data, 0);
    *answer = (t1subset_answer) T1SUBSET_ANSWER;
}

uint32_t t1subset_version(void) {
    return T1SUBSET_VERSION;
}
