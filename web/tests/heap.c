/* Tests web/heap.c on this machine: its memory is an array, of which it may have so many pages. Needs addresses below 4 GB. */
#include <stddef.h>
#include <stdint.h>
#include <stdio.h>
#include <stdlib.h>
#include <string.h>

enum { PAGES = 512, BLOCKS = 400, TURNS = 100000 };

static _Alignas(65536) uint8_t __heap_base[PAGES << 16];
static size_t pages, allowed = PAGES;

/* The pages up to the end of what the heap has. */
static size_t memory_size(void) {
    return ((uintptr_t) __heap_base >> 16) + pages;
}

static size_t memory_grow(size_t more) {
    if (more > allowed - pages) return (size_t) -1;
    pages += more;
    return memory_size() - more;
}

#define __builtin_wasm_memory_size(memory) memory_size()
#define __builtin_wasm_memory_grow(memory, more) memory_grow(more)
#define HEAP_BASE_IS_GIVEN
#include "../heap.c"

static struct { uint8_t *bytes; size_t size; uint8_t mark; } blocks[BLOCKS];

static void fail(const char *text) {
    puts(text);
    exit(1);
}

/* Each block is aligned and has its mark, from its first byte to its last. */
static void look(size_t at) {
    if ((uintptr_t) blocks[at].bytes % 16) fail("a block is not aligned");
    for (size_t byte = 0; byte < blocks[at].size; byte++) {
        if (blocks[at].bytes[byte] != blocks[at].mark) fail("a block has other bytes than were written");
    }
}

static size_t some_size(void) {
    const size_t bits = (size_t) rand() % 17;
    return (size_t) rand() & (((size_t) 1 << bits) - 1);
}

/* Puts what a call answered at a place. A block that was refused is as it was. */
static int keep(size_t at, struct tried tried, size_t size) {
    if (!tried.ok) return 0;
    blocks[at].bytes = (uint8_t *) (uintptr_t) tried.block;
    blocks[at].size = size;
    blocks[at].mark = (uint8_t) rand();
    memset(blocks[at].bytes, blocks[at].mark, size);
    return 1;
}

static int turn(size_t at) {
    const size_t size = some_size();
    if (!blocks[at].bytes) return keep(at, rattle_alloc(size, 8), size);
    look(at);
    if (rand() % 3) {
        const size_t kept = size < blocks[at].size ? size : blocks[at].size;
        const struct tried tried = rattle_realloc(blocks[at].bytes, blocks[at].size, size, 8);
        if (!tried.ok) {
            look(at);
            return 0;
        }
        blocks[at].bytes = (uint8_t *) (uintptr_t) tried.block;
        blocks[at].size = kept;
        look(at);
        return keep(at, tried, size);
    }
    rattle_dealloc(blocks[at].bytes);
    blocks[at].bytes = NULL;
    return 1;
}

static size_t turns(void) {
    size_t refused = 0;
    for (size_t at = 0; at < TURNS; at++) refused += !turn((size_t) rand() % BLOCKS);
    for (size_t at = 0; at < BLOCKS; at++) {
        if (blocks[at].bytes) look(at), rattle_dealloc(blocks[at].bytes);
        blocks[at].bytes = NULL;
    }
    return refused;
}

int main(void) {
    if ((uintptr_t) (__heap_base + sizeof __heap_base) > 0xffff0000) fail("the array stands beyond 4 GB: compile with -no-pie");
    for (uint64_t bytes = 1; bytes < 1 << 20; bytes++) {
        const uint64_t size = size_for(bytes);
        if (bytes_of(size) < bytes || (size && bytes_of(size - 1) >= bytes)) fail("a size is not the least that is enough");
    }
    if (size_for(LARGEST) != SIZES - 1 || bytes_of(SIZES - 1) != LARGEST) fail("the largest size is no size");
    if (rattle_alloc(LARGEST + 1, 1).ok || rattle_alloc((uint64_t) 1 << 31, 1).ok || rattle_alloc(UINT64_MAX, 1).ok) fail("more than the largest size is given");
    if (turns()) fail("a growth is refused though there is room");
    const size_t had = pages;
    if (turns() || pages > had + had / 4) fail("what was freed is not given again");
    allowed = pages;
    while (rattle_alloc(40000, 8).ok) continue;
    if (!turns()) fail("a growth is given though there is no room");
    printf("heap: %zu pages\n", had);
    return 0;
}
