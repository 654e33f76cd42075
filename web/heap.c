/* The heap of the module for WebAssembly. No proof covers this file; what the proofs suppose of a heap stands at its functions.
 *
 * Memory only grows. A block has one of a few sizes, and one that is freed is kept for the next of its size: sizes are 32 bytes
 * and up, four for each doubling. So a block wastes at most a fifth, and each call takes a few instructions, whatever came before.
 * A pointer has four bytes here, and the proved code counts bytes in eight. */
typedef __UINT8_TYPE__ uint8_t;
typedef __UINT32_TYPE__ uint32_t;
typedef __UINT64_TYPE__ uint64_t;
typedef __UINTPTR_TYPE__ uintptr_t;

#ifndef HEAP_BASE_IS_GIVEN
extern uint8_t __heap_base[];
#endif

enum { HEAD = 16, LEAST = 5, SIZES = 4 * (31 - LEAST) };

/* The bytes of the largest size. Where pointers have 32 bits, clang supposes that no object has 2^31 bytes. */
#define LARGEST ((uint64_t) 7 << 28)

/* What stands before a block: the next free one of its size while it is free, and which size it has. */
struct head {
    uint64_t next, size;
};

/* Whether there is a block, and where. If there is none, the pointer owns nothing, but it is not null. */
struct tried {
    uint64_t ok, block;
};

struct tried rattle_alloc(uint64_t size, uint64_t align);
struct tried rattle_realloc(void *block, uint64_t kept, uint64_t size, uint64_t align);
void rattle_dealloc(void *block);

static uint64_t spare[SIZES];
static uint64_t top;
static uint8_t nowhere[16];

/* The bytes of a size: 32, 40, 48, 56, 64, 80 and so on. */
static uint64_t bytes_of(uint64_t size) {
    return (uint64_t) (4 + size % 4) << (LEAST - 2 + size / 4);
}

/* The least size that has so many bytes, at most LARGEST. */
static uint64_t size_for(uint64_t bytes) {
    if (bytes <= 1 << LEAST) return 0;
    const uint64_t log = 63 - (uint64_t) __builtin_clzll(bytes - 1);
    return 4 * (log - LEAST) + ((bytes - 1) >> (log - 2)) - 3;
}

static struct head *at(uint64_t place) {
    return (struct head *) (uintptr_t) place;
}

/* A block behind all others, or NULL. */
static void *grown(uint64_t size) {
    if (!top) top = ((uint64_t) (uintptr_t) __heap_base + 15) & ~(uint64_t) 15;
    const uint64_t end = top + HEAD + ((bytes_of(size) + 15) & ~(uint64_t) 15), have = (uint64_t) __builtin_wasm_memory_size(0) << 16;
    if (end > 0xffff0000) return 0;
    if (end > have && __builtin_wasm_memory_grow(0, (uintptr_t) ((end - have + 65535) >> 16)) == (uintptr_t) -1) return 0;
    struct head *head = at(top);
    head->size = size;
    top = end;
    return head + 1;
}

static void *take(uint64_t bytes) {
    if (bytes > LARGEST) return 0;
    const uint64_t size = size_for(bytes), place = spare[size];
    if (!place) return grown(size);
    spare[size] = at(place)->next;
    return at(place) + 1;
}

static struct tried tried(void *block) {
    return (struct tried) {block != 0, (uintptr_t) (block ? block : nowhere)};
}

/* A new block for size bytes, aligned to align, which divides 16. */
struct tried rattle_alloc(uint64_t size, uint64_t align) {
    return tried(take(size ? size : align));
}

/* The block, with size bytes. The first kept bytes are as they were; if there is no room, the block is as it was. */
struct tried rattle_realloc(void *block, uint64_t kept, uint64_t size, uint64_t align) {
    const uint64_t had = bytes_of(((struct head *) block - 1)->size);
    (void) align;
    if (size <= had && size > had / 4) return tried(block);
    void *other = take(size ? size : align);
    if (!other) return tried(size <= had ? block : 0);
    __builtin_memcpy(other, block, kept < size ? kept : size);
    rattle_dealloc(block);
    return tried(other);
}

/* Frees what one of these two gave. */
void rattle_dealloc(void *block) {
    struct head *head = (struct head *) block - 1;
    head->next = spare[head->size];
    spare[head->size] = (uintptr_t) head;
}

/* Blocks for the page: its inputs, and the answers that it has read. */
void *page_take(uint64_t size) {
    return take(size ? size : 1);
}

void page_give(void *block) {
    rattle_dealloc(block);
}
