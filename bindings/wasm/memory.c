/* The memory that the library asks for in WebAssembly: blocks of sizes that are powers of two, with a list of the free
 * ones of each, over a memory that grows. A block is never split or joined: each reading has a new memory. Nothing here
 * is proved. */
#include "memory.h"

enum { PAGE = 65536, SMALLEST = 4, LISTS = 48, HEAD = 16 };
/* pointers have 32 bits */
#define MOST 0xf0000000ul

/* What stands before a block: the number of its list while it is used, the next free one while it isn't. */
union head {
    uint64_t list;
    union head *next;
};

extern unsigned char __heap_base;
static uint64_t top, end;
static union head *free_blocks[LISTS];

static uint64_t list_of(size_t size) {
    uint64_t list = SMALLEST;
    while ((1ul << list) < size) list++;
    return list;
}

/* So many new bytes at the memory's end; NULL where it can't grow. */
static union head *grown(uint64_t size) {
    if (top == 0) {
        top = ((uint64_t)&__heap_base + HEAD - 1) & ~(uint64_t)(HEAD - 1);
        end = __builtin_wasm_memory_size(0) * PAGE;
    }
    if (end - top < size) {
        uint64_t pages = (size - (end - top) + PAGE - 1) / PAGE;
        /* (-1 comes with 32 bits, as pointers do) */
        if ((uint32_t)__builtin_wasm_memory_grow(0, pages) == (uint32_t)-1) return NULL;
        end += pages * PAGE;
    }
    union head *at = (union head *)top;
    top += size;
    return at;
}

void *malloc(size_t size) {
    if (size > MOST) return NULL;
    uint64_t list = list_of(size + HEAD);
    union head *at = free_blocks[list];
    if (at != NULL) free_blocks[list] = at->next;
    else at = grown(1ul << list);
    if (at == NULL) return NULL;
    at->list = list;
    return (char *)at + HEAD;
}

void free(void *block) {
    if (block == NULL) return;
    union head *at = (union head *)((char *)block - HEAD);
    uint64_t list = at->list;
    at->next = free_blocks[list];
    free_blocks[list] = at;
}

void *calloc(size_t count, size_t size) {
    if (size != 0 && count > SIZE_MAX / size) return NULL;
    void *block = malloc(count * size);
    if (block != NULL) memset(block, 0, count * size);
    return block;
}

void *realloc(void *block, size_t size) {
    if (block == NULL) return malloc(size);
    union head *at = (union head *)((char *)block - HEAD);
    uint64_t all = 1ul << at->list;
    size_t room = all - HEAD;
    if (size <= room) return block;
    /* the last block grows where it stands */
    if ((uint64_t)at + all == top && size <= MOST) {
        uint64_t list = list_of(size + HEAD);
        if (grown((1ul << list) - all) == NULL) return NULL;
        at->list = list;
        return block;
    }
    void *moved = malloc(size);
    if (moved == NULL) return NULL;
    memcpy(moved, block, room);
    free(block);
    return moved;
}

void *memcpy(void *to, const void *from, size_t count) { return __builtin_memcpy(to, from, count); }
void *memmove(void *to, const void *from, size_t count) { return __builtin_memmove(to, from, count); }
void *memset(void *to, int byte, size_t count) { return __builtin_memset(to, byte, count); }

size_t strlen(const char *text) {
    size_t count = 0;
    while (text[count] != 0) count++;
    return count;
}

/* 128 bits times 128 bits, which LLVM calls where it multiplies. It knows such code as a product of 128 bits, for which
 * it would call this again: so it must not look. */
typedef unsigned __int128 uint128_t;

union halves {
    uint128_t whole;
    uint64_t half[2];
};

__attribute__((optnone)) static uint64_t high_of(uint64_t a, uint64_t b) {
    uint64_t a0 = (uint32_t)a, a1 = a >> 32, b0 = (uint32_t)b, b1 = b >> 32;
    uint64_t middle = (a0 * b0 >> 32) + (uint32_t)(a1 * b0) + (uint32_t)(a0 * b1);
    return a1 * b1 + (a1 * b0 >> 32) + (a0 * b1 >> 32) + (middle >> 32);
}

__attribute__((optnone)) uint128_t __multi3(uint128_t a, uint128_t b) {
    union halves one = {a}, other = {b}, product;
    product.half[0] = one.half[0] * other.half[0];
    product.half[1] = high_of(one.half[0], other.half[0]) + one.half[0] * other.half[1] + one.half[1] * other.half[0];
    return product.whole;
}

/* Shifts of 128 bits by fewer, which LLVM calls where it shifts, likewise. */
__attribute__((optnone)) uint128_t __ashlti3(uint128_t number, int by) {
    union halves all = {number}, shifted = {number};
    if (by >= 64) {
        shifted.half[0] = 0;
        shifted.half[1] = all.half[0] << (by - 64);
    } else if (by > 0) {
        shifted.half[0] = all.half[0] << by;
        shifted.half[1] = all.half[1] << by | all.half[0] >> (64 - by);
    }
    return shifted.whole;
}

__attribute__((optnone)) uint128_t __lshrti3(uint128_t number, int by) {
    union halves all = {number}, shifted = {number};
    if (by >= 64) {
        shifted.half[0] = all.half[1] >> (by - 64);
        shifted.half[1] = 0;
    } else if (by > 0) {
        shifted.half[0] = all.half[0] >> by | all.half[1] << (64 - by);
        shifted.half[1] = all.half[1] >> by;
    }
    return shifted.whole;
}
