/* What the translated code runs on: a memory that grows, from which it can't get out, and the operations of WebAssembly
 * that C has otherwise. Nothing here is proved. */
#include <math.h>
#include <stdint.h>
#include <stdlib.h>
#include <string.h>

#if !defined __GNUC__
#error "gob.c asks for gcc, clang, or what has their built-in functions"
#endif
#if __BYTE_ORDER__ != __ORDER_LITTLE_ENDIAN__
#error "gob.c is for little-endian machines: what it hands out has the byte order of the translated code"
#endif

/* The most bytes of a reader's memory. */
#ifndef GOB_MEMORY
#define GOB_MEMORY 0xffff0000u
#endif

/* What is done where the translated code does what WebAssembly forbids, such as reading outside its memory: then the
 * translation is wrong. It must not return. */
#ifndef GOB_TRAP
#define GOB_TRAP() abort()
#endif

typedef uint8_t u8;
typedef int8_t s8;
typedef uint16_t u16;
typedef int16_t s16;
typedef uint32_t u32;
typedef int32_t s32;
typedef uint64_t u64;
typedef int64_t s64;
typedef double f64;

enum { PAGE = 65536 };

/* (which of them are asked for is the translated code's matter) */
#define OPERATION static inline __attribute__((unused))

/* The bytes from 0 up to `size`, which are so many pages, can be used. `room` are had, of which those from `size` up to
 * `zeroed` are 0. */
typedef struct wasm_rt_memory_t {
    u8 *data;
    u64 size, zeroed, room;
    u32 pages;
} wasm_rt_memory_t;

#ifdef GOB_GUARD_PAGES
#include <sys/mman.h>

/* All that an address of 32 bits and an offset of 32 bits reach, which isn't checked: what isn't the memory's can't be
 * touched. */
static const size_t reach = ((size_t)1 << 33) + PAGE;

static int is_made(wasm_rt_memory_t *memory, u64 size) {
    if (memory->data == NULL) {
        void *data = mmap(NULL, reach, PROT_NONE, MAP_PRIVATE | MAP_ANONYMOUS | MAP_NORESERVE, -1, 0);
        if (data == MAP_FAILED) return 0;
        memory->data = data;
    }
    return mprotect(memory->data, size, PROT_READ | PROT_WRITE) == 0;
}

static void let_go(wasm_rt_memory_t *memory) {
    if (memory->data != NULL) munmap(memory->data, reach);
}

#define CHECK(memory, at, count) ((void)0)
#else
/* (calloc needn't touch what it gives, and most of a reader's first room is never used) */
enum { FIRST_ROOM = 2 << 20 };

static int has_space(wasm_rt_memory_t *memory, u64 size) {
    if (size <= memory->room) return 1;
    int is_first = memory->data == NULL;
    u64 room = is_first ? FIRST_ROOM : memory->room + memory->room / 2;
    if (room < size) room = size;
    if (room > GOB_MEMORY) room = GOB_MEMORY;
    if (room > SIZE_MAX) return 0;
    u8 *data = is_first ? calloc((size_t)room, 1) : realloc(memory->data, (size_t)room);
    if (data == NULL) return 0;
    memory->data = data;
    memory->room = room;
    if (is_first) memory->zeroed = room;
    return 1;
}

static int is_made(wasm_rt_memory_t *memory, u64 size) {
    if (!has_space(memory, size)) return 0;
    if (size > memory->zeroed) {
        memset(memory->data + memory->zeroed, 0, (size_t)(size - memory->zeroed));
        memory->zeroed = size;
    }
    return 1;
}

static void let_go(wasm_rt_memory_t *memory) { free(memory->data); }

#define CHECK(memory, at, count) check(memory, at, count)
#endif

OPERATION void trap(void) { GOB_TRAP(); }

OPERATION void check(const wasm_rt_memory_t *memory, u64 at, u64 count) {
    if (__builtin_expect(at + count > memory->size, 0)) trap();
}

/* WebAssembly's memory.grow: how many pages there were, or 2^32 - 1 where there is no room. */
static u32 wasm_rt_grow_memory(wasm_rt_memory_t *memory, u32 pages) {
    u32 before = memory->pages;
    u64 size = ((u64)before + pages) * PAGE;
    if (size > GOB_MEMORY || !is_made(memory, size)) return UINT32_MAX;
    memory->size = size;
    memory->pages = before + pages;
    return before;
}

/* The memory as the translated code is begun with; its `data` is NULL where there is none. */
static void wasm_rt_allocate_memory(wasm_rt_memory_t *memory, u32 pages, u32 most) {
    (void)most;
    memset(memory, 0, sizeof *memory);
    wasm_rt_grow_memory(memory, pages);
}

static void load_data(wasm_rt_memory_t *memory, u64 at, const u8 *from, size_t count) {
    if (memory->data == NULL) return;
    check(memory, at, count);
    memcpy(memory->data + at, from, count);
}

OPERATION void memory_copy(wasm_rt_memory_t *to, wasm_rt_memory_t *from, u32 at, u32 begin, u32 count) {
    check(to, at, count);
    check(from, begin, count);
    memmove(to->data + at, from->data + begin, count);
}

OPERATION void memory_fill(wasm_rt_memory_t *memory, u32 at, u32 byte, u32 count) {
    check(memory, at, count);
    memset(memory->data + at, (int)byte, count);
}

#define LOAD(name, kept, widened, given)                            \
    OPERATION given name(const wasm_rt_memory_t *memory, u64 at) { \
        kept number;                                                \
        CHECK(memory, at, sizeof number);                           \
        memcpy(&number, memory->data + at, sizeof number);          \
        return (given)(widened)number;                              \
    }
#define STORE(name, kept, taken)                                              \
    OPERATION void name(wasm_rt_memory_t *memory, u64 at, taken number) { \
        kept narrowed = (kept)number;                                         \
        CHECK(memory, at, sizeof narrowed);                                   \
        memcpy(memory->data + at, &narrowed, sizeof narrowed);                \
    }

LOAD(i32_load, u32, u32, u32)
LOAD(i64_load, u64, u64, u64)
LOAD(f64_load, f64, f64, f64)
LOAD(i32_load8_s, s8, s32, u32)
LOAD(i64_load8_s, s8, s64, u64)
LOAD(i32_load8_u, u8, u32, u32)
LOAD(i64_load8_u, u8, u64, u64)
LOAD(i32_load16_s, s16, s32, u32)
LOAD(i64_load16_s, s16, s64, u64)
LOAD(i32_load16_u, u16, u32, u32)
LOAD(i64_load16_u, u16, u64, u64)
LOAD(i64_load32_s, s32, s64, u64)
LOAD(i64_load32_u, u32, u64, u64)
STORE(i32_store, u32, u32)
STORE(i64_store, u64, u64)
STORE(f64_store, f64, f64)
STORE(i32_store8, u8, u32)
STORE(i32_store16, u16, u32)
STORE(i64_store8, u8, u64)
STORE(i64_store16, u16, u64)
STORE(i64_store32, u32, u64)

/* The float of these 64 bits. */
OPERATION f64 f64_reinterpret_i64(u64 bits) {
    f64 number;
    memcpy(&number, &bits, sizeof number);
    return number;
}

/* The 64 bits of this float. */
OPERATION u64 i64_reinterpret_f64(f64 number) {
    u64 bits;
    memcpy(&bits, &number, sizeof bits);
    return bits;
}

/* The remainder of signed numbers; that of the least by -1 would overflow in C, and is 0. */
OPERATION u32 I32_REM_S(u32 x, u32 y) {
    if (y == 0) trap();
    return y == UINT32_MAX ? 0 : (u32)((int32_t)x % (int32_t)y);
}

#define TRAP(why) (trap(), 0)
#define UNREACHABLE trap()
#define FUNC_PROLOGUE
#define FUNC_EPILOGUE
#define LIKELY(is) __builtin_expect(!!(is), 1)
#define UNLIKELY(is) __builtin_expect(!!(is), 0)
#define LOAD_DATA(memory, at, from, count) load_data(&(memory), at, from, count)
#define I32_CLZ(x) ((x) != 0 ? (u32)__builtin_clz(x) : 32)
#define I64_CLZ(x) ((x) != 0 ? (u64)__builtin_clzll(x) : 64)
#define I32_CTZ(x) ((x) != 0 ? (u32)__builtin_ctz(x) : 32)
#define I64_CTZ(x) ((x) != 0 ? (u64)__builtin_ctzll(x) : 64)
#define I32_POPCNT(x) ((u32)__builtin_popcount(x))
#define I64_POPCNT(x) ((u64)__builtin_popcountll(x))
#define I32_ROTL(x, by) ((x) << ((by) & 31) | (x) >> ((32 - (by)) & 31))
#define I64_ROTL(x, by) ((x) << ((by) & 63) | (x) >> ((64 - (by)) & 63))
#define I32_ROTR(x, by) ((x) >> ((by) & 31) | (x) << ((32 - (by)) & 31))
#define I64_ROTR(x, by) ((x) >> ((by) & 63) | (x) << ((64 - (by)) & 63))
#define DIV_U(x, y) ((y) != 0 ? (x) / (y) : TRAP(DIV_BY_ZERO))
#define REM_U(x, y) ((y) != 0 ? (x) % (y) : TRAP(DIV_BY_ZERO))
