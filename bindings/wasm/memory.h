/* What gob.h, raw.h, gob.c and heap.c ask of the headers of a C library, for WebAssembly; `build` gives it their
 * names. */
#ifndef GOB_WASM_MEMORY_H
#define GOB_WASM_MEMORY_H

typedef __SIZE_TYPE__ size_t;
typedef __UINT16_TYPE__ uint16_t;
typedef __UINT32_TYPE__ uint32_t;
typedef __INT64_TYPE__ int64_t;
typedef __UINT64_TYPE__ uint64_t;
#define NULL ((void *)0)
#define SIZE_MAX __SIZE_MAX__
#define bool _Bool
#define false 0
#define true 1

void *malloc(size_t size);
void *calloc(size_t count, size_t size);
void *realloc(void *at, size_t size);
void free(void *at);
void *memcpy(void *to, const void *from, size_t count);
void *memmove(void *to, const void *from, size_t count);
void *memset(void *to, int byte, size_t count);
int memcmp(const void *one, const void *other, size_t count);
size_t strlen(const char *text);

#endif
