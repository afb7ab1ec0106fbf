/* The memory that the proved archive asks of its caller. Nothing here is proved. */
#include "raw.h"

#include <stdlib.h>

_Static_assert(sizeof(void *) == 8 && sizeof(size_t) == 8, "the archive is of a machine of 64 bits");

static unsigned char nowhere;

static struct raw_block block(void *at) {
    return (struct raw_block){at != NULL, at != NULL ? at : &nowhere};
}

struct raw_block rattle_alloc(size_t size, size_t align) { return block(malloc(size != 0 ? size : align)); }

struct raw_block rattle_realloc(unsigned char *at, size_t kept, size_t size, size_t align) {
    (void)kept;
    return block(realloc(at, size != 0 ? size : align));
}

void rattle_dealloc(unsigned char *at) { free(at); }
