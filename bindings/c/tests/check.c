/* What `gob check --go` prints, by a check in pieces, or with `exact` what `gob check` does, and whether gob_check says
 * so of the whole stream: check [PIECE [exact]] <STREAM. Pieces have so many bytes, each in a block of its own. */
#include "../gob.h"

#include <inttypes.h>
#include <stdio.h>
#include <stdlib.h>

static unsigned char *all;
static size_t size, exact;

static int lacks_memory(gob_checker *checker) {
    fprintf(stderr, "gob: out of memory\n");
    gob_check_close(checker);
    free(all);
    return 2;
}

static int read_all(void) {
    size_t room = 1 << 20;
    all = malloc(room);
    for (size_t count; all != NULL && (count = fread(all + size, 1, room - size, stdin)) > 0;) {
        size += count;
        if (size < room) continue;
        unsigned char *grown = realloc(all, room *= 2);
        if (grown == NULL) free(all);
        all = grown;
    }
    return all != NULL;
}

/* Feeds the stream in pieces, and then says that no byte follows. */
static void feed_all(gob_checker *checker, size_t piece, gob_counts *counts, gob_fault *fault) {
    for (size_t at = 0, count; at < size && fault->status == GOB_OK; at += count) {
        count = size - at < piece ? size - at : piece;
        unsigned char *block = malloc(count);
        if (block == NULL) {
            fault->status = GOB_NO_MEMORY;
            return;
        }
        memcpy(block, all + at, count);
        gob_check_feed(checker, block, count, counts, fault);
        free(block);
    }
    if (fault->status == GOB_OK) gob_check_finish(checker, counts, fault);
}

int main(int argc, char **argv) {
    size_t piece = argc > 1 ? strtoul(argv[1], NULL, 10) : 65536;
    gob_counts counts = {0}, whole = {0};
    gob_fault fault, due;
    exact = argc > 2;
    if (!read_all()) return lacks_memory(NULL);
    gob_checker *checker = exact ? gob_check_open_exact(NULL, &fault) : gob_check_open(NULL, &fault);
    if (checker == NULL) return lacks_memory(NULL);
    feed_all(checker, piece, &counts, &fault);
    if (fault.status == GOB_NO_MEMORY) return lacks_memory(checker);
    gob_check_close(checker);
    if (exact) gob_check_exact(all, size, NULL, &whole, &due);
    else gob_check(all, size, NULL, &whole, &due);
    if (due.status == GOB_NO_MEMORY) return lacks_memory(NULL);
    free(all);
    if (memcmp(&fault, &due, sizeof due) != 0 || memcmp(&counts, &whole, sizeof whole) != 0) {
        printf("differs from the whole\n");
        return 3;
    }
    if (fault.status == GOB_OK) {
        printf("ok: %" PRIu64 " items, %" PRIu64 " types, ", counts.items, counts.types);
        printf("%" PRIu64 " bytes\n", counts.bytes);
        return fflush(stdout) != 0 ? 2 : 0;
    }
    fprintf(stderr, "gob: refused %" PRIu32 " %s", fault.reason, gob_reason_name(fault.reason));
    if (gob_speaks_of_id(fault.reason)) fprintf(stderr, "(%" PRIu64 ")", fault.id);
    fprintf(stderr, " at %" PRIu64 " seen %" PRIu64 "\n", fault.place, fault.seen);
    return 1;
}
