/* sizes SEED RUNS <STREAM: feeds the stream in pieces of random sizes, now and then none, each from a block of its own
 * that is let go of at once, and compares the nodes and bytes of all items, and where they stand, with those of the
 * whole stream. */
#include "../gob.h"

#include <stdio.h>
#include <stdlib.h>

struct all {
    unsigned char *bytes;
    size_t size, room;
};

static void put(struct all *all, const void *bytes, size_t count) {
    if (count > all->room - all->size) {
        all->room = 2 * all->room + count;
        all->bytes = realloc(all->bytes, all->room);
        if (all->bytes == NULL) abort();
    }
    if (count != 0) memcpy(all->bytes + all->size, bytes, count);
    all->size += count;
}

static void items(gob_reader *r, struct all *all, int by_take) {
    gob_item item;
    gob_batch batch;
    if (by_take) {
        while (gob_take(r, &batch) == 1)
            for (uint64_t i = 0; i < batch.items; i++) {
                const gob_head *h = &batch.heads[i];
                uint32_t words[2] = {(uint32_t)h->kind, (uint32_t)h->id};
                put(all, words, sizeof words);
                put(all, &h->begin, 16);
                put(all, batch.nodes + h->node, h->nodes * sizeof(gob_node));
                put(all, batch.bytes + h->byte, h->bytes);
            }
        return;
    }
    while (gob_next(r, &item) == 1) {
        put(all, &item, 8);
        put(all, &item.begin, 16);
        put(all, item.nodes, item.count * sizeof(gob_node));
        put(all, item.bytes, item.size);
    }
}

static uint64_t state;
static uint64_t next(void) {
    state ^= state << 13, state ^= state >> 7, state ^= state << 17;
    return state;
}

int main(int argc, char **argv) {
    size_t runs = argc > 2 ? strtoul(argv[2], NULL, 10) : 100, room = 1 << 26;
    state = 88172645463325252u + (argc > 1 ? strtoul(argv[1], NULL, 10) : 0);
    unsigned char *bytes = malloc(room);
    size_t size = fread(bytes, 1, room, stdin);
    struct all first = {0};
    gob_fault due = {0};
    for (size_t run = 0; run <= runs; run++) {
        struct all all = {0};
        gob_fault fault;
        gob_reader *r = gob_open(NULL, &fault);
        if (r == NULL) return 2;
        int by_take = run & 1;
        size_t most = run == 0 ? size : 1 + next() % (1 + next() % 300);
        for (size_t at = 0; at < size && fault.status == GOB_OK;) {
            size_t count = run == 0 ? size : next() % (most + 1);
            if (count > size - at) count = size - at;
            unsigned char *piece = malloc(count + (count == 0));
            memcpy(piece, bytes + at, count);
            gob_feed(r, piece, count, &fault);
            free(piece);
            items(r, &all, by_take);
            at += count;
        }
        if (fault.status == GOB_OK) gob_finish(r, &fault);
        gob_close(r);
        if (run == 0) first = all, due = fault;
        else {
            int is_same = all.size == first.size && (all.size == 0 || memcmp(all.bytes, first.bytes, all.size) == 0);
            if (!is_same || memcmp(&fault, &due, sizeof due) != 0) {
                printf("run %zu differs: %zu bytes, %zu due; status %u, %u due\n", run, all.size, first.size,
                       fault.status, due.status);
                return 1;
            }
            free(all.bytes);
        }
    }
    free(first.bytes);
    free(bytes);
    printf("%zu runs the same, status %u\n", runs, due.status);
    return 0;
}
