/* threads N <STREAM: the stream by N readers in N threads at once, each in pieces of another size. All find as many
 * items. */
#include "../gob.h"

#include <pthread.h>
#include <stdio.h>
#include <stdlib.h>

static unsigned char *bytes;
static size_t size;

static void *run(void *at) {
    size_t piece = 1 + 37 * (size_t)at, items = 0;
    gob_fault fault;
    gob_reader *r = gob_open(NULL, &fault);
    if (r == NULL) return (void *)0;
    gob_item item;
    for (size_t i = 0; i < size && fault.status == GOB_OK; i += piece) {
        gob_feed(r, bytes + i, size - i < piece ? size - i : piece, &fault);
        while (gob_next(r, &item) == 1) items++;
    }
    gob_close(r);
    return (void *)items;
}

int main(int argc, char **argv) {
    size_t n = argc > 1 ? strtoul(argv[1], NULL, 10) : 8, room = 1 << 26;
    bytes = malloc(room);
    size = fread(bytes, 1, room, stdin);
    pthread_t *threads = calloc(n, sizeof *threads);
    for (size_t i = 0; i < n; i++)
        if (pthread_create(&threads[i], NULL, run, (void *)i) != 0) return 1;
    size_t first = 0, differ = 0;
    for (size_t i = 0; i < n; i++) {
        void *items;
        pthread_join(threads[i], &items);
        if (i == 0) first = (size_t)items;
        if ((size_t)items != first) differ++;
        printf("%zu%c", (size_t)items, i + 1 < n ? ' ' : '\n');
    }
    free(threads);
    free(bytes);
    return first == 0 || differ != 0;
}
