/* stack MOST: reads slices in slices of many depths, each fed whole, and fails where that took more than MOST bytes of
 * the stack. */
#include "../gob.h"

#include <pthread.h>
#include <stdio.h>
#include <stdlib.h>
#include <string.h>

enum { room = 1 << 20, unused = 0xa5 };

/* type 65: a slice of itself */
static const unsigned char definition[] = {
    0x0d, 0xff, 0x81, 0x02, 0x01, 0x02, 0xff, 0x82, 0x00, 0x01, 0xff, 0x82, 0x00, 0x00,
};
static unsigned char stream[2048];
static size_t size;

/* Makes the stream of one value that is so deep. */
static void make(size_t depth) {
    memcpy(stream, definition, sizeof definition);
    size = sizeof definition;
    size_t count = 3 + depth;
    if (count < 128) stream[size++] = (unsigned char)count;
    else stream[size++] = 0xfe, stream[size++] = (unsigned char)(count >> 8), stream[size++] = (unsigned char)count;
    stream[size++] = 0xff, stream[size++] = 0x82, stream[size++] = 0;
    memset(stream + size, 1, depth - 1);
    size += depth - 1;
    stream[size++] = 0;
}

static void *read_all(void *count) {
    gob_fault fault;
    gob_item item;
    gob_reader *reader = gob_open(NULL, &fault);
    gob_feed(reader, stream, size, &fault);
    while (gob_next(reader, &item) == 1)
        if (item.kind == GOB_VALUE) *(size_t *)count = item.count;
    gob_finish(reader, &fault);
    gob_close(reader);
    return fault.status == GOB_OK ? count : NULL;
}

int main(int argc, char **argv) {
    size_t most = 0, depths[] = { 1, 31, 32, 33, 64, 500, 999 };
    void *stack;
    pthread_attr_t words;
    if (argc != 2 || posix_memalign(&stack, 4096, room) != 0 || pthread_attr_init(&words) != 0
        || pthread_attr_setstack(&words, stack, room) != 0) return 2;
    for (size_t i = 0; i < sizeof depths / sizeof *depths; i++) {
        size_t count = 0, left = 0;
        pthread_t thread;
        void *ended;
        make(depths[i]);
        memset(stack, unused, room);
        if (pthread_create(&thread, &words, read_all, &count) != 0 || pthread_join(thread, &ended) != 0) return 2;
        if (ended == NULL || count != depths[i]) return 1;
        while (((unsigned char *)stack)[left] == unused) left++;
        if (room - left > most) most = room - left;
    }
    printf("%zu bytes of the stack\n", most);
    free(stack);
    return most > strtoul(argv[1], NULL, 10);
}
