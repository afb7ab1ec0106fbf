/* cost PARTS MOST: reads a slice of so many ints of a byte each, and fails where more than MOST bytes of memory were
 * taken for each of them. */
#include "../gob.h"

#include <stdio.h>
#include <stdlib.h>
#include <sys/resource.h>

static const unsigned char definition[] = {
    0x0c, 0xff, 0x81, 0x02, 0x01, 0x02, 0xff, 0x82, 0x00, 0x01, 0x04, 0x00, 0x00,
};

/* Puts a number of 128 or more: the first byte says how many follow. */
static size_t put(unsigned char *at, size_t number) {
    size_t bytes = 1;
    while (number >> (8 * bytes) != 0) bytes++;
    at[0] = (unsigned char)(256 - bytes);
    for (size_t i = 0; i < bytes; i++) at[1 + i] = (unsigned char)(number >> (8 * (bytes - 1 - i)));
    return 1 + bytes;
}

static double taken(void) {
    struct rusage usage;
    getrusage(RUSAGE_SELF, &usage);
    return 1024.0 * usage.ru_maxrss;
}

int main(int argc, char **argv) {
    if (argc != 3) return 2;
    size_t parts = strtoul(argv[1], NULL, 10);
    static unsigned char piece[65536];
    unsigned char head[24], count_of[9];
    gob_fault fault;
    gob_item item;
    gob_reader *reader = gob_open(NULL, &fault);
    double before = taken();
    size_t size = put(head, 3 + put(count_of, parts) + parts);
    head[size++] = 0xff, head[size++] = 0x82, head[size++] = 0;
    size += put(head + size, parts);
    gob_feed(reader, definition, sizeof definition, &fault);
    gob_feed(reader, head, size, &fault);
    memset(piece, 2, sizeof piece);
    for (size_t left = parts, count; left != 0 && fault.status == GOB_OK; left -= count) {
        count = left < sizeof piece ? left : sizeof piece;
        gob_feed(reader, piece, count, &fault);
    }
    int some = gob_next(reader, &item) == 1 && gob_next(reader, &item) == 1 && item.count == parts + 1;
    double each = (taken() - before) / (double)parts;
    printf("%zu parts, %.1f bytes for each\n", parts, each);
    int ended = gob_finish(reader, &fault) == GOB_OK;
    gob_close(reader);
    return !(some && ended && each <= atof(argv[2]));
}
