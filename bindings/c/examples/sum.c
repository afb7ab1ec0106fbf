/* Sums a field of the structs in a gob stream, where it is an int: sum FIELD <STREAM. The sum wraps around. It is printed
 * where all of the bytes are a stream, and each of its values was looked at: then the status is 0.
 *
 *     cc sum.c $(pkg-config --cflags --libs gob) -o sum
 */
#include <gob.h>

#include <inttypes.h>
#include <stdio.h>

/* Adds the field of each value that is whole: 0, or -1 for want of memory. */
static int add(gob_reader *reader, const char *name, uint64_t *sum) {
    gob_item item;
    int some;
    while ((some = gob_next(reader, &item)) == 1) {
        if (item.kind != GOB_VALUE) continue;
        const gob_item *definition = gob_type(reader, item.id);
        if (definition == NULL) return -1;
        int64_t number = 0;
        gob_as_int(gob_field(definition, item.nodes, name), &number);      /* a field that is absent is zero */
        *sum += (uint64_t)number;
    }
    return some;
}

int main(int argc, char **argv) {
    unsigned char piece[65536];
    size_t count;
    uint64_t sum = 0;
    int some = 0;
    gob_fault fault;
    if (argc != 2) return fprintf(stderr, "usage: sum FIELD <STREAM\n"), 2;
    gob_reader *reader = gob_open(NULL, &fault);
    while (fault.status == GOB_OK && some == 0 && (count = fread(piece, 1, sizeof piece, stdin)) > 0) {
        gob_feed(reader, piece, count, &fault);
        some = add(reader, argv[1], &sum);
    }
    if (fault.status == GOB_OK) gob_finish(reader, &fault);
    gob_close(reader);
    if (some < 0 || fault.status == GOB_NO_MEMORY) return fprintf(stderr, "sum: out of memory\n"), 2;
    if (fault.status != GOB_OK) return fprintf(stderr, "sum: %s\n", gob_reason_name(fault.reason)), 1;
    printf("%" PRId64 "\n", (int64_t)sum);
    return 0;
}
