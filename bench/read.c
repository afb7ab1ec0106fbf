/* read <STREAM: goes through all nodes of all items by the C library, and prints what they sum up to. */
#include <gob.h>

#include <inttypes.h>
#include <stdio.h>

int main(void) {
    static unsigned char piece[65536];
    uint64_t values = 0, nodes = 0, bytes = 0;
    int64_t sum = 0;
    double total = 0;
    size_t count;
    gob_fault fault;
    gob_item item;
    gob_reader *reader = gob_open(NULL, &fault);
    while (fault.status == GOB_OK && (count = fread(piece, 1, sizeof piece, stdin)) > 0) {
        gob_feed(reader, piece, count, &fault);
        while (gob_next(reader, &item) == 1) {
            if (item.kind != GOB_VALUE) continue;
            values++;
            nodes += item.count;
            for (const gob_node *node = item.nodes, *end = node + item.count; node != end; node++) {
                if (node->kind == GOB_INT) sum += gob_int_of(node);
                if (node->kind == GOB_FLOAT) total += gob_float_of(node);
                if (node->kind == GOB_STRING) bytes += node->second;
            }
        }
    }
    if (fault.status == GOB_OK) gob_finish(reader, &fault);
    gob_close(reader);
    printf("%" PRIu64 " values, %" PRIu64 " nodes, %" PRIu64 " bytes of text, ints %" PRId64 ", floats %g\n", values, nodes,
           bytes, sum, total);
    return fault.status != GOB_OK;
}
