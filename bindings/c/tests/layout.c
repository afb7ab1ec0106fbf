/* Prints each struct of gob.h with its size, and each of its members with its offset and size: a line for each, which
 * the Python package compares with what it declares. */
#include "../gob.h"

#include <stdio.h>

#define STRUCT(name) printf(#name " %zu\n", sizeof(name))
#define MEMBER(name, member) printf(#name "." #member " %zu %zu\n", offsetof(name, member), sizeof(((name *)0)->member))

int main(void) {
    STRUCT(gob_fault);
    MEMBER(gob_fault, status);
    MEMBER(gob_fault, reason);
    MEMBER(gob_fault, id);
    MEMBER(gob_fault, place);
    MEMBER(gob_fault, seen);
    MEMBER(gob_fault, begin);
    STRUCT(gob_limits);
    MEMBER(gob_limits, item);
    MEMBER(gob_limits, depth);
    MEMBER(gob_limits, types);
    MEMBER(gob_limits, stream);
    STRUCT(gob_node);
    MEMBER(gob_node, first);
    MEMBER(gob_node, second);
    MEMBER(gob_node, number);
    MEMBER(gob_node, kind);
    MEMBER(gob_node, named);
    STRUCT(gob_item);
    MEMBER(gob_item, kind);
    MEMBER(gob_item, id);
    MEMBER(gob_item, nodes);
    MEMBER(gob_item, count);
    MEMBER(gob_item, bytes);
    MEMBER(gob_item, size);
    MEMBER(gob_item, begin);
    MEMBER(gob_item, end);
    STRUCT(gob_head);
    MEMBER(gob_head, id);
    MEMBER(gob_head, node);
    MEMBER(gob_head, nodes);
    MEMBER(gob_head, byte);
    MEMBER(gob_head, bytes);
    MEMBER(gob_head, kind);
    MEMBER(gob_head, begin);
    MEMBER(gob_head, end);
    STRUCT(gob_batch);
    MEMBER(gob_batch, heads);
    MEMBER(gob_batch, nodes);
    MEMBER(gob_batch, bytes);
    MEMBER(gob_batch, items);
    MEMBER(gob_batch, node_count);
    MEMBER(gob_batch, byte_count);
    STRUCT(gob_counts);
    MEMBER(gob_counts, items);
    MEMBER(gob_counts, types);
    MEMBER(gob_counts, values);
    MEMBER(gob_counts, bytes);
    STRUCT(gob_writer_fault);
    MEMBER(gob_writer_fault, status);
    MEMBER(gob_writer_fault, reason);
    MEMBER(gob_writer_fault, column);
    MEMBER(gob_writer_fault, text);
    STRUCT(gob_conversion);
    MEMBER(gob_conversion, limits);
    MEMBER(gob_conversion, source);
    MEMBER(gob_conversion, source_count);
    MEMBER(gob_conversion, stream);
    MEMBER(gob_conversion, stream_count);
    MEMBER(gob_conversion, name);
    MEMBER(gob_conversion, renames);
    MEMBER(gob_conversion, rename_count);
    MEMBER(gob_conversion, all);
    STRUCT(gob_left_out);
    MEMBER(gob_left_out, text);
    MEMBER(gob_left_out, size);
    MEMBER(gob_left_out, length);
    return 0;
}
