/* Prints the values of a gob stream, as Go would write them: print <STREAM. The status is 0 exactly where all of the
 * bytes are a stream, and each of its values was printed.
 *
 *     cc print.c $(pkg-config --cflags --libs gob) -o print
 */
#include <gob.h>

#include <inttypes.h>
#include <stdio.h>
#include <stdlib.h>

/* Text or a name. What isn't printable ASCII is escaped, since a terminal might obey it. */
static void put_bytes(const gob_item *item, const gob_node *node) {
    const unsigned char *bytes = gob_bytes_of(item, node);
    for (uint64_t i = 0; i < node->second; i++) {
        if (bytes[i] < ' ' || bytes[i] > '~') printf("\\x%02x", bytes[i]);
        else if (bytes[i] == '"' || bytes[i] == '\\') printf("\\%c", bytes[i]);
        else putchar(bytes[i]);
    }
}

static void put_hex(const gob_item *item, const gob_node *node) {
    for (uint64_t i = 0; i < node->second; i++) printf("%02x", gob_bytes_of(item, node)[i]);
}

static int out_of_memory(void) {
    fflush(stdout);
    fprintf(stderr, "print: out of memory\n");
    return 2;
}

/* The definition of a type that a value has. There is one: only memory may be wanting. */
static const gob_item *definition_of(gob_reader *reader, uint32_t type) {
    const gob_item *definition = gob_type(reader, type);
    if (definition == NULL) exit(out_of_memory());
    return definition;
}

static const gob_node *put(gob_reader *reader, const gob_item *item, const gob_node *node, uint32_t type);

/* The parts of a part, and what stands behind them. */
static const gob_node *put_parts(gob_reader *reader, const gob_item *item, const gob_node *node, uint32_t type) {
    const gob_item *definition = definition_of(reader, type);
    const gob_node *part = node + 1;
    for (uint64_t i = 0; i < node->first; i++) {
        if (i > 0) printf(", ");
        if (node->kind == GOB_STRUCT) {
            const gob_node *field = &definition->nodes[1 + part->number];
            put_bytes(definition, field);
            printf(": ");
            part = put(reader, item, part, field->number);
            continue;
        }
        part = put(reader, item, part, definition->nodes[1].number);
        if (node->kind == GOB_MAP) {
            printf(": ");
            part = put(reader, item, part, definition->nodes[2].number);
        }
    }
    return part;
}

/* A part, whose type this is. The answer is the node behind it. */
static const gob_node *put(gob_reader *reader, const gob_item *item, const gob_node *node, uint32_t type) {
    switch (node->kind) {
    case GOB_BOOL: printf(node->first != 0 ? "true" : "false"); break;
    case GOB_INT: printf("%" PRId64, gob_int_of(node)); break;
    case GOB_UINT: printf("%" PRIu64, node->first); break;
    case GOB_FLOAT: printf("%.17g", gob_float_of(node)); break;
    case GOB_COMPLEX: printf("(%.17g%+.17gi)", gob_double(node->first), gob_double(node->second)); break;
    case GOB_NIL: printf("nil"); break;
    case GOB_HELD:
        put_bytes(item, gob_held_name(node)), putchar('(');
        put(reader, item, gob_held(node), (uint32_t)node->second);
        putchar(')');
        break;
    case GOB_STRING: putchar('"'), put_bytes(item, node), putchar('"'); break;
    case GOB_BYTES: printf("0x"), put_hex(item, node); break;
    case GOB_OPAQUE: printf("opaque 0x"), put_hex(item, node); break;
    default:
        putchar('{');
        node = put_parts(reader, item, node, type);
        putchar('}');
        return node;
    }
    return node + 1;
}

int main(void) {
    unsigned char piece[65536];
    size_t count;
    gob_fault fault;
    gob_item item;
    int some = 0;
    gob_reader *reader = gob_open(NULL, &fault);
    while (fault.status == GOB_OK && some == 0 && (count = fread(piece, 1, sizeof piece, stdin)) > 0) {
        gob_feed(reader, piece, count, &fault);
        while ((some = gob_next(reader, &item)) == 1) {
            if (item.kind != GOB_VALUE) continue;
            put(reader, &item, item.nodes, item.id);
            putchar('\n');
        }
    }
    if (fault.status == GOB_OK || some < 0) gob_finish(reader, &fault);
    gob_close(reader);
    if (fault.status == GOB_NO_MEMORY) return out_of_memory();
    if (fault.status == GOB_REFUSED) {
        fprintf(stderr, "print: %s at byte %" PRIu64 "\n", gob_reason_name(fault.reason), fault.place);
    }
    return fault.status != GOB_OK;
}
