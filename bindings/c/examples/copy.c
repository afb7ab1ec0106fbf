/* Copies the stream on the standard input to the standard output, but for the values of the type of the name that the
 * argument is, where there is one. Each int of a value that is above 999 becomes 999. Definitions that stood in values
 * stand in front of them. The status is 1 where the stream is refused, and 2 where something isn't written.
 *
 *     cc copy.c $(pkg-config --cflags --libs gob) -o copy
 */
#include <gob.h>

#include <stdio.h>
#include <stdlib.h>

static int send(gob_writer *writer) {
    const void *bytes;
    size_t count;
    int some = gob_writer_take(writer, &bytes, &count);
    return some < 0 || (some == 1 && fwrite(bytes, 1, count, stdout) != count) ? 2 : 0;
}

/* Whether the item is a value of the type of this name. */
static int is_of(gob_reader *reader, const gob_item *item, const char *name) {
    const gob_item *type = item->kind == GOB_VALUE && name != NULL ? gob_type(reader, item->id) : NULL;
    return type != NULL && type->nodes->second == strlen(name) &&
           memcmp(gob_bytes_of(type, type->nodes), name, strlen(name)) == 0;
}

/* A copy of the nodes, in which no int is above 999; NULL for want of memory. */
static gob_node *lowered(const gob_item *item) {
    gob_node *nodes = malloc(item->count * sizeof *nodes);
    if (nodes == NULL) return NULL;
    memcpy(nodes, item->nodes, item->count * sizeof *nodes);
    for (size_t i = 0; i < item->count; i++) {
        if (nodes[i].kind == GOB_INT && gob_int_of(&nodes[i]) > 999) nodes[i].first = 2 * 999;
    }
    return nodes;
}

static int put(gob_writer *writer, gob_item item) {
    gob_writer_fault fault;
    gob_node *nodes = item.kind == GOB_VALUE ? lowered(&item) : NULL;
    if (item.kind == GOB_VALUE && nodes == NULL) return 2;
    if (nodes != NULL) item.nodes = nodes;
    gob_writer_put_item(writer, &item, &fault);
    free(nodes);
    if (fault.status != GOB_OK) fprintf(stderr, "copy: %s\n", fault.text);
    return fault.status == GOB_OK ? send(writer) : 2;
}

static int copy(gob_reader *reader, gob_writer *writer, const char *left_out) {
    static unsigned char piece[65536];
    gob_fault fault = {.status = GOB_OK};
    gob_item item;
    size_t count;
    int some = 0, status = 0;
    while (status == 0 && fault.status == GOB_OK && some == 0 && (count = fread(piece, 1, sizeof piece, stdin)) > 0) {
        gob_feed(reader, piece, count, &fault);
        while (status == 0 && (some = gob_next(reader, &item)) == 1) {
            if (!is_of(reader, &item, left_out)) status = put(writer, item);
        }
    }
    if (status == 0 && (fault.status == GOB_OK || some < 0)) gob_finish(reader, &fault);
    if (fault.status == GOB_REFUSED) fprintf(stderr, "copy: %s\n", gob_reason_name(fault.reason));
    return status != 0 ? status : fault.status == GOB_OK ? 0 : fault.status == GOB_REFUSED ? 1 : 2;
}

int main(int argc, char **argv) {
    gob_reader *reader = gob_open(NULL, NULL);
    gob_writer *writer = gob_writer_open_items(NULL, NULL);
    int status = reader != NULL && writer != NULL ? copy(reader, writer, argc > 1 ? argv[1] : NULL) : 2;
    gob_writer_close(writer);
    gob_close(reader);
    return fflush(stdout) == 0 ? status : 2;
}
