/* The calls of a writer that is given items, each with what is due of it: bytes are those that Go's encoder writes of
 * the same values. With an argument the items of the standard input are put one by one, and what is written goes to the
 * standard output: items copy <IN >OUT. */
#include "../gob.h"

#include <stdio.h>
#include <stdlib.h>

/* What Go writes of type Point struct{ X, Y int }: the definition, and Point{22, 33}. */
static const unsigned char point[] = {
    0x1f, 0xff, 0x81, 0x03, 0x01, 0x01, 0x05, 'P',  'o',  'i',  'n',  't',  0x01, 0xff, 0x82, 0x00,
    0x01, 0x02, 0x01, 0x01, 'X',  0x01, 0x04, 0x00, 0x01, 0x01, 'Y',  0x01, 0x04, 0x00, 0x00, 0x00,
    0x07, 0xff, 0x82, 0x01, 0x2c, 0x01, 0x42, 0x00,
};
enum { DEFINITION = 32, VALUE = 8 };

static int failed;

#define DUE(what)                                                         \
    do {                                                                  \
        if (!(what)) printf("line %d: %s\n", __LINE__, #what), failed++; \
    } while (0)

static int takes(gob_writer *writer, const void *due, size_t size) {
    const void *bytes;
    size_t count;
    int some = gob_writer_take(writer, &bytes, &count);
    return some == (size != 0) && count == size && (size == 0 || memcmp(bytes, due, size) == 0);
}

static gob_node node(unsigned kind, uint64_t first, uint64_t second) {
    return (gob_node){.first = first, .second = second, .kind = (uint16_t)kind};
}

static gob_node named(unsigned number, gob_node node) {
    node.number = number;
    node.named = 1;
    return node;
}

static gob_item item(uint32_t kind, uint32_t id, const gob_node *nodes, size_t count, const char *bytes) {
    return (gob_item){.kind = kind, .id = id, .nodes = nodes, .count = count, .bytes = (const unsigned char *)bytes,
                      .size = strlen(bytes)};
}

static gob_status put(gob_writer *writer, gob_item given, gob_writer_fault *fault) {
    return gob_writer_put_item(writer, &given, fault);
}

/* The items of a stream, put one by one, are this stream. */
static void streams_are_copied(void) {
    gob_fault fault;
    gob_writer_fault wrong;
    gob_item next;
    gob_reader *reader = gob_open(NULL, &fault);
    gob_writer *writer = gob_writer_open_items(NULL, &wrong);
    DUE(writer != NULL && wrong.status == GOB_OK && takes(writer, NULL, 0));
    DUE(gob_feed(reader, point, sizeof point, &fault) == GOB_OK);
    while (gob_next(reader, &next) == 1) DUE(gob_writer_put_item(writer, &next, &wrong) == GOB_OK);
    DUE(takes(writer, point, sizeof point) && takes(writer, NULL, 0));
    gob_writer_close(writer);
    gob_close(reader);
}

/* Items of one's own. */
static void items_are_written(gob_writer *writer) {
    gob_writer_fault fault;
    gob_node type[] = {node(GOB_STRUCT, 2, 5), node(GOB_TYPE, 0, 1), node(GOB_TYPE, 1, 1)};
    type[1].number = type[2].number = GOB_INT;
    DUE(put(writer, item(GOB_DEFINE, 65, type, 3, "XYPoint"), &fault) == GOB_OK);
    DUE(takes(writer, point, DEFINITION));
    gob_node value[] = {node(GOB_STRUCT, 2, 3), named(0, node(GOB_INT, 44, 0)), named(1, node(GOB_INT, 66, 0))};
    DUE(put(writer, item(GOB_VALUE, 65, value, 3, ""), &fault) == GOB_OK);
    DUE(takes(writer, point + DEFINITION, VALUE));
}

/* What is no value of the type is refused at its node, and the writer goes on. */
static int is_refused(gob_writer *writer, gob_item given, uint64_t column) {
    gob_writer_fault fault;
    return put(writer, given, &fault) == GOB_REFUSED && fault.column == column && fault.text[0] != 0 &&
           takes(writer, NULL, 0);
}

static void wrong_nodes_are_refused(gob_writer *writer) {
    gob_node value[] = {node(GOB_STRUCT, 2, 3), named(0, node(GOB_INT, 44, 0)), named(1, node(GOB_INT, 66, 0))};
    gob_node other[3];
    DUE(is_refused(writer, item(GOB_VALUE, 65, value, 2, ""), 3));
    DUE(is_refused(writer, item(GOB_VALUE, 65, value, 0, ""), 1));
    DUE(is_refused(writer, item(GOB_VALUE, GOB_INT, value, 3, ""), 1));
    for (int wrong = 0; wrong < 7; wrong++) {
        memcpy(other, value, sizeof other);
        if (wrong == 0) other[0].first = 3;
        if (wrong == 1) other[0].second = 2;
        if (wrong == 2) other[0].second = UINT64_MAX;
        if (wrong == 3) other[2].number = 0;
        if (wrong == 4) other[2].number = 2;
        if (wrong == 5) other[2].named = 0;
        if (wrong == 6) other[2].kind = GOB_UINT;
        gob_writer_fault fault;
        DUE(put(writer, item(GOB_VALUE, 65, other, 3, ""), &fault) == GOB_REFUSED && fault.column != 0);
    }
    gob_node text = node(GOB_STRING, 0, 3);
    DUE(is_refused(writer, item(GOB_VALUE, GOB_STRING, &text, 1, "ab"), 1));
    text = node(GOB_STRING, UINT64_MAX, 2);
    DUE(is_refused(writer, item(GOB_VALUE, GOB_STRING, &text, 1, "ab"), 1));
    gob_writer_fault fault;
    DUE(put(writer, item(GOB_VALUE, 66, value, 3, ""), &fault) == GOB_REFUSED);
    DUE(fault.reason == GOB_REASON_UNDEFINED_TYPE && fault.column == 0);
    DUE(put(writer, item(GOB_DEFINE, 65, value, 3, ""), &fault) == GOB_REFUSED);
    DUE(takes(writer, NULL, 0));
}

/* An interface that holds an int, 3, and a string: Go writes the same of []any{3, "a"}. */
static void held_values_are_written(void) {
    static const unsigned char due[] = {0x0c, 0xff, 0x81, 0x02, 0x01, 0x02, 0xff, 0x82, 0x00, 0x01, 0x10, 0x00, 0x00};
    gob_writer_fault fault;
    gob_writer *writer = gob_writer_open_items(NULL, &fault);
    gob_node type[] = {node(GOB_LIST, 0, 0), node(GOB_TYPE, 0, 0)};
    type[1].number = GOB_NIL;
    DUE(put(writer, item(GOB_DEFINE, 65, type, 2, ""), &fault) == GOB_OK && takes(writer, due, sizeof due));
    gob_node value[] = {node(GOB_LIST, 2, 3),    node(GOB_HELD, 2, GOB_INT), node(GOB_HELD, 3, GOB_STRING),
                        node(GOB_STRING, 0, 3),  node(GOB_INT, 6, 0),        node(GOB_STRING, 3, 6),
                        node(GOB_STRING, 9, 1)};
    DUE(put(writer, item(GOB_VALUE, 65, value, 7, "intstringa"), &fault) == GOB_OK);
    DUE(takes(writer, "\x18\xff\x82\x00\x02\x03int\x04\x02\x00\x06\x06string\x0c\x03\x00\x01" "a", 25));
    value[2].first = 1; /* both hold the same nodes */
    DUE(put(writer, item(GOB_VALUE, 65, value, 7, "intstringa"), &fault) == GOB_REFUSED && fault.column == 3);
    value[2] = node(GOB_NIL, 0, 0); /* what is held is left over */
    DUE(put(writer, item(GOB_VALUE, 65, value, 7, "intstringa"), &fault) == GOB_REFUSED && fault.column == 6);
    gob_writer_close(writer);
}

static void misuse_is_answered(gob_writer *writer) {
    gob_writer_fault fault;
    gob_node value = node(GOB_INT, 6, 0);
    gob_item given = item(GOB_VALUE, GOB_INT, &value, 1, "");
    DUE(gob_writer_put_item(NULL, &given, &fault) == GOB_MISUSED && fault.text[0] == 0);
    DUE(gob_writer_put_item(writer, NULL, NULL) == GOB_MISUSED);
    DUE(put(writer, item(3, GOB_INT, &value, 1, ""), &fault) == GOB_MISUSED);
    DUE(put(writer, item(GOB_VALUE, GOB_INT, NULL, 1, ""), &fault) == GOB_MISUSED);
    given.bytes = NULL;
    DUE(put(writer, given, NULL) == GOB_OK && takes(writer, "\x03\x04\x00\x06", 4));
    given.size = 1;
    DUE(put(writer, given, &fault) == GOB_MISUSED);
    given = item(GOB_VALUE, GOB_INT, NULL, 0, "");
    DUE(put(writer, given, &fault) == GOB_REFUSED && fault.column == 1);
    DUE(gob_writer_put_json(writer, "1", 1, &fault) == GOB_MISUSED);
    DUE(gob_writer_open_items(&(gob_limits){0}, &fault) == NULL && fault.status == GOB_BAD_LIMITS);
    gob_writer *json = gob_writer_open("type N int", 10, NULL, &fault);
    given = item(GOB_VALUE, GOB_INT, &value, 1, "");
    DUE(gob_writer_put_item(json, &given, &fault) == GOB_MISUSED);
    gob_writer_close(json);
}

/* Lists in lists: as deep as 1000 they are written, and no deeper. */
static void depth_is_limited(void) {
    gob_writer_fault fault;
    gob_node type[] = {node(GOB_LIST, 0, 0), node(GOB_TYPE, 0, 0)}, value[1001];
    gob_writer *writer = gob_writer_open_items(NULL, &fault);
    type[1].number = 65;
    DUE(put(writer, item(GOB_DEFINE, 65, type, 2, ""), &fault) == GOB_OK);
    for (size_t i = 0; i < 1001; i++) value[i] = node(GOB_LIST, i < 1000, 1001 - i);
    DUE(put(writer, item(GOB_VALUE, 65, value, 1001, ""), &fault) == GOB_REFUSED && fault.column == 1001);
    DUE(put(writer, item(GOB_VALUE, 65, value + 1, 1000, ""), &fault) == GOB_OK);
    gob_writer_close(writer);
}

/* Bytes that stand in several parts count in each of them. */
static void bytes_are_limited(void) {
    gob_writer_fault fault;
    gob_limits limits = {.item = 63, .depth = 9, .types = 9, .stream = 999};
    gob_writer *writer = gob_writer_open_items(&limits, &fault);
    gob_node type[] = {node(GOB_LIST, 0, 0), node(GOB_TYPE, 0, 0)}, value[4] = {node(GOB_LIST, 3, 4)};
    static const char text[] = "twenty bytes of text";
    type[1].number = GOB_STRING;
    DUE(put(writer, item(GOB_DEFINE, 65, type, 2, ""), &fault) == GOB_OK);
    for (size_t i = 1; i < 4; i++) value[i] = node(GOB_STRING, 1, 19);
    DUE(put(writer, item(GOB_VALUE, 65, value, 4, text), &fault) == GOB_REFUSED);
    DUE(fault.reason == GOB_REASON_ITEM_TOO_LONG && fault.column == 0);
    value[3] = node(GOB_STRING, 16, 4);
    DUE(put(writer, item(GOB_VALUE, 65, value, 4, text), &fault) == GOB_OK);
    for (size_t i = 1; i < 4; i++) value[i] = node(GOB_STRING, 1, UINT64_MAX - 1);
    DUE(put(writer, item(GOB_VALUE, 65, value, 4, text), &fault) == GOB_REFUSED);
    gob_writer_close(writer);
}

static int sent(gob_writer *writer) {
    const void *bytes;
    size_t count;
    int some = gob_writer_take(writer, &bytes, &count);
    return some == 0 || (some == 1 && fwrite(bytes, 1, count, stdout) == count);
}

/* 0 where all is copied, 1 where the stream is refused, 2 for want of memory, 3 where an item is. */
static int copied(gob_reader *reader, gob_writer *writer) {
    static unsigned char piece[65536];
    gob_fault fault = {.status = GOB_OK};
    gob_writer_fault wrong;
    gob_item next;
    size_t count;
    int some = 0;
    if (reader == NULL || writer == NULL) return 2;
    while (fault.status == GOB_OK && some == 0 && (count = fread(piece, 1, sizeof piece, stdin)) > 0) {
        gob_feed(reader, piece, count, &fault);
        while ((some = gob_next(reader, &next)) == 1) {
            gob_status status = gob_writer_put_item(writer, &next, &wrong);
            if (status != GOB_OK) return status == GOB_NO_MEMORY ? 2 : 3;
            if (!sent(writer)) return 2;
        }
    }
    if (fault.status == GOB_OK || some < 0) gob_finish(reader, &fault);
    return fault.status == GOB_OK ? 0 : fault.status == GOB_REFUSED ? 1 : 2;
}

static int copy(void) {
    gob_reader *reader = gob_open(NULL, NULL);
    gob_writer *writer = gob_writer_open_items(NULL, NULL);
    int status = copied(reader, writer);
    gob_writer_close(writer);
    gob_close(reader);
    if (status == 2 || fflush(stdout) != 0) return fprintf(stderr, "gob: out of memory\n"), 2;
    return status;
}

int main(int argc, char **argv) {
    (void)argv;
    if (argc > 1) return copy();
    gob_writer *writer = gob_writer_open_items(NULL, NULL);
    streams_are_copied();
    items_are_written(writer);
    wrong_nodes_are_refused(writer);
    held_values_are_written();
    misuse_is_answered(writer);
    depth_is_limited();
    bytes_are_limited();
    gob_writer_close(writer);
    return failed != 0;
}
