/* The calls of gob.h, each with what is due of it, worked out by hand: the members of each struct that the library
 * writes, readers used after a fault, let go of in the middle of a stream, and by gob_next and gob_take in turn. */
#include "../gob.h"

#include <stdio.h>
#include <stdlib.h>

/* type Point struct{ X, Y int }, and the value Point{22, 33} */
static const unsigned char point[] = {
    0x1f, 0xff, 0x81, 0x03, 0x01, 0x01, 0x05, 'P',  'o',  'i',  'n',  't',  0x01, 0xff, 0x82, 0x00,
    0x01, 0x02, 0x01, 0x01, 'X',  0x01, 0x04, 0x00, 0x01, 0x01, 'Y',  0x01, 0x04, 0x00, 0x00, 0x00,
    0x07, 0xff, 0x82, 0x01, 0x2c, 0x01, 0x42, 0x00,
};
enum { DEFINITION = 32 };

/* type Outer struct{ N int; I any; M int }, and the value Outer{4, Pair{Reg{3}, Reg{4}}, 5}, in which the types Reg
 * and Pair are defined, Reg first */
static const unsigned char held[] = {
    0x25, 0xff, 0x81, 0x03, 0x01, 0x01, 0x05, 'O',  'u',  't',  'e',  'r',  0x01, 0xff, 0x82, 0x00,
    0x01, 0x03, 0x01, 0x01, 'N',  0x01, 0x04, 0x00, 0x01, 0x01, 'I',  0x01, 0x10, 0x00, 0x01, 0x01,
    'M',  0x01, 0x04, 0x00, 0x00, 0x00,
    0x26, 0xff, 0x82, 0x01, 0x08, 0x01, 0x09, 'm',  'a',  'i',  'n',  '.',  'P',  'a',  'i',  'r',
    0xff, 0x85, 0x03, 0x01, 0x01, 0x03, 'R',  'e',  'g',  0x01, 0xff, 0x86, 0x00, 0x01, 0x01, 0x01,
    0x01, 'A',  0x01, 0x04, 0x00, 0x00, 0x00,
    0x20, 0xff, 0x83, 0x03, 0x01, 0x01, 0x04, 'P',  'a',  'i',  'r',  0x01, 0xff, 0x84, 0x00, 0x01,
    0x02, 0x01, 0x01, 'A',  0x01, 0xff, 0x86, 0x00, 0x01, 0x01, 'B',  0x01, 0xff, 0x86, 0x00, 0x00,
    0x00,
    0x0f, 0xff, 0x84, 0x09, 0x01, 0x01, 0x06, 0x00, 0x01, 0x01, 0x08, 0x00, 0x00, 0x01, 0x0a, 0x00,
};

static int failed;

#define DUE(what)                                                         \
    do {                                                                  \
        if (!(what)) printf("line %d: %s\n", __LINE__, #what), failed++; \
    } while (0)

static int is_node(const gob_node *node, uint32_t kind, uint64_t number, uint64_t first, uint64_t second,
                   uint32_t named) {
    return node->kind == kind && node->number == number && node->first == first && node->second == second &&
           node->named == named;
}

static int is_refused(const gob_fault *fault, uint32_t reason, uint64_t id, uint64_t place, uint64_t seen,
                      uint64_t begin) {
    return fault->status == GOB_REFUSED && fault->reason == reason && fault->id == id && fault->place == place &&
           fault->seen == seen && fault->begin == begin;
}

/* A status alone. */
static int is_fault(const gob_fault *fault, uint32_t status) {
    return fault->status == status && fault->reason == 0 && fault->id == 0 && fault->place == 0 && fault->seen == 0 &&
           fault->begin == 0;
}

static void due_definition(const gob_item *item) {
    DUE(item->kind == GOB_DEFINE && item->id == 65 && item->count == 3 && item->size == 7);
    DUE(memcmp(item->bytes, "PointXY", 7) == 0);
    DUE(is_node(&item->nodes[0], GOB_STRUCT, 0, 0, 5, 0));
    DUE(is_node(&item->nodes[1], GOB_TYPE, 2, 5, 1, 0));
    DUE(is_node(&item->nodes[2], GOB_TYPE, 2, 6, 1, 0));
}

static void items_are_due(void) {
    gob_fault fault;
    gob_item item;
    gob_reader *reader = gob_open(NULL, &fault);
    DUE(reader != NULL && is_fault(&fault, GOB_OK));
    DUE(gob_type(reader, 65) == NULL);
    DUE(gob_next(reader, &item) == 0);
    DUE(gob_feed(reader, NULL, 0, &fault) == GOB_OK);
    DUE(gob_feed(reader, point, sizeof point, &fault) == GOB_OK && is_fault(&fault, GOB_OK));
    DUE(gob_next(reader, &item) == 1);
    due_definition(&item);
    DUE(item.begin == 0 && item.end == 32);
    DUE(gob_next(reader, &item) == 1);
    DUE(item.kind == GOB_VALUE && item.id == 65 && item.count == 3 && item.size == 0);
    DUE(item.begin == 32 && item.end == 40);
    DUE(is_node(&item.nodes[0], GOB_STRUCT, 0, 2, 3, 0));
    DUE(is_node(&item.nodes[1], GOB_INT, 0, 44, 0, 1) && gob_int_of(&item.nodes[1]) == 22);
    DUE(is_node(&item.nodes[2], GOB_INT, 1, 66, 0, 1) && gob_int_of(&item.nodes[2]) == 33);
    DUE(gob_after(item.nodes) == item.nodes + 3);
    DUE(gob_next(reader, &item) == 0);
    due_definition(gob_type(reader, 65));
    DUE(gob_type(reader, 65) == gob_type(reader, 65));
    DUE(gob_type(reader, 66) == NULL);
    DUE(gob_type(reader, 23)->count == 4 && memcmp(gob_type(reader, 23)->bytes, "mapType", 7) == 0);
    DUE(gob_finish(reader, &fault) == GOB_OK);
    gob_close(reader);
}

static void batches_are_due(void) {
    gob_fault fault;
    gob_item item;
    gob_batch batch;
    gob_reader *reader = gob_open(NULL, &fault);
    gob_feed(reader, point, sizeof point, &fault);
    DUE(gob_next(reader, &item) == 1 && item.kind == GOB_DEFINE);
    DUE(gob_take(reader, &batch) == 1);
    DUE(batch.items == 1 && batch.node_count == 6 && batch.byte_count == 7);
    DUE(batch.heads->id == 65 && batch.heads->node == 3 && batch.heads->nodes == 3);
    DUE(batch.heads->byte == 7 && batch.heads->bytes == 0 && batch.heads->kind == GOB_VALUE);
    DUE(batch.heads->begin == 32 && batch.heads->end == 40);
    DUE(gob_take(reader, &batch) == 0 && batch.items == 0);
    DUE(gob_next(reader, &item) == 0);
    gob_feed(reader, point + DEFINITION, sizeof point - DEFINITION, &fault);
    DUE(gob_take(reader, &batch) == 1 && batch.items == 1);
    gob_close(reader);
}

static int stands(const gob_item *item, uint32_t kind, uint32_t id, uint64_t begin, uint64_t end) {
    return item->kind == kind && item->id == id && item->begin == begin && item->end == end;
}

/* What an interface holds stands behind the value around it, and the definitions in a value in front of it. */
static void held_is_due(void) {
    gob_fault fault;
    gob_item item;
    gob_reader *reader = gob_open(NULL, &fault);
    DUE(gob_feed(reader, held, sizeof held, &fault) == GOB_OK);
    DUE(gob_next(reader, &item) == 1 && stands(&item, GOB_DEFINE, 65, 0, 38));
    DUE(gob_next(reader, &item) == 1 && stands(&item, GOB_DEFINE, 67, 38, sizeof held));
    DUE(item.count == 2 && item.size == 4 && memcmp(item.bytes, "RegA", 4) == 0);
    DUE(gob_next(reader, &item) == 1 && stands(&item, GOB_DEFINE, 66, 38, sizeof held));
    DUE(gob_next(reader, &item) == 1 && stands(&item, GOB_VALUE, 65, 38, sizeof held));
    DUE(item.count == 10 && item.size == 9 && memcmp(item.bytes, "main.Pair", 9) == 0);
    DUE(is_node(&item.nodes[0], GOB_STRUCT, 0, 3, 4, 0));
    DUE(is_node(&item.nodes[1], GOB_INT, 0, 8, 0, 1));
    DUE(is_node(&item.nodes[2], GOB_HELD, 1, 2, 66, 1));
    DUE(is_node(&item.nodes[3], GOB_INT, 2, 10, 0, 1));
    DUE(gob_after(item.nodes) == item.nodes + 4 && gob_after(&item.nodes[2]) == &item.nodes[3]);
    DUE(gob_held_name(&item.nodes[2]) == &item.nodes[4] && is_node(&item.nodes[4], GOB_STRING, 0, 0, 9, 0));
    DUE(gob_held(&item.nodes[2]) == &item.nodes[5] && is_node(&item.nodes[5], GOB_STRUCT, 0, 2, 5, 0));
    DUE(is_node(&item.nodes[6], GOB_STRUCT, 0, 1, 2, 1) && is_node(&item.nodes[7], GOB_INT, 0, 6, 0, 1));
    DUE(is_node(&item.nodes[8], GOB_STRUCT, 1, 1, 2, 1) && is_node(&item.nodes[9], GOB_INT, 0, 8, 0, 1));
    DUE(gob_next(reader, &item) == 0 && gob_finish(reader, &fault) == GOB_OK);
    DUE(gob_type(reader, 66)->count == 3 && gob_type(reader, 67)->count == 2);
    gob_close(reader);
    reader = gob_open_exact(NULL, &fault);
    DUE(gob_feed(reader, held, sizeof held, &fault) == GOB_REFUSED && is_refused(&fault, 16, 0, 44, 45, 38));
    gob_close(reader);
}

/* A delta of 3 leads to no field: the byte at 35 is refused, and shows it. */
static void faults_are_due(void) {
    gob_fault fault;
    gob_item item;
    unsigned char wrong[sizeof point];
    memcpy(wrong, point, sizeof point);
    wrong[35] = 3;
    gob_reader *reader = gob_open(NULL, &fault);
    DUE(gob_feed(reader, wrong, sizeof wrong, &fault) == GOB_REFUSED);
    DUE(is_refused(&fault, 15, 0, 35, 36, 32));
    DUE(strcmp(gob_reason_name(fault.reason), "FieldNumber") == 0 && !gob_speaks_of_id(fault.reason));
    DUE(gob_feed(reader, point, sizeof point, &fault) == GOB_FAILED && is_fault(&fault, GOB_FAILED));
    DUE(gob_finish(reader, &fault) == GOB_FAILED);
    DUE(gob_next(reader, &item) == 1);
    due_definition(&item);
    due_definition(gob_type(reader, 65));
    DUE(gob_next(reader, &item) == 0);
    gob_close(reader);
    reader = gob_open(NULL, &fault);
    gob_feed(reader, point + DEFINITION, 3, &fault);
    DUE(is_refused(&fault, 10, 65, 1, 3, 0) && gob_speaks_of_id(fault.reason));
    gob_close(reader);
    reader = gob_open(NULL, &fault);
    gob_feed(reader, point, sizeof point - 1, &fault);
    DUE(gob_finish(reader, &fault) == GOB_REFUSED && is_refused(&fault, 22, 0, 39, 39, 32));
    DUE(gob_finish(reader, &fault) == GOB_FAILED);
    gob_close(reader);
    gob_close(NULL);
}

static void limits_are_due(void) {
    static const gob_limits wrong[] = {{9, 0, 9, 9}, {9, 65537, 9, 9}, {9, 9, 9, (uint64_t)1 << 63}};
    static const gob_limits widest = {UINT64_MAX, 65536, UINT64_MAX, ((uint64_t)1 << 63) - 1}, narrow = {30, 9, 9, 99};
    gob_fault fault;
    gob_counts counts = {7, 7, 7, 7};
    for (int i = 0; i < 3; i++) {
        DUE(gob_open(&wrong[i], &fault) == NULL && is_fault(&fault, GOB_BAD_LIMITS));
        DUE(gob_check_open(&wrong[i], &fault) == NULL && is_fault(&fault, GOB_BAD_LIMITS));
        DUE(gob_check_open_exact(&wrong[i], NULL) == NULL);
        DUE(gob_check(point, sizeof point, &wrong[i], &counts, &fault) == GOB_BAD_LIMITS);
    }
    DUE(counts.items == 7 && counts.types == 7);
    gob_reader *reader = gob_open(&widest, &fault);
    DUE(reader != NULL && gob_feed(reader, point, sizeof point, &fault) == GOB_OK);
    gob_close(reader);
    reader = gob_open(&narrow, &fault);
    DUE(gob_feed(reader, point, sizeof point, &fault) == GOB_REFUSED && is_refused(&fault, 3, 0, 0, 1, 0));
    gob_close(reader);
    gob_checker *checker = gob_check_open(&narrow, &fault);
    DUE(gob_check_feed(checker, point, 1, &counts, &fault) == GOB_REFUSED && is_refused(&fault, 3, 0, 0, 1, 0));
    gob_check_close(checker);
}

static int are_counts(const gob_counts *counts, uint64_t items, uint64_t types, uint64_t values, uint64_t bytes) {
    return counts->items == items && counts->types == types && counts->values == values && counts->bytes == bytes;
}

static void counts_are_due(void) {
    gob_fault fault;
    gob_counts counts = {7, 7, 7, 7};
    DUE(gob_check(NULL, 0, NULL, &counts, &fault) == GOB_OK && are_counts(&counts, 0, 0, 0, 0));
    DUE(gob_check(point, sizeof point, NULL, &counts, &fault) == GOB_OK && are_counts(&counts, 2, 1, 1, 40));
    DUE(gob_check(point, 36, NULL, &counts, &fault) == GOB_REFUSED && is_refused(&fault, 22, 0, 36, 36, 32));
    DUE(are_counts(&counts, 1, 1, 0, 32));
    DUE(gob_check_exact(point, sizeof point, NULL, &counts, &fault) == GOB_OK && are_counts(&counts, 2, 1, 1, 40));
    DUE(gob_check(held, sizeof held, NULL, &counts, &fault) == GOB_OK && are_counts(&counts, 2, 3, 1, sizeof held));
    DUE(gob_check_exact(held, sizeof held, NULL, &counts, &fault) == GOB_REFUSED);
    DUE(is_refused(&fault, 16, 0, 44, 45, 38) && are_counts(&counts, 1, 1, 0, 38));
    DUE(gob_abi() == GOB_ABI);
    DUE(strcmp(gob_version(), GOB_VERSION) == 0);
    DUE(strcmp(gob_reason_name(0), "") == 0 && strcmp(gob_reason_name(23), "") == 0);
    DUE(strcmp(gob_reason_text(0), "") == 0 && strcmp(gob_reason_text(23), "") == 0);
    DUE(strcmp(gob_reason_name(GOB_REASON_ENDED), "Ended") == 0 && GOB_REASON_ENDED == 22);
    DUE(strcmp(gob_reason_text(GOB_REASON_FIELD_NUMBER), "A struct has no such field.") == 0);
}

static const size_t pieces[] = {SIZE_MAX, 1, 7, 4096};

/* The bytes in pieces of this size, and the end behind them. */
static void check_pieces(gob_checker *checker, const unsigned char *bytes, size_t size, size_t piece,
                         gob_counts *counts, gob_fault *fault) {
    fault->status = GOB_OK;
    for (size_t at = 0, count; at < size && fault->status == GOB_OK; at += count) {
        count = size - at < piece ? size - at : piece;
        gob_check_feed(checker, bytes + at, count, counts, fault);
    }
    if (fault->status == GOB_OK) gob_check_finish(checker, counts, fault);
}

/* In any pieces a check tells of a stream what gob_check tells of the whole of it. */
static void checks_in_pieces_are_due(void) {
    gob_fault fault;
    for (size_t i = 0; i < sizeof pieces / sizeof *pieces; i++) {
        gob_counts counts = {7, 7, 7, 7};
        gob_checker *checker = gob_check_open(NULL, &fault);
        DUE(checker != NULL && is_fault(&fault, GOB_OK));
        check_pieces(checker, point, sizeof point, pieces[i], &counts, &fault);
        DUE(is_fault(&fault, GOB_OK) && are_counts(&counts, 2, 1, 1, 40));
        check_pieces(checker, point + DEFINITION, sizeof point - DEFINITION, pieces[i], &counts, &fault);
        DUE(is_fault(&fault, GOB_OK) && are_counts(&counts, 3, 1, 2, 48));
        gob_check_close(checker);
        checker = gob_check_open(NULL, &fault);
        check_pieces(checker, held, sizeof held, pieces[i], &counts, &fault);
        DUE(is_fault(&fault, GOB_OK) && are_counts(&counts, 2, 3, 1, sizeof held));
        gob_check_close(checker);
        checker = gob_check_open_exact(NULL, &fault);
        check_pieces(checker, point, sizeof point, pieces[i], &counts, &fault);
        DUE(is_fault(&fault, GOB_OK) && are_counts(&counts, 2, 1, 1, 40));
        gob_check_close(checker);
    }
}

static void refused_checks_are_due(void) {
    gob_fault fault;
    unsigned char wrong[sizeof point];
    memcpy(wrong, point, sizeof point);
    wrong[35] = 3;
    for (size_t i = 0; i < sizeof pieces / sizeof *pieces; i++) {
        gob_counts counts = {7, 7, 7, 7};
        gob_checker *checker = gob_check_open(NULL, &fault);
        check_pieces(checker, wrong, sizeof wrong, pieces[i], &counts, &fault);
        DUE(is_refused(&fault, 15, 0, 35, 36, 32) && are_counts(&counts, 1, 1, 0, 32));
        counts.items = 7;
        DUE(gob_check_feed(checker, point, 8, &counts, &fault) == GOB_FAILED && is_fault(&fault, GOB_FAILED));
        DUE(are_counts(&counts, 1, 1, 0, 32));
        DUE(gob_check_finish(checker, &counts, &fault) == GOB_FAILED && is_fault(&fault, GOB_FAILED));
        DUE(are_counts(&counts, 1, 1, 0, 32));
        gob_check_close(checker);
        checker = gob_check_open_exact(NULL, &fault);
        check_pieces(checker, held, sizeof held, pieces[i], &counts, &fault);
        DUE(is_refused(&fault, 16, 0, 44, 45, 38) && are_counts(&counts, 1, 1, 0, 38));
        gob_check_close(checker);
        checker = gob_check_open(NULL, &fault);
        check_pieces(checker, point, sizeof point - 1, pieces[i], &counts, &fault);
        DUE(is_refused(&fault, 22, 0, 39, 39, 32) && are_counts(&counts, 1, 1, 0, 32));
        DUE(gob_check_finish(checker, &counts, &fault) == GOB_FAILED && are_counts(&counts, 1, 1, 0, 32));
        gob_check_close(checker);
    }
}

/* Of each front of a stream the counts of its whole items are told, and a check is let go of there. */
static void counts_go_on(void) {
    for (size_t cut = 0; cut <= sizeof point; cut++) {
        gob_fault fault;
        gob_counts counts = {7, 7, 7, 7};
        gob_checker *checker = gob_check_open(NULL, &fault);
        DUE(gob_check_feed(checker, point, cut, &counts, &fault) == GOB_OK);
        if (cut < DEFINITION) DUE(are_counts(&counts, 0, 0, 0, 0));
        else if (cut < sizeof point) DUE(are_counts(&counts, 1, 1, 0, 32));
        else DUE(are_counts(&counts, 2, 1, 1, 40));
        gob_check_close(checker);
    }
}

/* Let go of at every place of the stream, with items that were taken and with items that wait. */
static void readers_are_let_go(void) {
    gob_fault fault;
    gob_item item;
    for (size_t cut = 0; cut <= sizeof point; cut++) {
        for (int takes = 0; takes < 2; takes++) {
            gob_reader *reader = gob_open(NULL, &fault);
            DUE(gob_feed(reader, point, cut, &fault) == GOB_OK);
            if (takes) gob_next(reader, &item);
            gob_close(reader);
        }
    }
}

static void fields_are_due(void) {
    gob_fault fault;
    gob_item item;
    int64_t number = 7;
    uint64_t size = 7;
    double real = 7;
    int is = 7;
    size_t length;
    gob_reader *reader = gob_open(NULL, &fault);
    gob_feed(reader, point, sizeof point, &fault);
    DUE(gob_next(reader, &item) == 1 && gob_next(reader, &item) == 1);
    const gob_item *definition = gob_type(reader, item.id);
    const gob_node *x = gob_field(definition, item.nodes, "X"), *y = gob_field(definition, item.nodes, "Y");
    DUE(x == item.nodes + 1 && y == item.nodes + 2);
    DUE(gob_field(definition, item.nodes, "Z") == NULL && gob_field(definition, item.nodes, "") == NULL);
    DUE(gob_field(definition, x, "X") == NULL);
    DUE(gob_as_int(y, &number) == 1 && number == 33 && gob_as_int(item.nodes, &number) == 0 && number == 33);
    DUE(gob_as_uint(x, &size) == 0 && gob_as_bool(x, &is) == 0 && gob_as_float(x, &real) == 0);
    DUE(size == 7 && is == 7 && real == 7 && gob_as_text(&item, x, &length) == NULL);
    DUE(gob_as_bool(NULL, &is) == 0 && gob_as_int(NULL, &number) == 0 && gob_as_text(&item, NULL, &length) == NULL);
    gob_close(reader);
    static const gob_node leaves[] = {
        {1, 0, 0, GOB_BOOL, 0}, {200, 0, 0, GOB_UINT, 0}, {0x3ff8000000000000, 0, 0, GOB_FLOAT, 0},
        {1, 2, 0, GOB_STRING, 0},
    };
    item.bytes = (const unsigned char *)"go!";
    DUE(gob_as_bool(&leaves[0], &is) == 1 && is == 1 && gob_as_uint(&leaves[1], &size) == 1 && size == 200);
    DUE(gob_as_float(&leaves[2], &real) == 1 && real == 1.5);
    const char *text = gob_as_text(&item, &leaves[3], &length);
    DUE(text != NULL && length == 2 && memcmp(text, "o!", 2) == 0);
}

/* NULL for what no call can do without. */
static void misuse_is_due(void) {
    gob_fault fault;
    gob_item item = {.count = 7};
    gob_batch batch = {.items = 7};
    gob_counts counts = {7, 7, 7, 7};
    DUE(gob_feed(NULL, point, sizeof point, &fault) == GOB_MISUSED && is_fault(&fault, GOB_MISUSED));
    DUE(gob_finish(NULL, &fault) == GOB_MISUSED && is_fault(&fault, GOB_MISUSED));
    DUE(gob_next(NULL, &item) == -1 && item.count == 7 && gob_take(NULL, &batch) == -1 && batch.items == 7);
    DUE(gob_type(NULL, 65) == NULL);
    DUE(gob_check(NULL, 1, NULL, &counts, &fault) == GOB_MISUSED && counts.items == 7);
    gob_reader *reader = gob_open(NULL, NULL);
    DUE(gob_feed(reader, NULL, 1, &fault) == GOB_MISUSED && gob_feed(reader, NULL, 1, NULL) == GOB_MISUSED);
    DUE(gob_feed(reader, point, sizeof point, NULL) == GOB_OK);
    DUE(gob_next(reader, NULL) == -1 && gob_take(reader, NULL) == -1);
    DUE(gob_next(reader, &item) == 1 && item.kind == GOB_DEFINE && gob_finish(reader, NULL) == GOB_OK);
    DUE(gob_check(point, sizeof point, NULL, NULL, NULL) == GOB_OK);
    gob_close(reader);
}

static void misused_checks_are_due(void) {
    gob_fault fault;
    gob_counts counts = {7, 7, 7, 7};
    DUE(gob_check_feed(NULL, point, sizeof point, &counts, &fault) == GOB_MISUSED && is_fault(&fault, GOB_MISUSED));
    DUE(gob_check_finish(NULL, &counts, &fault) == GOB_MISUSED && is_fault(&fault, GOB_MISUSED));
    gob_check_close(NULL);
    gob_checker *checker = gob_check_open(NULL, NULL);
    DUE(gob_check_feed(checker, NULL, 1, &counts, &fault) == GOB_MISUSED && is_fault(&fault, GOB_MISUSED));
    DUE(gob_check_feed(checker, NULL, 1, NULL, NULL) == GOB_MISUSED && are_counts(&counts, 7, 7, 7, 7));
    DUE(gob_check_feed(checker, NULL, 0, &counts, NULL) == GOB_OK && are_counts(&counts, 0, 0, 0, 0));
    DUE(gob_check_feed(checker, point, sizeof point, NULL, NULL) == GOB_OK);
    DUE(gob_check_finish(checker, NULL, NULL) == GOB_OK);
    DUE(gob_check_finish(checker, &counts, NULL) == GOB_OK && are_counts(&counts, 2, 1, 1, 40));
    gob_check_close(checker);
}

static const char source[] = "package types\n\n// type 65\ntype Point struct {\n\tX int\n\tY int\n}\n";

/* As snprintf does: so much as there is room for, a 0 behind it, and the length that is due. */
static void texts_are_cut(void) {
    char room[sizeof source];
    const size_t due = sizeof source - 1;
    DUE(gob_types_text(point, sizeof point, NULL, NULL, 0) == (int64_t)due);
    for (size_t size = 1; size <= sizeof room; size++) {
        memset(room, 'x', sizeof room);
        DUE(gob_types_text(point, sizeof point, NULL, room, size) == (int64_t)due);
        DUE(strlen(room) == size - 1 && memcmp(room, source, size - 1) == 0);
        DUE(size == sizeof room || room[size] == 'x');
    }
}

static void texts_are_due(void) {
    char room[1000];
    const char *whole = "ok: 2 items, 1 types, 40 bytes\n1 value of type 65, Point\n";
    DUE(gob_why_text(point, sizeof point, NULL, NULL, room, sizeof room) == (int64_t)strlen(whole));
    DUE(strcmp(room, whole) == 0);
    DUE(gob_why_text(point, 36, NULL, "a b.gob", room, sizeof room) > 0);
    DUE(strncmp(room, "refused 22 Ended at 36 seen 36\nwhat: The file ends within an item.\n", 67) == 0);
    DUE(strstr(room, "\nwhere: item 1, Point.X: a value of type 65, Point, which begins at byte 32\n") != NULL);
    DUE(gob_types_text(point, 36, NULL, room, sizeof room) == sizeof source - 1 && strcmp(room, source) == 0);
    DUE(gob_values_text(point, sizeof point, NULL, room, sizeof room) == 16);
    DUE(strcmp(room, "{\"X\":22,\"Y\":33}\n") == 0);
    DUE(gob_values_text(point, sizeof point, NULL, room, 5) == 16 && strcmp(room, "{\"X\"") == 0);
    DUE(gob_values_text(point, 36, NULL, room, sizeof room) == 0 && room[0] == 0);
    DUE(gob_why_text(NULL, 0, NULL, NULL, room, sizeof room) > 0);
    DUE(strcmp(room, "ok: 0 items, 0 types, 0 bytes\n") == 0);
    const gob_limits narrow = {30, 1000, 10000, 100}, none = {30, 0, 10000, 100};
    DUE(gob_why_text(point, sizeof point, &narrow, "a b.gob", room, sizeof room) > 0);
    DUE(strncmp(room, "refused 3 ItemTooLong at 0 seen 1\n", 34) == 0);
    DUE(strstr(room, "\nnext: gob why --item 31 'a b.gob'\n") != NULL);
    DUE(gob_why_text(point, sizeof point, &none, NULL, room, sizeof room) == -GOB_BAD_LIMITS && room[0] == 0);
    DUE(gob_types_text(point, sizeof point, &none, NULL, 0) == -GOB_BAD_LIMITS);
    DUE(gob_values_text(point, sizeof point, &none, NULL, 0) == -GOB_BAD_LIMITS);
    DUE(gob_why_text(NULL, 1, NULL, NULL, room, sizeof room) == -GOB_MISUSED);
    DUE(gob_types_text(NULL, 1, NULL, room, sizeof room) == -GOB_MISUSED);
    DUE(gob_values_text(NULL, 1, NULL, room, sizeof room) == -GOB_MISUSED);
    DUE(gob_values_text(point, sizeof point, NULL, NULL, 1) == -GOB_MISUSED);
    DUE(gob_why_text(point, sizeof point, NULL, NULL, NULL, 1) == -GOB_MISUSED);
    DUE(gob_types_text(point, sizeof point, NULL, NULL, 1) == -GOB_MISUSED);
}

int main(void) {
    texts_are_cut();
    texts_are_due();
    items_are_due();
    misuse_is_due();
    misused_checks_are_due();
    fields_are_due();
    batches_are_due();
    held_is_due();
    faults_are_due();
    limits_are_due();
    counts_are_due();
    checks_in_pieces_are_due();
    refused_checks_are_due();
    counts_go_on();
    readers_are_let_go();
    printf("%d failed\n", failed);
    return failed != 0;
}
