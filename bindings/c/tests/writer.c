/* The calls of a writer, each with what is due of it: bytes are those that Go's encoder writes of the same values. */
#include "../gob.h"

#include <stdio.h>
#include <stdlib.h>

static const char source[] = "type Point struct { X, Y int }\ntype Name string\n";

/* What Go writes of type Point struct{ X, Y int }: the definition, and Point{22, 33}. */
static const unsigned char point[] = {
    0x1f, 0xff, 0x81, 0x03, 0x01, 0x01, 0x05, 'P',  'o',  'i',  'n',  't',  0x01, 0xff, 0x82, 0x00,
    0x01, 0x02, 0x01, 0x01, 'X',  0x01, 0x04, 0x00, 0x01, 0x01, 'Y',  0x01, 0x04, 0x00, 0x00, 0x00,
    0x07, 0xff, 0x82, 0x01, 0x2c, 0x01, 0x42, 0x00,
};
enum { DEFINITION = 32, VALUE = 8 };

static int failed;

#define DUE(what)                                                         \
    do {                                                                  \
        if (!(what)) printf("line %d: %s\n", __LINE__, #what), failed++; \
    } while (0)

static gob_status put(gob_writer *writer, const char *text, gob_writer_fault *fault) {
    return gob_writer_put_json(writer, text, strlen(text), fault);
}

/* Whether these bytes are all that is taken. */
static int takes(gob_writer *writer, const unsigned char *due, size_t size) {
    const void *bytes;
    size_t count;
    int some = gob_writer_take(writer, &bytes, &count);
    return some == (size != 0) && count == size && (size == 0 || memcmp(bytes, due, size) == 0);
}

static int is_fault(const gob_writer_fault *fault, uint32_t status, uint32_t reason, uint64_t column,
                    const char *text) {
    return fault->status == status && fault->reason == reason && fault->column == column &&
           strcmp(fault->text, text) == 0;
}

static void values_are_written(gob_writer *writer, gob_writer_fault *fault) {
    DUE(takes(writer, point, DEFINITION) && takes(writer, NULL, 0));
    DUE(put(writer, "{\"X\":22,\"Y\":33}", fault) == GOB_OK && is_fault(fault, GOB_OK, 0, 0, ""));
    DUE(put(writer, " \n", fault) == GOB_OK && put(writer, "{\"Y\":33,\n \"X\":22}\n", NULL) == GOB_OK);
    unsigned char two[2 * VALUE];
    memcpy(two, point + DEFINITION, VALUE);
    memcpy(two + VALUE, point + DEFINITION, VALUE);
    DUE(takes(writer, two, sizeof two) && takes(writer, NULL, 0));
}

static void wrong_values_are_refused(gob_writer *writer, gob_writer_fault *fault) {
    DUE(put(writer, "{\"X\":\"a\"}", fault) == GOB_REFUSED);
    DUE(is_fault(fault, GOB_REFUSED, 0, 6, "gob: column 6, at .X: a whole number of 64 bits is due"));
    DUE(put(writer, "{\"X\":1", fault) == GOB_REFUSED && fault->column == 7);
    DUE(put(writer, "{\"Z\":1}", fault) == GOB_REFUSED && fault->column != 0);
    DUE(gob_writer_put_json(writer, "\xff", 1, fault) == GOB_REFUSED && fault->column == 1);
    DUE(put(writer, "{\"X\":22,\"Y\":33}", fault) == GOB_OK && is_fault(fault, GOB_OK, 0, 0, ""));
    DUE(takes(writer, point + DEFINITION, VALUE));
}

static void writers_are_due(void) {
    gob_writer_fault fault;
    gob_writer *writer = gob_writer_open(source, strlen(source), NULL, &fault);
    DUE(writer != NULL && is_fault(&fault, GOB_OK, 0, 0, ""));
    values_are_written(writer, &fault);
    wrong_values_are_refused(writer, &fault);
    gob_writer_close(writer);
    writer = gob_writer_open_like(point, sizeof point, "", &fault);
    DUE(writer != NULL && is_fault(&fault, GOB_OK, 0, 0, ""));
    values_are_written(writer, &fault);
    gob_writer_close(writer);
    writer = gob_writer_open(source, strlen(source), "Name", NULL);
    DUE(put(writer, "\"x\"", &fault) == GOB_OK && takes(writer, (const unsigned char *)"\x04\x0c\x00\x01x", 5));
    gob_writer_close(writer);
    gob_writer_close(NULL);
}

/* (what isn't opened takes no memory, which a sanitizer sees) */
static void wrong_types_are_refused(void) {
    gob_writer_fault fault;
    char wide[2048];
    DUE(gob_writer_open("type", 4, NULL, &fault) == NULL && fault.status == GOB_REFUSED && fault.column == 0);
    DUE(strncmp(fault.text, "gob: types: line 1, column ", 27) == 0);
    DUE(gob_writer_open("", 0, NULL, &fault) == NULL && fault.status == GOB_REFUSED);
    DUE(gob_writer_open(source, strlen(source), "Line", &fault) == NULL && fault.status == GOB_REFUSED);
    DUE(gob_writer_open(source, strlen(source), "\xff", &fault) == NULL && fault.status == GOB_REFUSED);
    DUE(gob_writer_open_like(point, 36, NULL, &fault) == NULL);
    DUE(is_fault(&fault, GOB_REFUSED, 0, 0, "gob: types: refused 22 Ended at 36 seen 36"));
    DUE(gob_writer_open_like(point, DEFINITION, NULL, &fault) == NULL && fault.status == GOB_REFUSED);
    /* a field's name of 1000 bytes, of which the text says less than it has room for */
    int count = snprintf(wide, sizeof wide, "type T struct { A%0998d int }", 0);
    gob_writer *writer = gob_writer_open(wide, (size_t)count, NULL, &fault);
    count = snprintf(wide, sizeof wide, "{\"A%0998d\":\"\"}", 0);
    DUE(gob_writer_put_json(writer, wide, (size_t)count, &fault) == GOB_REFUSED);
    DUE(strlen(fault.text) < sizeof fault.text && strncmp(fault.text, "gob: column 1004, at .A0", 24) == 0);
    gob_writer_close(writer);
}

static void misuse_is_answered(void) {
    gob_writer_fault fault;
    const void *bytes;
    size_t count;
    DUE(gob_writer_open(NULL, 1, NULL, &fault) == NULL && is_fault(&fault, GOB_MISUSED, 0, 0, ""));
    DUE(gob_writer_open_like(NULL, 1, NULL, NULL) == NULL);
    DUE(put(NULL, "1", &fault) == GOB_MISUSED && is_fault(&fault, GOB_MISUSED, 0, 0, ""));
    DUE(gob_writer_take(NULL, &bytes, &count) == -1);
    gob_writer *writer = gob_writer_open("type N int", 10, NULL, &fault);
    DUE(gob_writer_put_json(writer, NULL, 1, NULL) == GOB_MISUSED);
    DUE(gob_writer_put_json(writer, NULL, 0, &fault) == GOB_OK);
    DUE(gob_writer_take(writer, NULL, &count) == -1 && gob_writer_take(writer, &bytes, NULL) == -1);
    gob_writer_close(writer);
}

/* A large value is taken whole, and a small one behind it. */
static void large_values_are_taken(void) {
    enum { SIZE = 8 << 20 };
    gob_writer_fault fault;
    const void *bytes;
    size_t count;
    char *text = malloc(SIZE);
    if (text == NULL) exit(2);
    memset(text, 'a', SIZE);
    text[0] = text[SIZE - 1] = '"';
    gob_writer *writer = gob_writer_open("type S string", 13, NULL, &fault);
    DUE(gob_writer_put_json(writer, text, SIZE, &fault) == GOB_OK);
    DUE(gob_writer_take(writer, &bytes, &count) == 1 && count > SIZE && ((const char *)bytes)[count - 1] == 'a');
    DUE(put(writer, "\"x\"", &fault) == GOB_OK && takes(writer, (const unsigned char *)"\x04\x0c\x00\x01x", 5));
    gob_writer_close(writer);
    free(text);
}

/* Arrays in arrays: as deep as 1000 they are written, and no deeper. */
static void depth_is_limited(void) {
    gob_writer_fault fault;
    char text[2002];
    gob_writer *writer = gob_writer_open("type L []L", 10, NULL, &fault);
    memset(text, '[', 1001);
    memset(text + 1001, ']', 1001);
    DUE(gob_writer_put_json(writer, text + 1, 2000, &fault) == GOB_OK);
    DUE(gob_writer_put_json(writer, text, 2002, &fault) == GOB_REFUSED && fault.column == 1001);
    gob_writer_close(writer);
}

int main(void) {
    writers_are_due();
    wrong_types_are_refused();
    misuse_is_answered();
    large_values_are_taken();
    depth_is_limited();
    return failed != 0;
}
