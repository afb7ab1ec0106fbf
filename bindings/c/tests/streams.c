/* The calls that make streams of lines and of other streams, each with what is due of it. */
#include "../gob.h"

#include <stdio.h>

static const char opaque[] = "// type 65, which encodes itself by GobEncode\ntype Hidden struct{}\n";
static const char source[] = "type Line struct { Y, Z int }\ntype Other struct { X string }\n";

/* What Go writes of type Point struct{ X, Y int }: the definition, and Point{22, 33}. */
static const unsigned char point[] = {
    0x1f, 0xff, 0x81, 0x03, 0x01, 0x01, 0x05, 'P',  'o',  'i',  'n',  't',  0x01, 0xff, 0x82, 0x00,
    0x01, 0x02, 0x01, 0x01, 'X',  0x01, 0x04, 0x00, 0x01, 0x01, 'Y',  0x01, 0x04, 0x00, 0x00, 0x00,
    0x07, 0xff, 0x82, 0x01, 0x2c, 0x01, 0x42, 0x00,
};
enum { DEFINITION = 32 };
/* What it writes of a Line{33, 0}. */
static const unsigned char line[] = {
    0x1e, 0xff, 0x81, 0x03, 0x01, 0x01, 0x04, 'L',  'i',  'n',  'e',  0x01, 0xff, 0x82, 0x00, 0x01, 0x02, 0x01,
    0x01, 'Y',  0x01, 0x04, 0x00, 0x01, 0x01, 'Z',  0x01, 0x04, 0x00, 0x00, 0x00, 0x05, 0xff, 0x82, 0x01, 0x42, 0x00,
};
static const char lines[] = "{\"define\":65,\"kind\":\"struct\",\"name\":\"Point\",\"fields\":[[\"X\",2],[\"Y\",2]]}\n"
                            "\n{\"type\":65,\"value\":[[0,\"X\",\"22\"],[1,\"Y\",33]]}\n";

static int failed;

#define DUE(what)                                                         \
    do {                                                                  \
        if (!(what)) printf("line %d: %s\n", __LINE__, #what), failed++; \
    } while (0)

static int is_fault(const gob_writer_fault *fault, uint32_t status, uint32_t reason, uint64_t column,
                    const char *text) {
    return fault->status == status && fault->reason == reason && fault->column == column &&
           strcmp(fault->text, text) == 0;
}

/* Whether so many bytes are those of the stream, as much of which as there is room for is in the room. */
static int is_due(int64_t answer, const unsigned char *room, const unsigned char *due, size_t count) {
    return answer == (int64_t)count && memcmp(room, due, count) == 0;
}

static void lines_are_given(void) {
    char text[4096], cut[16];
    int64_t length = gob_lines_text(point, sizeof point, NULL, text, sizeof text);
    DUE(length > 0 && (size_t)length == strlen(text));
    DUE(strstr(text, "\n{\"type\":65,\"value\":[[0,\"X\",22],[1,\"Y\",33]]}\n") != NULL);
    DUE(gob_lines_text(point, sizeof point, NULL, cut, sizeof cut) == length);
    DUE(strlen(cut) == sizeof cut - 1 && strncmp(cut, text, sizeof cut - 1) == 0);
    DUE(gob_lines_text(point, sizeof point, NULL, NULL, 0) == length);
    DUE(gob_lines_text(point, DEFINITION + 1, NULL, text, sizeof text) == (int64_t)strlen(text) && text[0] == '{');
    DUE(gob_lines_text(NULL, 0, NULL, text, sizeof text) == 0 && text[0] == 0);
    DUE(gob_lines_text(NULL, 1, NULL, text, sizeof text) == -GOB_MISUSED);
    DUE(gob_lines_text(point, sizeof point, NULL, NULL, 1) == -GOB_MISUSED);
    DUE(gob_lines_text(point, sizeof point, &(gob_limits){0}, text, sizeof text) == -GOB_BAD_LIMITS);
}

static int64_t written(const char *text, unsigned char *room, size_t size, gob_writer_fault *fault) {
    return gob_lines_stream(text, strlen(text), room, size, fault);
}

static void lines_are_written(void) {
    unsigned char room[256] = {0};
    gob_writer_fault fault;
    DUE(is_due(written(lines, room, sizeof room, &fault), room, point, sizeof point));
    DUE(is_fault(&fault, GOB_OK, 0, 0, ""));
    memset(room, 0xee, sizeof room);
    DUE(written(lines, room, 5, NULL) == sizeof point && memcmp(room, point, 5) == 0 && room[5] == 0xee);
    DUE(written(lines, NULL, 0, &fault) == sizeof point && fault.status == GOB_OK);
    DUE(written("", room, sizeof room, &fault) == 0 && fault.status == GOB_OK);
    DUE(gob_lines_stream(NULL, 0, NULL, 0, NULL) == 0);
    DUE(gob_lines_stream(NULL, 1, room, sizeof room, &fault) == -GOB_MISUSED);
    DUE(is_fault(&fault, GOB_MISUSED, 0, 0, ""));
    DUE(gob_lines_stream(lines, 1, NULL, 1, &fault) == -GOB_MISUSED);
}

/* Behind the lines before it a line is refused, and names the place. */
static void wrong_lines_are_refused(void) {
    unsigned char room[256];
    gob_writer_fault fault;
    char text[512];
    snprintf(text, sizeof text, "%s{\"type\":65,\"value\":[[0,\"X\",true]]}", lines);
    DUE(is_due(written(text, room, sizeof room, &fault), room, point, sizeof point));
    DUE(fault.status == GOB_REFUSED && fault.reason == 0 && fault.column == 28);
    DUE(strncmp(fault.text, "gob: line 4, column 28, at .X: ", 31) == 0);
    snprintf(text, sizeof text, "%s{\"type\":66,\"value\":1}", lines);
    DUE(is_due(written(text, room, sizeof room, &fault), room, point, sizeof point));
    DUE(is_fault(&fault, GOB_REFUSED, GOB_REASON_UNDEFINED_TYPE, 0, "gob: line 4: refused 10 UndefinedType(66)"));
    DUE(gob_lines_stream("\xff", 1, room, sizeof room, &fault) == 0 && fault.status == GOB_REFUSED);
}

static int64_t converted(const char *name, unsigned char *room, size_t size, gob_writer_fault *fault) {
    return gob_convert(point, sizeof point, NULL, source, strlen(source), name, room, size, fault);
}

static int64_t received(const unsigned char *wanted, size_t count, const char *name, unsigned char *room, size_t size,
                        gob_writer_fault *fault) {
    return gob_convert_like(point, sizeof point, NULL, wanted, count, name, room, size, fault);
}

static void values_are_converted(void) {
    unsigned char room[256] = {0};
    gob_writer_fault fault;
    DUE(is_due(converted(NULL, room, sizeof room, &fault), room, line, sizeof line));
    DUE(is_fault(&fault, GOB_OK, 0, 0, ""));
    DUE(is_due(converted("Line", room, sizeof room, NULL), room, line, sizeof line));
    DUE(converted("", NULL, 0, &fault) == sizeof line && fault.status == GOB_OK);
    memset(room, 0xee, sizeof room);
    DUE(converted(NULL, room, 5, NULL) == sizeof line && memcmp(room, line, 5) == 0 && room[5] == 0xee);
    DUE(is_due(received(line, sizeof line, NULL, room, sizeof room, &fault), room, line, sizeof line));
    DUE(is_due(received(line, sizeof line, "65", room, sizeof room, &fault), room, line, sizeof line));
    DUE(gob_convert_like(NULL, 0, NULL, point, sizeof point, "Point", room, sizeof room, &fault) == DEFINITION);
}

/* Where there is no such type, where a value is of another, and where the bytes are refused. */
static void wrong_values_are_refused(void) {
    unsigned char room[256];
    gob_writer_fault fault;
    DUE(converted("Other", room, sizeof room, &fault) > 0);
    DUE(is_fault(&fault, GOB_REFUSED, 0, 0,
                 "gob: clash 33 DifferentKind at .X: value 1 has an int there, and a string is wanted"));
    DUE(converted("Nobody", room, sizeof room, &fault) == 0 && fault.status == GOB_REFUSED);
    DUE(gob_convert(point, sizeof point, NULL, "type", 4, NULL, room, sizeof room, &fault) == 0);
    DUE(fault.status == GOB_REFUSED && strncmp(fault.text, "gob: types: line 1, column ", 27) == 0);
    DUE(gob_convert(point, sizeof point, NULL, opaque, strlen(opaque), NULL, room, sizeof room, &fault) == 0);
    DUE(is_fault(&fault, GOB_REFUSED, 0, 0, "gob: types: the type has no zero"));
    DUE(gob_convert(point, 36, NULL, source, strlen(source), NULL, room, sizeof room, &fault) == 31);
    DUE(is_fault(&fault, GOB_REFUSED, GOB_REASON_ENDED, 0, "gob: refused 22 Ended at 36 seen 36"));
    DUE(received(point, 36, NULL, room, sizeof room, &fault) == 0);
    DUE(is_fault(&fault, GOB_REFUSED, GOB_REASON_ENDED, 0, "gob: wanted: refused 22 Ended at 36 seen 36"));
    DUE(received(point, DEFINITION, NULL, room, sizeof room, &fault) == 0);
    DUE(is_fault(&fault, GOB_REFUSED, 0, 0, "gob: refused 35 NoWantedType"));
    DUE(received(point, 36, "Point", room, sizeof room, &fault) == 0);
    DUE(is_fault(&fault, GOB_REFUSED, 0, 0, "gob: types: refused 22 Ended at 36 seen 36"));
    DUE(gob_convert(point, sizeof point, &(gob_limits){0}, source, 1, NULL, room, 1, &fault) == -GOB_BAD_LIMITS);
    DUE(is_fault(&fault, GOB_BAD_LIMITS, 0, 0, ""));
    DUE(gob_convert(NULL, 1, NULL, source, 1, NULL, room, 1, &fault) == -GOB_MISUSED && fault.status == GOB_MISUSED);
    DUE(gob_convert(point, 1, NULL, NULL, 1, NULL, room, 1, NULL) == -GOB_MISUSED);
}

/* Converts to a Line, with these renames. */
static int64_t renamed(const char *const *renames, size_t count, unsigned char *room, size_t size, gob_left_out *left,
                       gob_writer_fault *fault) {
    gob_conversion asked = {.source = source, .source_count = strlen(source)};
    asked.renames = renames;
    asked.rename_count = count;
    return gob_convert_with(point, sizeof point, &asked, room, size, left, fault);
}

/* The definition in front of a Line. */
enum { LINE = sizeof line - 6 };

static void fields_are_renamed(void) {
    static const unsigned char swapped[] = {0x07, 0xff, 0x82, 0x01, 0x42, 0x01, 0x2c, 0x00};
    static const unsigned char shifted[] = {0x07, 0xff, 0x82, 0x01, 0x2c, 0x01, 0x42, 0x00};
    unsigned char room[256] = {0};
    char text[128], cut[8];
    gob_writer_fault fault;
    gob_left_out left = {text, sizeof text, 99}, some = {cut, sizeof cut, 0}, none = {NULL, 0, 0};
    /* Z takes X; or Y takes X, and Z takes Y */
    DUE(renamed((const char *[]){"X=Z"}, 1, room, sizeof room, &left, &fault) == LINE + 8);
    DUE(memcmp(room, line, LINE) == 0 && memcmp(room + LINE, swapped, 8) == 0);
    DUE(is_fault(&fault, GOB_OK, 0, 0, "") && left.length == 0 && text[0] == 0);
    DUE(renamed((const char *[]){"X=Y", "Line.Y=Z"}, 2, room, sizeof room, NULL, NULL) == LINE + 8);
    DUE(memcmp(room, line, LINE) == 0 && memcmp(room + LINE, shifted, 8) == 0);
    /* without a rename X is left out */
    static const char told[] = "gob: left out .X of 1 value: it isn't wanted";
    DUE(is_due(renamed(NULL, 0, room, sizeof room, &left, &fault), room, line, sizeof line));
    DUE(left.length == sizeof told - 1 && strcmp(text, told) == 0);
    DUE(renamed(NULL, 0, room, sizeof room, &some, &fault) == sizeof line);
    DUE(some.length == sizeof told - 1 && strcmp(cut, "gob: le") == 0);
    DUE(renamed(NULL, 0, NULL, 0, &none, &fault) == sizeof line && none.length == sizeof told - 1);
    gob_conversion like = {.stream = line, .stream_count = sizeof line, .name = "Line"};
    DUE(is_due(gob_convert_with(point, sizeof point, &like, room, sizeof room, &left, NULL), room, line, sizeof line));
    DUE(strcmp(text, told) == 0);
}

static void wrong_renames_are_refused(void) {
    static const struct {
        const char *renames[2], *text;
    } rows[] = {
        {{"X=Y", "X=W"}, "gob: rename X=W: the wanted type has no field W"},
        {{"X=Z", "Lines.X=Y"}, "gob: rename Lines.X=Y: the wanted type has no field Lines.Y"},
        {{"Z=Y", "X=Z"}, "gob: rename Z=Y: the wanted type has the field Y, and one of the old name beside it"},
        {{"X=Z", "XZ"}, "gob: rename XZ: no = between two names"},
        {{"X=Z", ""}, "gob: rename : no = between two names"},
        {{"=Z", "XZ"}, "gob: rename =Z: a name is empty"},
        {{"X=Z", "\xff=Y"}, "gob: a rename isn't UTF-8"},
        {{"\33=W", "X=Z"}, "gob: rename \\u{1b}=W: the wanted type has no field W"},
    };
    unsigned char room[256];
    char text[128] = "";
    gob_writer_fault fault;
    for (size_t i = 0; i < sizeof rows / sizeof *rows; i++) {
        gob_left_out left = {text, sizeof text, 99};
        DUE(renamed(rows[i].renames, 2, room, sizeof room, &left, &fault) == 0);
        if (!is_fault(&fault, GOB_REFUSED, 0, 0, rows[i].text)) printf("row %zu: %s\n", i, fault.text), failed++;
        DUE(left.length == 0 && text[0] == 0);
    }
}

/* With `all` a value that would leave out a field isn't converted, nor is one behind it. */
static void all_fields_are_kept(void) {
    unsigned char room[256];
    char text[128];
    gob_writer_fault fault;
    gob_left_out left = {text, sizeof text, 99};
    gob_conversion asked = {.source = source, .source_count = strlen(source), .all = 1};
    DUE(is_due(gob_convert_with(point, sizeof point, &asked, room, sizeof room, &left, &fault), room, line, LINE));
    DUE(is_fault(&fault, GOB_REFUSED, 0, 0, "gob: value 1 has .X, which isn't wanted"));
    DUE(left.length == 0 && text[0] == 0);
    gob_conversion same = {.stream = point, .stream_count = sizeof point, .all = 1};
    DUE(is_due(gob_convert_with(point, sizeof point, &same, room, sizeof room, &left, &fault), room, point,
               sizeof point));
    DUE(is_fault(&fault, GOB_OK, 0, 0, "") && left.length == 0);
}

static void misuse_is_answered(void) {
    unsigned char room[256];
    char text[128] = "";
    gob_writer_fault fault;
    gob_left_out left = {NULL, 1, 0};
    gob_conversion both = {.source = source, .source_count = 1, .stream = point, .stream_count = sizeof point};
    gob_conversion wordless = {.source = source, .rename_count = 1}, unlimited = {.limits = &(gob_limits){0}};
    DUE(gob_convert_with(point, sizeof point, NULL, room, sizeof room, NULL, &fault) == -GOB_MISUSED);
    DUE(is_fault(&fault, GOB_MISUSED, 0, 0, ""));
    DUE(gob_convert_with(point, sizeof point, &both, room, sizeof room, NULL, NULL) == -GOB_MISUSED);
    DUE(gob_convert_with(point, sizeof point, &wordless, room, sizeof room, NULL, NULL) == -GOB_MISUSED);
    DUE(renamed((const char *[]){"X=Z", NULL}, 2, room, sizeof room, NULL, NULL) == -GOB_MISUSED);
    DUE(renamed(NULL, 0, room, sizeof room, &left, NULL) == -GOB_MISUSED);
    DUE(gob_convert_with(NULL, 1, &(gob_conversion){0}, room, sizeof room, NULL, NULL) == -GOB_MISUSED);
    left = (gob_left_out){text, sizeof text, 99};
    DUE(gob_convert_with(point, 1, &unlimited, room, sizeof room, &left, &fault) == -GOB_BAD_LIMITS);
    DUE(is_fault(&fault, GOB_BAD_LIMITS, 0, 0, "") && left.length == 0);
}

/* A name that a terminal would obey. */
static void names_are_escaped(void) {
    unsigned char room[256], other[sizeof point];
    char told[128];
    gob_left_out left = {told, sizeof told, 0};
    gob_writer_fault fault;
    memcpy(other, point, sizeof point);
    other[20] = 0x1b;
    static const char text[] = "{\"define\":65,\"kind\":\"struct\",\"name\":\"P\",\"fields\":[[\"\\u001b\",6]]}\n"
                               "{\"type\":65,\"value\":[]}";
    int64_t count = written(text, room, sizeof room, &fault);
    DUE(count > 0 && gob_convert_like(other, sizeof other, NULL, room, (size_t)count, NULL, NULL, 0, &fault) > 0);
    DUE(is_fault(&fault, GOB_REFUSED, 0, 0,
                 "gob: clash 33 DifferentKind at .\\u{1b}: value 1 has an int there, and a string is wanted"));
    gob_conversion asked = {.stream = line, .stream_count = sizeof line};
    DUE(gob_convert_with(other, sizeof other, &asked, NULL, 0, &left, &fault) == sizeof line);
    DUE(strcmp(told, "gob: left out .\\u{1b} of 1 value: it isn't wanted") == 0);
}

int main(void) {
    lines_are_given();
    lines_are_written();
    wrong_lines_are_refused();
    values_are_converted();
    wrong_values_are_refused();
    fields_are_renamed();
    wrong_renames_are_refused();
    all_fields_are_kept();
    misuse_is_answered();
    names_are_escaped();
    return failed != 0;
}
