/* docs/FORMAT.md, The JSON lines, and Refusals, In print. */
#include "judge.h"

#include <inttypes.h>
#include <stdio.h>

static void print_hex(struct raw raw) {
    putchar('"');
    for (uint64_t at = 0; at < raw.size; at++) {
        printf("%02x", raw.bytes[at]);
    }
    putchar('"');
}

/* How many bytes the character at the front takes, as UTF-8 has it: none where there is none. A surrogate is no
   character, and neither is what has a shorter form or is above 10ffff. */
static uint64_t character_size(const uint8_t *bytes, uint64_t size) {
    uint8_t head = bytes[0];
    uint64_t needed = head < 0x80 ? 1 : head < 0xc2 ? 0 : head < 0xe0 ? 2 : head < 0xf0 ? 3 : head < 0xf5 ? 4 : 0;
    if (needed > size) {
        return 0;
    }
    for (uint64_t at = 1; at < needed; at++) {
        uint8_t least = at > 1 ? 0x80 : head == 0xe0 ? 0xa0 : head == 0xf0 ? 0x90 : 0x80;
        uint8_t greatest = at > 1 ? 0xbf : head == 0xed ? 0x9f : head == 0xf4 ? 0x8f : 0xbf;
        if (bytes[at] < least || bytes[at] > greatest) {
            return 0;
        }
    }
    return needed;
}

static bool is_utf8(struct raw raw) {
    uint64_t at = 0;
    while (at < raw.size) {
        uint64_t size = character_size(raw.bytes + at, raw.size - at);
        if (size == 0) {
            return false;
        }
        at += size;
    }
    return true;
}

static void print_character(uint8_t byte) {
    switch (byte) {
    case '"':
    case '\\':
        printf("\\%c", byte);
        break;
    case '\b':
        printf("\\b");
        break;
    case '\t':
        printf("\\t");
        break;
    case '\n':
        printf("\\n");
        break;
    case '\f':
        printf("\\f");
        break;
    case '\r':
        printf("\\r");
        break;
    default:
        printf(byte < 0x20 ? "\\u%04x" : "%c", byte);
    }
}

static void print_text(struct raw raw) {
    if (!is_utf8(raw)) {
        printf("{\"hex\":");
        print_hex(raw);
        putchar('}');
        return;
    }
    putchar('"');
    for (uint64_t at = 0; at < raw.size; at++) {
        print_character(raw.bytes[at]);
    }
    putchar('"');
}

static void print_fields(const struct type *type) {
    printf("\"fields\":[");
    for (uint64_t at = 0; at < type->field_count; at++) {
        printf(at == 0 ? "[" : ",[");
        print_text(type->fields[at].name);
        printf(",%" PRIu64 "]", type->fields[at].type);
    }
    printf("],");
}

static const char *kind_name(const struct type *type) {
    switch (type->kind) {
    case ARRAY:
        return "array";
    case SLICE:
        return "slice";
    case STRUCT:
        return "struct";
    case MAP:
        return "map";
    default:
        return type->marshal;
    }
}

/* The keys of the object stand in byte order. */
void print_definition(const struct type *type) {
    printf("{\"define\":%" PRIu64 ",", type->id);
    if (type->kind == ARRAY || type->kind == SLICE || type->kind == MAP) {
        printf("\"elem\":%" PRIu64 ",", type->elem);
    }
    if (type->kind == STRUCT) {
        print_fields(type);
    }
    if (type->kind == MAP) {
        printf("\"key\":%" PRIu64 ",", type->key);
    }
    printf("\"kind\":\"%s\",", kind_name(type));
    if (type->kind == ARRAY) {
        printf("\"len\":%" PRIu64 ",", type->length);
    }
    printf("\"name\":");
    print_text(type->name);
    printf("}\n");
}

static void print_part(struct judge *judge, uint64_t id, const struct value *value);

/* The parts of a list, a map or a struct, as an array. */
static void print_parts(struct judge *judge, const struct type *type, const struct value *part) {
    putchar('[');
    for (const char *before = ""; part; part = part->next, before = ",") {
        printf("%s", before);
        if (type->kind == MAP) {
            putchar('[');
            print_part(judge, type->key, part);
            putchar(',');
            part = part->next;
        }
        if (type->kind == STRUCT) {
            printf("[%" PRIu64 ",", part->field);
            print_text(type->fields[part->field].name);
            putchar(',');
        }
        print_part(judge, type->kind == STRUCT ? type->fields[part->field].type : type->elem, part);
        printf(type->kind == MAP || type->kind == STRUCT ? "]" : "");
    }
    putchar(']');
}

static void print_part(struct judge *judge, uint64_t id, const struct value *value) {
    const struct type *type = type_of(judge, id);
    switch (type->kind) {
    case BOOL:
        printf(value->numbers[0] == 1 ? "true" : "false");
        break;
    case INT:
        printf("%" PRId64, to_signed(value->numbers[0]));
        break;
    case UINT:
        printf("%" PRIu64, value->numbers[0]);
        break;
    case FLOAT:
        printf("\"%016" PRIx64 "\"", to_pattern(value->numbers[0]));
        break;
    case COMPLEX:
        printf("[\"%016" PRIx64 "\",\"%016" PRIx64 "\"]", to_pattern(value->numbers[0]), to_pattern(value->numbers[1]));
        break;
    case BYTES:
        print_hex(value->raw);
        break;
    case STRING:
        print_text(value->raw);
        break;
    case INTERFACE:
        printf("null");
        break;
    case OPAQUE:
        printf("{\"opaque\":");
        print_hex(value->raw);
        putchar('}');
        break;
    default:
        print_parts(judge, type, value->parts);
    }
}

void print_value(struct judge *judge, uint64_t id, const struct value *value) {
    printf("{\"type\":%" PRIu64 ",\"value\":", id);
    print_part(judge, id, value);
    printf("}\n");
}

static const char *const reason_names[] = {
    [BAD_HEAD] = "BadHead",
    [NOT_MINIMAL] = "NotMinimal",
    [ITEM_TOO_LONG] = "ItemTooLong",
    [STREAM_TOO_LONG] = "StreamTooLong",
    [SHORT] = "Short",
    [EXTRA] = "Extra",
    [RESERVED_TYPE] = "ReservedType",
    [DEFINED_TWICE] = "DefinedTwice",
    [TOO_MANY_TYPES] = "TooManyTypes",
    [UNDEFINED_TYPE] = "UndefinedType",
    [BOTTOMLESS] = "Bottomless",
    [SINGLE_TAG] = "SingleTag",
    [BOOL_ABOVE_1] = "Bool",
    [ARRAY_COUNT] = "ArrayCount",
    [FIELD_NUMBER] = "FieldNumber",
    [INTERFACE_VALUE] = "InterfaceValue",
    [TOO_DEEP] = "TooDeep",
    [KIND_COUNT] = "KindCount",
    [WRONG_ID] = "WrongId",
    [BAD_REFERENCE] = "BadReference",
    [BAD_LENGTH] = "BadLength",
    [ENDED] = "Ended",
};

static bool carries_id(enum reason reason) {
    return reason == RESERVED_TYPE || reason == DEFINED_TWICE || reason == UNDEFINED_TYPE || reason == BOTTOMLESS;
}

void print_refusal(const struct refusal *refusal) {
    printf("gob: refused %d %s", refusal->reason, reason_names[refusal->reason]);
    if (carries_id(refusal->reason)) {
        printf("(%" PRIu64 ")", refusal->id);
    }
    printf(" at %" PRIu64 " seen %" PRIu64 "\n", refusal->place, refusal->seen);
}
