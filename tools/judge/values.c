/* docs/FORMAT.md, Values, Top-level values and Depth. */
#include "judge.h"

/* As many raw bytes as their count says. */
static struct raw read_raw(struct judge *judge) {
    struct raw raw = {.size = read_unsigned(judge)};
    raw.bytes = judge->bytes + judge->at;
    for (uint64_t read = 0; read < raw.size; read++) {
        next_byte(judge);
    }
    return raw;
}

/* So many elements; those of a map are a key and an element in turn. */
static void read_elements(struct judge *judge, uint64_t count, const struct type *type, uint64_t depth,
                          struct value **parts) {
    for (uint64_t at = 0; at < count; at++) {
        if (type->kind == MAP) {
            *parts = read_part(judge, type->key, depth);
            parts = &(*parts)->next;
        }
        *parts = read_part(judge, type->elem, depth);
        parts = &(*parts)->next;
    }
}

static uint64_t read_array_count(struct judge *judge, uint64_t length) {
    uint64_t place = judge->at;
    uint64_t count = read_unsigned(judge);
    if (count != length) {
        refuse(judge, ARRAY_COUNT, place);
    }
    return count;
}

/* The present fields. The field number starts at -1, so what is kept is one more than it. */
static void read_fields(struct judge *judge, const struct type *type, uint64_t depth, struct value **parts) {
    uint64_t passed = 0;
    for (;;) {
        uint64_t delta = read_at_most(judge, type->field_count - passed, FIELD_NUMBER);
        if (delta == 0) {
            return;
        }
        passed += delta;
        *parts = read_part(judge, type->fields[passed - 1].type, depth);
        (*parts)->field = passed - 1;
        parts = &(*parts)->next;
    }
}

static void read_spelling(struct judge *judge, const struct type *type, uint64_t depth, struct value *value) {
    switch (type->kind) {
    case BOOL:
        value->numbers[0] = read_at_most(judge, 1, BOOL_ABOVE_1);
        break;
    case INT:
    case UINT:
    case FLOAT:
        value->numbers[0] = read_unsigned(judge);
        break;
    case COMPLEX:
        value->numbers[0] = read_unsigned(judge);
        value->numbers[1] = read_unsigned(judge);
        break;
    case BYTES:
    case STRING:
    case OPAQUE:
        value->raw = read_raw(judge);
        break;
    case INTERFACE:
        read_at_most(judge, 0, INTERFACE_VALUE);
        break;
    case SLICE:
    case MAP:
        read_elements(judge, read_unsigned(judge), type, depth + 1, &value->parts);
        break;
    case ARRAY:
        read_elements(judge, read_array_count(judge, type->length), type, depth + 1, &value->parts);
        break;
    case STRUCT:
        read_fields(judge, type, depth + 1, &value->parts);
        break;
    }
}

/* A part of this type, at this depth. */
struct value *read_part(struct judge *judge, uint64_t id, uint64_t depth) {
    if (depth > judge->limits.depth) {
        refuse(judge, TOO_DEEP, judge->at);
    }
    struct value *value = &judge->values[judge->value_count++];
    read_spelling(judge, type_of(judge, id), depth, value);
    return value;
}

/* The value of a value item: one that is no struct has a tag before it. */
struct value *read_top(struct judge *judge, uint64_t id) {
    if (type_of(judge, id)->kind != STRUCT) {
        read_at_most(judge, 0, SINGLE_TAG);
    }
    return read_part(judge, id, 1);
}
