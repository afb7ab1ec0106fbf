/* docs/FORMAT.md, Descriptions. */
#include "judge.h"

/* The value of the field with this number, or null where it is absent, or the struct is. */
static const struct value *field_of(const struct value *value, uint64_t number) {
    const struct value *part = value ? value->parts : NULL;
    while (part && part->field != number) {
        part = part->next;
    }
    return part;
}

/* An absent number is 0. */
static int64_t int_of(const struct value *value, uint64_t number) {
    const struct value *part = field_of(value, number);
    return part ? to_signed(part->numbers[0]) : 0;
}

/* An absent name is empty. */
static struct raw name_of(const struct value *value, uint64_t number) {
    const struct value *part = field_of(value, number);
    return part ? part->raw : (struct raw){NULL, 0};
}

/* The id that a field refers to, in a description that begins at this place. */
static uint64_t reference_of(struct judge *judge, const struct value *value, uint64_t number, uint64_t place) {
    int64_t id = int_of(value, number);
    if (id < 1 || id > 2147483647 || id == 24) {
        refuse(judge, BAD_REFERENCE, place);
    }
    return (uint64_t)id;
}

static uint64_t length_of(struct judge *judge, const struct value *value, uint64_t number, uint64_t place) {
    int64_t length = int_of(value, number);
    if (length < 0) {
        refuse(judge, BAD_LENGTH, place);
    }
    return (uint64_t)length;
}

/* The fields of a struct: each has its Name and its Id. */
static void take_fields(struct judge *judge, const struct value *list, uint64_t place, struct type *type) {
    type->fields = &judge->fields[judge->field_count];
    for (const struct value *part = list ? list->parts : NULL; part; part = part->next) {
        type->fields[type->field_count++] = (struct field){name_of(part, 0), reference_of(judge, part, 1, place)};
    }
    judge->field_count += type->field_count;
}

/* The type with this id that the value of wireType describes. Its spelling begins at this place and has just ended. */
struct type described(struct judge *judge, uint64_t id, const struct value *value, uint64_t place) {
    const struct value *wire = value->parts;
    if (!wire || wire->next) {
        refuse(judge, KIND_COUNT, place);
    }
    const struct value *common = field_of(wire, 0);
    if (int_of(common, 1) != (int64_t)id) {
        refuse(judge, WRONG_ID, place);
    }
    struct type type = {.id = id, .name = name_of(common, 0)};
    switch (wire->field) {
    case 0:
        type.kind = ARRAY;
        type.elem = reference_of(judge, wire, 1, place);
        type.length = length_of(judge, wire, 2, place);
        break;
    case 1:
        type.kind = SLICE;
        type.elem = reference_of(judge, wire, 1, place);
        break;
    case 2:
        type.kind = STRUCT;
        take_fields(judge, field_of(wire, 1), place, &type);
        break;
    case 3:
        type.kind = MAP;
        type.key = reference_of(judge, wire, 1, place);
        type.elem = reference_of(judge, wire, 2, place);
        break;
    default:
        type.kind = OPAQUE;
        type.marshal = wire->field == 4 ? "gob" : wire->field == 5 ? "binary" : "text";
    }
    return type;
}
