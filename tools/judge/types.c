/* docs/FORMAT.md, Types and the base table, and Readiness. */
#include "judge.h"

#define TEXT(text) {(const uint8_t *)(text), sizeof(text) - 1}
#define BASIC(its_kind) {.id = its_kind, .kind = its_kind}
#define STRUCT_OF(its_id, its_fields) \
    {.id = its_id, .kind = STRUCT, .fields = its_fields, .field_count = sizeof(its_fields) / sizeof(*its_fields)}

static struct field wire_type[] = {
    {TEXT("ArrayT"), 17},      {TEXT("SliceT"), 19},           {TEXT("StructT"), 20},        {TEXT("MapT"), 23},
    {TEXT("GobEncoderT"), 24}, {TEXT("BinaryMarshalerT"), 24}, {TEXT("TextMarshalerT"), 24},
};
static struct field array_type[] = {{TEXT("CommonType"), 18}, {TEXT("Elem"), 2}, {TEXT("Len"), 2}};
static struct field common_type[] = {{TEXT("Name"), 6}, {TEXT("Id"), 2}};
static struct field slice_type[] = {{TEXT("CommonType"), 18}, {TEXT("Elem"), 2}};
static struct field struct_type[] = {{TEXT("CommonType"), 18}, {TEXT("Field"), 22}};
static struct field field_type[] = {{TEXT("Name"), 6}, {TEXT("Id"), 2}};
static struct field map_type[] = {{TEXT("CommonType"), 18}, {TEXT("Key"), 2}, {TEXT("Elem"), 2}};
static struct field gob_encoder_type[] = {{TEXT("CommonType"), 18}};

static const struct type base_table[] = {
    BASIC(BOOL),
    BASIC(INT),
    BASIC(UINT),
    BASIC(FLOAT),
    BASIC(BYTES),
    BASIC(STRING),
    BASIC(COMPLEX),
    BASIC(INTERFACE),
    STRUCT_OF(16, wire_type),
    STRUCT_OF(17, array_type),
    STRUCT_OF(18, common_type),
    STRUCT_OF(19, slice_type),
    STRUCT_OF(20, struct_type),
    STRUCT_OF(21, field_type),
    {.id = 22, .kind = SLICE, .elem = 21},
    STRUCT_OF(23, map_type),
    STRUCT_OF(24, gob_encoder_type),
};

/* Writes the base table, where there is a place for it, and tells how many types it has. */
uint64_t base_types(struct type *types) {
    uint64_t count = sizeof(base_table) / sizeof(*base_table);
    for (uint64_t at = 0; types && at < count; at++) {
        types[at] = base_table[at];
    }
    return count;
}

/* The type with this id, or null where none is defined. */
struct type *type_of(struct judge *judge, uint64_t id) {
    for (uint64_t at = 0; at < judge->type_count; at++) {
        if (judge->types[at].id == id) {
            return &judge->types[at];
        }
    }
    return NULL;
}

/* Whether the type has a rank: whether arrays of a length above 0 lead from it to another type, within as many steps as
   there are types. */
static bool is_grounded(struct judge *judge, const struct type *type) {
    for (uint64_t step = 0; type && step <= judge->type_count; step++) {
        if (type->kind != ARRAY || type->length == 0) {
            return true;
        }
        type = type_of(judge, type->elem);
    }
    return false;
}

/* What a type reaches: the least id that is not defined, and the least that is not grounded, 0 where there is none. */
struct reached {
    uint64_t undefined;
    uint64_t bottomless;
};

static void note_least(uint64_t *least, uint64_t id) {
    if (*least == 0 || id < *least) {
        *least = id;
    }
}

static void reach(struct judge *judge, uint64_t id, struct reached *reached) {
    struct type *type = type_of(judge, id);
    if (!type) {
        note_least(&reached->undefined, id);
        return;
    }
    if (type->is_reached) {
        return;
    }
    type->is_reached = true;
    if (!is_grounded(judge, type)) {
        note_least(&reached->bottomless, id);
    }
    if (type->kind == MAP) {
        reach(judge, type->key, reached);
    }
    if (type->kind == ARRAY || type->kind == SLICE || type->kind == MAP) {
        reach(judge, type->elem, reached);
    }
    for (uint64_t at = 0; at < type->field_count; at++) {
        reach(judge, type->fields[at].type, reached);
    }
}

/* Refuses a value item of a type that is not ready, at its type number. */
void demand_ready(struct judge *judge, uint64_t id, uint64_t place) {
    struct reached reached = {0, 0};
    for (uint64_t at = 0; at < judge->type_count; at++) {
        judge->types[at].is_reached = false;
    }
    reach(judge, id, &reached);
    if (reached.undefined != 0) {
        refuse_type(judge, UNDEFINED_TYPE, reached.undefined, place);
    }
    if (reached.bottomless != 0) {
        refuse_type(judge, BOTTOMLESS, reached.bottomless, place);
    }
}
