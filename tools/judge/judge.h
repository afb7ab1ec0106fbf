/* A plain judge of gob streams. It is written from docs/FORMAT.md alone, without a look at the library or its
   definitions, and its files follow the sections of that page. It works on whole bytes and by recursion. It reads one
   byte after another, and refuses as soon as it must: so `seen` is always how many bytes it has read. */
#ifndef JUDGE_H
#define JUDGE_H

#include <setjmp.h>
#include <stdbool.h>
#include <stddef.h>
#include <stdint.h>

/* The reasons by their numbers (Refusals). */
enum reason {
    BAD_HEAD = 1,
    NOT_MINIMAL,
    ITEM_TOO_LONG,
    STREAM_TOO_LONG,
    SHORT,
    EXTRA,
    RESERVED_TYPE,
    DEFINED_TWICE,
    TOO_MANY_TYPES,
    UNDEFINED_TYPE,
    BOTTOMLESS,
    SINGLE_TAG,
    BOOL_ABOVE_1,
    ARRAY_COUNT,
    FIELD_NUMBER,
    INTERFACE_VALUE,
    TOO_DEEP,
    KIND_COUNT,
    WRONG_ID,
    BAD_REFERENCE,
    BAD_LENGTH,
    ENDED,
};

/* Why bytes are no stream, and where. The id is that of the reasons which carry one. */
struct refusal {
    enum reason reason;
    uint64_t id;
    uint64_t place;
    uint64_t seen;
};

/* The limits of a reader (Items and streams). */
struct limits {
    uint64_t item;
    uint64_t depth;
    uint64_t types;
    uint64_t stream;
};

/* A byte string within the stream, or within the base table. */
struct raw {
    const uint8_t *bytes;
    uint64_t size;
};

/* The kinds of types. The basic ones have their ids as numbers. */
enum kind { BOOL = 1, INT, UINT, FLOAT, BYTES, STRING, COMPLEX, INTERFACE, ARRAY, SLICE, STRUCT, MAP, OPAQUE };

struct field {
    struct raw name;
    uint64_t type;
};

/* A type of the table: its id and its shape. */
struct type {
    uint64_t id;
    struct raw name;
    enum kind kind;
    uint64_t key;
    uint64_t elem;
    uint64_t length;
    struct field *fields;
    uint64_t field_count;
    const char *marshal;
    bool is_reached;
};

/* A part of a value: its numbers as they are spelled, its raw bytes, and the first of its parts. */
struct value {
    uint64_t numbers[2];
    struct raw raw;
    struct value *parts;
    /* the next part of the value that this is a part of, and the number of the field that this is the value of */
    struct value *next;
    uint64_t field;
};

/* A stream that is judged, as far as it is read. */
struct judge {
    struct limits limits;
    const uint8_t *bytes;
    uint64_t size;
    uint64_t at;
    /* the end of the body under way, and the greatest number while there is none */
    uint64_t body_end;
    /* the type table, and how many of its types are the base table */
    struct type *types;
    uint64_t type_count;
    uint64_t base_count;
    /* all parts of all values, and all fields of the types that are defined in the stream */
    struct value *values;
    uint64_t value_count;
    struct field *fields;
    uint64_t field_count;
    struct refusal refusal;
    jmp_buf refused;
};

/* streams.c */
void judge_stream(struct judge *judge);
uint8_t next_byte(struct judge *judge);
_Noreturn void refuse(struct judge *judge, enum reason reason, uint64_t place);
_Noreturn void refuse_type(struct judge *judge, enum reason reason, uint64_t id, uint64_t place);

/* numbers.c */
uint64_t read_unsigned(struct judge *judge);
uint64_t read_at_most(struct judge *judge, uint64_t greatest, enum reason reason);
int64_t to_signed(uint64_t number);
uint64_t to_pattern(uint64_t number);

/* types.c */
uint64_t base_types(struct type *types);
struct type *type_of(struct judge *judge, uint64_t id);
void demand_ready(struct judge *judge, uint64_t id, uint64_t place);

/* values.c */
struct value *read_part(struct judge *judge, uint64_t id, uint64_t depth);
struct value *read_top(struct judge *judge, uint64_t id);

/* descriptions.c */
struct type described(struct judge *judge, uint64_t id, const struct value *value, uint64_t place);

/* lines.c */
void print_definition(const struct type *type);
void print_value(struct judge *judge, uint64_t id, const struct value *value);
void print_refusal(const struct refusal *refusal);

#endif
