/* docs/FORMAT.md, Items and streams, and Refusals. */
#include "judge.h"

_Noreturn void refuse_type(struct judge *judge, enum reason reason, uint64_t id, uint64_t place) {
    judge->refusal = (struct refusal){reason, id, place, judge->at};
    longjmp(judge->refused, 1);
}

_Noreturn void refuse(struct judge *judge, enum reason reason, uint64_t place) {
    refuse_type(judge, reason, 0, place);
}

/* Whoever asks for a byte needs it: where the body has no more it is short, and else the input has ended. */
uint8_t next_byte(struct judge *judge) {
    if (judge->at == judge->body_end) {
        refuse(judge, SHORT, judge->at);
    }
    if (judge->at == judge->size) {
        refuse(judge, ENDED, judge->at);
    }
    return judge->bytes[judge->at++];
}

/* What is complete must be the whole rest of the body. */
static void end_body(struct judge *judge) {
    if (judge->at < judge->body_end) {
        refuse(judge, EXTRA, judge->at);
    }
}

static void read_definition(struct judge *judge, uint64_t id, uint64_t place) {
    if (id < 64 || id > 2147483647) {
        refuse_type(judge, RESERVED_TYPE, id, place);
    }
    if (type_of(judge, id)) {
        refuse_type(judge, DEFINED_TWICE, id, place);
    }
    if (judge->type_count - judge->base_count >= judge->limits.types) {
        refuse(judge, TOO_MANY_TYPES, place);
    }
    uint64_t start = judge->at;
    const struct value *value = read_part(judge, 16, 1);
    end_body(judge);
    struct type *type = &judge->types[judge->type_count];
    *type = described(judge, id, value, start);
    judge->type_count++;
    print_definition(type);
}

static void read_value_item(struct judge *judge, uint64_t id, uint64_t place) {
    if (id == 0 || id == 24) {
        refuse_type(judge, UNDEFINED_TYPE, id, place);
    }
    demand_ready(judge, id, place);
    const struct value *value = read_top(judge, id);
    end_body(judge);
    print_value(judge, id, value);
}

static void read_count(struct judge *judge) {
    uint64_t place = judge->at;
    judge->body_end = UINT64_MAX;
    uint64_t count = read_at_most(judge, judge->limits.item, ITEM_TOO_LONG);
    if (judge->at > judge->limits.stream || count > judge->limits.stream - judge->at) {
        refuse(judge, STREAM_TOO_LONG, place);
    }
    judge->body_end = judge->at + count;
}

static void read_item(struct judge *judge) {
    read_count(judge);
    uint64_t place = judge->at;
    int64_t number = to_signed(read_unsigned(judge));
    if (number < 0) {
        read_definition(judge, -(uint64_t)number, place);
    } else {
        read_value_item(judge, (uint64_t)number, place);
    }
}

/* Prints the line of each item, and that of the refusal where there is one. */
void judge_stream(struct judge *judge) {
    if (setjmp(judge->refused) != 0) {
        print_refusal(&judge->refusal);
        return;
    }
    while (judge->at < judge->size) {
        read_item(judge);
    }
}
