/* The layer of C over the proved archive: the room that items are handed out into, and the definitions that were asked
 * for. Nothing here is proved. */
#include "raw.h"

#include <stdlib.h>

/* ---- readers */

/* So much room there is at first, for the items of a piece of 64 KiB or so. */
enum { HEADS = 4096, NODES = 32768, BYTES = 262144 };

/* Room for a large item, so many times that at first or more, is given back once the item's pointers stand no more. */
enum { LARGE = 16 };

struct gob_reader {
    void *raw;
    gob_head *heads;
    gob_node *nodes;
    unsigned char *bytes;
    size_t node_room, byte_room;
    struct raw_handed handed; /* what stands in the room */
    uint64_t given;           /* how many of these items gob_next has given */
    bool lacks;               /* an item waits for which there was no memory */
    gob_item **types;         /* the definitions that were asked for, by their ids */
    size_t type_count, type_room;
};

static const gob_limits standard = {67108864, 1000, 10000, 68719476736};

static unsigned char nowhere;

/* The archive takes no NULL for bytes, also where there are none. */
static const unsigned char *some_bytes(const void *bytes, size_t count) {
    return count != 0 ? bytes : &nowhere;
}

/* How a call ended that wasn't passed on. */
static gob_status ended(gob_status status, gob_fault *fault) {
    *fault = (gob_fault){.status = status};
    return status;
}

static bool has_room(gob_reader *reader) {
    reader->heads = malloc(HEADS * sizeof *reader->heads);
    reader->nodes = malloc(NODES * sizeof *reader->nodes);
    reader->bytes = malloc(BYTES);
    reader->node_room = NODES;
    reader->byte_room = BYTES;
    return reader->heads != NULL && reader->nodes != NULL && reader->bytes != NULL;
}

/* What is asked of the archive. */
static struct raw_asked asked_of(const gob_limits *limits, bool exact) {
    return (struct raw_asked){limits != NULL ? *limits : standard, exact, false};
}

static gob_reader *opened(const gob_limits *limits, bool exact, gob_fault *fault) {
    gob_fault unseen;
    gob_reader *reader = calloc(1, sizeof *reader);
    if (fault == NULL) fault = &unseen;
    ended(GOB_NO_MEMORY, fault);
    if (reader != NULL && has_room(reader)) {
        struct raw_asked asked = asked_of(limits, exact);
        gob_raw_open(&asked, fault, &reader->raw);
    }
    if (fault->status == GOB_OK) return reader;
    gob_close(reader);
    return NULL;
}

gob_reader *gob_open(const gob_limits *limits, gob_fault *fault) { return opened(limits, false, fault); }

gob_reader *gob_open_exact(const gob_limits *limits, gob_fault *fault) { return opened(limits, true, fault); }

gob_status gob_feed(gob_reader *reader, const void *piece, size_t count, gob_fault *fault) {
    gob_fault unseen;
    if (fault == NULL) fault = &unseen;
    if (reader == NULL || (piece == NULL && count != 0)) return ended(GOB_MISUSED, fault);
    gob_raw_feed(&reader->raw, some_bytes(piece, count), count, fault);
    return fault->status;
}

gob_status gob_finish(gob_reader *reader, gob_fault *fault) {
    gob_fault unseen;
    if (fault == NULL) fault = &unseen;
    if (reader == NULL) return ended(GOB_MISUSED, fault);
    if (reader->lacks) return ended(GOB_NO_MEMORY, fault);
    gob_raw_finish(&reader->raw, fault);
    return fault->status;
}

void gob_close(gob_reader *reader) {
    if (reader == NULL) return;
    if (reader->raw != NULL) gob_raw_close(reader->raw);
    for (size_t i = 0; i < reader->type_count; i++) free(reader->types[i]);
    free(reader->types);
    free(reader->heads);
    free(reader->nodes);
    free(reader->bytes);
    free(reader);
}

/* ---- items */

/* Makes room for the item that waits next. */
static bool more_room(gob_reader *reader) {
    uint64_t nodes = reader->handed.next_nodes, bytes = reader->handed.next_bytes;
    if (nodes > reader->node_room) {
        if (nodes > SIZE_MAX / sizeof(gob_node)) return false;
        gob_node *grown = realloc(reader->nodes, nodes * sizeof *grown);
        if (grown == NULL) return false;
        reader->nodes = grown;
        reader->node_room = nodes;
    }
    if (bytes > reader->byte_room) {
        unsigned char *grown = realloc(reader->bytes, bytes);
        if (grown == NULL) return false;
        reader->bytes = grown;
        reader->byte_room = bytes;
    }
    return true;
}

/* Gives back room that a large item took. */
static void less_room(gob_reader *reader) {
    if (reader->node_room >= (size_t)LARGE * NODES) {
        gob_node *fewer = realloc(reader->nodes, NODES * sizeof *fewer);
        if (fewer != NULL) reader->nodes = fewer, reader->node_room = NODES;
    }
    if (reader->byte_room >= (size_t)LARGE * BYTES) {
        unsigned char *fewer = realloc(reader->bytes, BYTES);
        if (fewer != NULL) reader->bytes = fewer, reader->byte_room = BYTES;
    }
}

static void hand_out(gob_reader *reader) {
    gob_raw_take(&reader->raw, reader->heads, HEADS, reader->nodes, reader->node_room, reader->bytes, reader->byte_room,
                 &reader->handed);
    reader->given = 0;
}

/* Hands out some items, where none that was handed out is left to be given: 1, 0 or -1, as gob_next says. */
static int some_items(gob_reader *reader) {
    if (reader->given < reader->handed.items) return 1;
    hand_out(reader);
    if (reader->handed.items == 0 && reader->handed.waiting != 0 && more_room(reader)) hand_out(reader);
    reader->lacks = reader->handed.items == 0 && reader->handed.waiting != 0;
    if (reader->handed.items == 0 && !reader->lacks) less_room(reader);
    return reader->lacks ? -1 : reader->handed.items != 0;
}

int gob_take(gob_reader *reader, gob_batch *batch) {
    if (reader == NULL || batch == NULL) return -1;
    int some = some_items(reader);
    *batch = (gob_batch){0};
    if (some != 1) return some;
    *batch = (gob_batch){
        .heads = reader->heads + reader->given,
        .nodes = reader->nodes,
        .bytes = reader->bytes,
        .items = reader->handed.items - reader->given,
        .node_count = reader->handed.nodes,
        .byte_count = reader->handed.bytes,
    };
    reader->given = reader->handed.items;
    return 1;
}

int gob_next(gob_reader *reader, gob_item *item) {
    if (reader == NULL || item == NULL) return -1;
    int some = some_items(reader);
    if (some != 1) return some;
    const gob_head *head = &reader->heads[reader->given++];
    *item = (gob_item){
        .kind = head->kind,
        .id = head->id,
        .nodes = reader->nodes + head->node,
        .count = head->nodes,
        .bytes = reader->bytes + head->byte,
        .size = head->bytes,
        .begin = head->begin,
        .end = head->end,
    };
    return 1;
}

/* ---- definitions */

/* Where the type stands among those asked for, or would stand. */
static size_t type_place(const gob_reader *reader, uint32_t id) {
    size_t low = 0, high = reader->type_count;
    while (low < high) {
        size_t middle = low + (high - low) / 2;
        if (reader->types[middle]->id < id) low = middle + 1;
        else high = middle;
    }
    return low;
}

/* The definition of a type, in one block: the item, its nodes, its bytes. NULL where there is none, or no memory. */
static gob_item *asked(gob_reader *reader, uint32_t id) {
    struct raw_handed told;
    gob_node no_node;
    gob_raw_type(&reader->raw, id, &no_node, 0, &nowhere, 0, &told);
    if (told.waiting == 0) return NULL;
    size_t node_room = told.next_nodes, byte_room = told.next_bytes;
    gob_item *item = malloc(sizeof *item + node_room * sizeof(gob_node) + byte_room + 1);
    if (item == NULL) return NULL;
    gob_node *nodes = (gob_node *)(item + 1);
    unsigned char *bytes = (unsigned char *)(nodes + node_room);
    gob_raw_type(&reader->raw, id, nodes, node_room, bytes, byte_room, &told);
    *item = (gob_item){
        .kind = GOB_DEFINE,
        .id = id,
        .nodes = nodes,
        .count = told.nodes,
        .bytes = bytes,
        .size = told.bytes,
    };
    return item;
}

static bool has_type_room(gob_reader *reader) {
    if (reader->type_count < reader->type_room) return true;
    size_t room = reader->type_room != 0 ? 2 * reader->type_room : 16;
    gob_item **types = realloc(reader->types, room * sizeof *types);
    if (types == NULL) return false;
    reader->types = types;
    reader->type_room = room;
    return true;
}

const gob_item *gob_type(gob_reader *reader, uint32_t id) {
    if (reader == NULL) return NULL;
    size_t place = type_place(reader, id);
    if (place < reader->type_count && reader->types[place]->id == id) return reader->types[place];
    if (!has_type_room(reader)) return NULL;
    gob_item *item = asked(reader, id);
    if (item == NULL) return NULL;
    gob_item **at = reader->types + place;
    memmove(at + 1, at, (reader->type_count - place) * sizeof *at);
    *at = item;
    reader->type_count++;
    return item;
}

/* ---- a check in pieces */

struct gob_checker {
    void *raw;
};

static gob_checker *opened_check(const gob_limits *limits, bool exact, gob_fault *fault) {
    gob_fault unseen;
    gob_checker *checker = calloc(1, sizeof *checker);
    if (fault == NULL) fault = &unseen;
    ended(GOB_NO_MEMORY, fault);
    if (checker != NULL) {
        struct raw_asked asked = asked_of(limits, exact);
        gob_raw_check_open(&asked, fault, &checker->raw);
    }
    if (fault->status == GOB_OK) return checker;
    gob_check_close(checker);
    return NULL;
}

gob_checker *gob_check_open(const gob_limits *limits, gob_fault *fault) { return opened_check(limits, false, fault); }

gob_checker *gob_check_open_exact(const gob_limits *limits, gob_fault *fault) {
    return opened_check(limits, true, fault);
}

gob_status gob_check_feed(gob_checker *checker, const void *piece, size_t count, gob_counts *counts,
                          gob_fault *fault) {
    gob_fault unseen;
    gob_counts uncounted;
    if (fault == NULL) fault = &unseen;
    if (counts == NULL) counts = &uncounted;
    if (checker == NULL || (piece == NULL && count != 0)) return ended(GOB_MISUSED, fault);
    gob_raw_check_feed(&checker->raw, some_bytes(piece, count), count, counts, fault);
    return fault->status;
}

gob_status gob_check_finish(gob_checker *checker, gob_counts *counts, gob_fault *fault) {
    gob_fault unseen;
    gob_counts uncounted;
    if (fault == NULL) fault = &unseen;
    if (counts == NULL) counts = &uncounted;
    if (checker == NULL) return ended(GOB_MISUSED, fault);
    gob_raw_check_finish(&checker->raw, counts, fault);
    return fault->status;
}

void gob_check_close(gob_checker *checker) {
    if (checker == NULL) return;
    if (checker->raw != NULL) gob_raw_check_close(checker->raw);
    free(checker);
}

/* ---- a check of bytes in memory */

static gob_status checked(const void *bytes, size_t count, struct raw_asked asked, gob_counts *counts,
                          gob_fault *fault) {
    gob_fault unseen;
    gob_counts uncounted;
    if (fault == NULL) fault = &unseen;
    if (counts == NULL) counts = &uncounted;
    if (bytes == NULL && count != 0) return ended(GOB_MISUSED, fault);
    gob_raw_check(some_bytes(bytes, count), count, &asked, counts, fault);
    return fault->status;
}

gob_status gob_check(const void *bytes, size_t count, const gob_limits *limits, gob_counts *counts, gob_fault *fault) {
    return checked(bytes, count, asked_of(limits, false), counts, fault);
}

gob_status gob_check_exact(const void *bytes, size_t count, const gob_limits *limits, gob_counts *counts,
                           gob_fault *fault) {
    return checked(bytes, count, asked_of(limits, true), counts, fault);
}

/* ---- writing */

struct gob_writer {
    void *raw;
    bool items;           /* whether items are given as nodes, and not values as plain JSON */
    unsigned char *bytes; /* what was handed out last */
    size_t room;
};

/* One of the exports that make a writer. */
typedef void writer_making(const unsigned char *types, size_t count, const unsigned char *name, size_t name_count,
                           void **writer, struct raw_written *told, unsigned char *room, size_t size);

/* How a call of a writer ended, whose words stand in the fault already. */
static gob_status ended_so(const struct raw_written *told, gob_writer_fault *fault) {
    static const char lacking[] = "gob: out of memory";
    size_t end = sizeof fault->text - 1;
    if (told->length < end) end = told->length;
    /* (no character is cut in two) */
    else while (end != 0 && ((unsigned char)fault->text[end] & 0xC0) == 0x80) end--;
    fault->text[end] = 0;
    /* (there may have been none for these words either) */
    if (told->status == GOB_NO_MEMORY) memcpy(fault->text, lacking, sizeof lacking);
    fault->status = told->status;
    fault->reason = told->reason;
    fault->column = told->column;
    return fault->status;
}

static gob_writer *opened_writer(writer_making *made, const void *types, size_t count, const char *name,
                                 gob_writer_fault *fault) {
    gob_writer_fault unseen;
    if (fault == NULL) fault = &unseen;
    struct raw_written told = {.status = GOB_MISUSED};
    *fault = (gob_writer_fault){.status = GOB_OK};
    gob_writer *writer = NULL;
    if (types != NULL || count == 0) {
        size_t length = name != NULL ? strlen(name) : 0;
        writer = calloc(1, sizeof *writer);
        told.status = GOB_NO_MEMORY;
        if (writer != NULL) {
            made(some_bytes(types, count), count, some_bytes(name, length), length, &writer->raw, &told,
                 (unsigned char *)fault->text, sizeof fault->text);
        }
    }
    if (ended_so(&told, fault) == GOB_OK) return writer;
    free(writer);
    return NULL;
}

gob_writer *gob_writer_open(const char *source, size_t count, const char *name, gob_writer_fault *fault) {
    return opened_writer(gob_raw_writer_open, source, count, name, fault);
}

gob_writer *gob_writer_open_like(const void *stream, size_t count, const char *name, gob_writer_fault *fault) {
    return opened_writer(gob_raw_writer_open_like, stream, count, name, fault);
}

gob_writer *gob_writer_open_items(const gob_limits *limits, gob_writer_fault *fault) {
    gob_writer_fault unseen;
    if (fault == NULL) fault = &unseen;
    struct raw_written told = {.status = GOB_NO_MEMORY};
    *fault = (gob_writer_fault){.status = GOB_OK};
    gob_writer *writer = calloc(1, sizeof *writer);
    if (writer != NULL) {
        struct raw_asked asked = asked_of(limits, false);
        writer->items = true;
        gob_raw_items_open(&asked, &writer->raw, &told);
    }
    if (ended_so(&told, fault) == GOB_OK) return writer;
    free(writer);
    return NULL;
}

/* Whether an item may be passed on: its pointers stand where they have a length. */
static bool is_given(const gob_item *item) {
    return item != NULL && (item->kind == GOB_DEFINE || item->kind == GOB_VALUE) &&
           (item->nodes != NULL || item->count == 0) && (item->bytes != NULL || item->size == 0);
}

gob_status gob_writer_put_item(gob_writer *writer, const gob_item *item, gob_writer_fault *fault) {
    static const gob_node no_node;
    gob_writer_fault unseen;
    if (fault == NULL) fault = &unseen;
    struct raw_written told = {.status = GOB_MISUSED};
    *fault = (gob_writer_fault){.status = GOB_OK};
    if (writer != NULL && writer->items && is_given(item)) {
        struct raw_given given = {item->id, item->kind == GOB_DEFINE};
        gob_raw_items_put(&writer->raw, &given, item->count != 0 ? item->nodes : &no_node, item->count,
                          some_bytes(item->bytes, item->size), item->size, &told, (unsigned char *)fault->text,
                          sizeof fault->text);
    }
    return ended_so(&told, fault);
}

gob_status gob_writer_put_json(gob_writer *writer, const char *text, size_t count, gob_writer_fault *fault) {
    gob_writer_fault unseen;
    if (fault == NULL) fault = &unseen;
    struct raw_written told = {.status = GOB_MISUSED};
    *fault = (gob_writer_fault){.status = GOB_OK};
    if (writer != NULL && !writer->items && (text != NULL || count == 0)) {
        gob_raw_writer_put(&writer->raw, some_bytes(text, count), count, &told, (unsigned char *)fault->text,
                           sizeof fault->text);
    }
    return ended_so(&told, fault);
}

/* How much is written and not taken. It is in the room then, where that is enough. */
static uint64_t taken(gob_writer *writer) {
    uint64_t count = 0;
    unsigned char *room = writer->room != 0 ? writer->bytes : &nowhere;
    if (writer->items) gob_raw_items_take(&writer->raw, room, writer->room, &count);
    else gob_raw_writer_take(&writer->raw, room, writer->room, &count);
    return count;
}

int gob_writer_take(gob_writer *writer, const void **bytes, size_t *count) {
    if (writer == NULL || bytes == NULL || count == NULL) return -1;
    *bytes = NULL;
    *count = 0;
    if (writer->room > (size_t)LARGE * BYTES) {
        free(writer->bytes);
        writer->bytes = NULL;
        writer->room = 0;
    }
    uint64_t some = taken(writer);
    if (some > writer->room) {
        unsigned char *grown = some <= SIZE_MAX ? realloc(writer->bytes, (size_t)some) : NULL;
        if (grown == NULL) return -1;
        writer->bytes = grown;
        writer->room = (size_t)some;
        if (taken(writer) > writer->room) return -1;
    }
    *bytes = writer->bytes;
    *count = (size_t)some;
    return some != 0;
}

void gob_writer_close(gob_writer *writer) {
    if (writer == NULL) return;
    if (writer->items) gob_raw_items_close(writer->raw);
    else gob_raw_writer_close(writer->raw);
    free(writer->bytes);
    free(writer);
}

/* ---- texts */

/* The room that the archive is given of a caller's: all of it but the byte for the 0. */
static unsigned char *room_of(char *out, size_t size) { return size != 0 ? (unsigned char *)out : &nowhere; }

static size_t room_for(size_t size) { return size != 0 ? size - 1 : 0; }

/* Ends the text that was put into the room, and answers how long it is as a whole, or why there is none. */
static int64_t texted(struct raw_text told, char *out, size_t size) {
    if (size != 0) out[told.length < size ? told.length : size - 1] = 0;
    return told.status == GOB_OK ? (int64_t)told.length : -(int64_t)told.status;
}

static bool is_misused(const void *bytes, size_t count, const char *out, size_t size) {
    return (bytes == NULL && count != 0) || (out == NULL && size != 0);
}

int64_t gob_why_text(const void *bytes, size_t count, const gob_limits *limits, const char *name, char *out,
                     size_t size) {
    struct raw_text told;
    struct raw_asked asked = asked_of(limits, false);
    if (is_misused(bytes, count, out, size)) return -GOB_MISUSED;
    size_t length = name != NULL ? strlen(name) : 0;
    gob_raw_why_text(some_bytes(bytes, count), count, &asked, some_bytes(name, length), length, room_of(out, size),
                     room_for(size), &told);
    return texted(told, out, size);
}

int64_t gob_types_text(const void *bytes, size_t count, const gob_limits *limits, char *out, size_t size) {
    struct raw_text told;
    struct raw_asked asked = asked_of(limits, false);
    if (is_misused(bytes, count, out, size)) return -GOB_MISUSED;
    gob_raw_types_text(some_bytes(bytes, count), count, &asked, room_of(out, size), room_for(size), &told);
    return texted(told, out, size);
}

int64_t gob_values_text(const void *bytes, size_t count, const gob_limits *limits, char *out, size_t size) {
    struct raw_text told;
    struct raw_asked asked = asked_of(limits, false);
    if (is_misused(bytes, count, out, size)) return -GOB_MISUSED;
    gob_raw_values_text(some_bytes(bytes, count), count, &asked, room_of(out, size), room_for(size), &told);
    return texted(told, out, size);
}

int64_t gob_lines_text(const void *bytes, size_t count, const gob_limits *limits, char *out, size_t size) {
    struct raw_text told;
    struct raw_asked asked = asked_of(limits, false);
    if (is_misused(bytes, count, out, size)) return -GOB_MISUSED;
    gob_raw_lines_text(some_bytes(bytes, count), count, &asked, room_of(out, size), room_for(size), &told);
    return texted(told, out, size);
}

/* ---- streams */

/* Tells how the making of a stream ended, whose words stand in the fault already, and answers how long it is. */
static int64_t streamed(const struct raw_stream *told, gob_writer_fault *fault) {
    struct raw_written said = {told->status, told->reason, told->column, told->words};
    gob_status status = ended_so(&said, fault);
    return status == GOB_OK || status == GOB_REFUSED ? (int64_t)told->length : -(int64_t)status;
}

int64_t gob_lines_stream(const char *lines, size_t count, void *out, size_t size, gob_writer_fault *fault) {
    gob_writer_fault unseen;
    struct raw_stream told = {.status = GOB_MISUSED};
    if (fault == NULL) fault = &unseen;
    *fault = (gob_writer_fault){.status = GOB_OK};
    if (!is_misused(lines, count, out, size)) {
        gob_raw_lines_stream(some_bytes(lines, count), count, size != 0 ? out : &nowhere, size, &told,
                             (unsigned char *)fault->text, sizeof fault->text);
    }
    return streamed(&told, fault);
}

/* The renames, each with its 0 behind it, or NULL for want of memory. */
static unsigned char *joined(const gob_conversion *asked, size_t *length) {
    *length = 0;
    for (size_t i = 0; i < asked->rename_count; i++) *length += strlen(asked->renames[i]) + 1;
    unsigned char *all = *length != 0 ? malloc(*length) : &nowhere, *end = all;
    for (size_t i = 0; all != NULL && i < asked->rename_count; i++) {
        size_t more = strlen(asked->renames[i]) + 1;
        memcpy(end, asked->renames[i], more);
        end += more;
    }
    return all;
}

static bool has_renames(const gob_conversion *asked) {
    if (asked->renames == NULL) return asked->rename_count == 0;
    for (size_t i = 0; i < asked->rename_count; i++) {
        if (asked->renames[i] == NULL) return false;
    }
    return true;
}

/* Converts to a type of a third stream, or of source. */
static struct raw_stream run_convert(bool is_like, const void *bytes, size_t count, const gob_conversion *asked,
                                     void *out, size_t size, const gob_left_out *left, gob_writer_fault *fault) {
    struct raw_stream told = {.status = GOB_NO_MEMORY};
    struct raw_asked raw = asked_of(asked->limits, false);
    raw.all = asked->all != 0;
    const void *types = is_like ? asked->stream : asked->source;
    size_t types_count = is_like ? asked->stream_count : asked->source_count, words;
    size_t length = asked->name != NULL ? strlen(asked->name) : 0;
    unsigned char *renames = joined(asked, &words);
    if (renames == NULL) return told;
    (is_like ? gob_raw_convert_like : gob_raw_convert)(
        some_bytes(bytes, count), count, &raw, some_bytes(types, types_count), types_count,
        some_bytes(asked->name, length), length, renames, words, size != 0 ? out : &nowhere, size, &told,
        (unsigned char *)fault->text, sizeof fault->text, room_of(left->text, left->size), room_for(left->size));
    if (renames != &nowhere) free(renames);
    return told;
}

static int64_t converted(bool is_like, const void *bytes, size_t count, const gob_conversion *asked, void *out,
                         size_t size, gob_left_out *left, gob_writer_fault *fault) {
    gob_writer_fault unseen;
    gob_left_out untold = {NULL, 0, 0};
    struct raw_stream told = {.status = GOB_MISUSED};
    if (fault == NULL) fault = &unseen;
    if (left == NULL) left = &untold;
    *fault = (gob_writer_fault){.status = GOB_OK};
    if (!is_misused(bytes, count, out, size) && !is_misused(NULL, 0, left->text, left->size) && has_renames(asked) &&
        !is_misused(asked->source, asked->source_count, NULL, 0) &&
        !is_misused(asked->stream, asked->stream_count, NULL, 0)) {
        told = run_convert(is_like, bytes, count, asked, out, size, left, fault);
    }
    left->length = told.left_out;
    if (left->text != NULL && left->size != 0) {
        left->text[told.left_out < left->size ? told.left_out : left->size - 1] = 0;
    }
    return streamed(&told, fault);
}

int64_t gob_convert(const void *bytes, size_t count, const gob_limits *limits, const char *source, size_t source_count,
                    const char *name, void *out, size_t size, gob_writer_fault *fault) {
    gob_conversion asked = {.limits = limits, .source = source, .source_count = source_count, .name = name};
    return converted(false, bytes, count, &asked, out, size, NULL, fault);
}

int64_t gob_convert_like(const void *bytes, size_t count, const gob_limits *limits, const void *stream,
                         size_t stream_count, const char *name, void *out, size_t size, gob_writer_fault *fault) {
    gob_conversion asked = {.limits = limits, .stream = stream, .stream_count = stream_count, .name = name};
    return converted(true, bytes, count, &asked, out, size, NULL, fault);
}

int64_t gob_convert_with(const void *bytes, size_t count, const gob_conversion *asked, void *out, size_t size,
                         gob_left_out *left, gob_writer_fault *fault) {
    /* (it has a rename, and none is there) */
    static const gob_conversion misused = {.rename_count = 1};
    bool is_like = asked != NULL && asked->stream != NULL;
    if (asked == NULL || (is_like && asked->source != NULL)) asked = &misused;
    return converted(is_like, bytes, count, asked, out, size, left, fault);
}

/* ---- the rest */

uint32_t gob_abi(void) { return GOB_ABI; }

const char *gob_version(void) { return GOB_VERSION; }

const char *gob_reason_name(uint32_t reason) {
    static const char *const names[] = {
        "",          "BadHead",      "NotMinimal",   "ItemTooLong",   "StreamTooLong", "Short",
        "Extra",     "ReservedType", "DefinedTwice", "TooManyTypes",  "UndefinedType", "Bottomless",
        "SingleTag", "Bool",         "ArrayCount",   "FieldNumber",   "InterfaceValue", "TooDeep",
        "KindCount", "WrongId",      "BadReference", "BadLength",     "Ended",
    };
    return reason < sizeof names / sizeof *names ? names[reason] : "";
}

const char *gob_reason_text(uint32_t reason) {
    static const char *const texts[] = {
        "",
        "No number begins with this byte.",
        "This number is spelled in more bytes than it needs.",
        "More bytes are announced here than the limit allows, or what is around them.",
        "The stream would be longer than 64 GiB.",
        "The item ends here, and its value isn't complete.",
        "The value is complete here, and its item goes on.",
        "A type is defined under a number that no type may have.",
        "A type is defined under a number that has one already.",
        "More than 10,000 types are defined.",
        "A value has a type that isn't defined, or leads to one that isn't.",
        "A value has a type of arrays that hold themselves, of which there is no value.",
        "Before a value that is no struct a byte other than 0 stands.",
        "A bool is neither 0 nor 1.",
        "An array has another length than its type says.",
        "A struct has no such field.",
        "An interface holds a value here.",
        "Parts lie in one another deeper than the limit allows.",
        "A definition gives no kind of type, or more than one.",
        "A definition names another number than the type that it defines.",
        "A definition leads to a number that no type can have.",
        "A definition gives an array a length below 0.",
        "The file ends within an item.",
    };
    return reason < sizeof texts / sizeof *texts ? texts[reason] : "";
}
