/* The exports of raw.h: each is the same export of the translated code, which has a memory of its own for each reader.
 * What a call is given is copied into that memory, and what it tells is copied out. Nothing here is proved. */
#include "raw.h"

/* A block of the translated code's memory: where it begins, 0 for none, and how many bytes it has. */
typedef struct block {
    u64 at, size;
} block;

/* The translated code with a reader in it: the places of the reader's pointer, of what a call tells of itself, and of a
 * piece, and the rooms for what is handed out. */
typedef struct sandbox {
    code wasm;
    u64 handle, told, piece;
    block heads, nodes, bytes;
} sandbox;

/* (the translated code's memory comes in powers of two, with sixteen bytes of its own in front) */
enum { PIECE = 65536 - 16, TOLD = 128 - 16, COUNTS = 64 };

/* So much room there is at first for what is handed out. It is made as large as what it is copied into where an item
 * asks for that. */
enum { HEADS_AT_FIRST = 512, NODES_AT_FIRST = 4000, BYTES_AT_FIRST = 32768 - 16 };

static u64 at_most(u64 one, u64 other) { return one < other ? one : other; }

static void put(sandbox *box, u64 at, const void *from, size_t count) {
    check(&box->wasm.w2c_memory, at, count);
    if (count != 0) memcpy(box->wasm.w2c_memory.data + at, from, count);
}

/* Copies so much out, for which there is this much room. */
static void get(sandbox *box, void *to, u64 room, u64 at, u64 count) {
    check(&box->wasm.w2c_memory, at, count);
    if (count > room) trap();
    if (count != 0) memcpy(to, box->wasm.w2c_memory.data + at, (size_t)count);
}

/* Copies out what a call told. */
static void hear(sandbox *box, void *told, size_t size) { get(box, told, size, box->told, size); }

/* Copies out what a check told, and what it counted, which stands behind that. */
static void hear_counts(sandbox *box, gob_counts *counts, gob_fault *told) {
    hear(box, told, sizeof *told);
    get(box, counts, sizeof *counts, box->told + COUNTS, sizeof *counts);
}

static void end(sandbox *box) {
    if (box == NULL) return;
    let_go(&box->wasm.w2c_memory);
    free(box);
}

/* The translated code as it begins, with its places; NULL where there is no memory. */
static sandbox *begun(void) {
    static const unsigned char none[8];
    sandbox *box = calloc(1, sizeof *box);
    if (box == NULL) return NULL;
    code_begin(&box->wasm);
    if (box->wasm.w2c_memory.data != NULL) {
        box->handle = code_malloc(&box->wasm, sizeof none);
        box->told = code_malloc(&box->wasm, TOLD);
        box->piece = code_malloc(&box->wasm, PIECE);
    }
    if (box->handle != 0 && box->told != 0 && box->piece != 0) {
        put(box, box->handle, none, sizeof none);
        return box;
    }
    end(box);
    return NULL;
}

/* Makes the block as large as this where it is smaller, and says how much of that is had: nothing where there is no
 * memory for it. The block begins somewhere also then. */
static u64 room_in(sandbox *box, block *room, u64 size) {
    if (room->size < size) {
        if (room->size != 0) code_free(&box->wasm, room->at);
        room->at = code_malloc(&box->wasm, size);
        room->size = room->at != 0 ? size : 0;
    }
    if (room->size == 0) room->at = box->piece;
    return at_most(room->size, size);
}

/* One of the exports that make what a handle holds. */
typedef void opening(code *, u64 asked, u64 told, u64 handle);

static void open_by(opening *made, const struct raw_asked *asked, gob_fault *told, void **handle) {
    sandbox *box = begun();
    *told = (gob_fault){.status = GOB_NO_MEMORY};
    if (box == NULL) return;
    put(box, box->piece, asked, sizeof *asked);
    made(&box->wasm, box->piece, box->told, box->handle);
    hear(box, told, sizeof *told);
    if (told->status == GOB_OK) *handle = box;
    else end(box);
}

void gob_raw_open(const struct raw_asked *asked, gob_fault *told, void **reader) {
    open_by(code_gob_raw_open, asked, told, reader);
}

void gob_raw_feed(void **reader, const unsigned char *piece, size_t count, gob_fault *told) {
    sandbox *box = *reader;
    do {
        size_t some = count < PIECE ? count : PIECE;
        put(box, box->piece, piece, some);
        code_gob_raw_feed(&box->wasm, box->handle, box->piece, some, box->told);
        hear(box, told, sizeof *told);
        piece += some;
        count -= some;
    } while (count != 0 && told->status == GOB_OK);
}

void gob_raw_finish(void **reader, gob_fault *told) {
    sandbox *box = *reader;
    code_gob_raw_finish(&box->wasm, box->handle, box->told);
    hear(box, told, sizeof *told);
}

/* What a call hands out into, and how much room there is. */
typedef struct hand {
    gob_head *heads;
    gob_node *nodes;
    unsigned char *bytes;
    u64 head_room, node_room, byte_room;
} hand;

static void take(sandbox *box, const hand *to, struct raw_handed *told) {
    u64 heads = room_in(box, &box->heads, to->head_room * sizeof *to->heads);
    u64 nodes = room_in(box, &box->nodes, to->node_room * sizeof *to->nodes);
    u64 bytes = room_in(box, &box->bytes, to->byte_room);
    code_gob_raw_take(&box->wasm, box->handle, box->heads.at, heads / sizeof *to->heads, box->nodes.at,
                      nodes / sizeof *to->nodes, box->bytes.at, bytes, box->told);
    hear(box, told, sizeof *told);
    get(box, to->heads, heads, box->heads.at, told->items * sizeof *to->heads);
    get(box, to->nodes, nodes, box->nodes.at, told->nodes * sizeof *to->nodes);
    get(box, to->bytes, bytes, box->bytes.at, told->bytes);
}

void gob_raw_take(void **reader, gob_head *heads, size_t head_room, gob_node *nodes, size_t node_room,
                  unsigned char *bytes, size_t byte_room, struct raw_handed *told) {
    hand all = {heads, nodes, bytes, head_room, node_room, byte_room}, few = all;
    few.head_room = at_most(head_room, HEADS_AT_FIRST);
    few.node_room = at_most(node_room, NODES_AT_FIRST);
    few.byte_room = at_most(byte_room, BYTES_AT_FIRST);
    take(*reader, &few, told);
    if (told->items == 0 && told->waiting != 0) take(*reader, &all, told);
}

void gob_raw_type(void **reader, uint64_t id, gob_node *nodes, size_t node_room, unsigned char *bytes,
                  size_t byte_room, struct raw_handed *told) {
    sandbox *box = *reader;
    u64 in_nodes = room_in(box, &box->nodes, node_room * sizeof *nodes);
    u64 in_bytes = room_in(box, &box->bytes, byte_room);
    code_gob_raw_type(&box->wasm, box->handle, id, box->nodes.at, in_nodes / sizeof *nodes, box->bytes.at, in_bytes,
                      box->told);
    hear(box, told, sizeof *told);
    get(box, nodes, in_nodes, box->nodes.at, told->nodes * sizeof *nodes);
    get(box, bytes, in_bytes, box->bytes.at, told->bytes);
}

void gob_raw_close(void *reader) { end(reader); }

void gob_raw_check_open(const struct raw_asked *asked, gob_fault *told, void **counter) {
    open_by(code_gob_raw_check_open, asked, told, counter);
}

void gob_raw_check_feed(void **counter, const unsigned char *piece, size_t count, gob_counts *counts, gob_fault *told) {
    sandbox *box = *counter;
    do {
        size_t some = count < PIECE ? count : PIECE;
        put(box, box->piece, piece, some);
        code_gob_raw_check_feed(&box->wasm, box->handle, box->piece, some, box->told + COUNTS, box->told);
        hear_counts(box, counts, told);
        piece += some;
        count -= some;
    } while (count != 0 && told->status == GOB_OK);
}

void gob_raw_check_finish(void **counter, gob_counts *counts, gob_fault *told) {
    sandbox *box = *counter;
    code_gob_raw_check_finish(&box->wasm, box->handle, box->told + COUNTS, box->told);
    hear_counts(box, counts, told);
}

void gob_raw_check_close(void *counter) { end(counter); }

/* (in pieces, so that the whole bytes need no room in the translated code's memory) */
void gob_raw_check(const unsigned char *bytes, size_t count, const struct raw_asked *asked, gob_counts *counts,
                   gob_fault *told) {
    void *counter = NULL;
    gob_raw_check_open(asked, told, &counter);
    if (told->status != GOB_OK) return;
    gob_raw_check_feed(&counter, bytes, count, counts, told);
    if (told->status == GOB_OK) gob_raw_check_finish(&counter, counts, told);
    gob_raw_check_close(counter);
}

/* Copies bytes into the block; false where there is no memory for them. */
static bool lent(sandbox *box, block *to, const unsigned char *bytes, size_t count) {
    if (room_in(box, to, count) < count) return false;
    put(box, to->at, bytes, count);
    return true;
}

/* Begins a text about these bytes, where there is memory for them and for the text; NULL else. What is asked stands
 * where pieces do then. */
static sandbox *about(const unsigned char *bytes, size_t count, const struct raw_asked *asked, size_t size) {
    sandbox *box = begun();
    if (box == NULL) return NULL;
    put(box, box->piece, asked, sizeof *asked);
    if (lent(box, &box->bytes, bytes, count) && room_in(box, &box->heads, size) == size) return box;
    end(box);
    return NULL;
}

/* Copies out the text and what is told of it, and ends. */
static void say(sandbox *box, unsigned char *room, size_t size, struct raw_text *told) {
    hear(box, told, sizeof *told);
    get(box, room, size, box->heads.at, at_most(told->length, size));
    end(box);
}

void gob_raw_why_text(const unsigned char *bytes, size_t count, const struct raw_asked *asked,
                      const unsigned char *name, size_t name_count, unsigned char *room, size_t size,
                      struct raw_text *told) {
    sandbox *box = about(bytes, count, asked, size);
    *told = (struct raw_text){.status = GOB_NO_MEMORY};
    if (box != NULL && lent(box, &box->nodes, name, name_count)) {
        code_gob_raw_why_text(&box->wasm, box->bytes.at, count, box->piece, box->nodes.at, name_count, box->heads.at,
                              size, box->told);
        say(box, room, size, told);
        return;
    }
    end(box);
}

void gob_raw_types_text(const unsigned char *bytes, size_t count, const struct raw_asked *asked, unsigned char *room,
                        size_t size, struct raw_text *told) {
    sandbox *box = about(bytes, count, asked, size);
    *told = (struct raw_text){.status = GOB_NO_MEMORY};
    if (box == NULL) return;
    code_gob_raw_types_text(&box->wasm, box->bytes.at, count, box->piece, box->heads.at, size, box->told);
    say(box, room, size, told);
}

void gob_raw_values_text(const unsigned char *bytes, size_t count, const struct raw_asked *asked, unsigned char *room,
                         size_t size, struct raw_text *told) {
    sandbox *box = about(bytes, count, asked, size);
    *told = (struct raw_text){.status = GOB_NO_MEMORY};
    if (box == NULL) return;
    code_gob_raw_values_text(&box->wasm, box->bytes.at, count, box->piece, box->heads.at, size, box->told);
    say(box, room, size, told);
}

void gob_raw_lines_text(const unsigned char *bytes, size_t count, const struct raw_asked *asked, unsigned char *room,
                        size_t size, struct raw_text *told) {
    sandbox *box = about(bytes, count, asked, size);
    *told = (struct raw_text){.status = GOB_NO_MEMORY};
    if (box == NULL) return;
    code_gob_raw_lines_text(&box->wasm, box->bytes.at, count, box->piece, box->heads.at, size, box->told);
    say(box, room, size, told);
}

/* Where what is said of a stream is put, and how much room there is. */
typedef struct words {
    unsigned char *said;
    u64 size;
    block in;
} words;

static bool has_words(sandbox *box, words *to) { return room_in(box, &to->in, to->size) == to->size; }

/* Copies out a stream, what is said of it and what is told of both, and ends. */
static void say_stream(sandbox *box, unsigned char *room, size_t size, const words *to, struct raw_stream *told) {
    hear(box, told, sizeof *told);
    get(box, room, size, box->heads.at, at_most(told->length, size));
    get(box, to->said, to->size, to->in.at, at_most(told->words, to->size));
    end(box);
}

void gob_raw_lines_stream(const unsigned char *lines, size_t count, unsigned char *room, size_t size,
                          struct raw_stream *told, unsigned char *said, size_t said_size) {
    static const struct raw_asked nothing;
    words to = {said, said_size, {0, 0}};
    sandbox *box = about(lines, count, &nothing, size);
    *told = (struct raw_stream){.status = GOB_NO_MEMORY};
    if (box != NULL && has_words(box, &to)) {
        code_gob_raw_lines_stream(&box->wasm, box->bytes.at, count, box->heads.at, size, box->told, to.in.at, to.size);
        say_stream(box, room, size, &to, told);
        return;
    }
    end(box);
}

/* One of the exports that convert a stream. */
typedef void code_converting(code *, u64 bytes, u64 count, u64 asked, u64 types, u64 types_count, u64 name,
                             u64 name_count, u64 renames, u64 renames_count, u64 room, u64 size, u64 told, u64 said,
                             u64 said_size, u64 left, u64 left_size);

/* Bytes that a call is given. */
typedef struct given {
    const unsigned char *bytes;
    size_t count;
} given;

/* What a conversion is given beside the stream. */
typedef struct asking {
    const struct raw_asked *asked;
    given types, name, renames;
} asking;

static void convert(code_converting *made, given stream, asking by, unsigned char *room, size_t size, words *to,
                    words *left, struct raw_stream *told) {
    block named = {0, 0}, renames = {0, 0};
    sandbox *box = about(stream.bytes, stream.count, by.asked, size);
    *told = (struct raw_stream){.status = GOB_NO_MEMORY};
    if (box != NULL && lent(box, &box->nodes, by.types.bytes, by.types.count) &&
        lent(box, &named, by.name.bytes, by.name.count) && lent(box, &renames, by.renames.bytes, by.renames.count) &&
        has_words(box, to) && has_words(box, left)) {
        made(&box->wasm, box->bytes.at, stream.count, box->piece, box->nodes.at, by.types.count, named.at,
             by.name.count, renames.at, by.renames.count, box->heads.at, size, box->told, to->in.at, to->size,
             left->in.at, left->size);
        hear(box, told, sizeof *told);
        get(box, left->said, left->size, left->in.at, at_most(told->left_out, left->size));
        say_stream(box, room, size, to, told);
        return;
    }
    end(box);
}

void gob_raw_convert(const unsigned char *bytes, size_t count, const struct raw_asked *asked,
                     const unsigned char *source, size_t source_count, const unsigned char *name, size_t name_count,
                     const unsigned char *renames, size_t renames_count, unsigned char *room, size_t size,
                     struct raw_stream *told, unsigned char *said, size_t said_size, unsigned char *left,
                     size_t left_size) {
    words to = {said, said_size, {0, 0}}, line = {left, left_size, {0, 0}};
    asking by = {asked, {source, source_count}, {name, name_count}, {renames, renames_count}};
    convert(code_gob_raw_convert, (given){bytes, count}, by, room, size, &to, &line, told);
}

void gob_raw_convert_like(const unsigned char *bytes, size_t count, const struct raw_asked *asked,
                          const unsigned char *stream, size_t stream_count, const unsigned char *name,
                          size_t name_count, const unsigned char *renames, size_t renames_count, unsigned char *room,
                          size_t size, struct raw_stream *told, unsigned char *said, size_t said_size,
                          unsigned char *left, size_t left_size) {
    words to = {said, said_size, {0, 0}}, line = {left, left_size, {0, 0}};
    asking by = {asked, {stream, stream_count}, {name, name_count}, {renames, renames_count}};
    convert(code_gob_raw_convert_like, (given){bytes, count}, by, room, size, &to, &line, told);
}

/* One of the exports that make a writer. */
typedef void writer_opening(code *, u64 types, u64 count, u64 name, u64 name_count, u64 handle, u64 told, u64 room,
                            u64 size);

/* Copies out what a call of a writer told and said. */
static void hear_written(sandbox *box, struct raw_written *told, unsigned char *room, size_t size) {
    hear(box, told, sizeof *told);
    get(box, room, size, box->heads.at, at_most(told->length, size));
}

static void open_writer(writer_opening *made, const unsigned char *types, size_t count, const unsigned char *name,
                        size_t name_count, void **writer, struct raw_written *told, unsigned char *room, size_t size) {
    sandbox *box = begun();
    *told = (struct raw_written){.status = GOB_NO_MEMORY};
    if (box != NULL && lent(box, &box->bytes, types, count) && lent(box, &box->nodes, name, name_count) &&
        room_in(box, &box->heads, size) == size) {
        made(&box->wasm, box->bytes.at, count, box->nodes.at, name_count, box->handle, box->told, box->heads.at, size);
        hear_written(box, told, room, size);
    }
    if (told->status == GOB_OK) *writer = box;
    else end(box);
}

void gob_raw_writer_open(const unsigned char *source, size_t count, const unsigned char *name, size_t name_count,
                         void **writer, struct raw_written *told, unsigned char *room, size_t size) {
    open_writer(code_gob_raw_writer_open, source, count, name, name_count, writer, told, room, size);
}

void gob_raw_writer_open_like(const unsigned char *stream, size_t count, const unsigned char *name, size_t name_count,
                              void **writer, struct raw_written *told, unsigned char *room, size_t size) {
    open_writer(code_gob_raw_writer_open_like, stream, count, name, name_count, writer, told, room, size);
}

void gob_raw_writer_put(void **writer, const unsigned char *text, size_t count, struct raw_written *told,
                        unsigned char *room, size_t size) {
    sandbox *box = *writer;
    *told = (struct raw_written){.status = GOB_NO_MEMORY};
    if (!lent(box, &box->bytes, text, count)) return;
    code_gob_raw_writer_put(&box->wasm, box->handle, box->bytes.at, count, box->told, box->heads.at, size);
    hear_written(box, told, room, size);
}

/* One of the exports that hand out what a writer wrote. */
typedef void writer_taking(code *, u64 handle, u64 room, u64 size, u64 count);

/* (where the translated code has too little room for what there is room for, more is asked for than there can be) */
static void take_written(writer_taking *taking, sandbox *box, unsigned char *room, size_t size, uint64_t *count) {
    u64 some = room_in(box, &box->nodes, size);
    taking(&box->wasm, box->handle, box->nodes.at, some, box->told);
    get(box, count, sizeof *count, box->told, sizeof *count);
    if (*count <= some) get(box, room, size, box->nodes.at, *count);
    else if (*count <= size) *count = UINT64_MAX;
}

void gob_raw_writer_take(void **writer, unsigned char *room, size_t size, uint64_t *count) {
    take_written(code_gob_raw_writer_take, *writer, room, size, count);
}

void gob_raw_writer_close(void *writer) { end(writer); }

void gob_raw_items_open(const struct raw_asked *asked, void **writer, struct raw_written *told) {
    sandbox *box = begun();
    *told = (struct raw_written){.status = GOB_NO_MEMORY};
    if (box == NULL) return;
    put(box, box->piece, asked, sizeof *asked);
    code_gob_raw_items_open(&box->wasm, box->piece, box->handle, box->told);
    hear(box, told, sizeof *told);
    if (told->status == GOB_OK) *writer = box;
    else end(box);
}

void gob_raw_items_put(void **writer, const struct raw_given *given, const gob_node *nodes, size_t node_count,
                       const unsigned char *bytes, size_t size, struct raw_written *told, unsigned char *room,
                       size_t room_size) {
    sandbox *box = *writer;
    *told = (struct raw_written){.status = GOB_NO_MEMORY};
    if (node_count > SIZE_MAX / sizeof *nodes) return;
    if (!lent(box, &box->nodes, (const unsigned char *)nodes, node_count * sizeof *nodes)) return;
    if (!lent(box, &box->bytes, bytes, size) || room_in(box, &box->heads, room_size) < room_size) return;
    put(box, box->piece, given, sizeof *given);
    code_gob_raw_items_put(&box->wasm, box->handle, box->piece, box->nodes.at, node_count, box->bytes.at, size,
                           box->told, box->heads.at, room_size);
    hear_written(box, told, room, room_size);
}

void gob_raw_items_take(void **writer, unsigned char *room, size_t size, uint64_t *count) {
    take_written(code_gob_raw_items_take, *writer, room, size, count);
}

void gob_raw_items_close(void *writer) { end(writer); }
