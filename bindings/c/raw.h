/* What the proved archive exports, and what it needs. A call is given the place of the reader's pointer, and leaves
 * there the one that stands for the reader from then on. Not installed. Nothing compares this with
 * crates/gob_c/src/lib.rt but the tests. */
#ifndef GOB_RAW_H
#define GOB_RAW_H

#include "gob.h"

#include <stdbool.h>

/* How much was handed out, and how much waits. */
struct raw_handed {
    uint64_t items, nodes, bytes, waiting, next_nodes, next_bytes;
};

/* What is asked: limits; of a reader or a check whether it reads the documented format alone; and of a conversion
 * whether no field of a value may be left out. */
struct raw_asked {
    gob_limits limits;
    bool exact, all;
};

void gob_raw_open(const struct raw_asked *asked, gob_fault *told, void **reader);
void gob_raw_feed(void **reader, const unsigned char *piece, size_t count, gob_fault *told);
void gob_raw_finish(void **reader, gob_fault *told);
void gob_raw_take(void **reader, gob_head *heads, size_t head_room, gob_node *nodes, size_t node_room,
                  unsigned char *bytes, size_t byte_room, struct raw_handed *told);
void gob_raw_type(void **reader, uint64_t id, gob_node *nodes, size_t node_room, unsigned char *bytes,
                  size_t byte_room, struct raw_handed *told);
void gob_raw_check(const unsigned char *bytes, size_t count, const struct raw_asked *asked, gob_counts *counts,
                   gob_fault *told);
void gob_raw_close(void *reader);

/* A check in pieces. Its counter stands behind a pointer as a reader does. */
void gob_raw_check_open(const struct raw_asked *asked, gob_fault *told, void **counter);
void gob_raw_check_feed(void **counter, const unsigned char *piece, size_t count, gob_counts *counts, gob_fault *told);
void gob_raw_check_finish(void **counter, gob_counts *counts, gob_fault *told);
void gob_raw_check_close(void *counter);

/* What is told of a text, as much of which stands in the room as there is room for: how that ended, and how long it is.
 * A name without bytes is none. */
struct raw_text {
    uint32_t status;
    uint64_t length;
};
void gob_raw_why_text(const unsigned char *bytes, size_t count, const struct raw_asked *asked,
                      const unsigned char *name, size_t name_count, unsigned char *room, size_t size,
                      struct raw_text *told);
void gob_raw_types_text(const unsigned char *bytes, size_t count, const struct raw_asked *asked, unsigned char *room,
                        size_t size, struct raw_text *told);
void gob_raw_values_text(const unsigned char *bytes, size_t count, const struct raw_asked *asked, unsigned char *room,
                         size_t size, struct raw_text *told);

/* A writer of values that are given as plain JSON. It stands behind a pointer as a reader does. Of a fault its words
 * stand in the room, as much of them as there is room for; `length` is how long they are. */
struct raw_written {
    uint32_t status, reason;
    uint64_t column, length;
};
void gob_raw_writer_open(const unsigned char *source, size_t count, const unsigned char *name, size_t name_count,
                         void **writer, struct raw_written *told, unsigned char *room, size_t size);
void gob_raw_writer_open_like(const unsigned char *stream, size_t count, const unsigned char *name, size_t name_count,
                              void **writer, struct raw_written *told, unsigned char *room, size_t size);
void gob_raw_writer_put(void **writer, const unsigned char *text, size_t count, struct raw_written *told,
                        unsigned char *room, size_t size);
/* It is taken where there is room for all of it, and else it is only told how much it is. */
void gob_raw_writer_take(void **writer, unsigned char *room, size_t size, uint64_t *count);
void gob_raw_writer_close(void *writer);

/* A writer of items that are given as nodes, behind a pointer of its own. `column` is a node that is wrong, from 1. */
struct raw_given {
    uint64_t id;
    bool defines;
};
void gob_raw_items_open(const struct raw_asked *asked, void **writer, struct raw_written *told);
void gob_raw_items_put(void **writer, const struct raw_given *given, const gob_node *nodes, size_t node_count,
                       const unsigned char *bytes, size_t size, struct raw_written *told, unsigned char *room,
                       size_t room_size);
void gob_raw_items_take(void **writer, unsigned char *room, size_t size, uint64_t *count);
void gob_raw_items_close(void *writer);

/* What is told of a stream that is made in memory, as much of which stands in the room as there is room for: how that
 * ended, and how long it is. Of a fault its words stand in `said`, as much of them as there is room for; `words` is how
 * long they are. A conversion is given each of its renames with a 0 behind it; the line of what the values leave out
 * stands in `left` so, and `left_out` is how long it is. */
struct raw_stream {
    uint32_t status, reason;
    uint64_t column, words, length, left_out;
};
void gob_raw_lines_text(const unsigned char *bytes, size_t count, const struct raw_asked *asked, unsigned char *room,
                        size_t size, struct raw_text *told);
void gob_raw_lines_stream(const unsigned char *lines, size_t count, unsigned char *room, size_t size,
                          struct raw_stream *told, unsigned char *said, size_t said_size);
void gob_raw_convert(const unsigned char *bytes, size_t count, const struct raw_asked *asked,
                     const unsigned char *source, size_t source_count, const unsigned char *name, size_t name_count,
                     const unsigned char *renames, size_t renames_count, unsigned char *room, size_t size,
                     struct raw_stream *told, unsigned char *said, size_t said_size, unsigned char *left,
                     size_t left_size);
void gob_raw_convert_like(const unsigned char *bytes, size_t count, const struct raw_asked *asked,
                          const unsigned char *stream, size_t stream_count, const unsigned char *name,
                          size_t name_count, const unsigned char *renames, size_t renames_count, unsigned char *room,
                          size_t size, struct raw_stream *told, unsigned char *said, size_t said_size,
                          unsigned char *left, size_t left_size);

/* What the archive asks of its caller: memory. A block that isn't had is told by `ok`, and its pointer isn't NULL. */
struct raw_block {
    bool ok;
    unsigned char *at;
};
struct raw_block rattle_alloc(size_t size, size_t align);
struct raw_block rattle_realloc(unsigned char *at, size_t kept, size_t size, size_t align);
void rattle_dealloc(unsigned char *at);

#endif
