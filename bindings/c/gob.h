/* gob.h: gob streams, as Go's encoding/gob writes them, read exactly and without the Go types, and written from JSON.
 *
 * Bytes are fed as they come, and items are taken as they are whole: definitions of types, and values. A value is a
 * flat array of nodes and the raw bytes of all its parts. Where the bytes are no gob stream, a fault says why, at which
 * byte, and how many bytes show it; the items before it can still be taken.
 *
 *     gob_fault fault;
 *     gob_item item;
 *     int some = 0;
 *     gob_reader *reader = gob_open(NULL, &fault);
 *     while (fault.status == GOB_OK && some == 0 && (count = fread(piece, 1, sizeof piece, stdin)) > 0) {
 *         gob_feed(reader, piece, count, &fault);
 *         while ((some = gob_next(reader, &item)) == 1) use(&item);      (also the items before a fault)
 *     }
 *     if (fault.status == GOB_OK || some < 0) gob_finish(reader, &fault);
 *     gob_close(reader);
 *
 * Behind it fault.status says how that ended: GOB_OK exactly where all of the bytes are a stream and each item was
 * used. Writing is below, from gob_writer on.
 *
 * Ownership. The caller owns the reader and lets it go by gob_close, once, and so a check by gob_check_close and a
 * writer by gob_writer_close. The library keeps no pointer that it is given: a piece may be reused as soon as gob_feed
 * returns. What it hands out it owns: see gob_next, gob_take, gob_type and gob_writer_take for how long that stands.
 * All memory comes from malloc.
 *
 * Memory. A reader takes 1.3 MB, and of an item its bytes and 24 bytes for each of its parts; for an interface that
 * holds a number, all in all 260 bytes. An item of 64 MiB, the standard limit, may have as many parts as bytes, and
 * takes 1.7 GB then, or of interfaces 2.2 GB. A server sets gob_limits.item to what it can spare: 1048576 makes that
 * 35 MB.
 *
 * Misuse. NULL for a reader, a check or a writer, as gob_close leaves none, and NULL for a piece that has a length are
 * answered: GOB_MISUSED, -1 or NULL. Nothing can tell a reader that was let go, one that another thread is in, a piece
 * that is shorter than its length says, or an item whose time is over.
 *
 * Threads. A reader stays on the thread that opened it, and so do a check and a writer. Different readers may be used
 * in different threads at once. No call may be made from a signal handler.
 *
 * Stack. A call takes less than 32 KB of it however deep a value is. Where interfaces hold others in one another, 999
 * at the most, it takes up to 1 KB for each of them: 1 MB in all. With a reader of gob_open_exact it never does. A call
 * for a text takes up to 1 KB for each level of a value, and one of a writer or for a stream up to 2.5 KB, of which
 * there are 1000 at the most.
 *
 * x86-64 Linux, from x86-64-v2 on. Link with -lgob, or take flags from pkg-config's gob.
 */
#ifndef GOB_H
#define GOB_H

#include <stddef.h>
#include <stdint.h>
#include <string.h>

#ifdef __cplusplus
extern "C" {
#endif

#if defined __GNUC__
#define GOB_API __attribute__((visibility("default")))
#else
#define GOB_API
#endif

/* The interface that this header declares. It goes up where a program would have to be compiled anew. */
#define GOB_ABI 2

/* GOB_ABI of the library that was found, to be compared with the header's. */
GOB_API uint32_t gob_abi(void);

/* The version that this header is of, and the version of the library that was found. It is never freed. */
#define GOB_VERSION "0.1.0"
GOB_API const char *gob_version(void);

/* ---- How a call ends */

typedef enum gob_status {
    GOB_OK = 0,
    GOB_REFUSED = 1,    /* the bytes are no gob stream: reason, place and seen say why */
    GOB_NO_MEMORY = 2,  /* malloc had none */
    GOB_FAILED = 3,     /* a fault was met in a call before, and no more is read or written */
    GOB_BAD_LIMITS = 4, /* the depth is 0 or above 65536, or the stream above 2^63 - 1 */
    GOB_MISUSED = 5     /* NULL was given for a reader or its like, or for bytes that have a length; nothing was done */
} gob_status;

/* How a call ended. Offsets are those of the stream, in bytes from 0, whatever pieces it came in. Each call that takes
 * a gob_fault writes all of it; NULL may stand for it, where the answer is enough. */
typedef struct gob_fault {
    uint32_t status; /* a gob_status */
    uint32_t reason; /* where refused: why, GOB_REASON_BAD_HEAD or another; else 0 */
    uint64_t id;     /* the type id that the reason speaks of, where gob_speaks_of_id says so; else 0 */
    uint64_t place;  /* where refused: the first refused byte; else 0 */
    uint64_t seen;   /* where refused: how many bytes of the stream show it; else 0 */
    uint64_t begin;  /* where refused: where the refused item begins, so that so many bytes are whole items; else 0 */
} gob_fault;

/* Why bytes are refused. */
enum {
    GOB_REASON_BAD_HEAD = 1,
    GOB_REASON_NOT_MINIMAL = 2,
    GOB_REASON_ITEM_TOO_LONG = 3,
    GOB_REASON_STREAM_TOO_LONG = 4,
    GOB_REASON_SHORT = 5,
    GOB_REASON_EXTRA = 6,
    GOB_REASON_RESERVED_TYPE = 7,
    GOB_REASON_DEFINED_TWICE = 8,
    GOB_REASON_TOO_MANY_TYPES = 9,
    GOB_REASON_UNDEFINED_TYPE = 10,
    GOB_REASON_BOTTOMLESS = 11,
    GOB_REASON_SINGLE_TAG = 12,
    GOB_REASON_BOOL = 13,
    GOB_REASON_ARRAY_COUNT = 14,
    GOB_REASON_FIELD_NUMBER = 15,
    GOB_REASON_INTERFACE_VALUE = 16,
    GOB_REASON_TOO_DEEP = 17,
    GOB_REASON_KIND_COUNT = 18,
    GOB_REASON_WRONG_ID = 19,
    GOB_REASON_BAD_REFERENCE = 20,
    GOB_REASON_BAD_LENGTH = 21,
    GOB_REASON_ENDED = 22
};

/* The name of a reason: "BadHead" for 1, and so on; "" for any other number. It is never freed. */
GOB_API const char *gob_reason_name(uint32_t reason);

/* What is wrong, in a sentence: "No number begins with this byte." for 1, as `gob why` says it; "" for any other
 * number. It is never freed. */
GOB_API const char *gob_reason_text(uint32_t reason);

/* Whether a reason speaks of a type id, which may be 0. */
static inline int gob_speaks_of_id(uint32_t reason) {
    return reason == GOB_REASON_RESERVED_TYPE || reason == GOB_REASON_DEFINED_TWICE ||
           reason == GOB_REASON_UNDEFINED_TYPE || reason == GOB_REASON_BOTTOMLESS;
}

/* ---- Parts of values, and definitions */

/* The kinds of nodes. The first eight are the type ids of the basic types. */
enum {
    GOB_BOOL = 1,
    GOB_INT = 2,
    GOB_UINT = 3,
    GOB_FLOAT = 4,
    GOB_BYTES = 5,
    GOB_STRING = 6,
    GOB_COMPLEX = 7,
    GOB_NIL = 8,     /* a nil interface; one that holds a value is GOB_HELD */
    GOB_LIST = 9,    /* a slice or an array */
    GOB_MAP = 10,    /* keys and elements, which alternate */
    GOB_STRUCT = 11, /* the fields that are present, in order */
    GOB_OPAQUE = 12, /* what GobEncode, MarshalBinary or MarshalText wrote: only the Go type explains it */
    GOB_ARRAY = 13,  /* in definitions alone */
    GOB_TYPE = 14,   /* in definitions alone: names a type */
    GOB_HELD = 15    /* an interface that holds a value; a reader of gob_open_exact has none */
};

/* One part of a value. The parts of a part follow it at once, so that a whole value is one array of nodes.
 *
 *   kind                  first                               second
 *   bool int uint         the unsigned number as spelled      0                               gob_int_of
 *   float                 the 64 bits                         0                               gob_float_of
 *   complex               the real part's bits                the imaginary part's bits       gob_double
 *   bytes string opaque   where they begin in the item        how many there are              gob_bytes_of
 *   nil                   0                                   0
 *   list map struct       how many elements, pairs, fields    how many nodes, its own too     gob_after
 *   held                  how many nodes further on it stands the type id of what it holds    gob_held
 *
 * What an interface holds stands behind all nodes of the value around it, so that the parts of a part are counted
 * without it, and gob_after goes past the interface as past a nil. A string stands first, the name under which the
 * writer registered the type, and behind it the nodes of the value, which may hold others again.
 *
 * A definition has first a node of the type's kind: `first` and `second` are where its name stands and how long it is,
 * and `number` is of an opaque type 1 for GobEncode, 2 for MarshalBinary and 3 for MarshalText. Behind it stands a node
 * of the kind GOB_TYPE for each type that it names, whose `number` is that type's id: of a list or an array the
 * elements', of a map the keys' and then the elements', of a struct each field's, with the field's name. `first` of an
 * array's is how many elements it has. */
typedef struct gob_node {
    uint64_t first;
    uint64_t second;
    uint32_t number; /* of a field of a struct its number there, from 0; else 0 */
    uint16_t kind;
    uint16_t named;  /* 1 where it is a field of a struct, else 0 */
} gob_node;

enum { GOB_DEFINE = 1, GOB_VALUE = 2 };

/* An item. */
typedef struct gob_item {
    uint32_t kind;              /* GOB_DEFINE or GOB_VALUE */
    uint32_t id;                /* the type that is defined, or the value's type */
    const gob_node *nodes;      /* its nodes, the whole value or the type itself first */
    size_t count;               /* how many nodes there are, 1 at least */
    const unsigned char *bytes; /* the raw bytes of all parts, or the names; they end with no 0 */
    size_t size;                /* how many bytes there are */
    uint64_t begin;             /* where it begins in the stream, or the value that it stands in, in bytes from 0 */
    uint64_t end;               /* and where the bytes behind that begin */
} gob_item;

/* The number of an int. */
static inline int64_t gob_int_of(const gob_node *node) {
    return (int64_t)((node->first >> 1) ^ (0 - (node->first & 1)));
}

/* The double of these 64 bits. */
static inline double gob_double(uint64_t bits) {
    double number;
    memcpy(&number, &bits, sizeof number);
    return number;
}

/* The number of a float. */
static inline double gob_float_of(const gob_node *node) { return gob_double(node->first); }

/* Where the bytes of a byte string, a string or an opaque value begin; node->second says how many they are. */
static inline const unsigned char *gob_bytes_of(const gob_item *item, const gob_node *node) {
    return item->bytes + node->first;
}

/* The node behind this part and all that is in it. */
static inline const gob_node *gob_after(const gob_node *node) {
    return node + (node->kind >= GOB_LIST && node->kind <= GOB_STRUCT ? node->second : 1);
}

/* What an interface holds: the first of its nodes, of the type node->second. The node is of the kind GOB_HELD. */
static inline const gob_node *gob_held(const gob_node *node) { return node + node->first + 1; }

/* The name under which its type was registered, as a string. */
static inline const gob_node *gob_held_name(const gob_node *node) { return node + node->first; }

/* The field of this name in a struct, whose type has this definition. NULL where it is absent, as a field that is zero
 * is, and where the node is no struct, or the type has no such field. */
static inline const gob_node *gob_field(const gob_item *definition, const gob_node *node, const char *name) {
    if (node->kind != GOB_STRUCT) return NULL;
    size_t size = strlen(name);
    const gob_node *end = gob_after(node);
    for (const gob_node *field = node + 1; field != end; field = gob_after(field)) {
        const gob_node *named = &definition->nodes[1 + field->number];
        if (named->second == size && memcmp(gob_bytes_of(definition, named), name, size) == 0) return field;
    }
    return NULL;
}

/* What a part is: 1 where it is a bool, an int, a uint or a float, which is written then; else 0, also of NULL. */
static inline int gob_as_bool(const gob_node *node, int *is) {
    if (node == NULL || node->kind != GOB_BOOL) return 0;
    *is = node->first != 0;
    return 1;
}

static inline int gob_as_int(const gob_node *node, int64_t *number) {
    if (node == NULL || node->kind != GOB_INT) return 0;
    *number = gob_int_of(node);
    return 1;
}

static inline int gob_as_uint(const gob_node *node, uint64_t *number) {
    if (node == NULL || node->kind != GOB_UINT) return 0;
    *number = node->first;
    return 1;
}

static inline int gob_as_float(const gob_node *node, double *number) {
    if (node == NULL || node->kind != GOB_FLOAT) return 0;
    *number = gob_float_of(node);
    return 1;
}

/* The bytes of a string, which end with no 0, and how many they are; NULL where the part is none. */
static inline const char *gob_as_text(const gob_item *item, const gob_node *node, size_t *size) {
    if (node == NULL || node->kind != GOB_STRING) return NULL;
    *size = node->second;
    return (const char *)gob_bytes_of(item, node);
}

/* ---- Reading */

/* What a stream may have. What goes beyond is refused. */
typedef struct gob_limits {
    uint64_t item;   /* bytes of an item's body; 67108864 in the standard limits */
    uint64_t depth;  /* of a value, 1 to 65536; 1000 in the standard limits, and at most that but in gob_open_exact */
    uint64_t types;  /* definitions; 10000 in the standard limits */
    uint64_t stream; /* bytes of the whole stream, at most 2^63 - 1; 68719476736 in the standard limits */
} gob_limits;

/* A reader of one stream. */
typedef struct gob_reader gob_reader;

/* A new reader of all that Go's encoder writes, which has taken no byte. Interfaces may hold values, of the kind
 * GOB_HELD; the definitions that stand in a value are items in front of it. What an interface holds is one deeper than
 * the interface, and no value may be deeper than 1000. `limits` may be NULL, for the standard ones. NULL where there
 * is no memory, or where these are no limits: `fault` says which. */
GOB_API gob_reader *gob_open(const gob_limits *limits, gob_fault *fault);

/* A new reader of the format that Go documents, and of nothing else: a value in an interface is refused, as
 * InterfaceValue, and so is a type that Go gives an id of its own, as WrongId. A value may be as deep as the limits
 * allow. */
GOB_API gob_reader *gob_open_exact(const gob_limits *limits, gob_fault *fault);

/* Takes the next `count` bytes of the stream; `piece` may be NULL where they are none. The items that are whole with
 * them can be taken then, also those before a fault. A refusal comes in the call that brings the last of the bytes
 * that show it. After a fault the reader reads no more, and answers GOB_FAILED. Items that aren't taken are kept. The
 * answer is fault->status. */
GOB_API gob_status gob_feed(gob_reader *reader, const void *piece, size_t count, gob_fault *fault);

/* Says that no byte follows. GOB_OK exactly between two items, and then nothing has changed; else refused, with the
 * reason Ended. GOB_NO_MEMORY while an item waits for which gob_next or gob_take had no memory: nothing has changed
 * then either, and both can be tried again. The answer is fault->status. */
GOB_API gob_status gob_finish(gob_reader *reader, gob_fault *fault);

/* The next item that is whole. 1: it is in `item`, whose pointers stand until the next gob_next, gob_take or gob_close
 * of this reader. 0: there is none until more is fed. -1: there is no memory for it, and it is kept; so it is where
 * NULL was given. */
GOB_API int gob_next(gob_reader *reader, gob_item *item);

/* The definition of a type that the stream has given so far, or of one of the types 16 to 24 of which descriptions are
 * made. NULL where there is none, and where there is no memory: of a type that a value has, or that a definition names
 * which a value has, only there. It stands until gob_close. */
GOB_API const gob_item *gob_type(gob_reader *reader, uint32_t id);

/* Lets the reader go, with all that it handed out. NULL is let pass. */
GOB_API void gob_close(gob_reader *reader);

/* ---- Many items at once, for those who read from another language */

/* Where an item stands in a batch: its type id, the place of its first node and how many it has, the place of its first
 * byte and how many it has, and GOB_DEFINE or GOB_VALUE. `begin` and `end` are those of gob_item. */
typedef struct gob_head {
    uint64_t id;
    uint64_t node;
    uint64_t nodes;
    uint64_t byte;
    uint64_t bytes;
    uint64_t kind;
    uint64_t begin;
    uint64_t end;
} gob_head;

/* Items, one behind another. */
typedef struct gob_batch {
    const gob_head *heads;
    const gob_node *nodes;
    const unsigned char *bytes;
    uint64_t items;      /* how many heads there are */
    uint64_t node_count; /* how many nodes */
    uint64_t byte_count; /* how many bytes */
} gob_batch;

/* The next items that are whole, some thousands at the most. 1: they are in `batch`, whose pointers stand until the
 * next gob_next, gob_take or gob_close of this reader. 0: there is none until more is fed. -1: there is no memory for
 * the next one, and it is kept; so it is where NULL was given. */
GOB_API int gob_take(gob_reader *reader, gob_batch *batch);

/* ---- Checking */

/* What there is in the items of a stream. */
typedef struct gob_counts {
    uint64_t items;  /* definitions and values; a definition that stands in a value is no item here */
    uint64_t types;  /* the types that are defined, also in values */
    uint64_t values; /* values: items that define no type */
    uint64_t bytes;  /* the bytes of these items: where the item behind them begins */
} gob_counts;

/* Goes through a whole stream that is held in memory, of all that Go's encoder writes, and keeps nothing of it.
 * `bytes` may be NULL where there are none, `limits` for the standard ones, and `counts` where the answer is enough.
 * The answer is fault->status: GOB_OK exactly where all of the bytes are a stream. `counts` is written there, and
 * where the bytes are refused, of the items in front of the refused one. */
GOB_API gob_status gob_check(const void *bytes, size_t count, const gob_limits *limits, gob_counts *counts,
                             gob_fault *fault);

/* So it goes through a stream of the format that Go documents. */
GOB_API gob_status gob_check_exact(const void *bytes, size_t count, const gob_limits *limits, gob_counts *counts,
                                   gob_fault *fault);

/* A check of one stream that comes in pieces. Items are counted and not kept: beside the types that are defined it
 * takes memory for one item at a time, and only where that doesn't stand whole in a piece. */
typedef struct gob_checker gob_checker;

/* A new check of all that Go's encoder writes, which has taken no byte. `limits` may be NULL, for the standard ones.
 * NULL where there is no memory, or where these are no limits: `fault` says which. */
GOB_API gob_checker *gob_check_open(const gob_limits *limits, gob_fault *fault);

/* A new check of the format that Go documents, and of nothing else. */
GOB_API gob_checker *gob_check_open_exact(const gob_limits *limits, gob_fault *fault);

/* Takes the next `count` bytes of the stream; `piece` may be NULL where they are none. `counts`, which may be NULL, is
 * written of the items that are whole by then, at each answer but GOB_MISUSED. A refusal comes in the call that brings
 * the last of the bytes that show it, and the refused item begins at counts->bytes, as at fault->begin. After a fault
 * the check takes no more, answers GOB_FAILED, and the counts stay. The answer is fault->status. */
GOB_API gob_status gob_check_feed(gob_checker *checker, const void *piece, size_t count, gob_counts *counts,
                                  gob_fault *fault);

/* Says that no byte follows. GOB_OK exactly where all of the bytes are a stream, of which `counts` tells then; else
 * refused, with the reason Ended. `counts`, which may be NULL, is written as by gob_check_feed. Behind GOB_OK nothing
 * has changed. It takes no memory. The answer is fault->status. */
GOB_API gob_status gob_check_finish(gob_checker *checker, gob_counts *counts, gob_fault *fault);

/* Lets the check go. NULL is let pass. */
GOB_API void gob_check_close(gob_checker *checker);

/* ---- Writing
 *
 * A writer makes the stream of values of one type, each given as plain JSON: an object of the fields of a struct, of
 * which those that are zero may be left out; an array; a number, a string, true, false or null; base64 for []byte; a
 * time as in RFC 3339. So gob_values_text prints them, and so people write them. The types are Go source, or those of
 * another stream. One of gob_writer_open_items makes a stream of items, each given as nodes.
 *
 *     const char *source = "type Point struct { X, Y int }";
 *     gob_writer_fault fault;
 *     gob_writer *writer = gob_writer_open(source, strlen(source), NULL, &fault);
 *     gob_writer_put_json(writer, "{\"X\":22,\"Y\":33}", 15, &fault);
 *     if (gob_writer_take(writer, &bytes, &count) == 1) fwrite(bytes, 1, count, file);
 *     gob_writer_close(writer);
 *
 * Behind each call fault.status says how that ended, and fault.text why in words. What is taken, one behind another, is
 * the stream of the definitions of the types and of the values of all texts that were answered GOB_OK, in order.
 *
 * A value may be as deep as 1000, and an item, as a stream, as long as the standard limits say: what is longer is
 * refused, as it would be read. */

/* How a call of a writer ended, or one that makes a stream. Each call that takes one writes all of it; NULL may stand
 * for it. `text` says why in UTF-8, as the program says it: "gob: column 6, at .X: a whole number of 64 bits is due".
 * It is one line, which ends with a 0, and is cut where it is long or memory is wanting. Behind GOB_OK, GOB_MISUSED and
 * GOB_BAD_LIMITS it is empty. */
typedef struct gob_writer_fault {
    uint32_t status; /* a gob_status */
    uint32_t reason; /* where a stream is refused, or can't go on: why, as GOB_REASON_TOO_DEEP; else 0 */
    uint64_t column; /* where a text or nodes say no value of the type: at which byte or node, from 1; else 0 */
    char text[496];
} gob_writer_fault;

/* A writer of one stream. */
typedef struct gob_writer gob_writer;

/* A new writer under the types that this Go source declares, `count` bytes of it: `type` declarations, as `gob types`
 * prints them or as they stand in a program. Its values are of the type of this name, or where `name` is NULL or has no
 * bytes of the first that is declared. That type and all that it leads to are defined in the stream. NULL where there
 * is no memory, where the source isn't read or declares no such type, or where gob has no values of it: `fault` says
 * which. */
GOB_API gob_writer *gob_writer_open(const char *source, size_t count, const char *name, gob_writer_fault *fault);

/* A new writer under the types of a whole stream that is held in memory, of the format that Go documents. Its values
 * are of the type of this name or id there, or where `name` is NULL or has no bytes of that of the stream's first
 * value. All definitions of that stream are written, and none of its values. NULL as by gob_writer_open. */
GOB_API gob_writer *gob_writer_open_like(const void *stream, size_t count, const char *name, gob_writer_fault *fault);

/* A new writer that is given items, of gob_next or of one's own, as a stream has them: each definition, and values of
 * the types that were defined. `limits` may be NULL, for the standard ones; no value may be deeper than 1000. So a copy
 * of a stream is made, and what is wanted of it changed:
 *
 *     gob_writer *writer = gob_writer_open_items(NULL, &fault);
 *     while (gob_next(reader, &item) == 1) {
 *         if (is_wanted(&item)) gob_writer_put_item(writer, &item, &fault);
 *     }
 *
 * NULL where there is no memory, or where these are no limits: `fault` says which. */
GOB_API gob_writer *gob_writer_open_items(const gob_limits *limits, gob_writer_fault *fault);

/* Writes the item, of which `kind`, `id`, `nodes`, `count`, `bytes` and `size` count. What gob_next hands out is
 * written as the same item, and may be changed before, in a copy of its nodes: numbers as they are, and bytes by where
 * they stand, in any place of the item's bytes. All of the nodes are one value of the type, or one definition: a list,
 * a map or a struct says how many parts and nodes it has, fields come by rising numbers, and what interfaces hold
 * stands behind the nodes of the value around it, in the order of the interfaces, each behind its name. `named` and
 * `number` count where a field stands, and nowhere else.
 *
 * Whatever is given, nothing goes out but whole items that continue the stream. Else the item is GOB_REFUSED: then
 * nothing is written, and the writer goes on as if it hadn't been asked; `fault->column` is the node that is wrong,
 * from 1, and 0 where `fault->reason` says why the stream doesn't go on. GOB_MISUSED where the writer isn't one of
 * gob_writer_open_items, or the item is NULL, of another kind, or has NULL for nodes or bytes that it counts. Behind
 * GOB_NO_MEMORY all is as behind that of gob_writer_put_json. The answer is fault->status. */
GOB_API gob_status gob_writer_put_item(gob_writer *writer, const gob_item *item, gob_writer_fault *fault);

/* Writes the value that the text says, which is plain JSON in UTF-8; of a text of white space alone nothing. Where it
 * says no value of the type, or one that the stream can't go on with, that is GOB_REFUSED: then nothing is written, and
 * the writer goes on as if it hadn't been asked. So it is behind GOB_NO_MEMORY, unless memory was wanting for what is
 * to be taken: then the writer answers GOB_FAILED to each value from here on, and what it wrote before can be taken.
 * The answer is fault->status. */
GOB_API gob_status gob_writer_put_json(gob_writer *writer, const char *text, size_t count, gob_writer_fault *fault);

/* What is written and wasn't taken. 1: it is in `bytes`, which stand until the next gob_writer_take or gob_writer_close
 * of this writer, and `count` is how many they are. 0: there is nothing. -1: there is no memory for it, and it is kept;
 * so it is where NULL was given. What isn't taken takes memory. */
GOB_API int gob_writer_take(gob_writer *writer, const void **bytes, size_t *count);

/* Lets the writer go, with what it handed out. NULL is let pass. */
GOB_API void gob_writer_close(gob_writer *writer);

/* ---- Texts */

/* What `gob why` says of a stream that is held in memory: of a refused one the line of its refusal, and in words where
 * and why it is refused and what is behind it; of a whole one how much is in it, and how many values of each type. Each
 * line of a refusal behind the first begins with a word and a colon: what, where, expected, found, cause, next. The
 * last is for people with a shell: it names commands of the program, for the file of this name, which is in UTF-8.
 * `name` may be NULL; then IN stands there.
 *
 * As snprintf does, this writes no more than `size` bytes, the last of which is 0, and answers how many bytes the whole
 * text has without that: where they aren't fewer than `size`, the text was cut. `out` may be NULL where `size` is 0.
 * It is UTF-8, without a 0 and without control characters but line feeds and tabs. The answer is below 0 where there is
 * no text: -GOB_NO_MEMORY, -GOB_BAD_LIMITS or -GOB_MISUSED. `bytes` may be NULL where there are none, and `limits` for
 * the standard ones; no value may be deeper than 1000. */
GOB_API int64_t gob_why_text(const void *bytes, size_t count, const gob_limits *limits, const char *name, char *out,
                             size_t size);

/* So it gives what `gob types` prints: the types that a stream defines as Go source, each with the names under which it
 * fills interfaces; of a refused stream those of the items before. */
GOB_API int64_t gob_types_text(const void *bytes, size_t count, const gob_limits *limits, char *out, size_t size);

/* So it gives what `gob values` prints: a line of plain JSON for each value of a stream; of a refused stream those of
 * the items before. */
GOB_API int64_t gob_values_text(const void *bytes, size_t count, const gob_limits *limits, char *out, size_t size);

/* So it gives what `gob show --go` prints: lines of JSON that say all of each item of a stream, those of the
 * definitions in a value before its own; of a refused stream those of the items before. */
GOB_API int64_t gob_lines_text(const void *bytes, size_t count, const gob_limits *limits, char *out, size_t size);

/* ---- Streams of lines, and of other streams
 *
 * What gob_lines_text gives is changed as text, and written as a stream again; and the values of a stream become those
 * of another type, as Go's decoder takes them into it.
 *
 * These write no more than `size` bytes of the stream to `out`, with no 0 behind it, and answer how many it has: where
 * they are more than `size` it was cut. `out` may be NULL where `size` is 0. The answer is below 0 where there is none:
 * -GOB_NO_MEMORY, -GOB_BAD_LIMITS or -GOB_MISUSED. `fault` may be NULL; where its status is GOB_REFUSED the stream ends
 * in front of what is refused, and its text says what that is. */

/* The stream that these lines say, `count` bytes of them, as `gob write --go` writes it. A text of digits may stand for
 * each number, the members of a definition in any order, and a line of white space says nothing. Where a line says no
 * item by the types of those before, that is GOB_REFUSED, at the byte `fault->column` of the line that the text names,
 * as "gob: line 3, column 28, at .X: a whole number of 64 bits is due". Where no stream goes on with its item
 * `fault->reason` says why, as GOB_REASON_TOO_DEEP, and no line may have more than 268435456 bytes. */
GOB_API int64_t gob_lines_stream(const char *lines, size_t count, void *out, size_t size, gob_writer_fault *fault);

/* The stream of the values of another, each received as one of the type that this Go source declares, as `gob convert`
 * writes it: the type of this name, or where `name` is NULL or has no bytes the first that is declared. Fields go by
 * their names: those that the wanted type lacks are left out. What interfaces hold goes along, with its types.
 * GOB_REFUSED where the source gives no such type; where the bytes are refused, with `fault->reason`; where the type of
 * a value doesn't match: "gob: clash 33 DifferentKind at .X: value 3 has an int there, and a string is wanted"; and
 * where no more goes into one stream, with `fault->reason`. */
GOB_API int64_t gob_convert(const void *bytes, size_t count, const gob_limits *limits, const char *source,
                            size_t source_count, const char *name, void *out, size_t size, gob_writer_fault *fault);

/* So it makes the stream of values of a type of a third stream: of this name or id there, or where `name` is NULL or
 * has no bytes of that of the stream's first value. A stream of which a type is asked for by its name is of the format
 * that Go documents. */
GOB_API int64_t gob_convert_like(const void *bytes, size_t count, const gob_limits *limits, const void *stream,
                                 size_t stream_count, const char *name, void *out, size_t size,
                                 gob_writer_fault *fault);

/* What is asked of gob_convert_with. A member that is 0 or NULL asks for nothing. */
typedef struct gob_conversion {
    const gob_limits *limits;   /* NULL: the standard ones */
    const char *source;         /* Go source that declares the wanted type, as for gob_convert, */
    size_t source_count;        /* so many bytes of it; */
    const void *stream;         /* or a stream that has it, as for gob_convert_like, where this isn't NULL, */
    size_t stream_count;        /* so many bytes of it */
    const char *name;           /* of the wanted type, or NULL */
    const char *const *renames; /* fields that have another name in the stream: "Old=New", */
    size_t rename_count;        /* so many */
    int all;                    /* whether no field of a value may be left out */
} gob_conversion;

/* Room for the line of the fields that values left out, as "gob: left out .Tries of 1 value, .Tags of 1: they aren't
 * wanted". It gets no more than `size` bytes of it, the last of which is 0; `text` may be NULL where `size` is 0. */
typedef struct gob_left_out {
    char *text;
    size_t size;
    uint64_t length; /* how many bytes the whole line has without the 0, which is written: 0 where there is none */
} gob_left_out;

/* So it converts as `asked` says, and tells what the values of the stream that is made left out. A rename "User=Name"
 * has the wanted field Name take what the stream has under the name User, "Login.User=Name" in the wanted structs named
 * Login alone; each is of the names that those before it leave. GOB_REFUSED, with no byte written, where a rename says
 * nothing, or doesn't fit the wanted type: "gob: rename User=Nme: the wanted type has no field Nme". With `all` it is
 * GOB_REFUSED in front of the first value that would leave out a field: "gob: value 3 has .Tries, which isn't wanted".
 * -GOB_MISUSED where both a source and a stream are given, or NULL for `asked` or for a rename. `left` may be NULL. */
GOB_API int64_t gob_convert_with(const void *bytes, size_t count, const gob_conversion *asked, void *out, size_t size,
                                 gob_left_out *left, gob_writer_fault *fault);

#ifdef __cplusplus
}
#endif

#endif
