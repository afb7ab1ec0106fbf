/* What crates/gob_show_many does, by the library, so that its output can be compared with what that writes. With `all` all
 * that Go's encoder writes is read, each stream is checked too, and texts are made of it. */
#define main show_main
#include "show.c"
#undef main

static unsigned char *all;
static size_t size, at;

static uint64_t number(void) {
    uint64_t n = 0;
    for (int i = 0; i < 8; i++) n = n << 8 | all[at++];
    return n;
}

static void put_fault(const gob_fault *fault) {
    if (fault->status != GOB_REFUSED) return;
    printf("gob: refused %" PRIu32 " %s", fault->reason, gob_reason_name(fault->reason));
    if (gob_speaks_of_id(fault->reason)) printf("(%" PRIu64 ")", fault->id);
    printf(" at %" PRIu64 " seen %" PRIu64 "\n", fault->place, fault->seen);
}

/* A block of its own with these bytes. */
static unsigned char *block_of(const unsigned char *bytes, size_t count) {
    unsigned char *block = malloc(count);
    if (count != 0) memcpy(block, bytes, count);
    return block;
}

/* Reads a stream in pieces; 2 where there is no memory. */
static int read_in_pieces(gob_reader *r, const unsigned char *bytes, size_t length, size_t first, size_t other,
                          gob_fault *fault) {
    for (size_t done = 0, count = first; done < length && fault->status == GOB_OK; done += count, count = other) {
        if (count > length - done) count = length - done;
        unsigned char *piece = block_of(bytes + done, count);
        gob_feed(r, piece, count, fault);
        free(piece);
        if (items(r) != 0) return 2;
    }
    if (fault->status == GOB_OK) gob_finish(r, fault);
    return 0;
}

/* What a check says of a stream, and the first line of what is said of it. */
static void put_checks(const unsigned char *bytes, size_t length, const gob_limits *limits) {
    char room[400];
    gob_counts counts;
    gob_fault fault;
    unsigned char *block = block_of(bytes, length);
    gob_check(block, length, limits, &counts, &fault);
    if (fault.status == GOB_OK)
        printf("ok: %" PRIu64 " items, %" PRIu64 " types, %" PRIu64 " bytes\n", counts.items, counts.types, counts.bytes);
    if (gob_types_text(block, length, limits, room, sizeof room) < (int64_t)strlen(room)) printf("no source\n");
    if (gob_why_text(block, length, limits, NULL, room, sizeof room) < (int64_t)strlen(room)) printf("nothing said\n");
    printf("%.*s\n", (int)strcspn(room, "\n"), room);
    free(block);
}

int main(int argc, char **argv) {
    size_t room = 1 << 20;
    int reads_all = argc > 1 && strcmp(argv[1], "all") == 0;
    all = malloc(room);
    for (size_t count; (count = fread(all + size, 1, room - size, stdin)) > 0; size += count)
        if (size + count == room) all = realloc(all, room *= 2);
    while (at < size) {
        gob_limits limits = {number(), number(), number(), number()};
        uint64_t first = number(), other = number(), length = number();
        gob_fault fault;
        gob_reader *r = reads_all ? gob_open(&limits, &fault) : gob_open_exact(&limits, &fault);
        if (r == NULL) return 2;
        reader = r;
        if (read_in_pieces(r, all + at, length, first, other, &fault) != 0) return 2;
        gob_close(r);
        put_fault(&fault);
        if (reads_all) put_checks(all + at, length, &limits);
        at += length;
        putchar('\n');
    }
    free(all);
    return fflush(stdout) != 0;
}
