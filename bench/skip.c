/* Skips through a gob stream, and counts its items: what a check of it can hardly be faster than.
 *
 *     skip FILE
 *
 * It reads the definitions, and walks each value by its type, number by number, with no more checks than keep it within the
 * file. It doesn't look at what the numbers are, whether types are ready, or how deep a value is.
 */
#include <fcntl.h>
#include <stdint.h>
#include <stdio.h>
#include <stdlib.h>
#include <sys/mman.h>
#include <sys/stat.h>

enum kind { NONE, NUMBER, PAIR_OF_NUMBERS, RAW, LIST, MAP, STRUCT };

struct type {
    enum kind kind;
    uint32_t key, elem;
    uint32_t count, *fields;
};

static struct type types[65536];
static const uint8_t *end;

static void stop(const char *why) {
    fprintf(stderr, "skip: %s\n", why);
    exit(1);
}

static inline uint64_t number(const uint8_t **at) {
    if (*at == end) stop("short");
    uint8_t head = *(*at)++;
    if (head < 128) return head;
    int digits = 256 - head;
    if (digits > 8 || end - *at < digits) stop("bad number");
    uint64_t n = 0;
    while (digits-- > 0) n = n << 8 | *(*at)++;
    return n;
}

static inline int64_t signed_number(const uint8_t **at) {
    uint64_t n = number(at);
    return n & 1 ? -(int64_t)(n >> 1) - 1 : (int64_t)(n >> 1);
}

static struct type *type_of(uint64_t id) {
    if (id >= 65536 || types[id].kind == NONE) stop("no such type");
    return &types[id];
}

static const uint8_t *raw(const uint8_t *at) {
    uint64_t bytes = number(&at);
    if (bytes > (uint64_t)(end - at)) stop("short");
    return at + bytes;
}

static const uint8_t *value(const struct type *type, const uint8_t *at) {
    switch (type->kind) {
    case NUMBER:
        number(&at);
        return at;
    case PAIR_OF_NUMBERS:
        number(&at);
        number(&at);
        return at;
    case RAW:
        return raw(at);
    case LIST: {
        const struct type *elem = type_of(type->elem);
        for (uint64_t left = number(&at); left > 0; left--) at = value(elem, at);
        return at;
    }
    case MAP: {
        const struct type *key = type_of(type->key), *elem = type_of(type->elem);
        for (uint64_t left = number(&at); left > 0; left--) at = value(elem, value(key, at));
        return at;
    }
    case STRUCT: {
        uint64_t field = 0, delta;
        while ((delta = number(&at)) != 0) {
            field += delta;
            if (field > type->count) stop("no such field");
            at = value(type_of(type->fields[field - 1]), at);
        }
        return at;
    }
    case NONE:
        break;
    }
    stop("no such type");
    return at;
}

/* A struct of the description: tells the number of each field that is there. */
static uint64_t next_field(const uint8_t **at, uint64_t *field) {
    uint64_t delta = number(at);
    *field += delta;
    return delta == 0 ? 0 : *field;
}

/* Skips CommonType. */
static void common(const uint8_t **at) {
    uint64_t field = 0, which;
    while ((which = next_field(at, &field)) != 0) {
        if (which == 1) *at = raw(*at);
        else number(at);
    }
}

/* Reads the list of fields. */
static void fields(struct type *type, const uint8_t **at) {
    type->count = (uint32_t)number(at);
    type->fields = calloc(type->count + 1, sizeof *type->fields);
    for (uint32_t n = 0; n < type->count; n++) {
        uint64_t field = 0, which;
        while ((which = next_field(at, &field)) != 0) {
            if (which == 1) *at = raw(*at);
            else type->fields[n] = (uint32_t)signed_number(at);
        }
    }
}

static void definition(struct type *type, const uint8_t *at) {
    static const enum kind kinds[] = {NONE, LIST, LIST, STRUCT, MAP, RAW, RAW, RAW};
    uint64_t wire = 0, kind = next_field(&at, &wire);
    if (kind == 0 || kind > 7) stop("no such kind");
    type->kind = kinds[kind];
    uint64_t field = 0, which;
    while ((which = next_field(&at, &field)) != 0) {
        if (which == 1) common(&at);
        else if (kind == 3) fields(type, &at);
        else if (kind == 4 && which == 2) type->key = (uint32_t)signed_number(&at);
        else if (kind <= 2 && which == 3) number(&at);
        else type->elem = (uint32_t)signed_number(&at);
    }
}

int main(int argc, char **argv) {
    static const enum kind basic[] = {NONE, NUMBER, NUMBER, NUMBER, NUMBER, RAW, RAW, PAIR_OF_NUMBERS, NUMBER};
    if (argc != 2) stop("skip FILE");
    int file = open(argv[1], O_RDONLY);
    struct stat about;
    if (file < 0 || fstat(file, &about) != 0 || about.st_size == 0) stop("no such file");
    const uint8_t *at = mmap(NULL, (size_t)about.st_size, PROT_READ, MAP_PRIVATE | MAP_POPULATE, file, 0);
    if (at == MAP_FAILED) stop("no such file");
    end = at + about.st_size;
    for (int id = 1; id <= 8; id++) types[id].kind = basic[id];
    uint64_t items = 0;
    for (; at < end; items++) {
        uint64_t length = number(&at);
        if (length > (uint64_t)(end - at)) stop("short");
        const uint8_t *body = at;
        at += length;
        int64_t id = signed_number(&body);
        if (id < 0) {
            if (id <= -65536) stop("a great id");
            definition(&types[-id], body);
            continue;
        }
        const struct type *type = type_of((uint64_t)id);
        if (type->kind != STRUCT) number(&body);
        if (value(type, body) != at) stop("an item of another length");
    }
    printf("%llu items\n", (unsigned long long)items);
    return 0;
}
