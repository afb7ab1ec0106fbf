/* What `gob show --go` prints, by the library, or with `exact` what `gob show` does: show [PIECE [exact]] <STREAM.
 * Pieces have so many bytes. */
#include "../gob.h"

#include <inttypes.h>
#include <stdio.h>
#include <stdlib.h>

static gob_reader *reader;

static void put_hex(const unsigned char *s, size_t n) {
    for (size_t i = 0; i < n; i++) printf("%02x", s[i]);
}

/* How many bytes follow the first of a character; 9 where none begins so. */
static unsigned bytes_behind(unsigned first) {
    return first < 0x80 ? 0 : first >> 5 == 6 ? 1 : first >> 4 == 14 ? 2 : first >> 3 == 30 ? 3 : 9;
}

static int is_utf8(const unsigned char *s, size_t n) {
    static const unsigned long least[] = {0, 0x80, 0x800, 0x10000};
    for (size_t i = 0; i < n;) {
        unsigned first = s[i++], more = bytes_behind(first);
        if (more == 9 || more > n - i) return 0;
        unsigned long point = more == 0 ? first : first & (0x3f >> more);
        for (unsigned k = 0; k < more; k++, i++) {
            if (s[i] >> 6 != 2) return 0;
            point = point << 6 | (s[i] & 0x3f);
        }
        if (point < least[more] || point > 0x10ffff || (point >= 0xd800 && point < 0xe000)) return 0;
    }
    return 1;
}

static void put_text(const unsigned char *s, size_t n) {
    if (!is_utf8(s, n)) {
        printf("{\"hex\":\"");
        put_hex(s, n);
        printf("\"}");
        return;
    }
    putchar('"');
    for (size_t i = 0; i < n; i++) {
        if (s[i] == '"' || s[i] == '\\') printf("\\%c", s[i]);
        else if (s[i] >= 8 && s[i] <= 13 && s[i] != 11) printf("\\%c", "btn?fr"[s[i] - 8]);
        else if (s[i] < 0x20) printf("\\u%04x", s[i]);
        else putchar(s[i]);
    }
    putchar('"');
}

static const gob_item *definition_of(uint32_t type) {
    const gob_item *definition = gob_type(reader, type);
    if (definition != NULL) return definition;
    fflush(stdout);
    fprintf(stderr, "gob: out of memory\n");
    exit(2);
}

static uint32_t named(uint32_t type, size_t place) { return definition_of(type)->nodes[place].number; }

static const gob_node *put(const gob_item *item, const gob_node *node, uint32_t type) {
    const gob_node *part = node + 1;
    switch (node->kind) {
    case GOB_BOOL: printf(node->first ? "true" : "false"); break;
    case GOB_INT: printf("%" PRId64, gob_int_of(node)); break;
    case GOB_UINT: printf("%" PRIu64, node->first); break;
    case GOB_FLOAT: printf("\"%016" PRIx64 "\"", node->first); break;
    case GOB_COMPLEX: printf("[\"%016" PRIx64 "\",\"%016" PRIx64 "\"]", node->first, node->second); break;
    case GOB_NIL: printf("null"); break;
    case GOB_HELD:
        printf("{\"interface\":{\"name\":");
        put_text(gob_bytes_of(item, gob_held_name(node)), gob_held_name(node)->second);
        printf(",\"type\":%" PRIu64 ",\"value\":", node->second);
        put(item, gob_held(node), (uint32_t)node->second);
        printf("}}");
        break;
    case GOB_STRING: put_text(gob_bytes_of(item, node), node->second); break;
    case GOB_BYTES: putchar('"'); put_hex(gob_bytes_of(item, node), node->second); putchar('"'); break;
    case GOB_OPAQUE: printf("{\"opaque\":\""); put_hex(gob_bytes_of(item, node), node->second); printf("\"}"); break;
    case GOB_LIST:
        putchar('[');
        for (uint64_t i = 0; i < node->first; i++) {
            if (i) putchar(',');
            part = put(item, part, named(type, 1));
        }
        putchar(']');
        break;
    case GOB_MAP:
        putchar('[');
        for (uint64_t i = 0; i < node->first; i++) {
            printf(i ? ",[" : "[");
            part = put(item, part, named(type, 1));
            putchar(',');
            part = put(item, part, named(type, 2));
            putchar(']');
        }
        putchar(']');
        break;
    case GOB_STRUCT: {
        const gob_item *definition = definition_of(type);
        putchar('[');
        for (uint64_t i = 0; i < node->first; i++) {
            const gob_node *field = &definition->nodes[1 + part->number];
            printf(i ? ",[%" PRIu32 "," : "[%" PRIu32 ",", part->number);
            put_text(gob_bytes_of(definition, field), field->second);
            putchar(',');
            part = put(item, part, field->number);
            putchar(']');
        }
        putchar(']');
        break;
    }
    }
    return part;
}

static void put_type(const gob_item *d) {
    static const char *const opaque[] = {"", "gob", "binary", "text"};
    const gob_node *n = d->nodes;
    printf("{\"define\":%" PRIu32, d->id);
    switch (n->kind) {
    case GOB_ARRAY: printf(",\"elem\":%" PRIu32 ",\"kind\":\"array\",\"len\":%" PRIu64, n[1].number, n[1].first); break;
    case GOB_LIST: printf(",\"elem\":%" PRIu32 ",\"kind\":\"slice\"", n[1].number); break;
    case GOB_MAP: printf(",\"elem\":%" PRIu32 ",\"key\":%" PRIu32 ",\"kind\":\"map\"", n[2].number, n[1].number); break;
    case GOB_STRUCT:
        printf(",\"fields\":[");
        for (size_t i = 1; i < d->count; i++) {
            printf(i > 1 ? ",[" : "[");
            put_text(gob_bytes_of(d, &n[i]), n[i].second);
            printf(",%" PRIu32 "]", n[i].number);
        }
        printf("],\"kind\":\"struct\"");
        break;
    case GOB_OPAQUE: printf(",\"kind\":\"%s\"", opaque[n->number]); break;
    }
    printf(",\"name\":");
    put_text(gob_bytes_of(d, n), n->second);
    printf("}\n");
}

static int items(gob_reader *r) {
    gob_item item;
    int some;
    while ((some = gob_next(r, &item)) == 1) {
        if (item.kind == GOB_DEFINE) { put_type(&item); continue; }
        printf("{\"type\":%" PRIu32 ",\"value\":", item.id);
        put(&item, item.nodes, item.id);
        printf("}\n");
    }
    return some;
}

int main(int argc, char **argv) {
    size_t room = argc > 1 ? strtoul(argv[1], NULL, 10) : 65536, count;
    unsigned char *piece = malloc(room);
    gob_fault fault;
    gob_reader *r = argc > 2 ? gob_open_exact(NULL, &fault) : gob_open(NULL, &fault);
    if (r == NULL || piece == NULL) return fprintf(stderr, "gob: out of memory\n"), free(piece), gob_close(r), 2;
    reader = r;
    int some = 0;
    fault.status = GOB_OK;
    while (fault.status == GOB_OK && some == 0 && (count = fread(piece, 1, room, stdin)) > 0) {
        gob_feed(r, piece, count, &fault);
        some = items(r);
    }
    if (fault.status == GOB_OK && some == 0) gob_finish(r, &fault);
    gob_close(r);
    free(piece);
    if (fflush(stdout) != 0) return 2;
    if (fault.status == GOB_REFUSED) {
        fprintf(stderr, "gob: refused %" PRIu32 " %s", fault.reason, gob_reason_name(fault.reason));
        if (gob_speaks_of_id(fault.reason)) fprintf(stderr, "(%" PRIu64 ")", fault.id);
        fprintf(stderr, " at %" PRIu64 " seen %" PRIu64 "\n", fault.place, fault.seen);
        return 1;
    }
    if (fault.status != GOB_OK || some != 0) return fprintf(stderr, "gob: out of memory\n"), 2;
    return 0;
}
