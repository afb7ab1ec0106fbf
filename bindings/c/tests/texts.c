/* What `gob why`, `gob types`, `gob values` or `gob show --go` says of a stream, by the library, and the streams that
 * `gob write --go` and `gob convert` make of theirs:
 * texts [why|types|values|lines|write|convert SOURCE|with SOURCE OLD=NEW|like FILE] <IN. SOURCE is Go source, FILE has
 * a stream, and behind a stream that was made with a rename stands the line of what was left out. */
#include "../gob.h"

#include <stdio.h>
#include <stdlib.h>

/* Bytes that were read. */
struct bytes {
    unsigned char *at;
    size_t size;
};

static struct bytes all, wanted;

static int lacks_memory(void) {
    fprintf(stderr, "gob: out of memory\n");
    free(all.at);
    free(wanted.at);
    return 2;
}

static int is_read(FILE *file, struct bytes *to) {
    size_t room = 1 << 20;
    to->at = file == NULL ? NULL : malloc(room);
    for (size_t count; to->at != NULL && (count = fread(to->at + to->size, 1, room - to->size, file)) > 0;) {
        to->size += count;
        if (to->size < room) continue;
        unsigned char *grown = realloc(to->at, room *= 2);
        if (grown == NULL) free(to->at);
        to->at = grown;
    }
    return to->at != NULL;
}

static char line[4096];

static int64_t renamed(const char *source, const char *rename, void *out, size_t room) {
    gob_left_out left = {line, sizeof line, 0};
    gob_conversion asked = {.source = source, .source_count = strlen(source), .renames = &rename, .rename_count = 1};
    return gob_convert_with(all.at, all.size, &asked, out, room, &left, NULL);
}

static int64_t made(const char *command, const char *source, const char *rename, void *out, size_t room) {
    if (strcmp(command, "types") == 0) return gob_types_text(all.at, all.size, NULL, out, room);
    if (strcmp(command, "values") == 0) return gob_values_text(all.at, all.size, NULL, out, room);
    if (strcmp(command, "lines") == 0) return gob_lines_text(all.at, all.size, NULL, out, room);
    if (strcmp(command, "write") == 0) return gob_lines_stream((const char *)all.at, all.size, out, room, NULL);
    if (strcmp(command, "convert") == 0) {
        return gob_convert(all.at, all.size, NULL, source, strlen(source), NULL, out, room, NULL);
    }
    if (strcmp(command, "with") == 0) return renamed(source, rename, out, room);
    if (strcmp(command, "like") == 0) {
        return gob_convert_like(all.at, all.size, NULL, wanted.at, wanted.size, NULL, out, room, NULL);
    }
    return gob_why_text(all.at, all.size, NULL, NULL, out, room);
}

int main(int argc, char **argv) {
    const char *command = argc > 1 ? argv[1] : "why", *source = argc > 2 ? argv[2] : "";
    const char *rename = argc > 3 ? argv[3] : "";
    if (strcmp(command, "like") == 0 && !is_read(fopen(source, "rb"), &wanted)) return lacks_memory();
    if (!is_read(stdin, &all)) return lacks_memory();
    int64_t due = made(command, source, rename, NULL, 0);
    char *room = due < 0 ? NULL : malloc((size_t)due + 1);
    if (room == NULL) return lacks_memory();
    int64_t is = made(command, source, rename, room, (size_t)due + 1);
    if (is == due) fwrite(room, 1, (size_t)is, stdout);
    if (is == due && line[0] != 0) puts(line);
    free(room);
    if (is == -GOB_NO_MEMORY) return lacks_memory();
    free(all.at);
    free(wanted.at);
    return is != due || fflush(stdout) != 0 ? 3 : 0;
}
