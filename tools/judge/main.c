/* Judges vectors from standard input, and prints of each the lines that `gob show` is to print, and an empty line.
   A vector is seven numbers of eight bytes, high byte first, and then a stream. The numbers are the four limits, in the
   order of docs/FORMAT.md; how many bytes the first piece has and how many each other one, which changes nothing here;
   and how many bytes the stream has. */
#include "judge.h"

#include <stdio.h>
#include <stdlib.h>

static bool read_header(uint64_t *numbers, int count) {
    for (int at = 0; at < count; at++) {
        uint8_t bytes[8];
        if (fread(bytes, sizeof bytes, 1, stdin) != 1) {
            return false;
        }
        numbers[at] = 0;
        for (int byte = 0; byte < 8; byte++) {
            numbers[at] = numbers[at] << 8 | bytes[byte];
        }
    }
    return true;
}

static void *room(uint64_t count, size_t size) {
    void *room = calloc(count, size);
    if (!room) {
        fprintf(stderr, "judge: out of memory\n");
        exit(2);
    }
    return room;
}

/* Judges a stream of so many bytes. Each type, each field and each part but the one under way takes a byte at least. */
static bool judge_next(struct limits limits, uint64_t size) {
    static struct judge judge;
    uint8_t *bytes = room(size + 1, 1);
    if (fread(bytes, 1, size, stdin) != size) {
        return false;
    }
    judge = (struct judge){.limits = limits, .bytes = bytes, .size = size};
    judge.types = room(base_types(NULL) + size + 1, sizeof *judge.types);
    judge.base_count = judge.type_count = base_types(judge.types);
    judge.values = room(size + 1, sizeof *judge.values);
    judge.fields = room(size + 1, sizeof *judge.fields);
    judge_stream(&judge);
    putchar('\n');
    free(judge.fields);
    free(judge.values);
    free(judge.types);
    free(bytes);
    return true;
}

int main(void) {
    uint64_t header[7];
    while (read_header(header, 7)) {
        struct limits limits = {header[0], header[1], header[2], header[3]};
        if (!judge_next(limits, header[6])) {
            fprintf(stderr, "judge: a vector is cut off\n");
            return 2;
        }
    }
    return fflush(stdout) == 0 ? 0 : 2;
}
