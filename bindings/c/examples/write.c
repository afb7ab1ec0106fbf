/* Writes the gob stream of the plain JSON of standard input, a line for each value: write SOURCE <LINES >STREAM, where
 * SOURCE is Go source of types, as 'type Point struct { X, Y int }'. The values are of the first that is declared. At a
 * line that says no value the status is 1, and the values before it are written.
 *
 *     cc write.c $(pkg-config --cflags --libs gob) -o write
 */
#define _POSIX_C_SOURCE 200809L
#include <gob.h>

#include <stdio.h>
#include <stdlib.h>

/* Sends what is written to standard output: 0, or 2 where that fails. */
static int send(gob_writer *writer) {
    const void *bytes;
    size_t count;
    int some = gob_writer_take(writer, &bytes, &count);
    if (some < 0) return fprintf(stderr, "write: out of memory\n"), 2;
    if (some == 1 && fwrite(bytes, 1, count, stdout) != count) return 2;
    return 0;
}

/* Writes the values of all lines: 0, or why not. */
static int write_lines(gob_writer *writer) {
    gob_writer_fault fault = {.status = GOB_OK};
    char *line = NULL;
    size_t room = 0;
    ssize_t count;
    int status = send(writer);
    for (int number = 1; status == 0 && (count = getline(&line, &room, stdin)) > 0; number++) {
        gob_writer_put_json(writer, line, (size_t)count, &fault);
        if (fault.status != GOB_OK) fprintf(stderr, "line %d: %s\n", number, fault.text);
        status = fault.status == GOB_OK ? send(writer) : fault.status == GOB_REFUSED ? 1 : 2;
    }
    free(line);
    return status;
}

int main(int argc, char **argv) {
    gob_writer_fault fault;
    if (argc != 2) return fprintf(stderr, "usage: write SOURCE <LINES >STREAM\n"), 2;
    gob_writer *writer = gob_writer_open(argv[1], strlen(argv[1]), NULL, &fault);
    if (writer == NULL) return fprintf(stderr, "write: %s\n", fault.text), fault.status == GOB_REFUSED ? 1 : 2;
    int status = write_lines(writer);
    gob_writer_close(writer);
    return fflush(stdout) != 0 ? 2 : status;
}
