/* Whether each reader gives its memory back, and keeps to what it may have: memory MOST <STREAM. Five hundred readers
 * and checks, one behind another and each fed a piece, take hardly more than the first fifty; and the stream ends one
 * reader with GOB_NO_MEMORY, which took no more than MOST bytes and the 2 MB that items are handed out into. */
#include "gob.h"

#include <stdio.h>
#include <stdlib.h>
#include <sys/resource.h>

enum { FEW = 50, MANY = 500, PIECE = 65536, ROOM = 2048 };

static unsigned char piece[PIECE];
static size_t count;

/* The most memory that was had so far, in KB. */
static long peak(void) {
    struct rusage used;
    getrusage(RUSAGE_SELF, &used);
    return used.ru_maxrss;
}

static gob_reader *fed(void) {
    gob_fault fault;
    gob_item item;
    gob_reader *reader = gob_open(NULL, &fault);
    if (reader == NULL) exit(2);
    gob_feed(reader, piece, count, &fault);
    while (gob_next(reader, &item) == 1) continue;
    return reader;
}

static gob_checker *checked(void) {
    gob_fault fault;
    gob_checker *checker = gob_check_open(NULL, &fault);
    if (checker == NULL || gob_check_feed(checker, piece, count, NULL, &fault) != GOB_OK) exit(2);
    return checker;
}

/* The status that ends the stream, which has more than it may. */
static uint32_t ended(void) {
    gob_fault fault;
    gob_reader *reader = gob_open(NULL, &fault);
    if (reader == NULL) return fault.status;
    size_t some = count;
    while (fault.status == GOB_OK && some != 0) {
        gob_feed(reader, piece, some, &fault);
        some = fread(piece, 1, PIECE, stdin);
    }
    gob_close(reader);
    return fault.status;
}

static long peak_after(int turns) {
    for (int turn = 0; turn < turns; turn++) {
        gob_close(fed());
        gob_check_close(checked());
    }
    return peak();
}

int main(int argc, char **argv) {
    long most = argc > 1 ? atol(argv[1]) / 1024 : 0;
    count = fread(piece, 1, PIECE, stdin);
    long few = peak_after(FEW), many = peak_after(MANY - FEW);
    uint32_t status = ended();
    long full = peak();
    printf("%ld KB with %d in turn, %ld KB with %d; status %u with %ld KB\n", few, FEW, many, MANY, status, full);
    return many > few + few / 8 || status != GOB_NO_MEMORY || full > many + most + ROOM;
}
