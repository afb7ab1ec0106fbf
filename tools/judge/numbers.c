/* docs/FORMAT.md, Numbers. */
#include "judge.h"

uint64_t read_unsigned(struct judge *judge) {
    uint64_t place = judge->at;
    uint8_t head = next_byte(judge);
    if (head < 0x80) {
        return head;
    }
    if (head < 0xf8) {
        refuse(judge, BAD_HEAD, place);
    }
    int following = 256 - head;
    uint64_t number = next_byte(judge);
    if (following == 1 ? number < 0x80 : number == 0) {
        refuse(judge, NOT_MINIMAL, place);
    }
    for (int read = 1; read < following; read++) {
        number = number << 8 | next_byte(judge);
    }
    return number;
}

/* Reads a number that may be no greater; else this is the reason. */
uint64_t read_at_most(struct judge *judge, uint64_t greatest, enum reason reason) {
    uint64_t place = judge->at;
    uint64_t number = read_unsigned(judge);
    if (number > greatest) {
        refuse(judge, reason, place);
    }
    return number;
}

int64_t to_signed(uint64_t number) {
    int64_t bits = (int64_t)(number >> 1);
    return number & 1 ? ~bits : bits;
}

/* The pattern of a float has its bytes in the reverse order. */
uint64_t to_pattern(uint64_t number) {
    uint64_t pattern = 0;
    for (int byte = 0; byte < 8; byte++) {
        pattern = pattern << 8 | (number >> 8 * byte & 0xff);
    }
    return pattern;
}
