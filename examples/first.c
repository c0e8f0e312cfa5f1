/*
 * Three parties and one order: pushed at the right end, popped at the left, and then there is none.
 * Prints "16 0", "17 7" and "19 0": PUSHED, POPPED with the order 7, EMPTY.
 */
#include <stdio.h>

#include "pds.h"

enum { MAX = 62, PARTIES = 4, DIVIDE = 31, LN = 0, RN = 1 };

static uint8_t image[PDS_LENGTH(MAX, PARTIES)];

static uint32_t value_at(uint32_t place) {
    const uint8_t *word = image + 8 + 8 * place;
    return word[0] | (uint32_t)word[1] << 8 | (uint32_t)word[2] << 16 | (uint32_t)word[3] << 24;
}

/* A place to try: the first RN for the right end, the last LN for the left. It may be wrong by the next step. */
static uint32_t hint(uint32_t operation) {
    uint32_t place = operation < PDS_LEFT_PUSH ? 1 : MAX;
    if (operation < PDS_LEFT_PUSH)
        while (place <= MAX && value_at(place) != RN)
            place += 1;
    else
        while (place > 0 && value_at(place) != LN)
            place -= 1;
    return place;
}

/* Starts an operation of a party and steps it to its answer. */
static void operate(uint32_t party, uint32_t operation, uint32_t order) {
    uint64_t answer = pds_start(image, sizeof image, party, operation, order);
    while (answer == PDS_DONE)
        answer = pds_step(image, sizeof image, party, hint(operation));
    printf("%u %u\n", (unsigned)pds_number(answer), (unsigned)pds_order(answer));
}

int main(void) {
    if (pds_lay(image, sizeof image, MAX, PARTIES, DIVIDE) != PDS_DONE)
        return 1;
    operate(0, PDS_RIGHT_PUSH, 7);
    operate(1, PDS_LEFT_POP, 0);
    operate(2, PDS_LEFT_POP, 0);
    return 0;
}
