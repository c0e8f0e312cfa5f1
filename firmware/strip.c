/* What the words of the strip hold, seen by a scan. It is true when taken, and may be wrong one turn later: hints may be. */
#include "board.h"

enum { LN = 0, RN = 1 };

static uint32_t value_at(uint32_t place) {
    const uint8_t *word = image + 8 + 8 * place;
    return word[0] | (uint32_t)word[1] << 8 | (uint32_t)word[2] << 16 | (uint32_t)word[3] << 24;
}

/* The place to try: the first RN, or the last LN. */
uint32_t hint_at(end end) {
    uint32_t place = end == RIGHT ? 1 : MAX;
    if (end == RIGHT)
        while (place <= MAX && value_at(place) != RN)
            place += 1;
    else
        while (place > 0 && value_at(place) != LN)
            place -= 1;
    return place;
}

/* How often the strip holds an order. */
uint32_t held(uint32_t order) {
    uint32_t place, count = 0;
    for (place = 0; place <= MAX + 1; place++)
        count += value_at(place) == order;
    return count;
}

uint32_t held_in_all(void) {
    uint32_t place, count = 0;
    for (place = 0; place <= MAX + 1; place++)
        count += value_at(place) >= PDS_LEAST_ORDER;
    return count;
}
