/*
 * calls [SEED]: 10,000 calls from a seed, on images valid and damaged. Prints for each call what was asked, the answer and a
 * checksum of all bytes after it, so that what two libraries print can be compared. Ends non-zero unless every number occurred.
 */
#include <stdlib.h>

#include "check.h"

enum { CALLS = 10000, MOST = 8 + 8 * (4094 + 2) + 32 * 16, NUMBERS = 20 };

static uint8_t room[MOST];
static uint32_t max, parties;
static uint64_t length, seed;
static unsigned long met[NUMBERS];

static uint64_t next(void) {
    seed ^= seed << 13;
    seed ^= seed >> 7;
    seed ^= seed << 17;
    return seed;
}

static uint32_t below(uint32_t bound) {
    return (uint32_t)((next() >> 16) % bound);
}

static int one_in(uint32_t chance) {
    return below(chance) == 0;
}

/* Bytes as FNV-1a has them; past the image too, where no call may write. */
static uint64_t checksum(void) {
    uint64_t sum = 14695981039346656037u, i;
    for (i = 0; i < length + 64 && i < MOST; i++)
        sum = (sum ^ room[i]) * 1099511628211u;
    return sum;
}

static void answered(unsigned long call, const char *what, uint64_t answer) {
    uint32_t number = pds_number(answer);
    if (number < NUMBERS)
        met[number] += 1;
    printf("%lu %s %" PRIu32 " %" PRIu32 " %016" PRIx64 "\n", call, what, number, pds_order(answer), checksum());
}

/* A fresh image, mostly small; one in eight is asked for with a number that may be wrong. */
static void lay(unsigned long call) {
    static const uint32_t sizes[] = {1, 2, 2, 3, 3, 4, 5, 8, 62};
    uint32_t divide;
    max = one_in(20) ? 4094 : sizes[below(9)];
    parties = 1 + below(one_in(4) ? 16 : 3);
    length = PDS_LENGTH(max, parties);
    divide = below(max + 1);
    answered(call, "lay", pds_lay(room, length, max, parties, divide));
    if (one_in(8))
        answered(call, "lay", pds_lay(room, length - below(2), max + below(2), parties + below(2), divide + below(max + 2)));
}

static uint32_t any_party(void) {
    return one_in(50) ? (uint32_t)next() : below(parties + (uint32_t)one_in(20));
}

/* A party to step: mostly a busy one. */
static uint32_t busy_party(void) {
    uint32_t party = any_party(), tries;
    for (tries = 0; tries < parties && party < parties && !one_in(20); tries++) {
        if (record_of(room, max, party)[1] != 0)
            break;
        party = (party + 1) % parties;
    }
    return party;
}

static int all_idle(void) {
    uint32_t party;
    for (party = 0; party < parties; party++)
        if (record_of(room, max, party)[1] != 0)
            return 0;
    return 1;
}

/* The first RN from the left, or the first LN from the right. */
static uint32_t true_hint(uint32_t right) {
    uint32_t place = right ? 1 : max;
    while (right ? place <= max : place > 0) {
        if ((uint32_t)word_at(room, place) == right)
            break;
        place = right ? place + 1 : place - 1;
    }
    return place;
}

/* A true hint, one beside it, or anything. */
static uint32_t any_hint(uint32_t party) {
    uint32_t right = party < parties && record_of(room, max, party)[0] < 2;
    if (one_in(20))
        return one_in(2) ? (uint32_t)next() : below(max + 3);
    return one_in(10) ? true_hint(right) + below(3) - 1 : true_hint(right);
}

static void start(unsigned long call, uint64_t lent) {
    uint32_t operation = one_in(50) ? (uint32_t)next() : below(4 + (uint32_t)one_in(20));
    uint32_t order = operation % 2 == 0 ? 3 + below(1000) : 0;
    uint32_t party = any_party();
    if (one_in(12))
        order = below(4);
    answered(call, "start", pds_start(room, lent, party, operation, order));
}

static void step(unsigned long call, uint64_t lent) {
    uint32_t party = busy_party(), hint = any_hint(party);
    answered(call, "step", pds_step(room, lent, party, hint));
}

/* The place of a byte to damage: in the header, in a record or in a word. */
static uint64_t any_byte(void) {
    switch (below(4)) {
    case 0: return below(8);
    case 1: return 8 + below(8 * (max + 2));
    default: return PDS_LENGTH(max, 0) + below(32 * parties);
    }
}

static void ask(unsigned long call) {
    uint64_t lent = one_in(60) ? below(2) * length + below(64) : length;
    uint32_t kind = below(20);
    if (lent > MOST)
        lent = MOST;
    if (kind == 0)
        answered(call, "withdraw", pds_withdraw(room, lent, any_party()));
    else if (kind < 5 || (all_idle() && kind < 18))
        start(call, lent);
    else
        step(call, lent);
}

/* A call while one byte is damaged. In the header it is mended; elsewhere mostly, if the call left it as it was. */
static void ask_damaged(unsigned long call) {
    uint64_t at = any_byte();
    uint8_t was = room[at], is = (uint8_t)(one_in(2) ? below(8) : below(256));
    room[at] = is;
    ask(call);
    if (at < 8 || (room[at] == is && !one_in(40)))
        room[at] = was;
}

/* A word whose counter is at its end, or one before. */
static void wear_out(void) {
    uint32_t place = below(max + 2);
    put_word(room, place, word_of((uint32_t)word_at(room, place), 4294967295u - below(2)));
}

/* How often each number was met. */
static int all_met(void) {
    static const uint32_t all[] = {0, 16, 17, 18, 19, 1, 2, 11, 3, 4, 5, 6, 7, 8, 9};
    unsigned long answers = 0, missing = 0;
    size_t i;
    for (i = 0; i < sizeof all / sizeof all[0]; i++) {
        printf("number %" PRIu32 ": %lu\n", all[i], met[all[i]]);
        answers += met[all[i]];
        missing += met[all[i]] == 0;
    }
    printf("calls: %lu answers, %lu numbers missing\n", answers, missing);
    return missing == 0;
}

int main(int count, char **words) {
    unsigned long call;
    seed = count > 1 ? strtoull(words[1], NULL, 10) : 814;
    if (seed == 0)
        seed = 1;
    printf("seed %" PRIu64 "\n", seed);
    lay(0);
    for (call = 1; call < CALLS; call++) {
        if (one_in(60))
            wear_out();
        if (one_in(80))
            lay(call);
        else if (one_in(8))
            ask_damaged(call);
        else
            ask(call);
    }
    return !all_met();
}
