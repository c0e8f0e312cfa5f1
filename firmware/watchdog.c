/* The watchdog: each turn it looks at one record, and withdraws an operation that has stood still for too many looks. */
#include <string.h>

#include "board.h"

enum { RECORD = 32, TOO_LONG = 6 };

static struct {
    uint8_t record[RECORD]; /* as last seen */
    uint32_t looks;         /* for how many it has been the same */
} seen[PARTIES];

static uint32_t party;

static bool is_busy(const uint8_t *record) {
    return record[1] != 0;
}

void watchdog_turn(void) {
    const uint8_t *record = image + PDS_LENGTH(MAX, party);
    bool same = memcmp(seen[party].record, record, RECORD) == 0;
    seen[party].looks = same && is_busy(record) ? seen[party].looks + 1 : 0;
    memcpy(seen[party].record, record, RECORD);
    if (seen[party].looks >= TOO_LONG) {
        seen[party].looks = 0;
        if (pds_withdraw(image, sizeof image, party) == PDS_DONE)
            books.withdrawn += 1;
        else
            books.faults += 1;
    }
    party = (party + 1) % PARTIES;
}
