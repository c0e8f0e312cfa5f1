/* The painters: each pops an order and paints it, two at the left end and two at the right. */
#include "board.h"

static struct painter {
    uint32_t hint;
    bool started;
    bool last; /* its pop was started after the receiver's last push: if that finds none, none will come */
    bool rests;
} painters[PAINTERS];

bool painters_rest(void) {
    uint32_t i;
    for (i = 0; i < PAINTERS; i++)
        if (!painters[i].rests)
            return false;
    return true;
}

static end end_of(uint32_t party) {
    return party % 2 == 0 ? RIGHT : LEFT;
}

static void start(struct painter *painter, uint32_t party) {
    uint32_t operation = end_of(party) == RIGHT ? PDS_RIGHT_POP : PDS_LEFT_POP;
    if (pds_start(image, sizeof image, party, operation, 0) != PDS_DONE)
        books.faults += 1;
    painter->started = true;
    painter->last = receiver_rests();
}

static void paint(uint32_t order) {
    if (order < ORDERS)
        books.painted[order] += 1;
    else
        books.faults += 1;
}

static void step(struct painter *painter, uint32_t party) {
    uint64_t answer = pds_step(image, sizeof image, party, painter->hint);
    painter->started = pds_number(answer) == PDS_DONE;
    switch (pds_number(answer)) {
    case PDS_DONE: break;
    case PDS_POPPED: paint(pds_order(answer)); break;
    case PDS_EMPTY: /* asked again in a later turn, unless none will come */
        books.empty += 1;
        painter->rests = painter->last;
        break;
    case PDS_IDLE: /* withdrawn, at whatever stage: it took no effect, so the strip holds what it held */
        books.found_withdrawn += 1;
        break;
    default: books.faults += 1;
    }
}

void painter_turn(uint32_t party) {
    struct painter *painter = &painters[party - 1];
    if (painter->rests)
        return;
    if (painter->started)
        step(painter, party);
    else
        start(painter, party);
    painter->hint = hint_at(end_of(party));
}
