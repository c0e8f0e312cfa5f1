/* The receiver: it takes orders from the line and pushes each, at the other end of the strip when one is full. */
#include "board.h"

enum { ON_THE_LINE = 3000 };

static struct {
    uint32_t left; /* orders still on the line */
    uint32_t order; /* the one to push, 0 for none */
    uint32_t hint;
    end end;
    bool started;
} receiver = {ON_THE_LINE, 0, 0, RIGHT, false};

bool receiver_rests(void) {
    return receiver.left == 0 && receiver.order == 0;
}

static void receive(void) {
    uint32_t page = 1 + chance(PAGES), row = chance(ROWS);
    receiver.left -= 1;
    receiver.order = page * 16 + row;
    books.received[receiver.order] += 1;
}

static void start(void) {
    uint32_t operation = receiver.end == RIGHT ? PDS_RIGHT_PUSH : PDS_LEFT_PUSH;
    if (pds_start(image, sizeof image, RECEIVER, operation, receiver.order) != PDS_DONE)
        books.faults += 1;
    receiver.started = true;
}

/* The order is done with, in the strip or given up. */
static void done_with(uint32_t *count) {
    count[receiver.order] += 1;
    receiver.order = 0;
    receiver.started = false;
}

static void step(void) {
    switch (pds_number(pds_step(image, sizeof image, RECEIVER, receiver.hint))) {
    case PDS_DONE: break;
    case PDS_PUSHED: done_with(books.pushed); break;
    case PDS_FULL: /* this end alone is full: the order is asked again at the other */
        books.full += 1;
        receiver.end = receiver.end == RIGHT ? LEFT : RIGHT;
        receiver.started = false;
        break;
    case PDS_IDLE: /* withdrawn, at whatever stage: it took no effect, so the order is not in the strip */
        books.found_withdrawn += 1;
        done_with(books.given_up);
        break;
    default: books.faults += 1;
    }
}

void receiver_turn(void) {
    if (receiver_rests())
        return;
    if (receiver.order == 0)
        receive();
    if (receiver.started)
        step();
    else
        start();
    receiver.hint = hint_at(receiver.end);
}
