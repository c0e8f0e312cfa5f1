/*
 * The board: one image in static memory, through which a receiver passes row orders to four painters while a watchdog looks on.
 * The executive gives each task one turn at a time, and a turn makes one call.
 */
#ifndef BOARD_H
#define BOARD_H

#include <stdbool.h>
#include <stdint.h>

#include "pds.h"

enum {
    MAX = 14,
    DIVIDE = 7,
    PAINTERS = 4,
    RECEIVER = 0, /* its party number; the painters' are 1 to 4 */
    PARTIES = 1 + PAINTERS,
    ROWS = 12,
    PAGES = 8,
    ORDERS = 16 * (PAGES + 1) /* orders are page x 16 + row, so all are below this */
};

extern uint8_t image[PDS_LENGTH(MAX, PARTIES)];

/* An end of the strip, as the operations number them: right ones are below 2. */
typedef enum { RIGHT = 0, LEFT = 2 } end;

/* What is done with orders, each counted where it happens. Received = pushed + given up, and pushed = painted + held. */
struct books {
    uint32_t received[ORDERS], pushed[ORDERS], painted[ORDERS], given_up[ORDERS];
    uint32_t full, empty;
    uint32_t withdrawn;       /* by the watchdog */
    uint32_t found_withdrawn; /* by the task whose operation it was */
    uint32_t faults;          /* answers that no task expects */
};

extern struct books books;

/* strip.c: what the words hold, seen by a scan. */
uint32_t hint_at(end end);
uint32_t held(uint32_t order);
uint32_t held_in_all(void);

/* receiver.c: pushes the orders that come in, at the other end when one is full. */
void receiver_turn(void);
bool receiver_rests(void);

/* painter.c: each pops and paints, two at each end. */
void painter_turn(uint32_t party);
bool painters_rest(void);

/* watchdog.c: withdraws what stands too long. */
void watchdog_turn(void);

/* books.c */
bool books_hold(void);
bool books_balance(void);
void print_account(uint32_t turns);

/* A number below a bound, from a fixed seed: every run of the board is the same. */
uint32_t chance(uint32_t bound);

#endif
