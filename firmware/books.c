/* The books: what is counted where it happens must agree with what the strip holds. */
#include <stdio.h>

#include "board.h"

struct books books;

static uint32_t sum(const uint32_t *count) {
    uint32_t order, all = 0;
    for (order = 0; order < ORDERS; order++)
        all += count[order];
    return all;
}

/* Looked at after every turn: an order pushed and not painted stands in the strip, and nothing else does. */
bool books_hold(void) {
    return books.faults == 0 && sum(books.pushed) - sum(books.painted) == held_in_all();
}

/* Looked at in the end, order by order: each was painted as often as it was received, less what a withdrawal gave up. */
bool books_balance(void) {
    uint32_t order;
    for (order = PDS_LEAST_ORDER; order < ORDERS; order++) {
        if (books.received[order] != books.pushed[order] + books.given_up[order])
            return false;
        if (books.pushed[order] != books.painted[order] + held(order))
            return false;
    }
    return books_hold() && held_in_all() == 0 && books.withdrawn == books.found_withdrawn;
}

void print_account(uint32_t turns) {
    printf("turns     %lu\n", (unsigned long)turns);
    printf("received  %lu\n", (unsigned long)sum(books.received));
    printf("pushed    %lu, and %lu times FULL\n", (unsigned long)sum(books.pushed), (unsigned long)books.full);
    printf("given up  %lu\n", (unsigned long)sum(books.given_up));
    printf("painted   %lu, and %lu times EMPTY\n", (unsigned long)sum(books.painted), (unsigned long)books.empty);
    printf("withdrawn %lu\n", (unsigned long)books.withdrawn);
    printf("held      %lu\n", (unsigned long)held_in_all());
    printf("faults    %lu\n", (unsigned long)books.faults);
}
