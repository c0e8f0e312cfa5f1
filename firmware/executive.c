/* The executive: it lays the image, then gives one task a turn, and another, until all rest. */
#include <stdio.h>

#include "board.h"

enum {
    WATCHDOG = PARTIES, /* a task, but no party */
    TASKS = PARTIES + 1,
    MOST_TURNS = 2000000, /* the board ends by itself, whatever happens */
    HANGS_ONE_IN = 500,   /* now and then a task hangs, in the midst of an operation or not */
    HANGS_FOR = 400
};

uint8_t image[PDS_LENGTH(MAX, PARTIES)];

/* The turn until which a task hangs. The watchdog never does. */
static uint32_t hangs_until[PARTIES];

uint32_t chance(uint32_t bound) {
    static uint32_t seed = 814;
    seed ^= seed << 13;
    seed ^= seed >> 17;
    seed ^= seed << 5;
    return seed % bound;
}

static bool hangs(uint32_t task, uint32_t turn) {
    if (turn >= hangs_until[task] && chance(HANGS_ONE_IN) == 0)
        hangs_until[task] = turn + HANGS_FOR;
    return turn < hangs_until[task];
}

static void give_turn(uint32_t task, uint32_t turn) {
    if (task == WATCHDOG)
        watchdog_turn();
    else if (hangs(task, turn))
        return;
    else if (task == RECEIVER)
        receiver_turn();
    else
        painter_turn(task);
}

static bool all_rest(void) {
    return receiver_rests() && painters_rest();
}

int main(void) {
    uint32_t turn = 0;
    if (pds_lay(image, sizeof image, MAX, PARTIES, DIVIDE) != PDS_DONE)
        return 1;
    while (!all_rest() && books_hold() && turn < MOST_TURNS)
        give_turn(chance(TASKS), turn++);
    print_account(turn);
    if (!all_rest() || !books_balance()) {
        printf("the books do NOT balance\n");
        return 1;
    }
    printf("the books balance\n");
    return 0;
}
