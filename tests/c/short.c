/* Images of 0 to 64 bytes: whatever they hold, each call gives 01's number, and no byte changes but in a call that is done. */
#include "check.h"

enum { MOST = 64, ROOM = MOST + 8 };

static uint8_t room[ROOM], before[ROOM];

/* What the bytes hold: nothing, all ones, the smallest fresh image, or that with a wrong mark. */
enum content { ZEROS, ONES, FRESH, MISMARKED, CONTENTS };

static void fill(enum content content) {
    memset(room, content == ONES ? 0xff : 0, sizeof room);
    if (content == FRESH || content == MISMARKED)
        pds_lay(room, MOST, 1, 1, 0);
    if (content == MISMARKED)
        room[2] = 'T';
    memcpy(before, room, sizeof room);
}

static int unchanged(void) {
    return memcmp(before, room, sizeof room) == 0;
}

/* The number for a header in `length` bytes, 0 if it is taken. */
static uint32_t header_number(enum content content, uint64_t length) {
    if (length < 8)
        return PDS_WRONG_SIZE;
    if (content != FRESH)
        return PDS_WRONG_MARK;
    return length == MOST ? 0 : PDS_WRONG_SIZE;
}

static uint64_t withdraw(uint64_t length) {
    return pds_withdraw(room, length, 0);
}

static uint64_t step(uint64_t length) {
    return pds_step(room, length, 0, 1);
}

static uint64_t start(uint64_t length) {
    return pds_start(room, length, 0, PDS_RIGHT_PUSH, 7);
}

static uint64_t lay(uint64_t length) {
    return pds_lay(room, length, 1, 1, 1);
}

/* One call; `taken` is what it answers once the header is taken. */
static void ask(const char *what, uint64_t (*call)(uint64_t), enum content content, uint64_t length, uint32_t taken) {
    uint32_t number = header_number(content, length);
    uint64_t answer;
    fill(content);
    answer = call(length);
    expect(what, answer, number != 0 ? number : taken);
    expect(what, unchanged(), answer != PDS_DONE);
}

static void ask_lay(enum content content, uint64_t length) {
    fill(content);
    expect("lay", lay(length), length == MOST ? PDS_DONE : PDS_WRONG_SIZE);
    expect("lay writes", unchanged(), length != MOST);
    expect("lay writes past its bytes", (uint64_t)memcmp(before + MOST, room + MOST, ROOM - MOST), 0);
}

int main(void) {
    uint64_t length;
    int content;
    for (length = 0; length <= MOST; length++)
        for (content = ZEROS; content < CONTENTS; content++) {
            ask("withdraw", withdraw, (enum content)content, length, PDS_IDLE);
            ask("step", step, (enum content)content, length, PDS_IDLE);
            ask("start", start, (enum content)content, length, PDS_DONE);
            ask_lay((enum content)content, length);
        }
    return verdict("short");
}
