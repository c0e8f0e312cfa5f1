/*
 * Calls on memory that begins and ends at a page that may not be touched: the image stands flush with the end, then flush with
 * the start. A byte touched outside ends this program by a signal, and so fails it.
 */
#define _DEFAULT_SOURCE
#include "check.h"

#include <sys/mman.h>
#include <unistd.h>

/* Room between two pages that may not be touched. */
struct room {
    uint8_t *start, *end;
};

static struct room fenced(uint64_t length) {
    uint64_t page = (uint64_t)sysconf(_SC_PAGESIZE), inside = (length + page - 1) / page * page;
    struct room room = {NULL, NULL};
    void *all = mmap(NULL, (size_t)(inside + 2 * page), PROT_NONE, MAP_PRIVATE | MAP_ANONYMOUS, -1, 0);
    if (all == MAP_FAILED || mprotect((uint8_t *)all + page, (size_t)inside, PROT_READ | PROT_WRITE) != 0)
        return room;
    room.start = (uint8_t *)all + page;
    room.end = room.start + inside;
    return room;
}

/* Steps until the operation ends, all with one hint. */
static uint64_t run(uint8_t *image, uint64_t length, uint32_t party, uint32_t operation, uint32_t order, uint32_t hint) {
    uint64_t answer = pds_start(image, length, party, operation, order);
    unsigned left = 8;
    while (answer == PDS_DONE && left-- > 0)
        answer = pds_step(image, length, party, hint);
    return answer;
}

/* The four operations at both ends of the strip, by the first and by the last party. */
static void operations(uint8_t *image, uint32_t max, uint32_t parties) {
    uint64_t length = PDS_LENGTH(max, parties), seven = PDS_POPPED + ((uint64_t)7 << 32);
    expect("lay to the left", pds_lay(image, length, max, parties, 0), PDS_DONE);
    expect("left push", run(image, length, 0, PDS_LEFT_PUSH, 7, 0), PDS_FULL);
    expect("right push", run(image, length, 0, PDS_RIGHT_PUSH, 7, 1), PDS_PUSHED);
    expect("left pop", run(image, length, parties - 1, PDS_LEFT_POP, 0, 0), seven);
    expect("lay to the right", pds_lay(image, length, max, parties, max), PDS_DONE);
    expect("right push", run(image, length, parties - 1, PDS_RIGHT_PUSH, 7, max + 1), PDS_FULL);
    expect("left push", run(image, length, parties - 1, PDS_LEFT_PUSH, 7, max), PDS_PUSHED);
    expect("right pop", run(image, length, 0, PDS_RIGHT_POP, 0, max + 1), seven);
    expect("left pop", run(image, length, 0, PDS_LEFT_POP, 0, max - 1), PDS_EMPTY);
    expect("start", pds_start(image, length, parties - 1, PDS_LEFT_PUSH, 7), PDS_DONE);
    expect("withdraw", pds_withdraw(image, length, parties - 1), PDS_DONE);
}

/* Numbers far outside. */
static void refusals(uint8_t *image, uint32_t max, uint32_t parties) {
    uint64_t length = PDS_LENGTH(max, parties);
    expect("party", pds_step(image, length, parties, 1), PDS_WRONG_PARTY);
    expect("party", pds_step(image, length, 4294967295u, 1), PDS_WRONG_PARTY);
    expect("party", pds_withdraw(image, length, 4294967295u), PDS_WRONG_PARTY);
    expect("party", pds_start(image, length, 4294967295u, 0, 7), PDS_WRONG_PARTY);
    expect("start", pds_start(image, length, 0, PDS_RIGHT_PUSH, 7), PDS_DONE);
    expect("hint", pds_step(image, length, 0, max + 2), PDS_OUTSIDE);
    expect("hint", pds_step(image, length, 0, 4294967295u), PDS_OUTSIDE);
    expect("lay", pds_lay(image, length, 4294967295u, parties, 0), PDS_WRONG_SIZE);
    expect("lay", pds_lay(image, length, max, 4294967295u, 0), PDS_WRONG_SIZE);
    expect("lay", pds_lay(image, length, max, parties, 4294967295u), PDS_OUTSIDE);
}

static void image_of(uint32_t max, uint32_t parties) {
    uint64_t length = PDS_LENGTH(max, parties);
    struct room room = fenced(length);
    expect("fences", room.start != NULL, 1);
    if (room.start == NULL)
        return;
    operations(room.end - length, max, parties);
    refusals(room.end - length, max, parties);
    operations(room.start, max, parties);
    refusals(room.start, max, parties);
}

/* All four calls on `length` bytes of a header that says more. */
static void cut(uint8_t *image, const uint8_t *whole, uint64_t length) {
    uint64_t laid = length < 64 ? PDS_WRONG_SIZE : PDS_DONE, idle = length < 64 ? PDS_WRONG_SIZE : PDS_IDLE;
    memcpy(image, whole, (size_t)length);
    expect("step", pds_step(image, length, 0, 1), idle);
    expect("withdraw", pds_withdraw(image, length, 0), idle);
    expect("start", pds_start(image, length, 0, 0, 7), laid);
    expect("lay", pds_lay(image, length, 1, 1, 0), laid);
}

static void short_images(void) {
    uint8_t whole[PDS_LENGTH(1, 1)];
    struct room room = fenced(sizeof whole);
    uint64_t length;
    pds_lay(whole, sizeof whole, 1, 1, 0);
    for (length = 0; length <= sizeof whole; length++) {
        cut(room.end - length, whole, length);
        cut(room.start, whole, length);
    }
}

/* A length that would be right once narrowed to 32 bits. The bytes are there, but cost nothing while none is touched. */
static void wide_length(void) {
    uint64_t wide = ((uint64_t)1 << 32) + PDS_LENGTH(2, 1);
    void *all = mmap(NULL, (size_t)wide, PROT_READ | PROT_WRITE, MAP_PRIVATE | MAP_ANONYMOUS | MAP_NORESERVE, -1, 0);
    uint8_t *image = (uint8_t *)all;
    if (all == MAP_FAILED || sizeof(size_t) < 8) {
        printf("pages: no 4 GiB of addresses here, so no image of that length was tried\n");
        return;
    }
    pds_lay(image, PDS_LENGTH(2, 1), 2, 1, 1);
    expect("wide lay", pds_lay(image, wide, 2, 1, 1), PDS_WRONG_SIZE);
    expect("wide start", pds_start(image, wide, 0, 0, 7), PDS_WRONG_SIZE);
    expect("wide step", pds_step(image, wide, 0, 1), PDS_WRONG_SIZE);
    expect("wide withdraw", pds_withdraw(image, wide, 0), PDS_WRONG_SIZE);
}

int main(void) {
    image_of(1, 1);
    image_of(2, 4);
    image_of(62, 4);
    image_of(4094, 16);
    short_images();
    wide_length();
    return verdict("pages");
}
