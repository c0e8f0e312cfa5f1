/*
 * pds.h: the strip in an image, for C99 and C++.
 *
 * An image is one region of bytes that the caller owns and lends to each call: a header of 8 bytes, a strip of MAX+2 words of
 * 64 bits, then a record of 32 bytes for each party, all little-endian. Parties push and pop orders at the right and the left
 * end of the strip. Each step makes one access to the strip: it reads one word, or swaps one.
 *
 * Who may call. Any task, in any order, with any bytes and numbers: every call checks all it uses, in the order given at each
 * function. Calls on one image come one after the other; none may run while another on the same image has not returned, in an
 * interrupt neither. Calls on different images are independent.
 *
 * What no call ever does. It touches no byte outside the lent ones, and keeps no pointer to them. It has no memory of its own,
 * allocates nothing, waits for nothing, and calls nothing but memcpy, memmove or memset, and what the compiler brings along for
 * 64-bit arithmetic. A refused call writes nothing.
 *
 * `image` points to `length` bytes that may be read and written, at any alignment. Where fewer than 8 are lent none is touched.
 */
#ifndef PDS_H
#define PDS_H

#include <stdint.h>

#ifdef __cplusplus
extern "C" {
#endif

/* The number of an answer. */
enum {
    PDS_DONE = 0,    /* done, or the operation goes on */
    PDS_PUSHED = 16, /* the order stands in the strip */
    PDS_POPPED = 17, /* the answer carries the order taken */
    PDS_FULL = 18,   /* a push found no free place at its own end */
    PDS_EMPTY = 19,  /* a pop found no order */

    /* Refusals, in the order in which they are looked for; 1 is looked for again after 2. */
    PDS_WRONG_SIZE = 1,       /* MAX, party count or length wrong */
    PDS_WRONG_MARK = 2,       /* mark or version wrong */
    PDS_WRONG_OPERATION = 11, /* operation above 3 */
    PDS_WRONG_PARTY = 3,      /* party number not below the party count */
    PDS_NOT_VALID = 4,        /* the party's record is not valid */
    PDS_BUSY = 5,             /* start on a busy record */
    PDS_IDLE = 6,             /* step or withdraw on an idle record */
    PDS_WRONG_ORDER = 7,      /* push of 0, 1 or 2; pop started with an order other than 0 */
    PDS_OUTSIDE = 8,          /* divide or stage 1 hint outside its range */
    PDS_COUNTER_AT_END = 9    /* a swap would win but the word's counter is 4,294,967,295 */
};

/* The operations. */
enum {
    PDS_RIGHT_PUSH = 0,
    PDS_RIGHT_POP = 1,
    PDS_LEFT_PUSH = 2,
    PDS_LEFT_POP = 3
};

/* The bounds of MAX, of the party count and of orders. */
enum {
    PDS_LEAST_MAX = 1,
    PDS_MOST_MAX = 4094,
    PDS_MOST_PARTIES = 16,
    PDS_LEAST_ORDER = 3
};

/* The exact length of an image, in bytes. A constant where its arguments are, so that an image can stand in static memory. */
#define PDS_LENGTH(max, parties) ((uint64_t)8 + (uint64_t)8 * ((uint64_t)(max) + 2) + (uint64_t)32 * (uint64_t)(parties))

/* An answer is number + 2^32 * carried order. The carried order is 0 unless the number is PDS_POPPED. */
static inline uint32_t pds_number(uint64_t answer) {
    return (uint32_t)(answer & 0xffffffffu);
}

static inline uint32_t pds_order(uint64_t answer) {
    return (uint32_t)(answer >> 32);
}

/* Whether the call was refused, and therefore wrote nothing. */
static inline int pds_refused(uint64_t answer) {
    return pds_number(answer) >= 1 && pds_number(answer) <= 12;
}

/*
 * Lays a fresh image: the header, words 0..divide free for the left end and divide+1..MAX+1 free for the right end, all
 * counters 0, every record idle.
 *
 * Who: whoever owns the bytes, before any other call on them. What the image held is lost.
 * Answers PDS_DONE. Refusals, in order:
 *   PDS_WRONG_SIZE  max not 1..4,094, parties not 1..16, or length not PDS_LENGTH(max, parties)
 *   PDS_OUTSIDE     divide above max
 * Never: looks at a byte already there, so never PDS_WRONG_MARK.
 */
uint64_t pds_lay(uint8_t *image, uint64_t length, uint32_t max, uint32_t parties, uint32_t divide);

/*
 * Starts an operation: it and its order go into the party's idle record, at stage 1. A pop is started with order 0.
 *
 * Who: the party itself.
 * Answers PDS_DONE. Refusals, in order:
 *   PDS_WRONG_SIZE       fewer than 8 bytes
 *   PDS_WRONG_MARK       not "PDS", or not version 1
 *   PDS_WRONG_SIZE       the header's MAX or party count out of bounds, or length not what they ask
 *   PDS_WRONG_OPERATION  operation above 3
 *   PDS_WRONG_PARTY      party not below the party count
 *   PDS_NOT_VALID        the party's record
 *   PDS_BUSY             an operation is under way
 *   PDS_WRONG_ORDER      push of 0, 1 or 2; pop with an order other than 0
 * Never: reads or writes a word of the strip, or another party's record.
 */
uint64_t pds_start(uint8_t *image, uint64_t length, uint32_t party, uint32_t operation, uint32_t order);

/*
 * Steps the party's operation by one access to the strip. In stage 1 the hint is the place to try: for the right end 1..MAX+1,
 * best the first word whose value is RN (1); for the left end 0..MAX, best the last word whose value is LN (0). It may be wrong:
 * the operation then tries again. In other stages the hint is not looked at.
 *
 * Who: the party itself, or whoever runs it.
 * Answers PDS_DONE while the operation goes on, else PDS_PUSHED, PDS_POPPED with the order, PDS_FULL or PDS_EMPTY; the record
 * is then idle. Refusals, in order:
 *   PDS_WRONG_SIZE, PDS_WRONG_MARK, PDS_WRONG_SIZE  as for pds_start
 *   PDS_WRONG_PARTY     party not below the party count
 *   PDS_NOT_VALID       the party's record
 *   PDS_IDLE            no operation is under way
 *   PDS_OUTSIDE         stage 1 and the hint outside its range; the operation remains at stage 1
 *   PDS_COUNTER_AT_END  the swap would win and the counter cannot rise; the operation remains where it is
 * Never: makes more than one access to the strip, looks at the strip's shape, or touches another party's record.
 */
uint64_t pds_step(uint8_t *image, uint64_t length, uint32_t party, uint32_t hint);

/*
 * Withdraws the party's operation, at whatever stage it stands: its record becomes idle. A withdrawn operation took no effect:
 * its order is not in the strip, or was not taken from it.
 *
 * Who: the party itself, or a watchdog for it.
 * Answers PDS_DONE. Refusals, in order:
 *   PDS_WRONG_SIZE, PDS_WRONG_MARK, PDS_WRONG_SIZE  as for pds_start
 *   PDS_WRONG_PARTY  party not below the party count
 *   PDS_NOT_VALID    the party's record
 *   PDS_IDLE         no operation is under way
 * Never: reads or writes a word of the strip, or another party's record.
 */
uint64_t pds_withdraw(uint8_t *image, uint64_t length, uint32_t party);

#ifdef __cplusplus
}
#endif

#endif
