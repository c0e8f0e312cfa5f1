/*
 * calls count | time: every kind of call, on images of MAX 2, 62 and 4,094 with 4 parties, through the proved library (pds_) and
 * through the ordinary careful Rust version (base_). Both are given the same bytes, and must give the same answer and leave the
 * same bytes, or the program ends with 1.
 *
 * count: makes each call once under callgrind, which is told to dump its counts after it by the name "MAX|call|library".
 * time:  prints "MAX|call|pds|nanoseconds" and the same for base. A call's time is what it adds to a loop that puts back what it
 *        changed, the least of many rounds, in which the two libraries take turns.
 */
#define _POSIX_C_SOURCE 199309L
#include <stdio.h>
#include <string.h>
#include <time.h>
#include <valgrind/callgrind.h>

#include "pds.h"

uint64_t base_lay(uint8_t *image, uint64_t length, uint32_t max, uint32_t parties, uint32_t divide);
uint64_t base_start(uint8_t *image, uint64_t length, uint32_t party, uint32_t operation, uint32_t order);
uint64_t base_step(uint8_t *image, uint64_t length, uint32_t party, uint32_t hint);
uint64_t base_withdraw(uint8_t *image, uint64_t length, uint32_t party);

typedef struct {
    const char *name;
    uint64_t (*lay)(uint8_t *, uint64_t, uint32_t, uint32_t, uint32_t);
    uint64_t (*start)(uint8_t *, uint64_t, uint32_t, uint32_t, uint32_t);
    uint64_t (*step)(uint8_t *, uint64_t, uint32_t, uint32_t);
    uint64_t (*withdraw)(uint8_t *, uint64_t, uint32_t);
} library;

static const library libraries[2] = {
    {"pds", pds_lay, pds_start, pds_step, pds_withdraw},
    {"base", base_lay, base_start, base_step, base_withdraw},
};

enum { PARTIES = 4, ME = 2, OTHER = 3, ROOM = 8 + 8 * (PDS_MOST_MAX + 2) + 32 * PARTIES, ROUNDS = 301, TIMES = 1000 };

typedef enum { LAY, START, STEP, WITHDRAW } kind;

/* One call, and the number it must answer. */
typedef struct {
    kind kind;
    uint32_t a, b, c;
    uint32_t number;
} call;

static uint8_t image[ROOM], before[ROOM], after[ROOM];
static uint32_t max;
static uint64_t length;
static int timing, failed;

static uint64_t make(const library *l, call c) {
    switch (c.kind) {
    case LAY: return l->lay(image, length, c.a, c.b, c.c);
    case START: return l->start(image, length, c.a, c.b, c.c);
    case STEP: return l->step(image, length, c.a, c.b);
    default: return l->withdraw(image, length, c.a);
    }
}

/* Where 32 bytes begin that the call changed, so that a timed loop puts back no more: a step changes a word and a record. */
typedef struct {
    size_t at[2];
    int count;
} changed;

static changed compare(void) {
    changed c = {{0, 0}, 0};
    size_t at;
    for (at = 0; at < length && c.count < 2; at++)
        if (image[at] != before[at]) {
            c.at[c.count] = at & ~(size_t)7;
            at = c.at[c.count++] + 31;
        }
    return c;
}

static double now(void) {
    struct timespec t;
    clock_gettime(CLOCK_MONOTONIC, &t);
    return (double)t.tv_sec * 1e9 + (double)t.tv_nsec;
}

/* The nanoseconds of TIMES rounds of putting back, with the call or without. */
static double lap(const library *l, call c, changed back) {
    double begin = now();
    int i, j;
    for (i = 0; i < TIMES; i++) {
        for (j = 0; j < back.count; j++)
            memcpy(image + back.at[j], before + back.at[j], 32);
        __asm__ volatile("" : : "r"(image) : "memory");
        if (l != NULL)
            make(l, c);
    }
    return now() - begin;
}

static void time_call(const char *name, call c, changed back) {
    double least[3] = {1e18, 1e18, 1e18};
    int round, i;
    if (c.kind == LAY)
        back.count = 0; /* it looks at no byte already there */
    for (round = 0; round < ROUNDS; round++)
        for (i = 0; i < 3; i++) {
            double t;
            memcpy(image, before, length);
            t = lap(i < 2 ? &libraries[i] : NULL, c, back);
            if (t < least[i])
                least[i] = t;
        }
    for (i = 0; i < 2; i++)
        printf("%u|%s|%s|%.2f\n", max, name, libraries[i].name, (least[i] - least[2]) / TIMES);
}

/* Makes the call on the image as it stands, by both libraries; the first call of each is not counted: it binds what it links. */
static void measure(const char *name, call c) {
    char label[80];
    int i;
    changed back;
    memcpy(before, image, length);
    for (i = 0; i < 2; i++) {
        uint64_t first, second;
        first = make(&libraries[i], c);
        memcpy(image, before, length);
        CALLGRIND_ZERO_STATS;
        second = make(&libraries[i], c);
        snprintf(label, sizeof label, "%u|%s|%s", max, name, libraries[i].name);
        if (!timing)
            CALLGRIND_DUMP_STATS_AT(label);
        if (pds_number(first) != c.number || first != second) {
            fprintf(stderr, "%s: answered %u, not %u\n", label, pds_number(second), c.number);
            failed = 1;
        }
        if (i == 0) {
            memcpy(after, image, length);
            back = compare();
        } else if (memcmp(after, image, length) != 0) {
            fprintf(stderr, "%s: leaves other bytes\n", label);
            failed = 1;
        }
        memcpy(image, before, length);
    }
    if (timing)
        time_call(name, c, back);
}

/* A call that only prepares. */
static void prepare(kind kind, uint32_t a, uint32_t b, uint32_t c) {
    call one = {kind, a, b, c, 0};
    make(&libraries[0], one);
}

static void fresh(uint32_t divide) {
    prepare(LAY, max, PARTIES, divide);
}

static void steps(uint32_t hint, int times) {
    while (times-- > 0)
        prepare(STEP, ME, hint, 0);
}

/* Raises the counter of a word, as another party's swap would. */
static void touch(uint32_t place) {
    image[8 + 8 * place + 4] += 1;
}

static void counter_at_end(uint32_t place) {
    memset(image + 8 + 8 * place + 4, 255, 4);
}

static call lay(uint32_t divide, uint32_t number) {
    call c = {LAY, max, PARTIES, divide, number};
    return c;
}

static call start(uint32_t operation, uint32_t order, uint32_t number) {
    call c = {START, ME, operation, order, number};
    return c;
}

static call step(uint32_t hint, uint32_t number) {
    call c = {STEP, ME, hint, 0, number};
    return c;
}

static call withdraw(uint32_t party, uint32_t number) {
    call c = {WITHDRAW, party, 0, 0, number};
    return c;
}

/* What the two sides differ in: the places beside the divide. */
typedef struct {
    const char *name;
    uint32_t push, pop;      /* the operations */
    uint32_t empty;          /* the place where a push goes on a fresh strip, and where a pop finds none */
    uint32_t held;           /* the place where a pop finds the one order that was pushed */
    int32_t near;            /* the neighbour, from the place */
    uint32_t wall, all_left; /* the wall, and a divide that leaves this side no room */
} side;

static const char *named(const side *s, const char *operation, const char *call) {
    static char name[80];
    snprintf(name, sizeof name, "%s %s, %s", s->name, operation, call);
    return name;
}

/* A fresh strip; the push has made so many steps with this hint. */
static void pushing(const side *s, uint32_t hint, int taken) {
    fresh(max / 2);
    prepare(START, ME, s->push, 7);
    steps(hint, taken);
}

static void push(const side *s) {
    uint32_t k = s->empty, near = k + (uint32_t)s->near;
    fresh(max / 2);
    measure(named(s, "push", "start"), start(s->push, 7, 0));
    pushing(s, k, 0);
    measure(named(s, "push", "stage 1"), step(k, 0));
    pushing(s, k, 1);
    measure(named(s, "push", "stage 2 to 4"), step(k, 0));
    pushing(s, k - (uint32_t)s->near, 1);
    measure(named(s, "push", "stage 2 to 1"), step(k, 0));
    fresh(s->all_left);
    prepare(START, ME, s->push, 7);
    steps(s->wall, 1);
    measure(named(s, "push", "stage 2, FULL"), step(k, PDS_FULL));
    pushing(s, k, 2);
    measure(named(s, "push", "stage 4 won"), step(k, 0));
    pushing(s, k, 2);
    touch(near);
    measure(named(s, "push", "stage 4 lost"), step(k, 0));
    pushing(s, k, 3);
    measure(named(s, "push", "stage 5, PUSHED"), step(k, PDS_PUSHED));
    pushing(s, k, 3);
    touch(k);
    measure(named(s, "push", "stage 5 lost"), step(k, 0));
}

/* One order in the strip, or none; the pop has made so many steps with this hint. */
static void popping(const side *s, int orders, uint32_t hint, int taken) {
    fresh(max / 2);
    if (orders) {
        prepare(START, OTHER, PDS_RIGHT_PUSH, 7);
        while (image[8 + 8 * (max + 2) + 32 * OTHER + 1] != 0)
            prepare(STEP, OTHER, max / 2 + 1, 0);
    }
    prepare(START, ME, s->pop, 0);
    steps(hint, taken);
}

static void pop(const side *s) {
    uint32_t k = s->held, near = k + (uint32_t)s->near;
    fresh(max / 2);
    measure(named(s, "pop", "start"), start(s->pop, 0, 0));
    popping(s, 1, k, 0);
    measure(named(s, "pop", "stage 1"), step(k, 0));
    popping(s, 1, k, 1);
    measure(named(s, "pop", "stage 2 to 4"), step(k, 0));
    popping(s, 0, s->empty, 1);
    measure(named(s, "pop", "stage 2 to 3"), step(k, 0));
    popping(s, 0, s->empty - (uint32_t)s->near, 1);
    measure(named(s, "pop", "stage 2 to 1"), step(k, 0));
    popping(s, 0, s->empty, 2);
    measure(named(s, "pop", "stage 3, EMPTY"), step(k, PDS_EMPTY));
    popping(s, 0, s->empty, 2);
    touch(s->empty + (uint32_t)s->near);
    measure(named(s, "pop", "stage 3 to 4"), step(k, 0));
    popping(s, 1, k, 2);
    measure(named(s, "pop", "stage 4 won"), step(k, 0));
    popping(s, 1, k, 2);
    touch(k);
    measure(named(s, "pop", "stage 4 lost"), step(k, 0));
    popping(s, 1, k, 3);
    measure(named(s, "pop", "stage 5, POPPED"), step(k, PDS_POPPED));
    popping(s, 1, k, 3);
    touch(near);
    measure(named(s, "pop", "stage 5 lost"), step(k, 0));
}

static void refusals(const side *s) {
    uint8_t *record = image + 8 + 8 * (max + 2) + 32 * ME;
    fresh(max / 2);
    measure("refused: lay, 1", (call){LAY, max, PARTIES + 1, 0, PDS_WRONG_SIZE});
    measure("refused: lay, 8", lay(max + 1, PDS_OUTSIDE));
    measure("refused: start, 11", start(4, 7, PDS_WRONG_OPERATION));
    measure("refused: start, 7", start(s->push, 2, PDS_WRONG_ORDER));
    measure("refused: step, 6", step(s->empty, PDS_IDLE));
    measure("refused: withdraw, 6", withdraw(ME, PDS_IDLE));
    measure("refused: withdraw, 3", withdraw(PARTIES, PDS_WRONG_PARTY));
    pushing(s, s->empty, 0);
    measure("refused: start, 5", start(s->push, 7, PDS_BUSY));
    measure("refused: step, 8", step(max + 2, PDS_OUTSIDE));
    pushing(s, s->empty, 2);
    record[1] = 6;
    measure("refused: step, 4", step(s->empty, PDS_NOT_VALID));
    fresh(max / 2);
    counter_at_end(s->empty + (uint32_t)s->near);
    prepare(START, ME, s->push, 7);
    steps(s->empty, 2);
    measure("refused: step, 9", step(s->empty, PDS_COUNTER_AT_END));
    fresh(max / 2);
    image[5] = 17;
    measure("refused: step, 1", step(s->empty, PDS_WRONG_SIZE));
    image[3] = 2;
    measure("refused: step, 2", step(s->empty, PDS_WRONG_MARK));
}

static void at(uint32_t size) {
    uint32_t d = size / 2;
    const side right = {"right", PDS_RIGHT_PUSH, PDS_RIGHT_POP, d + 1, d + 2, -1, size + 1, size};
    const side left = {"left", PDS_LEFT_PUSH, PDS_LEFT_POP, d, d, 1, 0, 0};
    max = size;
    length = PDS_LENGTH(max, PARTIES);
    measure("lay, divide 0", lay(0, 0));
    measure("lay, divide MAX/2", lay(max / 2, 0));
    measure("lay, divide MAX", lay(max, 0));
    push(&right);
    pop(&right);
    push(&left);
    pop(&left);
    pushing(&right, right.empty, 0);
    measure("withdraw at stage 1", withdraw(ME, 0));
    pushing(&right, right.empty, 3);
    measure("withdraw at stage 5", withdraw(ME, 0));
    refusals(&right);
}

int main(int count, char **words) {
    static const uint32_t sizes[] = {2, 62, 4094};
    size_t i;
    if (count != 2 || (strcmp(words[1], "count") != 0 && strcmp(words[1], "time") != 0)) {
        fprintf(stderr, "usage: calls count | time\n");
        return 2;
    }
    timing = strcmp(words[1], "time") == 0;
    for (i = 0; i < sizeof sizes / sizeof sizes[0]; i++)
        at(sizes[i]);
    return failed;
}
