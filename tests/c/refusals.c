/*
 * Every refusal that a C caller can meet, alone and in its order: of every two conditions that can hold at once the earlier
 * decides. A refused call writes nothing.
 */
#include "check.h"

enum { MAX = 2, PARTIES = 2, ROOM = 256 };

/* One call with all it is handed. */
struct call {
    uint8_t image[ROOM];
    uint64_t length;
    uint32_t party, operation, order, hint;
    uint32_t max, parties, divide;
};

/* A condition for a refusal. Two of the same `field` cannot hold at once: they set the same thing. */
struct condition {
    uint32_t number;
    const char *name;
    void (*make)(struct call *);
    char field;
};

typedef uint64_t (*caller)(struct call *);

static uint64_t lay(struct call *c) {
    return pds_lay(c->image, c->length, c->max, c->parties, c->divide);
}

static uint64_t start(struct call *c) {
    return pds_start(c->image, c->length, c->party, c->operation, c->order);
}

static uint64_t step(struct call *c) {
    return pds_step(c->image, c->length, c->party, c->hint);
}

static uint64_t withdraw(struct call *c) {
    return pds_withdraw(c->image, c->length, c->party);
}

/* A call that none of the four refuses, but for start if the record is busy. */
static struct call fine(uint8_t stage) {
    struct call c;
    struct record r = {PDS_RIGHT_PUSH, stage, 0, 7, 0, 0, 0};
    memset(&c, 0, sizeof c);
    c.length = PDS_LENGTH(MAX, PARTIES);
    c.max = MAX;
    c.parties = PARTIES;
    c.divide = 1;
    c.order = 7;
    c.hint = 2;
    pds_lay(c.image, c.length, MAX, PARTIES, 1);
    if (stage != 0)
        put_record(record_of(c.image, MAX, 0), r);
    return c;
}

static struct call idle(void) { return fine(0); }
static struct call busy(void) { return fine(1); }

/* What the header and the length can have wrong. */
static void seven_bytes(struct call *c) { c->length = 7; }
static void no_bytes(struct call *c) { c->length = 0; }
static void mark_0(struct call *c) { c->image[0] = 'p'; }
static void mark_1(struct call *c) { c->image[1] = 'd'; }
static void mark_2(struct call *c) { c->image[2] = 'O'; }
static void version_2(struct call *c) { c->image[3] = 2; }
static void version_257(struct call *c) { c->image[4] = 1; }
static void no_party(struct call *c) { c->image[5] = 0; }
static void parties_17(struct call *c) { c->image[5] = 17; }
static void parties_1(struct call *c) { c->image[5] = 1; }
static void max_0(struct call *c) { c->image[6] = 0; }
static void max_3(struct call *c) { c->image[6] = 3; }
static void max_4095(struct call *c) { put_number(c->image + 6, 2, 4095); }
static void byte_short(struct call *c) { c->length -= 1; }
static void byte_long(struct call *c) { c->length += 1; }

/* What the call can have wrong. */
static void operation_4(struct call *c) { c->operation = 4; }
static void operation_256(struct call *c) { c->operation = 256; }
static void party_2(struct call *c) { c->party = PARTIES; }
static void party_256(struct call *c) { c->party = 256; }
static void order_2(struct call *c) { c->order = 2; }
static void order_0(struct call *c) { c->order = 0; }
static void hint_0(struct call *c) { c->hint = 0; }
static void hint_4(struct call *c) { c->hint = MAX + 2; }
static void hint_65537(struct call *c) { c->hint = 65537; }

/* What the record can have wrong. */
static void spare_byte(struct call *c) { record_of(c->image, MAX, 0)[31] = 1; }
static void stage_6(struct call *c) { record_of(c->image, MAX, 0)[1] = 6; }
static void now_idle(struct call *c) { memset(record_of(c->image, MAX, 0), 0, 24); }

static void now_busy(struct call *c) {
    record_of(c->image, MAX, 0)[1] = 1;
    record_of(c->image, MAX, 0)[4] = 7;
}

/* A push at stage 4 whose swap would win on a counter at its end. */
static void counter_at_end(struct call *c) {
    struct record r = {PDS_RIGHT_PUSH, 4, 2, 7, word_of(0, 4294967295u), word_of(1, 0), 0};
    r.spare = number_at(record_of(c->image, MAX, 0) + 24, 8);
    put_word(c->image, 1, r.first);
    put_record(record_of(c->image, MAX, 0), r);
}

/* What laying can have wrong. */
static void lay_max_0(struct call *c) { c->max = 0; }
static void lay_max_4095(struct call *c) { c->max = 4095; }
static void lay_max_wide(struct call *c) { c->max = 65536 + MAX; }
static void lay_no_party(struct call *c) { c->parties = 0; }
static void lay_parties_17(struct call *c) { c->parties = 17; }
static void lay_parties_wide(struct call *c) { c->parties = 256 + PARTIES; }
static void lay_divide_3(struct call *c) { c->divide = MAX + 1; }
static void lay_divide_wide(struct call *c) { c->divide = 65536; }

#define CONDITION(number, make, field) {number, #make, make, field}

#define HEADER_CONDITIONS \
    CONDITION(1, seven_bytes, 'l'), CONDITION(1, no_bytes, 'l'), CONDITION(2, mark_0, 'm'), CONDITION(2, mark_1, 'm'), \
    CONDITION(2, mark_2, 'm'), CONDITION(2, version_2, 'm'), CONDITION(2, version_257, 'm'), CONDITION(1, no_party, 'h'), \
    CONDITION(1, parties_17, 'h'), CONDITION(1, parties_1, 'h'), CONDITION(1, max_0, 'h'), CONDITION(1, max_3, 'h'), \
    CONDITION(1, max_4095, 'h'), CONDITION(1, byte_short, 'l'), CONDITION(1, byte_long, 'l')

static const struct condition of_lay[] = {
    CONDITION(1, lay_max_0, 'x'),       CONDITION(1, lay_max_4095, 'x'),   CONDITION(1, lay_max_wide, 'x'),
    CONDITION(1, lay_no_party, 'p'),    CONDITION(1, lay_parties_17, 'p'), CONDITION(1, lay_parties_wide, 'p'),
    CONDITION(1, byte_short, 'l'),      CONDITION(1, byte_long, 'l'),      CONDITION(1, no_bytes, 'l'),
    CONDITION(8, lay_divide_3, 'd'),    CONDITION(8, lay_divide_wide, 'd'),
};

static const struct condition of_start[] = {
    HEADER_CONDITIONS,
    CONDITION(11, operation_4, 'o'), CONDITION(11, operation_256, 'o'), CONDITION(3, party_2, 'p'),
    CONDITION(3, party_256, 'p'),    CONDITION(4, spare_byte, 's'),     CONDITION(5, now_busy, 'r'),
    CONDITION(7, order_2, 'v'),      CONDITION(7, order_0, 'v'),
};

static const struct condition of_step[] = {
    HEADER_CONDITIONS,
    CONDITION(3, party_2, 'p'),  CONDITION(3, party_256, 'p'), CONDITION(4, spare_byte, 's'),
    CONDITION(4, stage_6, 'r'),  CONDITION(6, now_idle, 'r'),  CONDITION(8, hint_0, 'r'),
    CONDITION(8, hint_4, 'r'),   CONDITION(8, hint_65537, 'r'), CONDITION(9, counter_at_end, 'r'),
};

static const struct condition of_withdraw[] = {
    HEADER_CONDITIONS,
    CONDITION(3, party_2, 'p'), CONDITION(3, party_256, 'p'), CONDITION(4, spare_byte, 's'),
    CONDITION(4, stage_6, 'r'), CONDITION(6, now_idle, 'r'),
};

/* One refused call, with every byte as it was. */
static void refused(const char *a, const char *b, caller ask, struct call *c, uint32_t number) {
    char what[80];
    struct call before = *c;
    snprintf(what, sizeof what, "%s with %s", a, b);
    expect(what, ask(c), number);
    expect(what, (uint64_t)memcmp(&before, c, sizeof before), 0);
}

/* A call that is fine, each condition alone, and each two: the earlier decides. */
static void in_order(caller ask, struct call (*make)(void), const struct condition *conditions, size_t count) {
    size_t i, j;
    struct call c = make();
    expect("nothing wrong", ask(&c), PDS_DONE);
    for (i = 0; i < count; i++) {
        c = make();
        conditions[i].make(&c);
        refused(conditions[i].name, "nothing else", ask, &c, conditions[i].number);
        for (j = i + 1; j < count; j++) {
            if (conditions[i].field == conditions[j].field)
                continue;
            c = make();
            conditions[j].make(&c);
            conditions[i].make(&c);
            refused(conditions[i].name, conditions[j].name, ask, &c, conditions[i].number);
        }
    }
}

#define COUNT(list) (sizeof(list) / sizeof(list)[0])

/* Pops: an order other than 0 is 7, and the hint's range is the side's own. */
static void pops_and_left(void) {
    struct call c = idle();
    c.operation = PDS_RIGHT_POP;
    refused("pop", "order 7", start, &c, 7);
    c.operation = PDS_LEFT_POP;
    c.order = 1;
    refused("left pop", "order 1", start, &c, 7);
    c.order = 0;
    expect("left pop", start(&c), PDS_DONE);
    c.hint = MAX + 1;
    refused("left pop", "hint at the right wall", step, &c, 8);
    c.hint = 65536;
    refused("left pop", "hint 65536", step, &c, 8);
    c.hint = 0;
    expect("left pop, hint 0", step(&c), PDS_DONE);
    c.hint = 4294967295u;
    expect("the hint is looked at in stage 1 alone", step(&c), PDS_DONE);
}

int main(void) {
    in_order(lay, idle, of_lay, COUNT(of_lay));
    in_order(start, idle, of_start, COUNT(of_start));
    in_order(step, busy, of_step, COUNT(of_step));
    in_order(withdraw, busy, of_withdraw, COUNT(of_withdraw));
    pops_and_left();
    return verdict("refusals");
}
