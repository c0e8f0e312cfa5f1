/* Which records are valid: every operation, stage and place near the bounds, against document 01's sentence, on all calls. */
#include "check.h"

enum { MAX = 2 };

static uint8_t image[PDS_LENGTH(MAX, 1)], before[PDS_LENGTH(MAX, 1)];

static int is_push(struct record r) {
    return r.operation == PDS_RIGHT_PUSH || r.operation == PDS_LEFT_PUSH;
}

static int in_range(struct record r) {
    return r.operation < 2 ? r.k >= 1 && r.k <= MAX + 1 : r.k <= MAX;
}

static int at_wall(struct record r) {
    return r.k == (r.operation < 2 ? MAX + 1 : 0);
}

/* A busy record: what each stage asks. */
static int stage_fits(struct record r) {
    switch (r.stage) {
    case 1: return r.k == 0 && r.first == 0 && r.second == 0;
    case 2: return in_range(r) && r.second == 0;
    case 3: return in_range(r) && !is_push(r);
    case 4:
    case 5: return in_range(r) && !(is_push(r) && at_wall(r));
    default: return 0;
    }
}

static int is_valid(struct record r) {
    if (r.spare != 0)
        return 0;
    if (r.stage == 0)
        return r.operation == 0 && r.k == 0 && r.v == 0 && r.first == 0 && r.second == 0;
    return r.operation <= 3 && (is_push(r) ? r.v >= 3 : r.v == 0) && stage_fits(r);
}

static void lay_with(struct record r) {
    pds_lay(image, sizeof image, MAX, 1, 1);
    put_record(record_of(image, MAX, 0), r);
    memcpy(before, image, sizeof image);
}

static int unchanged(void) {
    return memcmp(before, image, sizeof image) == 0;
}

static void try_start(struct record r) {
    uint64_t answer;
    lay_with(r);
    answer = pds_start(image, sizeof image, 0, PDS_LEFT_POP, 0);
    expect("start", answer, !is_valid(r) ? PDS_NOT_VALID : r.stage != 0 ? PDS_BUSY : PDS_DONE);
    expect("start writes", unchanged(), answer != PDS_DONE);
}

static void try_step(struct record r) {
    uint64_t answer;
    lay_with(r);
    answer = pds_step(image, sizeof image, 0, 1);
    if (!is_valid(r) || r.stage == 0) {
        expect("step", answer, !is_valid(r) ? PDS_NOT_VALID : PDS_IDLE);
        expect("step writes", unchanged(), 1);
    } else {
        expect("step is refused", (uint64_t)pds_refused(answer), 0);
    }
}

static void try_withdraw(struct record r) {
    uint64_t answer;
    lay_with(r);
    answer = pds_withdraw(image, sizeof image, 0);
    expect("withdraw", answer, !is_valid(r) ? PDS_NOT_VALID : r.stage == 0 ? PDS_IDLE : PDS_DONE);
    expect("withdraw writes", unchanged(), answer != PDS_DONE);
}

static void try_all(struct record r) {
    try_start(r);
    try_step(r);
    try_withdraw(r);
}

static const uint32_t orders[] = {0, 1, 2, 3, 4294967295u};
static const uint16_t places[] = {0, 1, MAX, MAX + 1, MAX + 2, 256, 65535};
static const uint64_t words[] = {0, 1, (uint64_t)1 << 32, (uint64_t)1 << 56};

#define EACH(i, list) for (i = 0; i < sizeof(list) / sizeof(list)[0]; i++)

/* Every order, place and pair of words for one operation and stage. */
static void one_stage(unsigned operation, unsigned stage) {
    size_t v, k, first, second;
    EACH(v, orders) EACH(k, places) EACH(first, words) EACH(second, words) {
        struct record r;
        memset(&r, 0, sizeof r);
        r.operation = (uint8_t)operation;
        r.stage = (uint8_t)stage;
        r.v = orders[v];
        r.k = places[k];
        r.first = words[first];
        r.second = words[second];
        try_all(r);
    }
}

/* Each bit of bytes 24..31, on a record that is valid otherwise. */
static void spare_bits(uint8_t stage) {
    unsigned bit;
    for (bit = 0; bit < 64; bit++) {
        struct record r;
        memset(&r, 0, sizeof r);
        r.stage = stage;
        r.v = stage == 0 ? 0 : 3;
        r.spare = (uint64_t)1 << bit;
        try_all(r);
    }
}

int main(void) {
    static const unsigned operations[] = {0, 1, 2, 3, 4, 255}, stages[] = {0, 1, 2, 3, 4, 5, 6, 255};
    size_t operation, stage;
    EACH(operation, operations) EACH(stage, stages) one_stage(operations[operation], stages[stage]);
    spare_bits(0);
    spare_bits(1);
    return verdict("records");
}
