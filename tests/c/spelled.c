/*
 * One image spelled out, byte for byte, after calls: orders pushed at both ends, one popped again, one call refused, a push left in the
 * middle. crates/conventions proves the same of the definitions.
 */
#include "check.h"

enum { MAX = 4, PARTIES = 2, DIVIDE = 2 };

static uint8_t image[PDS_LENGTH(MAX, PARTIES)];

static const uint8_t bytes[] = {
    80, 68, 83, 1, 0, 2, 4, 0,
    0, 0, 0, 0, 0, 0, 0, 0,
    0, 0, 0, 0, 1, 0, 0, 0,
    244, 1, 0, 0, 5, 0, 0, 0,
    112, 17, 1, 0, 3, 0, 0, 0,
    1, 0, 0, 0, 0, 0, 0, 0,
    1, 0, 0, 0, 0, 0, 0, 0,
    0, 0, 0, 0, 0, 0, 0, 0,
    0, 0, 0, 0, 0, 0, 0, 0,
    0, 0, 0, 0, 0, 0, 0, 0,
    0, 0, 0, 0, 0, 0, 0, 0,
    2, 5, 1, 0, 3, 2, 1, 0,
    244, 1, 0, 0, 4, 0, 0, 0,
    0, 0, 0, 0, 1, 0, 0, 0,
    0, 0, 0, 0, 0, 0, 0, 0,
};

/* Starts an operation and makes its first three steps, each of which goes on. */
static void begin(uint32_t party, uint32_t operation, uint32_t order, uint32_t hint) {
    expect("start", pds_start(image, sizeof image, party, operation, order), PDS_DONE);
    expect("first step", pds_step(image, sizeof image, party, hint), PDS_DONE);
    expect("second step", pds_step(image, sizeof image, party, 0), PDS_DONE);
    expect("third step", pds_step(image, sizeof image, party, 0), PDS_DONE);
}

static void step(const char *what, uint32_t party, uint64_t answer) {
    expect(what, pds_step(image, sizeof image, party, 0), answer);
}

int main(void) {
    unsigned i;
    memset(image, 255, sizeof image);
    expect("lay", pds_lay(image, sizeof image, MAX, PARTIES, DIVIDE), PDS_DONE);
    begin(0, PDS_RIGHT_PUSH, 70000, 3);
    step("right push", 0, PDS_PUSHED);
    step("idle", 0, PDS_IDLE);
    begin(1, PDS_LEFT_PUSH, 300, 2);
    step("left push", 1, PDS_PUSHED);
    begin(1, PDS_LEFT_POP, 0, 1);
    step("left pop", 1, PDS_POPPED + ((uint64_t)300 << 32));
    begin(1, PDS_LEFT_PUSH, 500, 2);
    step("left push", 1, PDS_PUSHED);
    begin(1, PDS_LEFT_PUSH, 66051, 1);
    expect("length", sizeof image, sizeof bytes);
    for (i = 0; i < sizeof image; i++)
        expect("byte", image[i], bytes[i]);
    return verdict("spelled");
}
