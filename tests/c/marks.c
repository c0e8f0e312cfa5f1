/* Document 01's bench marks M1, M2 and M4 to M10, through the four calls. MAX 2, divide 1, two parties unless said. */
#include "check.h"

enum { MAX = 2, PARTIES = 2 };

static uint8_t image[PDS_LENGTH(MAX, PARTIES)];

static void lay(uint32_t divide) {
    memset(image, 0xa5, sizeof image);
    expect("lay", pds_lay(image, sizeof image, MAX, PARTIES, divide), PDS_DONE);
}

static void start(uint32_t party, uint32_t operation, uint32_t order) {
    expect("start", pds_start(image, sizeof image, party, operation, order), PDS_DONE);
}

static void step(const char *what, uint32_t party, uint32_t hint, uint64_t answer) {
    expect(what, pds_step(image, sizeof image, party, hint), answer);
}

/* Steps that go on. */
static void steps(const char *what, uint32_t party, uint32_t hint, unsigned count) {
    while (count-- > 0)
        step(what, party, hint, PDS_DONE);
}

static void stage(const char *what, uint32_t party, uint8_t stage) {
    expect(what, record_of(image, MAX, party)[1], stage);
}

static void cells(const char *what, uint64_t a, uint64_t b, uint64_t c, uint64_t d) {
    expect(what, word_at(image, 0), a);
    expect(what, word_at(image, 1), b);
    expect(what, word_at(image, 2), c);
    expect(what, word_at(image, 3), d);
}

static void m1(void) {
    lay(1);
    start(0, PDS_RIGHT_PUSH, 7);
    steps("M1", 0, 2, 3);
    step("M1", 0, 2, PDS_PUSHED);
    cells("M1", word_of(0, 0), word_of(0, 1), word_of(7, 1), word_of(1, 0));
}

static void m2(void) {
    m1();
    start(0, PDS_RIGHT_PUSH, 8);
    steps("M2", 0, 3, 1);
    step("M2", 0, 3, PDS_FULL);
    cells("M2", word_of(0, 0), word_of(0, 1), word_of(7, 1), word_of(1, 0));
}

static void m4(void) {
    lay(1);
    start(0, PDS_RIGHT_POP, 0);
    start(1, PDS_RIGHT_PUSH, 7);
    steps("M4", 0, 2, 1);
    steps("M4", 1, 2, 3);
    steps("M4", 0, 2, 3);
    stage("M4 pop", 0, 5);
    stage("M4 push", 1, 5);
    steps("M4 push loses", 1, 2, 1);
    steps("M4 pop loses", 0, 2, 1);
    stage("M4 pop", 0, 1);
    stage("M4 push", 1, 1);
    cells("M4", word_of(0, 0), word_of(0, 1), word_of(1, 1), word_of(1, 0));
}

static void m5(void) {
    m1();
    start(0, PDS_RIGHT_POP, 0);
    start(1, PDS_LEFT_POP, 0);
    steps("M5", 0, 3, 3);
    steps("M5", 1, 1, 3);
    stage("M5 right", 0, 5);
    stage("M5 left", 1, 5);
    step("M5 right takes 7", 0, 3, PDS_POPPED + ((uint64_t)7 << 32));
    steps("M5 left loses", 1, 1, 1);
    stage("M5 left", 1, 1);
    steps("M5", 1, 1, 2);
    step("M5", 1, 1, PDS_EMPTY);
}

static void m6(void) {
    lay(1);
    start(0, PDS_RIGHT_PUSH, 7);
    steps("M6", 0, 3, 2);
    stage("M6", 0, 1);
    cells("M6", word_of(0, 0), word_of(0, 0), word_of(1, 0), word_of(1, 0));
}

static void m7(void) {
    lay(2);
    start(0, PDS_RIGHT_PUSH, 8);
    steps("M7", 0, 3, 1);
    step("M7", 0, 3, PDS_FULL);
    start(0, PDS_LEFT_PUSH, 9);
    steps("M7", 0, 2, 3);
    step("M7", 0, 2, PDS_PUSHED);
    cells("M7", word_of(0, 0), word_of(0, 0), word_of(9, 1), word_of(1, 1));
}

static void m8(void) {
    lay(1);
    start(0, PDS_RIGHT_PUSH, 7);
    start(1, PDS_LEFT_PUSH, 7);
    step("M8 right hint 0", 0, 0, PDS_OUTSIDE);
    step("M8 right hint 3", 0, 3, PDS_DONE);
    step("M8 left hint 3", 1, 3, PDS_OUTSIDE);
    step("M8 left hint 2", 1, 2, PDS_DONE);
}

static void m9(void) {
    lay(1);
    expect("M9", pds_start(image, sizeof image, 0, PDS_RIGHT_PUSH, 2), PDS_WRONG_ORDER);
    start(0, PDS_RIGHT_PUSH, 3);
}

static void m10(uint32_t counter, uint64_t answer, uint8_t then) {
    lay(1);
    put_word(image, 1, word_of(0, counter));
    start(0, PDS_RIGHT_PUSH, 7);
    steps("M10", 0, 2, 2);
    step("M10", 0, 2, answer);
    stage("M10", 0, then);
    cells("M10", word_of(0, 0), word_of(0, 4294967295u), word_of(1, 0), word_of(1, 0));
}

int main(void) {
    m1();
    m2();
    m4();
    m5();
    m6();
    m7();
    m8();
    m9();
    m10(4294967294u, PDS_DONE, 5);
    m10(4294967295u, PDS_COUNTER_AT_END, 4);
    return verdict("marks");
}
