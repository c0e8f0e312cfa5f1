/* The bounds of MAX and of the party count, on images whose length agrees with them: 1 exactly outside. */
#include "check.h"

enum { WIDEST = 65535, MOST = 255 };

static uint8_t image[8 + 8 * (WIDEST + 2) + 32 * MOST + 1], before[sizeof image];

static int fits(uint32_t max, uint32_t parties) {
    return max >= 1 && max <= 4094 && parties >= 1 && parties <= 16;
}

/* The header that a laid image of these sizes would have, with all words and records zero. */
static void head(uint32_t max, uint32_t parties) {
    memset(image, 0, sizeof image);
    memcpy(image, "PDS\1", 5);
    image[5] = (uint8_t)parties;
    put_number(image + 6, 2, max);
    memcpy(before, image, sizeof image);
}

static int unchanged(void) {
    return memcmp(before, image, sizeof image) == 0;
}

/* The three calls on a header of these sizes; the party is idle if there is one. */
static void read_one(uint32_t max, uint32_t parties, uint64_t length, int fit) {
    uint64_t idle = fit ? PDS_IDLE : PDS_WRONG_SIZE;
    head(max, parties);
    expect("step", pds_step(image, length, 0, 1), idle);
    expect("withdraw", pds_withdraw(image, length, 0), idle);
    expect("bytes", (uint64_t)unchanged(), 1);
    expect("start", pds_start(image, length, parties - 1, PDS_LEFT_POP, 0), fit ? PDS_DONE : PDS_WRONG_SIZE);
    expect("bytes", (uint64_t)unchanged(), !fit);
}

static void lay_one(uint32_t max, uint32_t parties, uint64_t length, int fit) {
    head(max, parties);
    expect("lay", pds_lay(image, length, max, parties, max), fit ? PDS_DONE : PDS_WRONG_SIZE);
    expect("bytes", (uint64_t)unchanged(), !fit);
    expect("byte past the image", image[length], 0);
}

int main(void) {
    static const uint32_t sizes[] = {0, 1, 2, 3, 255, 256, 4093, 4094, 4095, 4096, 8190, 65535};
    static const uint32_t counts[] = {0, 1, 2, 15, 16, 17, 255};
    size_t i, j;
    for (i = 0; i < sizeof sizes / sizeof sizes[0]; i++)
        for (j = 0; j < sizeof counts / sizeof counts[0]; j++) {
            uint64_t length = PDS_LENGTH(sizes[i], counts[j]);
            int fit = fits(sizes[i], counts[j]);
            read_one(sizes[i], counts[j], length, fit);
            read_one(sizes[i], counts[j], length - 1, 0);
            read_one(sizes[i], counts[j], length + 1, 0);
            lay_one(sizes[i], counts[j], length, fit);
            lay_one(sizes[i], counts[j], length - 1, 0);
        }
    return verdict("sizes");
}
