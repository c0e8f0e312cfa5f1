/* What the C tests share: counting, and looking into an image behind the library's back. */
#ifndef CHECK_H
#define CHECK_H

#include <inttypes.h>
#include <stdio.h>
#include <string.h>

#include "pds.h"

static unsigned long checks, failures;

/* Counts one check, and says which failed. */
static inline void expect(const char *what, uint64_t got, uint64_t want) {
    checks += 1;
    if (got == want)
        return;
    failures += 1;
    printf("FAILED %s: got %" PRIu64 ", want %" PRIu64 "\n", what, got, want);
}

/* The last line of each test program, and its exit status. */
static inline int verdict(const char *name) {
    printf("%s: %lu checks, %lu failed\n", name, checks, failures);
    return failures != 0 || checks == 0;
}

static inline uint64_t number_at(const uint8_t *bytes, unsigned width) {
    uint64_t number = 0;
    while (width > 0)
        number = number << 8 | bytes[--width];
    return number;
}

static inline void put_number(uint8_t *bytes, unsigned width, uint64_t number) {
    unsigned i;
    for (i = 0; i < width; i++)
        bytes[i] = (uint8_t)(number >> (8 * i));
}

static inline uint64_t word_of(uint32_t value, uint32_t counter) {
    return (uint64_t)counter << 32 | value;
}

static inline uint64_t word_at(const uint8_t *image, uint32_t place) {
    return number_at(image + 8 + 8 * place, 8);
}

static inline void put_word(uint8_t *image, uint32_t place, uint64_t word) {
    put_number(image + 8 + 8 * place, 8, word);
}

static inline uint8_t *record_of(uint8_t *image, uint32_t max, uint32_t party) {
    return image + PDS_LENGTH(max, party);
}

/* A party's record, field by field. */
struct record {
    uint8_t operation, stage;
    uint16_t k;
    uint32_t v;
    uint64_t first, second, spare;
};

static inline void put_record(uint8_t *at, struct record r) {
    at[0] = r.operation;
    at[1] = r.stage;
    put_number(at + 2, 2, r.k);
    put_number(at + 4, 4, r.v);
    put_number(at + 8, 8, r.first);
    put_number(at + 16, 8, r.second);
    put_number(at + 24, 8, r.spare);
}

#endif
