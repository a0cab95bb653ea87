/* A total shared by sorted samples in plain C: each sample is read once, and all fits into 64 bits. */
#include "sorted.h"

#include <string.h>

enum { TYPES = 8, BYTES = 16, WHOLE = 10000 };

static int number_is_right(uint8_t kind, size_t Z)
{
    return kind == 1 ? Z >= 12 && Z <= 400 : kind == 2 && Z == 3;
}

/* Adds a sample's fractions to those of the others, and tells whether they add up. */
static inline int add(uint32_t of_type[TYPES], const uint8_t *sample)
{
    uint16_t fraction[TYPES];
    uint32_t sum = 0;
    memcpy(fraction, sample, BYTES); /* little-endian, as x86-64 is */
    for (int t = 0; t < TYPES; t++) {
        of_type[t] += fraction[t];
        sum += fraction[t];
    }
    return sum == WHOLE;
}

uint8_t sorted_masses(uint8_t kind, uint64_t total, const uint8_t *samples, size_t samples_len, uint32_t masses[8])
{
    uint32_t of_type[TYPES] = {0};
    uint64_t Z = samples_len / BYTES, P = 0, shared = 0;
    memset(masses, 0, TYPES * sizeof *masses);
    if (total > 1000000000) return 14;
    if (samples_len % BYTES != 0 || !number_is_right(kind, Z)) return 15;
    for (size_t n = 0; n < Z; n++)
        if (!add(of_type, samples + BYTES * n)) return 16;
    for (int t = 0; t < TYPES; t++) {
        P += of_type[t];
        uint64_t share = total * P / (WHOLE * Z);
        masses[t] = (uint32_t)(share - shared);
        shared = share;
    }
    return 0;
}
