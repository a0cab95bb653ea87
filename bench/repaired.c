/* A shuffled file put right in plain C: the order is tested once, and each record read once. */
#include "repaired.h"

#include <string.h>

enum { TYPES = 8, BYTES = 48, AT_MASSES = 16 };

/* Gives for each place that of its type, from 0, and tells whether each type is named: then none is named twice. */
static inline int places_of(uint8_t to[TYPES], const uint8_t *order, size_t order_len)
{
    unsigned named = 0;
    if (order_len != TYPES) return 0;
    for (int p = 0; p < TYPES; p++) {
        if (order[p] < 1 || order[p] > TYPES) return 0;
        to[p] = (uint8_t)(order[p] - 1);
        named |= 1u << to[p];
    }
    return named == 255;
}

/* Writes a record with every mass at its type's place, and gives the bits of the masses that changed. */
static inline uint8_t put_right(const uint8_t to[TYPES], const uint8_t *record, uint8_t *out)
{
    uint32_t old[TYPES], new[TYPES];
    unsigned changes = 0;
    memcpy(old, record + AT_MASSES, sizeof old); /* little-endian, as x86-64 is */
    for (int p = 0; p < TYPES; p++) new[to[p]] = old[p];
    for (int t = 0; t < TYPES; t++) changes |= (unsigned)(new[t] != old[t]) << t;
    memcpy(out, record, AT_MASSES);
    memcpy(out + AT_MASSES, new, sizeof new);
    return (uint8_t)changes;
}

uint8_t repaired_file(const uint8_t *order, size_t order_len, const uint8_t *file, size_t file_len, uint8_t *out,
                      size_t out_len, uint8_t *report, size_t report_len, uint64_t *changed)
{
    uint8_t to[TYPES];
    uint64_t bits = 0;
    *changed = 0;
    if (!places_of(to, order, order_len)) return 20;
    if (file_len % BYTES != 0) return 21;
    if (out_len < file_len || report_len < file_len / BYTES) return 22;
    for (size_t i = 0; i < file_len / BYTES; i++) {
        uint8_t changes = put_right(to, file + BYTES * i, out + BYTES * i);
        report[i] = changes;
        bits += (unsigned)__builtin_popcount(changes);
    }
    *changed = bits;
    return 0;
}
