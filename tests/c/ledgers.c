/* Images of ledgers, sound and damaged. */
#include "inputs.h"
#include "reference.h"

#include <string.h>

/* Where T, R and released of the type at place t stand in an image. */
static uint8_t *brought_of(uint8_t *image, int t)
{
    return image + 8 + 8 * t;
}

static uint8_t *stock_of(uint8_t *image, int t)
{
    return image + 72 + 8 * t;
}

static uint8_t *released_of(uint8_t *image, int t)
{
    return image + 136 + 8 * t;
}

/* Makes released plus R be T, modulo 2^64 only. */
static void balance(uint8_t *image, int t)
{
    uint64_t T = reference_read(brought_of(image, t), 8), R = reference_read(stock_of(image, t), 8);
    reference_write(released_of(image, t), 8, T - R);
}

void put_type(uint8_t *image, int t, uint64_t T, uint64_t R)
{
    reference_write(brought_of(image, t), 8, T);
    reference_write(stock_of(image, t), 8, R);
    balance(image, t);
}

void put_year(uint8_t *image, struct year year)
{
    image[4] = (uint8_t)year.factor;
    image[5] = (uint8_t)year.class;
    reference_write(image + 6, 2, year.f);
}

void follow(struct series *series, const uint8_t *image)
{
    series->n = reference_read(image, 2);
    series->year = (struct year){image[4], image[5], reference_read(image + 6, 2)};
}

void make_ledger(uint8_t *image, struct series series)
{
    memset(image, 0, IMAGE_BYTES);
    if (series.n == 0) return;
    reference_write(image, 2, series.n);
    image[2] = (uint8_t)series.kind;
    image[3] = (uint8_t)series.climate;
    if (series.kind == 2) put_year(image, series.year);
    for (int t = 0; t < 8; t++) {
        uint64_t T = edge(0, reference_ceiling(series.n, t));
        put_type(image, t, T, edge(0, T));
    }
}

/* The first ways leave released plus R at T, though modulo 2^64 only. */
void break_type(uint8_t *image, int t, int way)
{
    uint8_t *T = brought_of(image, t), *R = stock_of(image, t), *released = released_of(image, t);
    uint64_t above = reference_read(T, 8) + 1, ceiling = reference_ceiling(reference_read(image, 2), t);
    switch (way) {
    case 0: reference_write(T, 8, ceiling + 1); break;
    case 1: reference_write(T, 8, edge(0, UINT64_MAX)); break;
    case 2: reference_write(R, 8, above); break;
    case 3: reference_write(R, 8, edge(above, UINT64_MAX)); break;
    case 4: add(released, 8, 1); return;
    case 5: add(released, 8, UINT64_MAX); return;
    case 6: reference_write(released, 8, edge(0, UINT64_MAX)); return;
    case 7: add(R, 8, UINT64_MAX); return;
    case 8: reference_write(R, 8, edge(0, UINT64_MAX)); return;
    default:
        random_bytes(T, 8);
        random_bytes(R, 8);
        random_bytes(released, 8);
        return;
    }
    balance(image, t);
}

/* Factors within their ranges are sound in a monthly ledger with records, unsound in any other; zeros the other way round. */
static void break_year(uint8_t *image)
{
    switch (below(6)) {
    case 0: image[4] = outside(1, 100); break;
    case 1: image[5] = outside(1, 4); break;
    case 2: reference_write(image + 6, 2, edge(10001, 65535)); break;
    case 3: put_year(image, any_year()); break;
    case 4: put_year(image, (struct year){0}); break;
    default: image[4 + below(4)] = (uint8_t)edge(1, 255); break;
    }
}

/* What one type has released may go to another, and all of it may be missing. */
static void break_ledger(uint8_t *image)
{
    uint64_t pick = below(IMAGE_BYTES);
    int t = (int)below(8), other = (int)below(8);
    switch (below(17)) {
    case 0: reference_write(image, 2, edge(1201, 65535)); break;
    case 1: reference_write(image, 2, edge(0, 1300)); break;
    case 2: reference_write(image, 2, 0); break;
    case 3: image[2] = outside(1, 2); break;
    case 4: image[3] = outside(1, 4); break;
    case 5: image[2 + pick % 2] = 1; break;
    case 6: image[2] = (uint8_t)(3 - image[2]); break;
    case 7:
        add(released_of(image, t), 8, 1);
        add(released_of(image, other), 8, UINT64_MAX);
        break;
    case 8: memset(released_of(image, 0), 0, 64); break;
    case 9:
    case 10: break_year(image); break;
    case 11: image[pick] = (uint8_t)draw(); break;
    case 12: image[pick] ^= (uint8_t)(1u << below(8)); break;
    default: break_type(image, t, (int)below(WAYS)); break;
    }
}

void damage_ledger(uint8_t *image)
{
    if (chance(5)) random_bytes(image, IMAGE_BYTES);
    if (chance(5)) memset(image, 0, IMAGE_BYTES);
    do break_ledger(image);
    while (chance(30));
}
