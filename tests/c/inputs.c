/* Random, edged and damaged records and samples. */
#include "inputs.h"

#include "reference.h"

#include <string.h>

static uint64_t state;

void seed(uint64_t number)
{
    state = number;
}

/* Splitmix64. */
uint64_t draw(void)
{
    uint64_t z = state += 0x9E3779B97F4A7C15u;
    z = (z ^ z >> 30) * 0xBF58476D1CE4E5B9u;
    z = (z ^ z >> 27) * 0x94D049BB133111EBu;
    return z ^ z >> 31;
}

uint64_t below(uint64_t count)
{
    return draw() % count;
}

int chance(unsigned percent)
{
    return below(100) < percent;
}

void random_bytes(uint8_t *bytes, size_t count)
{
    uint64_t eight = 0;
    for (size_t i = 0; i < count; i++) {
        if (i % 8 == 0) eight = draw();
        bytes[i] = (uint8_t)(eight >> 8 * (i % 8));
    }
}

uint64_t edge(uint64_t low, uint64_t high)
{
    uint64_t span = high - low;
    switch (below(8)) {
    case 0: return low;
    case 1: return high;
    case 2: return low + (span > 0);
    case 3: return high - (span > 0);
    case 4: return low + below((span >> (1 + below(63))) + 1);
    default: return span == UINT64_MAX ? draw() : low + below(span + 1);
    }
}

uint64_t any_size(void)
{
    uint64_t shift = below(64);
    return draw() >> shift;
}

void add(uint8_t *bytes, int count, uint64_t number)
{
    reference_write(bytes, count, reference_read(bytes, count) + number);
}

uint8_t outside(uint64_t low, uint64_t high)
{
    return (uint8_t)(low > 0 && chance(40) ? edge(0, low - 1) : edge(high + 1, 255));
}

struct year any_year(void)
{
    struct year year;
    year.factor = edge(1, 100);
    year.class = 1 + below(4);
    year.f = edge(0, 10000);
    return year;
}

struct series new_series(uint64_t n, uint64_t kind, uint64_t climate)
{
    return (struct series){n, kind, climate, any_year()};
}

struct series any_series(uint64_t most)
{
    uint64_t n = edge(0, most), kind = 1 + below(2);
    return new_series(n, kind, 1 + below(4));
}

/* A dry matter of sludge, measured or not. */
static uint64_t any_dry(void)
{
    return chance(50) ? edge(0, 100) : 0;
}

/* In a monthly series, a record that does not begin a year repeats the year's factors. */
void make_record(uint8_t *bytes, struct series series)
{
    struct year year = series.kind == 2 && series.n % 12 != 0 ? series.year : any_year();
    reference_write(bytes, 2, series.n + 1);
    bytes[2] = (uint8_t)series.kind;
    bytes[3] = (uint8_t)series.climate;
    bytes[4] = (uint8_t)year.factor;
    for (int i = 5; i <= 7; i++) bytes[i] = (uint8_t)edge(0, 100);
    bytes[8] = (uint8_t)year.class;
    bytes[9] = (uint8_t)edge(1, 100);
    reference_write(bytes + 10, 2, year.f);
    for (int i = 12; i <= 13; i++) bytes[i] = (uint8_t)any_dry();
    memset(bytes + 14, 0, 2);
    unsigned filled = (unsigned)edge(0, 100);
    for (int t = 0; t < 8; t++) reference_write(bytes + 16 + 4 * t, 4, chance(filled) ? edge(0, 1000000000) : 0);
}

void make_file(uint8_t *bytes, size_t count, struct series series)
{
    for (size_t i = 0; i < count; i++, series.n++, bytes += 48) {
        make_record(bytes, series);
        series.year = (struct year){bytes[4], bytes[8], reference_read(bytes + 10, 2)};
    }
}

/* Another number from low to high. */
static uint64_t other(uint64_t number, uint64_t low, uint64_t high)
{
    return low + (number - low + 1 + below(high - low)) % (high - low + 1);
}

/* The largest f, 10000, has the bytes 16 and 39. */
void change_year(uint8_t *bytes, int way)
{
    uint8_t *low = bytes + 10, *high = bytes + 11;
    uint64_t f = reference_read(low, 2);
    switch (way) {
    case 0: bytes[4] = (uint8_t)other(bytes[4], 1, 100); break;
    case 1: bytes[8] = (uint8_t)other(bytes[8], 1, 4); break;
    case 2: *low = (uint8_t)other(*low, 0, *high < 39 ? 255 : 16); break;
    case 3: *high = (uint8_t)other(*high, 0, *low > 16 ? 38 : 39); break;
    case 4: reference_write(low, 2, f > 0 ? f - 1 : 1); break;
    case 5:
        change_year(bytes, 0);
        change_year(bytes, 1);
        reference_write(low, 2, other(f, 0, 10000));
        break;
    }
}

void break_rule(uint8_t *bytes, int rule)
{
    uint64_t period = reference_read(bytes, 2);
    uint64_t pick = below(48);
    switch (rule) {
    case 0: bytes[2] = outside(1, 2); break;
    case 1: bytes[3] = outside(1, 4); break;
    case 2: bytes[8] = outside(1, 4); break;
    case 3: bytes[14 + pick % 2] = (uint8_t)edge(1, 255); break;
    case 4: reference_write(bytes, 2, period + 1 - 2 * below(2)); break;
    case 5: reference_write(bytes, 2, edge(0, 65535)); break;
    case 6: bytes[2] = (uint8_t)(3 - bytes[2]); break;
    case 7: bytes[3] = (uint8_t)(1 + below(4)); break;
    case 8: bytes[4] = outside(1, 100); break;
    case 9: bytes[5 + pick % 3] = outside(0, 100); break;
    case 10: bytes[9] = outside(1, 100); break;
    case 11: reference_write(bytes + 10, 2, edge(10001, 65535)); break;
    case 12: bytes[12 + pick % 2] = outside(0, 100); break;
    case 13:
    case 14: reference_write(bytes + 16 + 4 * (pick % 8), 4, edge(1000000001, UINT32_MAX)); break;
    case 15:
    case 16: change_year(bytes, (int)below(CHANGES)); break;
    case 17: bytes[pick] = (uint8_t)draw(); break;
    default: bytes[pick] ^= (uint8_t)(1u << below(8)); break;
    }
}

void damage_record(uint8_t *bytes)
{
    if (chance(3)) random_bytes(bytes, 48);
    do break_rule(bytes, (int)below(RULES));
    while (chance(40));
}

static void make_sample(uint8_t *sample)
{
    uint64_t left = 10000, first = below(8);
    for (uint64_t i = 0; i < 8; i++) {
        uint64_t part = i < 7 ? edge(0, left) : left;
        reference_write(sample + 2 * ((first + i) % 8), 2, part);
        left -= part;
    }
}

void make_samples(uint8_t *bytes, size_t count)
{
    for (size_t n = 0; n < count; n++) make_sample(bytes + 16 * n);
}

static uint8_t *some_fraction(uint8_t *sample)
{
    return sample + 2 * below(8);
}

/* Makes a sample add up, modulo 2^16 only, by one of its fractions. */
static void add_up(uint8_t *sample)
{
    uint64_t sum = 0;
    for (int t = 0; t < 8; t++) sum += reference_read(sample + 2 * t, 2);
    add(some_fraction(sample), 2, 10000 - sum);
}

/* A hundredth of a percent may go from one sample to another. */
static void break_sample(uint8_t *sample, uint8_t *other)
{
    uint8_t *fraction = some_fraction(sample), *byte = sample + below(16);
    switch (below(9)) {
    case 0: add(fraction, 2, 1); break;
    case 1: add(fraction, 2, UINT64_MAX); break;
    case 2:
        add(fraction, 2, 1);
        add(some_fraction(other), 2, UINT64_MAX);
        break;
    case 3: reference_write(fraction, 2, edge(10001, 65535)); break;
    case 4:
        reference_write(fraction, 2, edge(10001, 65535));
        add_up(sample);
        break;
    case 5: random_bytes(sample, 16); break;
    case 6:
        random_bytes(sample, 16);
        add_up(sample);
        break;
    case 7: memset(sample, 0, 16); break;
    default: *byte ^= (uint8_t)(1u << below(8)); break;
    }
}

void damage_samples(uint8_t *bytes, size_t count)
{
    do {
        uint8_t *sample = bytes + 16 * below(count);
        break_sample(sample, bytes + 16 * below(count));
    } while (chance(40));
}
