/* What the peers in C's doubles over records of any kind share: constants, the numbers of a record, its refusal and its chain. */
#ifndef SHARED_H
#define SHARED_H

#include <stddef.h>
#include <stdint.h>
#include <string.h>

enum { TYPES = 8, RECORDS = 1200, BYTES = 48 };

/* Carbon content as a fraction by default; yearly rates by climate; the methane correction factor by site class. */
static const double DOC[TYPES] = {0.43, 0.40, 0.15, 0.24, 0.20, 0, 0.05, 0.09};
static const double RATE[TYPES][4] = {
    {0.020, 0.030, 0.025, 0.035}, {0.040, 0.060, 0.045, 0.070}, {0.060, 0.185, 0.085, 0.400}, {0.040, 0.060, 0.045, 0.070},
    {0.050, 0.100, 0.065, 0.170}, {0, 0, 0, 0},                 {0.060, 0.185, 0.085, 0.400}, {0.030, 0.030, 0.030, 0.030}};
static const double MCF[4] = {1.0, 0.5, 0.8, 0.4};

static uint32_t number(const uint8_t *bytes, size_t count)
{
    uint32_t number = 0;
    memcpy(&number, bytes, count); /* little-endian, as x86-64 is */
    return number;
}

static double mass(const uint8_t *record, int t)
{
    return number(record + 16 + 4 * t, 4);
}

/* k by year, or a twelfth of it by month. */
static double rate(const uint8_t *record, int t)
{
    double k = RATE[t][record[3] - 1];
    return record[2] == 1 ? k : k / 12;
}

/* Tells whether record n + 1 is a month with another correction factor, site class or captured f than its year's first. */
static int year_is_another(const uint8_t *first, const uint8_t *it, size_t n)
{
    const uint8_t *year = first + BYTES * (n - n % 12);
    return it[2] == 2 && (it[4] != year[4] || it[8] != year[8] || number(it + 10, 2) != number(year + 10, 2));
}

/* The refusal of record n + 1, which stands `left` bytes before the end of its file. */
static uint8_t refusal_of(const uint8_t *first, const uint8_t *it, size_t left, size_t room, size_t n)
{
    if (left < BYTES) return 1;
    if (room < BYTES) return 2;
    if (n == RECORDS) return 4;
    if (it[2] < 1 || it[2] > 2 || it[3] < 1 || it[3] > 4 || it[8] < 1 || it[8] > 4 || number(it + 14, 2) != 0) return 5;
    if (number(it, 2) != n + 1) return 6;
    if (it[2] != first[2] || it[3] != first[3]) return 7;
    if (it[4] < 1 || it[4] > 100 || it[5] > 100 || it[6] > 100 || it[7] > 100 || it[9] < 1 || it[9] > 100 ||
        number(it + 10, 2) > 10000 || it[12] > 100 || it[13] > 100)
        return 8;
    if (year_is_another(first, it, n)) return 17;
    for (int t = 0; t < TYPES; t++)
        if (number(it + 16 + 4 * t, 4) > 1000000000) return 9;
    return 0;
}

/* Grams CO2e of so many kilograms of carbon released. */
static double figure_of(const uint8_t *record, double released)
{
    return released * (record[4] / 100.0) * (1 - number(record + 10, 2) / 10000.0) * record[9] * (1 - record[5] / 100.0) *
           (16.0 / 12.0) * (record[6] / 100.0) * (record[7] / 100.0) * MCF[record[8] - 1] * 1000;
}

#endif
