/* The Tunisian method in C's doubles: one pass over the yearly records, with the carbon that the year before released. */
#include "reductions.h"

#include <math.h>
#include <string.h>

enum { TYPES = 8, RECORDS = 1200, BYTES = 48 };
static const uint64_t GRAMS_LIMIT = 1000000000000000;

/* Carbon content as a fraction by default, and yearly rates by climate. */
static const double DOC[TYPES] = {0.43, 0.40, 0.15, 0.24, 0.20, 0, 0.05, 0.09};
static const double RATE[TYPES][4] = {
    {0.020, 0.030, 0.025, 0.035}, {0.040, 0.060, 0.045, 0.070}, {0.060, 0.185, 0.085, 0.400}, {0.040, 0.060, 0.045, 0.070},
    {0.050, 0.100, 0.065, 0.170}, {0, 0, 0, 0},                 {0.060, 0.185, 0.085, 0.400}, {0.030, 0.030, 0.030, 0.030}};

static uint32_t number(const uint8_t *bytes, size_t count)
{
    uint32_t number = 0;
    memcpy(&number, bytes, count); /* little-endian, as x86-64 is */
    return number;
}

/* The refusal of record n + 1, which stands `left` bytes before the end of its file. */
static uint8_t refusal_of(const uint8_t *first, const uint8_t *it, size_t left, size_t n)
{
    if (left < BYTES) return 1;
    if (n == RECORDS) return 4;
    if (it[2] < 1 || it[2] > 2 || it[3] < 1 || it[3] > 4 || it[8] < 1 || it[8] > 4 || number(it + 14, 2) != 0) return 5;
    if (it[2] == 2) return 23;
    if (number(it, 2) != n + 1) return 6;
    if (it[3] != first[3]) return 7;
    if (it[4] < 1 || it[4] > 100 || it[5] > 100 || it[6] > 100 || it[7] > 100 || it[9] < 1 || it[9] > 100 ||
        number(it + 10, 2) > 10000 || it[12] > 100 || it[13] > 100)
        return 8;
    for (int t = 0; t < TYPES; t++)
        if (number(it + 16 + 4 * t, 4) > 1000000000) return 9;
    return 0;
}

/* Carbon content as a fraction: that of sludge by its dry matter, where the record has one. */
static double content(const uint8_t *record, int t)
{
    if (t == 6 && record[12] > 0) return 50 * record[12] / 10000.0;
    if (t == 7 && record[13] > 0) return 900 * record[13] / 35 / 10000.0;
    return DOC[t];
}

/* Brings a record's waste in, decays all stocks, and gives the kilograms of carbon released. */
static double released_by(const uint8_t *record, const double decay[TYPES], double left[TYPES])
{
    double released = 0;
    for (int t = 0; t < TYPES; t++) {
        double held = left[t] + number(record + 16 + 4 * t, 4) * content(record, t);
        left[t] = held * decay[t];
        released += held - left[t];
    }
    return released;
}

/* Grams CO2e of so many kilograms of carbon released, at an anaerobic site. */
static double figure_of(const uint8_t *record, double released)
{
    return released * (record[4] / 100.0) * (1 - number(record + 10, 2) / 10000.0) * record[9] * (1 - record[5] / 100.0) *
           (16.0 / 12.0) * (record[6] / 100.0) * (record[7] / 100.0) * 1000;
}

/* The refusal of a stretch, given the accepted years; adds its entries up. */
static uint8_t refusal_of_stretch(uint64_t first, uint64_t last, uint64_t years, const uint64_t *electricity,
                                  size_t electricity_len, const uint64_t *fuel, size_t fuel_len, uint64_t *entered)
{
    if (first < 1 || first > last || last > years) return 24;
    if (electricity_len != last - first + 1 || fuel_len != electricity_len) return 24;
    for (size_t i = 0; i < fuel_len; i++) {
        if (electricity[i] > GRAMS_LIMIT || fuel[i] > GRAMS_LIMIT) return 25;
        *entered += electricity[i] + fuel[i];
    }
    return 0;
}

uint8_t reductions_by_exp(const uint8_t *file, size_t file_len, uint64_t first, uint64_t last, const uint64_t *electricity,
                          size_t electricity_len, const uint64_t *fuel, size_t fuel_len, uint64_t *reference,
                          uint64_t *project, int64_t *reduction, uint64_t *bound, uint64_t *years, uint8_t *refused)
{
    double left[TYPES] = {0}, decay[TYPES], released = 0;
    uint64_t of_reference = 0, of_project = 0, entered = 0, n = 0;
    *reference = *project = *bound = 0;
    *reduction = 0;
    *refused = 0;
    for (size_t done = 0; done < file_len; done += BYTES, n++) {
        const uint8_t *record = file + done;
        *refused = refusal_of(file, record, file_len - done, n);
        if (*refused != 0) break;
        for (int t = 0; n == 0 && t < TYPES; t++) decay[t] = exp(-RATE[t][record[3] - 1]);
        if (n + 1 >= first && n < last) {
            double figure = figure_of(record, released);
            of_reference += (uint64_t)(figure * 0.73);
            of_project += (uint64_t)(figure * 0.5);
        }
        released = released_by(record, decay, left);
    }
    *years = n;
    uint8_t refusal = refusal_of_stretch(first, last, n, electricity, electricity_len, fuel, fuel_len, &entered);
    if (refusal != 0) return refusal;
    *reference = of_reference;
    *project = of_project;
    *reduction = (int64_t)of_reference - (int64_t)of_project - (int64_t)entered;
    return 0;
}
