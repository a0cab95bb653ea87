/* The same landfill in C's doubles. */
#include "doubles.h"

#include "shared.h"

#include <math.h>

/* Carbon contents as fractions: those of sludge by its dry matter, where the record has one, and rounded down as document 02
 * has it. */
static inline void set_contents(double *contents, const uint8_t *record)
{
    memcpy(contents, DOC, sizeof DOC);
    if (record[12] > 0) contents[6] = 50 * record[12] / 10000.0;
    if (record[13] > 0) contents[7] = 900 * record[13] / 35 / 10000.0;
}

/* Writes an output record; carbon in kilograms becomes whole milligrams. */
static void put_output(uint8_t *out, const uint8_t *record, double released, double stock, double brought)
{
    uint64_t numbers[5] = {(uint64_t)(released * 1e6), (uint64_t)figure_of(record, released), 0, (uint64_t)(stock * 1e6),
                           (uint64_t)(brought * 1e6)};
    memset(out + 4, 0, 4);
    memcpy(out, record, 4);
    memcpy(out + 8, numbers, sizeof numbers);
}

/* Keeps a stock for each type; exp() is called for every record, or for the first one only. */
static inline uint8_t by_stock(int every, const uint8_t *records, size_t records_len, uint8_t *out, size_t out_len,
                               uint64_t *accepted)
{
    double left[TYPES] = {0}, decay[TYPES], contents[TYPES], brought = 0;
    uint8_t refusal = 0;
    size_t done = 0;
    for (*accepted = 0; done < records_len; ++*accepted, done += BYTES) {
        const uint8_t *record = records + done;
        refusal = refusal_of(records, record, records_len - done, out_len - done, *accepted);
        if (refusal != 0) break;
        if (every || done == 0)
            for (int t = 0; t < TYPES; t++) decay[t] = exp(-rate(record, t));
        double released = 0, stock = 0;
        set_contents(contents, record);
        for (int t = 0; t < TYPES; t++) {
            double deposit = mass(record, t) * contents[t], held = left[t] + deposit;
            left[t] = held * decay[t];
            released += held - left[t];
            stock += left[t];
            brought += deposit;
        }
        put_output(out + done, record, released, stock, brought);
    }
    return refusal;
}

uint8_t doubles_exp_each(const uint8_t *records, size_t records_len, uint8_t *out, size_t out_len, uint64_t *accepted)
{
    return by_stock(1, records, records_len, out, out_len, accepted);
}

uint8_t doubles_exp_once(const uint8_t *records, size_t records_len, uint8_t *out, size_t out_len, uint64_t *accepted)
{
    return by_stock(0, records, records_len, out, out_len, accepted);
}

/* Equation (1), and (2) with its exponent m - i: the sum over x from 1 to y and over j of W(j,x) * DOC(j) *
 * e^(-k(j) * (y - x)) * (1 - e^(-k(j))). */
static double double_sum(const uint8_t *records, uint64_t y)
{
    double sum = 0, contents[TYPES];
    for (uint64_t x = 1; x <= y; x++) {
        const uint8_t *record = records + BYTES * (x - 1);
        set_contents(contents, record);
        for (int j = 0; j < TYPES; j++) {
            double k = rate(record, j);
            sum += mass(record, j) * contents[j] * exp(-k * (double)(y - x)) * (1 - exp(-k));
        }
    }
    return sum;
}

uint8_t doubles_equation(const uint8_t *records, size_t records_len, uint8_t *out, size_t out_len, uint64_t *accepted)
{
    double stock = 0, brought = 0, contents[TYPES];
    uint8_t refusal = 0;
    size_t done = 0;
    for (*accepted = 0; done < records_len; ++*accepted, done += BYTES) {
        const uint8_t *record = records + done;
        refusal = refusal_of(records, record, records_len - done, out_len - done, *accepted);
        if (refusal != 0) break;
        set_contents(contents, record);
        double deposit = 0, released = double_sum(records, *accepted + 1);
        for (int t = 0; t < TYPES; t++) deposit += mass(record, t) * contents[t];
        brought += deposit;
        stock += deposit - released;
        put_output(out + done, record, released, stock, brought);
    }
    return refusal;
}
