/* Yearly totals beside a run in C's doubles. */
#include "yearly.h"

#include "doubles.h"

#include <string.h>

enum { BYTES = 48, MONTHS = 12 };

/* A slot as it is in the totals, little-endian as x86-64 is. */
struct slot {
    uint32_t year, months;
    uint64_t x0, figure, bound;
};

uint8_t yearly_by_exp(const uint8_t *records, size_t records_len, uint8_t *out, size_t out_len, uint64_t *accepted,
                      uint8_t *totals)
{
    uint8_t refusal = doubles_exp_once(records, records_len, out, out_len, accepted);
    for (uint64_t i = 0; i < *accepted; i++) {
        const uint8_t *record = out + BYTES * i;
        uint32_t year = (uint32_t)(record[0] + 256 * record[1] - 1) / MONTHS;
        uint64_t numbers[3];
        struct slot slot;
        memcpy(numbers, record + 8, sizeof numbers);
        memcpy(&slot, totals + sizeof slot * year, sizeof slot);
        slot.year = year + 1;
        slot.months++;
        slot.x0 += numbers[0];
        slot.figure += numbers[1];
        slot.bound += numbers[2];
        memcpy(totals + sizeof slot * year, &slot, sizeof slot);
    }
    return refusal;
}
