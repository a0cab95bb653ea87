/* The yearly totals of document 02, request l: the plain step and the plain run, with each accepted month added to its year. */
#include "reference.h"

#include <string.h>

enum { BYTES = 48, LEDGER_BYTES = 200, ANSWER_BYTES = 88, MONTHS = 12, SLOT_BYTES = 32, TOTALS_BYTES = 3200, SUMS = 3 };
static const uint64_t SUM_LIMIT = 10000000000000000000u;

/* ---- One slot */

/* The slot of a record of period n, counted from 0. */
static uint64_t slot_of(const uint8_t *record)
{
    return (reference_read(record, 2) - 1) / MONTHS;
}

/* Where a slot's three sums are: of x0, figures and bounds. */
static int place_of_sum(int i)
{
    return 8 + 8 * i;
}

/* Tells whether a record's slot is one to which the record cannot be added. */
static bool slot_is_wrong(const uint8_t *totals, const uint8_t *record)
{
    const uint8_t *slot = totals + SLOT_BYTES * slot_of(record);
    uint64_t months = reference_read(slot + 4, 4);
    if (months != (reference_read(record, 2) - 1) % MONTHS) return true;
    for (int i = 0; i < SUMS; i++)
        if (reference_read(slot + place_of_sum(i), 8) > SUM_LIMIT) return true;
    if (months > 0) return reference_read(slot, 4) != slot_of(record) + 1;
    for (int i = 0; i < SLOT_BYTES; i++)
        if (slot[i] != 0) return true;
    return false;
}

/* Adds an accepted record by its output record, which has x0, figure and bound where a slot has their sums. */
static void add_month(uint8_t *totals, const uint8_t *out)
{
    uint8_t *slot = totals + SLOT_BYTES * slot_of(out);
    reference_write(slot, 4, slot_of(out) + 1);
    reference_write(slot + 4, 4, reference_read(slot + 4, 4) + 1);
    for (int i = 0; i < SUMS; i++) {
        int at = place_of_sum(i);
        reference_write(slot + at, 8, reference_read(slot + at, 8) + reference_read(out + at, 8));
    }
}

/* ---- Refusals */

/* The refusal of the plain step, which is tried on a copy. An image of another length is refused before it is read. */
static uint8_t refusal_of_step(const uint8_t *ledger, size_t ledger_len, const uint8_t *record, size_t record_len, size_t room)
{
    uint8_t copy[LEDGER_BYTES] = {0}, out[BYTES], answer[ANSWER_BYTES];
    if (ledger_len == LEDGER_BYTES) memcpy(copy, ledger, LEDGER_BYTES);
    return reference_take(copy, ledger_len, record, record_len, out, room, answer, sizeof answer);
}

/* Gives 27 for a yearly record after 5 and before 6, and 32 last. */
static uint8_t refusal_of(const uint8_t *ledger, size_t ledger_len, const uint8_t *totals, const uint8_t *record,
                          size_t record_len, size_t room)
{
    uint8_t refusal = refusal_of_step(ledger, ledger_len, record, record_len, room);
    if (refusal >= 1 && refusal <= 5) return refusal;
    if (record[2] == 1) return 27;
    if (refusal != 0) return refusal;
    return slot_is_wrong(totals, record) ? 32 : 0;
}

/* ---- Entries */

uint8_t reference_take_month(uint8_t *ledger, size_t ledger_len, uint8_t *yearly_totals, size_t yearly_totals_len,
                             const uint8_t *record, size_t record_len, uint8_t *out, size_t out_len, uint8_t *answer,
                             size_t answer_len)
{
    size_t room = answer_len < ANSWER_BYTES ? 0 : out_len;
    uint8_t refusal = 28;
    if (yearly_totals_len == TOTALS_BYTES)
        refusal = refusal_of(ledger, ledger_len, yearly_totals, record, record_len, room);
    if (refusal == 0) {
        reference_take(ledger, ledger_len, record, record_len, out, out_len, answer, answer_len);
        add_month(yearly_totals, out);
    } else if (answer_len >= ANSWER_BYTES) {
        memset(answer, 0, ANSWER_BYTES);
    }
    return refusal;
}

uint8_t reference_run_months(uint8_t *ledger, size_t ledger_len, uint8_t *yearly_totals, size_t yearly_totals_len,
                             const uint8_t *records, size_t records_len, uint8_t *out, size_t out_len, uint64_t *accepted,
                             uint64_t *work)
{
    uint64_t one, of_record;
    *accepted = *work = 0;
    if (yearly_totals_len != TOTALS_BYTES) return 28;
    for (size_t done = 0; done < records_len; done += BYTES) {
        const uint8_t *record = records + done;
        size_t record_len = records_len - done < BYTES ? records_len - done : BYTES;
        uint8_t refusal = refusal_of(ledger, ledger_len, yearly_totals, record, record_len, out_len - done);
        if (refusal != 0) return refusal;
        reference_run(ledger, ledger_len, record, BYTES, out + done, BYTES, &one, &of_record);
        add_month(yearly_totals, out + done);
        *accepted += one;
        *work += of_record;
    }
    return 0;
}
