/* Sites that are recorded by month, and one call each of the entries that keep yearly totals, for the tests of these. */
#ifndef MONTHS_H
#define MONTHS_H

#include "inputs.h"

#include <stddef.h>
#include <stdint.h>

enum { MONTH_BYTES = 48, MONTHS = 12, SLOTS = 100, SLOT_BYTES = 32, TOTALS_BYTES = SLOTS * SLOT_BYTES, FIRST_SUM = 8 };

/* The largest sum of a slot to which a month is added: 10^19. */
extern const uint64_t MOST_SUM;

/* A site: its series, the image of its ledger and its buffer of totals, each with the length that is lent. */
struct monthly {
    struct series series;
    size_t image_len, totals_len;
    uint8_t image[IMAGE_BYTES], totals[TOTALS_BYTES];
};

/* The file of the next call, which is at the start, and its record at a place, counted from 0. */
extern uint8_t months[(FULL + 6) * MONTH_BYTES];
uint8_t *month_of(size_t place);

/* A site without records, and one that has n. Its slot has the months so far, and sums of up to so much; the slots before it
 * have any bytes, those after it are zeros. */
void begin_site(struct monthly *it, uint64_t climate);
void make_months(struct monthly *it, uint64_t n, uint64_t most);

/* Fills the file with so many records that the site takes. */
void fill_months(const struct monthly *it, size_t count);

/* The slot of the site's next record, counted from 0, and its bytes; and random bytes for all other slots. */
uint64_t next_slot(const struct monthly *it);
uint8_t *slot_of(struct monthly *it);
void scramble_others(struct monthly *it);

/* Adds so many output records to totals, each to its year: what the entries should do, from the output alone. */
void add_outputs(uint8_t *totals, const uint8_t *out, size_t count);

/* Offers a record, or a file, to the site, on both sides and compared; then holds what is left to what was lent and to the
 * output records. The site stays as it is. */
void offer_month(const struct monthly *it, const uint8_t *record, size_t record_len, size_t out_len, size_t answer_len);
void offer_months(const struct monthly *it, const uint8_t *records, size_t length, size_t room);

/* Offers the file's first record by a step and by a run, and holds both to a refusal. */
void offer_first(const struct monthly *it, uint64_t refusal);

/* Takes the site on by a record, or by a file. Then offers what was taken without totals, and holds both to each other. */
void take_month_on(struct monthly *it, const uint8_t *record);
void run_months_on(struct monthly *it, const uint8_t *records, size_t length, size_t room);

/* The refusal of the last call by one of these two, how many records it took, and the output records of all that it took. */
extern struct taken {
    uint64_t refusal, accepted;
    uint8_t out[FULL * MONTH_BYTES];
} taken;

/* Holds so many bytes to what they should be. */
void hold_bytes(const char *name, const uint8_t *bytes, const uint8_t *expected, size_t count);

#endif
