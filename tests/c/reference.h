/* A second landfill ledger, in plain C with 128-bit numbers, written from documents 01 and 02 alone: the peer that
 * the library is held against. Every name of it starts with reference_, so that both link into one program. */
#ifndef REFERENCE_H
#define REFERENCE_H

#include <stdbool.h>
#include <stddef.h>
#include <stdint.h>

/* The number n of accepted records, their kind and climate, by month the year's correction factor, site class and captured
 * f, and for each type the carbon brought in (T), the carbon left (R) and the carbon released so far, in mg. Place 0 is
 * type 1. */
struct reference_ledger {
    uint16_t n;
    uint8_t kind, climate;
    uint8_t factor, class;
    uint16_t f;
    uint64_t T[8], R[8], released[8];
};

/* The eight releases and x0 in mg, figure and bound in grams CO2e; and the record's decay work, the number of types that had
 * carbon before they decayed. */
struct reference_answer {
    uint64_t releases[8], x0, figure, bound, work;
};

/* Works the decay table out; to be called once, before all else. */
void reference_start(void);

/* The rules, on values (reference.c). A ledger that is NULL stands for an image that is no ledger at all. */
uint64_t reference_ceiling(uint64_t n, int t);
bool reference_is_sound(const struct reference_ledger *ledger);
uint8_t reference_refusal(const struct reference_ledger *ledger, const uint8_t *record, size_t record_len, size_t room);
void reference_accept(struct reference_ledger *ledger, const uint8_t *record, uint8_t *out, struct reference_answer *answer);
uint64_t reference_figure(const uint8_t *record, uint8_t class, uint64_t x0);
uint64_t reference_bound(const uint8_t *record, const struct reference_ledger *after);
uint64_t reference_total(const uint64_t of_types[8]);
uint64_t reference_read(const uint8_t *bytes, int count);
void reference_write(uint8_t *bytes, int count, uint64_t number);

/* The entries of landfill.h, with the same meaning (entries.c; look-up, masses, factors and repair in reference.c, the stretch
 * of years in reference_years.c, the columns and the helper for a block of them in reference_columns.c, the steps and runs with
 * yearly totals in reference_totals.c). */
uint8_t reference_fresh(uint8_t *ledger, size_t ledger_len);
uint8_t reference_take(uint8_t *ledger, size_t ledger_len, const uint8_t *record, size_t record_len, uint8_t *out,
                       size_t out_len, uint8_t *answer, size_t answer_len);
uint8_t reference_run(uint8_t *ledger, size_t ledger_len, const uint8_t *records, size_t records_len, uint8_t *out,
                      size_t out_len, uint64_t *accepted, uint64_t *work);
uint8_t reference_totals(const uint8_t *ledger, size_t ledger_len, uint64_t *stock, uint64_t *brought,
                         uint64_t *released);
uint32_t reference_entry(uint8_t kind, uint16_t rate);
uint8_t reference_cell(uint8_t filled, double kg, uint32_t *mass);
uint8_t reference_point(uint64_t figure, uint64_t bound, double *at, double *low, double *high);
uint8_t reference_listing(const uint8_t *records, size_t records_len, uint8_t *text, size_t text_len, uint64_t *length);
uint8_t reference_masses(uint8_t kind, uint64_t total, const uint8_t *samples, size_t samples_len, uint32_t masses[8]);
uint8_t reference_factor(uint8_t a, uint8_t b, uint8_t c, uint8_t d, uint8_t e, uint8_t g, uint8_t *factor);
uint8_t reference_factor_by_codes(uint8_t a, uint8_t b, uint8_t c, uint8_t d, uint8_t e, uint8_t g, uint8_t *factor);
uint8_t reference_repair(const uint8_t *order, size_t order_len, const uint8_t *file, size_t file_len, uint8_t *out,
                         size_t out_len, uint8_t *report, size_t report_len, uint64_t *changed);
uint8_t reference_tunisia(const uint8_t *file, size_t file_len, uint64_t first, uint64_t last, const uint64_t *electricity,
                          size_t electricity_len, const uint64_t *fuel, size_t fuel_len, uint64_t *reference,
                          uint64_t *project, int64_t *reduction, uint64_t *bound, uint64_t *years, uint8_t *refused);
uint8_t reference_columns(const uint8_t *file, size_t file_len, uint64_t *wood, size_t wood_len, uint64_t *paper,
                          size_t paper_len, uint64_t *food, size_t food_len, uint64_t *textiles, size_t textiles_len,
                          uint64_t *garden, size_t garden_len, uint64_t *inert, size_t inert_len, uint64_t *domestic_sludge,
                          size_t domestic_sludge_len, uint64_t *paper_sludge, size_t paper_sludge_len, uint64_t *figures,
                          size_t figures_len, uint64_t stocks[8]);
uint8_t reference_columns_in(const uint8_t *file, size_t file_len, uint64_t *block, size_t places, uint64_t stocks[8]);
uint8_t reference_take_month(uint8_t *ledger, size_t ledger_len, uint8_t *yearly_totals, size_t yearly_totals_len,
                             const uint8_t *record, size_t record_len, uint8_t *out, size_t out_len, uint8_t *answer,
                             size_t answer_len);
uint8_t reference_run_months(uint8_t *ledger, size_t ledger_len, uint8_t *yearly_totals, size_t yearly_totals_len,
                             const uint8_t *records, size_t records_len, uint8_t *out, size_t out_len, uint64_t *accepted,
                             uint64_t *work);

#endif
