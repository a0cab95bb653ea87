/* The entries of landfill.h by the reference, so that the tests themselves can be tried without the library. */
#include "landfill.h"
#include "reference.h"

__attribute__((constructor)) static void start(void)
{
    reference_start();
}

uint8_t landfill_fresh(uint8_t *ledger, size_t ledger_len)
{
    return reference_fresh(ledger, ledger_len);
}

uint8_t landfill_take(uint8_t *ledger, size_t ledger_len, const uint8_t *record, size_t record_len, uint8_t *out,
                      size_t out_len, uint8_t *answer, size_t answer_len)
{
    return reference_take(ledger, ledger_len, record, record_len, out, out_len, answer, answer_len);
}

uint8_t landfill_run(uint8_t *ledger, size_t ledger_len, const uint8_t *records, size_t records_len, uint8_t *out,
                     size_t out_len, uint64_t *accepted, uint64_t *work)
{
    return reference_run(ledger, ledger_len, records, records_len, out, out_len, accepted, work);
}

uint8_t landfill_totals(const uint8_t *ledger, size_t ledger_len, uint64_t *stock, uint64_t *brought,
                        uint64_t *released)
{
    return reference_totals(ledger, ledger_len, stock, brought, released);
}

uint32_t landfill_entry(uint8_t kind, uint16_t rate)
{
    return reference_entry(kind, rate);
}

uint8_t landfill_cell(uint8_t filled, double kg, uint32_t *mass)
{
    return reference_cell(filled, kg, mass);
}

uint8_t landfill_point(uint64_t figure, uint64_t bound, double *at, double *low, double *high)
{
    return reference_point(figure, bound, at, low, high);
}

uint8_t landfill_listing(const uint8_t *records, size_t records_len, uint8_t *text, size_t text_len, uint64_t *length)
{
    return reference_listing(records, records_len, text, text_len, length);
}

uint8_t landfill_masses(uint8_t kind, uint64_t total, const uint8_t *samples, size_t samples_len,
                        uint32_t masses[LANDFILL_TYPES])
{
    return reference_masses(kind, total, samples, samples_len, masses);
}

uint8_t landfill_factor(uint8_t a, uint8_t b, uint8_t c, uint8_t d, uint8_t e, uint8_t g, uint8_t *factor)
{
    return reference_factor(a, b, c, d, e, g, factor);
}

uint8_t landfill_factor_by_codes(uint8_t a, uint8_t b, uint8_t c, uint8_t d, uint8_t e, uint8_t g, uint8_t *factor)
{
    return reference_factor_by_codes(a, b, c, d, e, g, factor);
}

uint8_t landfill_repair(const uint8_t *order, size_t order_len, const uint8_t *file, size_t file_len, uint8_t *out,
                        size_t out_len, uint8_t *report, size_t report_len, uint64_t *changed)
{
    return reference_repair(order, order_len, file, file_len, out, out_len, report, report_len, changed);
}

uint8_t landfill_tunisia(const uint8_t *file, size_t file_len, uint64_t first, uint64_t last, const uint64_t *electricity,
                         size_t electricity_len, const uint64_t *fuel, size_t fuel_len, uint64_t *reference,
                         uint64_t *project, int64_t *reduction, uint64_t *bound, uint64_t *years, uint8_t *refused)
{
    return reference_tunisia(file, file_len, first, last, electricity, electricity_len, fuel, fuel_len, reference, project,
                             reduction, bound, years, refused);
}

uint8_t landfill_columns(const uint8_t *file, size_t file_len, uint64_t *wood, size_t wood_len, uint64_t *paper,
                         size_t paper_len, uint64_t *food, size_t food_len, uint64_t *textiles, size_t textiles_len,
                         uint64_t *garden, size_t garden_len, uint64_t *inert, size_t inert_len,
                         uint64_t *domestic_sludge, size_t domestic_sludge_len, uint64_t *paper_sludge,
                         size_t paper_sludge_len, uint64_t *figures, size_t figures_len,
                         uint64_t stocks[LANDFILL_TYPES])
{
    return reference_columns(file, file_len, wood, wood_len, paper, paper_len, food, food_len, textiles, textiles_len, garden,
                             garden_len, inert, inert_len, domestic_sludge, domestic_sludge_len, paper_sludge,
                             paper_sludge_len, figures, figures_len, stocks);
}

uint8_t landfill_take_month(uint8_t *ledger, size_t ledger_len, uint8_t *yearly_totals, size_t yearly_totals_len,
                            const uint8_t *record, size_t record_len, uint8_t *out, size_t out_len, uint8_t *answer,
                            size_t answer_len)
{
    return reference_take_month(ledger, ledger_len, yearly_totals, yearly_totals_len, record, record_len, out, out_len, answer,
                                answer_len);
}

uint8_t landfill_run_months(uint8_t *ledger, size_t ledger_len, uint8_t *yearly_totals, size_t yearly_totals_len,
                            const uint8_t *records, size_t records_len, uint8_t *out, size_t out_len, uint64_t *accepted,
                            uint64_t *work)
{
    return reference_run_months(ledger, ledger_len, yearly_totals, yearly_totals_len, records, records_len, out, out_len,
                                accepted, work);
}
