/* The Tunisian reference method of document 02, request i: what a site's years give, and a stretch of them added. */
#include "reference.h"

enum { RECORDS = 1200, BYTES = 48, ANAEROBIC = 1, SEMI_AEROBIC = 2 };
static const uint64_t GRAMS_LIMIT = 1000000000000000;

/* A year's figures and their bounds, in grams CO2e. */
struct year {
    uint64_t reference, project, bound_of_reference, bound_of_project;
};

/* ---- One year */

/* Gives 23 for a monthly record, after 5 and before 6. */
static uint8_t refusal_of(const struct reference_ledger *ledger, const uint8_t *record, size_t record_len)
{
    uint8_t refusal = reference_refusal(ledger, record, record_len, BYTES);
    if (refusal >= 1 && refusal <= 5) return refusal;
    if (record[2] == 2) return 23;
    return refusal;
}

/* The release x0 and the ledger are those of the year before: no release and a fresh ledger in year 1. */
static struct year year_of(const uint8_t *record, uint64_t x0, const struct reference_ledger *before)
{
    struct year it;
    it.reference = reference_figure(record, ANAEROBIC, x0) * 73 / 100;
    it.project = reference_figure(record, SEMI_AEROBIC, x0);
    it.bound_of_project = reference_bound(record, before);
    it.bound_of_reference = it.bound_of_project + 1;
    return it;
}

/* Works out every accepted year, and gives how many there are and the refusal of the record after them, 0 if none. */
static uint64_t run_years(const uint8_t *file, size_t file_len, struct year *of_site, uint8_t *refused)
{
    struct reference_ledger book = {0};
    struct reference_answer last = {0};
    uint8_t out[BYTES];
    uint64_t years = 0;
    *refused = 0;
    for (size_t done = 0; done < file_len; done += BYTES) {
        const uint8_t *record = file + done;
        size_t record_len = file_len - done < BYTES ? file_len - done : BYTES;
        *refused = refusal_of(&book, record, record_len);
        if (*refused != 0) break;
        of_site[years] = year_of(record, last.x0, &book);
        reference_accept(&book, record, out, &last);
        years++;
    }
    return years;
}

/* ---- A stretch of years */

static bool stretch_is_wrong(uint64_t first, uint64_t last, uint64_t years, uint64_t electricity_len, uint64_t fuel_len)
{
    if (first < 1 || first > last || last > years) return true;
    uint64_t count = last - first + 1;
    return electricity_len != count || fuel_len != count;
}

static bool an_entry_is_over(const uint64_t *entries, uint64_t count)
{
    for (uint64_t i = 0; i < count; i++)
        if (entries[i] > GRAMS_LIMIT) return true;
    return false;
}

static int64_t added(const uint64_t *entries, uint64_t count)
{
    int64_t grams = 0;
    for (uint64_t i = 0; i < count; i++) grams += (int64_t)entries[i];
    return grams;
}

uint8_t reference_tunisia(const uint8_t *file, size_t file_len, uint64_t first, uint64_t last, const uint64_t *electricity,
                          size_t electricity_len, const uint64_t *fuel, size_t fuel_len, uint64_t *reference,
                          uint64_t *project, int64_t *reduction, uint64_t *bound, uint64_t *years, uint8_t *refused)
{
    struct year of_site[RECORDS];
    *reference = *project = *bound = 0;
    *reduction = 0;
    *years = run_years(file, file_len, of_site, refused);
    if (stretch_is_wrong(first, last, *years, electricity_len, fuel_len)) return 24;
    if (an_entry_is_over(electricity, electricity_len) || an_entry_is_over(fuel, fuel_len)) return 25;
    for (uint64_t y = first; y <= last; y++) {
        const struct year *it = &of_site[y - 1];
        *reference += it->reference;
        *project += it->project;
        *bound += it->bound_of_reference + it->bound_of_project;
    }
    *reduction = (int64_t)*reference - (int64_t)*project - added(electricity, electricity_len) - added(fuel, fuel_len);
    return 0;
}
