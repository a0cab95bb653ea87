/* The column-by-column calculation of document 02, request j: the ledger's releases, figures and end stocks, in columns. */
#include "reference.h"

enum { TYPES = 8, COLUMNS = 9, RECORDS = 1200, BYTES = 48, LEDGER_BYTES = 200 };

/* ---- Refusals */

/* The refusal of the first record that a run from a fresh ledger refuses, 0 if none. It has room for every output record, since
 * record 1201 is refused at the latest. */
static uint8_t refusal_of_run(const uint8_t *file, size_t file_len)
{
    uint8_t ledger[LEDGER_BYTES] = {0}, out[(RECORDS + 1) * BYTES];
    uint64_t accepted, work;
    return reference_run(ledger, sizeof ledger, file, file_len, out, sizeof out, &accepted, &work);
}

static bool a_column_is_short(const size_t places[COLUMNS], size_t k)
{
    for (int c = 0; c < COLUMNS; c++)
        if (places[c] < k) return true;
    return false;
}

/* ---- Columns */

/* Writes a type's releases, one for each of k records, and gives its end stock. */
static uint64_t fill_releases(const uint8_t *file, size_t k, int t, uint64_t *column)
{
    struct reference_ledger book = {0};
    struct reference_answer answer;
    uint8_t out[BYTES];
    for (size_t i = 0; i < k; i++) {
        reference_accept(&book, file + BYTES * i, out, &answer);
        column[i] = answer.releases[t];
    }
    return book.R[t];
}

/* Writes the figures: each record's factors on the releases of its period, added across. */
static void fill_figures(const uint8_t *file, size_t k, uint64_t *const columns[COLUMNS])
{
    for (size_t i = 0; i < k; i++) {
        const uint8_t *record = file + BYTES * i;
        uint64_t x0 = 0;
        for (int t = 0; t < TYPES; t++) x0 += columns[t][i];
        columns[TYPES][i] = reference_figure(record, record[8], x0);
    }
}

uint8_t reference_columns(const uint8_t *file, size_t file_len, uint64_t *wood, size_t wood_len, uint64_t *paper,
                          size_t paper_len, uint64_t *food, size_t food_len, uint64_t *textiles, size_t textiles_len,
                          uint64_t *garden, size_t garden_len, uint64_t *inert, size_t inert_len, uint64_t *domestic_sludge,
                          size_t domestic_sludge_len, uint64_t *paper_sludge, size_t paper_sludge_len, uint64_t *figures,
                          size_t figures_len, uint64_t stocks[8])
{
    uint64_t *const columns[COLUMNS] = {wood,  paper,           food,         textiles, garden,
                                        inert, domestic_sludge, paper_sludge, figures};
    const size_t places[COLUMNS] = {wood_len,  paper_len,           food_len,         textiles_len, garden_len,
                                    inert_len, domestic_sludge_len, paper_sludge_len, figures_len};
    size_t k = file_len / BYTES;
    for (int t = 0; t < TYPES; t++) stocks[t] = 0;
    uint8_t refusal = refusal_of_run(file, file_len);
    if (refusal != 0) return refusal;
    if (a_column_is_short(places, k)) return 26;
    for (int t = 0; t < TYPES; t++) stocks[t] = fill_releases(file, k, t, columns[t]);
    fill_figures(file, k, columns);
    return 0;
}

uint8_t reference_columns_in(const uint8_t *file, size_t file_len, uint64_t *block, size_t places, uint64_t stocks[8])
{
    uint64_t *of[COLUMNS];
    for (size_t c = 0; c < COLUMNS; c++) of[c] = block + c * places;
    return reference_columns(file, file_len, of[0], places, of[1], places, of[2], places, of[3], places, of[4], places, of[5],
                             places, of[6], places, of[7], places, of[8], places, stocks);
}
