/* Columns in C's doubles: the records are tested once, then each type has its column, then the figures are added across. */
#include "columns.h"

#include "shared.h"

#include <math.h>

enum { COLUMNS = 9 };

/* The refusal of the first refused record, then of a column that is too short. */
static uint8_t refusal_of_columns(const uint8_t *file, size_t file_len, const size_t places[COLUMNS])
{
    for (size_t done = 0, n = 0; done < file_len; done += BYTES, n++) {
        uint8_t refusal = refusal_of(file, file + done, file_len - done, BYTES, n);
        if (refusal != 0) return refusal;
    }
    for (int c = 0; c < COLUMNS; c++)
        if (places[c] < file_len / BYTES) return 26;
    return 0;
}

/* Carbon content as a fraction: that of sludge by its dry matter m, where the record has one. */
static inline double content_of(const uint8_t *record, int t)
{
    int m = t < 6 ? 0 : record[6 + t];
    return m == 0 ? DOC[t] : (t == 6 ? 50 * m : 900 * m / 35) / 10000.0;
}

/* Writes a type's releases in whole milligrams, and gives its stock after them. */
static uint64_t fill(const uint8_t *file, size_t count, int t, uint64_t *column)
{
    double left = 0, decay = exp(-rate(file, t));
    for (size_t i = 0; i < count; i++) {
        const uint8_t *record = file + BYTES * i;
        double held = left + mass(record, t) * content_of(record, t);
        left = held * decay;
        column[i] = (uint64_t)((held - left) * 1e6);
    }
    return (uint64_t)(left * 1e6);
}

uint8_t columns_by_exp(const uint8_t *file, size_t file_len, uint64_t *wood, size_t wood_len, uint64_t *paper,
                       size_t paper_len, uint64_t *food, size_t food_len, uint64_t *textiles, size_t textiles_len,
                       uint64_t *garden, size_t garden_len, uint64_t *inert, size_t inert_len, uint64_t *domestic_sludge,
                       size_t domestic_sludge_len, uint64_t *paper_sludge, size_t paper_sludge_len, uint64_t *figures,
                       size_t figures_len, uint64_t stocks[8])
{
    uint64_t *const columns[TYPES] = {wood, paper, food, textiles, garden, inert, domestic_sludge, paper_sludge};
    const size_t places[COLUMNS] = {wood_len,  paper_len,           food_len,         textiles_len, garden_len,
                                    inert_len, domestic_sludge_len, paper_sludge_len, figures_len};
    size_t count = file_len / BYTES;
    memset(stocks, 0, TYPES * sizeof *stocks);
    uint8_t refusal = refusal_of_columns(file, file_len, places);
    if (refusal != 0 || count == 0) return refusal;
    for (int t = 0; t < TYPES; t++) stocks[t] = fill(file, count, t, columns[t]);
    for (size_t i = 0; i < count; i++) {
        uint64_t released = 0;
        for (int t = 0; t < TYPES; t++) released += columns[t][i];
        figures[i] = (uint64_t)figure_of(file + BYTES * i, (double)released / 1e6);
    }
    return 0;
}
