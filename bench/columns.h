/* A file by columns in C's doubles, as a package would have it: the peer that landfill_columns is measured beside. It refuses as
 * landfill_columns does. */
#ifndef COLUMNS_H
#define COLUMNS_H

#include <stddef.h>
#include <stdint.h>

typedef uint8_t columns_work(const uint8_t *file, size_t file_len, uint64_t *wood, size_t wood_len, uint64_t *paper,
                             size_t paper_len, uint64_t *food, size_t food_len, uint64_t *textiles, size_t textiles_len,
                             uint64_t *garden, size_t garden_len, uint64_t *inert, size_t inert_len,
                             uint64_t *domestic_sludge, size_t domestic_sludge_len, uint64_t *paper_sludge,
                             size_t paper_sludge_len, uint64_t *figures, size_t figures_len, uint64_t stocks[8]);

columns_work columns_by_exp; /* one column after the other; exp() for each type, once a call */

#endif
