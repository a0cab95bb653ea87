/* The reduction of a stretch of years in C's doubles, as a package would have it: the peer that landfill_tunisia is measured
 * beside. It refuses as landfill_tunisia does, and has 0 for the bound. */
#ifndef REDUCTIONS_H
#define REDUCTIONS_H

#include <stddef.h>
#include <stdint.h>

typedef uint8_t reductions_work(const uint8_t *file, size_t file_len, uint64_t first, uint64_t last,
                                const uint64_t *electricity, size_t electricity_len, const uint64_t *fuel, size_t fuel_len,
                                uint64_t *reference, uint64_t *project, int64_t *reduction, uint64_t *bound, uint64_t *years,
                                uint8_t *refused);

reductions_work reductions_by_exp; /* a stock for each type; exp() for each type, once a call */

#endif
