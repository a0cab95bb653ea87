/* Sites and stretches of their years, for the tests of reductions. */
#ifndef STRETCHES_H
#define STRETCHES_H

#include "inputs.h"

#include <stddef.h>
#include <stdint.h>

enum { YEAR_BYTES = 48, MOST_ENTRIES = 65536 + FULL };

/* The most grams that an entry may have. */
extern const uint64_t LIMIT;

/* The file and the entries of the next call; each stands at the start. */
extern uint8_t site[(FULL + 6) * YEAR_BYTES];
extern uint64_t electricity[MOST_ENTRIES], fuel[MOST_ENTRIES];

/* The record of a year, counted from 1. */
uint8_t *record_of(size_t year);

/* A file of so many yearly records in one climate, and so many entries of both kinds that are taken. */
void make_site(size_t years);
void make_entries(size_t count);

/* Asks for the years first to last of the file's first bytes, with the first of the entries, on both sides and compared; then
 * holds the answers to one another. */
void ask(size_t length, uint64_t first, uint64_t last, size_t electricity_len, size_t fuel_len);

/* The same with new entries, one of both kinds for each year; and so for any years from 1 to so many. */
void ask_years(size_t length, uint64_t first, uint64_t last);
void ask_any(size_t length, uint64_t years);

/* What the last call has left. */
struct outcome {
    uint64_t answer, refused, years, reference, project, bound;
    int64_t reduction;
};
struct outcome outcome(void);

/* Holds what the last call has left to a stretch that was taken, but for its reduction. */
void hold_taken(uint64_t reference, uint64_t project, uint64_t bound);

/* Holds the last call to the accepted years and the refusal after them. */
void hold_years(uint64_t years, uint64_t refused);

#endif
