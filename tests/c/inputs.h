/* What the differential test offers: random numbers by a seed, records, ledgers and samples, sound and damaged. */
#ifndef INPUTS_H
#define INPUTS_H

#include <stddef.h>
#include <stdint.h>

/* The most records of a ledger. */
enum { FULL = 1200 };

void seed(uint64_t number);
uint64_t draw(void);
uint64_t below(uint64_t count);
int chance(unsigned percent);
void random_bytes(uint8_t *bytes, size_t count);

/* A number from low to high, often at or beside an end. */
uint64_t edge(uint64_t low, uint64_t high);

/* A number of any length, from one bit to 64. */
uint64_t any_size(void);

/* Adds to a number of so many bytes, modulo what they hold. */
void add(uint8_t *bytes, int count, uint64_t number);

/* A byte that lies outside low to high. */
uint8_t outside(uint64_t low, uint64_t high);

/* What the months of a year share: correction factor, site class and captured f. */
struct year {
    uint64_t factor, class, f;
};

/* A ledger's series: how many records it has, of which kind and climate, and, where it is monthly, the year's factors. */
struct series {
    uint64_t n, kind, climate;
    struct year year;
};

/* Factors within their ranges, a series with such, and any series of up to so many records. */
struct year any_year(void);
struct series new_series(uint64_t n, uint64_t kind, uint64_t climate);
struct series any_series(uint64_t most);

/* A record that is accepted after n others of its series, and a file of them. */
void make_record(uint8_t *bytes, struct series series);
void make_file(uint8_t *bytes, size_t count, struct series series);

/* The number of ways to change the year's factors of a record, and of rules to break. */
enum { CHANGES = 6, RULES = 19 };

/* Changes the year's factors of a record within their ranges: the correction factor, the class, f in its low byte alone, f in
 * its high byte alone, f by one, or all three. Any other way changes nothing. */
void change_year(uint8_t *bytes, int way);

/* Breaks one rule, or, by luck, none; one or more. */
void break_rule(uint8_t *bytes, int rule);
void damage_record(uint8_t *bytes);

/* The bytes of an image, and the number of ways to break one type of it. */
enum { IMAGE_BYTES = 200, WAYS = 10 };

/* An image of a sound ledger; one broken at the type at place t alone, or, by luck, not; one damaged in one way or more
 * (ledgers.c). */
void make_ledger(uint8_t *image, struct series series);
void break_type(uint8_t *image, int t, int way);
void damage_ledger(uint8_t *image);

/* Writes T and R of the type at place t into an image, with what it has released then; writes the year's factors into one;
 * takes n and the year's factors of a series from one. */
void put_type(uint8_t *image, int t, uint64_t T, uint64_t R);
void put_year(uint8_t *image, struct year year);
void follow(struct series *series, const uint8_t *image);

/* Samples that each add up, and so many of which some do not, or, by luck, all do. */
void make_samples(uint8_t *bytes, size_t count);
void damage_samples(uint8_t *bytes, size_t count);

#endif
