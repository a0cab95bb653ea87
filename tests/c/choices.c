/* Records and ledgers by choices of types. */
#include "choices.h"

#include "reference.h"
#include "sides.h"

enum { TYPES = 8, BYTES = 48, MOST_MASS = 1000000000 };

int has(unsigned choice, int t)
{
    return choice >> t & 1;
}

unsigned any_choice(void)
{
    return (unsigned)below(CHOICES);
}

uint64_t with_carbon(unsigned choice)
{
    uint64_t count = 0;
    for (int t = 0; t < TYPES; t++) count += has(choice, t) && t != INERT;
    return count;
}

void bring(uint8_t *record, unsigned choice)
{
    for (int t = 0; t < TYPES; t++) reference_write(record + 16 + 4 * t, 4, has(choice, t) ? edge(1, MOST_MASS) : 0);
}

void make_choice(uint8_t *file, size_t count, struct series series, unsigned choice)
{
    make_file(file, count, series);
    for (size_t i = 0; i < count; i++) bring(file + BYTES * i, choice);
}

void make_sparse(uint8_t *file, size_t count, struct series series)
{
    unsigned often = (unsigned)below(30);
    make_choice(file, count, series, NOTHING);
    for (size_t i = 0; i < count; i++)
        if (chance(often)) bring(file + BYTES * i, any_choice() & any_choice());
}

void make_stocks(uint8_t *image, struct series series, unsigned choice, int released)
{
    make_ledger(image, series);
    for (int t = 0; t < TYPES; t++) {
        uint64_t most = reference_ceiling(series.n, t), least = most > 0;
        uint64_t R = has(choice, t) ? edge(least, most) : 0;
        put_type(image, t, R > 0 ? edge(R, most) : released ? edge(least, most) : 0, R);
    }
}

void make_mixed(uint8_t *image, struct series series)
{
    make_stocks(image, series, any_choice(), 1);
    for (int t = 0; t < TYPES; t++) {
        uint64_t most = reference_ceiling(series.n, t);
        if (most > 0 && chance(60)) put_type(image, t, edge(30, most), below(30));
    }
}

uint64_t accepted_left(void)
{
    return number_left(1);
}

uint64_t work_left(void)
{
    return number_left(2);
}
