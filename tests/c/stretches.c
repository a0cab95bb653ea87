/* Sites and stretches of their years. */
#include "stretches.h"

#include "inputs.h"
#include "sides.h"

#include <string.h>

const uint64_t LIMIT = 1000000000000000;

uint8_t site[(FULL + 6) * YEAR_BYTES];
uint64_t electricity[MOST_ENTRIES], fuel[MOST_ENTRIES];

/* ---- The call, alike for both sides */

static void tunisia(const struct entries *it, struct side *s)
{
    uint64_t *whole = s->numbers.whole;
    s->answer = it->tunisia(at(s, RECORDS), length_of(RECORDS), given.first, given.last, list_at(s, ELECTRICITY),
                            count_of(ELECTRICITY), list_at(s, FUEL), count_of(FUEL), &whole[1], &whole[3],
                            (int64_t *)&whole[5], &whole[7], &whole[9], s->numbers.factors[1]);
}

struct outcome outcome(void)
{
    return (struct outcome){.answer = answer_left(),
                            .refused = byte_left(),
                            .years = number_left(5),
                            .reference = number_left(1),
                            .project = number_left(2),
                            .bound = number_left(4),
                            .reduction = (int64_t)number_left(3)};
}

/* ---- What holds for every call */

static uint64_t added(const uint64_t *entries, size_t count)
{
    uint64_t sum = 0;
    for (size_t i = 0; i < count; i++) sum += entries[i];
    return sum;
}

/* A year has two bounds of at least 3 g, of which one is a gram higher. */
static void hold_sums(const struct outcome *it, size_t count)
{
    uint64_t entered = added(electricity, count) + added(fuel, count);
    hold("the reduction", (uint64_t)it->reduction, it->reference - it->project - entered);
    hold("a reference below its project", it->reference < it->project, 0);
    hold("a bound under 7 g a year", it->bound < 7 * count, 0);
    hold("the last bit of the bound", it->bound % 2, count % 2);
}

static void hold_always(size_t length, size_t count)
{
    struct outcome it = outcome();
    hold("more years than the file has", it.years > length / YEAR_BYTES || it.years > FULL, 0);
    if (it.refused == 0) hold("the accepted years of a file without a refusal", YEAR_BYTES * it.years, length);
    if (it.answer == 0) {
        hold_sums(&it, count);
        return;
    }
    hold("an answer that is not 24 or 25", it.answer != 24 && it.answer != 25, 0);
    hold("four answers of a refused stretch", it.reference | it.project | (uint64_t)it.reduction | it.bound, 0);
}

void hold_taken(uint64_t reference, uint64_t project, uint64_t bound)
{
    struct outcome it = outcome();
    hold("the answer", it.answer, 0);
    hold("the reference", it.reference, reference);
    hold("the project", it.project, project);
    hold("the bound", it.bound, bound);
}

void hold_years(uint64_t years, uint64_t refused)
{
    struct outcome it = outcome();
    hold("the accepted years", it.years, years);
    hold("the refusal after them", it.refused, refused);
}

/* ---- Files and entries */

uint8_t *record_of(size_t year)
{
    return site + YEAR_BYTES * (year - 1);
}

void make_site(size_t years)
{
    make_file(site, years, new_series(0, 1, 1 + below(4)));
}

void make_entries(size_t count)
{
    for (size_t i = 0; i < count; i++) {
        electricity[i] = edge(0, LIMIT);
        fuel[i] = edge(0, LIMIT);
    }
}

/* ---- Calls */

void ask(size_t length, uint64_t first, uint64_t last, size_t electricity_len, size_t fuel_len)
{
    memcpy(lend(RECORDS, length), site, length);
    memcpy(lend_list(ELECTRICITY, electricity_len), electricity, 8 * electricity_len);
    memcpy(lend_list(FUEL, fuel_len), fuel, 8 * fuel_len);
    given.first = first;
    given.last = last;
    both("landfill_tunisia", tunisia);
    hold_always(length, electricity_len);
}

void ask_years(size_t length, uint64_t first, uint64_t last)
{
    size_t count = last - first + 1;
    make_entries(count);
    ask(length, first, last, count, count);
}

void ask_any(size_t length, uint64_t years)
{
    uint64_t first = edge(1, years);
    ask_years(length, first, edge(first, years));
}
