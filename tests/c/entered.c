/* Which stretches are taken under the Tunisian method: years within and past the accepted ones, lists of every length, entries at
 * the limit, and both faults at once. */
#include "tunisia.h"

#include "inputs.h"
#include "sides.h"
#include "stretches.h"

/* Years that are none, are small, or are what a narrower number or a sum that wraps takes for small ones. */
#define TWO_TO_32 ((uint64_t)1 << 32)
#define TWO_TO_63 ((uint64_t)1 << 63)
static const uint64_t YEARS[] = {0, 1, 2, 3, 4, 5, FULL, 257, 65537, TWO_TO_32 + 1, TWO_TO_32 + 2, TWO_TO_63 - 1, TWO_TO_63,
                                 TWO_TO_63 + 1, TWO_TO_63 + 2, UINT64_MAX - 1, UINT64_MAX};
enum { CHOSEN = sizeof YEARS / sizeof *YEARS };

/* Holds the last call to 24 unless the stretch is one that is taken. */
static void hold_stretch(uint64_t first, uint64_t last, uint64_t years, size_t electricity_len, size_t fuel_len)
{
    int within = first >= 1 && first <= last && last <= years;
    int complete = within && electricity_len == last - first + 1 && fuel_len == last - first + 1;
    hold("the answer for a stretch", outcome().answer, complete ? 0 : 24);
    hold("the accepted years", outcome().years, years);
}

/* ---- Years and lengths */

/* Every pair of years with every pair of short lists, for a file of so many years, after which a refused record may stand. */
static void all_stretches(uint64_t years, int refused)
{
    const size_t LONGEST_LIST = 6;
    for (size_t i = 0; i < CHOSEN * CHOSEN; i++) {
        uint64_t first = YEARS[i % CHOSEN], last = YEARS[i / CHOSEN];
        make_site(years + 1);
        if (refused) site[YEAR_BYTES * years] ^= 1;
        for (size_t lengths = 0; lengths < LONGEST_LIST * LONGEST_LIST; lengths++) {
            size_t electricity_len = lengths % LONGEST_LIST, fuel_len = lengths / LONGEST_LIST;
            if (first > 5 && last > 5 && lengths % 7 != 0) continue;
            make_entries(LONGEST_LIST);
            ask(YEAR_BYTES * (years + (size_t)refused), first, last, electricity_len, fuel_len);
            hold_stretch(first, last, years, electricity_len, fuel_len);
        }
    }
}

/* Every length of one list or of both, from none to past the need. */
static void all_lists(uint64_t years, size_t longest)
{
    make_site(years);
    make_entries(longest);
    for (size_t length = 0; length <= longest; length++) {
        uint64_t first = edge(1, years), last = edge(first, years);
        size_t count = last - first + 1;
        ask(YEAR_BYTES * years, first, last, length, count);
        hold_stretch(first, last, years, length, count);
        ask(YEAR_BYTES * years, first, last, count, length);
        hold_stretch(first, last, years, count, length);
        ask(YEAR_BYTES * years, first, last, length, length);
        hold_stretch(first, last, years, length, length);
    }
}

/* Lists that are too long by what a narrower number drops. */
static void all_long(void)
{
    static const size_t MORE[] = {1, 256, 512, 65536};
    make_entries(MOST_ENTRIES);
    for (uint64_t years = 1; years <= 3; years++) {
        make_site(years);
        for (size_t i = 0; i < 3 * sizeof MORE / sizeof *MORE; i++) {
            size_t more = MORE[i / 3];
            ask(YEAR_BYTES * years, 1, years, years + (i % 3 > 0 ? more : 0), years + (i % 3 < 2 ? more : 0));
            hold("the answer for a list too long", outcome().answer, 24);
        }
    }
}

/* ---- Entries */

/* A number of grams over the limit: just over it, such that a sum wraps, or anywhere. */
static uint64_t too_many(uint64_t way)
{
    const uint64_t OVER[6] = {LIMIT + 1, LIMIT + 2, 2 * LIMIT, TWO_TO_63, UINT64_MAX, edge(LIMIT + 1, UINT64_MAX)};
    return OVER[way % 6];
}

/* Puts a number at any of the first places of a list. */
static void put_anywhere(uint64_t *list, size_t places, uint64_t grams)
{
    list[below(places)] = grams;
}

/* A stretch of so many years, with an entry of one list at the limit or over it; and with two entries whose sum wraps to 0. */
static void all_entries(uint64_t count)
{
    uint64_t years = count + below(3), first = 1 + below(years - count + 1), last = first + count - 1;
    make_site(years);
    for (uint64_t i = 0; i < 2 * count * 8; i++) {
        uint64_t *list = i % 2 == 0 ? electricity : fuel, place = i / 2 % count, way = i / 2 / count;
        make_entries(count);
        list[place] = way == 6 ? LIMIT : way == 7 ? LIMIT - 1 : too_many(way);
        ask(YEAR_BYTES * years, first, last, count, count);
        hold("the answer for an entry", outcome().answer, way >= 6 ? 0 : 25);
        list[place] = too_many(i % 5);
        put_anywhere(fuel, count, 0 - too_many(i % 5));
        ask(YEAR_BYTES * years, first, last, count, count);
    }
}

/* Entries over the limit together with a stretch that is none, past the accepted years, or without the right lists. */
static void all_both(void)
{
    for (uint64_t i = 0; i < 6 * 6 * 3 * 3 * 4; i++) {
        uint64_t first = i % 6, last = i / 6 % 6;
        size_t count = first >= 1 && first <= last ? last - first + 1 : 1;
        size_t electricity_len = count + i / 36 % 3 - 1, fuel_len = count + i / 108 % 3 - 1;
        make_site(4);
        make_entries(8);
        if (i % 4 != 1) put_anywhere(electricity, electricity_len + 1, too_many(i));
        if (i % 4 != 2) put_anywhere(fuel, fuel_len + 1, too_many(i / 2));
        ask(YEAR_BYTES * 4, first, last, electricity_len, fuel_len);
    }
}

/* All years of a full file, with lists one short, as needed and one longer, and with a last entry over the limit. */
static void all_full(void)
{
    for (size_t i = 0; i < 3 * 3 * 3; i++) {
        size_t electricity_len = FULL - 1 + i % 3, fuel_len = FULL - 1 + i / 3 % 3;
        make_site(FULL + 1);
        make_entries(FULL + 1);
        ask(YEAR_BYTES * (FULL + i / 9 % 2), 1, FULL, electricity_len, fuel_len);
        hold_stretch(1, FULL, FULL, electricity_len, fuel_len);
        if (i % 2 == 0) electricity[FULL - 1] = too_many(i);
        else fuel[FULL - 1] = too_many(i);
        ask(YEAR_BYTES * FULL, 1, FULL, electricity_len, fuel_len);
        ask(YEAR_BYTES * (FULL + 1), 1, FULL + 1, FULL + 1, FULL + 1);
        hold("the answer for 1201 years", outcome().answer, 24);
    }
}

/* ---- Random ones */

static void any(void)
{
    uint64_t years = below(8), first = edge(chance(5) ? 0 : 1, years + 1), last = edge(chance(5) ? 0 : first, years + 1);
    uint64_t count = last - first + 1;
    make_site(years + 1);
    if (chance(30)) damage_record(site + YEAR_BYTES * below(years + 1));
    make_entries(16);
    if (chance(20)) put_anywhere(electricity, 8, chance(50) ? too_many(below(6)) : any_size());
    if (chance(20)) put_anywhere(fuel, 8, chance(50) ? too_many(below(6)) : any_size());
    size_t electricity_len = count < 10 && chance(90) ? count : below(16);
    size_t fuel_len = count < 10 && chance(90) ? count : below(16);
    ask(chance(80) ? YEAR_BYTES * years : below(YEAR_BYTES * (years + 1)), first, last, electricity_len, fuel_len);
}

void all_entered(void)
{
    all_lists(1, 6);
    all_lists(3, 8);
    all_lists(12, 20);
    all_long();
    for (uint64_t count = 1; count <= 12; count++) all_entries(count);
    all_both();
    for (uint64_t years = 0; years <= 4; years++) all_stretches(years, years % 2 == 1);
    for (int i = 0; i < 12000; i++) any();
    all_lists(300, 310);
    all_full();
}
