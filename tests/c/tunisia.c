/* What years give under the Tunisian method: sites worked out by hand, by runs and year by year; and what does not matter. */
#include "tunisia.h"

#include "landfill.h"
#include "offers.h"
#include "reference.h"
#include "sides.h"
#include "stretches.h"

#include <string.h>

enum { BY_HAND = 5, LARGE = 1000000000 };

/* ---- By hand */

/* The site of document 01, with its third period put right: reference, project and the project's bound of each year. */
static const struct landfill_record SMALL_SITE = {1, 1, 4, 75, 10, 50, 50, 1, 28, 0, {[3] = 1000}, 0, 0};
static const uint64_t SMALL_YEARS[3][3] = {{0, 0, 3}, {227429, 155773, 3}, {152450, 104418, 3}};

/* A site whose factors differ by year, worked out from document 01 by exact fractions. */
static const struct landfill_record SITE[BY_HAND] = {
    {1, 1, 2, 85, 10, 50, 50, 3, 28, 2000, {0, 0, 121500000, 400200000, 0, 0, 150000000, 0, 0}, 0, 0},
    {2, 1, 2, 90, 5, 55, 45, 4, 25, 1234, {0, 7000001, 0, 300000000, 0, 10, 0, 80000000, 0}, 22, 0},
    {3, 1, 2, 100, 0, 61, 77, 1, 100, 0, {0, 0, 0, 0, LARGE, 0, 0, 0, LARGE - 1}, 0, 34},
    {4, 1, 2, 33, 99, 100, 1, 2, 1, 9999, {0}, 0, 0},
    {5, 1, 2, 1, 7, 13, 100, 3, 99, 17, {0}, 0, 0}};
static const uint64_t YEARS[BY_HAND][3] = {{0, 0, 3},
                                           {58539994118, 40095886382, 3624},
                                           {926573277867, 634639231416, 44122},
                                           {108, 74, 1974},
                                           {3513915873, 2406791694, 260227}};

/* Every stretch of the years that a table has. */
static void ask_table(const uint64_t table[][3], uint64_t years)
{
    for (uint64_t first = 1; first <= years; first++) {
        uint64_t reference = 0, project = 0, bound = 0;
        for (uint64_t last = first; last <= years; last++) {
            reference += table[last - 1][0];
            project += table[last - 1][1];
            bound += 2 * table[last - 1][2] + 1;
            ask_years(YEAR_BYTES * years, first, last);
            hold_taken(reference, project, bound);
        }
    }
}

static void all_by_hand(void)
{
    struct landfill_record fields = SMALL_SITE;
    for (fields.period = 1; fields.period <= 3; fields.period++) {
        landfill_put_record(record_of(fields.period), &fields);
        fields.mass[3] = 0;
    }
    ask_table(SMALL_YEARS, 3);
    for (uint64_t y = 1; y <= BY_HAND; y++) landfill_put_record(record_of(y), &SITE[y - 1]);
    ask_table(YEARS, BY_HAND);
}

/* The most that each climate gives in 1200 years: reference and project. The bounds are alike. */
static const uint64_t MOST[4][2] = {{248250666049115643, 170034702773366926},
                                    {250373583565847006, 171488755867018547},
                                    {249242013781199154, 170713708069314581},
                                    {250983863505243392, 171906755825509227}};

static void ask_most(uint32_t climate)
{
    struct landfill_record fields = {1, 1, climate, 100, 0, 100, 100, 4, 100, 0, {0}, 100, 100};
    for (int type = 1; type <= LANDFILL_TYPES; type++) fields.mass[type] = LARGE;
    for (; fields.period <= FULL + 1; fields.period++) landfill_put_record(record_of(fields.period), &fields);
    for (size_t more = 0; more <= 1; more++) {
        ask_years(YEAR_BYTES * (FULL + more), 1, FULL);
        hold_taken(MOST[climate - 1][0], MOST[climate - 1][1], 333984674264400);
        hold_years(FULL, more == 0 ? 0 : 4);
    }
}

/* No waste, and the largest entries for so many years. */
static void ask_least(uint64_t years)
{
    make_site(years);
    for (uint64_t y = 1; y <= years; y++) {
        memset(record_of(y) + 16, 0, 32);
        electricity[y - 1] = fuel[y - 1] = LIMIT;
    }
    ask(YEAR_BYTES * years, 1, years, years, years);
    hold_taken(0, 0, 7 * years);
    hold("the least reduction", 0 - (uint64_t)outcome().reduction, 2 * years * LIMIT);
}

/* ---- By runs */

/* Runs the file with a class, where each record has the factors of the next one. Year y - 1 then has what year y has here, and
 * gives its figure and its bound. */
static void run_shifted(size_t years, uint8_t class, uint64_t figures[], uint64_t bounds[])
{
    static uint8_t shifted[FULL * YEAR_BYTES];
    const uint8_t fresh[IMAGE_BYTES] = {0};
    memcpy(shifted, site, YEAR_BYTES * years);
    for (size_t y = 1; y < years; y++) {
        uint8_t *record = shifted + YEAR_BYTES * (y - 1);
        memcpy(record + 4, record_of(y + 1) + 4, 8);
        record[8] = class;
    }
    lend_image(fresh, IMAGE_BYTES);
    run_records(shifted, YEAR_BYTES * years, YEAR_BYTES * years);
    for (size_t y = 1; y < years; y++) {
        figures[y + 1] = reference_read(left(OUT) + YEAR_BYTES * (y - 1) + 16, 8);
        bounds[y + 1] = reference_read(left(OUT) + YEAR_BYTES * (y - 1) + 24, 8);
    }
}

/* Holds each year of the file to runs, and any stretch to its years. */
static void hold_each(size_t years)
{
    static uint64_t anaerobic[FULL + 1], semi_aerobic[FULL + 1], bounds[FULL + 1];
    uint64_t reference = 0, project = 0, bound = 0, first = edge(1, years), last = edge(first, years);
    run_shifted(years, 1, anaerobic, bounds);
    run_shifted(years, 2, semi_aerobic, bounds);
    for (size_t y = 1; y <= years; y++) {
        ask_years(YEAR_BYTES * years, y, y);
        if (y == 1) hold_taken(0, 0, 7);
        else hold_taken(anaerobic[y] * 73 / 100, semi_aerobic[y], 2 * bounds[y] + 1);
        if (y < first || y > last) continue;
        reference += outcome().reference;
        project += outcome().project;
        bound += outcome().bound;
    }
    ask_years(YEAR_BYTES * years, first, last);
    hold_taken(reference, project, bound);
}

/* ---- What does not matter */

/* Classes, and of the last year its masses and dry matter, and all of the years after it. */
static void one_varied(void)
{
    size_t years = 1 + below(8);
    uint64_t first, last;
    make_site(years);
    first = edge(1, years);
    last = edge(first, years);
    ask_years(YEAR_BYTES * years, first, last);
    struct outcome old = outcome();
    for (size_t y = 1; y <= years; y++) record_of(y)[8] = (uint8_t)(1 + below(4));
    for (size_t y = last + 1; y <= years; y++) damage_record(record_of(y));
    for (int i = 12; i < 14; i++) record_of(last)[i] = (uint8_t)edge(0, 100);
    for (int t = 0; t < LANDFILL_TYPES; t++) reference_write(record_of(last) + 16 + 4 * t, 4, edge(0, LARGE));
    ask_years(YEAR_BYTES * years, first, last);
    hold_taken(old.reference, old.project, old.bound);
}

void all_tunisia(void)
{
    all_by_hand();
    for (uint32_t climate = 1; climate <= 4; climate++) ask_most(climate);
    for (uint64_t years = 1; years < FULL; years = 2 * years + years % 3) ask_least(years);
    ask_least(FULL);
    for (int i = 0; i < 1000; i++) {
        size_t years = 1 + below(12);
        make_site(years);
        hold_each(years);
    }
    make_site(300);
    hold_each(300);
    for (int i = 0; i < 4000; i++) one_varied();
}
