/* What yearly totals hold: years worked out by hand, whole sites by steps and by runs, files in parts, months that were taken
 * without totals, and any offers from a fresh ledger on. */
#include "yearly_totals.h"

#include "landfill.h"
#include "months.h"
#include "offers.h"
#include "reference.h"
#include "sides.h"

#include <string.h>

enum { LARGE = 1000000000, BY_HAND = 30, CUT = 40, LONGEST_PART = 30, OFFERS = 60 };

/* The site of the test, and its totals worked out afresh from the output records of all records that it took. */
static struct monthly it;
static uint8_t afresh[TOTALS_BYTES];

/* Begins a site in a climate, without records. */
static void begin(uint64_t climate)
{
    begin_site(&it, climate);
    memset(afresh, 0, sizeof afresh);
}

/* Holds the totals to those worked out afresh; the slots of years without an accepted record are all zero there. Nothing is
 * refused with 32, since all records went through totals. */
static void hold_afresh(void)
{
    add_outputs(afresh, taken.out, taken.accepted);
    hold_bytes("the place where totals are not those worked out afresh", it.totals, afresh, TOTALS_BYTES);
    hold("a refusal with 32 though all went through totals", taken.refusal == 32, 0);
}

/* Takes the file's records one by one, or in one run. */
static void take_months(size_t from, size_t to)
{
    for (size_t i = from; i < to; i++) {
        take_month_on(&it, month_of(i));
        hold("the refusal of a month", taken.refusal, 0);
        hold_afresh();
    }
}

static void run_months(size_t from, size_t to)
{
    run_months_on(&it, month_of(from), MONTH_BYTES * (to - from), MONTH_BYTES * (to - from));
    hold("the refusal of a run", taken.refusal, 0);
    hold("the number of months taken", taken.accepted, to - from);
    hold_afresh();
}

/* ---- Worked out by hand */

/* Holds a year of the site to its months and sums. */
static void hold_year(unsigned number, uint64_t count, const uint64_t sums[3])
{
    struct landfill_year year = landfill_get_year(it.totals, number);
    hold("a year's number", year.number, number);
    hold("a year's months", year.months, count);
    hold("a year's x0", year.x0, sums[0]);
    hold("a year's figure", year.figure, sums[1]);
    hold("a year's bound", year.bound, sums[2]);
}

/* Three months of all types in turn, for two years and a half; worked out from document 01 by exact fractions. */
static void all_by_hand(void)
{
    static const struct landfill_record TURN[3] = {
        {1, 2, 3, 85, 10, 50, 50, 3, 28, 2000, {0, 121500000, 400200000, 150000001, 7, LARGE, 5, 3, 90}, 0, 0},
        {2, 2, 3, 85, 5, 55, 45, 3, 25, 2000, {0, 7000001, 0, 300000000, 0, 10, 0, 80000000, LARGE - 1}, 22, 34},
        {3, 2, 3, 85, 0, 61, 77, 3, 100, 2000, {0, 0, 0, 0, LARGE, 0, LARGE, 0, 1}, 100, 0}};
    static const uint64_t QUARTER[3] = {7916671225877, 136510706064, 382462};
    static const uint64_t YEARS[3][3] = {{92231068470230, 1409391735626, 13629437},
                                         {248607998351486, 3638575088472, 83321625},
                                         {180289948421632, 2617388880939, 87845361}};
    begin(3);
    for (uint32_t i = 0; i < BY_HAND; i++) {
        struct landfill_record fields = TURN[i % 3];
        fields.period = i + 1;
        landfill_put_record(month_of(i), &fields);
    }
    run_months(0, 3);
    hold_year(1, 3, QUARTER);
    take_months(3, 7);
    run_months(7, BY_HAND);
    for (unsigned year = 1; year <= 3; year++) hold_year(year, year < 3 ? 12 : 6, YEARS[year - 1]);
}

/* The first and the last year of the most that 1200 months can give, by climate. */
static void the_most(uint32_t climate)
{
    static const uint64_t FIRST[4][3] = {{581429070342532, 77523876045665, 188682114},
                                         {1236422411048245, 164856321473096, 188682114},
                                         {734578313355993, 97943775114127, 188682114},
                                         {2116815775628921, 282242103417183, 188682114}};
    static const uint64_t LAST[4][3] = {{25084992312353050, 3344665641647065, 4970204943101},
                                        {25689312244604842, 3425241632613973, 4970204943101},
                                        {25448542984350903, 3393139064580116, 4970204943101},
                                        {25803885287074685, 3440518038276619, 4970204943101}};
    struct landfill_record fields = {1, 2, climate, 100, 0, 100, 100, 1, 100, 0, {0}, 100, 100};
    for (int type = 1; type <= LANDFILL_TYPES; type++) fields.mass[type] = LARGE;
    for (; fields.period <= FULL + 1; fields.period++) landfill_put_record(month_of(fields.period - 1), &fields);
    begin(climate);
    run_months_on(&it, months, MONTH_BYTES * (FULL + 1), MONTH_BYTES * (FULL + 1));
    hold("the refusal of month 1201", taken.refusal, 4);
    hold_afresh();
    hold_year(1, 12, FIRST[climate - 1]);
    hold_year(SLOTS, 12, LAST[climate - 1]);
}

/* ---- Whole sites, and files in parts */

/* 1200 months by steps, by one run and by parts, with one totals for all three. */
static void one_whole(uint64_t climate)
{
    static uint8_t by_steps[TOTALS_BYTES];
    begin(climate);
    fill_months(&it, FULL + 1);
    take_months(0, FULL);
    memcpy(by_steps, it.totals, TOTALS_BYTES);
    take_month_on(&it, month_of(FULL));
    hold("the refusal of month 1201", taken.refusal, 4);
    begin(climate);
    run_months(0, FULL);
    hold_bytes("the place where totals are others by a run", it.totals, by_steps, TOTALS_BYTES);
    begin(climate);
    for (size_t done = 0; done < FULL;) {
        size_t part = 1 + below(LONGEST_PART), to = done + part < FULL ? done + part : FULL;
        if (chance(70)) run_months(done, to);
        else take_months(done, to);
        done = to;
    }
    hold_bytes("the place where totals are others by parts", it.totals, by_steps, TOTALS_BYTES);
    for (unsigned year = 1; year <= SLOTS; year++)
        hold("the months of a whole year", landfill_get_year(it.totals, year).months, MONTHS);
}

/* A file in one run, and in two that are split at a month, the totals carried on. */
static void one_split(uint64_t climate, size_t cut)
{
    struct monthly whole;
    begin(climate);
    fill_months(&it, CUT);
    run_months(0, CUT);
    whole = it;
    begin(climate);
    run_months(0, cut);
    run_months(cut, CUT);
    hold_bytes("the place where totals are others in two runs", it.totals, whole.totals, TOTALS_BYTES);
    hold_bytes("the place where the image is another in two runs", it.image, whole.image, IMAGE_BYTES);
    hold_bytes("the place of a byte in a slot past the file", it.totals + 4 * SLOT_BYTES, afresh + 4 * SLOT_BYTES,
               TOTALS_BYTES - 4 * SLOT_BYTES);
}

/* ---- Months that were taken without totals */

/* Takes the months up to one without totals, by a step each or by a run. */
static void take_plain(size_t to)
{
    size_t from = it.series.n;
    if (chance(50)) run_on(it.image, month_of(from), to - from);
    else
        for (size_t i = from; i < to; i++) take_on(it.image, month_of(i));
    follow(&it.series, it.image);
}

/* Some months with totals, then some without, then one with: it is taken where none is missing in its own year. Slots of years
 * with missing months keep what they have, and nothing else tells. */
static void one_gap(size_t with, size_t without)
{
    uint8_t before[TOTALS_BYTES];
    size_t next = with + without, counted = next % 12 < without ? next % 12 : without;
    begin(1 + below(4));
    fill_months(&it, next + 1);
    run_months(0, with);
    take_plain(next);
    memcpy(before, it.totals, TOTALS_BYTES);
    take_month_on(&it, month_of(next));
    hold("the refusal of a month after some without totals", taken.refusal, counted > 0 ? 32 : 0);
    add_outputs(before, taken.out, taken.accepted);
    hold_bytes("the place where totals are others after a gap", it.totals, before, TOTALS_BYTES);
    for (unsigned year = 1; 12 * (year - 1) < with; year++) {
        uint64_t months_there = with >= 12 * year ? 12 : with - 12 * (year - 1);
        if (12 * year <= next) hold("the months of a year with a gap", landfill_get_year(it.totals, year).months, months_there);
    }
}

static void all_gaps(void)
{
    for (size_t with = 0; with <= 26; with++)
        for (size_t without = 0; without <= 14; without++) one_gap(with, without);
    one_gap(0, 5);
    hold("the refusal of month 6 after five without totals", taken.refusal, 32);
    one_gap(5, 7);
    hold("the refusal of month 13 after seven without totals", taken.refusal, 0);
    hold("the months of year 1 without seven", landfill_get_year(it.totals, 1).months, 5);
    hold("the months of year 2", landfill_get_year(it.totals, 2).months, 1);
}

/* ---- Any offers */

/* Offers from a fresh ledger and zeros on: records and files, good and damaged, by steps and runs, with enough room and not. */
static void one_row(unsigned damaged)
{
    begin(1 + below(4));
    for (int i = 0; i < OFFERS; i++) {
        size_t count = it.series.n < FULL - 20 ? below(chance(10) ? 20 : 5) : 1, length = MONTH_BYTES * count;
        fill_months(&it, count + 1);
        while (chance(damaged)) damage_record(month_of(below(count + 1)));
        if (chance(damaged)) length += below(MONTH_BYTES);
        if (chance(50)) take_month_on(&it, months);
        else run_months_on(&it, months, length, chance(damaged) ? below(length + 1) : length + below(3) * MONTH_BYTES);
        hold_afresh();
    }
}

/* Any site, any record or file, any totals. */
static void any(void)
{
    size_t count = 1 + below(4);
    make_months(&it, edge(0, FULL), chance(50) ? 1000 : MOST_SUM);
    fill_months(&it, count);
    while (chance(25)) damage_record(month_of(below(count)));
    if (chance(15)) damage_ledger(it.image);
    while (chance(20)) it.totals[(SLOT_BYTES * next_slot(&it) + below(2 * SLOT_BYTES)) % TOTALS_BYTES] ^= (uint8_t)edge(1, 255);
    if (chance(3)) it.totals_len = edge(TOTALS_BYTES - 2, TOTALS_BYTES + 2);
    size_t length = MONTH_BYTES * count - (chance(5) ? below(48) : 0), room = MONTH_BYTES * count - (chance(5) ? below(48) : 0);
    if (chance(50)) offer_months(&it, months, length, room);
    else offer_month(&it, months, chance(95) ? 48 : below(60), chance(95) ? 48 : below(60), chance(95) ? 88 : below(99));
}

void all_yearly_totals(void)
{
    all_by_hand();
    for (uint32_t climate = 1; climate <= 4; climate++) the_most(climate);
    for (uint64_t climate = 1; climate <= 2; climate++) one_whole(climate);
    for (size_t i = 0; i < 4 * (CUT + 1); i++) one_split(1 + i % 4, i / 4);
    all_gaps();
    for (unsigned i = 0; i < 120; i++) one_row(i % 4 * 15);
    for (int i = 0; i < 12000; i++) any();
}
