/* Which slots a month is added to: every byte of a slot, sums at their limit, months and years, and slots of other years. */
#include "yearly_totals.h"

#include "landfill.h"
#include "months.h"
#include "reference.h"
#include "sides.h"

#include <string.h>

enum { SUMS = 3, CHANGED = 14 };

/* Numbers of records so far: at the start and the end of a year, and within one. */
static const uint64_t COUNTS[] = {0, 1, 5, 6, 11, 12, 13, 23, 24, 588, 599, 1188, 1199};
enum { COUNTED = sizeof COUNTS / sizeof *COUNTS };

/* A site with its next record in the file. */
static struct monthly it;

static void make_next(uint64_t n, uint64_t most)
{
    make_months(&it, n, most);
    fill_months(&it, 1);
    if (chance(50)) scramble_others(&it);
}

static uint8_t *sum_at(int i)
{
    return slot_of(&it) + FIRST_SUM + 8 * i;
}

/* ---- Every byte */

/* With 0 months every byte has to be 0. With some, year and months have to be as they are, and a sum may be any up to 10^19. */
static uint64_t refusal_at(int place)
{
    if (it.series.n % MONTHS == 0 || place < FIRST_SUM) return 32;
    return reference_read(slot_of(&it) + place / 8 * 8, 8) > MOST_SUM ? 32 : 0;
}

static void one_byte(int place, uint8_t value)
{
    uint8_t *byte = slot_of(&it) + place, old = *byte;
    *byte = value;
    offer_first(&it, value == old ? 0 : refusal_at(place));
    *byte = old;
}

/* Every byte in turn with each of its bits changed, and with some values; the sums are small, any or as large as may be. */
static void all_bytes(uint64_t n, uint64_t most)
{
    for (int place = 0; place < SLOT_BYTES; place++)
        for (int i = 0; i < CHANGED; i++) {
            const uint8_t values[6] = {0, 1, 127, 128, 255, (uint8_t)draw()};
            make_next(n, most);
            if (n % MONTHS > 0 && place >= FIRST_SUM && i % 2 == 0) reference_write(sum_at(place / 8 - 1), 8, most);
            one_byte(place, i < 8 ? (uint8_t)(slot_of(&it)[place] ^ 1u << i) : values[i - 8]);
        }
}

/* Every value of every byte. */
static void all_values(uint64_t n)
{
    for (int i = 0; i < SLOT_BYTES * 256; i++) {
        if (i % 64 == 0) make_next(n, MOST_SUM);
        one_byte(i / 256, (uint8_t)i);
    }
}

/* Two bytes of a slot with 0 months that are 0 together, added or by their bits. */
static void all_pairs(uint64_t n)
{
    for (int i = 0; i < SLOT_BYTES * SLOT_BYTES; i++) {
        int one = i / SLOT_BYTES, other = i % SLOT_BYTES;
        uint8_t value = (uint8_t)edge(1, 255);
        if (one >= other) continue;
        make_next(n, 0);
        slot_of(&it)[one] = value;
        slot_of(&it)[other] = (uint8_t)(chance(50) ? -value : value);
        offer_first(&it, 32);
    }
}

/* ---- Sums at their limit */

/* Sums at and beside the limit, and at and beside the largest numbers with and without a sign. */
static void all_sums(uint64_t n)
{
    const uint64_t HALF = (uint64_t)1 << 63;
    const uint64_t values[] = {0, 1, MOST_SUM - 1, MOST_SUM, MOST_SUM + 1, HALF - 1, HALF, HALF + 1, UINT64_MAX - 1, UINT64_MAX,
                               MOST_SUM / 10, MOST_SUM / 10 * 3, MOST_SUM + ((uint64_t)1 << 32), edge(MOST_SUM, UINT64_MAX)};
    for (size_t i = 0; i < SUMS * sizeof values / sizeof *values; i++) {
        make_next(n, MOST_SUM);
        reference_write(sum_at((int)i % SUMS), 8, values[i / SUMS]);
        offer_first(&it, values[i / SUMS] > MOST_SUM ? 32 : 0);
    }
    for (unsigned over = 0; over < 1u << SUMS; over++) {
        make_next(n, MOST_SUM);
        for (int i = 0; i < SUMS; i++) reference_write(sum_at(i), 8, MOST_SUM + (over >> i & 1));
        offer_first(&it, over == 0 ? 0 : 32);
    }
}

/* The most that a slot can hold: three sums of 10^19, and the record that adds the most. Worked out from document 01 by exact
 * fractions. */
static void the_most(void)
{
    static const uint64_t MOST[SUMS] = {10035687575672560000u, 10004758343423008000u, 10000000418003201123u};
    struct landfill_record fields = {FULL, LANDFILL_MONTHLY, 4, 100, 0, 100, 100, 1, 100, 0, {0}, 100, 100};
    make_months(&it, FULL - 1, 0);
    it.series.climate = it.image[3] = 4;
    put_year(it.image, (struct year){100, 1, 0});
    for (int t = 0; t < LANDFILL_TYPES; t++) {
        put_type(it.image, t, reference_ceiling(FULL - 1, t), reference_ceiling(FULL - 1, t));
        fields.mass[t + 1] = LANDFILL_MASS_LIMIT;
    }
    landfill_put_record(months, &fields);
    for (int i = 0; i < SUMS; i++) reference_write(sum_at(i), 8, MOST_SUM);
    offer_first(&it, 0);
    const uint8_t *slot = left(TOTALS) + TOTALS_BYTES - SLOT_BYTES;
    for (int i = 0; i < SUMS; i++) hold("the largest sum", reference_read(slot + FIRST_SUM + 8 * i, 8), MOST[i]);
    hold("the months of the last year", reference_read(slot + 4, 4), MONTHS);
}

/* A sum that passes 10^19 in the middle of a run: the next month of the same year is refused, one that begins a year is not. */
static void one_passing(uint64_t n, int sum)
{
    make_months(&it, n, 0);
    fill_months(&it, 3);
    for (size_t i = 0; i < 3; i++) {
        memset(month_of(i) + 4, 100, 4);
        month_of(i)[5] = 0;
        reference_write(month_of(i) + 10, 2, 0);
        reference_write(month_of(i) + 16, 4, LANDFILL_MASS_LIMIT);
    }
    if (it.series.n % MONTHS != 0) {
        it.image[4] = 100;
        memset(it.image + 6, 0, 2);
    }
    reference_write(sum_at(sum), 8, MOST_SUM);
    offer_months(&it, months, 3 * MONTH_BYTES, 3 * MONTH_BYTES);
    uint64_t first = n % MONTHS == 11 ? 3 : 1;
    hold("the number of months up to a sum past 10^19", number_left(1), first);
    hold("the refusal of a month after a sum past 10^19", answer_left(), first == 3 ? 0 : 32);
}

/* ---- Months and years */

/* Months that are the right ones but for a year, for a byte or more, or for the sign; and all small ones. */
static void all_months(uint64_t n)
{
    uint64_t right = n % MONTHS;
    const uint64_t others[] = {24, 255, 256, right + 12, right - 12, right + 256, right + 65536, right + (1u << 31), right - 1,
                               right + 1, 11 - right, 12 - right, n, n + 1, UINT32_MAX, any_size()};
    for (size_t i = 0; i < 14 + sizeof others / sizeof *others; i++) {
        uint64_t there = (uint32_t)(i < 14 ? i : others[i - 14]);
        make_next(n, MOST_SUM);
        reference_write(slot_of(&it) + 4, 4, there);
        offer_first(&it, there == right ? 0 : 32);
    }
}

/* Years that are the right one but for a byte or more; 0 with 0 months. */
static void all_years_of(uint64_t n)
{
    uint64_t slot = n / MONTHS, right = n % MONTHS > 0 ? slot + 1 : 0;
    const uint64_t values[] = {0, 1, slot, slot + 1, slot + 2, slot + 13, slot + 257, slot + 65537, slot + 1 + (1u << 31), 99,
                               100, 101, n, n + 1, UINT32_MAX, (slot + 1) << 8, (slot + 1) << 24, any_size()};
    for (size_t i = 0; i < sizeof values / sizeof *values; i++) {
        make_next(n, MOST_SUM);
        reference_write(slot_of(&it), 4, values[i]);
        offer_first(&it, (uint32_t)values[i] == right ? 0 : 32);
    }
}

/* ---- Other slots */

/* A month of a hundred years: with its slot as it should be, with that of the month after or before, with its own slot in all
 * places, and with it in all places but its own. */
static void one_period(uint64_t n)
{
    uint8_t own[SLOT_BYTES];
    make_next(n, MOST_SUM);
    scramble_others(&it);
    offer_first(&it, 0);
    memcpy(own, slot_of(&it), SLOT_BYTES);
    for (uint64_t by = 0; by < 2; by++) {
        reference_write(slot_of(&it), 4, n / MONTHS + 1);
        add(slot_of(&it) + 4, 4, by == 0 ? 1 : UINT64_MAX - 1);
        offer_first(&it, 32);
    }
    for (int i = 0; i < SLOTS; i++) memcpy(it.totals + SLOT_BYTES * i, own, SLOT_BYTES);
    offer_first(&it, 0);
    memset(slot_of(&it), 0, SLOT_BYTES);
    if (n % MONTHS == 0) reference_write(slot_of(&it), 4, n / MONTHS + 1);
    offer_first(&it, 32);
}

/* Slots with any bytes, or with some of what they should have. */
static void any_slot(void)
{
    make_next(edge(0, FULL - 1), UINT64_MAX);
    if (chance(20)) random_bytes(slot_of(&it), SLOT_BYTES);
    while (chance(30)) slot_of(&it)[below(SLOT_BYTES)] = (uint8_t)(chance(50) ? 0 : draw());
    if (chance(50)) reference_write(slot_of(&it) + 4, 4, chance(80) ? it.series.n % MONTHS : edge(0, 13));
    if (chance(30)) reference_write(slot_of(&it), 4, edge(0, SLOTS + 1));
    offer_month(&it, months, MONTH_BYTES, MONTH_BYTES, LANDFILL_ANSWER_BYTES);
}

void all_slots(void)
{
    for (int i = 0; i < COUNTED; i++) {
        all_bytes(COUNTS[i], i % 2 == 0 ? MOST_SUM : 1000);
        all_bytes(COUNTS[i], MOST_SUM);
        all_months(COUNTS[i]);
        all_years_of(COUNTS[i]);
        if (COUNTS[i] % MONTHS != 0) all_sums(COUNTS[i]);
    }
    all_pairs(12 * below(SLOTS));
    all_values(12 * below(SLOTS));
    all_values(1 + 12 * below(SLOTS) + below(11));
    the_most();
    for (uint64_t n = 1; n < 12; n++)
        for (int sum = 0; sum < SUMS; sum++) one_passing(n + 12 * below(SLOTS - 1), sum);
    for (uint64_t n = 0; n < FULL; n++) one_period(n);
    for (int i = 0; i < 6000; i++) any_slot();
}
