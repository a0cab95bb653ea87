/* Which months are refused beside yearly totals: buffers of every length, and refusals in their order. */
#include "yearly_totals.h"

#include "landfill.h"
#include "months.h"
#include "reference.h"
#include "sides.h"
#include "spoiled.h"

#include <string.h>

enum { ANSWER_BYTES = LANDFILL_ANSWER_BYTES, LONG_TOTALS = TOTALS_BYTES + 100 };

/* The site of the next call. */
static struct monthly it;

static void make_any(size_t count)
{
    make_months(&it, edge(0, FULL - count), 1000000);
    fill_months(&it, count);
}

/* ---- Lengths */

/* Totals of every length, by a step and by runs of no record and of one. The image may be damaged, the record of another length
 * and the room too small: 28 is tested before all else. */
static void one_length_of_totals(size_t length)
{
    uint64_t refusal = length == TOTALS_BYTES ? 0 : 28;
    make_any(1);
    it.totals_len = length;
    offer_first(&it, refusal);
    offer_months(&it, months, 0, below(50));
    hold("the refusal of a run of no record", answer_left(), refusal);
    if (refusal == 0) return;
    damage_ledger(it.image);
    damage_record(months);
    offer_month(&it, months, below(60), below(60), below(100));
    hold("the refusal of a month with totals of another length", answer_left(), 28);
    offer_months(&it, months, below(50), below(50));
    hold("the refusal of a run with totals of another length", answer_left(), 28);
}

/* Lengths that are 3200 but for what a narrower number keeps of them, or for a factor. */
static void all_lengths_of_totals(void)
{
    static const size_t LONG[] = {2 * TOTALS_BYTES, 65536, 65536 + TOTALS_BYTES, 131072 + TOTALS_BYTES, 8 * TOTALS_BYTES};
    for (size_t length = 0; length <= LONG_TOTALS; length++) one_length_of_totals(length);
    for (size_t i = 0; i < sizeof LONG / sizeof *LONG; i++) one_length_of_totals(LONG[i]);
}

/* This length of the record, the output, the answer, and both of these; and the same for a site that may be damaged. */
static void one_length_of_step(size_t length)
{
    for (int i = 0; i < 8; i++) {
        size_t record = i % 4 == 0 ? length : MONTH_BYTES, out = i % 4 == 1 || i % 4 == 3 ? length : MONTH_BYTES;
        size_t answer = i % 4 >= 2 ? length : ANSWER_BYTES;
        make_any(1);
        if (i >= 4) it.image[0] ^= 1;
        offer_month(&it, months, record, out, answer);
        uint64_t refusal = record != MONTH_BYTES ? 1 : out < MONTH_BYTES || answer < ANSWER_BYTES ? 2 : 0;
        if (i < 4) hold("the refusal by lengths", answer_left(), refusal);
    }
}

/* A file of this length with this room: what is left over is refused with 1, and a whole record without room with 2. */
static void one_length_of_run(size_t length, size_t room)
{
    size_t accepted = (length < room ? length : room) / MONTH_BYTES;
    make_any(4);
    offer_months(&it, months, length, room);
    hold("the number of months taken by lengths", number_left(1), accepted);
    if (length % MONTH_BYTES == 0 && room < length) hold("the refusal for room", answer_left(), 2);
    if (length / MONTH_BYTES == accepted) hold("the refusal by length", answer_left(), length % MONTH_BYTES > 0);
}

/* Every length of a file up to past two records, every room for whole records, and images of every length. */
static void all_lengths_of_runs(void)
{
    for (size_t length = 0; length <= 2 * MONTH_BYTES + 50; length++)
        for (size_t room = 0; room <= 2 * MONTH_BYTES + 50; room++)
            if (length % MONTH_BYTES < 2 || room % MONTH_BYTES < 2 || length % 7 + room % 7 == 6) one_length_of_run(length, room);
    for (size_t length = 0; length <= 300; length++) {
        make_any(1);
        it.image_len = length;
        offer_first(&it, length == IMAGE_BYTES ? 0 : 3);
        offer_months(&it, months, 0, 0);
        hold("the refusal of a run of no record", answer_left(), 0);
    }
}

/* No record: the answer is 0 with any image and any totals of 3200 bytes. */
static void one_empty(void)
{
    make_any(1);
    random_bytes(it.totals, TOTALS_BYTES);
    damage_ledger(it.image);
    offer_months(&it, months, 0, below(100));
    hold("the refusal of a run of no record", answer_left(), 0);
}

/* ---- Refusals in their order */

/* A bit of a choice for each refusal but 4, which comes by the number of records; the last six are in the order of `spoil`. */
static const uint8_t SPOILED[WAYS_TO_SPOIL] = {5, 6, 7, 8, 17, 9};
enum { AT_28 = 1, AT_1 = 2, AT_2 = 4, AT_3 = 8, AT_27 = 16, AT_32 = 32, FIRST_SPOILED = 6, CHOICES = 1 << 12 };
enum { AT_7 = 1 << (FIRST_SPOILED + 2), AT_17 = 1 << (FIRST_SPOILED + 4) };

/* The order in which a site and a record are tested, with the bits of the choice. */
static const struct {
    uint8_t number;
    unsigned bit;
} IN_ORDER[] = {{28, AT_28}, {1, AT_1}, {2, AT_2}, {3, AT_3}, {5, 1 << 6}, {27, AT_27}, {6, 1 << 7},
                {7, AT_7},   {8, 1 << 9}, {17, AT_17}, {9, 1 << 11}, {32, AT_32}};
enum { NUMBERS = sizeof IN_ORDER / sizeof *IN_ORDER };

/* Leaves out what cannot be: a first record of another series, and factors of a year that begins or is by year. */
static unsigned possible(uint64_t n, unsigned choice)
{
    if (n == 0) choice &= ~(unsigned)AT_7;
    if (n % MONTHS == 0 || (choice & AT_27)) choice &= ~(unsigned)AT_17;
    return n == FULL ? choice & ~(unsigned)AT_32 : choice;
}

/* The first refusal of a choice, 4 being tested after 3. */
static uint64_t first_of(uint64_t n, unsigned choice)
{
    for (int i = 0; i < NUMBERS; i++) {
        if (n == FULL && IN_ORDER[i].number > 3 && IN_ORDER[i].number != 28) return 4;
        if (choice & IN_ORDER[i].bit) return IN_ORDER[i].number;
    }
    return n == FULL ? 4 : 0;
}

/* Makes the slot of the record after n others one that is refused. */
static void spoil_slot(uint64_t n)
{
    uint8_t *slot = it.totals + SLOT_BYTES * (n / MONTHS), *sum = slot + FIRST_SUM + 8 * below(3);
    switch (below(n % MONTHS == 0 ? 2 : 4)) {
    case 0: add(slot + 4, 4, 1 + below(20)); break;
    case 1: reference_write(sum, 8, edge(MOST_SUM + 1, UINT64_MAX)); break;
    case 2: memset(slot, 0, SLOT_BYTES); break;
    default: add(slot, 4, 1 + below(UINT32_MAX)); break;
    }
}

/* Spoils the file's record after so many others, and the site, in each way of a choice. */
static void spoil_all(uint64_t n, size_t before, unsigned choice)
{
    uint8_t *record = month_of(before);
    if (choice & AT_27) record[2] = LANDFILL_YEARLY;
    spoil(record, SPOILED, choice >> FIRST_SPOILED);
    if (choice & AT_32) spoil_slot(n);
    if (choice & AT_28) it.totals_len = chance(50) ? below(TOTALS_BYTES) : TOTALS_BYTES + 1 + below(100);
    if ((choice & AT_3) == 0) return;
    if (chance(50)) break_type(it.image, (int)below(8), 0);
    else it.image_len = chance(50) ? 136 : below(IMAGE_BYTES);
}

/* A choice of refusals by a step, for a record after n others. */
static void one_step(uint64_t n, unsigned choice)
{
    choice = possible(n, choice);
    make_months(&it, n, 1000000);
    fill_months(&it, 1);
    spoil_all(n, 0, choice);
    size_t record_len = choice & AT_1 ? (chance(50) ? below(MONTH_BYTES) : 49 + below(60)) : MONTH_BYTES;
    int answer_short = choice & AT_2 && chance(50);
    offer_month(&it, months, record_len, choice & AT_2 && !answer_short ? below(MONTH_BYTES) : MONTH_BYTES,
                answer_short ? below(ANSWER_BYTES) : ANSWER_BYTES);
    hold("the first refusal of a month", answer_left(), first_of(n, choice));
}

/* The same by a run, with some good records before it and one after it. What belongs to the call or to the ledger is refused at
 * the first record. A slot can be wrong for this record alone only where the record is the first of its year, or of the file. */
static void one_run(uint64_t n, size_t before, unsigned choice)
{
    choice = possible(n, choice);
    if (before > n || (choice & AT_32 && n % MONTHS != 0) || before > 11) before = 0;
    make_months(&it, n - before, 1000000);
    fill_months(&it, before + 2);
    spoil_all(n, before, choice);
    size_t length = MONTH_BYTES * (before + 2), room = length;
    if (choice & AT_1) length = MONTH_BYTES * before + 1 + below(MONTH_BYTES - 1);
    if (choice & AT_2) room = MONTH_BYTES * before + below(MONTH_BYTES);
    offer_months(&it, months, length, room);
    uint64_t refusal = first_of(n, choice);
    if (before > 0 && (choice & AT_3) && !(choice & AT_28)) refusal = 3;
    if (refusal == 0) refusal = n + 2 > FULL ? 4 : 0;
    hold("the first refusal of a run", answer_left(), refusal);
    if (refusal > 0 && first_of(n, choice) > 0)
        hold("the number of months before it", number_left(1), choice & (AT_28 | AT_3) ? 0 : before);
}

static void all_orders_of_refusals(void)
{
    static const uint64_t COUNTS[] = {0, 1, 5, 11, 12, 13, 24, 600, FULL - 1, FULL};
    enum { COUNTED = sizeof COUNTS / sizeof *COUNTS };
    for (unsigned choice = 0; choice < CHOICES; choice++) {
        one_step(COUNTS[choice % COUNTED], choice);
        one_step(COUNTS[below(COUNTED)], choice);
        one_run(COUNTS[choice / 7 % COUNTED], 0, choice);
        one_run(COUNTS[below(COUNTED)], below(12), choice);
    }
    for (int i = 0; i < NUMBERS * NUMBERS * COUNTED; i++) {
        unsigned choice = IN_ORDER[i % NUMBERS].bit | IN_ORDER[i / NUMBERS % NUMBERS].bit;
        one_step(COUNTS[i / (NUMBERS * NUMBERS)], choice);
        one_run(COUNTS[i / (NUMBERS * NUMBERS)], below(4), choice);
    }
}

/* ---- Records by year */

/* Yearly records are refused with 27 on a fresh ledger, a yearly and a monthly one; a monthly one on a yearly ledger with 7. */
static void one_yearly(uint64_t n)
{
    make_months(&it, n, 1000000);
    if (chance(50)) memset(it.totals, 0, TOTALS_BYTES);
    struct series yearly = it.series;
    yearly.kind = LANDFILL_YEARLY;
    make_file(months, 1, yearly);
    offer_first(&it, 27);
    make_ledger(it.image, yearly);
    offer_first(&it, 27);
    if (n == 0) return;
    fill_months(&it, 1);
    offer_first(&it, 7);
}

/* ---- Every byte of a record */

static void all_bytes_of_record(uint64_t n)
{
    for (size_t i = 0; i < MONTH_BYTES * 256; i++) {
        make_months(&it, n, MOST_SUM);
        fill_months(&it, 1);
        months[i / 256] = (uint8_t)i;
        offer_month(&it, months, MONTH_BYTES, MONTH_BYTES, ANSWER_BYTES);
    }
}

void all_offered(void)
{
    all_lengths_of_totals();
    for (size_t length = 0; length <= 2 * MONTH_BYTES + 60; length++) one_length_of_step(length);
    all_lengths_of_runs();
    for (int i = 0; i < 500; i++) one_empty();
    all_orders_of_refusals();
    for (uint64_t n = 0; n < FULL; n += n < 30 ? 1 : 97) one_yearly(n);
    all_bytes_of_record(0);
    all_bytes_of_record(17);
}
