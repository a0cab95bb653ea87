/* Which years are accepted under the Tunisian method: files of every length, and records that are damaged, monthly or refused. */
#include "tunisia.h"

#include "offers.h"
#include "sides.h"
#include "spoiled.h"
#include "stretches.h"

/* ---- Files */

/* Holds the accepted years to a run with room for all output. A run takes a monthly file too, and refuses a later month with 6
 * or more. */
static void hold_to_run(size_t length)
{
    const uint8_t fresh[IMAGE_BYTES] = {0};
    lend_image(fresh, IMAGE_BYTES);
    run_records(site, length, length + YEAR_BYTES);
    uint64_t years = number_left(1), refused = answer_left();
    if (years > 0 && record_of(1)[2] == 2) {
        years = 0;
        refused = 23;
    }
    if (refused > 5 && record_of(years + 1)[2] == 2) refused = 23;
    ask_any(length, years > 0 ? years : 1);
    hold_years(years, refused);
    hold("a stretch of accepted years", outcome().answer, years > 0 ? 0 : 24);
}

static void all_lengths(void)
{
    static const size_t COUNTS[] = {5, 21, 32, 33, 100, FULL - 1, FULL, FULL + 1, FULL + 2};
    for (size_t length = 0; length <= 200; length++)
        for (int i = 0; i < 5; i++) {
            make_site(5);
            hold_to_run(length);
            ask_any(length, 5);
        }
    for (size_t i = 0; i < sizeof COUNTS / sizeof *COUNTS; i++)
        for (size_t beside = 0; beside <= 4; beside++) {
            make_site(COUNTS[i] + 1);
            hold_to_run(YEAR_BYTES * COUNTS[i] + beside - 2);
            ask_any(YEAR_BYTES * COUNTS[i] + beside - 2, COUNTS[i] + 1);
        }
}

/* Every value of every byte of a record: the first one of a file, or a later one. */
static void all_bytes(uint64_t at)
{
    for (size_t i = 0; i < YEAR_BYTES * 256; i++) {
        make_site(at + 1);
        record_of(at)[i / 256] = (uint8_t)i;
        ask_any(YEAR_BYTES * (at + 1), at + (i % 3 == 0));
    }
}

/* A file that was damaged at a place or two. */
static void one_damaged(void)
{
    size_t years = 1 + below(8);
    make_site(years);
    do damage_record(record_of(1 + below(years)));
    while (chance(40));
    hold_to_run(chance(80) ? YEAR_BYTES * years : below(YEAR_BYTES * years + 1));
    ask_any(YEAR_BYTES * years, years);
}

/* ---- Refused records */

/* The refusals of a record in the order in which they are tested. */
static const uint8_t IN_ORDER[WAYS_TO_SPOIL] = {5, 23, 6, 7, 8, 9};
enum { AT_7 = 1 << 3 };

/* Spoils the record after so many others in each way of a choice, and gives its refusal. A first record cannot be of another
 * series. */
static uint8_t spoil_next(size_t before, unsigned choice)
{
    if (before == 0) choice &= ~(unsigned)AT_7;
    uint8_t refused = spoil(record_of(before + 1), IN_ORDER, choice);
    return before == FULL ? 4 : refused;
}

/* Every choice of refusals for one record, whole and short of some bytes. */
static void all_refusals(size_t before)
{
    for (unsigned choice = 0; choice < 1u << WAYS_TO_SPOIL; choice++) {
        make_site(before + 2);
        uint8_t refused = spoil_next(before, choice);
        ask_any(YEAR_BYTES * (before + 1), before + 1);
        hold_years(before + (refused == 0), refused);
        ask_any(YEAR_BYTES * (before + 2), before + (before == 0));
        hold("a stretch before a refused record", outcome().answer, before == 0 && refused != 0 ? 24 : 0);
        ask_any(YEAR_BYTES * before + 1 + below(47), before + 1);
        hold_years(before, 1);
    }
}

/* A file of months alone, and a file with one month in it. */
static void all_months(void)
{
    for (size_t count = 1; count <= 13; count++)
        for (size_t at = 1; at <= count; at++) {
            make_file(site, count, new_series(0, 2, 1 + below(4)));
            hold_to_run(YEAR_BYTES * count);
            hold_years(0, 23);
            make_site(count);
            record_of(at)[2] = 2;
            hold_to_run(YEAR_BYTES * count);
            hold_years(at - 1, 23);
        }
}

void all_accepted(void)
{
    static const size_t BEFORE[] = {0, 1, 2, 5, 11, 12, 600, FULL - 1, FULL};
    for (size_t i = 0; i < sizeof BEFORE / sizeof *BEFORE; i++) all_refusals(BEFORE[i]);
    all_months();
    all_lengths();
    all_bytes(1);
    all_bytes(2);
    for (int i = 0; i < 6000; i++) one_damaged();
}
