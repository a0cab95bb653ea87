/* Which files and columns are refused: columns and files of every length, records that are damaged or refused, and both. */
#include "columns.h"

#include "offers.h"
#include "sheets.h"
#include "sides.h"
#include "spoiled.h"

/* ---- Columns of every length */

/* Holds the last call, of a file without a fault, to whether its shortest column is long enough. */
static void hold_shortest(size_t count, size_t shortest)
{
    hold_answer(shortest < count ? 26 : 0);
}

/* Every length of each column alone and of all together, from none to past the need. */
static void all_places(size_t count)
{
    for (size_t places = 0; places <= count + 3; places++) {
        for (int c = 0; c < COLUMNS; c++) {
            ask_other(PERIOD_BYTES * count, c, places);
            hold_shortest(count, places);
        }
        ask_alike(PERIOD_BYTES * count, places);
        hold_shortest(count, places);
    }
}

/* One long column, and eight that are short by one; and any lengths. */
static void all_mixed(size_t count)
{
    size_t places[COLUMNS];
    for (int i = 0; i < 3 * COLUMNS; i++) {
        size_t shortest = count + 4;
        for (int c = 0; c < COLUMNS; c++) {
            if (i < COLUMNS) places[c] = c == i ? count + 4 : count - 1;
            else places[c] = i < 2 * COLUMNS ? edge(0, count + 4) : edge(count - 1, count + 1);
            if (places[c] < shortest) shortest = places[c];
        }
        ask_columns(PERIOD_BYTES * count, places);
        hold_shortest(count, shortest);
    }
}

/* Columns that are long enough, but not by what a narrower number keeps of their length. */
static void all_long(void)
{
    static const size_t LONG[] = {256, 512, 65536};
    for (size_t i = 0; i < 3 * (COLUMNS + 1); i++) {
        size_t places = LONG[i % 3], count = 1 + below(3);
        make_any_book(count);
        if (i / 3 < COLUMNS) ask_other(PERIOD_BYTES * count, (int)(i / 3), places + below(2));
        else ask_alike(PERIOD_BYTES * count, places);
        hold_answer(0);
    }
    for (size_t count = 255; count <= 258; count++) {
        make_any_book(count);
        for (size_t i = 0; i < 4 * COLUMNS; i++) {
            const size_t places[4] = {count - 256 < count ? count - 256 : 0, 255, count - 1, count};
            ask_other(PERIOD_BYTES * count, (int)(i % COLUMNS), places[i / COLUMNS]);
            hold_shortest(count, places[i / COLUMNS]);
        }
    }
}

/* A full file with each column short, as needed and longer, and one record more. */
static void all_full(uint64_t kind)
{
    static const size_t PLACES_THERE[] = {0, 1, 176, 1023, FULL - 1, FULL, FULL + 1};
    make_book(FULL + 1, kind, 1 + below(4));
    for (size_t i = 0; i < sizeof PLACES_THERE / sizeof *PLACES_THERE * (COLUMNS + 1); i++) {
        size_t places = PLACES_THERE[i / (COLUMNS + 1)];
        int c = (int)(i % (COLUMNS + 1));
        for (size_t more = 0; more <= (i % 7 == 0); more++) {
            if (c < COLUMNS) ask_other(PERIOD_BYTES * (FULL + more), c, places);
            else ask_alike(PERIOD_BYTES * (FULL + more), places);
            hold_answer(more > 0 ? 4 : places < FULL ? 26 : 0);
        }
    }
    for (size_t i = 0; i < 6; i++) {
        ask_alike(PERIOD_BYTES * (FULL - i % 2) + (i < 3 ? 1 : 47), FULL - 1 + i % 3);
        hold_answer(1);
    }
}

/* ---- Files of every length */

/* Asks with room and without, and holds the answers to a run with room for all output. */
static void hold_to_run(size_t length)
{
    const uint8_t fresh[IMAGE_BYTES] = {0};
    lend_image(fresh, IMAGE_BYTES);
    run_records(book, length, length + PERIOD_BYTES);
    uint64_t accepted = number_left(1), refusal = answer_left();
    ask_roomy(length);
    hold_answer(refusal);
    ask_other(length, (int)below(COLUMNS), edge(0, accepted));
    hold("a refusal of a record that does not come first", refusal > 0 && answer_left() != refusal, 0);
    ask_alike(length, 0);
    hold_answer(refusal > 0 ? refusal : length > 0 ? 26 : 0);
}

static void all_lengths(void)
{
    static const size_t COUNTS[] = {12, 13, 24, 32, 33, 100, FULL - 1, FULL, FULL + 1, FULL + 2};
    for (size_t length = 0; length <= 5 * PERIOD_BYTES + 2; length++)
        for (uint64_t i = 0; i < 8; i++) {
            make_book(6, 1 + i % 2, 1 + i / 2);
            hold_to_run(length);
        }
    for (size_t i = 0; i < sizeof COUNTS / sizeof *COUNTS; i++)
        for (size_t beside = 0; beside <= 4; beside++) {
            make_any_book(COUNTS[i] + 1);
            hold_to_run(PERIOD_BYTES * COUNTS[i] + beside - 2);
        }
}

/* ---- Refused records */

/* The refusals of a record in the order in which they are tested. */
static const uint8_t IN_ORDER[WAYS_TO_SPOIL] = {5, 6, 7, 8, 17, 9};
enum { AT_7 = 1 << 2, AT_17 = 1 << 4 };

/* Spoils the record after so many others in each way of a choice, and gives its refusal. A first record cannot be of another
 * series, and only a month that does not begin a year has to repeat factors. */
static uint8_t spoil_next(size_t before, uint64_t kind, unsigned choice)
{
    if (before == 0) choice &= ~(unsigned)AT_7;
    if (kind == 1 || before % 12 == 0) choice &= ~(unsigned)AT_17;
    uint8_t refused = spoil(period_of(before + 1), IN_ORDER, choice);
    return before == FULL ? 4 : refused;
}

/* Every choice of refusals for one record, the last one or before others, with columns that are roomy, short and empty. */
static void all_refusals(size_t before, uint64_t kind)
{
    for (unsigned choice = 0; choice < 1u << WAYS_TO_SPOIL; choice++) {
        size_t after = before < 100 ? below(4) : below(2), length = PERIOD_BYTES * (before + 1 + after);
        make_book(before + 1 + after, kind, 1 + below(4));
        uint8_t refused = spoil_next(before, kind, choice);
        if (refused == 0 && before + after >= FULL) refused = 4;
        ask_roomy(length);
        hold_answer(refused);
        ask_other(length, (int)(choice % COLUMNS), before);
        hold_answer(refused > 0 ? refused : 26);
        if (before > 100) continue;
        ask_alike(length, before);
        hold_answer(refused > 0 ? refused : 26);
        ask_alike(length, 0);
        hold_answer(refused > 0 ? refused : 26);
        ask_roomy(PERIOD_BYTES * before + 1 + below(47));
        hold_answer(1);
        ask_alike(PERIOD_BYTES * before + 1 + below(47), 0);
        hold_answer(1);
    }
}

/* Two refused records: the earlier one decides. */
static void one_pair(uint64_t kind)
{
    size_t count = 2 + below(14), first = below(count - 1), second = first + 1 + below(count - 1 - first);
    make_book(count, kind, 1 + below(4));
    spoil_next(second, kind, 1u << below(WAYS_TO_SPOIL));
    uint8_t refused = spoil_next(first, kind, 1u << below(2));
    ask_other(PERIOD_BYTES * count, (int)below(COLUMNS), below(count + 2));
    hold_answer(refused);
}

/* Every value of every byte of a record: the first one of a file, or a later one. */
static void all_bytes(size_t at)
{
    for (size_t i = 0; i < PERIOD_BYTES * 256; i++) {
        make_any_book(at + 1);
        period_of(at)[i / 256] = (uint8_t)i;
        if (i % 4 == 3) ask_other(PERIOD_BYTES * (at + 1), (int)below(COLUMNS), at);
        else ask_roomy(PERIOD_BYTES * (at + 1));
    }
}

/* ---- Random ones */

/* A file that was damaged at a place or two, or not at all, with any columns. */
static void any(void)
{
    size_t count = below(chance(5) ? 60 : 14), length = PERIOD_BYTES * count, places[COLUMNS];
    make_any_book(count + 1);
    while (count > 0 && chance(25)) damage_record(period_of(1 + below(count)));
    if (chance(5)) length += below(PERIOD_BYTES);
    for (int c = 0; c < COLUMNS; c++) places[c] = chance(3) ? edge(0, count) : count + below(3);
    ask_columns(length, places);
}

void all_refused(void)
{
    static const size_t BEFORE[] = {0, 1, 2, 5, 11, 12, 13, 24, FULL - 1, FULL};
    for (size_t count = 0; count <= 14; count++)
        for (uint64_t kind = 1; kind <= 2; kind++) {
            make_book(count, kind, 1 + below(4));
            all_places(count);
            if (count > 0) all_mixed(count);
        }
    make_any_book(40);
    all_places(40);
    for (size_t i = 0; i < sizeof BEFORE / sizeof *BEFORE; i++)
        for (uint64_t kind = 1; kind <= 2; kind++) all_refusals(BEFORE[i], kind);
    for (int i = 0; i < 2000; i++) one_pair(1 + (uint64_t)i % 2);
    all_lengths();
    all_bytes(1);
    all_bytes(2);
    for (int i = 0; i < 29000; i++) any();
    all_long();
    all_full(1);
    all_full(2);
}
