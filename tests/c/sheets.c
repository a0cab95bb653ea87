/* Files of periods and their columns. */
#include "sheets.h"

#include "inputs.h"
#include "sides.h"

#include <string.h>

uint8_t book[(FULL + 6) * PERIOD_BYTES];

/* The columns of the last call: their numbers before and after it, and how many there are. */
static struct {
    const uint64_t *before, *after;
    size_t places;
} lent[COLUMNS];

/* ---- The calls, alike for both sides */

static uint64_t *column(struct side *s, int number)
{
    return list_at(s, COLUMN + number);
}

static size_t places_of(int number)
{
    return count_of(COLUMN + number);
}

static void columns(const struct entries *it, struct side *s)
{
    s->answer = it->columns(at(s, RECORDS), length_of(RECORDS), column(s, 0), places_of(0), column(s, 1), places_of(1),
                            column(s, 2), places_of(2), column(s, 3), places_of(3), column(s, 4), places_of(4), column(s, 5),
                            places_of(5), column(s, 6), places_of(6), column(s, 7), places_of(7), column(s, 8), places_of(8),
                            list_at(s, STOCKS));
}

static void columns_in(const struct entries *it, struct side *s)
{
    s->answer = it->columns_in(at(s, RECORDS), length_of(RECORDS), list_at(s, BLOCK), count_of(BLOCK) / COLUMNS,
                               list_at(s, STOCKS));
}

uint64_t release_left(int column, size_t place)
{
    return lent[column].after[place];
}

uint64_t stock_left(int t)
{
    return list_left(STOCKS)[t];
}

/* ---- What holds for every call */

static void hold_accepted(size_t length)
{
    hold("bytes left over in a file that is accepted", length % PERIOD_BYTES, 0);
    hold("more records than a ledger takes", length > PERIOD_BYTES * FULL, 0);
    hold("the end stock of inert waste", stock_left(5), 0);
    for (int c = 0; c < COLUMNS; c++) hold("a column too short", lent[c].places < length / PERIOD_BYTES, 0);
    for (size_t i = 0; i < length / PERIOD_BYTES; i++) hold("a release of inert waste", release_left(5, i), 0);
}

/* A refusal of the table that a run from a fresh ledger with room can have, or 26. */
static void hold_refused(uint64_t refusal)
{
    int known = refusal == 1 || (refusal >= 4 && refusal <= 9) || refusal == 17 || refusal == 26;
    hold("a refusal that cannot come", known ? 0 : refusal, 0);
    for (int t = 0; t < TYPES; t++) hold("the stock of a refused file", stock_left(t), 0);
}

static void hold_always(size_t length)
{
    uint64_t refusal = answer_left();
    size_t written = refusal == 0 ? length / PERIOD_BYTES : 0;
    if (refusal == 0) hold_accepted(length);
    else hold_refused(refusal);
    for (int c = 0; c < COLUMNS; c++)
        for (size_t i = written; i < lent[c].places; i++)
            hold("a place that stays", lent[c].after[i], lent[c].before[i]);
}

void hold_answer(uint64_t refusal)
{
    hold("the answer for columns", answer_left(), refusal);
}

void hold_row(size_t place, const uint64_t row[])
{
    for (int t = 0; t < TYPES; t++) hold("a release of a column", release_left(t, place), row[t]);
    hold("a figure of a column", release_left(FIGURES, place), row[FIGURES]);
}

/* ---- Files */

uint8_t *period_of(size_t number)
{
    return book + PERIOD_BYTES * (number - 1);
}

void make_book(size_t count, uint64_t kind, uint64_t climate)
{
    make_file(book, count, new_series(0, kind, climate));
}

void make_any_book(size_t count)
{
    make_file(book, count, any_series(0));
}

/* ---- Calls */

static void lend_file(size_t length)
{
    memcpy(lend(RECORDS, length), book, length);
    lend_list(STOCKS, TYPES);
}

void ask_columns(size_t length, const size_t places[])
{
    lend_file(length);
    for (int c = 0; c < COLUMNS; c++) {
        lent[c].before = lend_list(COLUMN + c, places[c]);
        lent[c].after = list_left(COLUMN + c);
        lent[c].places = places[c];
    }
    both("landfill_columns", columns);
    hold_always(length);
}

void ask_block(size_t length, size_t places)
{
    lend_file(length);
    const uint64_t *before = lend_list(BLOCK, COLUMNS * places), *after = list_left(BLOCK);
    for (int c = 0; c < COLUMNS; c++) {
        lent[c].before = before + (size_t)c * places;
        lent[c].after = after + (size_t)c * places;
        lent[c].places = places;
    }
    both("landfill_columns_in", columns_in);
    hold_always(length);
}

void ask_alike(size_t length, size_t places)
{
    const size_t all[COLUMNS] = {places, places, places, places, places, places, places, places, places};
    ask_columns(length, all);
}

/* Places for every record that was begun, and at times a few more. */
static void make_room(size_t length, size_t places[COLUMNS])
{
    for (int c = 0; c < COLUMNS; c++) places[c] = (length + PERIOD_BYTES - 1) / PERIOD_BYTES + (chance(40) ? below(4) : 0);
}

void ask_other(size_t length, int column, size_t places)
{
    size_t all[COLUMNS];
    make_room(length, all);
    all[column] = places;
    ask_columns(length, all);
}

void ask_roomy(size_t length)
{
    size_t all[COLUMNS];
    make_room(length, all);
    ask_columns(length, all);
}
