/* More waste never shows less gas: rows of runs from fresh ledgers, of equal records but for masses, where each run brings at
 * least the masses of the one before. No release, stock, figure or bound falls: by steps, by a run, by columns and by Tunisian
 * years. */
#include "more.h"

#include "choices.h"
#include "landfill.h"
#include "offers.h"
#include "reference.h"
#include "sheets.h"
#include "sides.h"
#include "stretches.h"

#include <string.h>

enum { STRETCHES = 4, SHORT = 15, MIDDLE = 60, TAIL = 400, RISING = 4, SMALL = 60, MOST_NUMBERS = 60 * FULL };

/* ---- Rows of runs */

/* The numbers of the last run of the row, in the order in which they are shown. */
static uint64_t numbers[MOST_NUMBERS];
static size_t shown;

/* The stretches of years that all runs of the row are asked for. */
static struct {
    uint64_t first, last;
} stretches[STRETCHES];

/* Begins a row of runs of so many records. Some of its stretches are one year. */
static void begin_row(size_t count)
{
    memset(numbers, 0, shown * sizeof *numbers);
    for (int i = 0; i < STRETCHES; i++) {
        stretches[i].first = edge(1, count);
        stretches[i].last = i % 2 == 0 ? stretches[i].first : edge(stretches[i].first, count);
    }
}

/* Holds a number to what it was in the run before. */
static void show(const char *name, uint64_t number)
{
    hold_at_least(name, number, numbers[shown]);
    numbers[shown++] = number;
}

static void show_image(const uint8_t *image)
{
    for (unsigned t = 0; t < TYPES; t++) {
        show("T of a type", reference_read(image + LANDFILL_LEDGER_AT_BROUGHT + 8 * t, 8));
        show("R of a type", reference_read(image + LANDFILL_LEDGER_AT_STOCK + 8 * t, 8));
        show("what a type has released so far", landfill_get_released_so_far(image, t + 1));
    }
}

static void show_steps(size_t count)
{
    uint8_t image[IMAGE_BYTES] = {0};
    for (size_t i = 1; i <= count; i++) {
        take_on(image, period_of(i));
        hold("the refusal of a record", answer_left(), 0);
        for (unsigned type = 1; type <= TYPES; type++) show("a release", landfill_get_release(left(ANSWER), type));
        show("x0", reference_read(left(ANSWER) + LANDFILL_ANSWER_AT_X0, 8));
        show("a figure", reference_read(left(ANSWER) + LANDFILL_ANSWER_AT_FIGURE, 8));
        show("a bound", reference_read(left(ANSWER) + LANDFILL_ANSWER_AT_BOUND, 8));
        show_image(image);
    }
}

static void show_outputs(size_t count)
{
    uint8_t image[IMAGE_BYTES] = {0};
    run_on(image, book, count);
    hold("the refusal of a run", answer_left(), 0);
    hold("the number of records taken", accepted_left(), count);
    for (size_t i = 0; i < count; i++) {
        struct landfill_output it = landfill_get_output(left(OUT) + PERIOD_BYTES * i);
        show("x0 of an output record", it.x0);
        show("the figure of an output record", it.figure);
        show("the bound of an output record", it.bound);
        show("total R of an output record", it.stock);
        show("total T of an output record", it.brought);
    }
    show_image(image);
}

static void show_columns(size_t count)
{
    ask_roomy(PERIOD_BYTES * count);
    hold_answer(0);
    for (size_t i = 0; i < count; i++) {
        for (int t = 0; t < TYPES; t++) show("a release of a column", release_left(t, i));
        show("a figure of a column", release_left(FIGURES, i));
    }
    for (int t = 0; t < TYPES; t++) show("an end stock of columns", stock_left(t));
}

/* The reduction may go either way. */
static void show_stretch(size_t count, uint64_t first, uint64_t last)
{
    ask_years(YEAR_BYTES * count, first, last);
    hold("the answer for a stretch", outcome().answer, 0);
    hold_years(count, 0);
    show("the reference of a stretch", outcome().reference);
    show("the project of a stretch", outcome().project);
    show("the bound of a stretch", outcome().bound);
}

/* The row's stretches, and every year alone unless there are many. */
static void show_years(size_t count)
{
    memcpy(site, book, YEAR_BYTES * count);
    for (int i = 0; i < STRETCHES; i++) show_stretch(count, stretches[i].first, stretches[i].last);
    for (uint64_t y = 1; y <= count && count <= MIDDLE; y++) show_stretch(count, y, y);
}

/* The next run of the row, in every way. */
static void show_run(size_t count)
{
    shown = 0;
    show_steps(count);
    show_outputs(count);
    show_columns(count);
    if (book[LANDFILL_RECORD_AT_KIND] == LANDFILL_YEARLY) show_years(count);
}

/* ---- Masses that grow */

enum growth { ONE_KILOGRAM, A_LITTLE, A_SHARE, FROM_NOTHING, NOT_AT_ALL, TO_THE_LIMIT, GROWTHS };

/* A weighbridge entry: the mass of the type at place t in a record, counted from 1. */
static uint8_t *entry_of(size_t record, int t)
{
    return period_of(record) + LANDFILL_RECORD_AT_MASSES + 4 * t;
}

/* A record that is often an early one, so that many follow. */
static size_t any_early(size_t count)
{
    return 1 + below(1 + below(count));
}

/* Corrects an entry upward by so many kg, at most to the limit. */
static void correct(uint8_t *entry, uint64_t kg)
{
    uint64_t most = LANDFILL_MASS_LIMIT - reference_read(entry, 4);
    add(entry, 4, kg < most ? kg : most);
}

static void grow_entry(uint8_t *entry, enum growth how)
{
    uint64_t kg = reference_read(entry, 4);
    switch (how) {
    case A_LITTLE: correct(entry, below(10)); break;
    case A_SHARE: correct(entry, below(1 + (kg >> below(8)))); break;
    case FROM_NOTHING: correct(entry, kg == 0 ? edge(1, LANDFILL_MASS_LIMIT) : 0); break;
    case TO_THE_LIMIT: correct(entry, LANDFILL_MASS_LIMIT); break;
    default: break;
    }
}

/* One kilogram comes to one entry alone; in the other ways some entries grow. */
static void grow(size_t count, enum growth how)
{
    unsigned often = (unsigned)edge(0, 100);
    if (how == ONE_KILOGRAM) correct(entry_of(any_early(count), (int)below(TYPES)), 1);
    for (size_t i = 1; i <= count; i++)
        for (int t = 0; t < TYPES; t++)
            if (chance(often)) grow_entry(entry_of(i, t), how);
}

/* Runs the file as it is, and then after each way to grow. */
static void one_row(size_t count)
{
    begin_row(count);
    show_run(count);
    for (enum growth how = 0; how < GROWTHS; how++) {
        grow(count, how);
        show_run(count);
    }
}

/* The site manager's case: in every run one entry has a kilogram more, and no other has. */
static void one_corrected(size_t count)
{
    begin_row(count);
    show_run(count);
    for (int t = 0; t < TYPES; t++) {
        correct(entry_of(any_early(count), t), 1);
        show_run(count);
    }
}

/* ---- Little waste, and waste of all sizes */

/* Bytes 4 to 11 of a record, the class left open: those of document 01's sample, the same with correction factor 1 and GWP 1,
 * and those that make a gram of the fewest milligrams. */
static const uint8_t SAMPLE[8] = {75, 10, 50, 50, 0, 28}, COARSE[8] = {1, 10, 50, 50, 0, 1}, FINE[8] = {100, 0, 100, 100, 0, 100};

/* Gives every record of the file these factors and a class. */
static void put_factors(size_t count, const uint8_t factors[8], uint64_t class)
{
    for (size_t i = 1; i <= count; i++) {
        memcpy(period_of(i) + LANDFILL_RECORD_AT_FACTOR, factors, 8);
        period_of(i)[LANDFILL_RECORD_AT_CLASS] = (uint8_t)class;
    }
}

/* Makes the file's masses smaller, each by so many halvings from least to most. */
static void make_smaller(size_t count, uint64_t least, uint64_t most)
{
    for (size_t i = 1; i <= count; i++)
        for (int t = 0; t < TYPES; t++) {
            uint64_t kg = reference_read(entry_of(i, t), 4);
            reference_write(entry_of(i, t), 4, kg >> (least + below(most - least + 1)));
        }
}

/* A type's mass in the first record rises from none to so much: by a kilogram, and where it is not small by a sixteenth. The
 * other records bring nothing. */
static void one_rising(struct series series, int t, const uint8_t factors[8], uint64_t most)
{
    make_choice(book, RISING, series, NOTHING);
    put_factors(RISING, factors, series.year.class);
    begin_row(RISING);
    for (uint64_t kg = 0; kg <= most; kg += kg < SMALL ? 1 : kg / 16) {
        reference_write(entry_of(1, t), 4, kg);
        show_run(RISING);
    }
}

/* Some kilograms of sludge of one dry matter. */
static void one_dry(uint64_t kind, uint8_t m)
{
    make_choice(book, RISING, new_series(0, kind, 1 + below(4)), NOTHING);
    memset(period_of(1) + LANDFILL_RECORD_AT_DOMESTIC_DRY, m, 2);
    begin_row(RISING);
    for (int i = 0; i < 10; i++) {
        for (int t = LANDFILL_DOMESTIC_SLUDGE - 1; t < LANDFILL_PAPER_SLUDGE; t++) correct(entry_of(1, t), 1);
        show_run(RISING);
    }
}

/* Food in year 1 and nothing in year 2, worked out from the documents by hand: in year 2 the reduction falls, and neither the
 * reference nor the project does. */
static void all_by_hand(void)
{
    static const struct {
        uint64_t kg, reference, project, reduction;
    } ROWS[] = {{0, 0, 0, 0}, {26, 2, 1, 1}, {27, 2, 2, 0}};
    begin_row(2);
    for (size_t i = 0; i < sizeof ROWS / sizeof *ROWS; i++) {
        struct landfill_record fields = {1, 1, 4, 1, 10, 50, 50, 1, 1, 0, {[LANDFILL_FOOD] = ROWS[i].kg}, 0, 0};
        for (; fields.period <= 2; fields.period++, fields.mass[LANDFILL_FOOD] = 0)
            landfill_put_record(period_of(fields.period), &fields);
        show_run(2);
        electricity[0] = fuel[0] = 0;
        ask(YEAR_BYTES * 2, 2, 2, 1, 1);
        hold_taken(ROWS[i].reference, ROWS[i].project, 7);
        hold("the reduction by hand", (uint64_t)outcome().reduction, ROWS[i].reduction);
    }
}

/* ---- Masses over the limit */

/* Holds the file to a record that is refused with 9, after so many others. */
static void hold_over(size_t count, size_t before)
{
    uint8_t by_run[IMAGE_BYTES] = {0}, by_steps[IMAGE_BYTES] = {0};
    run_on(by_run, book, count);
    hold("the refusal of a mass over the limit", answer_left(), 9);
    hold("the number of records before it", accepted_left(), before);
    for (size_t i = 1; i <= before + 1; i++) take_on(by_steps, period_of(i));
    hold("the refusal of a record with it", answer_left(), 9);
    ask_roomy(PERIOD_BYTES * count);
    hold_answer(9);
    if (book[LANDFILL_RECORD_AT_KIND] != LANDFILL_YEARLY) return;
    memcpy(site, book, YEAR_BYTES * count);
    ask_any(YEAR_BYTES * count, count);
    hold_years(before, 9);
}

/* An entry grows to the limit, and one kilogram over it. */
static void one_over(size_t count, int t)
{
    size_t before = below(count);
    make_any_book(count);
    begin_row(count);
    show_run(count);
    correct(entry_of(1 + before, t), LANDFILL_MASS_LIMIT);
    show_run(count);
    add(entry_of(1 + before, t), 4, 1);
    hold_over(count, before);
}

static void all_of_series(uint64_t kind, uint64_t climate)
{
    for (int t = 0; t < TYPES; t++) {
        one_rising(new_series(0, kind, climate), t, COARSE, SMALL);
        one_rising(new_series(0, kind, climate), t, SAMPLE, SMALL);
    }
    one_rising(new_series(0, kind, climate), (int)below(TYPES), SAMPLE, LANDFILL_MASS_LIMIT);
    make_book(MIDDLE, kind, climate);
    one_corrected(MIDDLE);
    make_book(TAIL, kind, climate);
    put_factors(TAIL, FINE, 1 + below(4));
    one_corrected(TAIL);
    make_book(FULL, kind, climate);
    one_row(FULL);
}

void all_more(void)
{
    all_by_hand();
    for (uint64_t kind = 1; kind <= 2; kind++) {
        for (uint64_t climate = 1; climate <= 4; climate++) all_of_series(kind, climate);
        for (uint8_t m = 0; m <= 100; m++) one_dry(kind, m);
    }
    for (int i = 0; i < 600; i++) {
        size_t count = 1 + below(SHORT);
        make_any_book(count);
        if (i % 3 == 1) make_smaller(count, 0, 30);
        if (i % 3 == 2) make_smaller(count, 24, 30);
        if (i % 3 == 2) put_factors(count, COARSE, 1 + below(4));
        one_row(count);
    }
    for (int i = 0; i < 200; i++) one_over(1 + below(SHORT), i % TYPES);
}
