/* What columns hold, by runs, by steps and type by type; and a block of columns beside nine of them. */
#include "columns.h"

#include "landfill.h"
#include "offers.h"
#include "reference.h"
#include "sheets.h"
#include "sides.h"

#include <string.h>

/* ---- By runs and by steps */

/* A site that was taken one way: what each period gave in each column, and the image after it. */
static uint64_t rows[FULL][COLUMNS];
static uint8_t image[IMAGE_BYTES];

/* Takes the file one record after another. */
static void take_all(size_t count)
{
    memset(image, 0, sizeof image);
    for (size_t i = 0; i < count; i++) {
        take_on(image, period_of(i + 1));
        for (int t = 0; t < TYPES; t++) rows[i][t] = landfill_get_release(left(ANSWER), (unsigned)t + 1);
        rows[i][FIGURES] = reference_read(left(ANSWER) + LANDFILL_ANSWER_AT_FIGURE, 8);
    }
}

/* Holds what the last call has left to the image: its end stocks, and the releases since the fresh ledger. */
static void hold_image(size_t count)
{
    for (int t = 0; t < TYPES; t++) {
        uint64_t released = 0;
        for (size_t i = 0; i < count; i++) released += release_left(t, i);
        hold("the end stock of a type", stock_left(t), reference_read(image + LANDFILL_LEDGER_AT_STOCK + 8 * t, 8));
        hold("the releases of a column added", released, landfill_get_released_so_far(image, (unsigned)t + 1));
    }
}

/* Holds the columns of the file to its steps, and to a run's output: x0 is the eight releases added. */
static void hold_each(size_t count)
{
    static struct landfill_output outputs[FULL];
    memset(image, 0, sizeof image);
    run_on(image, book, count);
    for (size_t i = 0; i < count; i++) outputs[i] = landfill_get_output(left(OUT) + PERIOD_BYTES * i);
    ask_roomy(PERIOD_BYTES * count);
    hold_answer(0);
    hold_image(count);
    for (size_t i = 0; i < count; i++) {
        uint64_t x0 = 0;
        for (int t = 0; t < TYPES; t++) x0 += release_left(t, i);
        hold("the releases of a period added", x0, outputs[i].x0);
        hold("a figure", release_left(FIGURES, i), outputs[i].figure);
    }
    take_all(count);
    ask_roomy(PERIOD_BYTES * count);
    hold_image(count);
    for (size_t i = 0; i < count; i++) hold_row(i, rows[i]);
}

/* ---- Type by type */

/* Keeps what the last call has left. */
static void keep_rows(size_t count, uint64_t stocks[TYPES])
{
    for (size_t i = 0; i < count; i++)
        for (int c = 0; c < COLUMNS; c++) rows[i][c] = release_left(c, i);
    for (int t = 0; t < TYPES; t++) stocks[t] = stock_left(t);
}

/* A column is the same where the other types bring nothing; their columns are then 0. */
static void one_apart(size_t count)
{
    static uint8_t all[20 * PERIOD_BYTES];
    uint64_t stocks[TYPES];
    make_any_book(count);
    memcpy(all, book, PERIOD_BYTES * count);
    ask_roomy(PERIOD_BYTES * count);
    keep_rows(count, stocks);
    for (int t = 0; t < TYPES; t++) {
        for (size_t i = 0; i < count; i++) {
            memset(period_of(i + 1) + 16, 0, 4 * TYPES);
            memcpy(period_of(i + 1) + 16 + 4 * t, all + PERIOD_BYTES * i + 16 + 4 * t, 4);
        }
        ask_roomy(PERIOD_BYTES * count);
        for (size_t i = 0; i < TYPES * count; i++) {
            int column = (int)(i % TYPES);
            hold("the release of one type alone", release_left(column, i / TYPES), column == t ? rows[i / TYPES][t] : 0);
        }
        for (int other = 0; other < TYPES; other++)
            hold("the stock of one type alone", stock_left(other), other == t ? stocks[t] : 0);
    }
}

/* Inert waste alone gives nothing. */
static void one_inert(size_t count)
{
    make_any_book(count);
    for (size_t i = 1; i <= count; i++) {
        memset(period_of(i) + 16, 0, 4 * TYPES);
        reference_write(period_of(i) + 16 + 4 * 5, 4, edge(1, LANDFILL_MASS_LIMIT));
    }
    ask_roomy(PERIOD_BYTES * count);
    hold_answer(0);
    for (size_t i = 0; i < count; i++) hold_row(i, (const uint64_t[COLUMNS]){0});
    for (int t = 0; t < TYPES; t++) hold("the stock of inert waste alone", stock_left(t), 0);
}

/* ---- A block of columns */

/* Holds a block to nine columns of as many places. */
static void one_block(size_t length, size_t places)
{
    uint64_t stocks[TYPES];
    ask_alike(length, places);
    uint64_t refusal = answer_left();
    size_t count = refusal == 0 ? length / PERIOD_BYTES : 0;
    keep_rows(count, stocks);
    ask_block(length, places);
    hold_answer(refusal);
    for (size_t i = 0; i < count; i++) hold_row(i, rows[i]);
    for (int t = 0; t < TYPES; t++) hold("a stock of a block", stock_left(t), stocks[t]);
}

static void all_blocks(void)
{
    for (size_t count = 0; count <= 8; count++)
        for (size_t places = 0; places <= 11; places++)
            for (size_t beside = 0; beside <= 2; beside++) {
                make_any_book(count + 1);
                one_block(PERIOD_BYTES * count + (count > 0 ? beside - 1 : beside), places);
            }
    for (int i = 0; i < 1500; i++) {
        size_t count = below(14);
        make_any_book(count);
        if (count > 0 && chance(20)) damage_record(period_of(1 + below(count)));
        one_block(PERIOD_BYTES * count, count + below(3));
    }
    for (size_t i = 0; i < 4; i++) {
        make_any_book(FULL + 1);
        one_block(PERIOD_BYTES * (FULL + i / 3), FULL - 1 + i);
    }
}

void all_columns(void)
{
    for (int i = 0; i < 1500; i++) {
        size_t count = below(14);
        make_any_book(count);
        hold_each(count);
    }
    for (uint64_t i = 0; i < 8; i++) {
        size_t count = i < 2 ? FULL : 20 + below(60);
        make_book(count, 1 + i % 2, 1 + i / 2);
        hold_each(count);
    }
    for (int i = 0; i < 500; i++) one_apart(1 + below(14));
    for (size_t count = 0; count <= 30; count++) one_inert(count);
    all_blocks();
}
