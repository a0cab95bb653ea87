/* Runs the library and the reference on many inputs, good and bad, and compares every answer and every byte.
 * Usage: differential [SEED [PART]], where PART is ledgers, tunisia, columns, more or totals and leaves the others out */
#include "columns.h"
#include "more.h"
#include "offers.h"
#include "orders.h"
#include "reference.h"
#include "sides.h"
#include "sludge.h"
#include "tunisia.h"
#include "uncertainties.h"
#include "work.h"
#include "yearly_totals.h"
#include "years.h"

#include <inttypes.h>
#include <stdio.h>
#include <stdlib.h>
#include <string.h>

/* ---- The calls of the door, alike for both sides */

static void entry(const struct entries *it, struct side *s)
{
    s->answer = it->entry(given.kind, given.rate);
}

static void cell(const struct entries *it, struct side *s)
{
    s->answer = it->cell(given.filled, given.kg, s->numbers.masses[1]);
}

static void point(const struct entries *it, struct side *s)
{
    double *real = s->numbers.real;
    s->answer = it->point(given.figure, given.bound, &real[1], &real[3], &real[5]);
}

static void masses(const struct entries *it, struct side *s)
{
    s->answer = it->masses(given.kind, given.total, at(s, SAMPLES), length_of(SAMPLES), s->numbers.masses[1]);
}

/* ---- Look-ups, cells and points */

static void all_look_ups(void)
{
    for (unsigned kind = 0; kind <= 255; kind++) {
        unsigned last = kind <= 3 || kind == 255 ? 65535 : 402;
        for (unsigned rate = 0; rate <= last; rate++) {
            given.kind = (uint8_t)kind;
            given.rate = (uint16_t)rate;
            both("landfill_entry", entry);
        }
    }
}

static void one_cell(uint64_t bits)
{
    static const uint8_t FILLED[] = {1, 0, 2, 128, 255};
    memcpy(&given.kg, &bits, sizeof bits);
    size_t ways = chance(10) ? sizeof FILLED : 1;
    for (size_t i = 0; i < ways; i++) {
        given.filled = FILLED[i];
        both("landfill_cell", cell);
    }
}

static uint64_t bits_of(double number)
{
    uint64_t bits;
    memcpy(&bits, &number, sizeof bits);
    return bits;
}

/* The number, the floats beside it, and the same with the other sign. */
static void cells_around(uint64_t bits)
{
    const uint64_t SIGN = (uint64_t)1 << 63;
    for (uint64_t i = 0; i < 5; i++) {
        one_cell(bits + i - 2);
        one_cell((bits + i - 2) ^ SIGN);
    }
}

static void all_cells(void)
{
    static const double EDGES[] = {0,          0x1p-1074,    0x1p-1022, 1e-9,         0.5,         1,      1.5,
                                   2,          999999999,    1e9,       1000000000.5, 1000000001,  0x1p31, 4294967295.0,
                                   4294967296, 0x1p52,       0x1p53,    0x1p63,       0x1p64,      1e18,   1e19,
                                   1e300,      0x1.fffp1023, 16777217,  123456789,    999999999.5, 0.1,    1e9 - 1e-6};
    const uint64_t INFINITE = (uint64_t)0x7FF << 52;
    for (size_t i = 0; i < sizeof EDGES / sizeof *EDGES; i++) cells_around(bits_of(EDGES[i]));
    cells_around(INFINITE);
    for (int i = 0; i < 52; i++) {
        cells_around(INFINITE | (uint64_t)1 << i);
        cells_around(INFINITE | draw() >> 12);
        cells_around((uint64_t)1 << i);
        cells_around(bits_of((double)((uint64_t)1 << i)));
    }
    for (int i = 0; i < 40000; i++) {
        uint64_t whole = bits_of((double)edge(0, 1100000000));
        one_cell(draw());
        one_cell(whole);
        one_cell(whole ^ (uint64_t)1 << below(64));
    }
}

static void one_point(uint64_t figure, uint64_t bound)
{
    given.figure = figure;
    given.bound = bound;
    both("landfill_point", point);
}

static void all_points(void)
{
    const uint64_t MOST = 9007199254740992;
    for (int i = 0; i < 20000; i++) {
        uint64_t part = edge(0, MOST), any = edge(0, UINT64_MAX), size = any_size();
        one_point(part, MOST - part - 2 + below(5));
        one_point(part, edge(0, part));
        one_point(edge(0, part), part);
        one_point(any, edge(0, UINT64_MAX));
        one_point(UINT64_MAX - edge(0, MOST), part);
        one_point(size, any_size());
    }
}

/* ---- Sorted samples */

/* Mostly one that is taken. */
static uint64_t any_total(void)
{
    const uint64_t MOST = 1000000000, CUT = (uint64_t)1 << 32;
    switch (below(16)) {
    case 0: return MOST - 2 + below(5);
    case 1: return CUT + edge(0, MOST);
    case 2: return any_size();
    default: return edge(0, MOST);
    }
}

static void one_sharing(uint64_t kind, size_t length, unsigned damaged)
{
    uint8_t *samples = lend(SAMPLES, length);
    size_t count = length / 16;
    given.kind = (uint8_t)kind;
    given.total = any_total();
    make_samples(samples, count);
    if (count > 0 && chance(damaged)) damage_samples(samples, count);
    both("landfill_masses", masses);
}

/* Every length from first to last, with both kinds and some that are none, and with samples of which some may not add up. */
static void sharings_of(size_t first, size_t last)
{
    static const uint8_t KINDS[] = {1, 2, 0, 3, 255};
    for (size_t length = first; length <= last; length++)
        for (size_t i = 0; i < sizeof KINDS; i++) {
            one_sharing(KINDS[i], length, 0);
            one_sharing(KINDS[i], length, 50);
        }
}

static void all_sharings(void)
{
    sharings_of(0, 5 * 16);
    sharings_of(11 * 16 - 1, 14 * 16);
    sharings_of(398 * 16, 402 * 16 + 1);
    sharings_of(410 * 16, 410 * 16 + 20);
    for (uint64_t kind = 0; kind <= 255; kind++) {
        one_sharing(kind, 3 * 16, 0);
        one_sharing(kind, 12 * 16, 0);
    }
    for (size_t length = 0; length <= 410 * 16; length++) {
        one_sharing(1, length, 0);
        if (length % 16 == 0) one_sharing(2, length, 0);
    }
    for (int i = 0; i < 15000; i++) {
        one_sharing(2, 48, i % 2 == 0 ? 0 : 50);
        one_sharing(1, 16 * (12 + (size_t)i / 2 % 4), i % 2 == 0 ? 0 : 50);
        one_sharing((uint64_t)i % 6, below(240), 50);
    }
    for (int i = 0; i < 300; i++) one_sharing(1, 16 * edge(390, 401), i % 2 == 0 ? 0 : 50);
}

/* ---- Ledgers and steps */

static void all_totals(void)
{
    for (int i = 0; i < 40000; i++) {
        lend_ledger(any_series(1200), 60);
        one_totals();
    }
}

/* Lengths of record, output and answer; 0 stands for the length that is swept. */
static const size_t LENGTHS[6][3] = {{0, 48, 88}, {48, 0, 88}, {48, 48, 0}, {49, 0, 0}, {47, 48, 0}, {48, 0, 0}};

static void all_takes(void)
{
    for (size_t swept = 0; swept <= 300; swept++)
        for (unsigned i = 0; i < 18; i++) {
            const size_t *length = LENGTHS[i % 6];
            unsigned damaged = 10 * (i / 6);
            struct series series = any_series(1200);
            lend_ledger(series, damaged);
            one_take(series, damaged, length[0] ? length[0] : swept, length[1] ? length[1] : swept, length[2] ? length[2] : swept);
        }
    for (int i = 0; i < 150000; i++) {
        struct series series = any_series(i % 2 == 0 ? 1200 : 3);
        lend_ledger(series, 20);
        one_take(series, 50, 48, 48 + below(2), 88 + (size_t)i % 2);
    }
}

/* Takes a site through 1200 records and past them, with offers that are refused in between. */
static void one_history(struct series series)
{
    uint8_t image[IMAGE_BYTES] = {0};
    for (unsigned offer = 0; series.n < 1200 || offer % 8 != 0; offer++) {
        lend_image(image, IMAGE_BYTES);
        one_take(series, offer % 4 == 3 ? 100 : 0, 48, 48, 88);
        keep_image(image);
        follow(&series, image);
    }
}

/* ---- Runs and listings */

static void all_runs(void)
{
    for (size_t length = 0; length <= 500; length++)
        for (unsigned damaged = 0; damaged <= 30; damaged += 15) {
            one_run(any_series(0), damaged, length, 600);
            one_run(any_series(0), damaged, 480, length);
            one_run(any_series(1200), damaged, length, length - length % 48 + 48 * (length % 2));
        }
    for (int i = 0; i < 15000; i++) {
        size_t length = i % 4 == 0 ? below(600) : 48 * below(13), room = i % 5 == 0 ? below(700) : 624;
        one_run(any_series(i % 3 == 0 ? 0 : 1200), 30, length, room);
    }
    for (uint64_t i = 0; i < 64; i++) {
        struct series series = new_series(i < 32 ? 0 : edge(0, 1200), 1 + i % 2, 1 + i / 2 % 4);
        size_t length = edge(1195 * 48, 1205 * 48);
        one_run(series, i % 16 < 8 ? 0 : 40, length, i % 3 == 0 ? edge(1100 * 48, 1210 * 48) : 1205 * 48);
    }
}

static void all_listings(void)
{
    for (size_t length = 0; length <= 500; length++) {
        size_t room = (length + 47) / 48 * 90;
        for (unsigned damaged = 0; damaged <= 30; damaged += 15) {
            one_listing(any_series(0), damaged, length, room);
            one_listing(any_series(0), damaged, length, room + length);
            one_listing(any_series(0), damaged, length, room - (room > 0));
            one_listing(any_series(0), damaged, 192, length);
        }
    }
    for (int i = 0; i < 8000; i++) {
        size_t length = i % 4 == 0 ? below(600) : 48 * below(13);
        one_listing(any_series(i % 5 == 0 ? 2 : 0), 30, length, 1170);
    }
    for (uint64_t i = 0; i < 32; i++) {
        struct series series = new_series(0, 1 + i % 2, 1 + i / 2 % 4);
        one_listing(series, i < 16 ? 0 : 40, edge(1195 * 48, 1205 * 48), i % 3 == 0 ? 1201 * 90 - i % 2 : 1205 * 90);
    }
    /* Files about as long as some stretches of 32 records. */
    for (uint64_t i = 0; i < 600; i++) {
        size_t length = 1536 * (1 + i % 4) + 48 * (i % 5) + i % 7 - 99;
        one_listing(any_series(0), i % 3 == 0 ? 0 : 40, length, (length + 47) / 48 * 90);
    }
}

/* ---- Images of any length, and ledgers with a fault at one type */

/* An image of 136 bytes, as it was before it held what was released, is among them, of fresh ledgers and others. */
static void all_lengths(void)
{
    uint8_t image[IMAGE_BYTES];
    for (size_t length = 0; length <= 300; length++) {
        lend(LEDGER, length);
        one_fresh();
        for (uint64_t most = 0; most <= 1200; most += 400) {
            struct series series = any_series(most);
            make_ledger(image, series);
            open_image(image, length, series);
        }
    }
}

static void all_faults(void)
{
    uint8_t image[IMAGE_BYTES];
    for (int i = 0; i < 40 * 8 * WAYS; i++) {
        struct series series = any_series(i < 10 * 8 * WAYS ? 0 : 1200);
        make_ledger(image, series);
        break_type(image, i / WAYS % 8, i % WAYS);
        open_image(image, IMAGE_BYTES, series);
    }
}

static void all_ledgers(void)
{
    all_lengths();
    all_faults();
    all_uncertainties();
    all_orders();
    all_years();
    all_sludge();
    all_work();
    all_reported();
    all_look_ups();
    all_cells();
    all_points();
    all_sharings();
    all_totals();
    all_takes();
    for (uint64_t kind = 1; kind <= 2; kind++)
        for (uint64_t climate = 1; climate <= 4; climate++) one_history(new_series(0, kind, climate));
    all_runs();
    all_listings();
}

static void all_reductions(void)
{
    all_entered();
    all_tunisia();
    all_accepted();
}

static void all_by_columns(void)
{
    all_worked();
    all_columns();
    all_refused();
}

static void all_by_year(void)
{
    all_yearly_totals();
    all_slots();
    all_offered();
}

static const struct {
    const char *name;
    void (*ask)(void);
} PARTS[] = {{"ledgers", all_ledgers}, {"tunisia", all_reductions}, {"columns", all_by_columns}, {"more", all_more},
             {"totals", all_by_year}};

/* Each part begins with the seed anew, so that it asks the same alone. */
int main(int count, char **words)
{
    uint64_t number = count > 1 ? strtoull(words[1], NULL, 0) : 1;
    reference_start();
    for (size_t i = 0; i < sizeof PARTS / sizeof *PARTS; i++) {
        if (count > 2 && strcmp(words[2], PARTS[i].name) != 0) continue;
        seed(number);
        PARTS[i].ask();
    }
    printf("differential: %" PRIu64 " calls, 0 differences (seed %" PRIu64 ")\n", calls(), number);
    return 0;
}
