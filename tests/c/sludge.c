/* Sludge with a measured dry matter: every value in records and files, and ledgers at the ceilings that it gives. */
#include "sludge.h"

#include "offers.h"
#include "reference.h"
#include "sides.h"

/* Types 7 and 8; what a record or an image has of them stands side by side. */
enum sludge { DOMESTIC, PAPER };
enum { FIRST = 6, MOST_MASS = 1000000000, CHANGED = 5, LISTED = 100 };

static void put_sludge(uint8_t *record, enum sludge which, uint64_t m, uint64_t mass)
{
    record[12 + which] = (uint8_t)m;
    reference_write(record + 16 + 4 * (FIRST + which), 4, mass);
}

static uint64_t brought_by(const uint8_t *image, enum sludge which)
{
    return reference_read(image + 8 + 8 * (FIRST + which), 8);
}

/* ---- Records */

/* One kilogram into a fresh ledger, and the carbon in mg that it brings, worked out by hand. */
static void all_by_hand(void)
{
    static const struct {
        enum sludge which;
        uint64_t m, mg;
    } ROWS[] = {{DOMESTIC, 0, 50000}, {DOMESTIC, 1, 5000},  {DOMESTIC, 10, 50000}, {DOMESTIC, 100, 500000},
                {PAPER, 0, 90000},    {PAPER, 1, 2500},     {PAPER, 2, 5100},      {PAPER, 34, 87400},
                {PAPER, 35, 90000},   {PAPER, 36, 92500},   {PAPER, 70, 180000},   {PAPER, 100, 257100}};
    for (size_t i = 0; i < sizeof ROWS / sizeof *ROWS; i++) {
        uint8_t image[IMAGE_BYTES] = {0}, record[48];
        make_record(record, any_series(0));
        put_sludge(record, ROWS[i].which, ROWS[i].m, 1);
        take_on(image, record);
        hold("the carbon of 1 kg of sludge", brought_by(image, ROWS[i].which), ROWS[i].mg);
    }
}

/* Every value with none of the sludge, a kilogram, any mass and the most, by year and by month. */
static void all_values(enum sludge which)
{
    uint8_t record[48];
    for (uint64_t i = 0; i < 256 * 4 * 4; i++) {
        const uint64_t n = i % 2 == 0 ? 0 : edge(0, FULL - 1), masses[4] = {0, 1, edge(0, MOST_MASS), MOST_MASS};
        struct series series = new_series(n, 1 + i / 2 % 2, 1 + below(4));
        make_record(record, series);
        put_sludge(record, which, i / 16, masses[i / 4 % 4]);
        offer_record(series, record);
    }
}

/* Both bytes in all ways. */
static void all_pairs(void)
{
    uint8_t record[48];
    for (unsigned i = 0; i < 256 * 256; i++) {
        struct series series = any_series(FULL - 1);
        make_record(record, series);
        record[12] = (uint8_t)(i % 256);
        record[13] = (uint8_t)(i / 256);
        lend_ledger(series, 0);
        take_record(record, 48, 48, 88);
    }
}

/* A value over 100 together with each other fault, of which some are tested before and some after. */
static void all_faults(enum sludge which)
{
    static const uint8_t OVER[] = {101, 128, 255};
    uint8_t record[48];
    for (uint64_t i = 0; i < 14 * 2 * sizeof OVER; i++)
        for (int rule = 0; rule < RULES; rule++) {
            struct series series = new_series(i % 14, 1 + i / 14 % 2, 1 + below(4));
            make_record(record, series);
            record[12 + which] = OVER[i / 28];
            break_rule(record, rule);
            offer_record(series, record);
        }
}

/* ---- Files */

/* Records that all bring the sludge, the second with this value, the next with none: by a run, a listing, and step by step. */
static void one_change(struct series series, enum sludge which, uint64_t m)
{
    uint8_t by_run[IMAGE_BYTES] = {0}, by_steps[IMAGE_BYTES] = {0}, file[CHANGED * 48];
    const uint64_t first = edge(0, 100), values[CHANGED] = {first, m, 0, edge(1, 100), 0};
    make_file(file, CHANGED, series);
    for (int i = 0; i < CHANGED; i++) put_sludge(file + 48 * i, which, values[i], edge(1, MOST_MASS));
    run_on(by_run, file, CHANGED);
    list_records(file, sizeof file, CHANGED * 90);
    for (int i = 0; i < CHANGED; i++) take_on(by_steps, file + 48 * i);
}

static void all_changes(enum sludge which)
{
    for (uint64_t i = 0; i < 256 * 2; i++) one_change(new_series(0, 1 + i % 2, 1 + below(4)), which, i / 2);
}

/* Files longer than three stretches of 32 records, with a value over 100, or a byte that is to be 0, at each place. */
static void all_listed(int byte)
{
    uint8_t file[LISTED * 48];
    for (size_t at = 0; at < LISTED; at++) {
        uint8_t image[IMAGE_BYTES] = {0};
        make_file(file, LISTED, new_series(0, 1 + at % 2, 1 + below(4)));
        file[48 * at + byte] = (uint8_t)edge(101, 255);
        run_on(image, file, LISTED);
        list_records(file, sizeof file, LISTED * 90);
    }
}

/* ---- Ledgers at a ceiling */

/* Ledgers with this T, of which nothing, a part or all is left; each is offered records, and one with a value over 100. */
static void one_T(struct series series, enum sludge which, uint64_t T)
{
    const uint64_t R[3] = {0, edge(0, T), T};
    for (int i = 0; i < 3; i++) {
        uint8_t image[IMAGE_BYTES], record[48];
        make_ledger(image, series);
        put_type(image, FIRST + which, T, R[i]);
        open_image(image, IMAGE_BYTES, series);
        make_record(record, series);
        record[12 + which] = 101;
        take_on(image, record);
    }
}

/* T at the ceilings, and at those from before there was a dry matter, with one below and one above. */
static void all_ceilings(enum sludge which)
{
    static const uint64_t DOC[2][2] = {{5000, 500}, {2571, 900}}, COUNTS[4] = {1, 2, FULL - 1, FULL};
    for (uint64_t i = 0; i < 4 * 2 * 2; i++) {
        uint64_t n = COUNTS[i % 4], T = n * MOST_MASS * DOC[which][i / 8] * 100;
        for (uint64_t beside = 0; beside <= 2; beside++)
            one_T(new_series(n, 1 + i / 4 % 2, 1 + below(4)), which, T + beside - 1);
    }
}

/* ---- The most of all */

/* The most waste with the most carbon, and the factors that give the greatest figure and bound. */
static void make_most(uint8_t *record, struct series series)
{
    static const uint8_t FACTORS[12] = {100, 0, 100, 100, 1, 100, 0, 0, 100, 100, 0, 0};
    make_record(record, series);
    for (int i = 0; i < 12; i++) record[4 + i] = FACTORS[i];
    for (int t = 0; t < 8; t++) reference_write(record + 16 + 4 * t, 4, MOST_MASS);
}

static struct series most_series(uint64_t n, uint64_t kind, uint64_t climate)
{
    return (struct series){n, kind, climate, {100, 1, 0}};
}

/* One such record after n others of which nothing was released. */
static void take_most(struct series series)
{
    uint8_t image[IMAGE_BYTES], record[48];
    make_ledger(image, series);
    for (int t = 0; t < 8; t++) put_type(image, t, reference_ceiling(series.n, t), reference_ceiling(series.n, t));
    make_most(record, series);
    lend_image(image, IMAGE_BYTES);
    run_records(record, 48, 48);
    take_on(image, record);
}

static uint64_t output(size_t record, int byte)
{
    return reference_read(left(OUT) + 48 * record + byte, 8);
}

/* 1200 of them into a fresh ledger, and one more. */
static void run_most(struct series series)
{
    static uint8_t file[(FULL + 1) * 48];
    uint8_t image[IMAGE_BYTES] = {0};
    for (; series.n <= FULL; series.n++) make_most(file + 48 * series.n, series);
    run_on(image, file, FULL + 1);
    hold("T of type 7", brought_by(image, DOMESTIC), 600000000000000000);
    hold("T of type 8", brought_by(image, PAPER), 308520000000000000);
    hold("total T", output(FULL - 1, 40), 2612520000000000000);
    take_on(image, file + 48 * FULL);
    lend_image(image, IMAGE_BYTES);
    one_totals();
}

/* x0, figure and bound are worked out from document 01's tables by exact fractions. */
static void all_most(void)
{
    static const uint64_t COUNTS[] = {0, 1, 11, 12, FULL - 2, FULL - 1};
    for (uint64_t kind = 1; kind <= 2; kind++)
        for (uint64_t climate = 1; climate <= 4; climate++) {
            for (size_t i = 0; i < sizeof COUNTS / sizeof *COUNTS; i++) take_most(most_series(COUNTS[i], kind, climate));
            run_most(most_series(0, kind, climate));
        }
    take_most(most_series(FULL - 1, 1, 4));
    hold("the greatest x0", output(0, 8), 373458104790840000);
    hold("the greatest figure", output(0, 16), 49794413972112000);
    hold("the greatest bound", output(0, 24), 418003201123);
}

void all_sludge(void)
{
    all_by_hand();
    for (enum sludge which = DOMESTIC; which <= PAPER; which++) {
        all_values(which);
        all_faults(which);
        all_changes(which);
        all_ceilings(which);
    }
    for (int byte = 12; byte <= 15; byte++) all_listed(byte);
    all_pairs();
    all_most();
}
