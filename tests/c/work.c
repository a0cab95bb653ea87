/* What counts as decay work: every choice of masses and stocks, stocks that are rounded down to 0, and full ledgers; and what
 * does not matter: factors, dry matter and room. */
#include "work.h"

#include "choices.h"
#include "offers.h"
#include "reference.h"
#include "sides.h"

#include <string.h>

enum { TYPES = 8, BYTES = 48, SMALL = 14, VARIED = 4 };

/* The next file to offer stands at the start. */
static uint8_t file[(FULL + 1) * BYTES];

/* ---- The same in another way */

/* Counts the releases above zero of so many records, taken one by one. A stock above zero always releases something, since
 * every entry of the decay table is below 10^9. */
static uint64_t releases_of(const uint8_t *ledger, size_t count)
{
    uint8_t image[IMAGE_BYTES];
    uint64_t above = 0;
    memcpy(image, ledger, sizeof image);
    for (size_t i = 0; i < count; i++) {
        take_on(image, file + BYTES * i);
        for (int t = 0; t < TYPES; t++) above += reference_read(left(ANSWER) + 8 * t, 8) > 0;
    }
    return above;
}

static void run_and_step(const uint8_t *ledger, size_t count)
{
    uint64_t above = releases_of(ledger, count);
    lend_image(ledger, IMAGE_BYTES);
    run_records(file, BYTES * count, BYTES * count);
    hold("the decay work of a run", work_left(), above);
    hold("the number of records taken", accepted_left(), count);
}

/* ---- Masses and stocks */

/* Every choice of masses, on a fresh ledger and on ledgers with every choice of stocks. Inert waste has no stock; its bit says
 * whether all was released of the types outside the choice, or nothing was brought in. */
static void all_choices(void)
{
    uint8_t image[IMAGE_BYTES];
    for (unsigned i = 0; i < CHOICES * CHOICES; i++) {
        unsigned masses = i % CHOICES, stocks = i / CHOICES;
        struct series series = new_series(stocks == NOTHING ? 0 : edge(1, FULL - 1), 1 + below(2), 1 + below(4));
        make_stocks(image, series, stocks, has(stocks, INERT));
        make_choice(file, 1, series, masses);
        run_on(image, file, 1);
        hold("the decay work of one record", work_left(), with_carbon(masses | stocks));
    }
}

/* Every choice of masses, then two records that bring nothing or only inert waste. */
static void all_old_stocks(void)
{
    uint8_t image[IMAGE_BYTES];
    for (unsigned i = 0; i < CHOICES * 4; i++) {
        struct series series = new_series(i % 2 == 0 ? 0 : edge(1, FULL - 3), 1 + i / 2 % 2, 1 + below(4));
        make_stocks(image, series, NOTHING, 1);
        make_choice(file, 3, series, i % 3 == 0 ? NOTHING : ONLY_INERT);
        bring(file, i / 4);
        run_and_step(image, 3);
        hold("the decay work of three records", work_left(), 3 * with_carbon(i / 4));
    }
}

static void put_stock(uint8_t *image, struct series series, int t, uint64_t R)
{
    put_type(image, t, edge(R, reference_ceiling(series.n, t)), R);
}

/* Old stock of one type alone. Up to 3 mg it falls by 1 mg with each record, whatever the rate. */
static void one_small(struct series series, int t, uint64_t R)
{
    uint8_t image[IMAGE_BYTES];
    make_stocks(image, series, NOTHING, R % 2 == 0);
    put_stock(image, series, t, R);
    make_choice(file, SMALL, series, R % 2 == 0 ? NOTHING : ONLY_INERT);
    run_and_step(image, SMALL);
    if (R <= 3) hold("the decay work of a small stock", work_left(), R);
}

/* Old stocks of up to 3 mg of every type: the decay work is all these milligrams. */
static void small_together(struct series series)
{
    uint8_t image[IMAGE_BYTES];
    uint64_t mg = 0;
    make_stocks(image, series, NOTHING, 1);
    for (int t = 0; t < TYPES; t++) {
        uint64_t R = t == INERT ? 0 : below(4);
        put_stock(image, series, t, R);
        mg += R;
    }
    make_choice(file, SMALL, series, ONLY_INERT);
    run_on(image, file, SMALL);
    hold("the decay work of small stocks", work_left(), mg);
}

static void all_small(uint64_t kind, uint64_t climate)
{
    for (int t = 0; t < TYPES; t++)
        for (uint64_t R = 0; R < SMALL && t != INERT; R++)
            one_small(new_series(edge(1, FULL - SMALL), kind, climate), t, R);
    for (int i = 0; i < 100; i++) small_together(new_series(edge(1, FULL - SMALL), kind, climate));
}

/* Old stock of one type alone, as large as each power of two. */
static void all_powers(void)
{
    uint8_t image[IMAGE_BYTES];
    for (int t = 0; t < TYPES; t++)
        for (uint64_t R = 1; R <= reference_ceiling(FULL - 1, t); R *= 2) {
            struct series series = new_series(FULL - 1, 1 + below(2), 1 + below(4));
            make_stocks(image, series, NOTHING, 1);
            put_type(image, t, R, R);
            make_choice(file, 1, series, NOTHING);
            run_on(image, file, 1);
            hold("the decay work of one stock", work_left(), 1);
        }
}

/* ---- Full ledgers */

/* The first of 1200 records brings 1 kg of a type, the others nothing: how many records count it until its stock is 0, by kind,
 * climate and type. Worked out from the tables of document 01 by exact fractions. */
static const uint64_t LASTS[2][4][TYPES] = {{{482, 256, 161, 243, 195, 0, 143, 282},
                                             {334, 177, 58, 169, 104, 0, 52, 282},
                                             {394, 230, 118, 219, 154, 0, 105, 282},
                                             {291, 154, 29, 147, 64, 0, 26, 282}},
                                            {{1200, 1200, 1200, 1200, 1200, 0, 1200, 1200},
                                             {1200, 1200, 539, 1200, 959, 0, 468, 1200},
                                             {1200, 1200, 1065, 1200, 1200, 0, 910, 1200},
                                             {1200, 1200, 273, 1200, 601, 0, 240, 1200}}};

/* 1 kg of each type of a choice, and then nothing more. */
static void one_lasting(struct series series, unsigned choice)
{
    uint8_t image[IMAGE_BYTES] = {0};
    uint64_t expected = 0;
    make_choice(file, FULL, series, NOTHING);
    file[12] = file[13] = 0;
    for (int t = 0; t < TYPES; t++) {
        if (!has(choice, t)) continue;
        reference_write(file + 16 + 4 * t, 4, 1);
        expected += LASTS[series.kind - 1][series.climate - 1][t];
    }
    run_on(image, file, FULL);
    hold("the decay work of 1 kg", work_left(), expected);
}

/* So many records that all bring everything, after n others. */
static void one_full(struct series series, size_t count)
{
    uint8_t image[IMAGE_BYTES];
    uint64_t taken = count < FULL - series.n ? count : FULL - series.n;
    make_stocks(image, series, any_choice(), 1);
    make_choice(file, count, series, EVERYTHING);
    run_on(image, file, count);
    hold("the number of records taken", accepted_left(), taken);
    hold("the decay work of records that bring everything", work_left(), 7 * taken);
}

static void all_full(uint64_t kind, uint64_t climate)
{
    static const uint64_t COUNTS[] = {0, 1, 2, 600, FULL - 1, FULL};
    for (int t = 0; t < TYPES; t++) one_lasting(new_series(0, kind, climate), 1u << t);
    one_lasting(new_series(0, kind, climate), EVERYTHING);
    for (size_t i = 0; i < sizeof COUNTS / sizeof *COUNTS; i++) {
        one_full(new_series(COUNTS[i], kind, climate), FULL);
        one_full(new_series(COUNTS[i], kind, climate), FULL + 1);
    }
    one_full(new_series(0, kind, climate), FULL + 1);
    hold("the most decay work of a run", work_left(), 8400);
}

/* ---- What does not matter */

/* The same masses with other factors, other dry matter and other room. */
static void all_varied(void)
{
    uint8_t image[IMAGE_BYTES], masses[VARIED][32];
    for (int i = 0; i < 1500; i++) {
        struct series series = any_series(FULL - VARIED);
        make_mixed(image, series);
        make_sparse(file, VARIED, series);
        for (int n = 0; n < VARIED; n++) memcpy(masses[n], file + BYTES * n + 16, 32);
        uint64_t expected = releases_of(image, VARIED);
        for (int again = 0; again < 6; again++) {
            make_file(file, VARIED, series);
            for (int n = 0; n < VARIED; n++) memcpy(file + BYTES * n + 16, masses[n], 32);
            lend_image(image, IMAGE_BYTES);
            run_records(file, BYTES * VARIED, BYTES * VARIED + below(100));
            hold("the decay work with other factors", work_left(), expected);
        }
    }
}

/* Every pair of values of the dry matter, with 1 kg of one type of sludge or of both. */
static void all_dry(void)
{
    for (unsigned i = 0; i < 101 * 101; i++) {
        uint8_t image[IMAGE_BYTES] = {0};
        make_choice(file, 1, any_series(0), NOTHING);
        file[12] = (uint8_t)(i % 101);
        file[13] = (uint8_t)(i / 101);
        reference_write(file + 40, 4, i % 3 > 0);
        reference_write(file + 44, 4, i % 3 < 2);
        run_on(image, file, 1);
        hold("the decay work of 1 kg of sludge", work_left(), i % 3 == 1 ? 2 : 1);
    }
}

static void any(void)
{
    uint8_t image[IMAGE_BYTES];
    size_t count = 1 + below(SMALL);
    struct series series = any_series(FULL - SMALL);
    make_mixed(image, series);
    make_sparse(file, count, series);
    run_and_step(image, count);
}

void all_work(void)
{
    all_choices();
    all_old_stocks();
    all_powers();
    for (uint64_t kind = 1; kind <= 2; kind++)
        for (uint64_t climate = 1; climate <= 4; climate++) {
            all_small(kind, climate);
            all_full(kind, climate);
        }
    all_varied();
    all_dry();
    for (int i = 0; i < 4000; i++) any();
}
