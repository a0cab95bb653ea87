/* Months that share the year's factors, or do not: records, files, files in parts, and images. */
#include "years.h"

#include "offers.h"
#include "reference.h"

#include <string.h>

enum { MONTHS = 26, LISTED = 100 };

/* ---- Records */

/* Offers the next record of a series with the year's factors changed. */
static void take_changed(struct series series, int way, size_t record_len, size_t out_len, size_t answer_len)
{
    uint8_t record[48];
    make_record(record, series);
    change_year(record, way);
    lend_ledger(series, 0);
    take_record(record, record_len, out_len, answer_len);
}

/* Every month of a hundred years, as it should be and changed in each way, and every year with factors of its own. */
static void all_months(void)
{
    for (uint64_t n = 0; n < 1200; n++) {
        for (int way = 0; way <= CHANGES; way++) take_changed(new_series(n, 2, 1 + n % 4), way, 48, 48, 88);
        take_changed(new_series(n, 1, 1 + n % 4), (int)(n % CHANGES), 48, 48, 88);
    }
}

/* A record, and a file of it alone, that has other factors and breaks one more rule. */
static void break_one_more(struct series series, int way, int rule)
{
    uint8_t record[48];
    make_record(record, series);
    change_year(record, way);
    break_rule(record, rule);
    offer_record(series, record);
}

/* Other factors together with each other fault, of which some are tested before and some after. */
static void all_pairs(void)
{
    for (uint64_t n = 0; n <= 13; n++)
        for (int way = 0; way < CHANGES; way++) {
            struct series series = new_series(n, 2, 1 + n % 4);
            for (int rule = 0; rule < RULES; rule++) break_one_more(series, way, rule);
            take_changed(series, way, 47, 48, 88);
            take_changed(series, way, 49, 48, 88);
            take_changed(series, way, 48, 47, 88);
            take_changed(series, way, 48, 48, 87);
        }
}

/* ---- Files */

/* Files that start at any month of a year, with the record at each place changed in turn. */
static void all_changes(uint64_t kind)
{
    uint8_t file[MONTHS * 48];
    for (uint64_t n = 0; n <= 12; n++)
        for (size_t at = 0; at < MONTHS; at++)
            for (int way = 0; way < CHANGES; way++) {
                struct series series = new_series(n, kind, 1 + below(4));
                make_file(file, MONTHS, series);
                change_year(file + 48 * at, way);
                lend_ledger(series, 0);
                run_records(file, sizeof file, sizeof file);
            }
}

/* Listings of such files, each longer than three stretches of 32 records. */
static void all_listed(uint64_t kind)
{
    uint8_t file[LISTED * 48];
    for (size_t at = 0; at < LISTED; at++)
        for (int way = 0; way < CHANGES; way++) {
            make_file(file, LISTED, new_series(0, kind, 1 + at % 4));
            change_year(file + 48 * at, way);
            list_records(file, sizeof file, LISTED * 90);
        }
}

/* A file in three calls, the image going from one to the next: a run up to the cut, a step, and a run of what is left. The
 * step's record may be changed; where it is refused, the last run begins with the record as it should be. */
static void one_split(struct series series, size_t cut, int way)
{
    uint8_t image[IMAGE_BYTES] = {0}, file[MONTHS * 48], record[48];
    make_file(file, MONTHS, series);
    memcpy(record, file + 48 * cut, 48);
    change_year(record, way);
    run_on(image, file, cut);
    take_on(image, record);
    uint64_t n = reference_read(image, 2);
    run_on(image, file + 48 * n, MONTHS - n);
}

static void all_splits(uint64_t kind)
{
    for (size_t cut = 0; cut < MONTHS; cut++)
        for (int way = 0; way <= CHANGES; way++) one_split(new_series(0, kind, 1 + cut % 4), cut, way);
}

/* A site's 1200 records in parts, some of them damaged, the image going from run to run. */
static void one_relay(struct series series)
{
    uint8_t image[IMAGE_BYTES] = {0};
    while (series.n < 1200) {
        lend_image(image, IMAGE_BYTES);
        run_file(series, 30, 48 * below(MONTHS), 48 * MONTHS);
        keep_image(image);
        follow(&series, image);
    }
}

/* ---- Images */

/* Every value of each byte of the year's factors, in ledgers of no month, six and twelve; the records go by what stood there
 * before, or by what stands there now. */
static void all_bytes(uint64_t kind)
{
    uint8_t image[IMAGE_BYTES];
    for (uint64_t n = 0; n <= 12; n += 6)
        for (int place = 4; place <= 7; place++)
            for (int value = 0; value <= 255; value++) {
                struct series series = new_series(n, kind, 1 + below(4));
                make_ledger(image, series);
                image[place] = (uint8_t)value;
                if (chance(50)) follow(&series, image);
                open_image(image, IMAGE_BYTES, series);
            }
}

/* The limits of the year's factors, and one past them, all together. */
static void all_limits(uint64_t n, uint64_t kind)
{
    static const uint64_t FACTORS[5] = {0, 1, 100, 101, 255}, CLASSES[5] = {0, 1, 4, 5, 255};
    static const uint64_t CAPTURED[5] = {0, 1, 10000, 10001, 65535};
    uint8_t image[IMAGE_BYTES];
    for (int i = 0; i < 125; i++) {
        struct series series = {n, kind, 1 + below(4), {FACTORS[i % 5], CLASSES[i / 5 % 5], CAPTURED[i / 25]}};
        make_ledger(image, series);
        put_year(image, series.year);
        open_image(image, IMAGE_BYTES, series);
    }
}

/* Images as they were kept before ledgers remembered the year's factors: zeros in their place. */
static void all_old_images(uint64_t kind)
{
    uint8_t image[IMAGE_BYTES];
    for (uint64_t n = 0; n <= 1200; n += n < 36 ? 1 : 97) {
        struct series series = new_series(n, kind, 1 + n % 4);
        make_ledger(image, series);
        put_year(image, (struct year){0});
        open_image(image, IMAGE_BYTES, series);
    }
}

void all_years(void)
{
    static const uint64_t COUNTS[] = {0, 1, 11, 12, 1200};
    all_months();
    all_pairs();
    for (uint64_t kind = 1; kind <= 2; kind++) {
        all_changes(kind);
        all_listed(kind);
        all_splits(kind);
        all_bytes(kind);
        all_old_images(kind);
        for (uint64_t climate = 1; climate <= 4; climate++) one_relay(new_series(0, kind, climate));
    }
    for (uint64_t kind = 0; kind <= 3; kind++)
        for (size_t i = 0; i < sizeof COUNTS / sizeof *COUNTS; i++) all_limits(COUNTS[i], kind);
}
