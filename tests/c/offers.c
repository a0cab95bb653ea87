/* One call each of the entries that take ledgers and records. */
#include "offers.h"

#include "sides.h"

#include <string.h>

/* ---- The calls, alike for both sides */

static void fresh(const struct entries *it, struct side *s)
{
    s->answer = it->fresh(at(s, LEDGER), length_of(LEDGER));
}

static void totals(const struct entries *it, struct side *s)
{
    s->answer = it->totals(at(s, LEDGER), length_of(LEDGER), &s->numbers.whole[1], &s->numbers.whole[3],
                           &s->numbers.whole[5]);
}

static void take(const struct entries *it, struct side *s)
{
    s->answer = it->take(at(s, LEDGER), length_of(LEDGER), at(s, RECORDS), length_of(RECORDS), at(s, OUT), length_of(OUT),
                         at(s, ANSWER), length_of(ANSWER));
}

static void run(const struct entries *it, struct side *s)
{
    s->answer = it->run(at(s, LEDGER), length_of(LEDGER), at(s, RECORDS), length_of(RECORDS), at(s, OUT), length_of(OUT),
                        &s->numbers.whole[1], &s->numbers.whole[3]);
}

static void listing(const struct entries *it, struct side *s)
{
    s->answer = it->listing(at(s, RECORDS), length_of(RECORDS), at(s, TEXT), length_of(TEXT), &s->numbers.whole[1]);
}

/* ---- Ledgers */

void lend_image(const uint8_t *image, size_t length)
{
    uint8_t *bytes = lend(LEDGER, length);
    if (chance(50)) memset(bytes, 0, length);
    memcpy(bytes, image, length < IMAGE_BYTES ? length : IMAGE_BYTES);
}

void lend_ledger(struct series series, unsigned damaged)
{
    uint8_t image[IMAGE_BYTES];
    make_ledger(image, series);
    if (chance(damaged)) damage_ledger(image);
    lend_image(image, chance(damaged / 10) ? below(300) : IMAGE_BYTES);
}

void keep_image(uint8_t *image)
{
    memcpy(image, left(LEDGER), IMAGE_BYTES);
}

void one_fresh(void)
{
    both("landfill_fresh", fresh);
}

void one_totals(void)
{
    both("landfill_totals", totals);
}

/* ---- Records and files */

void take_record(const uint8_t *record, size_t record_len, size_t out_len, size_t answer_len)
{
    memcpy(lend(RECORDS, record_len), record, record_len < 48 ? record_len : 48);
    lend(OUT, out_len);
    lend(ANSWER, answer_len);
    both("landfill_take", take);
}

void run_records(const uint8_t *records, size_t length, size_t room)
{
    memcpy(lend(RECORDS, length), records, length);
    lend(OUT, room);
    both("landfill_run", run);
}

void list_records(const uint8_t *records, size_t length, size_t room)
{
    memcpy(lend(RECORDS, length), records, length);
    lend(TEXT, room);
    both("landfill_listing", listing);
}

void offer_record(struct series series, const uint8_t *record)
{
    lend_ledger(series, 0);
    take_record(record, 48, 48, 88);
    lend_ledger(series, 0);
    run_records(record, 48, 48);
}

void take_on(uint8_t *image, const uint8_t *record)
{
    lend_image(image, IMAGE_BYTES);
    take_record(record, 48, 48, 88);
    keep_image(image);
}

void run_on(uint8_t *image, const uint8_t *records, size_t count)
{
    lend_image(image, IMAGE_BYTES);
    run_records(records, 48 * count, 48 * count);
    keep_image(image);
}

void one_take(struct series series, unsigned damaged, size_t record_len, size_t out_len, size_t answer_len)
{
    uint8_t record[48];
    make_record(record, series);
    if (chance(damaged)) damage_record(record);
    take_record(record, record_len, out_len, answer_len);
}

/* A file of so many bytes that goes on from a series, damaged at a place or two. */
static const uint8_t *records_of(struct series series, unsigned damaged, size_t length)
{
    static uint8_t file[1300 * 48];
    size_t count = length / 48;
    make_file(file, count + 1, series);
    while (count > 0 && chance(damaged)) damage_record(file + 48 * below(count));
    return file;
}

void run_file(struct series series, unsigned damaged, size_t length, size_t room)
{
    run_records(records_of(series, damaged, length), length, room);
}

void one_listing(struct series series, unsigned damaged, size_t length, size_t room)
{
    list_records(records_of(series, damaged, length), length, room);
}

void one_run(struct series series, unsigned damaged, size_t length, size_t room)
{
    lend_ledger(series, damaged);
    run_file(series, damaged, length, room);
}

void open_image(const uint8_t *image, size_t length, struct series series)
{
    lend_image(image, length);
    one_totals();
    lend_image(image, length);
    one_take(series, 0, 48, 48, 88);
    for (size_t count = 0; count <= 2; count++) {
        lend_image(image, length);
        run_file(series, 0, 48 * count, 96);
    }
}
