/* Sites that are recorded by month, and calls with their yearly totals. */
#include "months.h"

#include "choices.h"
#include "landfill.h"
#include "offers.h"
#include "reference.h"
#include "sides.h"

#include <string.h>

const uint64_t MOST_SUM = 10000000000000000000u;
uint8_t months[(FULL + 6) * MONTH_BYTES];
struct taken taken;

/* The buffers of the last call, as they were lent. */
static struct {
    const uint8_t *image, *totals, *out, *answer;
} lent;

/* ---- Sites */

uint8_t *month_of(size_t place)
{
    return months + MONTH_BYTES * place;
}

void begin_site(struct monthly *it, uint64_t climate)
{
    memset(it, 0, sizeof *it);
    it->series = new_series(0, LANDFILL_MONTHLY, climate);
    it->image_len = IMAGE_BYTES;
    it->totals_len = TOTALS_BYTES;
}

void make_months(struct monthly *it, uint64_t n, uint64_t most)
{
    begin_site(it, 1 + below(4));
    it->series.n = n;
    make_ledger(it->image, it->series);
    random_bytes(it->totals, SLOT_BYTES * next_slot(it));
    if (n % MONTHS == 0) return;
    reference_write(slot_of(it), 4, next_slot(it) + 1);
    reference_write(slot_of(it) + 4, 4, n % MONTHS);
    for (int i = 0; i < 3; i++) reference_write(slot_of(it) + FIRST_SUM + 8 * i, 8, edge(0, most));
}

void fill_months(const struct monthly *it, size_t count)
{
    make_file(months, count, it->series);
}

uint64_t next_slot(const struct monthly *it)
{
    return it->series.n / MONTHS;
}

uint8_t *slot_of(struct monthly *it)
{
    return it->totals + SLOT_BYTES * next_slot(it);
}

void scramble_others(struct monthly *it)
{
    uint8_t own[SLOT_BYTES];
    memcpy(own, slot_of(it), SLOT_BYTES);
    random_bytes(it->totals, TOTALS_BYTES);
    memcpy(slot_of(it), own, SLOT_BYTES);
}

void add_outputs(uint8_t *totals, const uint8_t *out, size_t count)
{
    for (size_t i = 0; i < count; i++) {
        struct landfill_output it = landfill_get_output(out + MONTH_BYTES * i);
        uint32_t year = (it.period + 11) / 12;
        hold("an output record with the period of no month", it.period < 1 || it.period > FULL, 0);
        uint8_t *slot = totals + SLOT_BYTES * (year - 1);
        reference_write(slot, 4, year);
        add(slot + 4, 4, 1);
        add(slot + 8, 8, it.x0);
        add(slot + 16, 8, it.figure);
        add(slot + 24, 8, it.bound);
    }
}

/* ---- The calls, alike for both sides */

static void take_month(const struct entries *it, struct side *s)
{
    s->answer = it->take_month(at(s, LEDGER), length_of(LEDGER), at(s, TOTALS), length_of(TOTALS), at(s, RECORDS),
                               length_of(RECORDS), at(s, OUT), length_of(OUT), at(s, ANSWER), length_of(ANSWER));
}

static void run_months(const struct entries *it, struct side *s)
{
    s->answer = it->run_months(at(s, LEDGER), length_of(LEDGER), at(s, TOTALS), length_of(TOTALS), at(s, RECORDS),
                               length_of(RECORDS), at(s, OUT), length_of(OUT), &s->numbers.whole[1], &s->numbers.whole[3]);
}

/* ---- What holds for every call */

/* How many bytes are alike from the start on. */
static size_t alike(const uint8_t *one, const uint8_t *other, size_t count)
{
    size_t i = 0;
    while (i < count && one[i] == other[i]) i++;
    return i;
}

void hold_bytes(const char *name, const uint8_t *bytes, const uint8_t *expected, size_t count)
{
    if (memcmp(bytes, expected, count) != 0) hold(name, alike(bytes, expected, count), count);
}

/* Holds the totals to what was lent and the output records, and what was not written to what was lent. */
static void hold_written(const struct monthly *it, size_t accepted, size_t out_len)
{
    uint8_t expected[TOTALS_BYTES];
    size_t length = it->totals_len < TOTALS_BYTES ? it->totals_len : TOTALS_BYTES, written = MONTH_BYTES * accepted;
    hold("more records taken than have room", accepted > out_len / MONTH_BYTES, 0);
    if (it->totals_len != TOTALS_BYTES) hold("the number of records taken with totals of another length", accepted, 0);
    memcpy(expected, lent.totals, length);
    add_outputs(expected, left(OUT), accepted);
    hold_bytes("the place where totals are not the output records added", left(TOTALS), expected, length);
    hold_bytes("the place of a byte written after the totals", left(TOTALS) + length, lent.totals + length,
               it->totals_len - length);
    hold_bytes("the place of a byte of the output that has changed", left(OUT) + written, lent.out + written,
               out_len - written);
    if (accepted == 0) hold_bytes("the place of a byte of the image that has changed", left(LEDGER), lent.image, it->image_len);
    for (size_t i = 0; i < accepted; i++)
        hold("the kind of an output record", landfill_get_output(left(OUT) + MONTH_BYTES * i).kind, LANDFILL_MONTHLY);
}

/* Holds the answer of a step to its output record, or to zeros. */
static void hold_step(size_t answer_len)
{
    uint8_t zeros[LANDFILL_ANSWER_BYTES] = {0};
    size_t written = answer_len < LANDFILL_ANSWER_BYTES ? 0 : LANDFILL_ANSWER_BYTES;
    if (answer_left() == 0)
        hold_bytes("the place where answer and output differ", left(ANSWER) + LANDFILL_ANSWER_AT_X0,
                   left(OUT) + LANDFILL_OUT_AT_X0, 24);
    else
        hold_bytes("the place of a number of a refused record", left(ANSWER), zeros, written);
    hold_bytes("the place of a byte of the answer that has changed", left(ANSWER) + written, lent.answer + written,
               answer_len - written);
}

/* ---- Calls */

static void lend_months(const struct monthly *it, const uint8_t *records, size_t known, size_t length, size_t room)
{
    uint8_t *image = lend(LEDGER, it->image_len), *totals = lend(TOTALS, it->totals_len);
    memcpy(image, it->image, it->image_len < IMAGE_BYTES ? it->image_len : IMAGE_BYTES);
    if (chance(50)) memset(totals, 0, it->totals_len);
    memcpy(totals, it->totals, it->totals_len < TOTALS_BYTES ? it->totals_len : TOTALS_BYTES);
    memcpy(lend(RECORDS, length), records, length < known ? length : known);
    lent.image = image;
    lent.totals = totals;
    lent.out = lend(OUT, room);
}

void offer_month(const struct monthly *it, const uint8_t *record, size_t record_len, size_t out_len, size_t answer_len)
{
    lend_months(it, record, MONTH_BYTES, record_len, out_len);
    lent.answer = lend(ANSWER, answer_len);
    both("landfill_take_month", take_month);
    hold_written(it, answer_left() == 0, out_len);
    hold_step(answer_len);
}

void offer_months(const struct monthly *it, const uint8_t *records, size_t length, size_t room)
{
    lend_months(it, records, length, length, room);
    both("landfill_run_months", run_months);
    hold_written(it, accepted_left(), room);
    hold("records of a run that was not refused", answer_left() == 0 && MONTH_BYTES * accepted_left() != length, 0);
}

void offer_first(const struct monthly *it, uint64_t refusal)
{
    offer_month(it, months, MONTH_BYTES, MONTH_BYTES, LANDFILL_ANSWER_BYTES);
    hold("the refusal of a month", answer_left(), refusal);
    offer_months(it, months, MONTH_BYTES, MONTH_BYTES);
    hold("the refusal of a run of one month", answer_left(), refusal);
}

/* Takes over what the last call has left. */
static void keep_months(struct monthly *it, size_t accepted)
{
    taken.refusal = answer_left();
    taken.accepted = accepted;
    memcpy(taken.out, left(OUT), MONTH_BYTES * accepted);
    memcpy(it->totals, left(TOTALS), TOTALS_BYTES);
    keep_image(it->image);
    follow(&it->series, it->image);
}

/* Holds what a call without totals has left to what the one with totals has left: image and output. */
static void hold_plain(const struct monthly *it)
{
    hold("the refusal without totals", answer_left(), 0);
    hold_bytes("the place where the image is another without totals", left(LEDGER), it->image, IMAGE_BYTES);
    hold_bytes("the place where the output is another without totals", left(OUT), taken.out, MONTH_BYTES * taken.accepted);
}

void take_month_on(struct monthly *it, const uint8_t *record)
{
    uint8_t image[IMAGE_BYTES], answer[LANDFILL_ANSWER_BYTES];
    memcpy(image, it->image, sizeof image);
    offer_month(it, record, MONTH_BYTES, MONTH_BYTES, LANDFILL_ANSWER_BYTES);
    memcpy(answer, left(ANSWER), sizeof answer);
    keep_months(it, answer_left() == 0);
    take_on(image, record);
    if (taken.refusal == 0) {
        hold_plain(it);
        hold_bytes("the place where the answer is another without totals", left(ANSWER), answer, sizeof answer);
    } else if (taken.refusal != 27) {
        hold("the refusal without totals", answer_left(), taken.refusal == 32 ? 0 : taken.refusal);
    }
}

void run_months_on(struct monthly *it, const uint8_t *records, size_t length, size_t room)
{
    uint8_t image[IMAGE_BYTES];
    memcpy(image, it->image, sizeof image);
    offer_months(it, records, length, room);
    uint64_t work = work_left();
    keep_months(it, accepted_left());
    run_on(image, records, taken.accepted);
    hold_plain(it);
    hold("the decay work without totals", work_left(), work);
}
