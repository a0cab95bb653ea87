/* What a run reports as its decay work: with refusals, with files, outputs and images of every length, whatever the number held
 * before, and in two runs. */
#include "work.h"

#include "choices.h"
#include "offers.h"
#include "reference.h"
#include "sides.h"

#include <string.h>

enum { TYPES = 8, BYTES = 48, MOST_MASS = 1000000000, SPLIT = 26 };

/* The next file to offer stands at the start. */
static uint8_t file[FULL * BYTES];

/* ---- Refusals */

/* Makes a good record one that is refused with this number. With 1 to 4 the record stays as it is. */
static void spoil(uint8_t *record, uint64_t number)
{
    switch (number) {
    case 5: record[8] = outside(1, 4); break;
    case 6: add(record, 2, 1 + below(65535)); break;
    case 7: record[3] = (uint8_t)(record[3] % 4 + 1); break;
    case 8: record[12 + below(2)] = outside(0, 100); break;
    case 9: reference_write(record + 16 + 4 * below(TYPES), 4, edge(MOST_MASS + 1, UINT32_MAX)); break;
    case 17: change_year(record, (int)below(CHANGES)); break;
    }
}

/* Records that bring a choice of types, then one that is refused with this number, then one more. The last two bring
 * everything. */
static void one_refusal(struct series series, size_t before, uint64_t number)
{
    uint8_t image[IMAGE_BYTES];
    unsigned choice = any_choice();
    size_t length = BYTES * (before + 2), room = length;
    make_stocks(image, series, NOTHING, 1);
    make_choice(file, before + 2, series, EVERYTHING);
    for (size_t i = 0; i < before; i++) bring(file + BYTES * i, choice);
    spoil(file + BYTES * before, number);
    if (number == 1) length -= BYTES + 1 + below(47);
    if (number == 2) room -= BYTES + 1 + below(48);
    if (number == 3) break_type(image, (int)below(TYPES), 0);
    lend_image(image, IMAGE_BYTES);
    run_records(file, length, room);
    hold("the refusal", answer_left(), number);
    hold("the number of records before the refused one", accepted_left(), before);
    hold("the decay work before the refused record", work_left(), before * with_carbon(choice));
}

/* Tells whether a record can be refused with this number after n others, of which so many are of the same run. */
static int can_be(uint64_t number, uint64_t n, uint64_t kind, size_t before)
{
    switch (number) {
    case 3: return before == 0;
    case 4: return n == FULL;
    case 7: return n > 0 && n < FULL;
    case 17: return kind == 2 && n % 12 != 0;
    default: return n < FULL || number < 3;
    }
}

static void all_refusals(void)
{
    static const uint64_t NUMBERS[10] = {1, 2, 3, 4, 5, 6, 7, 8, 17, 9}, COUNTS[10] = {0, 1, 2, 5, 11, 12, 13, 600, 1199, FULL};
    for (uint64_t i = 0; i < 10 * 10 * 2 * 3 * 4; i++) {
        uint64_t number = NUMBERS[i % 10], n = COUNTS[i / 10 % 10], kind = 1 + i / 100 % 2;
        size_t before = i / 200 % 3;
        if (n >= before && can_be(number, n, kind, before))
            one_refusal(new_series(n - before, kind, 1 + below(4)), before, number);
    }
}

/* ---- Lengths */

/* Every length of the file and of the output up to 200 bytes. */
static void all_lengths(void)
{
    uint8_t image[IMAGE_BYTES];
    for (size_t i = 0; i < 201 * 201; i++) {
        size_t length = i % 201, room = i / 201, taken = (length < room ? length : room) / BYTES;
        struct series series = any_series(FULL - 5);
        make_stocks(image, series, any_choice(), 1);
        make_choice(file, 5, series, EVERYTHING);
        lend_image(image, IMAGE_BYTES);
        run_records(file, length, room);
        hold("the number of records taken", accepted_left(), taken);
        hold("the decay work of records that bring everything", work_left(), 7 * taken);
    }
}

/* Images of every length up to 300 bytes, and files of no record, one and two. */
static void all_images(void)
{
    uint8_t image[IMAGE_BYTES];
    for (size_t i = 0; i < 301 * 3 * 2; i++) {
        size_t length = i % 301, count = i / 301 % 3;
        struct series series = any_series(i % 2 == 0 ? 0 : FULL - 2);
        make_stocks(image, series, any_choice(), 1);
        make_choice(file, count, series, EVERYTHING);
        lend_image(image, length);
        run_records(file, BYTES * count, BYTES * count);
        hold("the decay work from an image", work_left(), length == IMAGE_BYTES ? 7 * count : 0);
    }
}

/* ---- What the numbers held before */

static uint64_t held;
static int accepted_at;

static void run_over(const struct entries *it, struct side *s)
{
    uint64_t *accepted = &s->numbers.whole[accepted_at], *work = &s->numbers.whole[3];
    *accepted = *work = held;
    s->answer = it->run(at(s, LEDGER), length_of(LEDGER), at(s, RECORDS), length_of(RECORDS), at(s, OUT), length_of(OUT),
                        accepted, work);
}

/* A run that takes so many records, each of which brings everything. *accepted stands right before *work, or after it. */
static void one_held(const uint8_t *image, size_t image_len, size_t length, size_t room, uint64_t taken)
{
    const uint64_t HELD[12] = {0, 1, 7, 8, 14, 8399, 8400, 8401, UINT32_MAX, UINT64_MAX - 7, UINT64_MAX, any_size()};
    for (int i = 0; i < 24; i++) {
        held = HELD[i / 2];
        accepted_at = i % 2 == 0 ? 2 : 5;
        lend_image(image, image_len);
        memcpy(lend(RECORDS, length), file, length);
        lend(OUT, room);
        both("landfill_run", run_over);
        hold("the decay work, whatever its number held", work_left(), 7 * taken);
    }
}

/* Runs of no record, from a damaged image, with too few bytes or too little room, of one record, of two, and of a refused one
 * after two. */
static void all_held(void)
{
    uint8_t image[IMAGE_BYTES], damaged[IMAGE_BYTES];
    for (int i = 0; i < 20; i++) {
        struct series series = any_series(i % 2 == 0 ? 0 : FULL - 4);
        make_stocks(image, series, any_choice(), 1);
        memcpy(damaged, image, sizeof image);
        break_type(damaged, (int)below(TYPES), 0);
        make_choice(file, 4, series, EVERYTHING);
        spoil(file + BYTES * 2, 6);
        one_held(image, IMAGE_BYTES, 0, 0, 0);
        one_held(damaged, IMAGE_BYTES, 0, 0, 0);
        one_held(damaged, IMAGE_BYTES, BYTES, BYTES, 0);
        one_held(image, 136, BYTES, BYTES, 0);
        one_held(image, IMAGE_BYTES, BYTES - 1, BYTES, 0);
        one_held(image, IMAGE_BYTES, BYTES, BYTES - 1, 0);
        one_held(image, IMAGE_BYTES, BYTES, BYTES, 1);
        one_held(image, IMAGE_BYTES, 2 * BYTES, 3 * BYTES, 2);
        one_held(image, IMAGE_BYTES, 4 * BYTES, 4 * BYTES, 2);
    }
}

/* ---- Files in two runs */

/* A file in one run, and in two from image to image. A record of the second part may be refused. */
static void one_split(struct series series, size_t count, size_t cut)
{
    uint8_t image[IMAGE_BYTES];
    make_mixed(image, series);
    make_sparse(file, count, series);
    if (cut < count && chance(30)) spoil(file + BYTES * (cut + below(count - cut)), 9);
    lend_image(image, IMAGE_BYTES);
    run_records(file, BYTES * count, BYTES * count);
    uint64_t taken = accepted_left(), work = work_left();
    run_on(image, file, cut);
    uint64_t taken_first = accepted_left(), work_first = work_left();
    run_on(image, file + BYTES * cut, count - cut);
    hold("the number of records taken by two runs", taken_first + accepted_left(), taken);
    hold("the decay work of two runs", work_first + work_left(), work);
}

static void all_splits(uint64_t kind, uint64_t climate)
{
    for (size_t i = 0; i < 4 * (SPLIT + 1); i++)
        one_split(new_series(edge(0, FULL - SPLIT), kind, climate), SPLIT, i % (SPLIT + 1));
    for (int i = 0; i < 4; i++) one_split(new_series(0, kind, climate), FULL, edge(0, FULL));
}

void all_reported(void)
{
    all_refusals();
    all_lengths();
    all_images();
    all_held();
    for (uint64_t kind = 1; kind <= 2; kind++)
        for (uint64_t climate = 1; climate <= 4; climate++) all_splits(kind, climate);
}
