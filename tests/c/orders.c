/* Shuffled files put right: every order and its inverse, masses that are alike, bytes that are no order, files of every length,
 * and too little room. */
#include "orders.h"

#include "inputs.h"
#include "landfill.h"
#include "reference.h"
#include "sides.h"

#include <stdbool.h>
#include <string.h>

enum { TYPES = 8, BYTES = 48, ORDERS = 40320, MOST = 10000 };

/* ---- The call, alike for both sides */

static void repair(const struct entries *it, struct side *s)
{
    s->answer = it->repair(at(s, ORDER), length_of(ORDER), at(s, RECORDS), length_of(RECORDS), at(s, OUT), length_of(OUT),
                           at(s, REPORT), length_of(REPORT), &s->numbers.whole[1]);
}

/* The next file to offer stands at the start. */
static uint8_t file[(MOST + 1) * BYTES];

static void offer(const uint8_t *order, size_t order_len, size_t file_len, size_t out_len, size_t report_len)
{
    memcpy(lend(ORDER, order_len), order, order_len);
    memcpy(lend(RECORDS, file_len), file, file_len);
    lend(OUT, out_len);
    lend(REPORT, report_len);
    both("landfill_repair", repair);
}

/* Offers eight bytes and so many records, with the room that they need or with more. */
static void offer_records(const uint8_t *order, size_t count)
{
    size_t more = chance(50) ? 0 : below(100);
    offer(order, TYPES, BYTES * count, BYTES * count + more, count + more / 10);
}

/* ---- Orders and files */

/* The order with this number, 0 to 40319; no other number has it. */
static void make_order(uint8_t *order, uint64_t number)
{
    uint8_t types[TYPES] = {1, 2, 3, 4, 5, 6, 7, 8};
    for (uint64_t count = TYPES; count > 0; number /= count, count--) {
        uint64_t pick = number % count;
        order[TYPES - count] = types[pick];
        types[pick] = types[count - 1];
    }
}

static void any_order(uint8_t *order)
{
    make_order(order, below(ORDERS));
}

static uint8_t *mass(uint8_t *record, uint64_t place)
{
    return record + 16 + 4 * place;
}

static void flip(uint8_t *number, uint64_t bit)
{
    number[bit / 8] ^= (uint8_t)(1u << bit % 8);
}

/* A record that a ledger would take, or any bytes; then some masses become those of other places, or so but for one bit. */
static void make_any(uint8_t *record)
{
    if (chance(20)) make_record(record, any_series(FULL));
    else random_bytes(record, BYTES);
    for (uint64_t i = below(12); i > 0; i--) {
        uint8_t *one = mass(record, below(TYPES));
        memmove(one, mass(record, below(TYPES)), 4);
        if (chance(40)) flip(one, below(32));
    }
}

static void make_any_file(size_t length)
{
    for (size_t done = 0; done < length; done += BYTES) make_any(file + done);
}

/* ---- Every order */

static void hold_bytes(const char *name, const uint8_t *bytes, const uint8_t *expected, size_t count)
{
    for (size_t i = 0; i < count; i++) hold(name, bytes[i], expected[i]);
}

/* Repairs what the last call has left by the inverse order: the old file, the same report and the same number. */
static void bring_back(const uint8_t *order, size_t count)
{
    static uint8_t old[MOST * BYTES], report[MOST];
    uint8_t inverse[TYPES];
    uint64_t changed = number_left(1);
    memcpy(report, left(REPORT), count);
    memcpy(old, file, BYTES * count);
    memcpy(file, left(OUT), BYTES * count);
    landfill_invert(order, inverse);
    offer_records(inverse, count);
    hold("the number of changes by the inverse order", number_left(1), changed);
    hold_bytes("a byte of the file by the inverse order", left(OUT), old, BYTES * count);
    hold_bytes("a byte of the report by the inverse order", left(REPORT), report, count);
}

static uint64_t mass_left(int place)
{
    return reference_read(left(OUT) + 16 + 4 * place, 4);
}

/* Each mass of the first record is the type that stood there, so that they come out as 1 to 8. */
static void one_order(const uint8_t *order, size_t count)
{
    make_any_file(BYTES * count);
    for (int p = 0; p < TYPES; p++) reference_write(mass(file, p), 4, order[p]);
    offer_records(order, count);
    for (int p = 0; p < TYPES; p++) {
        hold("the mass at a type's place", mass_left(p), p + 1u);
        hold("the bit of a type", left(REPORT)[0] >> p & 1, order[p] != p + 1);
    }
    bring_back(order, count);
}

static void every_order(void)
{
    uint8_t order[TYPES];
    for (uint64_t number = 0; number < ORDERS; number++) {
        make_order(order, number);
        one_order(order, 1 + below(4));
    }
}

static void all_by_hand(void)
{
    static const struct {
        uint8_t order[TYPES];
        uint64_t before[TYPES], after[TYPES], report, changed;
    } ROWS[] = {{{1, 2, 3, 4, 5, 6, 7, 8}, {10, 20, 30, 40, 50, 60, 70, 80}, {10, 20, 30, 40, 50, 60, 70, 80}, 0, 0},
                {{3, 1, 2, 4, 5, 6, 7, 8}, {10, 20, 30, 40, 50, 60, 70, 80}, {20, 30, 10, 40, 50, 60, 70, 80}, 7, 3},
                {{2, 3, 1, 4, 5, 6, 7, 8}, {10, 20, 30, 40, 50, 60, 70, 80}, {30, 10, 20, 40, 50, 60, 70, 80}, 7, 3},
                {{2, 3, 4, 5, 6, 7, 8, 1}, {10, 20, 30, 40, 50, 60, 70, 80}, {80, 10, 20, 30, 40, 50, 60, 70}, 255, 8},
                {{8, 7, 6, 5, 4, 3, 2, 1}, {0, 5, 0, 9, 9, 0, 0, 1}, {1, 0, 0, 9, 9, 0, 5, 0}, 195, 4},
                {{8, 7, 6, 5, 4, 3, 2, 1}, {4, 4, 4, 4, 4, 4, 4, 4}, {4, 4, 4, 4, 4, 4, 4, 4}, 0, 0}};
    for (size_t i = 0; i < sizeof ROWS / sizeof *ROWS; i++) {
        for (int p = 0; p < TYPES; p++) reference_write(mass(file, p), 4, ROWS[i].before[p]);
        offer_records(ROWS[i].order, 1);
        for (int p = 0; p < TYPES; p++) hold("a mass put right", mass_left(p), ROWS[i].after[p]);
        hold("the report of a record", left(REPORT)[0], ROWS[i].report);
        hold("the number of changes", number_left(1), ROWS[i].changed);
    }
}

/* Two places exchanged whose masses differ in each bit alone, or in none. */
static void all_bits(void)
{
    uint8_t order[TYPES];
    for (int one = 0; one < TYPES; one++)
        for (int other = 0; other < one; other++)
            for (uint64_t bit = 0; bit <= 32; bit++) {
                for (int p = 0; p < TYPES; p++) order[p] = (uint8_t)(p == one ? other + 1 : p == other ? one + 1 : p + 1);
                make_any_file(BYTES);
                memcpy(mass(file, one), mass(file, other), 4);
                if (bit < 32) flip(mass(file, one), bit);
                offer_records(order, 1);
                hold("the number of changes", number_left(1), bit < 32 ? 2 : 0);
            }
}

/* Files as long as a ledger takes, and one so long that the number of changes needs more than 16 bits. */
static void all_long(void)
{
    static const uint8_t CYCLE[TYPES] = {2, 3, 4, 5, 6, 7, 8, 1};
    uint8_t order[TYPES];
    for (int i = 0; i < 16; i++) {
        any_order(order);
        one_order(order, FULL);
    }
    one_order(CYCLE, MOST);
}

/* ---- Bytes that are no order */

/* Any order but for the bytes at one or two places. */
static void offer_changed(uint64_t one, uint64_t its, uint64_t other, uint64_t others)
{
    uint8_t order[TYPES];
    any_order(order);
    order[one] = (uint8_t)its;
    order[other] = (uint8_t)others;
    offer_records(order, below(3));
}

/* Every byte at each place; two places in all ways at the edges; every type with the same added to it. */
static void all_bytes(void)
{
    static const uint8_t EDGES[10] = {0, 1, 2, 7, 8, 9, 16, 128, 129, 255};
    for (uint64_t i = 0; i < 8 * TYPES * 256; i++) offer_changed(i % TYPES, i / TYPES % 256, i % TYPES, i / TYPES % 256);
    for (uint64_t one = 0; one < TYPES; one++)
        for (uint64_t other = 0; other < one; other++)
            for (int i = 0; i < 100; i++) offer_changed(one, EDGES[i % 10], other, EDGES[i / 10]);
    for (int i = 0; i < 4 * 256; i++) {
        uint8_t order[TYPES];
        any_order(order);
        for (int p = 0; p < TYPES; p++) order[p] = (uint8_t)(order[p] + i / 4);
        offer_records(order, 1 + below(3));
    }
}

/* The next of the rows of numbers up to 9 in which none is less than the one before it; false after the last. */
static bool next_row(uint8_t *row)
{
    int place = TYPES - 1;
    while (place >= 0 && row[place] == 9) place--;
    if (place < 0) return false;
    memset(row + place, row[place] + 1, (size_t)(TYPES - place));
    return true;
}

/* Every choice of eight numbers from 0 to 9, shuffled. Many add up to 36, as the types do; one has each type once. */
static void all_choices(void)
{
    uint8_t row[TYPES] = {0}, order[TYPES];
    do {
        any_order(order);
        for (int p = 0; p < TYPES; p++) order[p] = row[order[p] - 1];
        offer_records(order, below(3));
    } while (next_row(row));
}

/* Offers an order, or a part of it, over and over up to a length, and any bytes of it. */
static void one_length(size_t length)
{
    static uint8_t bytes[65544];
    for (int i = 0; i < 12; i++) {
        any_order(bytes);
        for (size_t p = TYPES; p < length; p++) bytes[p] = bytes[p - TYPES];
        if (i % 4 == 3) random_bytes(bytes, length);
        make_any_file(BYTES * 2);
        offer(bytes, length, BYTES * (size_t)(i % 3), BYTES * 2, 2);
    }
}

static void all_lengths_of_orders(void)
{
    static const size_t LONG[] = {16, 24, 255, 256, 264, 65535, 65536, 65544};
    for (size_t length = 0; length <= 12; length++) one_length(length);
    for (size_t i = 0; i < sizeof LONG / sizeof *LONG; i++) one_length(LONG[i]);
}

static void any_eight(void)
{
    uint8_t bytes[TYPES];
    for (int i = 0; i < 8000; i++) {
        random_bytes(bytes, TYPES);
        for (int p = 0; p < TYPES; p++) bytes[p] = (uint8_t)(i % 2 == 0 ? bytes[p] : 1 + bytes[p] % TYPES);
        offer_records(bytes, below(3));
    }
}

/* ---- Lengths of files, and rooms */

/* None of the need, half of it, one byte less than it, as much, or one more. */
static size_t room(size_t need, size_t way)
{
    const size_t rooms[5] = {0, need / 2, need - (need > 0), need, need + 1};
    return rooms[way];
}

static void offer_length(size_t length)
{
    uint8_t order[TYPES];
    make_any_file(length);
    for (size_t i = 0; i < 2 * 5; i++) {
        any_order(order);
        offer(order, TYPES, length, room(length, i % 5), length / BYTES + i / 5);
    }
}

static void all_lengths_of_files(void)
{
    static const size_t COUNTS[] = {5, 21, 32, 256, FULL, 1365, 1366, 2730, MOST};
    for (size_t length = 0; length <= 200; length++) offer_length(length);
    for (size_t i = 0; i < sizeof COUNTS / sizeof *COUNTS; i++)
        for (size_t beside = 0; beside <= 4; beside++) offer_length(BYTES * COUNTS[i] + beside - 2);
}

/* Every room in both buffers together, from so much less than the need, or none, to so much more. */
static void all_rooms(size_t count, size_t less, size_t more)
{
    const size_t length = BYTES * count;
    uint8_t order[TYPES];
    make_any_file(length);
    for (size_t out = length < less ? 0 : length - less; out <= length + more; out++)
        for (size_t report = count < less ? 0 : count - less; report <= count + more; report++) {
            any_order(order);
            offer(order, TYPES, length, out, report);
        }
}

/* Every room for the report of a longer file, with the output's room one short, as needed, and longer. */
static void all_reports(size_t count)
{
    uint8_t order[TYPES];
    make_any_file(BYTES * count);
    for (size_t i = 0; i < 3 * (count + 10); i++) {
        any_order(order);
        offer(order, TYPES, BYTES * count, BYTES * count + i % 3 - 1, i / 3);
    }
}

/* Faults of the order, of the file's length and of both rooms, in all ways together. */
static void all_faults(void)
{
    static const size_t LENGTHS[10] = {0, 1, 47, 48, 49, 95, 96, 97, 143, 144}, OF_ORDER[4] = {8, 8, 7, 9};
    for (size_t i = 0; i < 4 * 5 * 5 * 10; i++) {
        size_t length = LENGTHS[i / 100];
        uint8_t order[TYPES + 1];
        any_order(order);
        order[TYPES] = (uint8_t)below(10);
        if (i % 4 == 1) order[0] = order[1 + below(7)];
        make_any_file(length);
        offer(order, OF_ORDER[i % 4], length, room(length, i / 4 % 5), room(length / BYTES, i / 20 % 5));
    }
}

/* ---- Random ones */

/* Any order, mostly, and any file, mostly of whole records, with any rooms, mostly enough. */
static void any(void)
{
    uint8_t order[TYPES];
    size_t order_len = chance(95) ? TYPES : below(TYPES), place = below(TYPES);
    size_t length = chance(80) ? BYTES * below(20) : below(1000), count = length / BYTES;
    size_t out_len = chance(80) ? length + below(100) : below(length + 1);
    size_t report_len = chance(80) ? count + below(10) : below(count + 1);
    any_order(order);
    if (chance(20)) order[place] = (uint8_t)edge(0, 9);
    make_any_file(length);
    offer(order, order_len, length, out_len, report_len);
}

void all_orders(void)
{
    all_by_hand();
    every_order();
    all_bits();
    all_long();
    all_bytes();
    all_choices();
    all_lengths_of_orders();
    any_eight();
    all_lengths_of_files();
    all_rooms(0, 0, 60);
    all_rooms(1, 60, 10);
    all_rooms(3, 200, 10);
    all_rooms(70, 5, 5);
    all_reports(300);
    all_faults();
    for (int i = 0; i < 15000; i++) any();
}
