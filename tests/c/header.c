/* Uses every constant and helper of landfill.h and holds each against what was written out by hand. Calls no entry of the
 * library: the one that a helper calls is here. header.cpp compiles the same as C++. */
#include "landfill.h"
#include "landfill.h"

#include <math.h>
#include <stdio.h>
#include <string.h>

static int wrong;

static void check(const char *name, int right)
{
    if (right) return;
    printf("header: %s is wrong\n", name);
    wrong = 1;
}

static void check_bytes(const char *name, const uint8_t *have, const uint8_t *want, size_t count)
{
    check(name, memcmp(have, want, count) == 0);
}

/* Lists of constants whose numbers follow one another, by their first number and the step. */
static void check_row(const char *name, const int *have, int count, int first, int step)
{
    int i;
    for (i = 0; i < count; i++) check(name, have[i] == first + step * i);
}

static void check_codes(void)
{
    static const int kinds[] = {LANDFILL_YEARLY, LANDFILL_MONTHLY};
    static const int climates[] = {LANDFILL_TEMPERATE_DRY, LANDFILL_TEMPERATE_WET, LANDFILL_TROPICAL_DRY,
                                   LANDFILL_TROPICAL_WET};
    static const int classes[] = {LANDFILL_ANAEROBIC_MANAGED, LANDFILL_SEMI_AEROBIC_MANAGED, LANDFILL_UNMANAGED_DEEP,
                                  LANDFILL_UNMANAGED_SHALLOW};
    static const int choices[] = {LANDFILL_LOWER, LANDFILL_HIGHER};
    static const int types[] = {LANDFILL_WOOD, LANDFILL_PAPER, LANDFILL_FOOD, LANDFILL_TEXTILES, LANDFILL_GARDEN,
                                LANDFILL_INERT, LANDFILL_DOMESTIC_SLUDGE, LANDFILL_PAPER_SLUDGE};
    check_row("a kind", kinds, 2, 1, 1);
    check_row("a climate", climates, 4, 1, 1);
    check_row("a site class", classes, 4, 1, 1);
    check_row("a choice of an uncertainty", choices, 2, 1, 1);
    check_row("a waste type", types, 8, 1, 1);
    check("the number of types", LANDFILL_TYPES == 8);
}

static void check_sizes(void)
{
    check("a size", LANDFILL_LEDGER_BYTES == 200 && LANDFILL_RECORD_BYTES == 48 && LANDFILL_ANSWER_BYTES == 88);
    check("the size of a line or a listing", LANDFILL_LINE_BYTES == 90 && LANDFILL_LISTING_BYTES == 1201 * 90);
    check("the size of a sample or of an order", LANDFILL_SAMPLE_BYTES == 16 && LANDFILL_ORDER_BYTES == 8);
    check("a limit", LANDFILL_RECORDS == 1200 && LANDFILL_MASS_LIMIT == 1000000000);
    check("the limit of grams", LANDFILL_GRAMS_LIMIT == (uint64_t)1000000 * 1000000000);
    check("the limit of grams as a number without a sign", sizeof LANDFILL_GRAMS_LIMIT == 8 && 0 - LANDFILL_GRAMS_LIMIT > 0);
    check("the size of a slot or of yearly totals", LANDFILL_YEAR_BYTES == 32 && LANDFILL_YEARLY_TOTALS_BYTES == 3200);
    check("the number of slots", LANDFILL_YEARS == 100);
    check("the limit of a sum", LANDFILL_SUM_LIMIT / 10 == (uint64_t)1000000000 * 1000000000 && LANDFILL_SUM_LIMIT % 10 == 0);
    check("the limit of a sum as a number without a sign", sizeof LANDFILL_SUM_LIMIT == 8 && 0 - LANDFILL_SUM_LIMIT > 0);
}

static void check_places(void)
{
    static const int record[] = {LANDFILL_RECORD_AT_KIND, LANDFILL_RECORD_AT_CLIMATE, LANDFILL_RECORD_AT_FACTOR,
                                 LANDFILL_RECORD_AT_OX, LANDFILL_RECORD_AT_F, LANDFILL_RECORD_AT_DOCF,
                                 LANDFILL_RECORD_AT_CLASS, LANDFILL_RECORD_AT_GWP, LANDFILL_RECORD_AT_CAPTURED};
    static const int out[] = {LANDFILL_OUT_AT_X0, LANDFILL_OUT_AT_FIGURE, LANDFILL_OUT_AT_BOUND, LANDFILL_OUT_AT_STOCK,
                              LANDFILL_OUT_AT_BROUGHT};
    static const int answer[] = {LANDFILL_ANSWER_AT_X0, LANDFILL_ANSWER_AT_FIGURE, LANDFILL_ANSWER_AT_BOUND};
    static const int ledger[] = {LANDFILL_LEDGER_AT_BROUGHT, LANDFILL_LEDGER_AT_STOCK, LANDFILL_LEDGER_AT_RELEASED};
    static const int slot[] = {LANDFILL_YEAR_AT_X0, LANDFILL_YEAR_AT_FIGURE, LANDFILL_YEAR_AT_BOUND};
    check("the place of a period", LANDFILL_RECORD_AT_PERIOD == 0 && LANDFILL_OUT_AT_PERIOD == 0);
    check_row("a place in a record", record, 9, 2, 1);
    check("the place of a dry matter", LANDFILL_RECORD_AT_DOMESTIC_DRY == 12 && LANDFILL_RECORD_AT_PAPER_DRY == 13);
    check("the place of the zeros or the masses", LANDFILL_RECORD_AT_ZERO == 14 && LANDFILL_RECORD_AT_MASSES == 16);
    check("the place of kind or climate in an output record", LANDFILL_OUT_AT_KIND == 2 && LANDFILL_OUT_AT_CLIMATE == 3);
    check("the place of the zeros in an output record", LANDFILL_OUT_AT_ZERO == 4);
    check_row("a place in an output record", out, 5, 8, 8);
    check("the place of the releases in an answer", LANDFILL_ANSWER_AT_RELEASES == 0);
    check_row("a place in an answer", answer, 3, 64, 8);
    check("the place of n, kind or climate in a ledger image",
          LANDFILL_LEDGER_AT_N == 0 && LANDFILL_LEDGER_AT_KIND == 2 && LANDFILL_LEDGER_AT_CLIMATE == 3);
    check("the place of the year's factors in a ledger image",
          LANDFILL_LEDGER_AT_FACTOR == 4 && LANDFILL_LEDGER_AT_CLASS == 5 && LANDFILL_LEDGER_AT_CAPTURED == 6);
    check_row("a place in a ledger image", ledger, 3, 8, 64);
    check("the place of a year's number or months", LANDFILL_YEAR_AT_NUMBER == 0 && LANDFILL_YEAR_AT_MONTHS == 4);
    check_row("a place of a sum in a slot", slot, 3, 8, 8);
}

/* Every field has bytes of its own: no two are alike. */
static struct landfill_record all_fields(void)
{
    struct landfill_record it;
    memset(&it, 0, sizeof it);
    it.period = 0x0102;
    it.kind = 3;
    it.climate = 4;
    it.factor = 5;
    it.OX = 6;
    it.F = 7;
    it.DOCf = 8;
    it.site_class = 9;
    it.GWP = 10;
    it.captured = 0x0b0c;
    it.mass[LANDFILL_WOOD] = 0x11121314;
    it.mass[LANDFILL_PAPER] = 0x21222324;
    it.mass[LANDFILL_FOOD] = 0x31323334;
    it.mass[LANDFILL_TEXTILES] = 0x41424344;
    it.mass[LANDFILL_GARDEN] = 0x51525354;
    it.mass[LANDFILL_INERT] = 0x61626364;
    it.mass[LANDFILL_DOMESTIC_SLUDGE] = 0x71727374;
    it.mass[LANDFILL_PAPER_SLUDGE] = 0x81828384;
    it.domestic_dry = 0x0d;
    it.paper_dry = 0x0e;
    return it;
}

static void check_record(void)
{
    static const uint8_t plain[48] = {
        0x02, 0x01, 3,    4,    5,    6,    7,    8,    9,    10,   0x0c, 0x0b, 0x0d, 0x0e, 0,    0,
        0x14, 0x13, 0x12, 0x11, 0x24, 0x23, 0x22, 0x21, 0x34, 0x33, 0x32, 0x31, 0x44, 0x43, 0x42, 0x41,
        0x54, 0x53, 0x52, 0x51, 0x64, 0x63, 0x62, 0x61, 0x74, 0x73, 0x72, 0x71, 0x84, 0x83, 0x82, 0x81};
    /* More than fits: all bytes of the field are 255. */
    static const uint8_t too_large[48] = {
        255, 255, 255, 255, 255, 255, 255, 255, 255, 255, 255, 255, 255, 255, 0,   0,
        255, 255, 255, 255, 255, 255, 255, 255, 255, 255, 255, 255, 255, 255, 255, 255,
        255, 255, 255, 255, 255, 255, 255, 255, 255, 255, 255, 255, 255, 255, 255, 255};
    uint8_t room[1 + LANDFILL_RECORD_BYTES + 1]; /* the record starts at an odd place */
    struct landfill_record it = all_fields();
    size_t type;
    memset(room, 0xa5, sizeof room);
    landfill_put_record(room + 1, &it);
    check_bytes("landfill_put_record", room + 1, plain, sizeof plain);
    check("a byte beside the record", room[0] == 0xa5 && room[sizeof room - 1] == 0xa5);

    it.mass[0] = 1;
    landfill_put_record(room + 1, &it);
    check("the kind of a record with a mass of no type", room[1 + 2] == 0);
    check_bytes("a record with a mass of no type", room + 1 + 3, plain + 3, sizeof plain - 3);

    it.mass[0] = 0;
    it.period = it.captured = 65536;
    it.kind = it.climate = it.factor = it.OX = it.F = it.DOCf = it.site_class = it.GWP = 256;
    it.domestic_dry = it.paper_dry = 300;
    for (type = 1; type <= LANDFILL_TYPES; type++) it.mass[type] = (uint64_t)1 << 32;
    landfill_put_record(room + 1, &it);
    check_bytes("a record with fields too large", room + 1, too_large, sizeof too_large);
}

/* What came later stands behind what was there, so that older lists of values still fit. */
static void check_last(void)
{
    size_t mass = offsetof(struct landfill_record, mass), domestic = offsetof(struct landfill_record, domestic_dry);
    check("a field behind the masses", mass < domestic && domestic < offsetof(struct landfill_record, paper_dry));
}

static void check_sample(void)
{
    static const uint32_t fraction[LANDFILL_TYPES + 1] = {0, 0x0102, 0x0304, 0x0506, 0x0708, 0x090a, 65535, 65536, 0xffffffff};
    static const uint8_t plain[16] = {2, 1, 4, 3, 6, 5, 8, 7, 10, 9, 255, 255, 255, 255, 255, 255};
    static const uint32_t of_no_type[LANDFILL_TYPES + 1] = {1, 1250, 1250, 1250, 1250, 1250, 1250, 1250, 1250};
    uint8_t room[1 + LANDFILL_SAMPLE_BYTES + 1], full[16]; /* the sample starts at an odd place */
    memset(room, 0xa5, sizeof room);
    memset(full, 255, sizeof full);
    landfill_put_sample(room + 1, fraction);
    check_bytes("landfill_put_sample", room + 1, plain, sizeof plain);
    landfill_put_sample(room + 1, of_no_type);
    check_bytes("a sample with a fraction of no type", room + 1, full, sizeof full);
    check("a byte beside the sample", room[0] == 0xa5 && room[sizeof room - 1] == 0xa5);
}

static void check_masses(void)
{
    static const uint32_t masses[LANDFILL_TYPES] = {11, 22, 33, 44, 55, 66, 77, 0xffffffff};
    struct landfill_record it = all_fields(), before = it;
    it.mass[0] = 1;
    landfill_set_masses(&it, masses);
    check("the mass of no type", it.mass[0] == 0);
    check("a mass by its name", it.mass[LANDFILL_WOOD] == 11 && it.mass[LANDFILL_PAPER] == 22 && it.mass[LANDFILL_FOOD] == 33 &&
                                    it.mass[LANDFILL_TEXTILES] == 44 && it.mass[LANDFILL_GARDEN] == 55 &&
                                    it.mass[LANDFILL_INERT] == 66 && it.mass[LANDFILL_DOMESTIC_SLUDGE] == 77 &&
                                    it.mass[LANDFILL_PAPER_SLUDGE] == 0xffffffff);
    memcpy(it.mass, before.mass, sizeof it.mass);
    check("a field beside the masses", memcmp(&it, &before, sizeof it) == 0);
}

static void check_numbers(void)
{
    static const uint8_t three[4] = {0x03, 0x02, 0x01, 0xa5}, eight[8] = {8, 7, 6, 5, 4, 3, 2, 1};
    static const uint8_t full[4] = {255, 255, 255, 0xa5};
    uint8_t bytes[8];
    memset(bytes, 0xa5, sizeof bytes);
    landfill_put(bytes, 3, 0x010203);
    check_bytes("landfill_put of 3 bytes", bytes, three, sizeof three);
    landfill_put(bytes, 3, 0x01000000);
    check_bytes("landfill_put of a number too large", bytes, full, sizeof full);
    landfill_put(bytes, 8, 0x0102030405060708u);
    check_bytes("landfill_put of 8 bytes", bytes, eight, sizeof eight);
    check("landfill_get", landfill_get(eight, 8) == 0x0102030405060708u && landfill_get(eight, 2) == 0x0708);
    check("landfill_get of no byte", landfill_get(eight, 0) == 0);
}

static void check_byte(void)
{
    static const uint64_t too_large[] = {256, 257, 511, 65536, (uint64_t)1 << 32, ((uint64_t)1 << 32) + 5, UINT64_MAX};
    static const int below_zero[] = {-1, -156, -256, -65536};
    unsigned number;
    size_t i;
    for (number = 0; number <= 255; number++) check("landfill_byte", landfill_byte(number) == number);
    for (i = 0; i < 7; i++) check("landfill_byte of a number too large", landfill_byte(too_large[i]) == 255);
    for (i = 0; i < 4; i++) check("landfill_byte of a number below 0", landfill_byte(below_zero[i]) == 255);
}

static void check_output(void)
{
    /* The second year that docs/METHOD.md works by hand. */
    static const uint8_t out[48] = {2,    0,    1,    2,    0,    0, 0, 0, 0xe4, 0x66, 0x23, 0x5a, 0x04, 0, 0, 0,
                                    0xad, 0x56, 0x17, 0x05, 0,    0, 0, 0, 14,   0,    0,    0,    0,    0, 0, 0,
                                    0x07, 0x4f, 0xe8, 0x65, 0x1c, 0, 0, 0, 0x80, 0xc3, 0x0f, 0xc5, 0x23, 0, 0, 0};
    struct landfill_output it = landfill_get_output(out);
    uint8_t answer[LANDFILL_ANSWER_BYTES];
    unsigned type;
    check("the head of an output record", it.period == 2 && it.kind == 1 && it.climate == 2);
    check("x0 of an output record", it.x0 == 18692138724u);
    check("figure and bound of an output record", it.figure == 85415597u && it.bound == 14);
    check("the totals of an output record", it.stock == 121968807687u && it.brought == 153630000000u);

    for (type = 0; type < sizeof answer; type++) answer[type] = (uint8_t)(type / 8);
    for (type = 1; type <= LANDFILL_TYPES; type++)
        check("landfill_get_release", landfill_get_release(answer, type) == 0x0101010101010101u * (type - 1));
    check("the release of no type", landfill_get_release(answer, 0) == 0 && landfill_get_release(answer, 9) == 0);
}

static void check_released(void)
{
    /* Every byte of the image holds its own place. */
    static const uint64_t released[LANDFILL_TYPES] = {0x8f8e8d8c8b8a8988u, 0x9796959493929190u, 0x9f9e9d9c9b9a9998u,
                                                      0xa7a6a5a4a3a2a1a0u, 0xafaeadacabaaa9a8u, 0xb7b6b5b4b3b2b1b0u,
                                                      0xbfbebdbcbbbab9b8u, 0xc7c6c5c4c3c2c1c0u};
    uint8_t ledger[LANDFILL_LEDGER_BYTES];
    unsigned i;
    for (i = 0; i < sizeof ledger; i++) ledger[i] = (uint8_t)i;
    for (i = 0; i < LANDFILL_TYPES; i++)
        check("landfill_get_released_so_far", landfill_get_released_so_far(ledger, i + 1) == released[i]);
    check("what no type has released",
          landfill_get_released_so_far(ledger, 0) == 0 && landfill_get_released_so_far(ledger, 9) == 0);
}

static int is_year(struct landfill_year it, uint32_t number, uint32_t months, uint64_t x0, uint64_t figure, uint64_t bound)
{
    return it.number == number && it.months == months && it.x0 == x0 && it.figure == figure && it.bound == bound;
}

/* Every byte of the totals holds its place, less 251 as often as it goes: no two slots are alike. They start at an odd place. */
static void check_totals_of_years(void)
{
    static const unsigned no_years[] = {0, 101, 102, 256, 257, 65537, (1u << 27) + 1, (unsigned)-1};
    static uint8_t room[1 + LANDFILL_YEARLY_TOTALS_BYTES + 64], zeros[LANDFILL_YEARLY_TOTALS_BYTES];
    const uint8_t *totals = room + 1;
    unsigned year, i;
    memset(room, 0xff, sizeof room);
    for (i = 0; i < LANDFILL_YEARLY_TOTALS_BYTES; i++) room[1 + i] = (uint8_t)(i % 251);
    check("year 1", is_year(landfill_get_year(totals, 1), 0x03020100, 0x07060504, 0x0f0e0d0c0b0a0908u, 0x1716151413121110u,
                            0x1f1e1d1c1b1a1918u));
    check("year 100", is_year(landfill_get_year(totals, 100), 0x9f9e9d9cu, 0xa3a2a1a0u, 0xabaaa9a8a7a6a5a4u,
                              0xb3b2b1b0afaeadacu, 0xbbbab9b8b7b6b5b4u));
    for (year = 1; year <= 100; year++) {
        const uint8_t *slot = totals + 32 * (year - 1);
        check("landfill_get_year", is_year(landfill_get_year(totals, year), (uint32_t)landfill_get(slot, 4),
                                           (uint32_t)landfill_get(slot + 4, 4), landfill_get(slot + 8, 8),
                                           landfill_get(slot + 16, 8), landfill_get(slot + 24, 8)));
        check("a year without months", is_year(landfill_get_year(zeros, year), 0, 0, 0, 0, 0));
    }
    for (i = 0; i < sizeof no_years / sizeof no_years[0]; i++)
        check("a number that is no year", is_year(landfill_get_year(totals, no_years[i]), 0, 0, 0, 0, 0));
}

/* Tells whether the helper repeats the year, or leaves the fields as they are. Every field, and every byte of the year's
 * factors, has a number of its own. */
static int year_is_right(unsigned kind, unsigned n, int repeats)
{
    struct landfill_record it = all_fields(), want = it;
    uint8_t ledger[LANDFILL_LEDGER_BYTES];
    memset(ledger, 0xa5, sizeof ledger);
    ledger[0] = (uint8_t)(n & 255);
    ledger[1] = (uint8_t)(n >> 8);
    ledger[2] = (uint8_t)kind;
    ledger[4] = 0xc1;
    ledger[5] = 0xc2;
    ledger[6] = 0xc3;
    ledger[7] = 0xc4;
    if (repeats) {
        want.factor = 0xc1;
        want.site_class = 0xc2;
        want.captured = 0xc4c3;
    }
    return landfill_repeat_year(&it, ledger) == repeats && memcmp(&it, &want, sizeof it) == 0;
}

/* Every n that two bytes hold, also past the limit, and every kind, also those that are none. */
static void check_year(void)
{
    unsigned n, month = 0;
    int monthly = 1, yearly = 1, any = 1;
    for (n = 0; n <= 65535; n++, month = month == 11 ? 0 : month + 1) {
        monthly = monthly && year_is_right(LANDFILL_MONTHLY, n, month != 0);
        yearly = yearly && year_is_right(LANDFILL_YEARLY, n, 0);
        any = any && year_is_right(n / 256, n, n / 256 == 2 && month != 0);
    }
    check("landfill_repeat_year by month", monthly);
    check("landfill_repeat_year by year", yearly);
    check("landfill_repeat_year by any kind", any);
}

static void check_inverse(const char *name, const uint8_t *order, const uint8_t *want)
{
    uint8_t room[1 + LANDFILL_ORDER_BYTES + 1];
    memset(room, 0xa5, sizeof room);
    landfill_invert(order, room + 1);
    check_bytes(name, room + 1, want, LANDFILL_ORDER_BYTES);
    check("a byte beside the inverse order", room[0] == 0xa5 && room[sizeof room - 1] == 0xa5);
}

/* Orders and their inverses, and every byte at each place of an order. */
static void check_invert(void)
{
    static const uint8_t orders[4][2][8] = {{{1, 2, 3, 4, 5, 6, 7, 8}, {1, 2, 3, 4, 5, 6, 7, 8}},
                                            {{3, 1, 2, 4, 5, 6, 7, 8}, {2, 3, 1, 4, 5, 6, 7, 8}},
                                            {{8, 7, 6, 5, 4, 3, 2, 1}, {8, 7, 6, 5, 4, 3, 2, 1}},
                                            {{6, 3, 8, 1, 7, 2, 4, 5}, {4, 6, 2, 7, 8, 1, 5, 3}}};
    static const uint8_t zeros[8] = {0, 0, 0, 0, 0, 0, 0, 0}, ones[8] = {1, 1, 1, 1, 1, 1, 1, 1};
    uint8_t order[8];
    size_t i, place, byte;
    for (i = 0; i < 4; i++) {
        check_inverse("landfill_invert", orders[i][0], orders[i][1]);
        check_inverse("landfill_invert of an inverse", orders[i][1], orders[i][0]);
    }
    for (place = 0; place < 8; place++)
        for (byte = 0; byte <= 255; byte++) {
            memcpy(order, orders[3][0], sizeof order);
            order[place] = (uint8_t)byte;
            check_inverse("landfill_invert of a changed order", order, byte == orders[3][0][place] ? orders[3][1] : zeros);
        }
    check_inverse("landfill_invert of zeros", zeros, zeros);
    check_inverse("landfill_invert of ones", ones, zeros);
}

static void check_changed(void)
{
    static const unsigned no_types[] = {0, 9, 32, 33, (unsigned)-1};
    unsigned type, i;
    for (type = 1; type <= LANDFILL_TYPES; type++) {
        uint8_t bit = (uint8_t)(1u << (type - 1));
        check("landfill_get_changed", landfill_get_changed(bit, type) == 1 && landfill_get_changed(255, type) == 1);
        check("landfill_get_changed of what has stayed",
              landfill_get_changed((uint8_t)(255 - bit), type) == 0 && landfill_get_changed(0, type) == 0);
    }
    check("landfill_get_changed by a type's name", landfill_get_changed(4, LANDFILL_FOOD) == 1);
    for (i = 0; i < 5; i++) check("landfill_get_changed of no type", landfill_get_changed(255, no_types[i]) == 0);
}

static void check_kg(void)
{
    static const struct {
        double tonnes, kg;
    } rows[] = {{0.0, 0}, {-0.0, 0}, {2.01, 2010}, {0.001, 1}, {0.0004, 0}, {0.0005, 1}, {121.5, 121500},
                {1000000.0, 1e9}, {1000000.001, 1000000001.0},
                {-1.0, -1000.0}, {-0.0004, -0.4}, {2000000.0, 2e9}, {HUGE_VAL, HUGE_VAL}, {-HUGE_VAL, -HUGE_VAL}};
    double no_number = landfill_kg(HUGE_VAL - HUGE_VAL);
    size_t i;
    for (i = 0; i < sizeof rows / sizeof rows[0]; i++) check("landfill_kg", landfill_kg(rows[i].tonnes) == rows[i].kg);
    check("landfill_kg of what is no number", no_number != no_number);
}

/* What a call of landfill_columns was given, and what it answers. */
static struct {
    const uint8_t *file;
    size_t file_len;
    uint64_t *columns[9], *stocks;
    size_t places[9];
    int calls;
    uint8_t answer;
} asked;

/* The entries with the most words: landfill_tunisia and those with yearly totals declared once more, and a landfill_columns that
 * writes down what it was given. A compiler stops where this and the header differ. */
#ifdef __cplusplus
extern "C" {
#endif
uint8_t landfill_tunisia(const uint8_t *, size_t, uint64_t, uint64_t, const uint64_t *, size_t, const uint64_t *, size_t,
                         uint64_t *, uint64_t *, int64_t *, uint64_t *, uint64_t *, uint8_t *);
uint8_t landfill_take_month(uint8_t *, size_t, uint8_t *, size_t, const uint8_t *, size_t, uint8_t *, size_t, uint8_t *,
                            size_t);
uint8_t landfill_run_months(uint8_t *, size_t, uint8_t *, size_t, const uint8_t *, size_t, uint8_t *, size_t, uint64_t *,
                            uint64_t *);

uint8_t landfill_columns(const uint8_t *file, size_t file_len, uint64_t *c1, size_t n1, uint64_t *c2, size_t n2, uint64_t *c3,
                         size_t n3, uint64_t *c4, size_t n4, uint64_t *c5, size_t n5, uint64_t *c6, size_t n6, uint64_t *c7,
                         size_t n7, uint64_t *c8, size_t n8, uint64_t *c9, size_t n9, uint64_t stocks[LANDFILL_TYPES])
{
    uint64_t *const columns[9] = {c1, c2, c3, c4, c5, c6, c7, c8, c9};
    const size_t places[9] = {n1, n2, n3, n4, n5, n6, n7, n8, n9};
    memcpy(asked.columns, columns, sizeof columns);
    memcpy(asked.places, places, sizeof places);
    asked.file = file;
    asked.file_len = file_len;
    asked.stocks = stocks;
    asked.calls++;
    return asked.answer;
}
#ifdef __cplusplus
}
#endif

/* The calls compile with the buffers that a caller has; they are not made. */
static void check_months(void)
{
    static const uint8_t file[LANDFILL_RECORD_BYTES] = {0};
    uint8_t ledger[LANDFILL_LEDGER_BYTES], totals[LANDFILL_YEARLY_TOTALS_BYTES], out[LANDFILL_RECORD_BYTES];
    uint8_t answer[LANDFILL_ANSWER_BYTES];
    uint64_t accepted, work;
    check("the answer of landfill_take_month",
          sizeof landfill_take_month(ledger, sizeof ledger, totals, sizeof totals, file, sizeof file, out, sizeof out, answer,
                                     sizeof answer) == 1);
    check("the answer of landfill_run_months",
          sizeof landfill_run_months(ledger, sizeof ledger, totals, sizeof totals, file, sizeof file, out, sizeof out,
                                     &accepted, &work) == 1);
}

/* The call compiles with the numbers that a caller has; it is not made. */
static void check_tunisia(void)
{
    static const uint8_t file[LANDFILL_RECORD_BYTES] = {0};
    static const uint64_t electricity[1] = {LANDFILL_GRAMS_LIMIT}, fuel[1] = {0};
    uint64_t reference, project, bound, years;
    int64_t reduction;
    uint8_t refused;
    check("the answer of landfill_tunisia",
          sizeof landfill_tunisia(file, sizeof file, 1, 1, electricity, 1, fuel, 1, &reference, &project, &reduction, &bound,
                                  &years, &refused) == 1);
}

/* The helper hands over what it was given, with the columns one after the other in the block, and answers what it is answered. */
static void check_block(const uint8_t *file, size_t file_len, uint64_t *block, size_t places, uint64_t *stocks, uint8_t answer)
{
    size_t i;
    asked.calls = 0;
    asked.answer = answer;
    check("the answer of landfill_columns_in", landfill_columns_in(file, file_len, block, places, stocks) == answer);
    check("the number of calls of landfill_columns", asked.calls == 1);
    check("the file of a block", asked.file == file && asked.file_len == file_len);
    check("the stocks of a block", asked.stocks == stocks);
    for (i = 0; i < 9; i++) {
        check("a column of a block", asked.columns[i] == block + i * places);
        check("the places of a column of a block", asked.places[i] == places);
    }
}

static void check_columns(void)
{
    static const uint8_t file[2 * LANDFILL_RECORD_BYTES + 1] = {0};
    static uint64_t block[1 + 9 * LANDFILL_RECORDS], stocks[2][LANDFILL_TYPES];
    static const size_t places[] = {0, 1, 2, 3, 255, 256, 257, LANDFILL_RECORDS};
    size_t i;
    for (i = 0; i < sizeof places / sizeof places[0]; i++) {
        check_block(file, sizeof file, block, places[i], stocks[0], 0);
        check_block(file + 1, 48 * i, block + 1, places[i], stocks[1], (uint8_t)(26 - i));
    }
}

/* Every refusal that there is: its number, its name and its text. The numbers may have gaps. */
static const struct {
    unsigned number;
    int name;
    const char *text;
} refusals[] = {
    {0, LANDFILL_ACCEPTED, "Accepted."},
    {1, LANDFILL_NOT_48_BYTES, "The record is not 48 bytes long."},
    {2, LANDFILL_NO_ROOM, "There is too little room for the output."},
    {3, LANDFILL_UNSOUND, "The ledger is damaged, or is no ledger."},
    {4, LANDFILL_FULL, "The ledger is full: it has 1200 records."},
    {5, LANDFILL_NOT_A_CODE, "The kind, the climate or the site class is not a code, or bytes 14 and 15 are not zero."},
    {6, LANDFILL_OUT_OF_TURN, "The period is not the next in turn."},
    {7, LANDFILL_OTHER_SERIES, "The kind or the climate is not that of the records before."},
    {8, LANDFILL_OUT_OF_RANGE,
     "The correction factor, OX, F, DOCf, GWP, the captured share or the dry matter of sludge is outside its range."},
    {9, LANDFILL_MASS_TOO_LARGE, "A mass is over 1,000,000,000 kg."},
    {10, LANDFILL_CELL_EMPTY, "The cell is empty."},
    {11, LANDFILL_CELL_NOT_WHOLE, "The cell is not a whole number of kilograms."},
    {12, LANDFILL_CELL_OUTSIDE, "The cell is below 0 or above 1,000,000,000 kg."},
    {13, LANDFILL_POINT_TOO_LARGE, "Figure and bound are too large to be drawn exactly."},
    {14, LANDFILL_TOTAL_TOO_LARGE, "The total is over 1,000,000,000 kg."},
    {15, LANDFILL_NOT_THE_SAMPLES,
     "The kind is not a code, or the samples are not 12 to 400 whole ones for a year or 3 for a month."},
    {16, LANDFILL_SAMPLE_NOT_WHOLE, "The fractions of a sample do not add up to 100 percent."},
    {17, LANDFILL_NOT_THE_YEARS,
     "The correction factor, the site class or the captured share is not that of the year's first month."},
    {18, LANDFILL_OVER_100, "An uncertainty is over 100 percent."},
    {19, LANDFILL_NOT_A_CHOICE, "A choice between the lower and the higher value is not 1 or 2."},
    {20, LANDFILL_NOT_AN_ORDER, "The order does not name each of the eight types once."},
    {21, LANDFILL_NOT_WHOLE_RECORDS, "The file is not whole records of 48 bytes."},
    {22, LANDFILL_NO_ROOM_FOR_REPAIR, "There is too little room for the repaired file or for its report."},
    {23, LANDFILL_NOT_YEARLY, "The record is monthly, where only yearly ones are taken."},
    {24, LANDFILL_NOT_A_STRETCH,
     "There are no years, they are not all accepted, or they do not have one entry each of electricity and of fuel."},
    {25, LANDFILL_GRAMS_TOO_LARGE, "An entry of electricity or fuel is over 1,000,000,000,000,000 grams."},
    {26, LANDFILL_COLUMN_TOO_SHORT, "A column has fewer places than the file has records."},
    {27, LANDFILL_NOT_MONTHLY, "The record is yearly, where only monthly ones are taken."},
    {28, LANDFILL_NOT_YEARLY_TOTALS, "The buffer of yearly totals is not 3200 bytes long."},
    {32, LANDFILL_YEAR_DIFFERS, "The totals of the record's year are damaged, or do not go with the ledger."},
};
static const size_t refusal_count = sizeof refusals / sizeof refusals[0];

static int is_refusal(unsigned number)
{
    size_t i;
    for (i = 0; i < refusal_count; i++)
        if (refusals[i].number == number) return 1;
    return 0;
}

static int is_text(unsigned number, const char *text)
{
    return strcmp(landfill_refusal_text(number), text) == 0;
}

static void check_number(const char *name, unsigned number, int right)
{
    if (right) return;
    printf("header: %s %u is wrong\n", name, number);
    wrong = 1;
}

/* Every refusal has its own number and its own text. Any other byte, and some larger numbers, have the text of no refusal. */
static void check_refusals(void)
{
    static const char none[] = "No refusal has this number.";
    static const unsigned larger[] = {256, 257, 65535, 65536, 65537, (unsigned)-256, (unsigned)-1};
    unsigned number;
    size_t i, j;
    for (i = 0; i < refusal_count; i++) {
        number = refusals[i].number;
        check_number("the name of refusal", number, refusals[i].name == (int)number);
        check_number("the text of refusal", number, is_text(number, refusals[i].text) && !is_text(number, none));
        for (j = 0; j < i; j++)
            check_number("the text, not its own, of refusal", number,
                         !is_text(number, landfill_refusal_text(refusals[j].number)));
    }
    for (number = 0; number <= 255; number++)
        if (!is_refusal(number)) check_number("the text of the free number", number, is_text(number, none));
    for (i = 0; i < sizeof larger / sizeof larger[0]; i++)
        check_number("the text of the free number", larger[i], is_text(larger[i], none));
}

int main(void)
{
    check_codes();
    check_sizes();
    check_places();
    check_record();
    check_last();
    check_sample();
    check_masses();
    check_numbers();
    check_byte();
    check_output();
    check_released();
    check_totals_of_years();
    check_year();
    check_invert();
    check_changed();
    check_kg();
    check_tunisia();
    check_months();
    check_columns();
    check_refusals();
    return wrong;
}
