/* The documents' rules on values, one function for each. Letters are the documents'. */
#include "reference.h"

#include <stdio.h>
#include <stdlib.h>

typedef unsigned __int128 wide;

enum { TYPES = 8, RECORDS = 1200, BYTES = 48, SAMPLE_BYTES = 16, WHOLE = 10000 };
static const uint64_t MASS_LIMIT = 1000000000;
static const uint64_t BILLION = 1000000000;

/* ---- Waste types and their constants */

/* Hundredths of a percent of wet weight, types 1 to 8: the default, and the most that a record can have. */
static const uint64_t DOC[TYPES] = {4300, 4000, 1500, 2400, 2000, 0, 500, 900};
static const uint64_t MOST_DOC[TYPES] = {4300, 4000, 1500, 2400, 2000, 0, 5000, 2571};

/* The places of the two types of sludge. */
enum { DOMESTIC = 6, INDUSTRIAL = 7 };

/* Yearly rates in thousandths, climates 1 to 4; a group for each type. */
static const uint16_t GROUP_A[4] = {40, 60, 45, 70};
static const uint16_t GROUP_B[4] = {20, 30, 25, 35};
static const uint16_t GROUP_C[4] = {50, 100, 65, 170};
static const uint16_t GROUP_D[4] = {60, 185, 85, 400};
static const uint16_t INERT[4] = {0, 0, 0, 0};
static const uint16_t INDUSTRY[4] = {30, 30, 30, 30};
static const uint16_t *const RATES[TYPES] = {GROUP_B, GROUP_A, GROUP_D, GROUP_A, GROUP_C, INERT, GROUP_D, INDUSTRY};

/* Methane correction factor in percent, site classes 1 to 4. */
static const uint64_t MCF[4] = {100, 50, 80, 40};

/* ---- The decay table */

/* A fraction that is not known exactly, but to lie from low to high, in parts of ONE. */
struct enclosed {
    wide low, high;
};

static const uint64_t GUARD = 1000000000000000000u; /* parts of a billionth */
static uint32_t table[2][400];                      /* by kind, then by rate */

/* Works out an entry: E(n) is the sum of (-x)^i / i! with x = rate / parts; D is 10^9 x E(15) rounded down, and
 * 10^9 x E(14) must be below D + 1. Every term is enclosed, and so is the sum; the program stops where the enclosure
 * leaves a doubt. */
static uint32_t worked_out(uint16_t rate, uint32_t parts)
{
    const wide ONE = (wide)BILLION * GUARD;
    struct enclosed term = {ONE, ONE}, added = {ONE, ONE}, taken = {0, 0};
    wide high14 = 0;
    for (uint32_t i = 1; i <= 15; i++) {
        term.low = term.low * rate / ((wide)parts * i);
        term.high = term.high * rate / ((wide)parts * i) + 1;
        struct enclosed *side = i % 2 == 0 ? &added : &taken;
        side->low += term.low;
        side->high += term.high;
        if (i == 14) high14 = added.high - taken.low;
    }
    wide D = (added.low - taken.high) / GUARD;
    if (D != (added.high - taken.low) / GUARD || high14 >= (D + 1) * GUARD) {
        fprintf(stderr, "reference: rate %d in %d parts is not decided\n", (int)rate, (int)parts);
        exit(2);
    }
    return (uint32_t)D;
}

void reference_start(void)
{
    for (uint16_t rate = 1; rate <= 400; rate++) {
        table[0][rate - 1] = worked_out(rate, 1000);
        table[1][rate - 1] = worked_out(rate, 12000);
    }
}

uint32_t reference_entry(uint8_t kind, uint16_t rate)
{
    if (kind < 1 || kind > 2 || rate < 1 || rate > 400) return 0;
    return table[kind - 1][rate - 1];
}

/* ---- Little-endian numbers */

uint64_t reference_read(const uint8_t *bytes, int count)
{
    uint64_t number = 0;
    for (int i = count - 1; i >= 0; i--) number = number << 8 | bytes[i];
    return number;
}

void reference_write(uint8_t *bytes, int count, uint64_t number)
{
    for (int i = 0; i < count; i++) bytes[i] = (uint8_t)(number >> 8 * i);
}

/* ---- One record */

/* m is the organic dry matter, percent, 0 where it was not measured; only sludge has one. */
struct record {
    uint64_t period, kind, climate, factor, OX, F, DOCf, class, GWP, f, m[TYPES], zero, mass[TYPES];
};

static struct record fields(const uint8_t *bytes)
{
    struct record it = {
        .period = reference_read(bytes, 2),
        .kind = bytes[2],
        .climate = bytes[3],
        .factor = bytes[4],
        .OX = bytes[5],
        .F = bytes[6],
        .DOCf = bytes[7],
        .class = bytes[8],
        .GWP = bytes[9],
        .f = reference_read(bytes + 10, 2),
        .m[DOMESTIC] = bytes[12],
        .m[INDUSTRIAL] = bytes[13],
        .zero = reference_read(bytes + 14, 2),
    };
    for (int t = 0; t < TYPES; t++) it.mass[t] = reference_read(bytes + 16 + 4 * t, 4);
    return it;
}

/* ---- Refusal numbers */

static bool between(uint64_t low, uint64_t number, uint64_t high)
{
    return low <= number && number <= high;
}

/* The most carbon in mg that n records can bring of the type at place t. */
uint64_t reference_ceiling(uint64_t n, int t)
{
    return n * BILLION * MOST_DOC[t] * 100;
}

/* A monthly ledger with records has a year's factors within their ranges; any other has none. */
static bool year_is_sound(const struct reference_ledger *ledger)
{
    if (ledger->n > 0 && ledger->kind == 2)
        return between(1, ledger->factor, 100) && between(1, ledger->class, 4) && ledger->f <= 10000;
    return ledger->factor == 0 && ledger->class == 0 && ledger->f == 0;
}

bool reference_is_sound(const struct reference_ledger *ledger)
{
    if (ledger == NULL || ledger->n > RECORDS) return false;
    if (ledger->n == 0 && (ledger->kind != 0 || ledger->climate != 0)) return false;
    if (ledger->n > 0 && !(between(1, ledger->kind, 2) && between(1, ledger->climate, 4))) return false;
    if (!year_is_sound(ledger)) return false;
    for (int t = 0; t < TYPES; t++) {
        if (ledger->T[t] > reference_ceiling(ledger->n, t)) return false;
        if (ledger->R[t] > ledger->T[t]) return false;
        if ((wide)ledger->released[t] + ledger->R[t] != ledger->T[t]) return false;
    }
    return true;
}

static bool codes_are_wrong(const struct record *it)
{
    return !between(1, it->kind, 2) || !between(1, it->climate, 4) || !between(1, it->class, 4) || it->zero != 0;
}

static bool ranges_are_wrong(const struct record *it)
{
    return !between(1, it->factor, 100) || it->OX > 100 || it->F > 100 || it->DOCf > 100 ||
           !between(1, it->GWP, 100) || it->f > 10000 || it->m[DOMESTIC] > 100 || it->m[INDUSTRIAL] > 100;
}

/* Tells whether the next record is number 12q + 1. */
static bool begins_a_year(const struct reference_ledger *ledger)
{
    return ledger->n % 12 == 0;
}

/* A month that does not begin a year repeats the factors of the one that did. */
static bool year_is_another(const struct reference_ledger *ledger, const struct record *it)
{
    if (it->kind != 2 || begins_a_year(ledger)) return false;
    return it->factor != ledger->factor || it->class != ledger->class || it->f != ledger->f;
}

static bool a_mass_is_over(const struct record *it)
{
    for (int t = 0; t < TYPES; t++)
        if (it->mass[t] > MASS_LIMIT) return true;
    return false;
}

uint8_t reference_refusal(const struct reference_ledger *ledger, const uint8_t *record, size_t record_len, size_t room)
{
    if (record_len != BYTES) return 1;
    if (room < BYTES) return 2;
    if (!reference_is_sound(ledger)) return 3;
    if (ledger->n == RECORDS) return 4;
    struct record it = fields(record);
    if (codes_are_wrong(&it)) return 5;
    if (it.period != ledger->n + 1u) return 6;
    if (ledger->n > 0 && (it.kind != ledger->kind || it.climate != ledger->climate)) return 7;
    if (ranges_are_wrong(&it)) return 8;
    if (year_is_another(ledger, &it)) return 17;
    if (a_mass_is_over(&it)) return 9;
    return 0;
}

/* ---- One step */

uint64_t reference_total(const uint64_t of_types[8])
{
    uint64_t total = 0;
    for (int t = 0; t < TYPES; t++) total += of_types[t];
    return total;
}

/* Hundredths of a percent of wet weight: the default, or for sludge what its dry matter gives. */
static uint64_t DOC_of(const struct record *it, int t)
{
    if (it->m[t] == 0) return DOC[t];
    return t == DOMESTIC ? 50 * it->m[t] : 900 * it->m[t] / 35;
}

/* Brings a type's deposit in, decays its stock, and gives the release G. */
static uint64_t decay(uint64_t *T, uint64_t *R, uint64_t deposit, uint32_t D)
{
    *T += deposit;
    uint64_t H = *R + deposit;
    *R = (uint64_t)((wide)H * D / BILLION);
    return H - *R;
}

static uint64_t figure_of(const struct record *it, uint64_t x0)
{
    wide x1 = (wide)x0 * it->factor * (10000 - it->f) / 1000000;
    wide x2 = x1 * (100 - it->OX) * it->F * it->DOCf * MCF[it->class - 1] / 100000000;
    return (uint64_t)(x2 * 4 * it->GWP / 3000);
}

static uint64_t bound_of(const struct record *it, const struct reference_ledger *after)
{
    wide B = 0;
    for (int t = 0; t < TYPES; t++)
        if (after->T[t] > 0) B += after->n + 1 + (wide)after->n * after->T[t] / BILLION;
    return (uint64_t)(3 + B * 4 * it->GWP / 3000);
}

static void put_output(uint8_t *out, const struct reference_ledger *after, const struct reference_answer *answer)
{
    reference_write(out, 2, after->n);
    reference_write(out + 2, 1, after->kind);
    reference_write(out + 3, 1, after->climate);
    reference_write(out + 4, 4, 0);
    reference_write(out + 8, 8, answer->x0);
    reference_write(out + 16, 8, answer->figure);
    reference_write(out + 24, 8, answer->bound);
    reference_write(out + 32, 8, reference_total(after->R));
    reference_write(out + 40, 8, reference_total(after->T));
}

/* A month that begins a year brings the year's factors. */
static void remember(struct reference_ledger *ledger, const struct record *it)
{
    if (it->kind != 2 || !begins_a_year(ledger)) return;
    ledger->factor = (uint8_t)it->factor;
    ledger->class = (uint8_t)it->class;
    ledger->f = (uint16_t)it->f;
}

void reference_accept(struct reference_ledger *ledger, const uint8_t *record, uint8_t *out, struct reference_answer *answer)
{
    struct record it = fields(record);
    remember(ledger, &it);
    ledger->n += 1;
    ledger->kind = (uint8_t)it.kind;
    ledger->climate = (uint8_t)it.climate;
    answer->work = 0;
    for (int t = 0; t < TYPES; t++) {
        uint64_t deposit = it.mass[t] * DOC_of(&it, t) * 100;
        uint32_t D = reference_entry(ledger->kind, RATES[t][ledger->climate - 1]);
        if (ledger->R[t] + deposit > 0) answer->work++;
        answer->releases[t] = decay(&ledger->T[t], &ledger->R[t], deposit, D);
        ledger->released[t] += answer->releases[t];
    }
    answer->x0 = reference_total(answer->releases);
    answer->figure = figure_of(&it, answer->x0);
    answer->bound = bound_of(&it, ledger);
    put_output(out, ledger, answer);
}

/* The figure of a release by a record's factors, with a site class in the place of the record's. */
uint64_t reference_figure(const uint8_t *record, uint8_t class, uint64_t x0)
{
    struct record it = fields(record);
    it.class = class;
    return figure_of(&it, x0);
}

/* The bound by a record's GWP, with n and T as a ledger has them. */
uint64_t reference_bound(const uint8_t *record, const struct reference_ledger *after)
{
    struct record it = fields(record);
    return bound_of(&it, after);
}

/* ---- Masses from sorted samples */

/* The fraction of the type at place t in a sample, hundredths of a percent. */
static uint64_t fraction(const uint8_t *sample, int t)
{
    return reference_read(sample + 2 * t, 2);
}

static bool number_is_wrong(uint8_t kind, size_t samples_len)
{
    uint64_t Z = samples_len / SAMPLE_BYTES;
    if (samples_len % SAMPLE_BYTES != 0) return true;
    if (kind == 1) return !between(12, Z, 400);
    if (kind == 2) return Z != 3;
    return true;
}

static bool a_sample_is_wrong(const uint8_t *samples, size_t samples_len)
{
    for (size_t at = 0; at < samples_len; at += SAMPLE_BYTES) {
        uint64_t sum = 0;
        for (int t = 0; t < TYPES; t++) sum += fraction(samples + at, t);
        if (sum != WHOLE) return true;
    }
    return false;
}

static uint8_t refusal_of_samples(uint8_t kind, uint64_t total, const uint8_t *samples, size_t samples_len)
{
    if (total > MASS_LIMIT) return 14;
    if (number_is_wrong(kind, samples_len)) return 15;
    if (a_sample_is_wrong(samples, samples_len)) return 16;
    return 0;
}

/* Where the types up to j have P of all fractions, they have so much of the total, rounded down; each has what it adds. */
uint8_t reference_masses(uint8_t kind, uint64_t total, const uint8_t *samples, size_t samples_len, uint32_t masses[8])
{
    uint64_t Z = samples_len / SAMPLE_BYTES, P = 0, shared = 0;
    for (int t = 0; t < TYPES; t++) masses[t] = 0;
    uint8_t refusal = refusal_of_samples(kind, total, samples, samples_len);
    if (refusal != 0) return refusal;
    for (int t = 0; t < TYPES; t++) {
        for (uint64_t n = 0; n < Z; n++) P += fraction(samples + SAMPLE_BYTES * n, t);
        uint64_t share = (uint64_t)((wide)total * P / (WHOLE * Z));
        masses[t] = (uint32_t)(share - shared);
        shared = share;
    }
    return 0;
}

/* ---- The correction factor from uncertainties */

/* The lower and the higher value of c, d, e and g, percent. */
static const uint8_t VALUES[4][2] = {{5, 15}, {0, 5}, {0, 50}, {5, 20}};

/* Equation (4) in percent, rounded down. */
static uint64_t factor_of(uint64_t S)
{
    uint64_t p = 100;
    while (p * p * S > (10000 - 100 * p) * (10000 - 100 * p)) p--;
    return p;
}

uint8_t reference_factor(uint8_t a, uint8_t b, uint8_t c, uint8_t d, uint8_t e, uint8_t g, uint8_t *factor)
{
    const uint64_t percentages[6] = {a, b, c, d, e, g};
    uint64_t S = 0;
    *factor = 0;
    for (int i = 0; i < 6; i++) {
        if (percentages[i] > 100) return 18;
        S += percentages[i] * percentages[i];
    }
    *factor = (uint8_t)factor_of(S);
    return 0;
}

uint8_t reference_factor_by_codes(uint8_t a, uint8_t b, uint8_t c, uint8_t d, uint8_t e, uint8_t g, uint8_t *factor)
{
    const uint8_t codes[4] = {c, d, e, g};
    uint8_t chosen[4];
    *factor = 0;
    if (a > 100 || b > 100) return 18;
    for (int i = 0; i < 4; i++) {
        if (!between(1, codes[i], 2)) return 19;
        chosen[i] = VALUES[i][codes[i] - 1];
    }
    return reference_factor(a, b, chosen[0], chosen[1], chosen[2], chosen[3], factor);
}

/* ---- Shuffled files put right */

static bool is_order(const uint8_t *order, size_t order_len)
{
    if (order_len != TYPES) return false;
    for (int type = 1; type <= TYPES; type++) {
        int named = 0;
        for (int p = 0; p < TYPES; p++) named += order[p] == type;
        if (named != 1) return false;
    }
    return true;
}

static uint8_t refusal_of_repair(const uint8_t *order, size_t order_len, size_t file_len, size_t out_len, size_t report_len)
{
    if (!is_order(order, order_len)) return 20;
    if (file_len % BYTES != 0) return 21;
    if (out_len < file_len || report_len < file_len / BYTES) return 22;
    return 0;
}

/* Writes a record with every mass at its type's place. */
static void put_right(const uint8_t *order, const uint8_t *record, uint8_t *out)
{
    struct record it = fields(record);
    for (int i = 0; i < 16; i++) out[i] = record[i];
    for (int p = 0; p < TYPES; p++) reference_write(out + 16 + 4 * (order[p] - 1), 4, it.mass[p]);
}

/* The bits of the types whose place has another mass than before; the lowest is type 1's. */
static uint8_t changes(const uint8_t *before, const uint8_t *after)
{
    struct record old = fields(before), new = fields(after);
    uint8_t bits = 0;
    for (int t = 0; t < TYPES; t++)
        if (new.mass[t] != old.mass[t]) bits |= (uint8_t)(1 << t);
    return bits;
}

uint8_t reference_repair(const uint8_t *order, size_t order_len, const uint8_t *file, size_t file_len, uint8_t *out,
                         size_t out_len, uint8_t *report, size_t report_len, uint64_t *changed)
{
    *changed = 0;
    uint8_t refusal = refusal_of_repair(order, order_len, file_len, out_len, report_len);
    if (refusal != 0) return refusal;
    for (size_t i = 0; i < file_len / BYTES; i++) {
        put_right(order, file + BYTES * i, out + BYTES * i);
        report[i] = changes(file + BYTES * i, out + BYTES * i);
        for (int t = 0; t < TYPES; t++) *changed += report[i] >> t & 1;
    }
    return 0;
}
