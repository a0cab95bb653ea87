/* Cells and points under every floating-point mode: each rounding mode, with results flushed to zero and not, with
 * denormals taken for zero and not. What is expected is worked out from the bits by whole numbers, which no mode changes. */
#include "inputs.h"
#include "landfill.h"

#include <fenv.h>
#include <inttypes.h>
#include <pmmintrin.h>
#include <stdbool.h>
#include <stdio.h>
#include <stdlib.h>
#include <string.h>
#include <xmmintrin.h>

enum { MOST_CELLS = 20000, MOST_POINTS = 10000 };

struct mode {
    int rounding;
    bool flushed, zeroed;
};

static const uint64_t SIGN = (uint64_t)1 << 63, LEAD = (uint64_t)1 << 52, EXACT = (uint64_t)1 << 53;

static uint64_t cells[MOST_CELLS], points[MOST_POINTS][2];
static size_t cell_count, point_count;
static uint64_t calls, differences;
static struct mode mode;

static uint64_t bits_of(double number)
{
    uint64_t bits;
    memcpy(&bits, &number, sizeof bits);
    return bits;
}

/* ---- What is expected */

/* Takes the number as odd digits times a power of two, which is whole where the power is not below 0. */
static uint8_t expected_cell(uint64_t bits, uint32_t *mass)
{
    uint64_t exponent = bits >> 52 & 0x7FF, digits = bits % LEAD + (exponent > 0 ? LEAD : 0);
    int power = (int)(exponent > 0 ? exponent : 1) - 1075;
    *mass = 0;
    if (exponent == 0x7FF) return LANDFILL_CELL_NOT_WHOLE;
    if (digits == 0) return LANDFILL_ACCEPTED;
    for (; digits % 2 == 0; power++) digits /= 2;
    if (power < 0) return LANDFILL_CELL_NOT_WHOLE;
    if (bits >= SIGN || power > 30 || digits > (uint64_t)LANDFILL_MASS_LIMIT >> power) return LANDFILL_CELL_OUTSIDE;
    *mass = (uint32_t)(digits << power);
    return LANDFILL_ACCEPTED;
}

/* The bits of a whole number up to 2^53. */
static uint64_t expected_float(uint64_t number)
{
    uint64_t exponent = 1023 + 52;
    if (number == 0) return 0;
    if (number == EXACT) return (exponent + 1) * LEAD;
    for (; number < LEAD; exponent--) number *= 2;
    return exponent * LEAD + number % LEAD;
}

/* ---- One call */

/* Counts a call, and prints the first that differs, with the bits that were handed over and the mode. */
static void judge(bool right, const char *entry, uint64_t first, uint64_t second, uint8_t refusal)
{
    calls++;
    if (right) return;
    if (differences++ == 0)
        fprintf(stderr, "%s(0x%" PRIx64 ", 0x%" PRIx64 ") answers %u and differs: rounding 0x%x, flushed %d, zeroed %d\n", entry,
                first, second, refusal, (unsigned)mode.rounding, mode.flushed, mode.zeroed);
}

static void one_cell(uint64_t bits)
{
    uint32_t mass = UINT32_MAX, expected_mass;
    double kg;
    memcpy(&kg, &bits, sizeof kg);
    uint8_t refusal = landfill_cell(1, kg, &mass);
    judge(refusal == expected_cell(bits, &expected_mass) && mass == expected_mass, "landfill_cell", 1, bits, refusal);
}

static void one_point(uint64_t figure, uint64_t bound)
{
    double point[3] = {-1, -1, -1};
    uint64_t expected[3] = {0, 0, 0};
    uint8_t refusal = landfill_point(figure, bound, &point[0], &point[1], &point[2]);
    bool taken = figure <= EXACT && bound <= EXACT - figure;
    if (taken) {
        expected[0] = expected_float(figure);
        expected[1] = expected_float(bound > figure ? 0 : figure - bound);
        expected[2] = expected_float(figure + bound);
    }
    judge(refusal == (taken ? LANDFILL_ACCEPTED : LANDFILL_POINT_TOO_LARGE) && memcmp(point, expected, sizeof point) == 0,
          "landfill_point", figure, bound, refusal);
}

/* ---- What is offered */

static void offer_cell(uint64_t bits)
{
    cells[cell_count++] = bits;
    cells[cell_count++] = bits ^ SIGN;
}

static void offer_cells_around(uint64_t bits)
{
    for (uint64_t i = 0; i < 7; i++) offer_cell(bits + i - 3);
}

static void offer_point(uint64_t figure, uint64_t bound)
{
    points[point_count][0] = figure;
    points[point_count++][1] = bound;
}

static void gather(void)
{
    static const double EDGES[] = {0,      0x1p-1074, 0x1p-1050, 0x1p-1023, 0x1p-1022, 0.5,    1,      1.5,    999999999,
                                   1e9,    1e9 + 0.5, 1e9 + 1,   0x1p31,    0x1p32,    0x1p51, 0x1p52, 0x1p53, 0x1p63,
                                   0x1p64, 0x1p1023};
    const uint64_t WHOLES[] = {0, 1, 2, 3, EXACT / 2, EXACT - 1, EXACT, EXACT + 1, SIGN - 1, SIGN, UINT64_MAX};
    const size_t wholes = sizeof WHOLES / sizeof *WHOLES;
    const uint64_t INFINITE = 2047 * LEAD;
    for (size_t i = 0; i < sizeof EDGES / sizeof *EDGES; i++) offer_cells_around(bits_of(EDGES[i]));
    offer_cells_around(INFINITE);
    for (int i = 0; i < 52; i++) {
        offer_cell((uint64_t)1 << i);
        offer_cell(INFINITE | (uint64_t)1 << i);
        offer_cell(INFINITE | draw() % LEAD);
    }
    for (int i = 0; i < 2000; i++) {
        uint64_t whole = expected_float(edge(0, 1100000000));
        offer_cell(draw());
        offer_cell(whole);
        offer_cell(whole ^ (uint64_t)1 << below(63));
        offer_cell(draw() >> 12 >> below(52));
    }
    for (size_t i = 0; i < wholes; i++)
        for (size_t j = 0; j < wholes; j++) offer_point(WHOLES[i], WHOLES[j]);
    for (int i = 0; i < 1500; i++) {
        uint64_t part = edge(0, EXACT);
        offer_point(part, EXACT - part + below(3) - 1);
        offer_point(part, edge(0, part));
        offer_point(edge(0, part), part);
        offer_point(any_size(), any_size());
    }
}

/* ---- The modes */

/* Tells whether sums, products and comparisons go by the mode, as on some machines they may not. */
static bool is_set(void)
{
    volatile double one = 1, small = 0x1p-1022, half = 0.5, tiny = 0x1p-1074;
    volatile double more = one + small, less = one - small, below_minus_one = -one - small, product = small * half;
    bool up = mode.rounding == FE_UPWARD, down = mode.rounding == FE_DOWNWARD, inward = mode.rounding == FE_TOWARDZERO;
    return (more > one) == up && (below_minus_one < -one) == down && (less < one) == (down || inward)
           && (bits_of(product) == 0) == mode.flushed && (tiny == 0) == mode.zeroed;
}

static void set(struct mode next)
{
    mode = next;
    fesetround(mode.rounding);
    _MM_SET_FLUSH_ZERO_MODE(mode.flushed ? _MM_FLUSH_ZERO_ON : _MM_FLUSH_ZERO_OFF);
    _MM_SET_DENORMALS_ZERO_MODE(mode.zeroed ? _MM_DENORMALS_ZERO_ON : _MM_DENORMALS_ZERO_OFF);
}

int main(int count, char **words)
{
    static const int ROUNDINGS[] = {FE_TONEAREST, FE_DOWNWARD, FE_UPWARD, FE_TOWARDZERO};
    bool all_set = true;
    seed(count > 1 ? strtoull(words[1], NULL, 0) : 1);
    gather();
    for (unsigned i = 0; i < 16; i++) {
        set((struct mode){ROUNDINGS[i / 4], i / 2 % 2 == 1, i % 2 == 1});
        all_set = all_set && is_set();
        for (size_t j = 0; j < cell_count; j++) one_cell(cells[j]);
        for (size_t j = 0; j < point_count; j++) one_point(points[j][0], points[j][1]);
    }
    set((struct mode){FE_TONEAREST, false, false});
    if (!all_set) fprintf(stderr, "a floating-point mode cannot be set here\n");
    printf("modes: %" PRIu64 " calls, %" PRIu64 " differences\n", calls, differences);
    return differences > 0 || !all_set;
}
