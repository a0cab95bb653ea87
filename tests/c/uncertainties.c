/* Correction factors from uncertainties, by percentages and by codes, worked out and refused. */
#include "uncertainties.h"

#include "inputs.h"
#include "sides.h"

#include <stdbool.h>

enum form { PERCENTAGES, CODES };
enum { COUNT = 6, MOST = 100, LARGEST = COUNT * MOST * MOST };

/* ---- The calls, alike for both sides */

static void by_percentages(const struct entries *it, struct side *s)
{
    const uint8_t *of = given.uncertainties;
    s->answer = it->factor(of[0], of[1], of[2], of[3], of[4], of[5], s->numbers.factors[1]);
}

static void by_codes(const struct entries *it, struct side *s)
{
    const uint8_t *of = given.uncertainties;
    s->answer = it->factor_by_codes(of[0], of[1], of[2], of[3], of[4], of[5], s->numbers.factors[1]);
}

static void offer(enum form form)
{
    if (form == CODES) both("landfill_factor_by_codes", by_codes);
    else both("landfill_factor", by_percentages);
}

/* ---- Sums of squares */

/* By k and S: whether the squares of k percentages can add up to S. */
static bool adds_up[COUNT + 1][LARGEST + 1];

static bool is_sum(int k, int S)
{
    for (int x = 0; x <= MOST && x * x <= S; x++)
        if (adds_up[k - 1][S - x * x]) return true;
    return false;
}

static void find_sums(void)
{
    adds_up[0][0] = true;
    for (int k = 1; k <= COUNT; k++)
        for (int S = 0; S <= LARGEST; S++) adds_up[k][S] = is_sum(k, S);
}

/* Offers any six percentages whose squares add up to S, which some have to do. */
static void offer_sum(int S)
{
    int first = (int)below(COUNT);
    for (int left = COUNT - 1; left >= 0; left--) {
        int x = (int)below(MOST + 1);
        while (x * x > S || !adds_up[left][S - x * x]) x = x == MOST ? 0 : x + 1;
        given.uncertainties[(first + left) % COUNT] = (uint8_t)x;
        S -= x * x;
    }
    offer(PERCENTAGES);
}

static void all_sums(void)
{
    for (int S = 0; S <= LARGEST; S++)
        for (int i = 0; adds_up[COUNT][S] && i < 3; i++) offer_sum(S);
}

/* The sums whose factor is 80, 50 or 40 percent exactly, and those beside them, in many ways. */
static void all_whole(void)
{
    static const int WHOLE[] = {625, 10000, 22500};
    for (int i = 0; i < 9 * 300; i++) offer_sum(WHOLE[i / 3 % 3] + i % 3 - 1);
}

/* ---- Every byte, and the edges */

static void make_valid(enum form form)
{
    for (int place = 0; place < COUNT; place++)
        given.uncertainties[place] = (uint8_t)(form == CODES && place >= 2 ? 1 + below(2) : edge(0, MOST));
}

static void all_bytes(enum form form)
{
    for (int place = 0; place < COUNT; place++)
        for (int i = 0; i < 4 * 256; i++) {
            make_valid(form);
            given.uncertainties[place] = (uint8_t)(i / 4);
            offer(form);
        }
}

/* Two places at the edges of percentages and of codes, in all ways. */
static void all_pairs(enum form form)
{
    static const uint8_t EDGES[8] = {0, 1, 2, 3, 99, 100, 101, 255};
    for (int one = 0; one < COUNT; one++)
        for (int other = 0; other < one; other++)
            for (int i = 0; i < 64; i++) {
                make_valid(form);
                given.uncertainties[one] = EDGES[i % 8];
                given.uncertainties[other] = EDGES[i / 8];
                offer(form);
            }
}

/* ---- Choices */

/* Takes the four codes, for c, d, e and g, by the places of a number to the base of how many codes there are. */
static void choose(uint64_t a, uint64_t b, const uint8_t *codes, int count, int number)
{
    given.uncertainties[0] = (uint8_t)a;
    given.uncertainties[1] = (uint8_t)b;
    for (int place = 2; place < COUNT; place++, number /= count) given.uncertainties[place] = codes[number % count];
    offer(CODES);
}

static void all_choices(void)
{
    static const uint8_t EITHER[2] = {1, 2};
    for (uint64_t a = 0; a <= 102; a++)
        for (uint64_t b = 0; b <= 102; b++)
            for (int i = 0; i < 16; i++) choose(a, b, EITHER, 2, i);
}

/* Percentages at the limit and over it together with codes of which some are none, in all ways. */
static void all_codes(void)
{
    static const uint8_t SOME[4] = {0, 100, 101, 255}, ANY[5] = {1, 2, 0, 3, 255};
    for (int i = 0; i < 16 * 625; i++) choose(SOME[i % 4], SOME[i / 4 % 4], ANY, 5, i / 16);
}

/* ---- Random ones */

static void damage(void)
{
    if (chance(10)) random_bytes(given.uncertainties, COUNT);
    do given.uncertainties[below(COUNT)] = (uint8_t)(chance(50) ? edge(MOST, 255) : edge(0, 3));
    while (chance(40));
}

static void any(enum form form)
{
    make_valid(form);
    if (chance(50)) damage();
    offer(form);
}

void all_uncertainties(void)
{
    for (enum form form = PERCENTAGES; form <= CODES; form++) {
        all_bytes(form);
        all_pairs(form);
        for (int i = 0; i < 25000; i++) any(form);
    }
    find_sums();
    all_whole();
    all_sums();
    all_codes();
    all_choices();
}
