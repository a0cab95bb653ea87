/* What columns hold, worked out by hand: first steps, the sample of document 01, a site of all types, and the most there is. */
#include "columns.h"

#include "landfill.h"
#include "sheets.h"
#include "sides.h"

enum { LARGE = 1000000000, BY_HAND = 3 };

/* P6 to P10 of document 01: 1 kg of a type, the release G and the stock R. */
static const struct {
    uint32_t kind, climate;
    int type;
    uint64_t G, R;
} FIRST_STEPS[] = {{1, 4, 3, 49452, 100548},
                   {1, 1, 1, 8515, 421485},
                   {1, 2, 2, 23295, 376705},
                   {2, 4, 3, 4918, 145082},
                   {1, 3, 6, 0, 0}};

static void all_first_steps(void)
{
    for (size_t i = 0; i < sizeof FIRST_STEPS / sizeof *FIRST_STEPS; i++) {
        struct landfill_record fields = {1, FIRST_STEPS[i].kind, FIRST_STEPS[i].climate, 75, 10, 50, 50, 1, 28, 0, {0}, 0, 0};
        int type = FIRST_STEPS[i].type;
        fields.mass[type] = 1;
        landfill_put_record(period_of(1), &fields);
        ask_alike(PERIOD_BYTES, 1);
        for (int t = 0; t < TYPES; t++) {
            hold("the release of a first step", release_left(t, 0), t == type - 1 ? FIRST_STEPS[i].G : 0);
            hold("the stock of a first step", stock_left(t), t == type - 1 ? FIRST_STEPS[i].R : 0);
        }
    }
}

/* The sample of document 01: its third record is out of turn, and with period 3 it is not. */
static void all_samples(void)
{
    static const uint64_t ROWS[BY_HAND][COLUMNS] = {{[2] = 49451994, [FIGURES] = 311547},
                                                    {[2] = 33148662, [FIGURES] = 208836},
                                                    {[2] = 22220213, [FIGURES] = 139987}};
    static const uint64_t STOCK[BY_HAND] = {100548006, 67399344, 45179131};
    struct landfill_record fields = {1, 1, 4, 75, 10, 50, 50, 1, 28, 0, {[3] = 1000}, 0, 0};
    for (; fields.period <= BY_HAND; fields.period++, fields.mass[3] = 0) landfill_put_record(period_of(fields.period), &fields);
    for (size_t count = 0; count <= BY_HAND; count++) {
        ask_alike(PERIOD_BYTES * count, count);
        hold_answer(0);
        for (size_t i = 0; i < count; i++) hold_row(i, ROWS[i]);
        hold("the stock of the sample", stock_left(2), count > 0 ? STOCK[count - 1] : 0);
    }
    period_of(3)[0] = 5;
    ask_alike(PERIOD_BYTES * 3, 2);
    hold_answer(6);
}

/* A site of all types whose factors differ, and the same by month, where three of them may not: worked out from document 01 by
 * exact fractions. */
static const struct landfill_record SITE[2 * BY_HAND] = {
    {1, 1, 3, 85, 10, 50, 50, 3, 28, 2000, {0, 121500000, 400200000, 150000001, 7, LARGE, 5, 3, 90}, 0, 0},
    {2, 1, 3, 90, 5, 55, 45, 4, 25, 1234, {0, 7000001, 0, 300000000, 0, 10, 0, 80000000, LARGE - 1}, 22, 34},
    {3, 1, 3, 100, 0, 61, 77, 1, 100, 0, {0, 0, 0, 0, LARGE, 0, LARGE, 0, 1}, 100, 0},
    {1, 2, 3, 85, 10, 50, 50, 3, 28, 2000, {0, 121500000, 400200000, 150000001, 7, LARGE, 5, 3, 90}, 0, 0},
    {2, 2, 3, 85, 5, 55, 45, 3, 25, 2000, {0, 7000001, 0, 300000000, 0, 10, 0, 80000000, LARGE - 1}, 22, 34},
    {3, 2, 3, 85, 0, 61, 77, 3, 100, 2000, {0, 0, 0, 0, LARGE, 0, LARGE, 0, 1}, 100, 0}};
static const uint64_t SITE_ROWS[2 * BY_HAND][COLUMNS] = {
    {1289933647560, 7043923241520, 1833473622224, 73925, 12586507400000, 0, 12224, 239392, 103975939207},
    {1332402247785, 6733972875251, 5351015264402, 70672, 11794406683214, 0, 717091912028, 2583060645534, 70519372161},
    {1299505119036, 6437661105862, 4914973252225, 10560604627562, 11052154748230, 0, 658657729954, 2506719667586, 2344133433978},
    {108730465425, 599175918240, 158811886059, 6289, 1080404600000, 0, 1059, 20225, 8897572791},
    {114768486931, 596933215960, 475314713171, 6265, 1074568240306, 0, 62113093852, 218227157156, 10837751061},
    {114529634773, 594698908066, 471959796479, 898314726242, 1068763397957, 0, 61674680629, 217682270793, 116775382212}};
static const uint64_t SITE_STOCKS[2][TYPES] = {
    {51333159415619, 139864442777367, 55400538011149, 229439396907841, 164566933168556, 0, 7424250495794, 82310227550088},
    {54916971842871, 158289191957734, 66393913754291, 239101686941204, 196776265761737, 0, 8676212374460, 86964098654426}};

static void ask_site(size_t first)
{
    for (size_t i = 0; i < BY_HAND; i++) landfill_put_record(period_of(i + 1), &SITE[first + i]);
    ask_roomy(PERIOD_BYTES * BY_HAND);
    for (size_t i = 0; i < BY_HAND; i++) hold_row(i, SITE_ROWS[first + i]);
    for (int t = 0; t < TYPES; t++) hold("an end stock", stock_left(t), SITE_STOCKS[first / BY_HAND][t]);
}

/* The most that 1200 records of each kind and climate give: the last figure and all end stocks. */
static const uint64_t MOST[2][4][2] = {{{290279999997835, 59822358399502939},
                                        {290280000000000, 38011561994712753},
                                        {290279999999994, 49637278960272421},
                                        {290280000000000, 31741562617352892}},
                                       {{278856643454266, 685595964840277982},
                                        {285506111289799, 453930998063318562},
                                        {282861402420743, 583501887056794995},
                                        {286764169882909, 382855483935823574}}};

static void ask_most(uint32_t kind, uint32_t climate)
{
    struct landfill_record fields = {1, kind, climate, 100, 0, 100, 100, 1, 100, 0, {0}, 100, 100};
    uint64_t stocks = 0;
    for (int type = 1; type <= LANDFILL_TYPES; type++) fields.mass[type] = LARGE;
    for (; fields.period <= FULL + 1; fields.period++) landfill_put_record(period_of(fields.period), &fields);
    ask_alike(PERIOD_BYTES * (FULL + 1), FULL + 1);
    hold_answer(4);
    ask_alike(PERIOD_BYTES * FULL, FULL);
    for (int t = 0; t < TYPES; t++) stocks += stock_left(t);
    hold("the last figure", release_left(FIGURES, FULL - 1), MOST[kind - 1][climate - 1][0]);
    hold("all end stocks", stocks, MOST[kind - 1][climate - 1][1]);
}

void all_worked(void)
{
    all_first_steps();
    all_samples();
    ask_site(0);
    ask_site(BY_HAND);
    for (uint32_t i = 0; i < 8; i++) ask_most(1 + i / 4, 1 + i % 4);
}
