/* A first program with the library: two years of the site that docs/METHOD.md works by hand, with the decay work of a run, a
 * month that was sorted, a correction factor from uncertainties, sludge whose dry matter was measured, a shuffled file that is
 * put right, the reduction of a semi-aerobic site, and months that are reported by year.
 * Build it with: gcc -Iinclude tests/c/example.c target/staticlib/liblandfill.a */
#include "landfill.h"

#include <inttypes.h>
#include <stdio.h>
#include <stdlib.h>

static void say(const char *what, uint8_t refusal)
{
    printf("%s: refused with %u: %s\n", what, refusal, landfill_refusal_text(refusal));
}

/* Ends the program where something is refused that should not be. */
static void expect(const char *what, uint8_t refusal)
{
    if (refusal == LANDFILL_ACCEPTED) return;
    say(what, refusal);
    exit(1);
}

/* A weight as the operator types it, in tonnes. A refused one ends the program: its mass is not known, and not 0. */
static uint32_t weighed(double tonnes)
{
    uint32_t kg;
    expect("weight", landfill_cell(1, landfill_kg(tonnes), &kg));
    return kg;
}

static void print_output(const uint8_t *out)
{
    struct landfill_output it = landfill_get_output(out);
    printf("%s %" PRIu32 ": %" PRIu64 " mg of carbon released, which is %" PRIu64 " g CO2e, give or take %" PRIu64 "\n",
           it.kind == LANDFILL_YEARLY ? "year" : "month", it.period, it.x0, it.figure, it.bound);
}

/* What a batch host plans its queue by: one for each record taken and each type that had carbon, old or new. */
static void print_work(uint64_t work)
{
    printf("decay work of this run: %" PRIu64 "\n", work);
}

/* What a ledger has to show at any time, with no output record at hand. */
static void print_ledger(const uint8_t *ledger, size_t ledger_len)
{
    uint64_t stock, brought, released;
    expect("ledger", landfill_totals(ledger, ledger_len, &stock, &brought, &released));
    printf("in the ground: %" PRIu64 " mg of %" PRIu64 " mg brought in; released so far: %" PRIu64 " mg\n", stock, brought,
           released);
    printf("  of this, paper released %" PRIu64 " mg, food %" PRIu64 " mg, inert %" PRIu64 " mg\n",
           landfill_get_released_so_far(ledger, LANDFILL_PAPER), landfill_get_released_so_far(ledger, LANDFILL_FOOD),
           landfill_get_released_so_far(ledger, LANDFILL_INERT));
}

/* Takes a record into a fresh ledger. */
static void take_first(const char *what, const struct landfill_record *fields)
{
    uint8_t ledger[LANDFILL_LEDGER_BYTES], record[LANDFILL_RECORD_BYTES];
    uint8_t out[LANDFILL_RECORD_BYTES], answer[LANDFILL_ANSWER_BYTES];
    landfill_put_record(record, fields);
    landfill_fresh(ledger, sizeof ledger);
    expect(what, landfill_take(ledger, sizeof ledger, record, sizeof record, out, sizeof out, answer, sizeof answer));
    print_output(out);
}

/* A month whose loads were weighed, but not by type: three of them were sorted, in hundredths of a percent. */
static void sorted_month(struct landfill_record month)
{
    static const uint32_t sorted[3][LANDFILL_TYPES + 1] = {
        {[LANDFILL_PAPER] = 1800, [LANDFILL_FOOD] = 6000, [LANDFILL_INERT] = 2200},
        {[LANDFILL_PAPER] = 2150, [LANDFILL_FOOD] = 5850, [LANDFILL_INERT] = 2000},
        {[LANDFILL_PAPER] = 1475, [LANDFILL_FOOD] = 6025, [LANDFILL_INERT] = 2500}};
    uint8_t samples[3 * LANDFILL_SAMPLE_BYTES];
    uint32_t masses[LANDFILL_TYPES];
    for (size_t n = 0; n < 3; n++) landfill_put_sample(samples + LANDFILL_SAMPLE_BYTES * n, sorted[n]);
    expect("samples", landfill_masses(LANDFILL_MONTHLY, weighed(52.2), samples, sizeof samples, masses));
    month.period = 1;
    month.kind = LANDFILL_MONTHLY;
    landfill_set_masses(&month, masses);
    printf("52200 kg by three samples: paper %" PRIu64 ", food %" PRIu64 ", inert %" PRIu64 "\n", month.mass[LANDFILL_PAPER],
           month.mass[LANDFILL_FOOD], month.mass[LANDFILL_INERT]);
    take_first("month 1", &month);
}

/* A managed site of food waste with a factor of its own: masses and DOC are 10 percent uncertain; DOCf, F and MCF have their
 * lower values, the exponential term the higher one, since k is not above 0.2. */
static void managed_year(struct landfill_record year)
{
    uint8_t factor;
    expect("uncertainties", landfill_factor_by_codes(10, 10, LANDFILL_LOWER, LANDFILL_LOWER, LANDFILL_LOWER, LANDFILL_HIGHER,
                                                     &factor));
    year.period = 1;
    year.site_class = LANDFILL_ANAEROBIC_MANAGED;
    year.factor = factor;
    printf("correction factor from uncertainties: %" PRIu32 " %%\n", year.factor);
    take_first("year 1", &year);
}

/* A year of domestic sludge with 22 percent of organic dry matter: its DOC is 11 percent, and not the default of 5. */
static void sludge_year(struct landfill_record year)
{
    year.period = 1;
    year.mass[LANDFILL_FOOD] = 0;
    year.mass[LANDFILL_DOMESTIC_SLUDGE] = weighed(80);
    year.domestic_dry = 22;
    printf("80000 kg of domestic sludge with a dry matter of %" PRIu32 " %%\n", year.domestic_dry);
    take_first("year 1", &year);
}

/* The site's first year in a file of an old edition, which wrote food first, then wood, then paper, then the others in turn:
 * put right, and then run. Its figure is the same as above. */
static void shuffled_file(struct landfill_record year)
{
    static const uint8_t order[LANDFILL_ORDER_BYTES] = {LANDFILL_FOOD, LANDFILL_WOOD, LANDFILL_PAPER, 4, 5, 6, 7, 8};
    uint8_t old[LANDFILL_RECORD_BYTES], file[sizeof old], report[1], ledger[LANDFILL_LEDGER_BYTES], out[sizeof file];
    uint64_t changed, accepted, work;
    year.period = 1;
    year.mass[1] = weighed(400.2); /* place 1 has food */
    year.mass[2] = 0;
    year.mass[3] = weighed(121.5); /* place 3 has paper */
    year.mass[6] = weighed(150);
    landfill_put_record(old, &year);
    expect("repair", landfill_repair(order, sizeof order, old, sizeof old, file, sizeof file, report, sizeof report, &changed));
    printf("an old file put right: %" PRIu64 " masses changed, that of inert waste %s\n", changed,
           landfill_get_changed(report[0], LANDFILL_INERT) ? "too" : "not");
    landfill_fresh(ledger, sizeof ledger);
    expect("year 1", landfill_run(ledger, sizeof ledger, file, sizeof file, out, sizeof out, &accepted, &work));
    print_output(out);
    print_work(work);
}

/* A semi-aerobic site in Tunisia that took 300 t of food a year for four years. Years 2 to 4 are reported, with the grams CO2e
 * of their electricity and fuel; the file has no year 5. */
static void reported_years(struct landfill_record year)
{
    enum { YEARS = 4 };
    static const uint64_t electricity[3] = {1200000, 1250000, 1310000}, fuel[3] = {800000, 790000, 0};
    uint8_t file[YEARS * LANDFILL_RECORD_BYTES], refused;
    uint64_t reference, project, bound, years;
    int64_t reduction;
    year.climate = LANDFILL_TEMPERATE_DRY;
    year.site_class = LANDFILL_SEMI_AEROBIC_MANAGED;
    year.captured = 0;
    for (year.period = 1; year.period <= YEARS; year.period++)
        landfill_put_record(file + LANDFILL_RECORD_BYTES * (year.period - 1), &year);
    expect("years 2 to 4", landfill_tunisia(file, sizeof file, 2, 4, electricity, 3, fuel, 3, &reference, &project, &reduction,
                                            &bound, &years, &refused));
    printf("years 2 to 4: reference %" PRIu64 " g CO2e, project %" PRIu64 " g CO2e\n", reference, project);
    printf("  with electricity and fuel a reduction of %" PRId64 " g CO2e, give or take %" PRIu64 "\n", reduction, bound);
    say("years 3 to 5", landfill_tunisia(file, sizeof file, 3, 5, electricity, 3, fuel, 3, &reference, &project, &reduction,
                                         &bound, &years, &refused));
    printf("  accepted years: %" PRIu64 "\n", years);
}

/* A site that is recorded by month and reported by year: 18 months of 300 t of food. Year 2 has half of its months so far. */
static void months_by_year(struct landfill_record month)
{
    enum { MONTHS = 18 };
    uint8_t ledger[LANDFILL_LEDGER_BYTES], yearly_totals[LANDFILL_YEARLY_TOTALS_BYTES] = {0};
    uint8_t file[MONTHS * LANDFILL_RECORD_BYTES], out[sizeof file];
    uint64_t accepted, work;
    month.kind = LANDFILL_MONTHLY;
    for (month.period = 1; month.period <= MONTHS; month.period++)
        landfill_put_record(file + LANDFILL_RECORD_BYTES * (month.period - 1), &month);
    landfill_fresh(ledger, sizeof ledger);
    expect("months 1 to 18", landfill_run_months(ledger, sizeof ledger, yearly_totals, sizeof yearly_totals, file, sizeof file,
                                                 out, sizeof out, &accepted, &work));
    for (unsigned number = 1; number <= 2; number++) {
        struct landfill_year it = landfill_get_year(yearly_totals, number);
        printf("year %" PRIu32 " by %" PRIu32 " months: %" PRIu64 " mg of carbon released, which is %" PRIu64
               " g CO2e, give or take %" PRIu64 "\n", it.number, it.months, it.x0, it.figure, it.bound);
    }
}

int main(void)
{
    uint8_t ledger[LANDFILL_LEDGER_BYTES], first[LANDFILL_RECORD_BYTES], later[2 * LANDFILL_RECORD_BYTES];
    uint8_t out[2 * LANDFILL_RECORD_BYTES], answer[LANDFILL_ANSWER_BYTES], refusal;
    uint64_t accepted, work;
    uint32_t kg;

    /* The first year: an unmanaged deep site in a temperate wet climate, a fifth of its gas captured. */
    struct landfill_record year = {0};
    year.period = 1;
    year.kind = LANDFILL_YEARLY;
    year.climate = LANDFILL_TEMPERATE_WET;
    year.factor = 85;
    year.OX = 10;
    year.F = 50;
    year.DOCf = 50;
    year.site_class = LANDFILL_UNMANAGED_DEEP;
    year.GWP = 28;
    year.captured = 2000;
    year.mass[LANDFILL_PAPER] = weighed(121.5);
    year.mass[LANDFILL_FOOD] = weighed(400.2);
    year.mass[LANDFILL_INERT] = weighed(150);
    landfill_put_record(first, &year);

    landfill_fresh(ledger, sizeof ledger);
    expect("year 1", landfill_take(ledger, sizeof ledger, first, sizeof first, out, sizeof out, answer, sizeof answer));
    print_output(out);
    printf("  of this, paper released %" PRIu64 " mg\n", landfill_get_release(answer, LANDFILL_PAPER));

    /* A file of two records more: the second year, and one that is out of turn. */
    year.period = 2;
    year.mass[LANDFILL_PAPER] = 0;
    year.mass[LANDFILL_FOOD] = weighed(300);
    year.mass[LANDFILL_INERT] = 0;
    landfill_put_record(later, &year);
    year.period = 4;
    landfill_put_record(later + LANDFILL_RECORD_BYTES, &year);

    refusal = landfill_run(ledger, sizeof ledger, later, sizeof later, out, sizeof out, &accepted, &work);
    for (uint64_t i = 0; i < accepted; i++) print_output(out + LANDFILL_RECORD_BYTES * i);
    if (refusal != LANDFILL_ACCEPTED) say("the record after these", refusal);
    print_work(work); /* the second year has old paper and food; the refused record adds nothing */

    /* The refused record has left the ledger as it was. */
    print_ledger(ledger, sizeof ledger);

    /* Why tonnes are rounded: 2.01 * 1000.0 is 2009.9999999999998. */
    refusal = landfill_cell(1, 2.01 * 1000.0, &kg);
    say("2.01 t as 2.01 * 1000.0", refusal);
    printf("2.01 t by landfill_kg: %" PRIu32 " kg\n", weighed(2.01));

    sorted_month(year);
    managed_year(year);
    sludge_year(year);
    shuffled_file(year);
    reported_years(year);
    months_by_year(year);
    return 0;
}
