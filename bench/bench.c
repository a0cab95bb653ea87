/* Runs one peer, or another entry of the library, over the first records of a monthly file of 1200, or of the same by year or
 * with a dry matter of sludge; or puts these records right as if they were shuffled; or works the reduction of the first years
 * out, or the columns of the first records; or shares a total by the first of 400 samples; or works a correction factor out; or
 * looks an entry of the decay table up; or compares what all peers write, and fails where one refuses a record, a stretch,
 * columns or a total, library and reference differ, figures by columns are not those of a run, yearly totals differ by runs and
 * by steps, two put a file right, share a total or look an entry up unlike, or a factor is not as expected.
 * Usage: bench PEER COUNT, bench ENTRY COUNT, bench REPAIRER COUNT, bench REDUCER COUNT, bench FILLER COUNT, bench SHARER COUNT,
 * bench WORKER FACTOR or bench FINDER RATE, with the number in four digits; bench compare */
#include "columns.h"
#include "doubles.h"
#include "factors.h"
#include "inputs.h"
#include "landfill.h"
#include "look_ups.h"
#include "reductions.h"
#include "reference.h"
#include "repaired.h"
#include "sorted.h"
#include "yearly.h"

#include <inttypes.h>
#include <stdio.h>
#include <stdlib.h>
#include <string.h>

enum { RECORDS = 1200, BYTES = 48, PEERS = 5, ENTRIES = 8, EQUATION = 4, MOST_BY_EQUATION = 120 };
enum { SAMPLES = 400, TOTAL = 987654321, SHARERS = 3 };
enum { WORKED = 2, WORKERS = 3, FINDERS = 4, REPAIRERS = 3, REDUCERS = 3, FILLERS = 3, COLUMNS = 9, ADDERS = 4 };

static uint8_t file[RECORDS * BYTES], out[PEERS][RECORDS * BYTES], text[90 * (RECORDS + 1)];
static uint8_t samples[SAMPLES * LANDFILL_SAMPLE_BYTES], report[REPAIRERS][RECORDS];
static uint64_t electricity[RECORDS], fuel[RECORDS];

/* Nine columns and the end stocks, of each filler. */
static struct filled {
    uint64_t columns[COLUMNS][RECORDS], stocks[LANDFILL_TYPES];
} filled[FILLERS];

/* Takes correction factor, site class and captured f from the month before. */
static void repeat_year(uint8_t *record)
{
    const uint8_t *before = record - BYTES;
    record[4] = before[4];
    record[8] = before[8];
    memcpy(record + 10, before + 10, 2);
}

/* Monthly records of eight types in climate 4, every one accepted: the months of a year share what they have to. */
static void make_months(void)
{
    seed(1);
    for (unsigned i = 0; i < RECORDS; i++) {
        uint8_t *record = file + BYTES * i;
        reference_write(record, 2, i + 1);
        record[2] = 2;
        record[3] = 4;
        record[4] = (uint8_t)(1 + below(100));
        for (int at = 5; at <= 7; at++) record[at] = (uint8_t)below(101);
        record[8] = (uint8_t)(1 + below(4));
        record[9] = (uint8_t)(1 + below(100));
        reference_write(record + 10, 2, below(10001));
        if (i % 12 > 0) repeat_year(record);
        for (int t = 0; t < 8; t++) reference_write(record + 16 + 4 * t, 4, 1 + below(LANDFILL_MASS_LIMIT));
    }
}

/* Makes the records yearly or monthly, and gives both sludges a dry matter of 1 to 100 percent, or none. */
static void change_records(uint8_t kind, int measured)
{
    for (unsigned i = 0; i < RECORDS; i++) {
        uint8_t *record = file + BYTES * i;
        record[2] = kind;
        record[12] = (uint8_t)(measured ? 1 + i % 100 : 0);
        record[13] = (uint8_t)(measured ? 100 - i % 100 : 0);
    }
}

static uint8_t by_library(const uint8_t *records, size_t records_len, uint8_t *into, size_t into_len, uint64_t *accepted)
{
    uint8_t ledger[LANDFILL_LEDGER_BYTES];
    uint64_t work;
    landfill_fresh(ledger, sizeof ledger);
    return landfill_run(ledger, sizeof ledger, records, records_len, into, into_len, accepted, &work);
}

static uint8_t by_reference(const uint8_t *records, size_t records_len, uint8_t *into, size_t into_len, uint64_t *accepted)
{
    uint8_t ledger[LANDFILL_LEDGER_BYTES];
    uint64_t work;
    reference_fresh(ledger, sizeof ledger);
    return reference_run(ledger, sizeof ledger, records, records_len, into, into_len, accepted, &work);
}

/* The records one by one, from an image to an image, with yearly totals or without. */
static inline uint8_t one_by_one(uint8_t *of_years, const uint8_t *records, size_t records_len, uint8_t *into, size_t into_len,
                                 uint64_t *accepted)
{
    uint8_t ledger[LANDFILL_LEDGER_BYTES], answer[LANDFILL_ANSWER_BYTES], refusal = 0;
    landfill_fresh(ledger, sizeof ledger);
    for (*accepted = 0; refusal == 0 && *accepted < records_len / BYTES; *accepted += refusal == 0) {
        size_t done = BYTES * *accepted;
        if (of_years == NULL)
            refusal = landfill_take(ledger, sizeof ledger, records + done, BYTES, into + done, into_len - done, answer,
                                    sizeof answer);
        else
            refusal = landfill_take_month(ledger, sizeof ledger, of_years, LANDFILL_YEARLY_TOTALS_BYTES, records + done, BYTES,
                                          into + done, into_len - done, answer, sizeof answer);
    }
    return refusal;
}

static uint8_t by_take(const uint8_t *records, size_t records_len, uint8_t *into, size_t into_len, uint64_t *accepted)
{
    return one_by_one(NULL, records, records_len, into, into_len, accepted);
}

/* Yearly totals of each adder; a run fills them from zeros. */
static uint8_t totals[ADDERS][LANDFILL_YEARLY_TOTALS_BYTES];

typedef uint8_t months_run(uint8_t *ledger, size_t ledger_len, uint8_t *yearly_totals, size_t yearly_totals_len,
                           const uint8_t *records, size_t records_len, uint8_t *out, size_t out_len, uint64_t *accepted,
                           uint64_t *work);

static inline uint8_t add_up(months_run *run, uint8_t *of_years, const uint8_t *records, size_t records_len, uint8_t *into,
                             size_t into_len, uint64_t *accepted)
{
    uint8_t ledger[LANDFILL_LEDGER_BYTES];
    uint64_t work;
    landfill_fresh(ledger, sizeof ledger);
    memset(of_years, 0, LANDFILL_YEARLY_TOTALS_BYTES);
    return run(ledger, sizeof ledger, of_years, LANDFILL_YEARLY_TOTALS_BYTES, records, records_len, into, into_len, accepted,
               &work);
}

static uint8_t by_months(const uint8_t *records, size_t records_len, uint8_t *into, size_t into_len, uint64_t *accepted)
{
    return add_up(landfill_run_months, totals[0], records, records_len, into, into_len, accepted);
}

static uint8_t by_take_month(const uint8_t *records, size_t records_len, uint8_t *into, size_t into_len, uint64_t *accepted)
{
    memset(totals[1], 0, sizeof totals[1]);
    return one_by_one(totals[1], records, records_len, into, into_len, accepted);
}

static uint8_t by_reference_months(const uint8_t *records, size_t records_len, uint8_t *into, size_t into_len,
                                   uint64_t *accepted)
{
    return add_up(reference_run_months, totals[2], records, records_len, into, into_len, accepted);
}

static uint8_t by_yearly_exp(const uint8_t *records, size_t records_len, uint8_t *into, size_t into_len, uint64_t *accepted)
{
    memset(totals[3], 0, sizeof totals[3]);
    return yearly_by_exp(records, records_len, into, into_len, accepted, totals[3]);
}

/* Every line of a listing ends with a byte 10. */
static uint8_t by_listing(const uint8_t *records, size_t records_len, uint8_t *into, size_t into_len, uint64_t *accepted)
{
    uint64_t written;
    (void)into;
    (void)into_len;
    uint8_t refusal = landfill_listing(records, records_len, text, sizeof text, &written);
    *accepted = records_len / BYTES;
    return refusal != 0 || written > sizeof text;
}

static const struct {
    const char *name;
    doubles_run *run;
    uint8_t kind;
    int measured;
} entries[ENTRIES] = {{"take", by_take, LANDFILL_MONTHLY, 0},
                      {"listing", by_listing, LANDFILL_MONTHLY, 0},
                      {"run-by-year", by_library, LANDFILL_YEARLY, 0},
                      {"take-by-year", by_take, LANDFILL_YEARLY, 0},
                      {"run-with-sludge", by_library, LANDFILL_MONTHLY, 1},
                      {"run-months", by_months, LANDFILL_MONTHLY, 0},
                      {"take-month", by_take_month, LANDFILL_MONTHLY, 0},
                      {"yearly-by-exp", by_yearly_exp, LANDFILL_MONTHLY, 0}};

/* Each fills the totals of its place. */
static doubles_run *const adders[ADDERS] = {by_months, by_take_month, by_reference_months, by_yearly_exp};

static const struct {
    const char *name;
    doubles_run *run;
} peers[PEERS] = {{"library", by_library},
                  {"reference", by_reference},
                  {"exp-each", doubles_exp_each},
                  {"exp-once", doubles_exp_once},
                  {"equation", doubles_equation}};

/* The repairers take every mass to another place. */
static const uint8_t order[LANDFILL_ORDER_BYTES] = {6, 3, 8, 1, 7, 2, 4, 5};

static const struct {
    const char *name;
    repaired_work *repair;
} repairers[REPAIRERS] = {{"repair", landfill_repair}, {"repaired", repaired_file}, {"reference-repair", reference_repair}};

static const struct {
    const char *name;
    reductions_work *reduce;
} reducers[REDUCERS] = {
    {"tunisia", landfill_tunisia}, {"reductions", reductions_by_exp}, {"reference-tunisia", reference_tunisia}};

static const struct {
    const char *name;
    columns_work *fill;
} fillers[FILLERS] = {
    {"columns", landfill_columns}, {"columns-by-exp", columns_by_exp}, {"reference-columns", reference_columns}};

typedef uint8_t sharing(uint8_t kind, uint64_t total, const uint8_t *samples, size_t samples_len, uint32_t *masses);

static const struct {
    const char *name;
    sharing *share;
} sharers[SHARERS] = {{"masses", landfill_masses}, {"sorted", sorted_masses}, {"reference-masses", reference_masses}};

static const struct {
    const char *name;
    factors_work *work;
} workers[WORKERS] = {{"factor", landfill_factor}, {"root", factors_by_root}, {"count", factors_by_count}};

/* Uncertainties and their factor: 100 / (1 + v) is 86.3 and 28.99, so that doubles have to give it too. */
static const struct {
    uint8_t of[6], factor;
} worked[WORKED] = {{{10, 10, 5, 0, 0, 5}, 86}, {{100, 100, 100, 100, 100, 100}, 28}};

static const struct {
    const char *name;
    look_ups_find *find;
    uint8_t kind;
} finders[FINDERS] = {{"entry-by-year", landfill_entry, LANDFILL_YEARLY},
                      {"entry-by-month", landfill_entry, LANDFILL_MONTHLY},
                      {"exp-by-year", look_ups_by_exp, LANDFILL_YEARLY},
                      {"exp-by-month", look_ups_by_exp, LANDFILL_MONTHLY}};

/* Tells whether a peer, or an entry, accepts all of the first records. */
static int runs(int peer, size_t count)
{
    uint64_t accepted;
    uint8_t refusal = peers[peer].run(file, BYTES * count, out[peer], sizeof out[peer], &accepted);
    return refusal == 0 && accepted == count;
}

static int enters(int entry, size_t count)
{
    uint64_t accepted;
    change_records(entries[entry].kind, entries[entry].measured);
    return entries[entry].run(file, BYTES * count, out[0], sizeof out[0], &accepted) == 0 && accepted == count;
}

/* Tells whether the first records are put right, with how many changes; for no records there is no call. */
static int repairs(int it, size_t count, uint64_t *changed)
{
    return count == 0 || repairers[it].repair(order, sizeof order, file, BYTES * count, out[it], sizeof out[it], report[it],
                                              sizeof report[it], changed) == 0;
}

static int all_repair_alike(void)
{
    uint64_t changed[REPAIRERS];
    for (int it = 0; it < REPAIRERS; it++)
        if (!repairs(it, RECORDS, &changed[it]) || changed[it] != changed[0] || memcmp(out[it], out[0], sizeof out[0]) != 0 ||
            memcmp(report[it], report[0], sizeof report[0]) != 0)
            return 0;
    return 1;
}

/* What a reducer answers for a stretch; it starts as zeros, so that two can be compared byte by byte. */
struct reduced {
    uint64_t reference, project, bound, years, refused;
    int64_t reduction;
};

/* Tells whether the reduction of a stretch of the first records is worked out; for no records there is no call. */
static int reduces(int it, size_t count, uint64_t first, uint64_t last, struct reduced *to)
{
    uint8_t refused = 0;
    if (count == 0) return 1;
    memset(to, 0, sizeof *to);
    uint8_t refusal = reducers[it].reduce(file, BYTES * count, first, last, electricity, last - first + 1, fuel,
                                          last - first + 1, &to->reference, &to->project, &to->reduction, &to->bound,
                                          &to->years, &refused);
    to->refused = refused;
    return refusal == 0 && refused == 0 && to->years == count;
}

/* Makes the records yearly and enters some electricity and fuel. */
static void make_years(int measured)
{
    change_records(LANDFILL_YEARLY, measured);
    for (unsigned i = 0; i < RECORDS; i++) {
        electricity[i] = 1000000 * (i % 7);
        fuel[i] = 300000 * (i % 11);
    }
}

/* How far a peer's figures are from the library's, at most, the bound of the library's figure there, and how many are as far
 * apart as the bound or farther. */
struct distance {
    uint64_t most, bound_there, outside;
};

static void widen(struct distance *to, int64_t difference, uint64_t bound)
{
    uint64_t apart = (uint64_t)(difference < 0 ? -difference : difference);
    if (apart > to->most) {
        to->most = apart;
        to->bound_there = bound;
    }
    to->outside += apart >= bound;
}

/* One line of the table: what a peer wrote, whether in the same bytes as the library, and how far from it. */
static void print_distance(const char *peer, int measured, size_t count, int same, const struct distance *it)
{
    printf("| %s%s | %zu | %s | %" PRIu64 " | %" PRIu64 " | %" PRIu64 " |\n", peer, measured ? ", measured sludge" : "", count,
           same ? "yes" : "no", it->most, it->bound_there, it->outside);
}

/* Prints how far the peer's reductions of single years, every eighth, are from the library's, as `compare` does for figures.
 * Tells whether the reference has what the library has. */
static int all_reduce_alike(int measured)
{
    struct distance apart = {0};
    struct reduced its[REDUCERS];
    make_years(measured);
    for (uint64_t y = 8; y <= RECORDS; y += 8) {
        for (int it = 0; it < REDUCERS; it++)
            if (!reduces(it, RECORDS, y, y, &its[it])) return 0;
        if (memcmp(&its[0], &its[2], sizeof its[0]) != 0) return 0;
        widen(&apart, its[0].reduction - its[1].reduction, its[0].bound);
    }
    print_distance("exp-once, reductions", measured, RECORDS / 8, 0, &apart);
    return reduces(0, RECORDS, 1, RECORDS, &its[0]) && reduces(2, RECORDS, 1, RECORDS, &its[2]) &&
           memcmp(&its[0], &its[2], sizeof its[0]) == 0;
}

/* Tells whether the total is shared by a month's 3 samples or a year's; for no samples there is no call. */
static int shares(int sharer, size_t count, uint32_t *masses)
{
    uint8_t kind = count == 3 ? LANDFILL_MONTHLY : LANDFILL_YEARLY;
    return count == 0 || sharers[sharer].share(kind, TOTAL, samples, LANDFILL_SAMPLE_BYTES * count, masses) == 0;
}

static int all_share_alike(size_t count)
{
    uint32_t masses[SHARERS][LANDFILL_TYPES];
    for (int sharer = 0; sharer < SHARERS; sharer++)
        if (!shares(sharer, count, masses[sharer]) || memcmp(masses[0], masses[sharer], sizeof masses[0]) != 0) return 0;
    return 1;
}

/* Tells whether a factor of those above is worked out; for factor 0 there is no call. */
static int works(int worker, size_t factor)
{
    const uint8_t *of = worked[factor == worked[1].factor].of;
    uint8_t found;
    return factor == 0 || (workers[worker].work(of[0], of[1], of[2], of[3], of[4], of[5], &found) == 0 && found == factor);
}

static int all_work_alike(void)
{
    for (int worker = 0; worker < WORKERS; worker++)
        for (int i = 0; i < WORKED; i++)
            if (!works(worker, worked[i].factor)) return 0;
    return 1;
}

/* Tells whether an entry of the decay table is found; for rate 0 there is no call. */
static int finds(int finder, size_t rate)
{
    return rate == 0 || finders[finder].find(finders[finder].kind, (uint16_t)rate) > 0;
}

static int all_find_alike(void)
{
    for (unsigned rate = 0; rate <= 401; rate++)
        for (uint8_t kind = LANDFILL_YEARLY; kind <= LANDFILL_MONTHLY; kind++)
            if (landfill_entry(kind, (uint16_t)rate) != look_ups_by_exp(kind, (uint16_t)rate)) return 0;
    return 1;
}

/* Prints how far a peer's figures are from the library's. */
static void compare(int peer, size_t count, int measured)
{
    struct distance apart = {0};
    for (size_t i = 0; i < count; i++) {
        const uint8_t *one = out[0] + BYTES * i, *other = out[peer] + BYTES * i;
        widen(&apart, (int64_t)(reference_read(one + 16, 8) - reference_read(other + 16, 8)), reference_read(one + 24, 8));
    }
    print_distance(peers[peer].name, measured, count, memcmp(out[0], out[peer], BYTES * count) == 0, &apart);
}

/* Compares all peers over the monthly file. Tells whether each takes it, and the reference writes what the library does. */
static int all_run_alike(int measured)
{
    change_records(LANDFILL_MONTHLY, measured);
    if (!runs(0, RECORDS)) return 0;
    for (int peer = 1; peer < PEERS; peer++) {
        size_t count = peer == EQUATION ? MOST_BY_EQUATION : RECORDS;
        if (!runs(peer, count)) return 0;
        compare(peer, count, measured);
    }
    return memcmp(out[0], out[1], sizeof out[0]) == 0;
}

/* Tells whether the columns of the first records are filled; for no records there is no call. */
static int fills(int it, size_t count)
{
    uint64_t(*to)[RECORDS] = filled[it].columns;
    return count == 0 || fillers[it].fill(file, BYTES * count, to[0], RECORDS, to[1], RECORDS, to[2], RECORDS, to[3], RECORDS,
                                          to[4], RECORDS, to[5], RECORDS, to[6], RECORDS, to[7], RECORDS, to[8], RECORDS,
                                          filled[it].stocks) == 0;
}

/* Prints how far the peer's figures by columns are from the library's. Tells whether the reference has what the library has, and
 * the library's figures are those of a run. */
static int all_fill_alike(int measured)
{
    struct distance apart = {0};
    const uint64_t *figures = filled[0].columns[COLUMNS - 1], *its = filled[1].columns[COLUMNS - 1];
    change_records(LANDFILL_MONTHLY, measured);
    if (!runs(0, RECORDS)) return 0;
    for (int it = 0; it < FILLERS; it++)
        if (!fills(it, RECORDS)) return 0;
    for (size_t i = 0; i < RECORDS; i++) {
        const uint8_t *output = out[0] + BYTES * i;
        if (figures[i] != reference_read(output + 16, 8)) return 0;
        widen(&apart, (int64_t)(figures[i] - its[i]), reference_read(output + 24, 8));
    }
    print_distance("exp-once, columns", measured, RECORDS, memcmp(&filled[0], &filled[1], sizeof filled[0]) == 0, &apart);
    return memcmp(&filled[0], &filled[2], sizeof filled[0]) == 0;
}

/* Prints how far the peer's figures of years are from the library's. Tells whether steps and the reference have the totals that
 * a run has. */
static int all_add_alike(int measured)
{
    struct distance apart = {0};
    uint64_t accepted;
    change_records(LANDFILL_MONTHLY, measured);
    for (int it = 0; it < ADDERS; it++)
        if (adders[it](file, sizeof file, out[it], sizeof out[it], &accepted) != 0 || accepted != RECORDS) return 0;
    for (unsigned year = 1; year <= LANDFILL_YEARS; year++) {
        struct landfill_year one = landfill_get_year(totals[0], year), other = landfill_get_year(totals[3], year);
        widen(&apart, (int64_t)(one.figure - other.figure), one.bound);
    }
    print_distance("exp-once, yearly totals", measured, LANDFILL_YEARS, memcmp(totals[0], totals[3], sizeof totals[0]) == 0,
                   &apart);
    return memcmp(totals[0], totals[1], sizeof totals[0]) == 0 && memcmp(totals[0], totals[2], sizeof totals[0]) == 0;
}

int main(int words, char **word)
{
    uint32_t masses[LANDFILL_TYPES];
    uint64_t changed;
    struct reduced reduced;
    make_months();
    make_samples(samples, SAMPLES);
    if (words == 2 || (words == 3 && strncmp(word[1], "reference", 9) == 0)) reference_start();
    if (words == 2 && strcmp(word[1], "compare") == 0) {
        int alike = all_run_alike(0) && all_run_alike(1) && all_share_alike(3) && all_share_alike(SAMPLES);
        alike = alike && all_work_alike() && all_find_alike() && all_repair_alike();
        alike = alike && all_reduce_alike(0) && all_reduce_alike(1);
        alike = alike && all_fill_alike(0) && all_fill_alike(1);
        return alike && all_add_alike(0) && all_add_alike(1) ? 0 : 1;
    }
    for (int entry = 0; words == 3 && entry < ENTRIES; entry++)
        if (strcmp(word[1], entries[entry].name) == 0) return enters(entry, strtoul(word[2], NULL, 10)) ? 0 : 1;
    for (int it = 0; words == 3 && it < REPAIRERS; it++)
        if (strcmp(word[1], repairers[it].name) == 0) return repairs(it, strtoul(word[2], NULL, 10), &changed) ? 0 : 1;
    for (int it = 0; words == 3 && it < REDUCERS; it++)
        if (strcmp(word[1], reducers[it].name) == 0) {
            size_t count = strtoul(word[2], NULL, 10);
            make_years(0);
            return reduces(it, count, 1, count, &reduced) ? 0 : 1;
        }
    for (int it = 0; words == 3 && it < FILLERS; it++)
        if (strcmp(word[1], fillers[it].name) == 0) return fills(it, strtoul(word[2], NULL, 10)) ? 0 : 1;
    for (int sharer = 0; words == 3 && sharer < SHARERS; sharer++)
        if (strcmp(word[1], sharers[sharer].name) == 0) return shares(sharer, strtoul(word[2], NULL, 10), masses) ? 0 : 1;
    for (int worker = 0; words == 3 && worker < WORKERS; worker++)
        if (strcmp(word[1], workers[worker].name) == 0) return works(worker, strtoul(word[2], NULL, 10)) ? 0 : 1;
    for (int finder = 0; words == 3 && finder < FINDERS; finder++)
        if (strcmp(word[1], finders[finder].name) == 0) return finds(finder, strtoul(word[2], NULL, 10)) ? 0 : 1;
    for (int peer = 0; words == 3 && peer < PEERS; peer++)
        if (strcmp(word[1], peers[peer].name) == 0) return runs(peer, strtoul(word[2], NULL, 10)) ? 0 : 1;
    return 2;
}
