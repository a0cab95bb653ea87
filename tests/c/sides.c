/* The two sides of the differential test. */
#include "sides.h"

#include "inputs.h"
#include "landfill.h"
#include "reference.h"

#include <inttypes.h>
#include <stdio.h>
#include <stdlib.h>
#include <string.h>

enum { PATTERN = 0xA5 };

static const struct entries LIBRARY = {landfill_fresh,  landfill_take,   landfill_run,   landfill_totals,
                                       landfill_entry,  landfill_cell,   landfill_point, landfill_listing,
                                       landfill_masses, landfill_factor, landfill_factor_by_codes, landfill_repair,
                                       landfill_tunisia, landfill_columns, landfill_columns_in,
                                       landfill_take_month, landfill_run_months};
static const struct entries REFERENCE = {reference_fresh,  reference_take,   reference_run,   reference_totals,
                                         reference_entry,  reference_cell,   reference_point, reference_listing,
                                         reference_masses, reference_factor, reference_factor_by_codes, reference_repair,
                                         reference_tunisia, reference_columns, reference_columns_in,
                                         reference_take_month, reference_run_months};
static const char *const NAMES[PLACES] = {
    "ledger", "records", "out", "answer", "text", "samples", "order", "report", "electricity", "fuel",
    "wood", "paper", "food", "textiles", "garden", "inert", "domestic sludge", "paper sludge", "figures", "stocks", "block",
    "yearly totals"};

struct given given;
static struct side before, library, reference;
static struct {
    int lent;
    size_t start, length;
} spans[PLACES];
static uint64_t compared;

static void lend_from(enum place place, size_t start, size_t length)
{
    if (length > LONGEST) exit(2);
    spans[place].lent = 1;
    spans[place].start = start;
    spans[place].length = length;
    memset(before.rooms[place].bytes, PATTERN, start);
    memset(before.rooms[place].bytes + start + length, PATTERN, ZONE);
    random_bytes(at(&before, place), length);
}

uint8_t *lend(enum place place, size_t length)
{
    lend_from(place, ZONE + below(8), length);
    return at(&before, place);
}

uint64_t *lend_list(enum place place, size_t count)
{
    lend_from(place, ZONE + 8 * below(2), 8 * count);
    return list_at(&before, place);
}

uint8_t *at(struct side *side, enum place place)
{
    return side->rooms[place].bytes + spans[place].start;
}

uint64_t *list_at(struct side *side, enum place place)
{
    return side->rooms[place].list + spans[place].start / 8;
}

size_t length_of(enum place place)
{
    return spans[place].length;
}

size_t count_of(enum place place)
{
    return spans[place].length / 8;
}

const uint8_t *left(enum place place)
{
    return at(&library, place);
}

const uint64_t *list_left(enum place place)
{
    return list_at(&library, place);
}

uint64_t number_left(int which)
{
    return library.numbers.whole[2 * which - 1];
}

uint8_t byte_left(void)
{
    return library.numbers.factors[1][0];
}

uint64_t answer_left(void)
{
    return library.answer;
}

uint64_t calls(void)
{
    return compared;
}

/* The bytes of a room that a call can reach and more: the buffer with both its red zones. */
static size_t used(enum place place)
{
    return spans[place].start + spans[place].length + ZONE;
}

static int differs(const struct side *one, const struct side *other, enum place place)
{
    return spans[place].lent && memcmp(one->rooms[place].bytes, other->rooms[place].bytes, used(place)) != 0;
}

static int is_zone(const struct side *side, enum place place, size_t from, size_t to)
{
    for (size_t i = from; i < to; i++)
        if (side->rooms[place].bytes[i] != PATTERN) return 0;
    return 1;
}

static int zones_stand(const struct side *side, enum place place)
{
    size_t start = spans[place].start, end = start + spans[place].length;
    return !spans[place].lent || (is_zone(side, place, 0, start) && is_zone(side, place, end, end + ZONE));
}

static int numbers_differ(void)
{
    return library.answer != reference.answer || memcmp(&library.numbers, &reference.numbers, sizeof library.numbers) != 0;
}

/* In rows of 48: a record, or three samples. */
static void print_bytes(const char *title, const struct side *side, enum place place)
{
    size_t length = spans[place].length;
    const uint8_t *bytes = side->rooms[place].bytes + spans[place].start;
    printf("  %s%s\n", title, zones_stand(side, place) ? "" : ", a red zone written");
    for (size_t i = 0; i < length; i++)
        printf("%s%02x%s", i % 48 == 0 ? "    " : " ", bytes[i], i % 48 == 47 || i + 1 == length ? "\n" : "");
}

/* Places before 0 and from the length on are red zones. */
static void print_first(enum place place)
{
    for (size_t i = 0; i < used(place); i++) {
        uint8_t one = library.rooms[place].bytes[i], other = reference.rooms[place].bytes[i];
        if (one == other) continue;
        ptrdiff_t from_start = (ptrdiff_t)(i - spans[place].start);
        printf("first at place %td of %s: library %02x, reference %02x\n", from_start, NAMES[place], one, other);
        return;
    }
}

static void print_numbers(const char *title, const struct side *side)
{
    const struct numbers *it = &side->numbers;
    uint64_t real[7];
    memcpy(real, it->real, sizeof real);
    printf("%s: answer %" PRIu64 "; whole", title, side->answer);
    for (int i = 0; i < 11; i++) printf(" %" PRIx64, it->whole[i]);
    printf("; real");
    for (int i = 0; i < 7; i++) printf(" %" PRIx64, real[i]);
    printf("; masses");
    for (int i = 0; i < 24; i++) printf(" %" PRIx32, it->masses[i / 8][i % 8]);
    printf("; factors");
    for (int i = 0; i < 24; i++) printf(" %x", it->factors[i / 8][i % 8]);
    printf("\n");
}

static void print_difference(const char *name)
{
    uint64_t kg;
    memcpy(&kg, &given.kg, sizeof kg);
    printf("difference at call %" PRIu64 ", %s\n", compared, name);
    printf("by value, where the entry takes it: kind %u, rate %u, filled %u, kg %a (bits %" PRIx64 ")", given.kind, given.rate,
           given.filled, given.kg, kg);
    printf(", figure %" PRIu64 ", bound %" PRIu64 ", total %" PRIu64, given.figure, given.bound, given.total);
    printf(", uncertainties");
    for (int i = 0; i < 6; i++) printf(" %u", given.uncertainties[i]);
    printf(", years %" PRIu64 " to %" PRIu64 "\n", given.first, given.last);
    print_numbers("library  ", &library);
    print_numbers("reference", &reference);
    for (enum place place = 0; place < PLACES; place++)
        if (spans[place].lent) print_first(place);
    for (enum place place = 0; place < PLACES; place++) {
        if (!spans[place].lent) continue;
        printf("%s, %zu bytes\n", NAMES[place], spans[place].length);
        print_bytes("before", &before, place);
        if (differs(&library, &before, place)) print_bytes("after the library", &library, place);
        if (differs(&reference, &before, place)) print_bytes("after the reference", &reference, place);
    }
}

static void share(struct side *side)
{
    memset(&side->numbers, PATTERN, sizeof side->numbers);
    for (enum place place = 0; place < PLACES; place++)
        if (spans[place].lent) memcpy(side->rooms[place].bytes, before.rooms[place].bytes, used(place));
}

static void end(void)
{
    printf("differential: %" PRIu64 " calls, 1 difference\n", compared);
    exit(1);
}

void hold(const char *name, uint64_t number, uint64_t expected)
{
    if (number == expected) return;
    printf("after call %" PRIu64 ", %s is %" PRIu64 " and not %" PRIu64 "\n", compared, name, number, expected);
    end();
}

void hold_at_least(const char *name, uint64_t number, uint64_t least)
{
    if (number >= least) return;
    printf("after call %" PRIu64 ", %s is %" PRIu64 " and not at least %" PRIu64 "\n", compared, name, number, least);
    end();
}

void both(const char *name, call *make)
{
    compared++;
    share(&library);
    share(&reference);
    make(&LIBRARY, &library);
    make(&REFERENCE, &reference);
    int wrong = numbers_differ();
    for (enum place place = 0; place < PLACES; place++)
        wrong |= differs(&library, &reference, place) || !zones_stand(&library, place);
    if (wrong) {
        print_difference(name);
        end();
    }
    for (enum place place = 0; place < PLACES; place++) spans[place].lent = 0;
}
