"""The cases of the Tunisian reference method where a stretch is answered, each built for its years.

A case is an error here where the reference gives another answer than the one it is built for.
"""
from itertools import combinations_with_replacement, product
from typing import NamedTuple

import cases
import tunisia
from cases import case
from histories import PLAIN, file_of, greatest_record, measured, next_measured, only, random_record
from reference import BYTES, CLASSES, CLIMATES, FRESH, MASS_LIMIT, NONE, RECORDS, TYPES, YEARLY, figure_of, listing
from reference import little, write_record
from sludge_cases import MEASURES, with_both
from tunisia import ANAEROBIC, MOST_GRAMS

FACTORS = {"factor": (1, 100), "OX": (0, 100), "F": (0, 100), "DOCf": (0, 100), "GWP": (1, 100), "f": (0, 10000)}
MOST_GRAMS_LENT = (cases.LONGEST - cases.HEAD - BYTES * (RECORDS + 1)) // 8  # beside the longest of the files here


class Asked(NamedTuple):
    """What is asked: a file, the first and last year of a stretch, and the grams of each of its years."""

    file: bytes
    first: int
    last: int
    electricity: tuple = ()
    fuel: tuple = ()


def payload_of(asked, k=None):
    """The payload with the first k grams, or with all of them. The entries have to take these in turn."""
    entries = asked.electricity + asked.fuel
    grams = entries[:k]
    head = [(asked.first, 8), (asked.last, 8), (len(asked.electricity), 2), (len(asked.fuel), 2), (len(grams), 2)]
    payload = little(head + [(each, 8) for each in grams]) + asked.file
    if cases.read_stretch(payload) != asked:
        raise SystemExit(f"no payload with {len(grams)} grams: {asked}")
    return payload


def reduction_case(asked, expect, k=None, less=None):
    """One case; expect is the refusal of the stretch, the years and the record's refusal, less the reduction."""
    answer = tunisia.reduction(*asked)
    found = answer.refusal, answer.years, answer.stopped
    if expect not in (None, found) or less not in (None, answer.reduction):
        raise SystemExit(f"stretch built for {expect}, {less}, found {found}, {answer.reduction}: {asked}")
    return case("t", payload_of(asked, k))


def some_grams(rng):
    """The grams of one year."""
    top = rng.choice((0, 9, 10**6, 10**10, MOST_GRAMS))
    return rng.randint(0, top)


def stretch(rng, file, first, last):
    """A stretch with grams for each year."""
    electricity, fuel = (tuple(some_grams(rng) for _ in range(first, last + 1)) for _ in range(2))
    return Asked(file, first, last, electricity, fuel)


def without_grams(file, first, last):
    return Asked(file, first, last, *[(0,) * (last - first + 1)] * 2)


def changing_record(rng, n, climate):
    """A record whose factors are all above zero, and hardly ever those of the record before it."""
    values = {field: rng.randint(low + 1, high - 1) for field, (low, high) in FACTORS.items()}
    return measured(rng, random_record(rng, n, YEARLY, climate))._replace(**values)


def changing(rng, count, climate=None):
    """Yearly records with other factors each year. The first one has the most of one type."""
    climate = climate or rng.choice(CLIMATES)
    first, *others = (changing_record(rng, n, climate) for n in range(count))
    return [first._replace(masses=only(rng.randint(1, 5), MASS_LIMIT)), *others]


def alike(count, **fields):
    """Plain yearly records with some fields changed, and with thousands of tonnes of each type."""
    return [PLAIN._replace(period=n, masses=(n * 10**6,) * 8, **fields) for n in range(1, count + 1)]


def stretches(rng):
    """Every stretch of four years; some of four years in each climate; stretches of more years."""
    file = file_of(changing(rng, 4))
    for first, last in combinations_with_replacement(range(1, 5), 2):
        yield reduction_case(stretch(rng, file, first, last), (0, 4, 0))
    for climate, (first, last) in product(CLIMATES, ((1, 4), (2, 4), (3, 3))):
        yield reduction_case(stretch(rng, file_of(changing(rng, 4, climate)), first, last), (0, 4, 0))
    for climate, count in product(CLIMATES, (12, 30)):
        file = file_of(next_measured(rng, FRESH, YEARLY, climate, count))
        yield reduction_case(stretch(rng, file, rng.randint(1, count), count), (0, count, 0))


def one_field(rng):
    """One factor changes every year, and no other: a year that takes the factor of the year before is seen."""
    for field, (low, high) in FACTORS.items():
        values = rng.sample(range(low + 1, high), 3)
        records = [record._replace(**{field: value}) for record, value in zip(alike(3), values)]
        for first, last in ((2, 2), (1, 3)):
            yield reduction_case(stretch(rng, file_of(records), first, last), (0, 3, 0))


def classes(rng):
    """One class in all records, or all classes in a file: the class changes no answer."""
    for given in (*((site_class,) * 4 for site_class in CLASSES), CLASSES, CLASSES[::-1]):
        records = [record._replace(site_class=site_class) for record, site_class in zip(alike(4), given)]
        yield reduction_case(without_grams(file_of(records), 1, 4), (0, 4, 0))


def at_limits(rng):
    """A factor at each end of its range in the second year of three: figures of 0 there, and the greatest ones."""
    for field, ends in FACTORS.items():
        for value in ends:
            first, second, third = alike(3)
            records = first, second._replace(**{field: value}), third
            yield reduction_case(stretch(rng, file_of(records), 2, 3), (0, 3, 0))


def dry_matter(rng):
    """Dry matter that comes, changes and goes from year to year."""
    for measures in MEASURES:
        records = [with_both(rng, *pair) for pair in zip(alike(len(measures)), measures)]
        yield reduction_case(stretch(rng, file_of(records), 1, len(measures)), (0, len(measures), 0))


def bringing(*lists):
    """The bytes of plain records with these masses."""
    return file_of(PLAIN._replace(period=n, masses=masses) for n, masses in enumerate(lists, 1))


def little_waste(rng):
    """Years without carbon before them: no waste, inert waste, waste in the last year alone, all waste decayed."""
    food, glass = only(3, 1000), only(6, MASS_LIMIT)
    for masses in [NONE] * 3, [glass] * 3, [NONE, NONE, food, NONE, NONE], [NONE, NONE, food], [food, NONE, NONE]:
        count = len(masses)
        for first in (1, count):
            yield reduction_case(without_grams(bringing(*masses), first, count), (0, count, 0))
    used_up = bringing(only(3, 1), *[NONE] * 45)
    for first, last in ((1, 46), (40, 46), (46, 46)):
        yield reduction_case(stretch(rng, used_up, first, last), (0, 46, 0))
    for t in TYPES:
        yield reduction_case(stretch(rng, bringing(only(t, MASS_LIMIT), NONE, NONE), 1, 3), (0, 3, 0))


def gained(file, first, last):
    """Reference less project of a stretch."""
    return tunisia.reduction(*without_grams(file, first, last)).reduction


def signs(rng):
    """Reductions of just 0, 1 and -1, by electricity, by fuel and by both, and others above and below zero."""
    file = file_of(alike(3, climate=rng.choice(CLIMATES)))
    for less in (0, 1, -1, rng.randint(2, 10**6), rng.randint(-(10**6), -2)):
        first, last = rng.choice(((2, 2), (1, 3), (2, 3)))
        grams, rest = gained(file, first, last) - less, (0,) * (last - first)
        part = rng.randint(1, grams - 1)
        for electricity, fuel in ((grams, 0), (0, grams), (part, grams - part)):
            asked = Asked(file, first, last, (*rest, electricity), (fuel, *rest))
            yield reduction_case(asked, (0, 3, 0), less=less)
    for first, last in ((1, 1), (2, 3)):
        years = last - first + 1
        asked = Asked(bringing(NONE, NONE, NONE), first, last, (1,) * years, (MOST_GRAMS,) * years)
        yield reduction_case(asked, (0, 3, 0), less=-years * (MOST_GRAMS + 1))


def small_figures(rng):
    """Years of a few grams, where nothing is entered: reductions of 0, of 1, and of some grams more."""
    for less in range(6):
        found = (
            file
            for kg, GWP in product(range(1, 5), range(1, 101))
            for file in [file_of(record._replace(masses=only(3, kg), GWP=GWP, factor=5) for record in alike(2))]
            if gained(file, 1, 2) == less
        )
        yield reduction_case(without_grams(next(found), rng.choice((1, 2)), 2), (0, 2, 0), less=less)


def unscaled(records):
    """The reference of each year before it is multiplied by 73 / 100."""
    x0 = [0, *(int(line.split()[1]) for line in listing(file_of(records)).splitlines())]
    return [figure_of(record._replace(site_class=ANAEROBIC), carbon) for record, carbon in zip(records, x0)]


def rounded_each(rng):
    """Stretches where 73 / 100 of the sum is not the sum of each year's 73 / 100."""
    for count in (3, 4, 6, 10):
        lost = 0
        while not lost:
            records = changing(rng, count)
            grams = unscaled(records)
            lost = sum(grams) * 73 // 100 - sum(each * 73 // 100 for each in grams)
        yield reduction_case(without_grams(file_of(records), 1, count), (0, count, 0))


def above_floats(rng):
    """The greatest figures of 100 years in each climate: sums that a float does not hold."""
    for climate in CLIMATES:
        file = file_of(greatest_record(n, YEARLY, climate, 100) for n in range(100))
        yield reduction_case(stretch(rng, file, rng.randint(2, 9), 100), (0, 100, 0))


def longest(rng):
    """As many years as a ledger takes: the greatest figures, the lowest reduction, and one record more."""
    greatest = file_of(greatest_record(n, YEARLY, 4, 100) for n in range(RECORDS))
    nothing = file_of(PLAIN._replace(period=n) for n in range(1, RECORDS + 1))
    any_years = next_measured(rng, FRESH, YEARLY, rng.choice(CLIMATES), RECORDS)
    more = write_record(any_years[-1]._replace(period=RECORDS + 1))
    yield reduction_case(without_grams(greatest, 1, RECORDS), (0, RECORDS, 0), 0)
    most = Asked(nothing, 1, RECORDS, *[(MOST_GRAMS,) * RECORDS] * 2)
    yield reduction_case(most, (0, RECORDS, 0), 1, -2 * RECORDS * MOST_GRAMS)
    grams = tuple(some_grams(rng) for _ in range(MOST_GRAMS_LENT))
    entries = (grams * 3)[: 2 * RECORDS]
    asked = Asked(file_of(any_years) + more, 1, RECORDS, entries[:RECORDS], entries[RECORDS:])
    yield reduction_case(asked, (0, RECORDS, 4), MOST_GRAMS_LENT)


def at_random(rng):
    """Any years of any file."""
    for climate, count in product(CLIMATES, (1, 2, 8)):
        file = file_of(next_measured(rng, FRESH, YEARLY, climate, count))
        first, last = sorted((rng.randint(1, count), rng.randint(1, count)))
        yield reduction_case(stretch(rng, file, first, last), (0, count, 0))


SHORT = stretches, one_field, classes, at_limits, dry_matter, little_waste, signs, small_figures, rounded_each
SHORT += at_random, above_floats


def years(rng):
    for part in (*SHORT, longest):
        yield from part(rng)
