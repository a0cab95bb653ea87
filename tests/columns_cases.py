"""The cases of the calculation by columns where a file is worked out, each with its numbers of places.

A case is an error here where the reference gives another refusal than the one it is built for.
"""
from itertools import product

import cases
import columns
from cases import COLUMNS, MOST_ENTRIES, case
from histories import KINDS_AND_CLIMATES, PLAIN, file_of, greatest_record, next_measured, only, replaced
from reference import CLIMATES, FRESH, KINDS, MASS_LIMIT, MONTHLY, NONE, RECORDS, TYPES, YEARLY, little
from sludge_cases import MEASURES, with_both
from tunisia_cases import FACTORS, bringing, changing

MOST = 65535  # places that a payload can ask for
WORKED = ((3, 4, YEARLY), (1, 1, YEARLY), (2, 2, YEARLY), (3, 4, MONTHLY), (6, 1, YEARLY))  # P6 to P10
FREE = "OX", "F", "DOCf", "GWP"  # factors that months of one year need not share


def columns_case(file, places, expect=0):
    """One case, with places for each of the nine columns; expect is the refusal that it is built for."""
    payload = little((count, 2) for count in places) + file
    found = columns.calculation(*cases.read_columns(payload)).refusal
    if expect not in (None, found):
        raise SystemExit(f"columns built for {expect}, found {found}: {payload.hex()}")
    return case("b", payload)


def each(count):
    """Nine columns with that many places."""
    return (count,) * COLUMNS


def exact(records):
    """The case of records with just the places that they need."""
    return columns_case(file_of(records), each(len(records)))


def any_places(rng, least):
    """Nine numbers of places, none under the least."""
    return tuple(least + rng.choice((0, 0, 1, 2, rng.randint(0, 6))) for _ in range(COLUMNS))


def alike(count, **fields):
    """Plain records with some fields changed, and with other masses of each type in each period."""
    return [PLAIN._replace(period=n, masses=tuple(100 * t + n for t in TYPES), **fields) for n in range(1, count + 1)]


def empty(_rng):
    """No records: columns without places, with some, and one column alone with some."""
    for places in (each(0), each(1), each(3), range(COLUMNS), range(COLUMNS)[::-1]):
        yield columns_case(b"", places)
    for place in (0, 7, 8):
        yield columns_case(b"", replaced(each(0), place, 2))


def kilograms(_rng):
    """One kilogram in one record: document 01's worked figures, and each type by year and by month."""
    for t, climate, kind in WORKED:
        yield columns_case(file_of([PLAIN._replace(kind=kind, climate=climate, masses=only(t, 1))]), each(2))
    for t, kind in product(TYPES, KINDS):
        yield exact([PLAIN._replace(kind=kind, climate=2, masses=only(t, 1))])


def one_type(rng):
    """Waste of one type alone, all in the first period, or some in each."""
    for t, kind in product(TYPES, KINDS):
        climate, kg = rng.choice(CLIMATES), rng.randint(1, MASS_LIMIT)
        records = alike(4, kind=kind, climate=climate)
        lists = rng.choice(([only(t, kg)] + [NONE] * 3, [only(t, n * kg // 4) for n in (1, 2, 3, 4)]))
        yield exact([record._replace(masses=masses) for record, masses in zip(records, lists)])


def all_types(rng):
    """All types in each kind and climate, with the same factors and with others; months of more than a year."""
    for kind, climate in KINDS_AND_CLIMATES:
        yield exact(alike(5, kind=kind, climate=climate))
        yield exact(next_measured(rng, FRESH, kind, climate, 6))
    for climate in CLIMATES:
        yield exact(next_measured(rng, FRESH, MONTHLY, climate, 14))
        yield exact(changing(rng, 8, climate))


def no_waste(_rng):
    """Periods without waste, with inert waste alone, with waste in one period alone, and with nothing left at last."""
    food, glass, some = only(3, 1000), only(6, MASS_LIMIT), tuple(10 * t for t in TYPES)
    one_period = [NONE, NONE, some], [some, NONE, NONE], [NONE, food, NONE], [glass, some, glass]
    for lists in ([NONE] * 3, [glass] * 3, *one_period):
        yield columns_case(bringing(*lists), each(3))
    yield columns_case(bringing(only(3, 1), *[NONE] * 45), each(46))


def dry_matter(rng):
    """Dry matter that comes, changes and goes, by year and by month."""
    for kind, measures in product(KINDS, MEASURES):
        yield exact([with_both(rng, *pair) for pair in zip(alike(len(measures), kind=kind), measures)])


def factors(rng):
    """One factor changes in every period, and no other; a factor at each end of its range in the second period."""
    for kind, (field, (low, high)) in product(KINDS, FACTORS.items()):
        if kind == YEARLY or field in FREE:
            values = rng.sample(range(low + 1, high), 3)
            yield exact([record._replace(**{field: value}) for record, value in zip(alike(3, kind=kind), values)])
    for field, ends in FACTORS.items():
        for value in ends:
            first, second, third = alike(3)
            yield exact([first, second._replace(**{field: value}), third])
    yield exact([record._replace(site_class=n) for n, record in enumerate(alike(4), 1)])


def greatest(_rng):
    """The greatest masses and factors in each kind and climate, and many: end stocks that a float does not hold."""
    for kind, climate in KINDS_AND_CLIMATES:
        yield exact([greatest_record(n, kind, climate, 100) for n in range(3)])
    yield exact([greatest_record(n, YEARLY, 1, 100) for n in range(60)])


def lengths(rng):
    """More places than records: one in each column alone, in all, other numbers in each; more than 255 and 1300."""
    file = file_of(changing(rng, 3))
    for place in range(COLUMNS):
        yield columns_case(file, replaced(each(3), place, 4))
    for places in (each(4), each(10), range(3, 12), range(3, 12)[::-1]):
        yield columns_case(file, places)
    for place, count in ((0, 256), (8, 258), (4, MOST_ENTRIES + 1), (8, MOST)):
        yield columns_case(file, replaced(each(3), place, count))
    yield exact(alike(260))


def at_random(rng):
    """Any records, with any numbers of places that are enough."""
    for (kind, climate), _ in product(KINDS_AND_CLIMATES, range(2)):
        count = rng.randint(1, 9)
        file = file_of(next_measured(rng, FRESH, kind, climate, count))
        yield columns_case(file, any_places(rng, count))


def light(count, kind, **fields):
    """Records with a little waste of a few types now and then, so that a long line is not too long."""
    brought = {n: only(1 + n % 5, n) for n in range(1, count, 97)} | {1: (1,) * 8, count: (2,) * 8}
    return [PLAIN._replace(period=n, kind=kind, masses=brought.get(n, NONE), **fields) for n in range(1, count + 1)]


def longest(_rng):
    """As many records as a ledger takes, in columns with just their places or with 100 more."""
    yield columns_case(file_of(light(RECORDS, MONTHLY, climate=1)), (RECORDS, MOST, RECORDS) * 3)


SHORT = empty, kilograms, one_type, all_types, no_waste, dry_matter, factors, greatest, lengths, at_random


def by_columns(rng):
    for part in (*SHORT, longest):
        yield from part(rng)
