"""The cases of the Tunisian reference method where a record or a stretch is refused, and those of odd payloads.

Each is built for its answer, as those in tunisia_cases.py are.
"""
from itertools import combinations, product

from cases import HEAD, LONGEST, MOST_ENTRIES, case
from faults import OF_RECORD, Offer, applied, in_record, named
from histories import damaged, file_of, hit, next_measured, taken
from reference import BYTES, CLIMATES, FRESH, MASS_LIMIT, MONTHLY, RECORDS, YEARLY, little, write_record
from sludge_cases import OVER
from tunisia import MOST_GRAMS
from tunisia_cases import Asked, changing, reduction_case, some_grams, stretch

LAST = 2**64 - 1
(MONTH,) = in_record(23, "kind", MONTHLY)
FAULTS = [fault for fault in OF_RECORD if (fault.number, fault.field) != (7, "kind") and fault.instead != 0] + OVER
FIELDS = dict.fromkeys((named(fault), fault.field) for fault in FAULTS)  # with a fault, and its number
NOT_OF_KIND = [number_and_field for number_and_field in FIELDS if number_and_field[1] != "kind"]
FIRST = (5, "climate"), (5, "site_class"), (5, "zero"), (6, "period"), (8, "factor"), (8, "f"), (9, "masses")


def of_field(rng, number, field):
    """A fault of a record's field with this number."""
    return rng.choice([fault for fault in FAULTS if (named(fault), fault.field) == (number, field)])


def with_faults(records, place, faults):
    """The bytes of records, of which that at a place from 0 on has some faults."""
    offer = Offer(taken(FRESH, records[:place]), records[place])
    return file_of(records[:place]) + applied(offer, faults).data() + file_of(records[place + 1 :])


def stopped_case(rng, records, place, faults):
    """A file with a refused record at a place: a stretch of the years before it, or one year too many."""
    file, number = with_faults(records, place, faults), named(*faults)
    last = rng.choice((place, place, place + 1))
    first = rng.randint(1, max(last, 1))
    return reduction_case(stretch(rng, file, first, last), (0 if 1 <= first <= last <= place else 24, place, number))


def at_fault(rng):
    """A record at fault in each of its fields, after others; one of each number as the first; masses too large."""
    for number, field in FIELDS:
        yield stopped_case(rng, changing(rng, 4), rng.choice((1, 2, 3)), [of_field(rng, number, field)])
    for number_and_field in FIRST:
        yield stopped_case(rng, changing(rng, 2), 0, [of_field(rng, *number_and_field)])
    for _ in range(4):
        yield stopped_case(rng, changing(rng, 3), rng.choice((1, 2)), [of_field(rng, 9, "masses")])


def monthly(rng):
    """A monthly record at each place; one with each other fault; each two faults at once, and all; a file of months."""
    for place in (0, 1, 2, 2, 3, 3):
        yield stopped_case(rng, changing(rng, 4), place, [MONTH])
    for number, field in NOT_OF_KIND:
        yield stopped_case(rng, changing(rng, 3), rng.choice((1, 2)), [of_field(rng, number, field), MONTH])
    for number_and_field in FIRST:
        yield stopped_case(rng, changing(rng, 1), 0, [of_field(rng, *number_and_field), MONTH])
    others = (5, "site_class"), (6, "period"), (7, "climate"), (8, "GWP"), (9, "masses")
    each = [MONTH, *(of_field(rng, *number_and_field) for number_and_field in others)]
    for faults in (*combinations(each, 2), each[2:], each):
        yield stopped_case(rng, changing(rng, 3), 2, faults)
    months = file_of(next_measured(rng, FRESH, MONTHLY, rng.choice(CLIMATES), 3))
    yield reduction_case(stretch(rng, months, 1, 1), (24, 0, 23))


def left_over(rng):
    """Bytes after the records that make no record: the start of a good one, of a month, of no codes, or any bytes."""
    for length in range(1, BYTES):
        count = rng.choice((0, 1, 2))
        *records, last = changing(rng, count + 1)
        ends = write_record(last), write_record(last._replace(kind=MONTHLY)), bytes([255] * BYTES), rng.randbytes(BYTES)
        file = file_of(records) + rng.choice(ends)[:length]
        yield reduction_case(stretch(rng, file, min(count, 1), count), (0 if count else 24, count, 1))


def past_the_last(rng):
    """A record after 1200 years that is monthly, has no codes, has other faults or is short: 4 is named, or 1."""
    records = changing(rng, RECORDS)
    file, last = file_of(records), records[-1]._replace(period=RECORDS + 1)
    wrong = last._replace(period=1, climate=last.climate % 4 + 1, GWP=0, masses=(MASS_LIMIT + 1,) * 8)
    month, no_codes = wrong._replace(kind=MONTHLY), last._replace(climate=5, zero=b"\1\1")
    for end, first, number in [
        (write_record(month), RECORDS, 4),
        (write_record(no_codes), RECORDS - 1, 4),
        (write_record(month)[:47], RECORDS - 2, 1),
    ]:
        yield reduction_case(stretch(rng, file + end, first, RECORDS), (0, RECORDS, number))
    file += write_record(last)
    yield reduction_case(stretch(rng, file, RECORDS + 1, RECORDS + 1), (24, RECORDS, 4))
    yield reduction_case(Asked(file, 1, RECORDS + 1, *[(7,) * (RECORDS + 1)] * 2), (24, RECORDS, 4), 1)


# Stretches that are not within three years, with a number of entries that a wrong difference gives. Some are years of
# the file in fewer bits.
OUTSIDE = [
    *((0, last, last + 1) for last in (0, 1, 3)),
    *((first, first - 1, 0) for first in (1, 2, 4)),
    *((first, last, count) for first, last in ((2, 1), (3, 1)) for count in (1, first - last + 1)),
    *((first, 4, 5 - first) for first in (1, 3, 4)),
    *((5, 5, 1), (1, 5, 5), (0, 0, 0), (1, 0, 1)),
    *((more + 1, more + 3, 3) for more in (2**8, 2**16, 2**32, 2**63)),
    *((1, more + 2, 2) for more in (2**8, 2**16, 2**32, 2**63)),
    *((LAST, LAST, 1), (LAST, 0, 2), (LAST, 1, 3), (LAST, 3, 5), (LAST - 1, LAST, 2)),
    *((0, LAST, 0), (1, LAST, 0), (1, LAST, MOST_ENTRIES), (3, LAST, 1)),
]


def three_years(rng):
    """A file with three accepted years, and the refusal of what follows them."""
    records = changing(rng, 4)
    ends = (file_of(records[:3]), 0), (with_faults(records, 3, [MONTH]), 23), (file_of(records)[:-1], 1)
    return rng.choice(ends)


def entered(rng, first, last, counts):
    """A stretch of three years, with so many entries of electricity and of fuel: it is refused with 24."""
    file, number = three_years(rng)
    lists = (tuple(some_grams(rng) for _ in range(count)) for count in counts)
    return reduction_case(Asked(file, first, last, *lists), (24, 3, number))


def outside(rng):
    """Stretches that are empty or not within the accepted years, which a refused record may end."""
    for first, last, count in OUTSIDE:
        yield entered(rng, first, last, (count, count))
    for first, last, count in ((1, 1, 1), (1, 0, 0), (0, 0, 0), (0, 0, 1), (2, 1, 0), (LAST, LAST, 1)):
        yield reduction_case(Asked(b"", first, last, (5,) * count, (6,) * count), (24, 0, 0))


def entries(rng):
    """One entry too few, one too many, none, or as many as there are years, of either kind and of both."""
    for first, last in ((2, 2), (1, 3)):
        n = last - first + 1
        for counts in (n - 1, n), (n, n - 1), (n + 1, n), (n, n + 1), (n - 1, n - 1), (n + 1, n + 1):
            yield entered(rng, first, last, counts)
    for counts in (0, 3), (3, 0), (0, 0), (2, 4), (4, 2), (6, 0), (0, 6):
        yield entered(rng, 1, 3, counts)
    for first, last, counts in (2, 3, (3, 3)), (3, 3, (3, 3)), (2, 3, (2, 3)), (2, 3, (3, 2)), (2, 2, (2, 2)):
        yield entered(rng, first, last, counts)
    file = file_of(changing(rng, 2))
    for counts in ((MOST_ENTRIES, MOST_ENTRIES), (MOST_ENTRIES, 2), (2, MOST_ENTRIES)):
        yield reduction_case(Asked(file, 1, 2, *((9,) * each for each in counts)), (24, 2, 0), 1)


def with_grams(count, place, grams, others):
    """Entries of which one has so many grams."""
    return (others,) * place + (grams,) + (others,) * (count - place - 1)


def over_limit(rng):
    """Grams at the limit and over it, at the first, middle and last place of either list, in all years, and in one."""
    records = changing(rng, 6)
    for count, grams in product((5, 1), (MOST_GRAMS, MOST_GRAMS + 1)):
        for place, kind in product(sorted({0, count // 2, count - 1}), ("electricity", "fuel")):
            asked = stretch(rng, file_of(records), 2, count + 1)
            one = with_grams(count, place, grams, rng.randint(0, MOST_GRAMS))
            yield reduction_case(asked._replace(**{kind: one}), (25 if grams > MOST_GRAMS else 0, 6, 0))
    stopped = with_faults(records, 4, [MONTH])
    for grams in (2**50, 2**53 + 1, 2**63, LAST):
        electricity, fuel = rng.choice(((grams, 0), (0, grams), (grams, grams)))
        yield reduction_case(Asked(stopped, 2, 3, (0, electricity), (fuel, 0)), (25, 4, 23))
    yield reduction_case(Asked(stopped, 1, 4, *[(MOST_GRAMS,) * 4] * 2), (0, 4, 23))
    yield reduction_case(Asked(stopped, 1, 4, *[(MOST_GRAMS + 1,) * 4] * 2), (25, 4, 23))


def both_at_once(rng):
    """Grams over the limit where the stretch is no stretch too: 24 is tested first."""
    file, over = file_of(changing(rng, 3)), MOST_GRAMS + 1
    for first, last, electricity, fuel in [
        (0, 0, (over,), (0,)),
        (1, 4, (0, 0, 0, over), (0,) * 4),
        (4, 4, (0,), (over,)),
        (2, 1, (over,), (over,)),
        (1, 2, (over,), (0, 0)),
        (1, 2, (0, 0), (over,)),
        (1, 2, (0, 0, over), (0, 0)),
        (1, 2, (0, 0), (0, 0, LAST)),
    ]:
        yield reduction_case(Asked(file, first, last, electricity, fuel), (24, 3, 0))


def lent_case(first, last, counts, k, rest):
    """A payload that says it has k grams, whatever the bytes after its head are."""
    return case("t", little([(first, 8), (last, 8), *((count, 2) for count in counts), (k, 2)]) + rest)


def grams_lent(rng):
    """A head alone; grams taken again, and not used; more entries than 1300; fewer bytes than the grams need."""
    for count, k in ((0, 0), (1, 0), (1, 1), (1, 65535), (65535, 65535)):
        yield lent_case(1, 1, (count, count), k, b"")
    file = file_of(changing(rng, 4))
    grams = rng.sample(range(MOST_GRAMS), 9)
    for k in (0, 1, 2, 3, 4, 5, 6, 9):
        yield lent_case(2, 4, (3, 3), k, little((each, 8) for each in grams[:k]) + file)
    for count in (MOST_ENTRIES, MOST_ENTRIES + 1, 65535):
        yield lent_case(1, 3, (count, 3), 3, little((each, 8) for each in grams[:3]) + file)
        yield lent_case(1, 3, (3, count), 3, little((each, 8) for each in grams[:3]) + file)
    for k, length in ((25, 192), (24, 192), (65535, 192), (3, 23), (3, 17), (1, 7), (2, 8 + 48), (9, 8 * 8 + 7)):
        yield lent_case(1, 1, (1, 1), k, file[:length])
    yield lent_case(1, 2, (2, 2), 65535, bytes(LONGEST - HEAD))


def at_random(rng):
    """Files with damage, and any bytes: any stretch with grams for it, or with an entry less."""
    for climate, _ in product(CLIMATES, range(6)):
        file = file_of(next_measured(rng, FRESH, YEARLY, climate, rng.randint(1, 6)))
        file = rng.choice((damaged, lambda rng, file: hit(rng, file, range(16))))(rng, file)
        first = rng.choice((1, 1, 2))
        asked = stretch(rng, file, first, first + rng.randint(0, 3))
        yield reduction_case(rng.choice((asked, asked, asked, asked._replace(fuel=asked.fuel[1:]))), None)
    for _ in range(4):
        yield case("t", rng.randbytes(rng.randint(22, 300)))


SHORT = at_fault, monthly, left_over, outside, entries, over_limit, both_at_once, grams_lent, at_random


def years_refused(rng):
    for part in (*SHORT, past_the_last):
        yield from part(rng)
