"""The cases of the calculation by columns where a record or the columns are refused: nothing is written then.

Each is built for its answer, as those in columns_cases.py are.
"""
from itertools import combinations, product

from cases import COLUMNS
from columns_cases import alike, any_places, columns_case, each, light
from faults import OF_RECORD, named
from histories import KINDS_AND_CLIMATES, damaged, file_of, hit, next_measured, replaced
from months_faults import in_month
from reference import BYTES, CLIMATES, FRESH, KINDS, MONTHLY, RECORDS, YEARLY, Year, write_record
from sludge_cases import OVER
from tunisia_cases import changing
from tunisia_faults import with_faults

OTHERS = [in_month(field, 1) for field in Year._fields]
FAULTS = [fault for fault in OF_RECORD if fault.instead != 0] + OVER + OTHERS
FIELDS = dict.fromkeys((named(fault), fault.field) for fault in FAULTS)  # with a fault, and its number
NUMBERS = dict.fromkeys(number for number, _ in FIELDS)
LATER = 7, 17  # no first record has these
AT_ONCE = (5, "site_class"), (6, "period"), (7, "climate"), (8, "GWP"), (17, "f"), (9, "masses")


def of_field(rng, number, field=None):
    """A fault of a record with this number, in this field or in any."""
    return rng.choice([fault for fault in FAULTS if named(fault) == number and field in (None, fault.field)])


def some_records(rng, count, kind=None):
    """Records that are accepted, of this kind or of any."""
    return next_measured(rng, FRESH, kind or rng.choice(KINDS), rng.choice(CLIMATES), count)


def one_short(rng, count):
    """Places for so many records, but for one column."""
    return replaced(any_places(rng, count), rng.randrange(COLUMNS), rng.randrange(count))


def stopped_case(rng, records, place, faults, enough):
    """A file with a record at fault at a place from 0 on, and columns that are long enough or not."""
    places = any_places(rng, len(records)) if enough else one_short(rng, len(records))
    return columns_case(with_faults(records, place, faults), places, named(*faults))


def at_fault(rng):
    """Each number at the first, a middle and the last record, with long enough columns and without; each field."""
    for number, place, enough in product(NUMBERS, (0, 2, 4), (True, False)):
        if place or number not in LATER:
            records = some_records(rng, 5, MONTHLY if number == 17 else None)
            yield stopped_case(rng, records, place, [of_field(rng, number)], enough)
    for number, field in FIELDS:
        records = some_records(rng, 3, MONTHLY if number == 17 else None)
        yield stopped_case(rng, records, rng.choice((1, 2)), [of_field(rng, number, field)], rng.random() < 0.5)


def two_faults(rng):
    """Each two numbers in one month, and all; two refused records, of which the first is named."""
    faults = [of_field(rng, *number_and_field) for number_and_field in AT_ONCE]
    for met in (*combinations(faults, 2), faults):
        yield stopped_case(rng, some_records(rng, 3, MONTHLY), 2, met, rng.random() < 0.5)
    for first, second in ((9, 5), (8, 6), (5, 9), (9, 8)):
        records = some_records(rng, 4, YEARLY)
        file = with_faults(records, 1, [of_field(rng, first)])[: 2 * BYTES]
        file += with_faults(records, 2, [of_field(rng, second)])[2 * BYTES :]
        yield columns_case(file, any_places(rng, 4), first)


def left_over(rng):
    """Bytes after the records that make no record: the start of a good one, of no codes, or any bytes."""
    for length in range(1, BYTES):
        count = rng.choice((0, 1, 2))
        *records, last = some_records(rng, count + 1)
        ends = write_record(last), bytes([255] * BYTES), bytes(BYTES), rng.randbytes(BYTES)
        places = rng.choice((each(count), each(count + 1), any_places(rng, count), one_short(rng, count + 1)))
        yield columns_case(file_of(records) + rng.choice(ends)[:length], places, 1)


def too_short(rng):
    """Each column alone one place short, for one record, some years and some months; all of them, all but one; none."""
    for place, (count, kind) in product(range(COLUMNS), ((1, None), (3, YEARLY), (4, MONTHLY))):
        spare = rng.choice((0, 0, 1, 3))
        places = replaced(each(count + spare), place, count - 1)
        yield columns_case(file_of(some_records(rng, count, kind)), places, 26)
    file = file_of(changing(rng, 4))
    for places in (each(3), each(0), range(COLUMNS), range(COLUMNS)[::-1], range(3, 12), range(3, 12)[::-1]):
        yield columns_case(file, places, 26)
    for place in (0, 5, 8):
        yield columns_case(file, replaced(each(0), place, 4), 26)
        yield columns_case(file, replaced(each(5), place, 0), 26)
    yield columns_case(file_of(alike(260)), each(4), 26)


def at_random(rng):
    """Files with damage, with columns that are long enough or not; any bytes."""
    for (kind, climate), _ in product(KINDS_AND_CLIMATES, range(4)):
        count = rng.randint(1, 6)
        file = file_of(next_measured(rng, FRESH, kind, climate, count))
        file = rng.choice((damaged, lambda rng, file: hit(rng, file, range(BYTES))))(rng, file)
        yield columns_case(file, rng.choice((any_places, any_places, one_short))(rng, count), None)
    for _ in range(4):
        yield columns_case(rng.randbytes(rng.randint(0, 200)), any_places(rng, 0), None)


SHORT = at_fault, two_faults, left_over, too_short, at_random


def past_the_last(rng):
    """A record more than a ledger takes: good, without codes, cut short, after a refused one; with places or none."""
    *records, last = light(RECORDS + 1, YEARLY, climate=2)
    file, end = file_of(records), write_record(last)
    yield columns_case(file + end, each(RECORDS + 1), 4)
    yield columns_case(file + write_record(last._replace(climate=5)), each(0), 4)
    yield columns_case(file + end[:47], each(0), 1)
    yield columns_case(with_faults(records, 700, [of_field(rng, 9)]) + end, each(0), 9)


def by_columns_refused(rng):
    for part in (*SHORT, past_the_last):
        yield from part(rng)
