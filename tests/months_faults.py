"""The faults of months that share the year's factors, and the cases of what a ledger remembers, sound and unsound."""
from itertools import combinations, product

import cases
import faults
from built import offer_case, run_case, step_case
from faults import OF_RECORD, Fault, Offer, applied, named, of_field
from histories import RANGES, another, file_of, moved, next_record, next_records, random_ledger, random_year, sharing
from histories import taken
from reference import BYTES, CLIMATES, FRESH, KINDS, MONTHLY, MONTHS, NO_YEAR, RECORDS, YEARLY, Year, little
from reference import write_record

EDGES = {"factor": (0, 1, 100, 101, 255), "site_class": (0, 1, 4, 5, 255), "f": (0, 10000, 10001, 65535)}
FIELDS = dict.fromkeys((fault.number, fault.field) for fault in faults.FAULTS)  # with a fault, in their order
FIELDS_OF_RECORD = dict.fromkeys((fault.number, fault.field) for fault in OF_RECORD)


def offer_at(rng, n, kind=MONTHLY):
    """An offer to a ledger with n records that is accepted; a monthly ledger remembers any values."""
    climate = rng.choice(CLIMATES)
    ledger = random_ledger(rng, kind, climate, n) if n else FRESH
    ledger = ledger._replace(year=random_year(rng)) if n and kind == MONTHLY else ledger
    return Offer(ledger, next_record(rng, ledger, kind, climate))


def within_year(rng):
    """An offer of a month that does not begin its year."""
    return offer_at(rng, MONTHS * rng.randrange(RECORDS // MONTHS) + rng.randint(1, MONTHS - 1))


def remembering(offer, year):
    """The offer to a ledger that remembers these values."""
    return offer._replace(ledger=offer.ledger._replace(year=year))


def in_month(field, shift):
    """Another value of the month."""
    return Fault(17, field, lambda offer: offer._replace(record=moved(offer.record, field, shift)))


def in_memory(number, change):
    """Other values that the ledger remembers, worked out from these."""
    return Fault(number, "year", lambda offer: remembering(offer, change(offer.ledger.year)))


def fits(field, value):
    low, high = RANGES[field]
    return low <= value <= high


# Changes to an offer within a year.
OTHERS = [in_month(field, shift) for field in Year._fields for shift in (1, 2, 3)]
OTHERS += [in_memory(17, lambda year, field=field: moved(year, field, 1)) for field in Year._fields]
UNSOUND = [
    in_memory(3, lambda year, field=field, value=value: year._replace(**{field: value}))
    for field, values in EDGES.items()
    for value in values
    if not fits(field, value)
]


def at_fault(rng):
    """Each fault alone, two of 17, one of 17 beside each of document 01, an unsound year beside one of each field."""
    for fault in OTHERS + UNSOUND:
        yield offer_case(applied(within_year(rng), [fault]), fault.number)
    for one, other in combinations(Year._fields, 2):
        yield offer_case(applied(within_year(rng), [in_month(one, 1), in_month(other, 1)]), 17)
    for fault in faults.FAULTS:
        other = rng.choice([other for other in OTHERS if other.field != fault.field])
        yield offer_case(applied(within_year(rng), [fault, other]), named(fault, other))
    for number, field in FIELDS:
        pair = rng.choice(of_field(number, field)), rng.choice(UNSOUND)
        yield offer_case(applied(within_year(rng), pair), named(*pair))


def stopped(rng):
    """Months that would begin a year, with a fault: refused, they leave what is remembered. In runs too, then 17."""
    for number, field in FIELDS:
        if field in Offer._fields or (number, field) in FIELDS_OF_RECORD:
            offer, fault = offer_at(rng, MONTHS * rng.randint(1, 99)), rng.choice(of_field(number, field))
            yield offer_case(applied(offer, [fault]), named(fault))
    months = next_records(rng, FRESH, MONTHLY, rng.choice(CLIMATES), 14)
    begun, last = file_of(months[:12]), Offer(taken(FRESH, months[:12]), months[12])
    for number, field in FIELDS_OF_RECORD:
        fault = rng.choice(of_field(number, field))
        data = begun + applied(last, [fault]).data() + file_of(months[13:])
        yield run_case(FRESH, data, 14 * BYTES, (12, named(fault)) if named(fault) else (14, 0))
    change = write_record(another(rng, months[12], "f")._replace(period=14))
    data = begun + last.data() + change
    yield run_case(FRESH, data + b"\0", 14 * BYTES, (13, 17))
    yield run_case(FRESH, data, 14 * BYTES - 1, (13, 2))
    yield run_case(FRESH, data[:-1], 14 * BYTES, (13, 1))


def remembered(rng):
    """Each value that a monthly ledger remembers at its limits and past them; the month repeats it where it can."""
    for n, (field, values) in product((1, 11, 12, 1199), EDGES.items()):
        for value in values:
            offer, sound = offer_at(rng, n), fits(field, value)
            year = offer.ledger.year._replace(**{field: value})
            record = sharing(offer.record, year) if sound else offer.record
            yield offer_case(remembering(offer, year)._replace(record=record), 0 if sound else 3)


def not_remembered(rng):
    """Yearly ledgers and ledgers without records that remember one byte, or what a monthly ledger may."""
    years = [cases.read_year(little([(byte << 8 * place, 4)])) for place in range(4) for byte in (1, 255)]
    for n, kind in ((0, 0), (0, 1), (0, 2), (1, 1), (12, 1), (1199, 1)):
        for year in (*years, random_year(rng)):
            offer = remembering(offer_at(rng, n, kind or YEARLY), year)
            yield step_case(offer.ledger._replace(kind=kind), offer.data(), expect=3)


def old_images(rng):
    """Images with no year in them: yearly ledgers are taken, and monthly ones without records."""
    for n, kind in product((0, 1, 11, 12, 1199), KINDS):
        offer = remembering(offer_at(rng, n, kind), NO_YEAR)
        number = 3 if n and kind == MONTHLY else 0
        yield offer_case(offer, number)
        yield run_case(offer.ledger, offer.data(), BYTES, (0, 3) if number else (1, 0))
        yield run_case(offer.ledger, offer.data(), BYTES - 1, (0, 2))
        yield run_case(offer.ledger, b"", BYTES, (0, 0))
    yield offer_case(remembering(offer_at(rng, RECORDS), NO_YEAR), 3)
    yield offer_case(offer_at(rng, RECORDS), 4)
