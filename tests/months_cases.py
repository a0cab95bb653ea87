"""The cases of months that share the year's factors, each built for the answer that document 02 gives it.

A case built for a refusal is an error here where the reference answers another.
"""
from itertools import product

from base_cases import byte_changed
from built import listing_case, offer_case, run_case, step_case, unless_changed
from cases import case
from histories import KINDS_AND_CLIMATES, another, damaged, file_of, hit, next_records, random_file, random_record
from histories import random_year, sharing, taken
from months_faults import at_fault, not_remembered, offer_at, old_images, remembered, remembering, stopped, within_year
from reference import BYTES, CLIMATES, FRESH, MASS_LIMIT, MONTHLY, MONTHS, RECORDS, YEARLY, Year, write_record

LENGTH = 25  # months of most runs: two years, and the month that begins a third
VALUES = (4, 8, 10, 11)  # bytes of a record that hold the three values


def alike(rng, count):
    """So many months from the first on, all with the same three values."""
    climate, year = rng.choice(CLIMATES), random_year(rng)
    return [sharing(random_record(rng, n, MONTHLY, climate), year) for n in range(count)]


def changed(rng, records, first, last, field):
    """The records, those from a place up to before another with a value that the first of them did not have."""
    value = getattr(another(rng, records[first], field), field)
    return [each._replace(**{field: value}) if first <= i < last else each for i, each in enumerate(records)]


def months_case(ledger, records, accepted):
    """A run built to stop with 17 after so many records, or to end with them; there is room for one more."""
    return run_case(ledger, file_of(records), BYTES * (accepted + 1), ending(records, accepted))


def months_listing(records, accepted):
    """The same as a listing."""
    return listing_case(file_of(records), ending(records, accepted))


def ending(records, accepted):
    return accepted, 17 if accepted < len(records) else 0


def changes(rng):
    """A value changed from a month on, for each month after the first, also as a listing; changed for a month alone."""
    for place, field in product(range(1, LENGTH), Year._fields):
        months, begins = alike(rng, LENGTH + 1), place % MONTHS == 0
        lasting = changed(rng, months[:-1], place, LENGTH, field)
        yield months_case(FRESH, lasting, LENGTH if begins else place)
        yield months_listing(lasting, LENGTH if begins else place)
        yield months_case(FRESH, changed(rng, months, place, place + 1, field), place + begins)


def free_fields(rng):
    """OX, F, DOCf, GWP and the masses: all changed in one month, for each month; each changed in every month."""
    first, *others = alike(rng, LENGTH)
    for other in others:
        months = [first._replace(period=n) for n in range(1, LENGTH + 1)]
        months[other.period - 1] = other
        yield months_case(FRESH, months, LENGTH)
    for field in ("OX", "F", "DOCf", "GWP", "masses"):
        months = [first]
        while len(months) < LENGTH:
            months.append(next_but_for(months[-1], field))
        yield months_case(FRESH, months, LENGTH)
        yield months_listing(months, LENGTH)


def next_but_for(record, field):
    """The next record, the same but for a percentage, GWP or the masses."""
    value = getattr(record, field)
    value = tuple((kg + 1) % MASS_LIMIT for kg in value) if field == "masses" else value % 100 + 1
    return record._replace(period=record.period + 1, **{field: value})


def near_misses(rng):
    """Months that miss their year by a bit or a byte, or have its values elsewhere; then the bytes of f in runs."""
    plain, mixed = Year(36, 2, 0x04D2), Year(3, 2, 0x1122)
    pairs = [(plain, plain._replace(factor=plain.factor ^ 1 << bit)) for bit in range(7)]
    pairs += [(plain, plain._replace(site_class=site_class)) for site_class in (1, 3, 4)]
    pairs += [(plain, plain._replace(f=plain.f ^ 1 << bit)) for bit in range(14)]
    pairs += [(plain, plain._replace(f=f)) for f in (0x042D, 0x04FF, 0x1AD2, 0x00D2)]
    pairs += [(mixed, mixed._replace(factor=factor, site_class=5 - factor)) for factor in (1, 2, 4)]
    pairs += [(mixed, mixed._replace(f=0x2211)), (mixed, Year(0x22, 2, 0x1103))]
    for pair in pairs:
        for year, other in (pair, pair[::-1]):
            offer = remembering(within_year(rng), year)
            yield step_case(offer.ledger, write_record(sharing(offer.record, other)), expect=17)
    for place, f in product((1, 11, 12, 13, 23, 24), (0x042D, 0x1AD2)):
        years = [plain] * place + [plain._replace(f=f)] * (LENGTH - place)
        months = list(map(sharing, alike(rng, LENGTH), years))
        yield months_case(FRESH, months, LENGTH if place % MONTHS == 0 else place)


def splits(rng):
    """A file in two, the second from the ledger after the first: as it is, changed from its start or its place 13."""
    for place in range(1, LENGTH):
        months = next_records(rng, FRESH, MONTHLY, rng.choice(CLIMATES), LENGTH)
        after, rest, field = taken(FRESH, months[:place]), months[place:], rng.choice(Year._fields)
        yield months_case(FRESH, months[:place], place)
        yield months_case(after, rest, len(rest))
        yield months_case(after, changed(rng, rest, 0, LENGTH, field), len(rest) if place % MONTHS == 0 else 0)
        if place <= MONTHS:
            yield months_case(after, changed(rng, rest, 12, LENGTH, field), len(rest) if place == MONTHS else 12)


def long_runs(rng):
    """All months that a ledger takes, and the last changed; runs after many months, up to the last and to one more."""
    months = next_records(rng, FRESH, MONTHLY, 3, RECORDS)
    yield months_case(FRESH, months, RECORDS)
    yield months_case(FRESH, changed(rng, months, RECORDS - 1, RECORDS, "f"), RECORDS - 1)
    for n in (11, 12, 13, 23, 24, 251, 252, 255, 256, 599, 600, 601, 1175, 1176, 1186):
        ledger, months = next_months(rng, n, 14)
        begins = -n % MONTHS  # the place of the first month that begins a year
        yield months_case(ledger, months, 14)
        yield months_case(ledger, changed(rng, months, begins, begins + 1, rng.choice(Year._fields)), begins + 1)
    for n in (1187, 1188, 1189, 1198, 1199):
        ledger, months = next_months(rng, n, RECORDS + 1 - n)
        yield run_case(ledger, file_of(months), BYTES * len(months), (RECORDS - n, 4))


def next_months(rng, n, count):
    """A ledger with n records, and so many months that share their years."""
    ledger, first, *_ = offer_at(rng, n)
    return ledger, next_records(rng, ledger, MONTHLY, first.climate, count)


def steps(rng):
    """Each month of several years, with the year's factors and with one of them changed."""
    for q, r in product((0, 1, 21, 99), range(MONTHS)):
        offer = offer_at(rng, MONTHS * q + r)
        yield offer_case(offer, 0)
        for field in Year._fields:
            yield step_case(offer.ledger, write_record(another(rng, offer.record, field)), expect=17 if r else 0)


def by_year(rng):
    """Years with any values, as months may not have them."""
    for climate in CLIMATES:
        yield run_case(FRESH, random_file(rng, 0, YEARLY, climate, LENGTH), BYTES * LENGTH, (LENGTH, 0))
    for n in (1, 11, 12, 13, 23, 24, 255, 600, 1186):
        ledger, first, *_ = offer_at(rng, n, YEARLY)
        yield run_case(ledger, random_file(rng, n, YEARLY, first.climate, 14), BYTES * 14, (14, 0))
    for n in range(1188, RECORDS):
        yield offer_case(offer_at(rng, n, YEARLY), 0)


def at_random(rng):
    """Runs and listings with and without damage; months with few values; a byte of image or record changed."""
    for kind, climate in KINDS_AND_CLIMATES * 2:
        past = next_records(rng, FRESH, kind, climate, rng.choice((0, rng.randint(1, 30))))
        ledger = taken(FRESH, past)
        data = file_of(next_records(rng, ledger, kind, climate, rng.randint(1, LENGTH)))
        yield run_case(ledger, data, len(data), (len(data) // BYTES, 0))
        yield run_case(ledger, damaged(rng, data), len(data) + BYTES)
        yield run_case(ledger, hit(rng, data, VALUES), len(data))
        yield case("l", file_of(past) + data)
        yield case("l", hit(rng, file_of(past) + data, VALUES))
    for _ in range(30):
        months, few = alike(rng, LENGTH), (random_year(rng), random_year(rng))
        data = file_of(sharing(month, few[rng.random() < 0.05]) for month in months)
        yield run_case(FRESH, data, len(data), unless_changed(FRESH, data, (LENGTH, 0)))
    for places in [range(248)] * 20 + [range(4, 8)] * 15:
        ledger, data = byte_changed(rng, within_year(rng), places)
        yield step_case(ledger, data)


def months(rng):
    parts = changes, free_fields, near_misses, splits, long_runs, steps, by_year
    for part in (*parts, at_fault, stopped, remembered, not_remembered, old_images, at_random):
        yield from part(rng)
