"""The cases of sludge with a measured dry matter, each built for the answer that document 02 gives it.

A case built for a refusal is an error here where the reference answers another.
"""
from itertools import product

from base_cases import byte_changed, fair_offer
from built import listing_case, offer_case, offer_in_year, run_case, step_case
from cases import case
from faults import FAULTS, Offer, applied, four_bytes, in_record, named, of_field
from histories import KINDS_AND_CLIMATES, PLAIN, balanced, by_default, ceilings, damaged, file_of, greatest_record, hit
from histories import measured, next_measured, next_record, next_records, only, random_ledger, replaced, taken
from months_faults import OTHERS, within_year
from reference import BYTES, CLIMATES, FRESH, KINDS, MASS_LIMIT, MONTHLY, NO_YEAR, NONE, RECORDS, Ledger, little
from reference import write_record, year_of

SLUDGES = (7, 8)
OVER = [fault for place in SLUDGES for fault in in_record(8, f"m{place}", 101, 102, 128, 200, 255)]
NOT_ZERO = in_record(5, "zero", b"\1\0", b"\0\1", b"\x80\0", b"\xff\xff")

# Dry matter of types 7 and 8 from record to record: what an earlier one had would be seen.
MEASURES = (
    [(100, 0), (0, 0), (0, 100), (0, 0), (0, 0)],
    [(35, 10), (10, 35), (0, 35), (10, 0), (0, 0)],
    [(0, 0), (1, 1), (0, 0), (100, 100), (1, 100), (100, 1)],
    [(0, 0), (0, 0), (72, 73), (73, 72)],
    [(50, 50), (50, 50), (50, 50), (49, 50), (49, 51)],
)


def offer_at(rng, n, kind=None):
    """An offer to a ledger with n records that is accepted, with T up to its ceilings and any dry matter."""
    kind, climate = kind or rng.choice(KINDS), rng.choice(CLIMATES)
    ledger = random_ledger(rng, kind, climate, n, ceilings) if n else FRESH
    return Offer(ledger, measured(rng, next_record(rng, ledger, kind, climate)))


def any_n(rng):
    """How many records a ledger has that holds some."""
    return rng.choice((1, 2, 11, 12, 255, 1199, rng.randint(1, 1199)))


def any_kg(rng):
    return rng.choice((1, 34, MASS_LIMIT, rng.randint(2, 1000), rng.randint(2, MASS_LIMIT)))


def with_sludge(record, place, kg, m):
    """The record with that much of a sludge, and that dry matter of it."""
    return record._replace(masses=replaced(record.masses, place - 1, kg), **{f"m{place}": m})


def with_both(rng, record, measure):
    """The record with some of both sludges, and with their dry matter."""
    for place, m in zip(SLUDGES, measure):
        record = with_sludge(record, place, any_kg(rng), m)
    return record


def first_kilograms(_rng):
    """One kilogram of a sludge in a first step, as document 01's worked figures have it."""
    for place, m, kind in product(SLUDGES, (0, 1, 10, 35, 99, 100), KINDS):
        yield step_case(FRESH, write_record(with_sludge(PLAIN._replace(kind=kind), place, 1, m)), expect=0)


def every_byte(rng):
    """Each byte as the dry matter of each sludge, with mass of it and without, in fresh ledgers and in others."""
    for place, m, brings in product(SLUDGES, range(256), (True, False)):
        starts = 0, any_n(rng)
        for n in starts if m <= 100 else rng.sample(starts, 1):
            offer = offer_at(rng, n)
            record = with_sludge(offer.record, place, any_kg(rng) if brings else 0, m)
            yield offer_case(offer._replace(record=record), 0 if m <= 100 else 8)


def both(rng):
    """Both sludges with dry matter: each two of some values, both ways about."""
    for measure in product((0, 1, 10, 35, 50, 100), repeat=2):
        offer = offer_at(rng, rng.choice((0, any_n(rng))))
        yield offer_case(offer._replace(record=with_both(rng, offer.record, measure)), 0)


def changing(rng):
    """Dry matter that comes, changes and goes from record to record, in runs and listings, within a year too."""
    for (kind, climate), measures in product(KINDS_AND_CLIMATES, MEASURES):
        for ledger in (FRESH, random_ledger(rng, kind, climate, rng.randint(1, 1190), ceilings)):
            records = next_records(rng, ledger, kind, climate, len(measures))
            data = file_of(with_both(rng, record, measure) for record, measure in zip(records, measures))
            yield run_case(ledger, data, len(data), (len(measures), 0))
            if ledger == FRESH:
                yield listing_case(data, (len(measures), 0))


def in_parts(rng):
    """A history in two files, the second from the ledger after the first."""
    for kind, climate in KINDS_AND_CLIMATES:
        records, place = next_measured(rng, FRESH, kind, climate, 26), rng.randint(1, 25)
        yield run_case(FRESH, file_of(records[:place]), BYTES * place, (place, 0))
        yield run_case(taken(FRESH, records[:place]), file_of(records[place:]), BYTES * 26, (26 - place, 0))


def stopped(rng):
    """Runs and listings that dry matter over 100 stops, where there is none of that sludge."""
    for place, m, at in product(SLUDGES, (101, 255), (0, 1, 4)):
        for n in (0, rng.randint(1, 1190)):
            ledger, first, *_ = offer_at(rng, n)
            records = next_measured(rng, ledger, first.kind, first.climate, 6)
            records[at] = with_sludge(records[at], place, 0, m)
            data = file_of(records)
            yield run_case(ledger, data, len(data), (at, 8))
            if n == 0:
                yield listing_case(data, (at, 8))


def at_fault(rng):
    """Dry matter over 100 alone, of both sludges, beside each fault of document 01, beside other factors of a year."""
    for over in OVER:
        yield offer_case(applied(offer_at(rng, any_n(rng)), [over]), 8)
    for one, other in zip(OVER[:5], OVER[5:]):
        yield offer_case(applied(offer_at(rng, any_n(rng)), [one, other]), 8)
    for fault in FAULTS:
        pair = fault, rng.choice(OVER)
        yield offer_in_year(applied(fair_offer(rng), pair), named(*pair))
    for fault in OTHERS:
        pair = fault, rng.choice(OVER)
        yield offer_case(applied(within_year(rng), pair), named(*pair))
    for over in OVER:
        kinds = NOT_ZERO, of_field(6, "period"), of_field(7, "climate"), [over], OTHERS, of_field(9, "masses")
        rest = [rng.choice(kind) for kind in kinds]
        for least in range(len(rest)):
            yield offer_case(applied(within_year(rng), rest[least:]), named(*rest[least:]))


def four(rng):
    """Bytes 12 to 15, each with each of some values, and every bit of them alone."""
    values = product((0, 100, 101), (0, 100, 101), (0, 1, 255), (0, 1, 255))
    for data in (*map(bytes, values), *(little([(1 << bit, 4)]) for bit in range(32))):
        fault = four_bytes(data)
        yield offer_case(applied(offer_at(rng, rng.choice((0, any_n(rng)))), [fault]), named(fault))


def at_ceilings(rng):
    """T of a sludge at the most without dry matter and one more, at its ceiling and one more, for any dry matter."""
    for n, kind, place, m in product((1, 2, 1199, 1200), KINDS, SLUDGES, (0, 100)):
        default, most = by_default(n)[place - 1], ceilings(n)[place - 1]
        for T in (default, default + 1, most, most + 1):
            ledger, record, *_ = offer_at(rng, n, kind)
            R = replaced(ledger.R, place - 1, rng.choice((0, T, rng.randint(0, T))))
            ledger = balanced(ledger._replace(T=replaced(ledger.T, place - 1, T), R=R))
            number = 3 if T > most else 4 if n == RECORDS else 0
            yield step_case(ledger, write_record(record._replace(**{f"m{place}": m})), expect=number)


def full_ledger(n, kind, climate, more=NONE):
    """A ledger with n of the greatest records, nothing released, and some more of a type."""
    T = tuple(map(sum, zip(ceilings(n), more)))
    return Ledger(n, kind, climate, year_of(greatest_record(n, kind, climate)) if kind == MONTHLY else NO_YEAR, T, T)


def from_ceilings(_rng):
    """Runs of the greatest records from a ledger at its ceilings, up to the last that it takes; from one above them."""
    for n, (kind, climate) in product((1, 2, 1197, 1198, 1199, 1200), KINDS_AND_CLIMATES):
        data = file_of(greatest_record(n + i, kind, climate, 100) for i in range(3))
        left = min(3, RECORDS - n)
        yield run_case(full_ledger(n, kind, climate), data, len(data), (left, 0 if left == 3 else 4))
    for place, kind in product(SLUDGES, KINDS):
        data = file_of(greatest_record(7 + i, kind, 4, 100) for i in range(2))
        yield run_case(full_ledger(7, kind, 4, only(place, 1)), data, len(data), (0, 3))


def full_runs(_rng):
    """All records that a ledger takes, each with the most of everything: T ends at its ceilings."""
    for kind in KINDS:
        data = file_of(greatest_record(n, kind, 4, 100) for n in range(RECORDS))
        yield run_case(FRESH, data, len(data), (RECORDS, 0))


def at_random(rng):
    """Runs and listings with and without damage, and with one of bytes 12 to 15 changed; steps with a byte changed."""
    places = range(12, 16)
    for kind, climate in KINDS_AND_CLIMATES * 3:
        ledger = rng.choice((FRESH, random_ledger(rng, kind, climate, rng.randint(1, 1190), ceilings)))
        data = file_of(next_measured(rng, ledger, kind, climate, rng.randint(1, 8)))
        yield run_case(ledger, data, len(data), (len(data) // BYTES, 0))
        yield run_case(ledger, damaged(rng, data), len(data) + BYTES)
        yield run_case(ledger, hit(rng, data, places), len(data))
        listed = file_of(next_measured(rng, FRESH, kind, climate, rng.randint(1, 8)))
        yield case("l", listed)
        yield case("l", hit(rng, listed, places))
    for at in [range(248)] * 20 + [range(212, 216)] * 40:
        ledger, data = byte_changed(rng, offer_at(rng, any_n(rng)), at)
        yield step_case(ledger, data)


def sludge(rng):
    parts = first_kilograms, every_byte, both, changing, in_parts, stopped, at_fault, four
    for part in (*parts, at_ceilings, from_ceilings, full_runs, at_random):
        yield from part(rng)
