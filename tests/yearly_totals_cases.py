"""The cases of yearly totals where every record is accepted, each built for its answer.

A case is an error here where the reference gives another answer than the one it is built for.
"""
from itertools import product
from typing import NamedTuple

import cases
from cases import case
from histories import PLAIN, balanced, ceilings, file_of, greatest_record, measured, next_measured, only
from months_faults import offer_at
from reference import BYTES, CLIMATES, FRESH, MASS_LIMIT, MONTHLY, MONTHS, NONE, RECORDS, Ledger, little, run
from reference import write_record, year_of
from yearly_totals import EMPTY, MOST, SLOT, YEARS, Slot, run_months, slot_of, take_month, with_slot, write_slot

FIRST = PLAIN._replace(kind=MONTHLY)  # the first month of a site
SUMS = "x0", "figure", "bound"
TAKEN = 2**32 - 1, 2**63, MOST - 1, MOST  # sums to which a month is added


class Site(NamedTuple):
    """A ledger with its totals."""

    ledger: Ledger = FRESH
    totals: bytes = EMPTY


START = Site()


def payload_of(site, data, room, width):
    """The payload, its room in so many bytes. The zeros at the end of the totals are not given."""
    given = site.totals.rstrip(b"\0")
    head = little([(room, width), (len(site.totals), 2), (len(given), 2)])
    return cases.image(site.ledger) + head + given + data


def month_case(site, data, expect=0, room=BYTES):
    """One step; expect is the refusal that it is built for."""
    payload = payload_of(site, data, room, 2)
    found = take_month(*cases.read_month(payload)).step.refusal
    if expect not in (None, found):
        raise SystemExit(f"month built for {expect}, found {found}: {payload.hex()}")
    return case("y", payload)


def months_case(site, data, expect=None, room=None):
    """A whole run; expect is the accepted count and the refusal that it is built for, all records where it is None."""
    payload = payload_of(site, data, len(data) if room is None else room, 4)
    answer = run_months(*cases.read_months(payload)).run
    if (answer.accepted, answer.refusal) != (expect or (len(data) // BYTES, 0)):
        raise SystemExit(f"months built for {expect}, found {answer.accepted} {answer.refusal}: {payload.hex()}")
    return case("w", payload)


def some_months(rng, count, site=START, climate=None):
    """So many months that a ledger accepts one after another."""
    return next_measured(rng, site.ledger, MONTHLY, climate or site.ledger.climate or rng.choice(CLIMATES), count)


def after(site, records):
    """The site after months with totals."""
    data = file_of(records)
    answer, totals = run_months(*site, data, bytes(len(data)))
    return Site(answer.ledger, totals)


def after_plain(site, records):
    """The site after months that were taken without totals."""
    data = file_of(records)
    return site._replace(ledger=run(site.ledger, data, bytes(len(data))).ledger)


def some_sums(rng):
    """Three sums of any size."""
    return tuple(rng.randrange(rng.choice((1, 1000, 10**10, 2**53, MOST))) for _ in SUMS)


def counted(rng, n):
    """The slot of the month after n others, and what it holds: the months before it in its year, with any sums."""
    k, months = slot_of(n + 1)
    return k, Slot(k + 1, months, *some_sums(rng)) if months else Slot()


def asked_at(rng, n):
    """A site with n months, and the next one. All other slots are zero."""
    ledger, record, *_ = offer_at(rng, n)
    return Site(ledger, with_slot(EMPTY, *counted(rng, n))), measured(rng, record)


def first_month(rng):
    """The first month: a kilogram of a type, P9 among them; any month in each climate; a figure of 0; no waste."""
    for t in (1, 3):
        yield month_case(START, write_record(FIRST._replace(masses=only(t, 1))))
    for climate in CLIMATES:
        yield month_case(START, file_of(some_months(rng, 1, climate=climate)))
    for changes in ({"F": 0, "masses": (MASS_LIMIT,) * 8}, {"masses": NONE}, {"masses": only(6, MASS_LIMIT)}):
        yield month_case(START, write_record(FIRST._replace(**changes)))
    yield month_case(START, write_record(greatest_record(0, MONTHLY, 4, 100)), room=BYTES + 5)


def each_month(rng):
    """Each month of the first year and some later ones, about period 256, in the middle and up to the last."""
    for n in (*range(MONTHS + 2), 23, 24, 35, 36, 100, 251, 252, 255, 256, 600, 1187, 1188, RECORDS - 1):
        site, record = asked_at(rng, n)
        yield month_case(site, write_record(record))


def among(site, others):
    """The site with these bytes in all slots but that of its next month."""
    at = SLOT * slot_of(site.ledger.n + 1)[0]
    return site._replace(totals=others[:at] + site.totals[at : at + SLOT] + others[at + SLOT :])


def other_slots(rng):
    """Other slots with any bytes: they are not looked at, and stay as they are."""
    for n, filling in product((0, 5, 12, 23), (rng.randbytes(SLOT), write_slot(Slot(2, 12, 1, 1, 1)))):
        site, record = asked_at(rng, n)
        yield month_case(among(site, filling * 4 + bytes((YEARS - 4) * SLOT)), write_record(record))
    for n in (30, RECORDS - 1):
        site, record = asked_at(rng, n)
        yield month_case(among(site, rng.randbytes(len(EMPTY) - 1) + b"\1"), write_record(record))


def sums(rng):
    """Each sum alone at limits up to 10^19, to which any month is added; all at once; next to nothing added."""
    for field, value in product(SUMS, TAKEN):
        site, record = asked_at(rng, rng.choice((1, 7, 11, 14)))
        k, slot = counted(rng, site.ledger.n)
        totals = with_slot(site.totals, k, slot._replace(**{field: value}))
        yield month_case(site._replace(totals=totals), write_record(record))
    for n in (1, 13):
        site, record = asked_at(rng, n)
        k, slot = counted(rng, n)
        totals = with_slot(EMPTY, k, slot._replace(**dict.fromkeys(SUMS, MOST)))
        yield month_case(site._replace(totals=totals), write_record(record))
        yield month_case(site._replace(totals=totals), write_record(record._replace(F=0, masses=NONE)))


def greatest(_rng):
    """The greatest stocks, factors and masses, added to sums of 10^19: the greatest sums that there are."""
    for n in (1, 11, 18, RECORDS - 1):
        record, full = greatest_record(n, MONTHLY, 4, 100), ceilings(n)
        ledger = balanced(Ledger(n, MONTHLY, 4, year_of(record), full, full))
        k, months = slot_of(n + 1)
        yield month_case(Site(ledger, with_slot(EMPTY, k, Slot(k + 1, months, MOST, MOST, MOST))), write_record(record))


def by_file(rng):
    """Files from fresh: of one month to two years and a month, in each climate; with room to spare."""
    for count, climate in zip((1, 2, 12, 13, 25), (*CLIMATES, 4)):
        data = file_of(some_months(rng, count, climate=climate))
        yield months_case(START, data, room=len(data) + rng.choice((0, 1, 30)))
    data = file_of(FIRST._replace(period=n) for n in range(1, 15))
    yield months_case(START, data)


def in_parts(rng):
    """A file in two, also in the middle of a year: the totals are carried on. Both, and then the whole file."""
    for place in (5, 11, 12, 13):
        months = some_months(rng, 20)
        yield months_case(START, file_of(months[:place]))
        yield months_case(after(START, months[:place]), file_of(months[place:]))
        yield months_case(START, file_of(months))


def from_the_middle(rng):
    """Files from any ledger with n months up to the second year after, with sums of any size; to the last month."""
    for n in (3, 12, 251):
        site, record = asked_at(rng, n)
        rest = some_months(rng, 13, after(site, [record]))
        yield months_case(site, file_of([record, *rest]))
    site, record = asked_at(rng, 1180)
    rest = some_months(rng, RECORDS - 1181, after(site, [record]))
    yield months_case(site, file_of([record, *rest]))


def beside_plain(rng):
    """Plain steps for the rest of a year: the next year is taken, and the old slot keeps its months."""
    months = some_months(rng, 26)
    for offered, plain in ((5, 12), (0, 12), (11, 12), (5, 24)):
        site = after_plain(after(START, months[:offered]), months[offered:plain])
        yield month_case(site, write_record(months[plain]))
        yield months_case(site, file_of(months[plain : plain + 2]))


def no_bytes(rng):
    """No records: nothing changes, whatever the ledger and the totals hold."""
    used = after(START, some_months(rng, 14))
    unsound, full = used.ledger._replace(n=RECORDS + 1), used.ledger._replace(n=RECORDS)
    any_bytes = rng.randbytes(70) + bytes(len(EMPTY) - 70)
    for ledger, totals in product((used.ledger, unsound, full), (EMPTY, used.totals, any_bytes)):
        yield months_case(Site(ledger, totals), b"", room=rng.choice((0, 0, 50)))
    yield months_case(Site(FRESH._replace(kind=1), bytes([255]) * len(EMPTY)), b"")


def at_random(rng):
    """Any month of any ledger, with room for more."""
    for n in (0, 0, *(rng.randrange(60) for _ in range(6))):
        site, record = asked_at(rng, n)
        yield month_case(site, write_record(record), room=BYTES + rng.choice((0, 1, 40)))


SHORT = first_month, each_month, other_slots, sums, greatest, by_file, in_parts
SHORT += from_the_middle, beside_plain, no_bytes, at_random


def longest(rng):
    """All months that a ledger takes, with more room than is lent."""
    yield months_case(START, file_of(some_months(rng, RECORDS)), room=2**32 - 1)


def with_totals(rng):
    for part in (*SHORT, longest):
        yield from part(rng)
