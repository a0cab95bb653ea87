"""The cases of a run's decay work, each built for the number that document 02 gives it.

A case built for an accepted count, a refusal or a work is an error here where the reference answers another.
"""
from itertools import product
from typing import NamedTuple

import cases
from base_cases import byte_changed
from built import run_case
from faults import Offer
from histories import KINDS_AND_CLIMATES, PLACES, balanced, damaged, file_of, measured, next_records, only, plain_year
from histories import replaced, taken
from reference import BYTES, DOC, FRESH, MASS_LIMIT, MONTHLY, NONE, RECORDS, YEARLY, Ledger, decay, rates, write_record

CARBON = [t for t, doc in enumerate(DOC, 1) if doc]  # the seven types that have carbon
INERT = 6
EACH = (1,) * 8  # one kilogram of each type
LARGE = 10**7  # mg, more than decays away in a short run


class Start(NamedTuple):
    """A ledger, and the kind and climate of the records that it is offered."""

    ledger: Ledger
    kind: int
    climate: int


def fresh(rng, code=None):
    """A fresh ledger; code is the kind and climate, any where it is not given."""
    return Start(FRESH, *(code or rng.choice(KINDS_AND_CLIMATES)))


def holding(rng, R, code=None, n=None):
    """A ledger in use with these stocks; T is what is left of each type, or more."""
    kind, climate = code or rng.choice(KINDS_AND_CLIMATES)
    more = rng.choice(((0,), (1,), (0, 1, 150000)))
    T = tuple(r + (rng.choice(more) if doc else 0) for r, doc in zip(R, DOC))
    n = n or rng.choice((1, 2, 11, 12, 255, RECORDS - 15, rng.randint(1, RECORDS - 15)))
    return Start(balanced(Ledger(n, kind, climate, plain_year(kind), T, R)), kind, climate)


def of_carbon(amount):
    """Eight amounts, that of inert waste 0; the others are worked out one by one."""
    return tuple(amount() if doc else 0 for doc in DOC)


def any_start(rng, code=None):
    """A fresh ledger, or one with types that have nothing left, up to three milligrams, or plenty."""
    few = rng.choice(((0, 1, 2, 3), (0, 0, LARGE), (0, 1, 2, 3, LARGE, 10**9)))
    return rng.choice((fresh(rng, code), holding(rng, of_carbon(lambda: rng.choice(few)), code)))


def any_waste(rng):
    """Eight masses: nothing at all, or nothing of most types."""
    return rng.choice((NONE, tuple(rng.choice((0, 0, 0, 1, rng.randint(1, MASS_LIMIT))) for _ in PLACES)))


def any_lists(rng, most):
    """Masses of one record or more, up to so many."""
    return [any_waste(rng) for _ in range(rng.randint(1, most))]


def work_after(R, lists):
    """The work of a short run, where a stock loses one milligram with each record, or is large.

    Of a type there is carbon in as many records as its stock has milligrams, and from the first that brings some on.
    """
    found = (R[t - 1] > i or any(masses[t - 1] for masses in lists[: i + 1]) for t in CARBON for i in range(len(lists)))
    return sum(found)


def bringing(rng, start, lists):
    """Records with these masses that a ledger accepts. Factors and dry matter are any: they add no work."""
    records = next_records(rng, *start, len(lists))
    return [measured(rng, record)._replace(masses=masses) for record, masses in zip(records, lists)]


def work_case(rng, start, lists, work=None):
    """A run of records with these masses, all accepted, with just the room that they need, or more."""
    data = file_of(bringing(rng, start, lists))
    work = work_after(start.ledger.R, lists) if work is None else work
    return run_case(start.ledger, data, len(data) + rng.choice((0, 0, 0, 1, BYTES)), (len(lists), 0), work)


def last_milligrams(rng):
    """Up to three milligrams and nothing brought: whatever the type, one is gone with each record."""
    for t, mg in product(CARBON, (1, 2, 3)):
        yield work_case(rng, holding(rng, only(t, mg)), [NONE] * (mg + 1), mg)
    for code in KINDS_AND_CLIMATES:
        yield work_case(rng, holding(rng, of_carbon(lambda: 1), code), [NONE] * 2, 7)
        R = of_carbon(lambda: rng.randint(0, 3))
        yield work_case(rng, holding(rng, R, code), [NONE] * 4, sum(R))


def lost_by_ones(kind, climate):
    """The largest stock of each type that loses just one milligram with a record, 0 of inert waste."""
    entries = (decay(kind, rate) for rate in rates(climate))
    return tuple(10**9 // (10**9 - D) if D else 0 for D in entries)


# Stocks in mg at rate 400 by year, and how many records find carbon, by hand: of 10 mg there are 10, 6, 4, 2, 1.
FASTEST = {4: 3, 5: 4, 6: 4, 7: 4, 8: 5, 9: 5, 10: 5}


def dwindling(rng):
    """More milligrams and nothing brought, until each type is used up: lost by ones, or at the highest rate."""
    for code in KINDS_AND_CLIMATES:
        R = tuple(min(most, rng.randint(1, 13)) for most in lost_by_ones(*code))
        yield work_case(rng, holding(rng, R, code), [NONE] * (max(R) + 1), sum(R))
    for mg, records in FASTEST.items():
        R = only(rng.choice((3, 7)), mg)
        yield work_case(rng, holding(rng, R, (YEARLY, 4)), [NONE] * (records + 1), records)


def old_stock(rng):
    """Nothing brought to a ledger in use: one type left, one type used up, all of them used up, any of them left."""
    for t in CARBON:
        yield work_case(rng, holding(rng, only(t, LARGE)), [NONE] * 2, 2)
        yield work_case(rng, holding(rng, replaced(of_carbon(lambda: LARGE), t - 1, 0)), [NONE] * 2, 12)
    for code in KINDS_AND_CLIMATES:
        yield work_case(rng, holding(rng, NONE, code), [NONE] * 2, 0)
        yield work_case(rng, any_start(rng, code), [NONE] * rng.randint(1, 5))


def brought(rng):
    """One type brought, all but one, all, or any: to fresh ledgers, to those used up, to those with other stocks."""
    for t in range(1, 9):
        carbon = int(t != INERT)
        yield work_case(rng, fresh(rng), [only(t, 1)], carbon)
        yield work_case(rng, fresh(rng), [only(t, MASS_LIMIT), NONE], 2 * carbon)
        yield work_case(rng, fresh(rng), [replaced(EACH, t - 1, 0)], 7 - carbon)
        yield work_case(rng, holding(rng, NONE), [only(t, 1), NONE], 2 * carbon)
        yield work_case(rng, holding(rng, only(t % 5 + 1, 1)), [only(t, 1)], 1 + carbon)
    for code in KINDS_AND_CLIMATES:
        yield work_case(rng, fresh(rng, code), [EACH], 7)
        yield work_case(rng, any_start(rng, code), [NONE, any_waste(rng), NONE, any_waste(rng)])


def brought_again(rng):
    """A type that is used up and brought again later, and one that is brought before its last milligram is gone."""
    for t in CARBON:
        yield work_case(rng, holding(rng, only(t, 1)), [NONE, NONE, NONE, only(t, 1), NONE], 3)
        yield work_case(rng, holding(rng, only(t, 2)), [NONE, only(t, 1), NONE], 3)


def steady(rng):
    """A type of which each record brings just what decays, so that its stock stays the same."""
    for t in CARBON[:5]:
        kind, climate = rng.choice(KINDS_AND_CLIMATES)
        D, deposit = decay(kind, rates(climate)[t - 1]), DOC[t - 1] * 100
        R = only(t, deposit * D // (10**9 - D))
        yield work_case(rng, holding(rng, R, (kind, climate)), [only(t, 1)] * 2, 2)


def lower_bytes(rng):
    """Stocks and deposits whose lower bytes are zero: they are above zero as whole numbers."""
    for mg in (2**8, 2**16, 2**32, 2**40):
        yield work_case(rng, holding(rng, of_carbon(lambda mg=mg: mg)), [NONE], 7)
    yield work_case(rng, fresh(rng), [(2**29,) * 8], 7)


def inert(rng):
    """Inert waste alone and beside another type: it adds nothing."""
    for kg, code in product((1, MASS_LIMIT), rng.sample(KINDS_AND_CLIMATES, 2)):
        alone = only(INERT, kg)
        yield work_case(rng, fresh(rng, code), [alone] * 2, 0)
        yield work_case(rng, holding(rng, NONE, code), [alone], 0)
        yield work_case(rng, holding(rng, only(5, 1), code), [alone] * 2, 1)
        yield work_case(rng, fresh(rng, code), [replaced(alone, rng.choice((4, 6)), 1), alone], 2)


def dry_matter(rng):
    """One kilogram of a sludge with any dry matter, or with none measured: there is always carbon in it."""
    for t, m in product((7, 8), (0, 1, 2, 10, 35, 50, 100)):
        start = rng.choice((fresh(rng), holding(rng, NONE)))
        (record,) = bringing(rng, start, [only(t, 1)])
        yield run_case(start.ledger, write_record(record._replace(**{f"m{t}": m})), BYTES, (1, 0), 1)


def in_parts(rng):
    """A history in one file and in two: the work of both adds up to that of the one."""
    for code in KINDS_AND_CLIMATES:
        start, lists = any_start(rng, code), [EACH, *any_lists(rng, 4)][::-1]
        records, place, R = bringing(rng, start, lists), rng.randint(1, len(lists) - 1), start.ledger.R
        both, first = work_after(R, lists), work_after(R, lists[:place])
        for since, until, work in [(0, len(lists), both), (0, place, first), (place, len(lists), both - first)]:
            data = file_of(records[since:until])
            yield run_case(taken(start.ledger, records[:since]), data, len(data), (until - since, 0), work)


def above_a_byte(rng):
    """Runs whose work does not fit in a byte."""
    yield work_case(rng, fresh(rng, (YEARLY, 2)), [EACH] * 37, 259)
    yield work_case(rng, holding(rng, of_carbon(lambda: 10**9), (MONTHLY, 4), 12), [NONE] * 40, 280)


def at_random(rng):
    """Runs from any ledger, without damage, with damage to the file, and with a byte of the ledger changed."""
    for code in KINDS_AND_CLIMATES:
        yield work_case(rng, any_start(rng, code), any_lists(rng, 5))
    for code in KINDS_AND_CLIMATES * 2:
        start = any_start(rng, code)
        data = file_of(bringing(rng, start, any_lists(rng, 4)))
        yield run_case(start.ledger, damaged(rng, data), len(data) + rng.choice((0, BYTES)))
    for _ in range(8):
        start = holding(rng, of_carbon(lambda: rng.choice((0, 1, 2, LARGE))))
        (record,) = bringing(rng, start, [any_waste(rng)])
        ledger, data = byte_changed(rng, Offer(start.ledger, record), range(cases.IMAGE))
        yield run_case(ledger, data, BYTES)


def work(rng):
    parts = last_milligrams, dwindling, old_stock, brought, brought_again, steady, lower_bytes, inert
    for part in (*parts, dry_matter, in_parts, above_a_byte, at_random):
        yield from part(rng)
