"""Holds the reference to request h of document 02: what a record's decay work counts, and what a run's adds up."""
from itertools import product

import reference
import retold
from base_cases import byte_changed
from checks import NOTHING, ROOM, check, fields_of
from faults import Offer
from histories import KINDS_AND_CLIMATES, PLAIN, balanced, damaged, file_of, next_measured, only, plain_year
from histories import random_ledger, random_year, replaced, sharing
from reference import FRESH, Ledger, step, write_record, year_of
from work_cases import any_lists, any_start, any_waste, bringing

EACH = (1, 1, 1, 1, 1, 1, 1, 1)  # kg
SEVEN = (1, 1, 1, 1, 1, 0, 1, 1)  # the same without inert waste, or a mg of each type that has carbon


def left(R, n=1, kind=1, climate=4):
    """A ledger with these stocks, of each type a milligram less than was brought in."""
    return balanced(Ledger(n, kind, climate, plain_year(kind), tuple(map(sum, zip(R, SEVEN))), R))


def plain(ledger, *lists, **fields):
    """The bytes of plain records with these masses, the next for a ledger."""
    fields = {"kind": ledger.kind, "climate": ledger.climate, **fields} if ledger.n else fields
    return file_of(PLAIN._replace(period=ledger.n + i, masses=kg, **fields) for i, kg in enumerate(lists, 1))


def whole(data, accepted):
    """So many records at the start of a file."""
    return [data[at : at + 48] for at in range(0, 48 * accepted, 48)]


def releases_above_zero(ledger, data, accepted):
    """How many releases of the accepted records are above zero: whatever decays loses at least a milligram."""
    count = 0
    for offered in whole(data, accepted):
        answer = step(ledger, offered, ROOM)
        ledger, count = answer.ledger, count + sum(release > 0 for release in answer.releases)
    return count


def run_of(ledger, data, room=None):
    """A run's accepted count, refusal and work. The work is told a second time, and is within its bounds."""
    answer = reference.run(ledger, data, bytes(len(data) if room is None else room))
    records = list(map(fields_of, whole(data, answer.accepted)))
    check(f"work of {data.hex()} for {ledger}", answer.work, retold.work(ledger.R, records))
    check("releases above zero", answer.work, releases_above_zero(ledger, data, answer.accepted))
    check("at most 7 a record and 8400", 0 <= answer.work <= min(7 * answer.accepted, 8400), True)
    return answer.accepted, answer.refusal, answer.work


def counted(name, ledger, data, *wanted):
    check(name, run_of(ledger, data), wanted)


def worked():
    """Runs counted by hand: stocks, the masses of the records, and the work."""
    food, glass = only(3, 1), only(6, 10**9)
    for R, lists, work in [
        (NOTHING, [NOTHING], 0),
        (NOTHING, [food], 1),
        (NOTHING, [food, NOTHING, NOTHING], 3),
        (NOTHING, [NOTHING, food, NOTHING], 2),
        (NOTHING, [glass, glass], 0),
        (NOTHING, [EACH], 7),
        (NOTHING, [SEVEN], 7),
        (NOTHING, [(10**9,) * 8] * 3, 21),
        (NOTHING, [glass, food, glass], 2),
        (only(3, 1), [NOTHING], 1),
        (only(3, 1), [NOTHING, NOTHING], 1),
        (only(3, 1), [food, NOTHING], 2),
        (only(3, 1), [NOTHING, NOTHING, NOTHING, food], 2),
        (only(3, 1), [only(5, 1), NOTHING], 3),
        (only(3, 4), [NOTHING] * 6, 3),  # 4, 2, 1
        (only(3, 10), [NOTHING] * 6, 5),  # 10, 6, 4, 2, 1
        (only(5, 10), [NOTHING] * 9, 8),  # at rate 170: 10, 8, 6, 5, 4, 3, 2, 1
        (SEVEN, [NOTHING], 7),
        (SEVEN, [glass, glass], 7),
        (SEVEN, [NOTHING, EACH], 14),
        ((2, 2, 2, 2, 2, 0, 2, 2), [NOTHING] * 3, 14),
        ((3, 0, 1, 0, 0, 0, 2, 0), [NOTHING] * 9, 6),
    ]:
        ledger = left(R)
        counted(f"{R} with {lists}", ledger, plain(ledger, *lists), len(lists), 0, work)
        if R == NOTHING:
            counted(f"fresh with {lists}", FRESH, plain(FRESH, *lists), len(lists), 0, work)
    for ledger in (FRESH, left(SEVEN), left(SEVEN, 1200), left(SEVEN, 1201)):
        counted(f"no bytes for {ledger}", ledger, b"", 0, 0, 0)


def last_milligrams():
    """One, two and three milligrams of each type in each climate, by year and month: gone after as many records."""
    for (kind, climate), place, mg in product(KINDS_AND_CLIMATES, range(1, 9), (1, 2, 3)):
        ledger = balanced(Ledger(1, kind, climate, plain_year(kind), *[only(place, mg)] * 2))
        wanted = (0, 3, 0) if place == 6 else (4, 0, mg)  # inert waste has no stock: such a ledger is unsound
        counted(f"{mg} mg of type {place}", ledger, plain(ledger, *[NOTHING] * 4), *wanted)


def long_runs():
    """The most that a run has, 8400, and one record more; inert waste alone; stocks that are used up on the way."""
    last = left(SEVEN, 1199)
    counted("record 1200", last, plain(last, EACH), 1, 0, 7)
    counted("record 1201", last, plain(last, EACH, EACH), 1, 4, 7)
    counted("all types", FRESH, plain(FRESH, *[EACH] * 1201), 1200, 4, 8400)
    counted("inert waste", FRESH, plain(FRESH, *[only(6, 10**9)] * 1200), 1200, 0, 0)
    accepted, refusal, work = run_of(FRESH, plain(FRESH, EACH, *[NOTHING] * 1199))
    check("one record with waste", (accepted, refusal, 7 < work < 7 * 1200), (1200, 0, True))


def refused():
    """A refused record with waste of every type adds nothing, after a record with the work of one type or alone."""
    for kind, field, value, number in [
        (1, "zero", b"\1\0", 5),
        (1, "site_class", 5, 5),
        (1, "period", 2, 6),
        (1, "period", 4, 6),
        (1, "climate", 3, 7),
        (1, "kind", 2, 7),
        (1, "GWP", 0, 8),
        (1, "m7", 101, 8),
        (2, "factor", 76, 17),
        *((kind, "masses", replaced(EACH, place, 10**9 + 1), 9) for kind in (1, 2) for place in range(8)),
    ]:
        ledger = left(only(5, 2), kind=kind)
        good = plain(ledger, NOTHING, EACH, EACH)
        bad = write_record(fields_of(good[48:96])._replace(**{field: value}))
        counted(f"{number} second", ledger, good[:48] + bad + good[96:], 1, number, 1)
        if field != "period":
            first = write_record(fields_of(bad)._replace(period=2))
            counted(f"{number} first", ledger, first + good, 0, number, 0)
    ledger = left(only(5, 2))
    data = plain(ledger, NOTHING, EACH)
    for room, *wanted in [(0, 0, 2, 0), (47, 0, 2, 0), (48, 1, 2, 1), (95, 1, 2, 1), (96, 2, 0, 8), (99, 2, 0, 8)]:
        check(f"room {room}", run_of(ledger, data, room), tuple(wanted))
    for length, *wanted in [(1, 0, 1, 0), (47, 0, 1, 0), (49, 1, 1, 1), (95, 1, 1, 1), (97, 2, 1, 8)]:
        counted(f"{length} bytes", ledger, (data + b"\1")[:length], *wanted)


def unsound():
    """Ledgers that are unsound or full: nothing is accepted, and nothing counted."""
    sound = left((5, 5, 5, 5, 5, 0, 5, 5))
    for changes, number in [
        ({"n": 1201}, 3),
        ({"n": 0}, 3),
        ({"kind": 3}, 3),
        ({"climate": 0}, 3),
        ({"year": (75, 1, 0)}, 3),
        ({"R": (7, 5, 5, 5, 5, 0, 5, 5)}, 3),
        ({"released": NOTHING}, 3),
        ({"n": 1200}, 4),
    ]:
        ledger = sound._replace(**changes)
        counted(f"{changes}", ledger, plain(ledger, EACH, EACH), 0, number, 0)
    counted("sound", sound, plain(sound, EACH, EACH), 2, 0, 14)
    counted("a fresh ledger with a stock", FRESH._replace(R=SEVEN), plain(FRESH, EACH), 0, 3, 0)


def other_factors(rng, record):
    """The record with other factors; a month keeps those of its year."""
    percents = {field: rng.randint(1, 100) for field in ("OX", "F", "DOCf", "GWP")}
    return sharing(record, random_year(rng) if record.kind == 1 else year_of(record))._replace(**percents)


def factors_aside(rng):
    """No factor and no room to spare changes the work of a run."""
    for code in KINDS_AND_CLIMATES * 4:
        start = any_start(rng, code)
        records = bringing(rng, start, any_lists(rng, 5))
        accepted, refusal, work = run_of(start.ledger, file_of(records))
        check("all accepted", (accepted, refusal), (len(records), 0))
        data = file_of(other_factors(rng, record) for record in records)
        for room in (len(data), len(data) + rng.randint(1, 100)):
            check("other factors", run_of(start.ledger, data, room), (accepted, 0, work))


def one_record(rng):
    """The work of one record: the types but the sixth with stock or mass, whatever dry matter, kind and climate."""
    for (kind, climate), m7, m8 in product(KINDS_AND_CLIMATES, (0, 1, 35, 100), (0, 1, 10, 100)):
        ledger, masses = any_start(rng, (kind, climate)).ledger, any_waste(rng)
        work = sum(R > 0 or kg > 0 for R, kg in zip(ledger.R, replaced(masses, 5, 0)))
        data = plain(ledger, masses, kind=kind, climate=climate, m7=m7, m8=m8)
        counted(f"{masses} for {ledger}", ledger, data, 1, 0, work)


def in_parts(ledger, data):
    """A run cut in two after each of its records: the work of both parts adds up to that of the run."""
    accepted, refusal, work = run_of(ledger, data, len(data) + 48)
    for at in range(0, 48 * accepted + 1, 48):
        first = reference.run(ledger, data[:at], bytes(at))
        rest = reference.run(first.ledger, data[at:], bytes(len(data) + 48))
        found = first.accepted + rest.accepted, rest.refusal, first.work + rest.work
        check(f"in two at {at}", found, (accepted, refusal, work))


def at_random(rng, kind, climate):
    """Files for fresh ledgers and others, whole and in two parts, some damaged; a byte of ledger or record changed."""
    for _ in range(6):
        start = any_start(rng, (kind, climate))
        data = file_of(bringing(rng, start, any_lists(rng, 8)))
        in_parts(start.ledger, data)
        in_parts(start.ledger, damaged(rng, data))
    for ledger in (FRESH, random_ledger(rng, kind, climate), random_ledger(rng, kind, climate)):
        records = next_measured(rng, ledger, kind, climate, 12)
        in_parts(ledger, file_of(records))
        for _ in range(4):
            run_of(*byte_changed(rng, Offer(ledger, records[0]), range(248)), 48)
