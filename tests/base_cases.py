"""The base cases: look-ups, steps, runs and listings, each built for the answer that document 01 gives it.

A case built for a refusal is an error here where the reference answers another.
"""
from itertools import combinations

import cases
import reference
from built import offer_in_year, run_case, run_in_year, step_case, step_in_year
from cases import case
from faults import FAULTS, OF_RECORD, ORDER, Offer, applied, named, of_field
from histories import KINDS_AND_CLIMATES, PLACES, PLAIN, balanced, by_default, damaged, file_of, greatest_record, only
from histories import plain_year, random_file, random_ledger, random_record, replaced
from reference import BYTES, FRESH, MASS_LIMIT, NO_YEAR, RECORDS, Ledger, little, remembers, write_record


def fair_offer(rng, ledger_of=random_ledger):
    """An offer that is accepted, with n above 0."""
    kind, climate = rng.choice(KINDS_AND_CLIMATES)
    ledger = ledger_of(rng, kind, climate)
    return Offer(ledger, random_record(rng, ledger.n, kind, climate))


def look_ups(rng):
    asked = [(kind, rate) for kind in (1, 2) for rate in range(1, 401)]
    asked += [(kind, rate) for kind in (0, 1, 2, 3, 255) for rate in (0, 1, 400, 401, 65535)]
    asked += [(rng.choice((1, 2)), rate) for rate in (512, 657, 65136, *(rng.randrange(65536) for _ in range(20)))]
    asked += [(rng.randrange(256), rng.randint(1, 400)) for _ in range(20)]
    yield from (look_up(kind, rate) for kind, rate in asked)


def look_up(kind, rate):
    return case("d", little([(kind, 1), (rate, 2)]))


def worked_figures():
    """Document 01's figures P6 to P10, its list of what is run only, and its listing."""
    for place, climate, kind in ((3, 4, 1), (1, 1, 1), (2, 2, 1), (3, 4, 2), (6, 1, 1)):
        first = PLAIN._replace(kind=kind, climate=climate, masses=only(place, 1))
        yield step_in_year(FRESH, write_record(first), expect=0)
    for place in range(1, 9):
        yield step_in_year(FRESH, write_record(PLAIN._replace(masses=only(place, MASS_LIMIT))), expect=0)
        yield step_in_year(FRESH, write_record(PLAIN._replace(masses=only(place, MASS_LIMIT + 1))), expect=9)
    yield step_in_year(FRESH, write_record(PLAIN._replace(factor=0)), expect=8)
    yield step_in_year(FRESH, write_record(PLAIN._replace(f=10000, masses=(MASS_LIMIT,) * 8)), expect=0)
    yield step_in_year(FRESH, write_record(PLAIN._replace(period=0)), expect=6)
    yield step_in_year(Ledger(1199, 1, 4), write_record(PLAIN._replace(period=1200)), expect=0)
    yield step_in_year(Ledger(1200, 1, 4), write_record(PLAIN._replace(period=1201)), expect=4)
    sample = [PLAIN._replace(masses=only(3, 1000)), PLAIN._replace(period=2), PLAIN._replace(period=5)]
    yield case("l", file_of(sample))
    yield case("l", b"")


def steps_at_fault(rng):
    """Each fault alone; a fault of each pair of fields; one of each number from each on."""
    for fault in FAULTS:
        yield offer_in_year(applied(fair_offer(rng), [fault]), named(fault))
    fields = dict.fromkeys((fault.number, fault.field) for fault in FAULTS)
    for one, other in combinations(fields, 2):
        if one[0] != other[0] and one[1] != other[1]:
            pair = rng.choice(of_field(*one)), rng.choice(of_field(*other))
            yield offer_in_year(applied(fair_offer(rng), pair), named(*pair))
    each = {1: "length", 2: "room", 3: "R", 4: "n", 5: "site_class", 6: "period", 7: "kind", 8: "GWP", 9: "masses"}
    numbers = [number for number in ORDER if number in each]
    for place, first in enumerate(numbers):
        rest = [rng.choice(of_field(number, each[number])) for number in numbers[place:]]
        yield offer_in_year(applied(fair_offer(rng), rest), first)


def steps_at_limits(rng):
    """Records and ledgers at every limit that is still allowed, and T at the most that it is without dry matter."""
    middle = Ledger(7, 1, 3, NO_YEAR, by_default(1), by_default(1))
    record = PLAIN._replace(period=8, climate=3, masses=(1000, 0, 7, 0, 0, 5, 0, 1))
    limits = {
        "factor": (1, 100),
        "OX": (0, 100),
        "F": (0, 100),
        "DOCf": (0, 100),
        "GWP": (1, 100),
        "f": (0, 9999, 10000),
        "site_class": reference.CLASSES,
        "masses": [only(place, kg) for place in range(1, 9) for kg in (0, 1, MASS_LIMIT)],
    }
    offers = [(middle, record._replace(**{field: value})) for field, values in limits.items() for value in values]
    for j in PLACES:
        full = middle._replace(T=replaced(middle.T, j, by_default(7)[j]))
        offers += [(full, record), (full._replace(R=full.T), record), (full._replace(R=replaced(full.R, j, 0)), record)]
    for kind, climate in KINDS_AND_CLIMATES:
        offers += [(FRESH, PLAIN._replace(kind=kind, climate=climate))]
        for n in (1, 1199):
            full = Ledger(n, kind, climate, plain_year(kind), by_default(n), by_default(n))
            offers += [(full, greatest_record(n, kind, climate))]
    for ledger, record in offers:
        yield step_in_year(balanced(ledger), write_record(record), expect=0)
    for room in (49, 96, 300):
        yield offer_in_year(fair_offer(rng)._replace(room=room), 0)


def steps_at_random(rng):
    """Accepted ones, ones with a byte changed, arbitrary ledgers, all balanced; beside them such with any year."""
    for kind, climate in KINDS_AND_CLIMATES * 10:
        ledger = random_ledger(rng, kind, climate)
        data = write_record(random_record(rng, ledger.n, kind, climate))
        yield step_in_year(ledger, data, expect=0)
        yield any_year(rng, ledger, data)
    for _ in range(60):
        ledger, data = byte_changed(rng, fair_offer(rng), [*range(136), *range(200, 248)])
        yield step_in_year(balanced(ledger), data, rng.choice((47, 48, 48, 48, 49)))
    for _ in range(60):
        ledger = arbitrary_ledger(rng)
        follower = write_record(follower_of(rng, ledger))
        data = rng.choice((rng.randbytes(BYTES), follower))
        yield step_in_year(ledger, data)
        yield any_year(rng, ledger, data)


def any_year(rng, ledger, data):
    """One step of a ledger that remembers any four bytes: next to none of them are a year's factors."""
    ledger = ledger._replace(year=cases.read_year(rng.randbytes(4)))
    return step_case(ledger, data, expect=None if remembers(ledger) else 3)


def byte_changed(rng, offer, places):
    """The ledger and the record's bytes with a byte changed at one of these places of image and record."""
    data = bytearray(cases.image(offer.ledger) + offer.data())
    data[rng.choice(places)] = rng.randrange(256)
    return cases.read_image(data), bytes(data[cases.IMAGE :])


def arbitrary_ledger(rng):
    """The ledger of any bytes, or one whose head is near its codes, balanced."""
    head = little([(rng.choice((0, 1, 2, 1199, 1200, 1201)), 2), (rng.randint(0, 3), 1), (rng.randint(0, 5), 1)])
    carbon = rng.choice((bytes(128), bytes(64) + rng.randbytes(64), rng.randbytes(128)))
    return balanced(cases.read_image(rng.choice((rng.randbytes(8), head + bytes(4))) + carbon + bytes(64)))


def follower_of(rng, ledger):
    """A record that an arbitrary ledger may accept as its next."""
    return random_record(rng, ledger.n % 1200, max(ledger.kind, 1), max(ledger.climate, 1))


def runs_by_rule(rng):
    """No bytes, room that ends, bytes left over, each fault of a record, and the last records that a ledger takes."""
    unsound = balanced(Ledger(1, 1, 1, R=only(1, 1)))
    beyond = Ledger(65535, 255, 255, NO_YEAR, by_default(9), by_default(9))
    for ledger in (FRESH, random_ledger(rng, 1, 2), unsound, beyond):
        yield run_in_year(ledger, b"", 0, (0, 0))
        yield run_in_year(ledger, b"", 50, (0, 0))
    three = random_file(rng, 0, 2, 3, 3)
    for room in (0, 47, 48, 95, 96, 143):
        yield run_in_year(FRESH, three, room, (room // BYTES, 2))
        yield run_in_year(FRESH, three + b"\0", room, (room // BYTES, 2))
    for room in (144, 191, 192):
        yield run_in_year(FRESH, three, room, (3, 0))
        yield run_in_year(FRESH, three + b"\0", room, (3, 1))
    for length in (1, 47):
        yield run_in_year(FRESH, three[:length], 0, (0, 1))
        yield run_in_year(FRESH, three[: BYTES + length], BYTES, (1, 1))
    yield run_in_year(unsound, three, 144, (0, 3))
    yield run_in_year(unsound, three, 47, (0, 2))
    for fault in OF_RECORD:
        yield fault_after_one(rng, fault)
    for kind, climate in KINDS_AND_CLIMATES:
        ledger = random_ledger(rng, kind, climate, 1197)
        yield run_in_year(ledger, random_file(rng, 1197, kind, climate, 3), 144, (3, 0))
        yield run_in_year(ledger, random_file(rng, 1197, kind, climate, 5), 240, (3, 4))
    yield run_in_year(FRESH, random_file(rng, 0, 1, 2, RECORDS + 1), 2**32 - 1, (RECORDS, 4))
    greatest = [greatest_record(n, 2, 4) for n in range(RECORDS)]
    yield run_in_year(FRESH, file_of(greatest), BYTES * RECORDS, (RECORDS, 0))
    for place in range(4):
        unsound = FRESH._replace(year=cases.read_year(bytes(replaced((0,) * 4, place, 1))))
        yield run_case(unsound, three, 144, (0, 3))
        yield run_case(unsound, b"", 50, (0, 0))


def fault_after_one(rng, fault):
    """A run of a record that is accepted, one at fault, and one more that is not reached where that is a fault."""
    first = fair_offer(rng)
    after, _ = reference.take(first.ledger, first.record)
    second = applied(Offer(after, first.record._replace(period=after.n + 1)), [fault])
    third = first.record._replace(period=after.n + 2)
    expect = (1, named(fault)) if named(fault) else (3, 0)
    return run_in_year(first.ledger, first.data() + second.data() + write_record(third), 150, expect)


def runs_at_random(rng):
    """Runs with and without damage, of both kinds and in all climates, from fresh ledgers and from others."""
    for kind, climate in KINDS_AND_CLIMATES * 16:
        ledger = rng.choice((FRESH, random_ledger(rng, kind, climate)))
        records = rng.choice((1, 2, 3, 4, 5, 8, 13))
        room = BYTES * records + rng.choice((0, 1, 20))
        yield run_in_year(ledger, random_file(rng, ledger.n, kind, climate, records), room, (records, 0))
    for kind, climate in KINDS_AND_CLIMATES * 20:
        ledger = rng.choice((FRESH, random_ledger(rng, kind, climate)))
        records = rng.randint(1, 6)
        room = rng.choice((BYTES * records, BYTES * records + 70, rng.randint(0, BYTES * records)))
        yield run_in_year(ledger, damaged(rng, random_file(rng, ledger.n, kind, climate, records)), room)
    for _ in range(20):
        ledger = arbitrary_ledger(rng)
        yield run_in_year(ledger, random_file(rng, ledger.n % 1200, 1, 1, 2), 100)


def listings(rng):
    for kind, climate in KINDS_AND_CLIMATES * 4:
        data = random_file(rng, 0, kind, climate, rng.randint(1, 8))
        yield case("l", data)
        yield case("l", damaged(rng, data))
    yield case("l", b"\1")
    yield case("l", rng.randbytes(100))
    yield case("l", file_of(greatest_record(n, 1, 4) for n in range(RECORDS + 1)))


def base(rng):
    yield from look_ups(rng)
    yield from worked_figures()
    yield from steps_at_fault(rng)
    yield from steps_at_limits(rng)
    yield from steps_at_random(rng)
    yield from runs_by_rule(rng)
    yield from runs_at_random(rng)
    yield from listings(rng)


def every_rate(_rng):
    """Every rate that can be asked for, with both kinds and with three that are none."""
    yield from (look_up(kind, rate) for kind in (1, 2, 0, 3, 255) for rate in range(65536))
