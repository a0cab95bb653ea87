"""The cases of the carbon released so far, each built for the answer that document 02 gives it.

A case built for a refusal is an error here where the reference answers another.
"""
import cases
import faults
from base_cases import arbitrary_ledger, byte_changed, fair_offer, follower_of
from built import offer_in_year, run_in_year, step_case, step_in_year
from faults import LAST, OF_RECORD, Fault, Offer, applied, named, not_fresh
from histories import KINDS_AND_CLIMATES, PLACES, PLAIN, balanced, by_default, damaged, file_of, lived, only
from histories import plain_year, random_file, random_record, replaced, taken, whole_records
from reference import BYTES, FRESH, MASS_LIMIT, NONE, RECORDS, Ledger, little, write_record


def half_spent(rng, kind, climate):
    """A ledger in the middle of its history: of every type but the sixth some carbon is left and some released."""
    n = rng.choice((1, 2, rng.randint(3, RECORDS - 10)))
    T = tuple(rng.randint(2, top) if top else 0 for top in by_default(n))
    R = tuple(rng.randint(1, t - 1) if t else 0 for t in T)
    return balanced(Ledger(n, kind, climate, plain_year(kind), T, R))


def spent_offer(rng):
    """An offer to such a ledger that is accepted."""
    return fair_offer(rng, half_spent)


def in_carbon(change):
    """Another T, R and released, worked out from these."""
    return Fault(3, "released", lambda o: o._replace(ledger=Ledger(*o.ledger[:4], *change(*o.ledger[4:]))))


def off_by(shifts):
    """Released with a shift for some types, by their places, modulo 2^64."""
    return in_carbon(lambda T, R, released: (T, R, shifted(released, shifts)))


def shifted(eight, shifts):
    return tuple((value + shifts.get(j, 0)) % 2**64 for j, value in enumerate(eight))


def for_one(j, T, R, released):
    """The three numbers of one type."""
    return in_carbon(lambda *eights: (replaced(eight, j, value) for eight, value in zip(eights, (T, R, released))))


# Changes to a half spent ledger, after which released and R do not add up to T, and nothing else is wrong.
NOT_ADDED_UP = [
    *(off_by({j: shift}) for j in PLACES for shift in (1, -1, 2**32, 2**63)),
    *(off_by({j: 1, (j + 1) % 8: -1}) for j in PLACES),
    in_carbon(lambda T, R, released: (T, R, NONE)),
    in_carbon(lambda T, R, released: (T, R, T)),
    in_carbon(lambda T, R, released: (T, R, R)),
    in_carbon(lambda T, R, released: (T, R, released[1:] + released[:1])),
]

# R is over T, or T over its ceiling; most add up modulo 2^64.
OVER = [
    in_carbon(lambda T, R, released: (R, T, released)),
    *(for_one(j, T, R, T - R + 2**64) for j in PLACES for T, R in ((0, 1), (0, 2**63), (0, LAST), (5, 6), (5, LAST))),
    *(for_one(j, LAST - 1, LAST, LAST) for j in PLACES),
    *(for_one(j, LAST, LAST, carbon) for j in PLACES for carbon in (0, 1, LAST)),
]

# n is 0; most add up, in truth or modulo 2^64.
NOT_FRESH = [
    *(not_fresh(released=replaced(NONE, j, carbon)) for j in PLACES for carbon in (1, 2**63, LAST)),
    *(not_fresh(T=replaced(NONE, j, 1), released=replaced(NONE, j, 1)) for j in PLACES),
    *(not_fresh(R=replaced(NONE, j, 1), released=replaced(NONE, j, LAST)) for j in PLACES),
]


def at_fault(rng):
    """Each fault alone, and one of them beside each other fault, for the order of refusals."""
    for fault in NOT_ADDED_UP + OVER + NOT_FRESH:
        yield offer_in_year(applied(spent_offer(rng), [fault]), 3)
    for fault in faults.FAULTS:
        if fault.field not in ("T", "R"):
            pair = fault, rng.choice(NOT_ADDED_UP)
            yield offer_in_year(applied(spent_offer(rng), pair), named(*pair))


def sound(rng):
    """R and released exchanged, one type's and all; all left, all released, the most that is allowed; nothing."""
    for kind, climate in KINDS_AND_CLIMATES:
        ledger = half_spent(rng, kind, climate)
        n, *_, T, R, released = ledger
        ledgers = [ledger._replace(R=released, released=R), ledger._replace(R=T, released=NONE)]
        ledgers += [ledger._replace(R=NONE, released=T), Ledger(n, kind, climate)]
        ledgers += [ledger._replace(T=by_default(n), R=NONE, released=by_default(n))]
        j = rng.choice(PLACES)
        ledgers += [ledger._replace(R=replaced(R, j, released[j]), released=replaced(released, j, R[j]))]
        for each in ledgers:
            yield step_in_year(each, write_record(random_record(rng, n, kind, climate)), expect=0)


def in_parts(rng):
    """A history record by record, beside each the same damaged; then in one run, and in two."""
    for kind, climate in KINDS_AND_CLIMATES:
        data, ledger = random_file(rng, 0, kind, climate, 7), FRESH
        for at in range(0, 4 * BYTES, BYTES):
            record = data[at : at + BYTES]
            yield step_in_year(ledger, record, expect=0)
            yield step_in_year(ledger, damaged(rng, record))
            ledger = taken(ledger, whole_records(record))
        yield run_in_year(FRESH, data, len(data), (7, 0))
        yield run_in_year(FRESH, data[: 4 * BYTES], 4 * BYTES, (4, 0))
        yield run_in_year(ledger, data[4 * BYTES :], 3 * BYTES, (3, 0))


def stopped(rng):
    """Runs from the middle of a history that a fault of each number stops, and runs of an unsound ledger."""
    for j, (kind, climate) in enumerate(KINDS_AND_CLIMATES):
        ledger = half_spent(rng, kind, climate)
        data = random_file(rng, ledger.n, kind, climate, 3)
        yield run_in_year(ledger, data + data[: rng.randint(1, 47)], 4 * BYTES, (3, 1))
        yield run_in_year(ledger, data, 2 * BYTES + rng.randrange(BYTES), (2, 2))
        after = taken(ledger, whole_records(data))
        follower = Offer(after, random_record(rng, after.n, kind, climate))
        for number in dict.fromkeys(fault.number for fault in OF_RECORD):
            fault = rng.choice([fault for fault in OF_RECORD if fault.number == number])
            last = applied(follower, [fault]).data()
            expect = (3, named(fault)) if named(fault) else (4, 2)
            yield run_in_year(ledger, data + last + follower.data(), 4 * BYTES, expect)
        unsound = one_off(rng, ledger, j)
        yield run_in_year(unsound, data, 3 * BYTES, (0, 3))
        yield run_in_year(unsound, data, BYTES - 1, (0, 2))
        yield run_in_year(unsound, b"", BYTES, (0, 0))


def up_to_the_last(rng):
    """The last records that a ledger takes, after all others."""
    for kind, climate in KINDS_AND_CLIMATES:
        ledger = lived(rng, kind, climate, RECORDS - 2)
        data = random_file(rng, ledger.n, kind, climate, 3)
        yield run_in_year(ledger, data[: 2 * BYTES], 2 * BYTES, (2, 0))
        yield run_in_year(ledger, data, 3 * BYTES, (2, 4))
        full = taken(ledger, whole_records(data[: 2 * BYTES]))
        yield step_in_year(full, data[2 * BYTES :], expect=4)
        yield step_in_year(one_off(rng, full, rng.choice(PLACES)), data[2 * BYTES :], expect=3)


def one_off(rng, ledger, j):
    """The ledger with a milligram too many or too few released of one type."""
    return ledger._replace(released=shifted(ledger.released, {j: rng.choice((1, -1))}))


def inert(rng):
    """Waste of type 6 alone: nothing is brought in, left or released, and what other types hold goes on decaying."""
    for kind, climate in KINDS_AND_CLIMATES:
        for ledger in (FRESH, half_spent(rng, kind, climate)):
            plain = PLAIN._replace(kind=kind, climate=climate)
            records = [plain._replace(period=ledger.n + i, masses=only(6, MASS_LIMIT)) for i in (1, 2)]
            yield run_in_year(ledger, file_of(records), 2 * BYTES, (2, 0))


def at_random(rng):
    """A byte changed, R and released exchanged with and without a fault, any carbon at all, one byte of a year."""
    for _ in range(60):
        ledger, data = byte_changed(rng, spent_offer(rng), range(248))
        yield step_in_year(ledger, data)
    for _ in range(60):
        offer = spent_offer(rng)
        ledger = offer.ledger._replace(R=offer.ledger.released, released=offer.ledger.R)
        yield step_in_year(rng.choice((ledger, one_off(rng, ledger, rng.choice(PLACES)))), offer.data())
    for _ in range(40):
        ledger = arbitrary_ledger(rng)
        ledger = rng.choice((ledger, ledger._replace(released=tuple(rng.randrange(2**64) for _ in PLACES))))
        data = write_record(follower_of(rng, ledger))
        yield step_in_year(ledger, data)
        yield run_in_year(ledger, data, BYTES)
    for place in range(4):
        year = cases.read_year(little([(rng.randint(1, 255) << 8 * place, 4)]))
        yield step_case(spent_offer(rng).ledger._replace(year=year), write_record(PLAIN), expect=3)


def released(rng):
    yield from at_fault(rng)
    yield from sound(rng)
    yield from in_parts(rng)
    yield from stopped(rng)
    yield from up_to_the_last(rng)
    yield from inert(rng)
    yield from at_random(rng)
