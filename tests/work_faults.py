"""The cases of decay work in runs that stop, or that have nothing to do: what is refused adds no work.

Each is built for its answer, as those in work_cases.py are.
"""
from itertools import product

from built import run_case
from faults import OF_RECORD, Offer, applied, at_n, in_ledger, in_record, named, not_fresh, one_mass
from histories import PLACES, file_of, only, replaced, taken
from months_faults import in_memory, in_month
from reference import BYTES, FRESH, MASS_LIMIT, MONTHLY, MONTHS, RECORDS, Year, write_record
from released_cases import NOT_ADDED_UP
from work_cases import CARBON, EACH, INERT, LARGE, any_lists, any_start, any_waste, bringing, holding, of_carbon
from work_cases import work_after


def stopped_case(rng, start, lists, fault):
    """A run that a fault stops after records with these masses, in a record with waste of every type.

    Sometimes the same record follows without the fault.
    """
    *before, last = bringing(rng, start, [*lists, EACH])
    refused = applied(Offer(taken(start.ledger, before), last), [fault]).data()
    data = file_of(before) + refused + rng.choice((b"", write_record(last)))
    return run_case(start.ledger, data, len(data), (len(before), named(fault)), work_after(start.ledger.R, lists))


def at_fault(rng):
    """A record refused with each number from 5 on, after others and as the first; a mass too large at each place."""
    for number, first in product((5, 6, 7, 8, 9), (True, False, False)):
        start = holding(rng, only(rng.choice(CARBON), LARGE)) if first else any_start(rng)
        fault = rng.choice([fault for fault in OF_RECORD if named(fault) == number])
        yield stopped_case(rng, start, [] if first else any_lists(rng, 3), fault)
    for j in PLACES:
        (over,) = in_record(9, "masses", one_mass(j, MASS_LIMIT + 1))
        yield stopped_case(rng, any_start(rng), any_lists(rng, 2), over)
    for field, first in product(Year._fields, (True, False)):
        start = holding(rng, only(rng.choice(CARBON), 3), (MONTHLY, 3), MONTHS * rng.randint(1, 90) + 5)
        yield stopped_case(rng, start, [] if first else any_lists(rng, 3), in_month(field, 1))


def cut_short(rng):
    """Bytes left over, with room and without; no room for the last record, or for any."""
    for length in (1, 24, 47) * 2:
        start, lists = any_start(rng), any_lists(rng, 3)
        data = file_of(bringing(rng, start, [*lists, EACH]))[: BYTES * len(lists) + length]
        room = BYTES * len(lists) + rng.choice((0, length, BYTES))
        yield run_case(start.ledger, data, room, (len(lists), 1), work_after(start.ledger.R, lists))
    for spare in (0, 1, 47) * 2:
        start, lists = any_start(rng), rng.choice(([], any_lists(rng, 3)))
        data = file_of(bringing(rng, start, [*lists, EACH, EACH]))
        room = BYTES * len(lists) + spare
        yield run_case(start.ledger, data, room, (len(lists), 2), work_after(start.ledger.R, lists))


# Ledgers that are unsound, each as a change to a sound one with plenty of every type.
UNSOUND = [
    in_ledger("R", R=lambda ledger: replaced(ledger.R, 2, ledger.T[2] + 1)),
    *(not_fresh(**{field: only(1, 1)}) for field in ("T", "R", "released")),
    *(at_n(3, n) for n in (RECORDS + 1, 65535)),
    *(in_ledger("ledger kind", kind=kind) for kind in (0, 3)),
    *(in_ledger("ledger climate", climate=climate) for climate in (0, 5)),
    in_ledger("T", T=lambda ledger: only(INERT, 1)),
    *NOT_ADDED_UP[:2],
    in_memory(3, lambda year: year._replace(f=10001)),
]


def unsound(rng):
    """An unsound ledger with stocks and a record with waste: nothing is accepted, and nothing counted."""
    for fault in UNSOUND:
        start = holding(rng, of_carbon(lambda: LARGE))
        (record,) = bringing(rng, start, [EACH])
        offer = applied(Offer(start.ledger, record), [fault])
        yield run_case(offer.ledger, offer.data(), BYTES, (0, 3), 0)


def no_records(rng):
    """No bytes, whatever the ledger: nothing is counted."""
    plenty = holding(rng, of_carbon(lambda: LARGE)).ledger
    full, bad = plenty._replace(n=RECORDS), plenty._replace(n=RECORDS + 1)
    for ledger, room in product((FRESH, plenty, full, bad), (0, 50)):
        yield run_case(ledger, b"", room, (0, 0), 0)


def up_to_the_last(rng):
    """Runs up to record 1200, and one record more, from a ledger near it."""
    for left, more in product((0, 1, 2, 3), (0, 1)):
        R, lists = of_carbon(lambda: rng.choice((0, 1, 2, LARGE))), [any_waste(rng) for _ in range(left)]
        start = holding(rng, R, n=RECORDS - left)
        data = file_of(bringing(rng, start, [*lists, EACH])[: left + more])
        yield run_case(start.ledger, data, len(data), (left, 4 if more else 0), work_after(R, lists))


def work_stopped(rng):
    for part in (at_fault, cut_short, unsound, no_records, up_to_the_last):
        yield from part(rng)
