"""Wrong readings of request h of document 02, which the stored cases have to tell from the right one.

Each has a name, and counts the decay work of a run in its own way.
"""
from itertools import accumulate, takewhile
from typing import NamedTuple

import misread
import reference
from reference import BYTES, FRESH, MONTHLY, MONTHS, RECORDS, REFUSALS, TYPES, YEARLY, Ledger, Record, deposits
from reference import figure_of, held, rates, read_record, records_of, run, take, work_of
from work_cases import CARBON, INERT, work
from work_faults import work_stopped


class Taken(NamedTuple):
    """An accepted record, with the ledgers before and after it."""

    before: Ledger
    record: Record
    after: Ledger


class Done(NamedTuple):
    """What a run did."""

    start: Ledger
    taken: list
    end: Ledger
    refusal: int
    refused: Record | None  # where the refusal is of a whole record
    work: int  # counted right


def done(ledger, data, answer):
    """The same from a run's answer, record by record."""
    parts, taken, start = records_of(data), [], ledger
    for record in map(read_record, parts[: answer.accepted]):
        after, _ = take(ledger, record)
        taken.append(Taken(ledger, record, after))
        ledger = after
    offered = b"".join(parts[answer.accepted : answer.accepted + 1])
    refused = read_record(offered) if len(offered) == BYTES else None
    return Done(start, taken, answer.ledger, answer.refusal, refused, answer.work)


def counted(count):
    """Another work of a run, from what it did."""

    def wrong(ledger, data, output):
        answer = run(ledger, data, output)
        return answer._replace(work=count(done(ledger, data, answer)))

    return {"run": wrong}


# Which types of a record count


def by_record(count):
    """The records counted one by one in another way, each from the ledgers and the record."""
    return counted(lambda d: sum(map(count, d.taken)))


def by_type(counts):
    """Types that pass a test of a record, the ledgers and their place in a list of eight."""
    return by_record(lambda taken: sum(1 for j in range(8) if counts(taken, j)))


def of_records(counts):
    """Records that pass a test, each counted right."""
    return by_record(lambda taken: work_of(taken.before, taken.record) if counts(taken) else 0)


def figure(taken):
    """The figure of a record, which is right."""
    return figure_of(taken.record, sum(taken.after.released) - sum(taken.before.released))


def H(taken):
    """The stocks with deposit, which are right."""
    return held(taken.before, taken.record)


def up_to_an_empty_one(taken, types):
    """How many types in turn have carbon, up to the first without."""
    return len(list(takewhile(lambda t: H(taken)[t - 1] > 0, types)))


def unmeasured_as_none(taken, j):
    """A dry matter of 0 taken for sludge without carbon."""
    measured = {6: taken.record.m7, 7: taken.record.m8}.get(j, 1)
    return taken.before.R[j] + (deposits(taken.record)[j] if measured else 0) > 0


BY_TYPE = {
    "types with a mass": by_type(lambda taken, j: taken.record.masses[j] > 0),
    "types with a deposit": by_type(lambda taken, j: deposits(taken.record)[j] > 0),
    "stock before the deposit": by_type(lambda taken, j: taken.before.R[j] > 0),
    "stock after decay": by_type(lambda taken, j: taken.after.R[j] > 0),
    "stock before the deposit and after decay": by_type(lambda taken, j: taken.before.R[j] * taken.after.R[j] > 0),
    "stock that falls": by_type(lambda taken, j: taken.after.R[j] < taken.before.R[j]),
    "stock that changes": by_type(lambda taken, j: taken.after.R[j] != taken.before.R[j]),
    "T after the record": by_type(lambda taken, j: taken.after.T[j] > 0),
    "T before the record": by_type(lambda taken, j: taken.before.T[j] > 0),
    "T before the record or stock": by_type(lambda taken, j: taken.before.T[j] + H(taken)[j] > 0),
    "released after the record": by_type(lambda taken, j: taken.after.released[j] > 0),
    "inert waste by its mass": by_record(lambda taken: work_of(*taken[:2]) + (taken.record.masses[INERT - 1] > 0)),
    "inert waste where anything counts": by_record(lambda taken: work_of(*taken[:2]) + (max(H(taken)) > 0)),
    "inert waste always": by_type(lambda taken, j: H(taken)[j] > 0 or j == INERT - 1),
    "all eight types": by_record(lambda taken: 8),
    "all types with carbon": by_record(lambda taken: len(CARBON)),
    "all types where anything counts": by_record(lambda taken: 7 * (max(H(taken)) > 0)),
    "one a record": by_record(lambda taken: 1),
    "one a record where anything counts": by_record(lambda taken: int(max(H(taken)) > 0)),
    "one a record with waste": by_record(lambda taken: int(max(taken.record.masses) > 0)),
    "types without carbon": by_type(lambda taken, j: H(taken)[j] == 0),
    **{f"above {mg} mg": by_type(lambda taken, j, mg=mg: H(taken)[j] > mg) for mg in (1, 2, 3, 99, 999, 10**6)},
    **{f"the lower {bits} bits": by_type(lambda taken, j, b=bits: H(taken)[j] % 2**b > 0) for bits in (8, 16, 32, 40)},
    **{f"type {t} left out": by_type(lambda taken, j, t=t: H(taken)[j] > 0 and j != t - 1) for t in CARBON},
    **{f"type {t} always": by_type(lambda taken, j, t=t: H(taken)[j] > 0 or j == t - 1) for t in CARBON},
    "types up to the first without": by_record(lambda taken: up_to_an_empty_one(taken, TYPES)),
    "types with carbon up to the first without": by_record(lambda taken: up_to_an_empty_one(taken, CARBON)),
    "types down to the first without": by_record(lambda taken: up_to_an_empty_one(taken, TYPES[::-1])),
    "sludge without dry matter has none": by_type(unmeasured_as_none),
    "one a rate": by_record(
        lambda taken: len({rate for h, rate in zip(H(taken), rates(taken.record.climate)) if h > 0})
    ),
    "records without waste left out": of_records(lambda taken: max(taken.record.masses) > 0),
    "records with waste left out": of_records(lambda taken: max(taken.record.masses) == 0),
    "records with inert waste left out": of_records(lambda taken: taken.record.masses[INERT - 1] == 0),
    "a first record left out": of_records(lambda taken: taken.before.n > 0),
    "record 1200 left out": of_records(lambda taken: taken.after.n < RECORDS),
    "years left out": of_records(lambda taken: taken.record.kind == MONTHLY),
    "months left out": of_records(lambda taken: taken.record.kind == YEARLY),
    "records that begin a year left out": of_records(lambda taken: taken.before.n % MONTHS > 0),
    "records with a figure of 0 left out": of_records(lambda taken: figure(taken) > 0),
}


# How records come to a run


def works(d):
    """The work of each accepted record, which is right."""
    return [work_of(taken.before, taken.record) for taken in d.taken]


def also_refused(*numbers):
    """A refused record counted too, where it is refused with one of these numbers."""

    def more(d):
        return work_of(d.end, d.refused) if d.refused and d.refusal in numbers else 0

    return counted(lambda d: d.work + more(d))


def up_to_the_mass(d):
    """The types of a record refused with 9 up to the one whose mass is too large."""
    if d.refusal != 9:
        return d.work
    fair = takewhile(lambda j: d.refused.masses[j] <= reference.MASS_LIMIT, range(8))
    return d.work + sum(held(d.end, d.refused)[j] > 0 for j in fair)


def as_found(d):
    """Every record with the stocks that the run found."""
    return sum(work_of(d.start, taken.record) for taken in d.taken)


def all_at_once(d):
    """The types of all records together."""
    columns = zip(*map(H, d.taken))
    return sum(map(any, columns))


def never_cleared(d):
    """Types that have had carbon in the run counted in every later record."""
    rows = ([h > 0 for h in H(taken)] for taken in d.taken)
    return sum(map(sum, accumulate(rows, lambda had, has: [a or b for a, b in zip(had, has)])))


def kept_on():
    """The count of the runs before."""
    total = 0

    def more(d):
        nonlocal total
        total += d.work
        return total

    return counted(more)


RECORD_REFUSALS = [number for number in REFUSALS["record"] if number not in (1, 23, 27, 28, 32)]  # of a run's records
BY_RUN = {
    "no work": counted(lambda d: 0),
    "the accepted count": counted(lambda d: len(d.taken)),
    "the n of the ledger": counted(lambda d: d.end.n),
    "seven times n": counted(lambda d: 7 * d.end.n),
    "the first record alone": counted(lambda d: sum(works(d)[:1])),
    "the last record alone": counted(lambda d: sum(works(d)[-1:])),
    "all but the first record": counted(lambda d: sum(works(d)[1:])),
    "all but the last record": counted(lambda d: sum(works(d)[:-1])),
    "the most of a record": counted(lambda d: max(works(d), default=0)),
    "the first record's work for each": counted(lambda d: len(d.taken) * sum(works(d)[:1])),
    "types of the run": counted(all_at_once),
    "types never cleared": counted(never_cleared),
    "the stocks that the run found": counted(as_found),
    "the stocks of the end": counted(lambda d: d.work + sum(r > 0 for r in d.end.R)),
    "the stocks of the start": counted(lambda d: d.work + sum(r > 0 for r in d.start.R)),
    "from one on": counted(lambda d: d.work + 1),
    "kept from the runs before": kept_on(),
    "since the fresh ledger": counted(lambda d: d.work + 7 * d.start.n),
    "the records before the run": counted(lambda d: d.work + d.start.n),
    "from a fresh ledger alone": counted(lambda d: d.work if d.start == FRESH else 0),
    "nothing by a refusal": counted(lambda d: 0 if d.refusal else d.work),
    **{f"nothing by refusal {number}": counted(lambda d, n=number: d.work * (d.refusal != n)) for number in (1, 2, 4)},
    "every refused record too": also_refused(*RECORD_REFUSALS),
    **{f"a record refused with {number} too": also_refused(number) for number in RECORD_REFUSALS},
    "a record refused with 9 up to that mass": counted(up_to_the_mass),
    "bytes left over too": counted(lambda d: d.work + (sum(r > 0 for r in d.end.R) if d.refusal == 1 else 0)),
    "one for a refused record": counted(lambda d: d.work + (d.refusal > 0)),
    "a byte": counted(lambda d: d.work % 256),
    "at most 255": counted(lambda d: min(d.work, 255)),
}

READINGS = BY_TYPE | BY_RUN


def unseen():
    """The names of the readings that give the line of every stored case."""
    return misread.unseen(READINGS, reference, "r", work, work_stopped)
