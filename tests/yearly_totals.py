"""Request l of document 02, yearly totals beside a monthly run, over the step of reference.py.

A buffer of totals is bytes: it goes in as it is lent, and comes back as it is then.
"""
from typing import NamedTuple

from reference import BYTES, MONTHS, NONE, YEARLY, Run, Step, little, number, read_record, records_of
from reference import refusal_of, step, work_of

YEARS = 100  # slots of a buffer
SLOT = 32  # bytes
MOST = 10**19  # of a sum to which a month is added
EMPTY = bytes(YEARS * SLOT)  # the totals beside a fresh ledger
FIELDS = (0, 4), (4, 4), (8, 8), (16, 8), (24, 8)  # where each number of a slot begins, and its bytes


class Slot(NamedTuple):
    year: int = 0  # 1 to 100
    months: int = 0  # counted so far
    x0: int = 0  # the sums of these months
    figure: int = 0
    bound: int = 0


class Month(NamedTuple):
    step: Step
    totals: bytes


class Months(NamedTuple):
    run: Run
    totals: bytes


def slot_of(period):
    """The slot of a month, from 0 on, and how many months of its year come before it."""
    return divmod(period - 1, MONTHS)


def read_slot(totals, k):
    """The numbers of a slot."""
    return Slot(*(number(totals, SLOT * k + at, width) for at, width in FIELDS))


def write_slot(slot):
    """The 32 bytes of a slot."""
    return little((value, width) for value, (_, width) in zip(slot, FIELDS))


def with_slot(totals, k, slot):
    """The totals with other numbers in one slot."""
    return totals[: SLOT * k] + write_slot(slot) + totals[SLOT * (k + 1) :]


def added(totals, period, x0, figure, bound):
    """The totals with a month added to its year."""
    k, _ = slot_of(period)
    _, months, *sums = read_slot(totals, k)
    return with_slot(totals, k, Slot(k + 1, months + 1, *map(sum, zip(sums, (x0, figure, bound)))))


def goes_with(totals, period):
    """Whether refusal 32 does not hold: the slot of a month is that of its year, with the months before it."""
    k, before = slot_of(period)
    slot = read_slot(totals, k)
    if slot.months != before or max(slot.x0, slot.figure, slot.bound) > MOST:
        return False
    return slot.year == k + 1 if slot.months > 0 else slot == Slot()


def refusal_of_month(ledger, totals, data, room):
    """The number of the first fault, or 0: 28 is tested first, 27 after 5 and before 6, and 32 last."""
    if len(totals) != len(EMPTY):
        return 28
    refusal = refusal_of(ledger, data, room)
    if refusal in (1, 2, 3, 4, 5):
        return refusal
    record = read_record(data)
    if record.kind == YEARLY:
        return 27
    if refusal:
        return refusal
    return 0 if goes_with(totals, record.period) else 32


def take_month(ledger, totals, data, output):
    """Offers one record's bytes to a ledger with its totals, with an output buffer."""
    refusal = refusal_of_month(ledger, totals, data, len(output))
    if refusal:
        return Month(Step(ledger, refusal, NONE, 0, 0, 0, output), totals)
    answer = step(ledger, data, output)
    return Month(answer, added(totals, read_record(data).period, answer.x0, answer.figure, answer.bound))


def run_months(ledger, totals, data, output):
    """The whole run: stops at the first record that is refused. Refusal 28 is answered also without records."""
    if len(totals) != len(EMPTY):
        return Months(Run(ledger, 0, 28, 0, output), totals)
    work = 0
    for accepted, offered in enumerate(records_of(data)):
        at = BYTES * accepted
        answer, after = take_month(ledger, totals, offered, output[at:])
        if answer.refusal:
            return Months(Run(ledger, accepted, answer.refusal, work, output), totals)
        work += work_of(ledger, read_record(offered))
        ledger, totals, output = answer.ledger, after, output[:at] + answer.output
    return Months(Run(ledger, len(records_of(data)), 0, work, output), totals)


def afresh(outputs):
    """The totals worked out from output records alone, one after another as a run writes them."""
    months = [(number(data, 0, 2), *(number(data, at, 8) for at in (8, 16, 24))) for data in records_of(outputs)]
    return b"".join(write_slot(year_of_months(k, months)) for k in range(YEARS))


def year_of_months(k, months):
    """A slot from all months, each with its period, x0, figure and bound."""
    sums = [numbers for period, *numbers in months if slot_of(period)[0] == k]
    return Slot(k + 1, len(sums), *map(sum, zip(*sums))) if sums else Slot()
