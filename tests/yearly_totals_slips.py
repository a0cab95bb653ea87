"""Wrong readings of request l of document 02, which the stored cases have to tell from the right one.

Each has a name, and functions that it puts in the place of yearly_totals.py's. Those about a month that is added are
here, those about the test of a slot, other refusals and runs in yearly_totals_slot_slips.py,
yearly_totals_refusal_slips.py and yearly_totals_run_slips.py.
"""
import misread
import yearly_totals
import yearly_totals_refusal_slips
import yearly_totals_run_slips
import yearly_totals_slot_slips
from reference import MONTHS
from yearly_totals import EMPTY, FIELDS, MOST, SLOT, YEARS, Slot, added, read_slot, slot_of, with_slot
from yearly_totals_cases import SUMS, with_totals
from yearly_totals_faults import with_totals_refused

# Which slot is a month's


def added_to(slot):
    """A month added to another slot, from its period; it is tested in its own."""

    def wrong(totals, period, *numbers):
        k = slot(period) % YEARS
        _, months, *sums = read_slot(totals, k)
        return with_slot(totals, k, Slot(k + 1, months + 1, *map(sum, zip(sums, numbers))))

    return {"added": wrong}


def moved(slot):
    """A month tested in another slot and added to it, from its period."""
    return {"slot_of": lambda period: (slot(period) % YEARS, slot_of(period)[1])}


PLACES = {
    "n / 12": lambda n: n // 12,
    "(n - 1) / 12 rounded up": lambda n: (n + 10) // 12,
    "slots from 1 on": lambda n: (n + 11) // 12,
    "the slot below": lambda n: (n - 1) // 12 - 1,
    "the period": lambda n: n,
    "the period less 1": lambda n: n - 1,
    "the remainder": lambda n: (n - 1) % 12,
    "the last slot first": lambda n: YEARS - 1 - (n - 1) // 12,
    "the first slot": lambda n: 0,
    "ten months a year": lambda n: (n - 1) // 10,
    "13 months a year": lambda n: (n - 1) // 13,
    "periods in 8 bits": lambda n: (n - 1) % 256 // 12,
    "50 slots": lambda n: (n - 1) // 12 % 50,
    "99 slots": lambda n: (n - 1) // 12 % 99,
}
SLOTS = {f"{name}: added": added_to(slot) for name, slot in PLACES.items()}
SLOTS |= {f"{name}: tested and added": moved(slot) for name, slot in PLACES.items()}


# What is written there


def written(change):
    """Other numbers in the slot, from those before, the right ones, the slot's place and the month's own."""

    def wrong(totals, period, *numbers):
        k, _ = slot_of(period)
        old, new = read_slot(totals, k), read_slot(added(totals, period, *numbers), k)
        return with_slot(totals, k, change(old, new, k, Slot(0, 0, *numbers)))

    return {"added": wrong}


def head(field, value):
    """Another year, or other months, from the slot before, the right one and its place."""
    return written(lambda old, new, k, _: new._replace(**{field: value(old, new, k)}))


def one_sum(field, value):
    """Another sum, from the one before, the right one and the month's number."""

    def change(old, new, _, month):
        return new._replace(**{field: value(*(getattr(slot, field) for slot in (old, new, month)))})

    return written(change)


def exchanged(one, other):
    """The month's numbers of two sums exchanged."""

    def change(old, new, _, month):
        of_one = getattr(old, one) + getattr(month, other)
        return new._replace(**{one: of_one, other: getattr(old, other) + getattr(month, one)})

    return written(change)


WRONG_SUMS = {
    "not added": lambda old, new, month: old,
    "of the last month": lambda old, new, month: month,
    "the greatest": lambda old, new, month: max(old, month),
    "one more": lambda old, new, month: new + 1,
    "in 32 bits": lambda old, new, month: new % 2**32,
    "in 63 bits": lambda old, new, month: new % 2**63,
    "up to 10^19": lambda old, new, month: min(new, MOST),
    "as a float": lambda old, new, month: int(float(old) + float(month)),
    "without the first month": lambda old, new, month: new if old else 0,
}
WRITTEN = {
    "months stay at 1": head("months", lambda old, new, k: 1),
    "months not counted": head("months", lambda old, new, k: old.months),
    "12 months from the first on": head("months", lambda old, new, k: 12),
    "months of the ledger": head("months", lambda old, new, k: MONTHS * k + new.months),
    "0 months after the twelfth": head("months", lambda old, new, k: new.months % 12),
    "the year from 0 on": head("year", lambda old, new, k: k),
    "the year one more": head("year", lambda old, new, k: k + 2),
    "no year": head("year", lambda old, new, k: old.year),
    "the year from the second month on": head("year", lambda old, new, k: k + 1 if old.months else 0),
    "the period as the year": head("year", lambda old, new, k: MONTHS * k + new.months),
    "years up to 99": head("year", lambda old, new, k: min(k + 1, 99)),
    "year and months exchanged": written(lambda old, new, *_: new._replace(year=new.months, months=new.year)),
    "x0 and figure exchanged": exchanged("x0", "figure"),
    "figure and bound exchanged": exchanged("figure", "bound"),
    **{f"{field} {name}": one_sum(field, value) for field in SUMS for name, value in WRONG_SUMS.items()},
}


# Other bytes, and the order of bytes


def beside(change):
    """Other bytes changed too, from the totals as they should be and the slot's place."""
    return {"added": lambda totals, period, *numbers: change(added(totals, period, *numbers), slot_of(period)[0])}


def next_year(totals, k):
    """The year of the slot above written too."""
    return with_slot(totals, k + 1, read_slot(totals, k + 1)._replace(year=k + 2)) if k + 1 < YEARS else totals


def cleared(totals, k):
    return with_slot(totals, k, Slot()) if 0 <= k < YEARS else totals


def highest_first(slot):
    return b"".join(value.to_bytes(width, "big") for value, (_, width) in zip(slot, FIELDS))


BYTES = {
    "the next year written too": beside(next_year),
    "the slot above cleared": beside(lambda totals, k: cleared(totals, k + 1)),
    "the slot below cleared": beside(lambda totals, k: cleared(totals, k - 1)),
    "slots above cleared": beside(lambda totals, k: totals[: SLOT * (k + 1)] + EMPTY[SLOT * (k + 1) :]),
    "slots below cleared": beside(lambda totals, k: EMPTY[: SLOT * k] + totals[SLOT * k :]),
    "the last byte cleared": beside(lambda totals, k: totals[:-1] + b"\0"),
    "the highest byte first": {"write_slot": highest_first},
    "bound before figure": {"FIELDS": ((0, 4), (4, 4), (8, 8), (24, 8), (16, 8))},
    "months before the year": {"FIELDS": ((4, 4), (0, 4), (8, 8), (16, 8), (24, 8))},
}

PARTS = yearly_totals_slot_slips, yearly_totals_refusal_slips, yearly_totals_run_slips
READINGS = {name: functions for part in PARTS for name, functions in part.READINGS.items()} | SLOTS | WRITTEN | BYTES


def unseen():
    """The names of the readings that give the line of every stored case."""
    return misread.unseen(READINGS, yearly_totals, "yw", with_totals, with_totals_refused)
