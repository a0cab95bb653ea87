"""Wrong readings of request j of document 02, which the stored cases have to tell from the right one.

Each has a name, and functions that it puts in the place of columns.py's. Those about what is written and answered for
a good file are here, those about one type, the figures and refusals in columns_sheet_slips.py, columns_figure_slips.py
and columns_refusal_slips.py.
"""
from itertools import accumulate, chain
from unittest import mock

import columns
import columns_figure_slips
import columns_refusal_slips
import columns_sheet_slips
import misread
from columns import calculation
from columns_cases import by_columns
from columns_faults import by_columns_refused
from histories import replaced
from reference import BYTES, NONE, TYPES, decay, deposits, rates


def answered(change):
    """Another answer for a good file, from the right one, the file and the columns lent."""

    def wrong(file, lent):
        answer = calculation(file, lent)
        return answer if answer.refusal else change(answer, file, lent)

    return {"calculation": wrong}


# The columns


def numbers(change):
    """Other columns, from the new numbers of all nine and the places lent."""

    def columns_of(answer, file, lent):
        new = [column[: len(file) // BYTES] for column in answer.columns]
        return answer._replace(columns=tuple(map(tuple, change(new, lent))))

    return answered(columns_of)


def each_column(change):
    """Other columns, from the place of each, its new numbers and the places lent."""
    return numbers(lambda new, lent: [change(at, *pair) for at, pair in enumerate(zip(new, lent))])


def as_long(new, old):
    """New numbers at the start of the places lent."""
    return (*new, *old[len(new) :])


def among(places, change):
    """The same in some columns alone."""
    return each_column(lambda at, new, old: change(at, new, old) if at in places else as_long(new, old))


def swapped(values, at):
    """A list with two neighbours exchanged."""
    return (*values[:at], values[at + 1], values[at], *values[at + 2 :])


def exchanged(at):
    """The new numbers of two neighbouring columns exchanged."""
    return numbers(lambda new, lent: map(as_long, swapped(new, at), lent))


def by_rows(new, lent):
    """All types of one period before the next, in columns as long as the run."""
    row_by_row, n = list(chain(*zip(*new))), len(new[0])
    return [as_long(row_by_row[n * at : n * at + n], old) for at, old in enumerate(lent)]


def cleared(_at, new, old):
    """Places past the run cleared."""
    return new + (0,) * (len(old) - len(new))


def added(_at, new, old):
    """New numbers added to what is there."""
    return as_long([(a + b) % 2**64 for a, b in zip(new, old)], old)


def from_the_stock_before(file, lent):
    """A column that starts from the end stock of the one before."""
    left = 0

    def column(offered, t):
        nonlocal left
        releases = []
        for record in offered:
            H = left + deposits(record)[t - 1]
            left = H * decay(record.kind, rates(record.climate)[t - 1]) // 10**9
            releases.append(H - left)
        return releases, left

    with mock.patch.object(columns, "release_column", column):
        return calculation(file, lent)


COLUMNS = {
    "a column starts from the stock of the one before": {"calculation": from_the_stock_before},
    "places past the run cleared": each_column(cleared),
    "the place after the run cleared": each_column(lambda at, new, old: as_long((*new, 0), old)[: len(old)]),
    **{f"places past the run cleared in column {place + 1}": among([place], cleared) for place in range(9)},
    **{f"column {place + 1} not written": among([place], lambda at, new, old: old) for place in range(9)},
    "the last number again in places past the run": each_column(
        lambda at, new, old: as_long(new + new[-1:] * (len(old) - len(new)), old)
    ),
    "the last period left out": each_column(lambda at, new, old: as_long(new[:-1], old)),
    "the last figure left out": among([8], lambda at, new, old: as_long(new[:-1], old)),
    "the last release of type 8 left out": among([7], lambda at, new, old: as_long(new[:-1], old)),
    "the first period left out": each_column(lambda at, new, old: as_long((*old[:1], *new[1:]), old)),
    "a place later": each_column(lambda at, new, old: as_long((*old[:1], *new), old)[: len(old)]),
    "a place earlier": each_column(lambda at, new, old: as_long(new[1:], old)),
    "the last period first": each_column(lambda at, new, old: as_long(new[::-1], old)),
    "at the end of the column": each_column(lambda at, new, old: old[len(new) :] + new),
    "no place for zero": each_column(lambda at, new, old: as_long([a or b for a, b in zip(new, old)], old)),
    "columns of zeros stay": each_column(lambda at, new, old: as_long(new, old) if any(new) else old),
    "added to what is there": each_column(added),
    "columns cut to the run": each_column(lambda at, new, old: new),
    "all columns by rows": numbers(by_rows),
    **{f"columns {place + 1} and {place + 2} exchanged": exchanged(place) for place in range(8)},
    "figures first": numbers(lambda new, lent: map(as_long, new[8:] + new[:8], lent)),
    "one period alone": each_column(lambda at, new, old: as_long(new[:1], old)),
    "up to 1199 periods": each_column(lambda at, new, old: as_long(new[:1199], old)),
    "up to 255 periods": each_column(lambda at, new, old: as_long(new[:255], old)),
    "12 periods": each_column(lambda at, new, old: as_long(new[:12], old)),
}


# The stocks


def stocks(change):
    """Other stocks, from the right ones."""
    return answered(lambda answer, file, lent: answer._replace(stocks=change(answer.stocks)))


STOCKS = {
    "no stocks": stocks(lambda R: NONE),
    "the last type's stock in all": stocks(lambda R: R[-1:] * 8),
    "the stocks added": stocks(lambda R: (sum(R), *NONE[1:])),
    "stocks added up to each type": stocks(lambda R: tuple(accumulate(R))),
    "stocks the other way about": stocks(lambda R: R[::-1]),
    **{f"stocks {t} and {t + 1} exchanged": stocks(lambda R, at=t - 1: swapped(R, at)) for t in TYPES[:7]},
    **{f"no stock of type {t}": stocks(lambda R, t=t: replaced(R, t - 1, 0)) for t in TYPES if t != 6},
}

PARTS = columns_sheet_slips, columns_figure_slips, columns_refusal_slips
READINGS = {name: functions for part in PARTS for name, functions in part.READINGS.items()} | COLUMNS | STOCKS


def unseen():
    """The names of the readings that give the line of every stored case."""
    return misread.unseen(READINGS, columns, "b", by_columns, by_columns_refused)
