"""Request j of document 02 in another form: a release is what decays, rounded up, and a stock is what is not released.

Nothing here is taken from the reference.
"""
from itertools import accumulate

import retold
from tunisia_retold import faults, lines_of

ORDER = 4, 5, 6, 7, 8, 17, 9  # in which the faults of a whole record are tested
BILLION = 10**9


def faults_of(lines, place):
    """Which faults a whole record has, by number: those of a year, 7 by kind too, and a month that changes its year."""
    line, first_month = lines[place], lines[place // 12 * 12]
    changed = [getattr(line, field) != getattr(first_month, field) for field in ("factor", "site_class", "f")]
    other_series = line[1:3] != lines[0][1:3]
    return faults(place, line, lines[0]) | {7: other_series, 17: line.kind == 2 and any(changed)}


def refused(file, shortest):
    """The number of the first fault, or 0, where the shortest column has so many places."""
    lines = lines_of(file)
    for place in range(len(lines)):
        found = faults_of(lines, place)
        for number in ORDER:
            if found[number]:
                return number
    if len(file) > 48 * len(lines):
        return 1
    return 26 if shortest < len(lines) else 0


def sheet(brought, entries):
    """One type: the release of each period, and what is left, from its deposits in mg and its entries in billionths."""
    releases, gone = [], 0
    for total, entry in zip(accumulate(brought), entries, strict=True):
        releases.append(-((total - gone) * (entry - BILLION) // BILLION))
        gone += releases[-1]
    return releases, sum(brought) - gone


def sheets(lines):
    """The sheets of the eight types, each from the tables of the sources."""
    brought = [map(int, retold.carbon(line.masses, line.m7, line.m8)) for line in lines]
    entries = [[retold.entry(line.kind, k) if k else 0 for k in retold.rates(line.climate)] for line in lines]
    return [sheet(*columns) for columns in zip(map(list, zip(*brought)), zip(*entries))] or [([], 0)] * 8


def calculation(file, columns):
    """The answer as a list: the refusal, nine columns, eight stocks."""
    refusal = refused(file, min(map(len, columns)))
    if refusal:
        return [refusal, *columns, *[0] * 8]
    lines, table = lines_of(file), list(map(list, columns))
    releases, stocks = zip(*sheets(lines))
    x0 = [0] * len(lines)
    for column in releases:
        x0 = [total + release for total, release in zip(x0, column, strict=True)]
    for place, column in enumerate((*releases, map(retold.figure, lines, x0))):
        table[place][: len(lines)] = column
    return [0, *map(tuple, table), *stocks]
