"""Request j of document 02, a column-by-column calculation from a fresh ledger, over the rules of reference.py.

A column is a tuple of numbers: it goes in as it is lent, and comes back as it is then.
"""
from typing import NamedTuple

from reference import BYTES, FRESH, NONE, TYPES, decay, deposits, figure_of, rates, read_record, records_of, run


class Answer(NamedTuple):
    refusal: int
    columns: tuple  # nine: the releases of types 1 to 8 in mg, then the figures in grams CO2e
    stocks: tuple  # mg left at the end, for each type


def release_column(records, t):
    """The releases of one type in all periods, and its end stock."""
    releases, R = [], 0
    for record in records:
        D = decay(record.kind, rates(record.climate)[t - 1])
        H = R + deposits(record)[t - 1]
        R = H * D // 10**9
        releases.append(H - R)
    return releases, R


def figure_column(records, releases):
    """The figures of all periods, by adding across the eight columns of releases."""
    return [figure_of(record, sum(across)) for record, across in zip(records, zip(*releases))]


def refusal_of_columns(file, columns):
    """The first engine's refusal, with room for every output record; then 26, or 0."""
    records = len(records_of(file))
    refusal = run(FRESH, file, bytes(BYTES * records)).refusal
    if refusal:
        return refusal
    if any(len(column) < records for column in columns):
        return 26
    return 0


def calculation(file, columns):
    """Works a file out by columns: all periods of one type before the next. Places past the run stay."""
    refusal = refusal_of_columns(file, columns)
    if refusal:
        return Answer(refusal, columns, NONE)
    records = [read_record(data) for data in records_of(file)]
    releases, stocks = zip(*(release_column(records, t) for t in TYPES))
    written = *releases, figure_column(records, releases)
    return Answer(0, tuple((*new, *old[len(new) :]) for new, old in zip(written, columns)), stocks)
