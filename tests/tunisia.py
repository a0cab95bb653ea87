"""Request i of document 02, the Tunisian reference method, over the rules of reference.py.

A year counts the carbon that was released the year before. Source 002 has the same in sections F to H.
"""
from typing import NamedTuple

from reference import B_of, BYTES, FRESH, MONTHLY, NONE, bound_of, figure_of, read_record, records_of, refusal_of
from reference import take

ANAEROBIC, SEMI_AEROBIC = 1, 2  # site classes of the reference and of the project
MOST_GRAMS = 10**15  # of electricity in a year, and of fuel


class Figures(NamedTuple):
    """What one year adds to a stretch, in grams CO2e."""

    reference: int
    reference_bound: int
    project: int
    project_bound: int


class Answer(NamedTuple):
    refusal: int  # of the stretch
    reference: int
    project: int
    reduction: int
    bound: int
    years: int  # accepted
    stopped: int  # refusal of the first refused record, 0 if none


def refusal_of_year(ledger, data):
    """The number of a record's first fault, or 0. A monthly record is refused with 23, after 5 and before 6."""
    refusal = refusal_of(ledger, data, BYTES)
    if refusal in (1, 4, 5):
        return refusal
    return 23 if read_record(data).kind == MONTHLY else refusal


def figures_of(record, before, x0):
    """The figures of a record's year, with the ledger before it and the x0 of the record before it."""
    reference = figure_of(record._replace(site_class=ANAEROBIC), x0) * 73 // 100
    project = figure_of(record._replace(site_class=SEMI_AEROBIC), x0)
    bound = bound_of(record, B_of(before))
    return Figures(reference, bound + 1, project, bound)


def years_of(file):
    """The figures of every accepted year, and the refusal of the first refused record. Year 1 has x0 and B of 0."""
    years, ledger, releases = [], FRESH, NONE
    for offered in records_of(file):
        refusal = refusal_of_year(ledger, offered)
        if refusal:
            return years, refusal
        record = read_record(offered)
        years.append(figures_of(record, ledger, sum(releases)))
        ledger, releases = take(ledger, record)
    return years, 0


def refusal_of_stretch(accepted, first, last, electricity, fuel):
    """The number of the first fault, or 0."""
    if not 1 <= first <= last <= accepted:
        return 24
    if not len(electricity) == len(fuel) == last - first + 1:
        return 24
    if any(grams > MOST_GRAMS for grams in (*electricity, *fuel)):
        return 25
    return 0


def reduction(file, first, last, electricity, fuel):
    """The answer for the years from first to last of a file, with the grams of electricity and fuel of each."""
    years, stopped = years_of(file)
    refusal = refusal_of_stretch(len(years), first, last, electricity, fuel)
    if refusal:
        return Answer(refusal, 0, 0, 0, 0, len(years), stopped)
    reference, reference_bound, project, project_bound = map(sum, zip(*years[first - 1 : last]))
    less = reference - project - sum(electricity) - sum(fuel)
    return Answer(0, reference, project, less, reference_bound + project_bound, len(years), stopped)
