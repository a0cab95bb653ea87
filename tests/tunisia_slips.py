"""Wrong readings of request i of document 02, which the stored cases have to tell from the right one.

Each has a name, and functions that it puts in the place of tunisia.py's. Those about the sums of a stretch are here,
those about a year, a record and a refused stretch in tunisia_year_slips.py, tunisia_record_slips.py and
tunisia_refusal_slips.py.
"""
from typing import NamedTuple

import misread
import tunisia
import tunisia_record_slips
import tunisia_refusal_slips
import tunisia_year_slips
from tunisia import reduction, years_of
from tunisia_cases import Asked, years
from tunisia_faults import years_refused
from tunisia_year_slips import accepted, whole


class Stretch(NamedTuple):
    """What a stretch that is answered came to."""

    asked: Asked
    years: list  # figures of all accepted years

    def figures(self, since=0, until=0):
        """The figures of its years, with the ends moved."""
        return self.years[max(self.asked.first - 1 + since, 0) : max(self.asked.last + until, 0)]


def answered(change):
    """Another answer, from the right one and the stretch."""

    def wrong(*asked):
        answer = reduction(*asked)
        return answer if answer.refusal else change(answer, Stretch(Asked(*asked), years_of(asked[0])[0]))

    return {"reduction": wrong}


def of_years(figures):
    """The figures of other years, added."""

    def change(answer, stretch):
        re, re_bound, pj, pj_bound = (sum(column) for column in zip((0,) * 4, *figures(stretch)))
        less = answer.reduction - answer.reference + answer.project + re - pj
        return answer._replace(reference=re, project=pj, reduction=less, bound=re_bound + pj_bound)

    return answered(change)


def scaled_once(answer, stretch):
    """The figures of the years added before 73 / 100 is taken."""
    rows = list(accepted(stretch.asked.file))[stretch.asked.first - 1 : stretch.asked.last]
    re = sum(map(whole, rows)) * 73 // 100
    return answer._replace(reference=re, reduction=answer.reduction - answer.reference + re)


YEARS = {
    "73 / 100 of the sum": answered(scaled_once),
    "the last year left out": of_years(lambda stretch: stretch.figures(until=-1)),
    "the first year left out": of_years(lambda stretch: stretch.figures(since=1)),
    "the year before too": of_years(lambda stretch: stretch.figures(since=-1)),
    "the year after too": of_years(lambda stretch: stretch.figures(until=1)),
    "a year earlier": of_years(lambda stretch: stretch.figures(-1, -1)),
    "a year later": of_years(lambda stretch: stretch.figures(1, 1)),
    "from year 1 on": of_years(lambda stretch: stretch.years[: stretch.asked.last]),
    "up to the last accepted year": of_years(lambda stretch: stretch.years[stretch.asked.first - 1 :]),
    "all accepted years": of_years(lambda stretch: stretch.years),
    "the first year alone": of_years(lambda stretch: stretch.figures()[:1]),
    "the last year alone": of_years(lambda stretch: stretch.figures()[-1:]),
    "the first and the last year": of_years(lambda stretch: stretch.figures()[:: max(len(stretch.figures()) - 1, 1)]),
}


# The reduction


def less(count):
    """Another reduction, from the answer and the electricity and fuel."""
    return answered(
        lambda answer, stretch: answer._replace(reduction=count(answer, stretch.asked.electricity, stretch.asked.fuel))
    )


def plain(answer):
    """Reference less project, which is right."""
    return answer.reference - answer.project


def signed(value, bits):
    """A number as so many bits with a sign hold it."""
    return (value + 2 ** (bits - 1)) % 2**bits - 2 ** (bits - 1)


def by_year_above_zero(answer, stretch):
    """Years that lose left out of the reduction."""
    rows = zip(stretch.figures(), stretch.asked.electricity, stretch.asked.fuel)
    return answer._replace(reduction=sum(max(row[0] - row[2] - e - f, 0) for row, e, f in rows))


REDUCED = {
    "reference less project": less(lambda answer, e, f: plain(answer)),
    "electricity added": less(lambda answer, e, f: plain(answer) + sum(e) - sum(f)),
    "fuel added": less(lambda answer, e, f: plain(answer) - sum(e) + sum(f)),
    "both added": less(lambda answer, e, f: plain(answer) + sum(e) + sum(f)),
    "electricity left out": less(lambda answer, e, f: plain(answer) - sum(f)),
    "fuel left out": less(lambda answer, e, f: plain(answer) - sum(e)),
    "electricity twice": less(lambda answer, e, f: plain(answer) - 2 * sum(e)),
    "fuel twice": less(lambda answer, e, f: plain(answer) - 2 * sum(f)),
    "fuel counted twice": less(lambda answer, e, f: plain(answer) - sum(e) - 2 * sum(f)),
    "electricity of the first year": less(lambda answer, e, f: plain(answer) - e[0] - sum(f)),
    "electricity of the last year": less(lambda answer, e, f: plain(answer) - e[-1] - sum(f)),
    "fuel of the first year": less(lambda answer, e, f: plain(answer) - sum(e) - f[0]),
    "fuel of the last year": less(lambda answer, e, f: plain(answer) - sum(e) - f[-1]),
    "the larger of electricity and fuel": less(lambda answer, e, f: plain(answer) - max(sum(e), sum(f))),
    "electricity for each year": less(lambda answer, e, f: plain(answer) - len(e) * e[0] - sum(f)),
    "project less reference": less(lambda answer, e, f: -plain(answer) - sum(e) - sum(f)),
    "the other sign": less(lambda answer, e, f: -answer.reduction),
    "no sign": less(lambda answer, e, f: abs(answer.reduction)),
    "not below zero": less(lambda answer, e, f: max(answer.reduction, 0)),
    "not above zero": less(lambda answer, e, f: min(answer.reduction, 0)),
    "no year below zero": answered(by_year_above_zero),
    "not below -1": less(lambda answer, e, f: max(answer.reduction, -1)),
    "one too low": less(lambda answer, e, f: answer.reduction - 1),
    "one's complement": less(lambda answer, e, f: answer.reduction - (answer.reduction < 0)),
    "without a sign in 64 bits": less(lambda answer, e, f: answer.reduction % 2**64),
    **{f"in {bits} bits": less(lambda answer, e, f, b=bits: signed(answer.reduction, b)) for bits in (32, 48, 56, 61)},
    "as a float": less(lambda answer, e, f: int(float(answer.reduction))),
    "electricity in 32 bits": less(lambda answer, e, f: plain(answer) - sum(e) % 2**32 - sum(f)),
    "fuel in 32 bits": less(lambda answer, e, f: plain(answer) - sum(e) - sum(f) % 2**32),
    "less the bound": less(lambda answer, e, f: answer.reduction - answer.bound),
}


# What is answered beside


def entered(answer, stretch):
    """Electricity and fuel with the project, as G of source 002 has it."""
    return answer._replace(project=answer.project + sum(stretch.asked.electricity + stretch.asked.fuel))


def bounds_of(stretch):
    """The two bounds of each year added."""
    return [figures.reference_bound + figures.project_bound for figures in stretch.figures()]


def numbers(**counts):
    """Other numbers of an answer, from the right one and the stretch."""
    return answered(lambda answer, s: answer._replace(**{name: count(answer, s) for name, count in counts.items()}))


BESIDE = {
    "electricity and fuel in the project": answered(entered),
    "reference and project exchanged": numbers(reference=lambda a, s: a.project, project=lambda a, s: a.reference),
    "the greatest bound": numbers(bound=lambda a, s: max(bounds_of(s))),
    "the first year's bound": numbers(bound=lambda a, s: bounds_of(s)[0]),
    "the last year's bound": numbers(bound=lambda a, s: bounds_of(s)[-1]),
    "a bound with one gram for the stretch": numbers(bound=lambda a, s: a.bound - len(s.figures()) + 1),
    "the bounds' difference": numbers(bound=lambda a, s: len(s.figures())),
    "the bound in 32 bits": numbers(bound=lambda a, s: a.bound % 2**32),
    "the reference in 32 bits": numbers(reference=lambda a, s: a.reference % 2**32),
    "the project in 32 bits": numbers(project=lambda a, s: a.project % 2**32),
    "the reference as a float": numbers(reference=lambda a, s: int(float(a.reference))),
    "the project as a float": numbers(project=lambda a, s: int(float(a.project))),
}

PARTS = tunisia_year_slips, tunisia_record_slips, tunisia_refusal_slips
READINGS = {name: functions for part in PARTS for name, functions in part.READINGS.items()} | YEARS | REDUCED | BESIDE


def unseen():
    """The names of the readings that give the line of every stored case."""
    return misread.unseen(READINGS, tunisia, "t", years, years_refused)
