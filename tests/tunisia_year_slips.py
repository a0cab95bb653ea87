"""Wrong readings of request i of document 02 about the figures and the bounds of one year."""
from typing import NamedTuple
from unittest import mock

import reference
from reference import B_of, FRESH, NONE, Ledger, Record, bound_of, figure_of, read_record, records_of, take
from tunisia import ANAEROBIC, SEMI_AEROBIC, figures_of, years_of
from tunisia_cases import FACTORS


class Year(NamedTuple):
    """An accepted year with what a wrong reading may take."""

    record: Record
    earlier: Record  # the record before it, or this one in year 1
    before: Ledger
    after: Ledger
    past: tuple  # releases of the year before
    own: tuple  # releases of this year


def accepted(file):
    """The accepted years, which are right."""
    ledger, past, earlier = FRESH, NONE, None
    for offered in records_of(file)[: len(years_of(file)[0])]:
        record = read_record(offered)
        after, own = take(ledger, record)
        yield Year(record, earlier or record, ledger, after, past, own)
        ledger, past, earlier = after, own, record


def by_year(figures):
    """Other figures of each year."""

    def wrong(file):
        return list(map(figures, accepted(file))), years_of(file)[1]

    return {"years_of": wrong}


def right(year):
    return figures_of(year.record, year.before, sum(year.past))


# Which carbon a year counts


def of_carbon(x0):
    """Other carbon of a year."""
    return by_year(lambda year: figures_of(year.record, year.before, x0(year)))


def old_waste_alone(year):
    """What the carbon of earlier years releases this year."""
    _, releases = take(year.before, year.record._replace(masses=NONE))
    return sum(releases)


def type_by_type(year):
    """The chain for each type, and the figures added."""
    parts = [figures_of(year.record, FRESH, release) for release in year.past]
    return right(year)._replace(reference=sum(part[0] for part in parts), project=sum(part[2] for part in parts))


CARBON = {
    "release of the year itself": of_carbon(lambda year: sum(year.own)),
    "release of year 1 in year 1": of_carbon(lambda year: sum(year.past if year.before.n else year.own)),
    "both years' releases": of_carbon(lambda year: sum(year.past + year.own)),
    "release of this year without its waste": of_carbon(old_waste_alone),
    "the stock of the year before": of_carbon(lambda year: sum(year.before.R)),
    "all that was brought": of_carbon(lambda year: sum(year.before.T)),
    "all that was released": of_carbon(lambda year: sum(year.before.released)),
    "no release in year 2": of_carbon(lambda year: sum(year.past) if year.before.n > 1 else 0),
    "no release": of_carbon(lambda year: 0),
    "type by type": by_year(type_by_type),
}


# With which factors


def with_fields(fields):
    """A record with other fields, from the year."""
    return by_year(lambda year: figures_of(year.record._replace(**fields(year)), year.before, sum(year.past)))


def earlier(*fields):
    return with_fields(lambda year: {field: getattr(year.earlier, field) for field in fields})


def gwp_of_bounds(year):
    """The bounds with GWP of the record before."""
    bound = bound_of(year.earlier, B_of(year.before))
    return right(year)._replace(reference_bound=bound + 1, project_bound=bound)


def in_classes(reference_class, project_class):
    """Other classes, each from the class of the record."""

    def figures(year):
        sites = (year.record._replace(site_class=of(year.record.site_class)) for of in (reference_class, project_class))
        re, pj = (figure_of(record, sum(year.past)) for record in sites)
        return right(year)._replace(reference=re * 73 // 100, project=pj)

    return by_year(figures)


def one(site_class):
    return lambda _: site_class


CLASS_1, CLASS_2, OWN = one(ANAEROBIC), one(SEMI_AEROBIC), lambda own: own
WITH = {
    **{f"{field} of the record before": earlier(field) for field in FACTORS},
    "all factors of the record before": earlier(*FACTORS),
    "GWP of the record before in the bounds alone": by_year(gwp_of_bounds),
    "GWP 28": with_fields(lambda year: {"GWP": 28}),
    "factor 75": with_fields(lambda year: {"factor": 75}),
    "nothing captured": with_fields(lambda year: {"f": 0}),
    "the record's class": in_classes(OWN, OWN),
    "the record's class for the reference": in_classes(OWN, CLASS_2),
    "the record's class for the project": in_classes(CLASS_1, OWN),
    "classes exchanged": in_classes(CLASS_2, CLASS_1),
    "class 1 for both": in_classes(CLASS_1, CLASS_1),
    "class 2 for both": in_classes(CLASS_2, CLASS_2),
    **{f"class {other} for the reference": in_classes(one(other), CLASS_2) for other in (3, 4)},
    **{f"class {other} for the project": in_classes(CLASS_1, one(other)) for other in (3, 4)},
}


# How a figure is rounded


def whole(year, site_class=ANAEROBIC):
    """The figure of a year before 73 / 100."""
    return figure_of(year.record._replace(site_class=site_class), sum(year.past))


def as_reference(grams):
    """Another reference, from the figure before 73 / 100 and the year."""
    return by_year(lambda year: right(year)._replace(reference=grams(whole(year), year)))


def as_project(grams):
    """Another project, from the right figures and the year."""
    return by_year(lambda year: right(year)._replace(project=grams(right(year), year)))


def by_mcf(percent, year):
    """The chain with another percentage in the place of MCF."""
    with mock.patch.object(reference, "MCF", (percent,) * 4):
        return figure_of(year.record, sum(year.past))


ROUNDED = {
    "no 73 / 100": as_reference(lambda grams, year: grams),
    "27 / 100": as_reference(lambda grams, year: grams * 27 // 100),
    "less 27 / 100": as_reference(lambda grams, year: grams - grams * 27 // 100),
    "73 / 100 rounded up": as_reference(lambda grams, year: -(-grams * 73 // 100)),
    "73 / 100 to the nearest": as_reference(lambda grams, year: (grams * 73 + 50) // 100),
    "73 / 100 by hundreds": as_reference(lambda grams, year: grams // 100 * 73),
    "73 / 100 as a float": as_reference(lambda grams, year: int(grams * 0.73)),
    "73 / 100 within the chain": as_reference(lambda grams, year: by_mcf(73, year)),
    "73 / 100 of the carbon": by_year(
        lambda year: right(year)._replace(
            reference=figure_of(year.record._replace(site_class=ANAEROBIC), sum(year.past) * 73 // 100)
        )
    ),
    "73 / 100 of twice the project": as_reference(lambda grams, year: 2 * right(year).project * 73 // 100),
    "73 / 100 on the project": as_project(lambda figures, year: figures.project * 73 // 100),
    "73 / 100 on the project alone": by_year(
        lambda year: right(year)._replace(reference=whole(year), project=whole(year, SEMI_AEROBIC) * 73 // 100)
    ),
    "half of the reference": as_project(lambda figures, year: figures.reference // 2),
    "half of the reference before 73 / 100": as_project(lambda figures, year: whole(year) // 2),
}


# The bounds


def bounded(bounds):
    """Other bounds of the reference and of the project, from the year and the right one of the project."""

    def figures(year):
        re, pj = bounds(year, right(year).project_bound)
        return right(year)._replace(reference_bound=re, project_bound=pj)

    return by_year(figures)


def with_B(B):
    return bounded(lambda year, _: (bound_of(year.record, B(year)) + 1, bound_of(year.record, B(year))))


def B_at(n):
    """B of the ledger before with another n."""
    return with_B(lambda year: B_of(year.before._replace(n=n(year))))


BOUNDS = {
    "B of the year itself": with_B(lambda year: B_of(year.after)),
    "B of year 1 in year 1": with_B(lambda year: B_of(year.before if year.before.n else year.after)),
    "n of the year itself": B_at(lambda year: year.after.n),
    "n of two years before": B_at(lambda year: max(year.before.n - 1, 0)),
    "n of 1": B_at(lambda year: 1),
    "T of the year itself": with_B(lambda year: B_of(year.after._replace(n=year.before.n))),
    "T of all types": with_B(lambda year: B_of(year.before._replace(T=(sum(year.before.T), *NONE[1:])))),
    "R for T": with_B(lambda year: B_of(year.before._replace(T=year.before.R))),
    "no B": with_B(lambda year: 0),
    "the reference's scaled by 73 / 100": bounded(lambda year, bound: (bound * 73 // 100 + 1, bound)),
    "the reference's with its gram scaled": bounded(lambda year, bound: ((bound + 1) * 73 // 100, bound)),
    "the project's halved": bounded(lambda year, bound: (bound + 1, bound // 2)),
    "the reference's not one higher": bounded(lambda year, bound: (bound, bound)),
    "the reference's two higher": bounded(lambda year, bound: (bound + 2, bound)),
    "both one higher": bounded(lambda year, bound: (bound + 1, bound + 1)),
    "the reference's alone": bounded(lambda year, bound: (bound + 1, 0)),
    "the project's alone": bounded(lambda year, bound: (0, bound)),
    "none in year 1": bounded(lambda year, bound: (bound + 1, bound) if year.before.n else (0, 0)),
    "none without a figure": bounded(lambda year, bound: (bound + 1, bound) if right(year).reference else (0, 0)),
    "no 3": bounded(lambda year, bound: (bound - 2, bound - 3)),
}

READINGS = CARBON | WITH | ROUNDED | BOUNDS
