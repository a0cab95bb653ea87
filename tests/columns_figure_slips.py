"""Wrong readings of request j of document 02 about the figures."""
from columns import figure_column
from columns_sheet_slips import as_first, summed
from reference import MCF, TYPES, bound_of, figure_of
from tunisia_cases import FACTORS


def of_figures(change):
    """Other figures, from the records and the eight columns of releases."""
    return {"figure_column": change}


def of_carbon(x0):
    """The chain of each record with other carbon, from its place and the rows of releases."""

    def wrong(records, releases):
        rows = list(zip(*releases))
        return [figure_of(record, x0(place, rows)) for place, record in enumerate(records)]

    return of_figures(wrong)


def of_record(change):
    """The chain of other records, from all of them and a place."""
    return of_figures(
        lambda records, releases: figure_column([change(records, place) for place in range(len(records))], releases)
    )


def of_first(*fields):
    return of_figures(lambda records, releases: figure_column(as_first(records, *fields), releases))


def of_other(shift):
    """The factors of a record some places away, or of the one itself where there is none."""
    return of_record(lambda records, place: records[place + shift if 0 <= place + shift < len(records) else place])


def type_by_type(records, releases):
    """The chain for each type, and the figures added."""
    return [sum(figure_of(record, release) for release in row) for record, row in zip(records, zip(*releases))]


def by_chain(chain):
    """Another chain, from a record and x0."""
    return of_figures(lambda records, releases: list(map(chain, records, map(sum, zip(*releases)))))


def shares(record):
    return (100 - record.OX) * record.F * record.DOCf * MCF[record.site_class - 1]


def rounded_once(record, x0):
    return x0 * record.factor * (10000 - record.f) * shares(record) * 4 * record.GWP // (10**14 * 3000)


def second_not_rounded(record, x0):
    x1 = x0 * record.factor * (10000 - record.f) // 10**6
    return x1 * shares(record) * 4 * record.GWP // (10**8 * 3000)


def chain_in_64_bits(record, x0):
    x1 = x0 * record.factor * (10000 - record.f) % 2**64 // 10**6
    return x1 * shares(record) % 2**64 // 10**8 * 4 * record.GWP // 3000


READINGS = {
    **{f"figures of type {t}": of_carbon(lambda place, rows, t=t: rows[place][t - 1]) for t in TYPES},
    **{
        f"figures without type {t}": of_carbon(lambda place, rows, t=t: sum(rows[place]) - rows[place][t - 1])
        for t in TYPES
        if t != 6
    },
    **{f"figures of types 1 to {t}": of_carbon(lambda place, rows, t=t: sum(rows[place][:t])) for t in TYPES[1:7]},
    "type by type": of_figures(type_by_type),
    "figures of the period before": of_carbon(lambda place, rows: sum(rows[place - 1]) if place else 0),
    "figures of all periods so far": of_carbon(lambda place, rows: sum(map(sum, rows[: place + 1]))),
    "figures of the first period": of_carbon(lambda place, rows: sum(rows[0])),
    "figures of the greatest release": of_carbon(lambda place, rows: max(rows[place])),
    "no figures": of_carbon(lambda place, rows: 0),
    "x0 for figures": by_chain(lambda record, x0: x0),
    "bounds for figures": by_chain(lambda record, x0: bound_of(record, 0)),
    "one rounding": by_chain(rounded_once),
    "x2 not rounded": by_chain(second_not_rounded),
    "the chain in 64 bits": by_chain(chain_in_64_bits),
    "figures in 32 bits": by_chain(lambda record, x0: figure_of(record, x0) % 2**32),
    "the first record's factors": of_first(*FACTORS, "site_class"),
    **{f"the first record's {field} in the chain": of_first(field) for field in (*FACTORS, "site_class")},
    "the last record's factors": of_record(lambda records, place: records[-1]),
    "the factors of the record before": of_other(-1),
    "the factors of the record after": of_other(1),
    "class 1 in all": of_record(lambda records, place: records[place]._replace(site_class=1)),
    "figures summed": of_figures(lambda records, releases: summed(figure_column(records, releases))),
}
