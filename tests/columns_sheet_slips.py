"""Wrong readings of request j of document 02 about the column of one type."""
from fractions import Fraction
from math import floor

from columns import release_column
from reference import MONTHLY, TYPES, YEARLY, decay, deposits, rates

BILLION = 10**9


def entry_of(record, t):
    """The entry of a type in a record, which is right."""
    return decay(record.kind, rates(record.climate)[t - 1])


def stepped(step=None, entry=entry_of, brought=deposits):
    """Another step of a type, from its stock, its deposit and its entry to release and stock; or another of these."""

    def wrong(records, t):
        releases, R = [], 0
        for record in records:
            release, R = (step or right)(R, brought(record)[t - 1], entry(record, t))
            releases.append(release)
        return releases, R

    return {"release_column": wrong}


def right(R, deposit, D):
    left = (R + deposit) * D // BILLION
    return R + deposit - left, left


def decays_later(R, deposit, D):
    return R - R * D // BILLION, R * D // BILLION + deposit


def release_rounded_down(R, deposit, D):
    release = (R + deposit) * (BILLION - D) // BILLION
    return release, R + deposit - release


def to_the_nearest(R, deposit, D):
    left = ((R + deposit) * D + BILLION // 2) // BILLION
    return R + deposit - left, left


def in_64_bits(R, deposit, D):
    left = (R + deposit) * D % 2**64 // BILLION
    return (R + deposit - left) % 2**64, left


def as_floats(R, deposit, D):
    left = floor((R + deposit) * (D / BILLION))
    return R + deposit - left, left


def a_twelfth(record, t):
    """A month that loses a twelfth of what a year loses."""
    D = decay(YEARLY, rates(record.climate)[t - 1])
    return D if record.kind == YEARLY or D == 0 else BILLION - (BILLION - D) // 12


def in_kind(kind):
    return stepped(entry=lambda record, t: decay(kind, rates(record.climate)[t - 1]))


def in_climate(climate):
    return stepped(entry=lambda record, t: decay(record.kind, rates(climate)[t - 1]))


def next_to(t):
    """The type after another, or before the last."""
    return t + 1 if t < TYPES[-1] else t - 1


def of_next_types(record):
    return tuple(deposits(record)[next_to(t) - 1] for t in TYPES)


def without_dry_matter(record):
    return deposits(record._replace(m7=0, m8=0))


def of_all(change):
    """A column from the right one and the records: releases and the end stock."""
    return {"release_column": lambda records, t: change(records, t, *release_column(records, t))}


def rounded_at_the_end(records, t, *_):
    """Stocks as fractions, of which each release is the difference rounded down."""
    releases, R = [], Fraction(0)
    for record in records:
        H = R + deposits(record)[t - 1]
        R = H * entry_of(record, t) / BILLION
        releases.append(floor(H - R))
    return releases, floor(R)


def as_first(records, *fields):
    """The records with some fields of the first one."""
    return [record._replace(**{field: getattr(records[0], field) for field in fields}) for record in records]


def first_record(field):
    """A field of the first record in all of them."""
    return of_all(lambda records, t, *_: release_column(as_first(records, field), t))


def stocks_of(records, t):
    """The stocks of a type after each period, which are right."""
    return [release_column(records[:count], t)[1] for count in range(1, len(records) + 1)]


def in_bits(bits):
    """Releases in so many bits."""
    return of_all(lambda records, t, releases, R: ([release % 2**bits for release in releases], R))


def stock(change):
    """Another end stock, from the records, the type, the releases and the right one."""
    return of_all(lambda records, t, releases, R: (releases, change(records, t, releases, R)))


def summed(releases):
    return [sum(releases[: place + 1]) for place in range(len(releases))]


READINGS = {
    "a deposit decays from the next period on": stepped(decays_later),
    "releases rounded down": stepped(release_rounded_down),
    "stocks to the nearest": stepped(to_the_nearest),
    "decay in 64 bits": stepped(in_64_bits),
    "decay in floats": stepped(as_floats),
    "rounded at the end": of_all(rounded_at_the_end),
    "the deposit of the period alone": stepped(lambda R, deposit, D: right(0, deposit, D)),
    "the stock of the period before alone": stepped(lambda R, deposit, D: (right(R, deposit, D)[0], deposit)),
    "all that was brought": stepped(lambda R, deposit, D: (right(R, deposit, D)[0], R + deposit)),
    "a yearly entry for months": in_kind(YEARLY),
    "a monthly entry for years": in_kind(MONTHLY),
    "a twelfth of the yearly release": stepped(entry=a_twelfth),
    **{f"entries of climate {climate}": in_climate(climate) for climate in (1, 2, 3, 4)},
    "the entry of the next type": stepped(entry=lambda record, t: entry_of(record, next_to(t))),
    "the deposit of the next type": stepped(brought=of_next_types),
    "no measured dry matter": stepped(brought=without_dry_matter),
    **{f"the first record's {field}": first_record(field) for field in ("m7", "m8", "masses")},
    "release and stock exchanged": of_all(lambda records, t, releases, R: (stocks_of(records, t), sum(releases[-1:]))),
    "stocks for releases": of_all(lambda records, t, releases, R: (stocks_of(records, t), R)),
    "all released so far": of_all(lambda records, t, releases, R: (summed(releases), R)),
    "the last period not worked out": of_all(lambda records, t, *_: release_column(records[:-1], t)),
    **{f"releases in {bits} bits": in_bits(bits) for bits in (32, 48)},
    "the stock of one period earlier": stock(lambda records, t, *_: release_column(records[:-1], t)[1]),
    "the stock of the first period": stock(lambda records, t, *_: release_column(records[:1], t)[1]),
    "the stock with deposit": stock(lambda records, t, releases, R: R + sum(releases[-1:])),
    "all released as the stock": stock(lambda records, t, releases, R: sum(releases)),
    "the last release as the stock": stock(lambda records, t, releases, R: sum(releases[-1:])),
    "all brought as the stock": stock(lambda records, t, releases, R: R + sum(releases)),
    **{f"the stock in {bits} bits": stock(lambda *column, b=bits: column[-1] % 2**b) for bits in (32, 53)},
    "the stock as a float": stock(lambda *column: int(float(column[-1]))),
}
