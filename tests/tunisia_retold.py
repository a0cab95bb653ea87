"""Request i of document 02 in another form: all years of a file as columns, then running totals over the stretch.

The factors are those of source 002, sections F to H, as fractions. Nothing here is taken from the reference.
"""
import struct
from fractions import Fraction
from itertools import accumulate
from math import floor
from typing import NamedTuple

import retold

MCF_RE = Fraction(retold.MCF["anaerobic managed solid waste disposal sites"])
MCF_PJ = Fraction(retold.MCF["semi-aerobic managed solid waste disposal sites"])
SHARE = Fraction("0.73")  # of the reference, F.1
METHANE = Fraction(16, 12)  # [tCH4/tC]
MOST_YEARS = 1200


class Line(NamedTuple):
    """One record of a file, as struct reads it."""

    period: int
    kind: int
    climate: int
    factor: int
    OX: int
    F: int
    DOCf: int
    site_class: int
    GWP: int
    f: int
    m7: int
    m8: int
    zero: bytes
    masses: tuple


def lines_of(file):
    """The whole records of a file."""
    parts = struct.iter_unpack("<H8BH2B2s8I", file[: len(file) // 48 * 48])
    return [Line(*part[:13], part[13:]) for part in parts]


def faults(place, line, first):
    """The faults of a whole record at a place from 0 on, in the order of the tests."""
    codes = line.kind in (1, 2) and 1 <= line.climate <= 4 and 1 <= line.site_class <= 4
    percents = max(line.factor, line.OX, line.F, line.DOCf, line.GWP, line.m7, line.m8) <= 100
    return {
        4: place >= MOST_YEARS,
        5: not codes or any(line.zero),
        23: line.kind == 2,
        6: line.period - 1 != place,
        7: line.climate != first.climate,
        8: not percents or 0 in (line.factor, line.GWP) or line.f > 10**4,
        9: any(kg > 10**9 for kg in line.masses),
    }


def accepted(file):
    """The records of the accepted years, and the refusal of what follows them."""
    lines = lines_of(file)
    for place, line in enumerate(lines):
        for number, holds in faults(place, line, lines[0]).items():
            if holds:
                return lines[:place], number
    return lines, 1 if len(file) % 48 else 0


def columns(lines):
    """For each type, T and the part of T that is gone, after 0 records, after 1, and so on."""
    brought = zip(*(retold.carbon(line.masses, line.m7, line.m8) for line in lines))
    parts = zip(*map(retold.remaining, lines))
    for mg, part in zip(brought, parts, strict=True):
        T = list(accumulate(mg, initial=0))
        left = accumulate(zip(mg, part), lambda r, year: floor((r + year[0]) * year[1]), initial=0)
        yield T, [t - r for t, r in zip(T, left, strict=True)]


def of_year_before(lines):
    """For each year, the carbon that the year before released, and B of the year before."""
    table = list(columns(lines))
    gone = [sum(row) for row in zip(*(gone for _, gone in table))]
    carbon = [0, *(after - before for before, after in zip(gone, gone[1:]))]
    brought = zip(*(T for T, _ in table))
    B = (sum(n + 1 + floor(Fraction(n * t, 10**9)) for t in row if t) for n, row in enumerate(brought))
    return list(zip(lines, carbon, B))


def shares(line):
    """What the first two stages of the chain keep of carbon, without MCF."""
    OX, F, DOCf = (Fraction(percent, 100) for percent in (line.OX, line.F, line.DOCf))
    return Fraction(line.factor, 100) * (1 - Fraction(line.f, 10**4)), (1 - OX) * F * DOCf


def emissions(line, MCF, mg):
    """Grams CO2e of carbon, rounded down after each stage."""
    kept, methane = shares(line)
    return floor(floor(floor(mg * kept) * methane * MCF) * METHANE * line.GWP / 1000)


def generated(brought, d, y):
    """The double sum in F.2 for year y, with a decay fraction d for each type and no rounding."""
    years = enumerate(brought[: y - 1], 1)
    return sum(mg * d_i ** (y - 1 - x) * (1 - d_i) for x, masses in years for mg, d_i in zip(masses, d, strict=True))


def exact(line, mg):
    """Reference and project of carbon by F.2 and G, with no rounding."""
    kept, methane = shares(line)
    grams = mg * kept * methane * METHANE * line.GWP / 1000
    return grams * MCF_RE * SHARE, grams * MCF_PJ


def year(line, mg, B):
    """Reference, project and their two bounds of one year."""
    bound = 3 + floor(B * METHANE * line.GWP / 1000)
    return floor(emissions(line, MCF_RE, mg) * SHARE), emissions(line, MCF_PJ, mg), bound + 1, bound


def refused(years, first, last, electricity, fuel):
    """The first fault of a stretch, or 0."""
    within = first in range(1, years + 1) and last in range(first, years + 1)
    if not within or {len(electricity), len(fuel)} != {len(range(first, last + 1))}:
        return 24
    return 25 if max(*electricity, *fuel) > 10**15 else 0


def reduction(file, first, last, electricity, fuel):
    """The answer as a list of seven numbers."""
    lines, number = accepted(file)
    refusal = refused(len(lines), first, last, electricity, fuel)
    if refusal:
        return [refusal, 0, 0, 0, 0, len(lines), number]
    rows = [year(*row) for row in of_year_before(lines)]
    totals = [list(accumulate(column, initial=0)) for column in zip(*rows)]
    RE, PE, *bounds = (total[last] - total[first - 1] for total in totals)
    PE_all = PE + sum(map(sum, zip(electricity, fuel)))
    return [0, RE, PE, RE - PE_all, sum(bounds), len(lines), number]
