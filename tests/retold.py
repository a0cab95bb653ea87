"""The documents told a second time: the sources' tables as they stand there, equations of 000 in fractions, the
repair of shuffled files by columns, and the decay work of a run by columns.

Row names, units and digits are the sources' own. Nothing here is taken from the reference, so that selftest.py sees
a slip in a constant of either.
"""
import struct
from decimal import Context, Decimal
from fractions import Fraction
from functools import cache
from itertools import chain
from math import floor, isqrt

# Source 001, parameter DOC_j, "Default values for DOC_j": % of wet waste.
DOC = {
    "Wood and wood products": "43",
    "Pulp, paper and cardboard (other than sludge)": "40",
    "Food, food waste, beverages and tobacco (other than sludge)": "15",
    "Textiles": "24",
    "Garden, yard and park waste": "20",
    "Glass, plastic, metal, other inert waste": "0",
}

# The same cell in words, (2) and (3): % of wet sludge, and the % of organic dry matter that this default assumes.
SLUDGES = {"industrial sludge": ("9", "35"), "domestic sludge": ("5", "10")}

# Source 002, parameter k_i, 1/yr: boreal and temperate dry and wet, tropical dry and wet.
RATES = {
    "Pulp, paper, cardboard (other than sludge), textiles": ("0.04", "0.06", "0.045", "0.07"),
    "Wood, wood products and straw": ("0.02", "0.03", "0.025", "0.035"),
    "Other (non-food) organic putrescible garden and park waste": ("0.05", "0.10", "0.065", "0.17"),
    "Food, food waste, sewage sludge, beverages and tobacco": ("0.06", "0.185", "0.085", "0.40"),
    "sludge from pulp and paper industry": ("0.03", "0.03", "0.03", "0.03"),  # by a sentence of 000, table 7
}

# Source 000, data / parameter table 5: MCF_default of (a) to (d).
MCF = {
    "anaerobic managed solid waste disposal sites": "1.0",
    "semi-aerobic managed solid waste disposal sites": "0.5",
    "unmanaged solid waste disposal sites - deep": "0.8",
    "unmanaged-shallow solid waste disposal sites or stockpiles that are considered SWDS": "0.4",
}

# The types of document 01 in its order: the row of DOC or of SLUDGES, and the row of RATES, None where nothing decays.
TYPES = (
    ("Wood and wood products", "Wood, wood products and straw"),
    ("Pulp, paper and cardboard (other than sludge)", "Pulp, paper, cardboard (other than sludge), textiles"),
    (
        "Food, food waste, beverages and tobacco (other than sludge)",
        "Food, food waste, sewage sludge, beverages and tobacco",
    ),
    ("Textiles", "Pulp, paper, cardboard (other than sludge), textiles"),
    ("Garden, yard and park waste", "Other (non-food) organic putrescible garden and park waste"),
    ("Glass, plastic, metal, other inert waste", None),
    ("domestic sludge", "Food, food waste, sewage sludge, beverages and tobacco"),
    ("industrial sludge", "sludge from pulp and paper industry"),
)

PERIODS = {1: 1, 2: 12}  # in a year, by kind

# Source 000, by kind: table 14's three samples every three months of a year, and the three of equation (8).
LEAST_SAMPLES = {1: 3 * 4, 2: 3}

# Source 000, Table 3, "Instructions for the selection of values for the factors": parameter, lower and higher value.
UNCERTAINTIES = {
    "a": ("W", "2%", "10%"),
    "b": ("DOC_j", "5%", "10%"),
    "c": ("DOC_f", "5%", "15%"),
    "d": ("F", "0%", "5%"),
    "e": ("MCF_y", "0%", "50%"),
    "g": ("e^(-k_j (y-x)) (1 - e^(-k_j))", "5%", "20%"),
}

DIGITS = Context(prec=50)
PARTS = 10**12  # of 1, in which the root of equation (3) is enclosed


def of_sludge(row, matter):
    """DOC_j (% wet sludge) = default * (% organic dry matter content / assumed), where 0 says that it is not known."""
    default, assumed = map(Fraction, SLUDGES[row])
    return default * ((matter or assumed) / assumed)


def contents(domestic=0, industrial=0):
    """DOC of the eight types in %, rounded down to hundredths, with the organic dry matter of the sludges in %."""
    exact = {
        **{row: Fraction(percent) for row, percent in DOC.items()},
        "domestic sludge": of_sludge("domestic sludge", domestic),
        "industrial sludge": of_sludge("industrial sludge", industrial),
    }
    return tuple(Fraction(floor(exact[row] * 100), 100) for row, _ in TYPES)


def carbon(masses, *matter):
    """The carbon of eight masses in kg, in mg."""
    return tuple(kg * 10**6 * percent / 100 for kg, percent in zip(masses, contents(*matter), strict=True))


def rates(climate):
    """The decay rates k of the eight types, 1/yr; 0 where nothing decays."""
    return tuple(Decimal(RATES[row][climate - 1] if row else 0) for _, row in TYPES)


def correction(site_class):
    """The methane correction factor of a site class."""
    return Fraction(list(MCF.values())[site_class - 1])


@cache
def entry(kind, k):
    """e to the power -k for a year, -k/12 for a month, in billionths rounded down."""
    return floor(DIGITS.exp(DIGITS.divide(-k, PERIODS[kind])).scaleb(9))


def shares(record):
    """What equation (1) leaves of a release, in the two stages of document 01."""
    OX, F, DOCf = (Fraction(whole, 100) for whole in (record.OX, record.F, record.DOCf))
    kept = Fraction(record.factor, 100) * (1 - Fraction(record.f, 10000))
    return kept, (1 - OX) * F * DOCf * correction(record.site_class)


def grams(record, carbon_mg):
    """Carbon as grams CO2e: 16 of methane for each 12 of carbon."""
    return carbon_mg * Fraction(16, 12) * record.GWP / 1000


def exact_figure(record, release):
    """Equation (1) for a release, with no rounding."""
    kept, methane = shares(record)
    return grams(record, release * kept * methane)


def figure(record, x0):
    """The same, rounded down after each stage."""
    kept, methane = shares(record)
    return floor(grams(record, floor(floor(x0 * kept) * methane)))


def bound(record, n, T):
    B = sum(n + 1 + floor(Fraction(n * t, 10**9)) for t in T if t)
    return 3 + floor(grams(record, B))


def remaining(record):
    """The part of each type's carbon that the decay of a record's period leaves, 0 where nothing decays."""
    return tuple(Fraction(entry(record.kind, k) if k else 0, 10**9) for k in rates(record.climate))


def step(ledger, record):
    """T, R and what is gone of T after an accepted record, the releases, x0, figure and bound."""
    brought = carbon(record.masses, record.m7, record.m8)
    T = tuple(map(sum, zip(ledger.T, brought)))
    H = tuple(map(sum, zip(ledger.R, brought)))
    R = tuple(floor(h * part) for h, part in zip(H, remaining(record)))
    gone, G = (tuple(whole - r for whole, r in zip(wholes, R)) for wholes in (T, H))
    return T, R, gone, G, sum(G), figure(record, sum(G)), bound(record, ledger.n + 1, T)


def years_of(records, kind):
    """The values of φ, site class and f in each year of a run: 000 has one a year (paragraph 24, equation (2))."""
    years = {}
    for x, record in enumerate(records):
        years.setdefault(x // PERIODS[kind], set()).add((record.factor, record.site_class, record.f))
    return list(years.values())


def remembered(records, kind):
    """What is known of the year that a monthly run is in; by year nothing is, as every record is a year of its own."""
    (known,) = years_of(records, kind)[-1]
    return known if PERIODS[kind] > 1 else (0, 0, 0)


def mean_shares(W, samples):
    """Equations (5) to (8): W times p of each type, where p is the mean of its fractions, with no rounding."""
    Z = len(samples)
    p = [sum(Fraction(hundredths, 100) / 100 for hundredths in of_type) / Z for of_type in zip(*samples, strict=True)]
    return tuple(W * mean for mean in p)


def whole_masses(shares):
    """Each type's kg: those of all types up to it, rounded down, less those of the types ahead of it."""
    up_to = [floor(sum(shares[:j])) for j in range(9)]
    return tuple(up_to[j] - up_to[j - 1] for j in range(1, 9))


def percentage(words):
    """What stands in Table 3 as 5%, and the like."""
    return Fraction(words.removesuffix("%")) / 100


def ends(square):
    """The root of a fraction in whole parts, rounded down and rounded up: the same number where the root is that."""
    low = isqrt(floor(square * PARTS**2))
    return low, low if low * low == square * PARTS**2 else low + 1


def model_correction(V_squared):
    """Equation (4): 1 / (1 + V) in percent, rounded down. Both ends of V have to give the same."""
    (percent,) = {100 * PARTS // (PARTS + V) for V in ends(V_squared)}
    return percent


def corrected(*factors):
    """Equations (3) and (4) for the factors a, b, c, d, e and g, in the words of Table 3."""
    return model_correction(sum(percentage(factor) ** 2 for factor in factors))


def first_fault(order, file, room, report_room):
    """Request g's refusals: the first that holds, or 0."""
    records, rest = divmod(len(file), 48)
    misnamed = len(order) != 8 or any(order.count(t) != 1 for t in range(1, 9))
    faults = (20, misnamed), (21, rest > 0), (22, room < len(file)), (22, report_room < records)
    return next((number for number, holds in faults if holds), 0)


def repaired(order, file, output, report):
    """Request g with the file as twelve columns of four bytes: the last eight change places, and are compared whole."""
    refusal = first_fault(order, file, len(output), len(report))
    if refusal:
        return refusal, 0, output, report
    words = struct.unpack(f"<{len(file) // 4}I", file)
    kept, old = [words[j::12] for j in range(4)], [words[j::12] for j in range(4, 12)]
    new = [old[order.index(t)] for t in range(1, 9)]
    others = [[mass != was for mass, was in zip(*columns, strict=True)] for columns in zip(new, old, strict=True)]
    told = bytes(sum(2**j for j, other in enumerate(row) if other) for row in zip(*others, strict=True))
    written = struct.pack(f"<{len(words)}I", *chain(*zip(*kept, *new, strict=True)))
    return 0, sum(map(sum, others)), written + output[len(written) :], told + report[len(told) :]


def column(left, brought, parts):
    """One type down a run: the carbon that each period finds, left from before or brought, and decays to a part."""
    for mg, part in zip(brought, parts, strict=True):
        yield left + mg
        left = floor((left + mg) * part)


def work(R, records):
    """Request h by columns: for each type, how many of the accepted records find any carbon of it, after stocks R."""
    brought = zip(*(carbon(record.masses, record.m7, record.m8) for record in records))
    columns = map(column, R, brought, zip(*map(remaining, records)))
    return sum(found != 0 for found in chain(*columns))
