"""Document 01 with requests a to d and f to h of document 02 worked out a second time, to run the Rattle code against.

One function for each rule, in the documents' order and with their letters. Numbers are exact, and everything is a
value: an output buffer goes in as bytes and comes back as bytes. Type j stands at place j - 1 of every list of eight.
Request i is in tunisia.py, request j in columns.py and request l in yearly_totals.py, over the rules of this file.
"""
import os
import sys
from fractions import Fraction
from functools import cache
from itertools import accumulate, pairwise
from typing import NamedTuple

sys.path.insert(0, os.path.join(os.path.dirname(os.path.abspath(__file__)), "..", "tools"))
import decay_tables

RECORDS = 1200  # a ledger takes no more
BYTES = 48  # of a record, and of an output record
MASS_LIMIT = 10**9  # kg
KINDS, CLIMATES, CLASSES = (1, 2), (1, 2, 3, 4), (1, 2, 3, 4)
YEARLY, MONTHLY = KINDS
NONE = (0,) * 8


# "Waste types and their constants"

DOC = (4300, 4000, 1500, 2400, 2000, 0, 500, 900)
GROUPS = ("B", "A", "D", "A", "C", "none", "D", "sludge")
RATES = {
    "A": (40, 60, 45, 70),
    "B": (20, 30, 25, 35),
    "C": (50, 100, 65, 170),
    "D": (60, 185, 85, 400),
    "none": (0, 0, 0, 0),
    "sludge": (30, 30, 30, 30),
}
MCF = (100, 50, 80, 40)


def rates(climate):
    """The yearly rates of the eight types in thousandths, 0 for the type that has none."""
    return tuple(RATES[group][climate - 1] for group in GROUPS)


# "The decay table"


@cache
def decay(kind, rate):
    """The look-up: the entry for a listed rate, 0 for any other rate or kind."""
    return decay_tables.entry(kind, rate) if kind in KINDS and 1 <= rate <= 400 else 0


# "One record"


class Record(NamedTuple):
    period: int
    kind: int
    climate: int
    factor: int
    OX: int
    F: int
    DOCf: int
    site_class: int
    GWP: int
    f: int
    m7: int  # organic dry matter of type 7 in percent, 0 where it is not measured
    m8: int  # the same of type 8
    zero: bytes
    masses: tuple


def number(data, at, width):
    """The little-endian number of that many bytes at a place."""
    return int.from_bytes(data[at : at + width], "little")


def read_record(data):
    """The fields of 48 bytes."""
    masses = tuple(number(data, at, 4) for at in range(16, 48, 4))
    return Record(number(data, 0, 2), *data[2:10], number(data, 10, 2), *data[12:14], data[14:16], masses)


def write_record(record):
    """The 48 bytes of a record's fields."""
    numbers = [(record.period, 2), *((byte, 1) for byte in record[1:9]), (record.f, 2), (record.m7, 1), (record.m8, 1)]
    return little(numbers) + record.zero + little((mass, 4) for mass in record.masses)


def little(numbers):
    """Pairs of a number and its width, as little-endian bytes one after another."""
    return b"".join(value.to_bytes(width, "little") for value, width in numbers)


# "One step"


class Year(NamedTuple):
    factor: int = 0
    site_class: int = 0
    f: int = 0


NO_YEAR = Year()


class Ledger(NamedTuple):
    n: int = 0
    kind: int = 0
    climate: int = 0
    year: Year = NO_YEAR  # the year's factors, in a monthly run
    T: tuple = NONE  # mg brought in, for each type
    R: tuple = NONE  # mg left, for each type
    released: tuple = NONE  # mg released so far, for each type


FRESH = Ledger()


class Step(NamedTuple):
    ledger: Ledger
    refusal: int
    releases: tuple
    x0: int
    figure: int
    bound: int
    output: bytes


def deposits(record):
    """The carbon that a record brings, in mg for each type."""
    return tuple(mass * doc * 100 for mass, doc in zip(record.masses, DOC_of(record)))


def held(ledger, record):
    """H, the stock with the record's deposit, in mg for each type."""
    return tuple(r + deposit for r, deposit in zip(ledger.R, deposits(record)))


def take(ledger, record):
    """The ledger after an accepted record, and the eight releases G."""
    D = [decay(record.kind, rate) for rate in rates(record.climate)]
    T = tuple(t + deposit for t, deposit in zip(ledger.T, deposits(record)))
    H = held(ledger, record)
    R = tuple(h * d // 10**9 for h, d in zip(H, D))
    G = tuple(h - r for h, r in zip(H, R))
    released = tuple(so_far + g for so_far, g in zip(ledger.released, G))
    return Ledger(ledger.n + 1, record.kind, record.climate, year_after(ledger, record), T, R, released), G


def figure_of(record, x0):
    """The figure in grams CO2e, rounded down after each line."""
    x1 = x0 * record.factor * (10000 - record.f) // 10**6
    x2 = x1 * (100 - record.OX) * record.F * record.DOCf * MCF[record.site_class - 1] // 10**8
    return x2 * 4 * record.GWP // 3000


def B_of(ledger):
    """B, with n and T of a ledger."""
    return sum(ledger.n + 1 + ledger.n * t // 10**9 for t in ledger.T if t > 0)


def bound_of(record, B):
    """The bound in grams CO2e."""
    return 3 + B * 4 * record.GWP // 3000


def totals(ledger):
    """Total R, total T and all that was released so far."""
    return sum(ledger.R), sum(ledger.T), sum(ledger.released)


def output_record(record, x0, figure, bound, after):
    """The output record of 48 bytes."""
    head = [(record.period, 2), (record.kind, 1), (record.climate, 1), (0, 4)]
    left, brought, _ = totals(after)
    return little(head + [(value, 8) for value in (x0, figure, bound, left, brought)])


def step(ledger, data, output):
    """Offers one record's bytes to a ledger, with an output buffer."""
    refusal = refusal_of(ledger, data, len(output))
    if refusal:
        return Step(ledger, refusal, NONE, 0, 0, 0, output)
    record = read_record(data)
    after, releases = take(ledger, record)
    x0 = sum(releases)
    figure, bound = figure_of(record, x0), bound_of(record, B_of(after))
    written = output_record(record, x0, figure, bound, after)
    return Step(after, 0, releases, x0, figure, bound, written + output[BYTES:])


class Run(NamedTuple):
    ledger: Ledger
    accepted: int
    refusal: int
    work: int  # decay multiplications, of the accepted records
    output: bytes


def records_of(data):
    """The bytes cut into records, the last perhaps short."""
    return [data[at : at + BYTES] for at in range(0, len(data), BYTES)]


def run(ledger, data, output):
    """The whole run: stops at the first record that is refused."""
    work = 0
    for accepted, offered in enumerate(records_of(data)):
        at = BYTES * accepted
        answer = step(ledger, offered, output[at:])
        if answer.refusal:
            return Run(ledger, accepted, answer.refusal, work, output)
        work += work_of(ledger, read_record(offered))
        ledger, output = answer.ledger, output[:at] + answer.output
    return Run(ledger, len(records_of(data)), 0, work, output)


# "Refusal numbers, tested in this order"

REFUSALS = {  # every number that there is, by what is refused; they may have gaps
    "record": (28, 1, 2, 3, 4, 5, 23, 27, 6, 7, 8, 17, 9, 32),  # 23 in tunisia.py alone; 27, 28, 32 in yearly_totals.py
    "cell": (10, 11, 12),
    "point": (13,),
    "samples": (14, 15, 16),
    "uncertainties": (18, 19),
    "repair": (20, 21, 22),
    "stretch": (24, 25),
    "columns": (26,),
}


def sound(ledger):
    """Whether refusal 3 does not hold."""
    if ledger.n == 0:
        return ledger == FRESH
    return (
        ledger.n <= RECORDS
        and ledger.kind in KINDS
        and ledger.climate in CLIMATES
        and all(t <= ledger.n * MASS_LIMIT * doc * 100 for t, doc in zip(ledger.T, MOST_DOC))
        and all(r <= t for r, t in zip(ledger.R, ledger.T))
        and all(released + r == t for released, r, t in zip(ledger.released, ledger.R, ledger.T))
        and remembers(ledger)
    )


def is_coded(record):
    """Whether refusal 5 does not hold."""
    coded = record.kind in KINDS and record.climate in CLIMATES and record.site_class in CLASSES
    return coded and record.zero == bytes(2)


def in_range(record):
    """Whether refusal 8 does not hold."""
    percents = all(byte <= 100 for byte in (record.OX, record.F, record.DOCf, record.m7, record.m8))
    return percents and 1 <= record.factor <= 100 and 1 <= record.GWP <= 100 and record.f <= 10000


def refusal_of(ledger, data, room):
    """The number of the first fault, or 0."""
    if len(data) != BYTES:
        return 1
    if room < BYTES:
        return 2
    if not sound(ledger):
        return 3
    if ledger.n == RECORDS:
        return 4
    record = read_record(data)
    if not is_coded(record):
        return 5
    if record.period != ledger.n + 1:
        return 6
    if ledger.n > 0 and (record.kind, record.climate) != (ledger.kind, ledger.climate):
        return 7
    if not in_range(record):
        return 8
    if not repeats_year(ledger, record):
        return 17
    if any(mass > MASS_LIMIT for mass in record.masses):
        return 9
    return 0


# "The spreadsheet door". A float goes in and out as the whole number of its 64 bits.


def value_of(bits):
    """The exact value of a float, None where it is infinite or not a number."""
    sign, exponent, part = -1 if bits >> 63 else 1, bits >> 52 & 2047, bits % 2**52
    if exponent == 2047:
        return None
    whole = part if exponent == 0 else part + 2**52
    return sign * whole * Fraction(2) ** (max(exponent, 1) - 1075)


def bits_of(whole):
    """The float equal to a whole number from 0 to 2^53."""
    if whole == 0:
        return 0
    exponent = whole.bit_length() - 1
    return (exponent + 1023 << 52) + (whole << 52 >> exponent) - 2**52


def cell(bits):
    """The refusal and the mass of a cell: None where it is empty, else the bits of its float."""
    if bits is None:
        return 10, 0
    value = value_of(bits)
    if value is None or value.denominator != 1:
        return 11, 0
    if not 0 <= value <= MASS_LIMIT:
        return 12, 0
    return 0, int(value)


def point(figure, bound):
    """The refusal of a chart point, and its figure, low edge and high edge as bits."""
    if figure + bound > 2**53:
        return 13, 0, 0, 0
    return 0, bits_of(figure), bits_of(max(figure - bound, 0)), bits_of(figure + bound)


# "Worked figures": the listing


def line(period, answer):
    """The line of an accepted record."""
    left, _, _ = totals(answer.ledger)
    return f"{period} {answer.x0} {answer.figure} {answer.bound} {left}\n"


def listing(data):
    """What the listing program prints for a file's bytes."""
    text, ledger = "", FRESH
    for place, offered in enumerate(records_of(data), 1):
        answer = step(ledger, offered, bytes(BYTES))
        if answer.refusal:
            return text + f"refused {answer.refusal} at record {place}\n"
        text, ledger = text + line(read_record(offered).period, answer), answer.ledger
    return text


# Document 02, request a: masses from sorting samples

SAMPLE = 16  # bytes
WHOLE = 10000  # what the fractions of a sample add up to, in hundredths of a percent
SAMPLES = {1: (12, 400), 2: (3, 3)}  # least and most of them, by kind


def fractions_of(samples):
    """The eight fractions of each sample."""
    starts = range(0, len(samples), SAMPLE)
    return [tuple(number(samples, at, 2) for at in range(start, start + SAMPLE, 2)) for start in starts]


def are_counted(kind, length):
    """Whether refusal 15 does not hold: so many bytes are whole samples, and as many as the kind takes."""
    if kind not in KINDS or length % SAMPLE != 0:
        return False
    least, most = SAMPLES[kind]
    return least <= length // SAMPLE <= most


def refusal_of_samples(kind, total, samples):
    """The number of the first fault, or 0."""
    if total > MASS_LIMIT:
        return 14
    if not are_counted(kind, len(samples)):
        return 15
    if any(sum(fractions) != WHOLE for fractions in fractions_of(samples)):
        return 16
    return 0


def masses(kind, total, samples):
    """The refusal, and the eight masses in kg that a total in kg and the bytes of its samples come to."""
    refusal = refusal_of_samples(kind, total, samples)
    if refusal:
        return refusal, NONE
    fractions = fractions_of(samples)
    P = accumulate(map(sum, zip(*fractions)), initial=0)
    up_to = [total * part // (WHOLE * len(fractions)) for part in P]
    return 0, tuple(upper - lower for lower, upper in pairwise(up_to))


# Document 02, request c: months of one year share the year's factors

MONTHS = 12  # of a year


def year_of(record):
    """The three values of a record that the months of its year share."""
    return Year(record.factor, record.site_class, record.f)


def begins_year(ledger):
    """Whether the next record of a monthly run is one of the records 12q + 1."""
    return ledger.n % MONTHS == 0


def year_after(ledger, record):
    """What the ledger remembers after an accepted record: in a monthly run the values of the last record 12q + 1."""
    return year_of(record) if record.kind == MONTHLY and begins_year(ledger) else ledger.year


def repeats_year(ledger, record):
    """Whether refusal 17 does not hold."""
    return record.kind != MONTHLY or begins_year(ledger) or year_of(record) == ledger.year


def remembers(ledger):
    """Whether refusal 3 does not hold for what a ledger with n above 0 remembers; a yearly one remembers nothing."""
    factor, site_class, f = ledger.year
    if ledger.kind != MONTHLY:
        return ledger.year == NO_YEAR
    return 1 <= factor <= 100 and site_class in CLASSES and f <= 10000


# Document 02, request d: the correction factor from uncertainties

MOST = 100  # percent, of an uncertainty and of a factor
CODES = (1, 2)  # of the lower value and of the higher one
VALUES = ((5, 15), (0, 5), (0, 50), (5, 20))  # the two of c, d, e and g in Table 3 of 000, in percent


def fits(p, S):
    """Whether p * p * S <= (10000 - 100p)^2."""
    rest = 10000 - 100 * p
    return p * p * S <= rest * rest


@cache
def greatest_percentage(S):
    """Equation (4) rounded down: the greatest whole percentage p up to 100 that fits a sum of squares."""
    return next(p for p in reversed(range(MOST + 1)) if fits(p, S))


def are_percentages(*entered):
    """Whether refusal 18 does not hold."""
    return all(percentage <= MOST for percentage in entered)


def are_choices(*codes):
    """Whether refusal 19 does not hold."""
    return all(code in CODES for code in codes)


def chosen(*codes):
    """The percentages c, d, e and g that four codes take."""
    return tuple(values[CODES.index(code)] for values, code in zip(VALUES, codes, strict=True))


def factor_of(a, b, c, d, e, g):
    """The refusal, and the correction factor in percent that six percentages come to."""
    if not are_percentages(a, b, c, d, e, g):
        return 18, 0
    return 0, greatest_percentage(a * a + b * b + c * c + d * d + e * e + g * g)


def factor_by_codes(a, b, c, d, e, g):
    """The same, where a and b are percentages, and c, d, e and g are codes."""
    if not are_percentages(a, b):
        return 18, 0
    if not are_choices(c, d, e, g):
        return 19, 0
    return factor_of(a, b, *chosen(c, d, e, g))


# Document 02, request f: sludge with a measured dry matter

MOST_DOC = (*DOC[:6], 5000, 2571)  # in refusal 3's ceiling on T


def DOC_of(record):
    """DOC of the eight types: that of a sludge follows its dry matter m, where 0 keeps the default."""
    domestic = 50 * record.m7 if record.m7 else DOC[6]
    industrial = 900 * record.m8 // 35 if record.m8 else DOC[7]
    return *DOC[:6], domestic, industrial


# Document 02, request g: the shuffled files put right

TYPES = (1, 2, 3, 4, 5, 6, 7, 8)
MASSES = 16  # where the masses of a record begin


class Repair(NamedTuple):
    refusal: int
    changed: int  # bits set in the file's bytes of the report
    output: bytes
    report: bytes


def is_order(order):
    """Whether refusal 20 does not hold: each of the types is named once."""
    return sorted(order) == [*TYPES]


def refusal_of_repair(order, file, room, report_room):
    """The number of the first fault, or 0."""
    if not is_order(order):
        return 20
    if len(file) % BYTES != 0:
        return 21
    if room < len(file) or report_room < len(file) // BYTES:
        return 22
    return 0


def mass_at(data, t):
    """The mass at place t of a record's bytes."""
    return number(data, MASSES + 4 * (t - 1), 4)


def put_right(order, data):
    """A record's bytes with every mass at its type's place; the order says for each place which type stood there."""
    of_type = {t: mass_at(data, place) for place, t in enumerate(order, 1)}
    return data[:MASSES] + little((of_type[t], 4) for t in TYPES)


def changes(old, new):
    """A record's byte of the report: bit t - 1 is set where the mass at place t is not the one that stood there."""
    return sum(1 << t - 1 for t in TYPES if mass_at(new, t) != mass_at(old, t))


def repair(order, file, output, report):
    """Rewrites a file of records, with an output buffer and a report buffer."""
    refusal = refusal_of_repair(order, file, len(output), len(report))
    if refusal:
        return Repair(refusal, 0, output, report)
    old = records_of(file)
    new = [put_right(order, data) for data in old]
    told = bytes(map(changes, old, new))
    changed = sum(byte.bit_count() for byte in told)
    return Repair(0, changed, b"".join(new) + output[len(file) :], told + report[len(told) :])


# Document 02, request h: how much decay work a run did


def work_of(ledger, record):
    """The decay work of an accepted record: one for every type whose stock with deposit is above zero before decay."""
    return sum(1 for h in held(ledger, record) if h > 0)
