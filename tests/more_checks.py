"""Tries request k of document 02 on pairs of runs: more waste never shows less gas.

The two lists of records in a pair are equal but for masses, and no mass of the second is less than that of the first.
"""
import struct
from itertools import pairwise, product

import reference
import tunisia
from checks import NOTHING, ROOM, check, offered
from histories import KINDS_AND_CLIMATES, PLACES, PLAIN, file_of, greatest_record, next_measured, only
from histories import random_ledger, replaced
from reference import FRESH, step, write_record
from tunisia import Figures
from tunisia_cases import stretch, without_grams
from tunisia_checks import plain

LIMIT = 1_000_000_000  # kg
TYPES = range(1, 9)
WRITTEN = ["x0", "figure", "bound", "total R", "total T"]  # numbers of an output record
NUMBERS = [f"{what} of type {t}" for what in ("release", "T", "R", "released") for t in TYPES]
NUMBERS += ["x0", "figure", "bound", *(f"{name} written" for name in WRITTEN)]
SHARES = [(10, 50, 50, 1), (0, 100, 100, 1), (37, 50, 77, 3), (0, 100, 100, 100)]  # OX, F, DOCf, GWP: coarse to fine


def shown(answer):
    """The numbers of an accepted record: its releases, its ledger's carbon, its answer and its output record."""
    ledger = answer.ledger
    written = struct.unpack("<8x5Q", answer.output)
    return *answer.releases, *ledger.T, *ledger.R, *ledger.released, answer.x0, answer.figure, answer.bound, *written


def run_of(records):
    """The numbers of records offered in turn to a fresh ledger, which has to accept them all."""
    ledger, numbers = FRESH, []
    for record in records:
        data = write_record(record)
        answer = step(ledger, data, ROOM)
        check(f"refusal of {data.hex()}", answer.refusal, 0)
        ledger = answer.ledger
        numbers.append(shown(answer))
    return numbers


def written(file):
    """How many records of a file are accepted, the refusal, and the numbers of their output records."""
    answer = reference.run(FRESH, file, bytes(len(file)))
    output = answer.output[: 48 * answer.accepted]
    return answer.accepted, answer.refusal, list(struct.iter_unpack("<8x5Q", output))


def years_of(records):
    """The figures of yearly records by request i, which has to accept them all."""
    file = file_of(records)
    years, refusal = tunisia.years_of(file)
    check(f"years of {file.hex()}", (len(years), refusal), (len(records), 0))
    return years


def no_less(name, numbers, first, second):
    """No number of the second row is less than that of the first; one that is comes with its name and both values."""
    less = [each for each in zip(numbers, first, second, strict=True) if each[2] < each[1]]
    check(f"{name}: less with more waste", less, [])


def none_less(name, numbers, first, second):
    """The same for every row of two runs."""
    for n, rows in enumerate(zip(first, second, strict=True), 1):
        no_less(f"{name}, record {n}", numbers, *rows)


def never_falls(name, kind, sites):
    """From each of the sites, given by kg, to the next no number falls: of the ledger and, by year, of request i."""
    ways = [(NUMBERS, run_of)]
    if kind == 1:
        ways.append((Figures._fields, years_of))
    for numbers, run in ways:
        runs = [(kg, run(records)) for kg, records in sites.items()]
        for (kg, first), (more, second) in pairwise(runs):
            none_less(f"{name}, {kg} and {more} kg", numbers, first, second)


def rise(name, asked, heavier):
    """What a stretch's reduction rises by with a heavier file; its reference, project and bound are no less then."""
    answers = [tunisia.reduction(*asked._replace(file=file)) for file in (asked.file, heavier)]
    for answer in answers:
        wanted = 0, len(asked.file) // 48, 0
        check(f"{name}: accepted years", (answer.refusal, answer.years, answer.stopped), wanted)
    rows = [(answer.reference, answer.project, answer.bound) for answer in answers]
    no_less(f"{name}, years {asked.first} to {asked.last}", ("reference", "project", "bound"), *rows)
    return answers[1].reduction - answers[0].reduction


def worked():
    """Food by hand: a kilogram more takes the reduction from 1 to 0, and other numbers stay or rise."""
    for climate, OX, kg, *wanted in [
        (4, 10, 0, 0, 0, 0),  # reference, project and reduction of year 2
        (4, 10, 26, 2, 1, 1),  # of 1285752 mg: 3 g by class 1, of which 73 % are 2.19, and 1.93 g by class 2
        (4, 10, 27, 2, 2, 0),  # of 1335204 mg: 4 g by class 1, of which 73 % are 2.92, and 2.003 g by class 2
        (1, 10, 26, 0, 0, 0),  # of 227119 mg: 0.68 and 0.34 g
        (1, 10, 27, 0, 0, 0),  # of 235854 mg: 0.71 and 0.35 g
        (2, 10, 26, 0, 0, 0),  # of 658694 mg: 1.97 and 0.99 g
        (2, 10, 27, 1, 1, 0),  # of 684028 mg: 2.05 and 1.03 g
        (3, 10, 26, 0, 0, 0),  # of 317803 mg: 0.95 and 0.48 g
        (3, 10, 27, 0, 0, 0),  # of 330026 mg: 0.99 and 0.49 g
        (4, 0, 26, 2, 2, 0),  # 4.29 and 2.14 g
        (4, 0, 27, 2, 2, 0),  # 4.45 and 2.23 g
    ]:
        years = [PLAIN._replace(period=n, climate=climate, OX=OX, factor=1, GWP=1) for n in (1, 2)]
        file = file_of([years[0]._replace(masses=only(3, kg)), years[1]])
        found = tunisia.reduction(file, 2, 2, [0], [0])
        check(f"{kg} kg in climate {climate} with OX {OX}", found, (0, *wanted, 7, 2, 0))
    for kg, lines in [
        (1000, "1 49451994 311547 3 100548006\n2 33148662 208836 3 67399344\n"),
        (1001, "1 49501446 311859 3 100648554\n2 33181811 209045 3 67466743\n"),
    ]:
        check(f"the listing with {kg} kg", reference.listing(plain(only(3, kg), NOTHING)), lines)


def dry_matter():
    """More sludge of another dry matter may show less: releases, stocks and figures by hand."""
    for t, *pair in [
        (7, (1, 100, 164840, 335160, 1038), (2, 1, 3297, 6703, 20)),  # kg, m, G, R and figure
        (7, (1, 0, 16484, 33516, 103), (9, 1, 14836, 30164, 93)),
        (8, (1, 100, 7599, 249501, 47), (2, 34, 5167, 169633, 32)),
        (8, (1, 0, 2660, 87340, 16), (3, 1, 222, 7278, 1)),
    ]:
        for kg, m, G, R, figure in pair:
            answer = offered(**{f"m{t}": m, "masses": only(t, kg)})
            found = answer.releases, answer.ledger.R, answer.figure
            check(f"{kg} kg of type {t} with m = {m}", found, (only(t, G), only(t, R), figure))


def small_site(kind, climate, masses, m=0):
    """A record with these masses and three without waste, of a correction factor of 1 and ever finer other factors."""
    records = [PLAIN._replace(period=n, kind=kind, climate=climate, factor=1, m7=m, m8=m) for n in (1, 2, 3, 4)]
    records = [each._replace(OX=OX, F=F, DOCf=DOCf, GWP=GWP) for each, (OX, F, DOCf, GWP) in zip(records, SHARES)]
    return [records[0]._replace(masses=masses), *records[1:]]


def every_kilogram():
    """Each type from 0 to 60 kg in the first record: no number of it or of the three after it falls."""
    for (kind, climate), t in product(KINDS_AND_CLIMATES, TYPES):
        m = 1 if climate % 2 else 0  # of sludge, so that a kilogram of it is little, or the default
        sites = {kg: small_site(kind, climate, only(t, kg), m) for kg in range(61)}
        never_falls(f"type {t}, kind {kind}, climate {climate}", kind, sites)


def last_milligrams():
    """Food, and sludge of little dry matter, for 32 years: stocks that come to be a milligram apart, or equal."""
    empty = [PLAIN._replace(period=n, m7=1) for n in range(1, 33)]
    for t in (3, 7):
        sites = {kg: [empty[0]._replace(masses=only(t, kg)), *empty[1:]] for kg in range(31)}
        never_falls(f"type {t} for long", 1, sites)


def about_round_ones():
    """Masses from 0 to the limit: about each power of two, and about 1, 2 and 5 times each power of ten."""
    round_ones = [2**k for k in range(30)] + [k * 10**power for k in (1, 2, 5) for power in range(10)]
    masses = {0, *(kg + off for kg in round_ones for off in (-1, 0, 1))}
    return sorted(kg for kg in masses if kg <= LIMIT)


def a_sixteenth_apart():
    """Masses from 64 kg to the limit, each a sixteenth more than the one before."""
    kg = 64
    while kg < LIMIT:
        yield kg
        kg += kg // 16


def every_size():
    """Each type by the same mass up to the limit in the first record, or one type alone, and nothing in the next."""
    few = about_round_ones()
    many = sorted({*few, *a_sixteenth_apart()})
    for t, (kind, climate) in zip(TYPES, KINDS_AND_CLIMATES, strict=True):
        first, second = (greatest_record(n, kind, climate, 100)._replace(masses=NOTHING) for n in (0, 1))
        each, alone = {kg: (kg,) * 8 for kg in many}, {kg: only(t, kg) for kg in few}
        for name, lists in (("each type", each), (f"type {t}", alone)):
            sites = {kg: [first._replace(masses=masses), second] for kg, masses in lists.items()}
            never_falls(f"{name}, kind {kind}, climate {climate}", kind, sites)


def full():
    """Half the limit in all records, and the limit: 1200 months, and stretches of up to forty years."""
    for kind, climate, count in ((2, 4, 1200), (1, 1, 40)):
        records = [greatest_record(n, kind, climate, 100) for n in range(count)]
        half = [record._replace(masses=(LIMIT // 2,) * 8) for record in records]
        never_falls(f"{count} records", kind, {LIMIT // 2: half, LIMIT: records})
    for last in range(4, 41, 4):
        rise("forty years", without_grams(file_of(half), 1, last), file_of(records))


def reweighed(records, weigh):
    """The records with other masses, what weigh makes of each, and none over the limit."""
    return [each._replace(masses=tuple(min(weigh(kg), LIMIT) for kg in each.masses)) for each in records]


def with_entry(records, n, j, kg):
    """The records with another mass at one place of one of them."""
    return [*records[:n], records[n]._replace(masses=replaced(records[n].masses, j, kg)), *records[n + 1 :]]


def corrected(rng, records):
    """The records with one weighbridge entry a kilogram up, if it is not at the limit."""
    n, j = rng.randrange(len(records)), rng.choice(PLACES)
    return with_entry(records, n, j, min(records[n].masses[j] + 1, LIMIT))


def upward(rng, records):
    """The records with a kilogram in one entry, a little, to the limit, where nothing was, anything, nothing more."""
    yield corrected(rng, records)
    for weigh in (
        lambda kg: kg + rng.choice((0, 0, 1, rng.randint(1, 9))),
        lambda kg: kg + rng.choice((0, 0, kg // 7, kg // 100)),
        lambda kg: rng.choice((kg, kg, LIMIT)),
        lambda kg: kg or rng.choice((0, 1, 60, rng.randint(1, LIMIT))),
        lambda kg: rng.randint(kg, LIMIT),
        lambda kg: kg,
    ):
        yield reweighed(records, weigh)


def some_years(rng, records):
    """Any stretch of years, with any grams."""
    first, last = sorted((rng.randint(1, len(records)), rng.randint(1, len(records))))
    return stretch(rng, file_of(records), first, last)


def at_random(rng, kind, climate):
    """A run of any masses and dry matter, corrected upward in each way: by steps, by whole runs, by years."""
    records = next_measured(rng, FRESH, kind, climate, rng.randint(1, 16))
    run, file = run_of(records), file_of(records)
    for heavier in upward(rng, records):
        other = file_of(heavier)
        name = f"{file.hex()} and {other.hex()}"
        none_less(name, NUMBERS, run, run_of(heavier))
        (*found, rows), (*others, more) = written(file), written(other)
        check(f"{name}: accepted", (found, others), ([len(records), 0], [len(records), 0]))
        none_less(f"{name}, output", WRITTEN, rows, more)
        if kind == 1:
            none_less(f"{name}, years", Figures._fields, years_of(records), years_of(heavier))
            rise(name, some_years(rng, records), other)


def within_the_limit(rng, kind, climate):
    """Any masses up to the limit are accepted; the first record that has one over it is refused with 9."""
    records = next_measured(rng, FRESH, kind, climate, rng.randint(1, 9))
    run_of(reweighed(records, lambda kg: rng.choice((0, LIMIT, rng.randint(0, LIMIT)))))
    heavier = reweighed(records, lambda kg: rng.choice((kg, LIMIT, rng.randint(kg, LIMIT))))
    *_, rows = written(file_of(records))
    for place, over in product(PLACES, (LIMIT, LIMIT + 1, rng.randint(LIMIT + 1, 2**32 - 1))):
        n, later = sorted((rng.randrange(len(records)), rng.randrange(len(records))))
        file = file_of(with_entry(with_entry(heavier, later, rng.choice(PLACES), over), n, place, over))
        wanted = [len(records), 0] if over == LIMIT else [n, 9]
        *found, more = written(file)
        check(f"{over} kg in {file.hex()}", found, wanted)
        none_less(f"{over} kg in {file.hex()}", WRITTEN, rows[: wanted[0]], more)


def a_milligram(rng, kind, climate):
    """A milligram more in a ledger, left about a round number or released: the next record shows no less."""
    ledger, t = random_ledger(rng, kind, climate), rng.choice((1, 2, 3, 4, 5, 7, 8))
    (record,) = next_measured(rng, ledger, kind, climate, 1)
    data = write_record(record._replace(masses=replaced(record.masses, t - 1, 0)))
    for about in (10**3, 10**6, 10**9, 2**16, 2**32):
        left, gone = about * rng.randint(1, 9) - 1, rng.choice((0, rng.randint(0, 10**10)))
        rows = []
        for R, released in ((left, gone), (left + 1, gone), (left + 1, gone + 1)):
            carbon = {"T": R + released, "R": R, "released": released}
            fields = {name: replaced(getattr(ledger, name), t - 1, mg) for name, mg in carbon.items()}
            answer = step(ledger._replace(**fields), data, ROOM)
            check(f"refusal for {ledger._replace(**fields)}", answer.refusal, 0)
            rows.append(shown(answer))
        for pair in pairwise(rows):
            no_less(f"{left} mg of type {t} in {ledger} with {data.hex()}", NUMBERS, *pair)


def either_way(rng):
    """A kilogram more in the first year of a small site: the reduction falls in some stretches and rises in others."""
    rises = []
    for climate in (1, 2, 3, 4) * 40:
        years = reweighed(next_measured(rng, FRESH, 1, climate, 3), lambda kg: rng.randint(0, 60))
        coarse = {"OX": 10, "F": 50, "DOCf": 50, "f": 0, "GWP": rng.randint(1, 4)}
        years = [year._replace(factor=rng.randint(5, 20), **coarse) for year in years]
        heavier = corrected(rng, years[:1]) + years[1:]
        rises.append(rise(file_of(years).hex(), some_years(rng, years), file_of(heavier)))
    check("reductions that fall, and that rise", (min(rises) < 0, max(rises) > 0), (True, True))
