"""Checks the reference against request i of document 02: the figures of years, the refusals, and demand 3."""
from fractions import Fraction
from itertools import product

import cases
import reference
import retold
import tunisia
import tunisia_cases
import tunisia_faults
import tunisia_retold
from checks import check
from histories import KINDS_AND_CLIMATES, PLAIN, damaged, file_of, greatest_record, next_measured, only, replaced
from reference import FRESH, write_record
from tunisia import years_of
from tunisia_cases import changing, stretch

FOOD = only(3, 1000)  # a tonne, as in document 01's listing
LIMIT = 1_000_000_000_000_000


def plain(*lists):
    """The bytes of plain years with these masses."""
    return file_of(PLAIN._replace(period=n, masses=kg) for n, kg in enumerate(lists, 1))


def answer_of(file, first, last, electricity, fuel):
    """The answer of the reference, which has to be that of the other form."""
    asked = file, first, last, tuple(electricity), tuple(fuel)
    answer = tunisia.reduction(*asked)
    check(f"years {first} to {last} of {file.hex()}", list(answer), tunisia_retold.reduction(*asked))
    return answer


def answered(name, asked, *wanted):
    check(name, answer_of(*asked), wanted)


def worked():
    """Document 01's listing by hand: figures of 311547 and 208836 grams become 227429 and 152450 a year later."""
    file = plain(FOOD, only(1, 0), only(2, 5))
    for first, last, electricity, fuel, *wanted in [
        (1, 1, [0], [0], 0, 0, 0, 7),
        (1, 1, [5], [6], 0, 0, -11, 7),
        (2, 2, [0], [0], 227429, 155773, 71656, 7),
        (2, 2, [71656], [0], 227429, 155773, 0, 7),
        (2, 2, [0], [71657], 227429, 155773, -1, 7),
        (3, 3, [0], [1], 152450, 104418, 48031, 7),
        (1, 2, [100, 200], [0, 50], 227429, 155773, 71306, 14),
        (2, 3, [1, 2], [3, 4], 379879, 260191, 119678, 14),
        (1, 3, [0, 0, 0], [0, 0, 119689], 379879, 260191, -1, 21),
        (1, 1, [LIMIT], [LIMIT], 0, 0, -2 * LIMIT, 7),
    ]:
        answered(f"years {first} to {last}", (file, first, last, electricity, fuel), 0, *wanted, 3, 0)
    large = file_of(PLAIN._replace(period=n, GWP=GWP, masses=only(3, 10**9)) for n, GWP in ((1, 28), (2, 10), (3, 30)))
    for first, last, bound in ((1, 1, 7), (2, 2, 7 + 2 * 2000), (3, 3, 7 + 2 * 24000), (1, 3, 21 + 2 * 26000)):
        nothing = [0] * (last - first + 1)
        found = answer_of(large, first, last, nothing, nothing)
        check(f"bound of years {first} to {last}", found.bound, bound)


def months():
    """A month at each place, and with each fault: 1, 4 and 5 are named before 23, and 6 to 9 after it."""
    full = plain(*[only(3, 1)] * 1200)
    for accepted, number, changes in [
        (0, 23, {}),
        (1, 23, {}),
        (2, 23, {}),
        *((accepted, 5, {"site_class": 5}) for accepted in (0, 2)),
        *((accepted, 5, {"climate": 0}) for accepted in (0, 2)),
        *((accepted, 5, {"zero": b"\0\1"}) for accepted in (0, 2)),
        *((accepted, 23, {"period": 7}) for accepted in (0, 2)),
        *((accepted, 23, {"climate": 3}) for accepted in (0, 2)),
        *((accepted, 23, {"GWP": 0}) for accepted in (0, 2)),
        *((accepted, 23, {"masses": only(8, 10**9 + 1)}) for accepted in (0, 2)),
        (1200, 4, {}),
        (1200, 4, {"climate": 0}),
    ]:
        month = write_record(PLAIN._replace(**{"period": accepted + 1, "kind": 2, **changes}))
        file, last = full[: 48 * accepted], max(accepted, 1)
        for end, refusal in ((month, number), (month[:47], 1), (month + month, number), (month[:3], 1)):
            found = tunisia.reduction(file + end, last, last, [0], [0])
            check(f"{changes} after {accepted}", found[::5], (0 if accepted else 24, accepted))
            check(f"{changes} after {accepted}", found.stopped, refusal)


def years_alone():
    """Other faults of the second record, which is no month, keep their numbers."""
    for number, changes in [
        (5, {"kind": 3}),
        (5, {"kind": 0, "period": 9}),
        (6, {"period": 1, "climate": 3}),
        (7, {"climate": 3, "f": 10001}),
        (8, {"m8": 101, "masses": only(8, 10**9 + 1)}),
        (9, {"masses": only(8, 10**9 + 1)}),
    ]:
        file = plain(FOOD) + write_record(PLAIN._replace(**{"period": 2, **changes}))
        answered(f"{changes}", (file, 1, 1, [0], [0]), 0, 0, 0, 0, 7, 1, number)
        answered(f"{changes}", (file, 2, 2, [0], [0]), 24, 0, 0, 0, 0, 1, number)


def stretches():
    """Every stretch about three years with lists of every length, and numbers of years up to 2^64 - 1."""
    far = 2**64 - 1
    for first, last, e, f in product((*range(6), far - 1, far), (*range(6), far - 1, far), range(5), range(5)):
        taken = first >= 1 and last <= 3 and e == f == last - first + 1 and e > 0
        found = tunisia.refusal_of_stretch(3, first, last, (1,) * e, (1,) * f)
        check(f"years {first} to {last} with {e} and {f}", found, 0 if taken else 24)
    file = plain(FOOD, FOOD, FOOD)
    for first, last, e, f in product((0, 1, 2, 3, 4), (0, 2, 3, 4), (0, 2), (2, 3)):
        answer_of(file, first, last, [1] * e, [1] * f)
    answered("no bytes", (b"", 1, 1, [0], [0]), 24, 0, 0, 0, 0, 0, 0)
    answered("no years", (b"", 1, 0, [], []), 24, 0, 0, 0, 0, 0, 0)


def limits():
    """One entry at the limit and one more, at each place of either list; 24 is named before 25."""
    for last, place, kind in product((1, 3), range(3), (0, 1)):
        for grams, number in ((LIMIT - 1, 0), (LIMIT, 0), (LIMIT + 1, 25), (2**64 - 1, 25)):
            lists = [(0,) * last, (0,) * last]
            lists[kind] = replaced(lists[kind], place % last, grams)
            for accepted in (last, last - 1):
                found = tunisia.refusal_of_stretch(accepted, 1, last, *lists)
                check(f"{grams} grams with {accepted} years", found, number if accepted == last else 24)
    over = [LIMIT + 1, 0]
    answered("25 beside a refused record", (plain(FOOD, FOOD) + b"\0", 1, 2, over, over), 25, 0, 0, 0, 0, 2, 1)
    answered("24 beside a refused record", (plain(FOOD) + b"\0", 1, 2, over, over), 24, 0, 0, 0, 0, 1, 1)


def greatest():
    """The greatest numbers: 1200 years of the most waste, and of the most electricity and fuel without waste."""
    nothing, most = (0,) * 1200, (LIMIT,) * 1200
    files = [file_of(greatest_record(n, 1, climate, 100) for n in range(1200)) for climate in (1, 2, 3, 4)]
    found = [tunisia.reduction(file, 1, 1200, nothing, nothing) for file in files]
    check("the greatest in another form", list(found[3]), tunisia_retold.reduction(files[3], 1, 1200, nothing, nothing))
    words = " ".join(f"{max(answer[at] for answer in found):.3e}" for at in (1, 2, 3, 4))
    check("reference, project, reduction, bound", words, "2.510e+17 1.719e+17 7.908e+16 3.340e+14")
    lowest = tunisia.reduction(plain(*[only(1, 0)] * 1200), 1, 1200, most, most)
    check("the lowest reduction", lowest, (0, 0, 0, -2400 * LIMIT, 8400, 1200, 0))


def demand_3(rng, climate, part):
    """Reference and project of each year and of stretches, and the reduction, are within their bounds of F.2 and G.

    The decay fraction of a type is that part of a billionth above its entry.
    """
    records = changing(rng, 12, climate)
    d = [(reference.decay(1, rate) + part) / 10**9 if rate else Fraction(0) for rate in reference.rates(climate)]
    brought = [retold.carbon(record.masses, record.m7, record.m8) for record in records]
    carbon = [tunisia_retold.generated(brought, d, y) for y in range(1, 13)]
    exact = [tunisia_retold.exact(record, mg) for record, mg in zip(records, carbon)]
    found, _ = years_of(file_of(records))
    for figures, (re, pj) in zip(found, exact, strict=True):
        check("reference", abs(figures.reference - re) < figures.reference_bound, True)
        check("project", abs(figures.project - pj) < figures.project_bound, True)
        check("reference and project", (figures.reference >= figures.project, re >= pj), (True, True))
    for _ in range(4):
        first, last = sorted((rng.randint(1, 12), rng.randint(1, 12)))
        asked = stretch(rng, file_of(records), first, last)
        answer = answer_of(*asked)
        re, pj = map(sum, zip(*exact[first - 1 : last]))
        less = re - pj - sum(asked.electricity) - sum(asked.fuel)
        of_reference, of_project = (sum(figures[at] for figures in found[first - 1 : last]) for at in (1, 3))
        check("reference of a stretch", abs(answer.reference - re) < of_reference, True)
        check("project of a stretch", abs(answer.project - pj) < of_project, True)
        check("reduction of a stretch", abs(answer.reduction - less) < answer.bound, True)
        check("bound of a stretch", answer.bound, of_reference + of_project)


def same_years(rng, kind, climate):
    """The accepted years are those of a plain run with room for all, or none where the first record is a month."""
    for _ in range(15):
        file = damaged(rng, file_of(next_measured(rng, FRESH, kind, climate, 5)))
        other = write_record(PLAIN._replace(kind=rng.choice((1, 2)), period=rng.randint(1, 7), climate=climate))
        for data in (file, file[:96] + other + file[96:]):
            answer, run = answer_of(data, 1, 2, [0, 0], [0, 0]), reference.run(FRESH, data, bytes(len(data) + 48))
            begins = data[2:3] == b"\2"  # with a month
            check("accepted years", answer.years, 0 if begins else run.accepted)
            check("refusal", answer.stopped in ((23, 5, 1) if begins else (run.refusal, 23)), True)


def added(rng, climate):
    """Two stretches in turn add up to the one of both; classes and the last year's waste change nothing."""
    records = next_measured(rng, FRESH, 1, climate, 9)
    first, middle, last = sorted(rng.sample(range(10), 3))
    asked = stretch(rng, file_of(records), first + 1, last)
    place = middle - first
    one = asked._replace(last=middle, electricity=asked.electricity[:place], fuel=asked.fuel[:place])
    other = asked._replace(first=middle + 1, electricity=asked.electricity[place:], fuel=asked.fuel[place:])
    whole, *parts = (answer_of(*each) for each in (asked, one, other))
    check("two stretches", whole[1:5], tuple(map(sum, zip(*parts)))[1:5])
    classes = file_of(record._replace(site_class=rng.randint(1, 4)) for record in records)
    check("other classes", answer_of(*asked._replace(file=classes)), whole)
    check("fuel as electricity", answer_of(*asked._replace(electricity=asked.fuel, fuel=asked.electricity)), whole)
    later = replaced(tuple(records), last - 1, records[last - 1]._replace(masses=(10**9,) * 8))
    check("waste of the last year", answer_of(*asked._replace(file=file_of(later)))[:5], whole[:5])


def short_cases(rng):
    """The cases of this method, without those of 1200 years."""
    for part in tunisia_cases.SHORT + tunisia_faults.SHORT:
        for each in part(rng):
            answer_of(*cases.read_stretch(each[5:]))


def at_random(rng):
    for climate in (1, 2, 3, 4):
        for part in (Fraction(0), Fraction(rng.randint(1, 98), 99), 1 - Fraction(1, 10**9), 1 - Fraction(1, 10**40)):
            demand_3(rng, climate, part)
            added(rng, climate)
    for kind, climate in KINDS_AND_CLIMATES:
        same_years(rng, kind, climate)
    short_cases(rng)
