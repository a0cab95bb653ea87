"""The cases of the correction factor from uncertainties, each built for the answer that document 02 gives it.

A case built for a refusal or a factor is an error here where the reference answers another.
"""
from bisect import bisect_right
from itertools import combinations, product
from typing import NamedTuple

import reference
from cases import case
from faults import applied, in_offer, named
from histories import replaced
from reference import CODES, MOST, chosen

PERCENTAGES = range(MOST + 1)
CHOICES = list(product(CODES, repeat=4))  # of c, d, e and g
PRINTED = (10, 10, 5, 0, 0, 5)  # document 02 has their factor
EXACT = {0: 100, 625: 80, 10000: 50, 22500: 40}  # the sums S that equation (4) gives a whole percentage
PAIRS = {a * a + b * b: (a, b) for a, b in product(PERCENTAGES, repeat=2)}  # one for each sum of two squares


class Six(NamedTuple):
    """What is asked: a and b in percent, the others in percent too or as codes."""

    a: int
    b: int
    c: int
    d: int
    e: int
    g: int


def factor_case(six, expect=None):
    """One case of percentages; expect is the refusal and the factor that it is built for."""
    return built_case("u", reference.factor_of(*six), six, expect)


def codes_case(six, expect=None):
    """The same with codes."""
    return built_case("k", reference.factor_by_codes(*six), six, expect)


def built_case(letter, found, six, expect):
    if expect not in (None, found):
        raise SystemExit(f"factor built for {expect}, found {found}: {letter} {tuple(six)}")
    return case(letter, bytes(six))


def made_sums():
    """The sums of squares that none, one, .. six percentages come to, each list as a text with 1 at its sums."""
    marks = [1]
    for _ in Six._fields:
        more = 0
        for n in PERCENTAGES:
            more |= marks[-1] << n * n
        marks.append(more)
    return [f"{sums:b}"[::-1] for sums in marks]


MADE = made_sums()
SUMS = [S for S, mark in enumerate(MADE[6]) if mark == "1"]  # of six percentages


def is_made(count, S):
    """Whether so many percentages come to this sum of squares."""
    return 0 <= S < len(MADE[count]) and MADE[count][S] == "1"


def six_of(rng, S):
    """Six percentages that come to a sum of squares, where any do: four as chance has them, and a pair."""
    four = ()
    for others in (5, 4, 3, 2):
        n = rng.choice(PERCENTAGES)
        while not is_made(others, S - n * n):
            n = (n + 1) % len(PERCENTAGES)
        four, S = (*four, n), S - n * n
    return Six(*four, *PAIRS[S])


def random_six(rng):
    """Six that are accepted as percentages, large and small."""
    return Six(*(rng.randint(0, rng.choice((3, 20, MOST))) for _ in Six._fields))


def random_choice(rng):
    """Six that are accepted with codes."""
    return Six(*rng.choices(PERCENTAGES, k=2), *rng.choice(CHOICES))


def by_codes():
    """For each sum of squares that codes can come to, the choices with a and b that do."""
    sums = {}
    for (S, (a, b)), codes in product(PAIRS.items(), CHOICES):
        S += sum(percentage * percentage for percentage in chosen(*codes))
        sums.setdefault(S, []).append(Six(a, b, *codes))
    return sums


def edges(sums, most, least):
    """The last of these sums that has each factor but the least, and the next one, each with its factor."""
    for p in range(most, least, -1):
        after = bisect_right(sums, (10000 - 100 * p) ** 2 // p**2)
        yield sums[after - 1], p
        yield sums[after], p - 1


def boundaries(rng):
    """Both sides of each change of the factor, for the sums that percentages come to, and codes."""
    for S, p in edges(SUMS, 100, 28):
        yield factor_case(six_of(rng, S), (0, p))
    sums = by_codes()
    for S, p in edges(sorted(sums), 93, 39):
        yield codes_case(rng.choice(sums[S]), (0, p))
    for S, p in [(S + over, p - over) for S, p in EXACT.items() for over in (0, 1)]:
        yield from (factor_case(six_of(rng, S), (0, p)) for _ in range(4))
        yield from (codes_case(six, (0, p)) for six in sums.get(S, ()))


def each_place(rng):
    """One percentage at each place, beside nothing, beside all that there can be, beside any; with codes a and b."""
    none, all_ = (0,) * 6, (100,) * 6
    yield factor_case(none, (0, 100))
    yield factor_case(all_, (0, 28))
    for place in range(6):
        for n, p in ((1, 99), (2, 98), (25, 80), (26, 79), (50, 66), (99, 50), (100, 50)):
            yield factor_case(replaced(none, place, n), (0, p))
        for n, p in ((0, 30), (1, 30), (50, 30), (99, 29)):
            yield factor_case(replaced(all_, place, n), (0, p))
        for n in (0, 1, 64, 99, 100):
            yield factor_case(replaced(random_six(rng), place, n))
    for place, n in product(range(2), (0, 1, 2, 64, 99, 100)):
        yield codes_case(replaced(random_choice(rng), place, n))


def orders(rng):
    """The same six in any order, with the same factor."""
    for six, p in ((PRINTED, 86), ((0, 1, 2, 3, 4, 98), 50), ((100, 80, 60, 40, 20, 0), 40)):
        yield from (factor_case(rng.sample(six, 6), (0, p)) for _ in range(12))


def choices(rng):
    """Every choice of codes with several a and b, each for the answer that the chosen percentages have."""
    pairs = (0, 0), (2, 5), (10, 10), (100, 0), (0, 100), (100, 100), tuple(rng.choices(PERCENTAGES, k=2))
    for (a, b), codes in product(pairs, CHOICES):
        yield codes_case((a, b, *codes), reference.factor_of(a, b, *chosen(*codes)))


def over_100(*fields):
    return [fault for field in fields for fault in in_offer(18, field, 101, 128, 200, 255)]


# Each a change to six that are accepted: with percentages alone, and with codes.
FAULTS = over_100(*Six._fields)
FAULTS_BY_CODES = over_100("a", "b") + [fault for code in "cdeg" for fault in in_offer(19, code, 0, 3, 129, 255)]


def with_pairs(faults):
    """Each fault alone, and each two of different fields."""
    return [(one,) for one in faults] + [pair for pair in combinations(faults, 2) if pair[0].field != pair[1].field]


def at_fault(rng):
    """Each fault alone and each pair, 18 being named before 19; all six at fault; a choice as percentages."""
    for faults in with_pairs(FAULTS):
        yield factor_case(applied(random_six(rng), faults), (18, 0))
    for faults in with_pairs(FAULTS_BY_CODES):
        yield codes_case(applied(random_choice(rng), faults), (named(*faults), 0))
    for byte in (101, 128, 255):
        yield factor_case((byte,) * 6, (18, 0))
        yield codes_case((byte,) * 6, (18, 0))
        yield codes_case((100, 100, *[byte] * 4), (19, 0))
    yield codes_case(PRINTED, (19, 0))
    yield codes_case((0,) * 6, (19, 0))


def at_random(rng):
    """Six that are accepted, six with one byte that may be any, and any six bytes."""
    for build, any_six in ((factor_case, random_six), (codes_case, random_choice)):
        yield from (build(any_six(rng)) for _ in range(40))
        yield from (build(replaced(any_six(rng), rng.randrange(6), rng.randrange(256))) for _ in range(40))
        yield from (build(rng.randbytes(6)) for _ in range(10))


def uncertainty(rng):
    for part in (boundaries, each_place, orders, choices, at_fault, at_random):
        yield from part(rng)


def every_sum(rng):
    """Each sum of squares that six percentages come to; each that a and b come to with each choice of codes."""
    yield from (factor_case(six_of(rng, S)) for S in SUMS)
    yield from (codes_case((*rng.sample(pair, 2), *codes)) for pair, codes in product(PAIRS.values(), CHOICES))
