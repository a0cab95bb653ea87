"""Holds the reference to request d of document 02: the factor of every sum of squares, the choices, what is refused."""
from fractions import Fraction
from itertools import pairwise, permutations, product, starmap

import reference
import retold
import uncertainty_cases
from checks import check
from histories import replaced
from reference import factor_by_codes, factor_of, greatest_percentage

TABLE = [tuple(int(value.removesuffix("%")) for value in row[1:]) for row in retold.UNCERTAINTIES.values()]
CHOICES = list(product((1, 2), repeat=4))


def corrected(*percentages):
    """What equations (3) and (4) of 000 give for six percentages."""
    return retold.corrected(*(f"{percentage}%" for percentage in percentages))


def values_of(codes):
    """The percentages of Table 3 that four codes take."""
    return [row[code - 1] for row, code in zip(TABLE[2:], codes, strict=True)]


def printed():
    """What document 02 prints, as percentages and as codes; the percentages that are exact, and the limits."""
    check("the printed factor", factor_of(10, 10, 5, 0, 0, 5), (0, 86))
    check("the printed factor by codes", factor_by_codes(10, 10, 1, 1, 1, 1), (0, 86))
    for S, p in [(0, 100), (625, 80), (10000, 50), (22500, 40)]:
        check(f"factors about S = {S}", (greatest_percentage(S), greatest_percentage(S + 1)), (p, p - 1))
    check("no uncertainty", factor_of(0, 0, 0, 0, 0, 0), (0, 100))
    check("the most uncertainty", factor_of(100, 100, 100, 100, 100, 100), (0, 28))
    check("the least by codes", factor_by_codes(0, 0, 1, 1, 1, 1), (0, 93))
    check("the most by codes", factor_by_codes(100, 100, 2, 2, 2, 2), (0, 39))


def chosen():
    """Codes give what the values of Table 3 give, for every choice there and for other a and b."""
    check("values of c, d, e and g", reference.VALUES, tuple(TABLE[2:]))
    pairs = {*product(*TABLE[:2]), *((a, b) for n in range(101) for a, b in ((n, 100), (100, n), (n, n), (n, 100 - n)))}
    for (a, b), codes in product(sorted(pairs), CHOICES):
        found = factor_by_codes(a, b, *codes)
        check(f"codes {codes} with {a} and {b}", found, factor_of(a, b, *values_of(codes)))
        check(f"a factor of {codes} with {a} and {b}", 39 <= found[1] <= 93, True)


def every_byte():
    """Every byte at each of the six places, as a percentage and as a code, among others that are accepted."""
    for place, byte in product(range(6), range(256)):
        for others in ((10, 10, 5, 0, 0, 5), (0,) * 6, (100, 1, 99, 2, 50, 3)):
            six = replaced(others, place, byte)
            check(f"percentages {six}", factor_of(*six), (0, corrected(*six)) if byte <= 100 else (18, 0))
        for others in ((10, 10, 1, 1, 1, 1), (0, 100, 2, 1, 2, 1)):
            a, b, *codes = six = replaced(others, place, byte)
            if max(a, b) > 100:
                wanted = 18, 0
            elif place > 1 and byte not in (1, 2):
                wanted = 19, 0
            else:
                wanted = 0, corrected(a, b, *values_of(codes))
            check(f"codes {six}", factor_by_codes(*six), wanted)


def in_order():
    """Faults at several places: 18 is named before 19, and the factor is 0 where one is named."""
    for six in product((100, 101, 255), repeat=6):
        check(f"percentages {six}", factor_of(*six), (18, 0) if max(six) > 100 else (0, 28))
    for a, b in product((100, 101, 255), repeat=2):
        for codes in product((0, 1, 2, 3), repeat=4):
            number = 18 if max(a, b) > 100 else 19 if {0, 3} & set(codes) else 0
            refusal, factor = factor_by_codes(a, b, *codes)
            check(f"codes {codes} with {a} and {b}", (refusal, factor > 0), (number, number == 0))


def every_sum():
    """Each S, also those that no six percentages come to, has the factor of equation (4); a larger one no higher."""
    factors = [greatest_percentage(S) for S in range(60001)]
    for S, factor in enumerate(factors):
        check(f"factor of S = {S}", factor, retold.model_correction(Fraction(S, 10000)))
    check("least and most", (min(factors), max(factors)), (28, 100))
    check("no higher", all(factor >= later for factor, later in pairwise(factors)), True)
    check("sums of six squares", (len(uncertainty_cases.SUMS), uncertainty_cases.SUMS[-1]), (60001 - 3640, 60000))


def never_higher(rng):
    """More of some uncertainties gives no higher factor, also by codes; the same six in another order the same one."""
    for _ in range(500):
        six = [rng.randint(0, 100) for _ in range(6)]
        more = [rng.choice((n, rng.randint(n, 100))) for n in six]
        check(f"factor of {six}", factor_of(*six), (0, corrected(*six)))
        check(f"{more} after {six}", factor_of(*more) <= factor_of(*six), True)
        lower = [*six[:2], *rng.choice(CHOICES)]
        higher = [*more[:2], *(rng.randint(code, 2) for code in lower[2:])]
        check(f"codes {higher} after {lower}", factor_by_codes(*higher) <= factor_by_codes(*lower), True)
    six = (100, 83, 41, 20, 5, 0)
    check(f"orders of {six}", set(starmap(factor_of, permutations(six))), {(0, corrected(*six))})
