"""The cases of the spreadsheet door: cells and chart points."""
from fractions import Fraction

import reference
from cases import case
from reference import little


def cells(rng):
    """Empty cells, and the bits of floats: from sign, exponent and part, from exact values, and any."""
    parts = [(exponent, part) for exponent in (0, 1, 1022, 2046, 2047) for part in (0, 1, 2**51, 2**52 - 1)]
    parts += [(exponent, rng.randrange(2**52)) for exponent in (1, 1023, 1052, 1053, 1075, 1087, 2019, 2047)]
    wholes = [1, 2, 10**9 - 1, 10**9, 10**9 + 1, 2**31, 2**32, 2**32 + 5, 2**53 - 1, 2**53, 2**53 + 2]
    wholes += [2**63, 2**64, 2**64 + 2**12, 10**22] + [rng.randint(0, 10**9) for _ in range(30)]
    halves = [Fraction(whole, 2) for whole in (1, 3, 2 * 10**9 - 1, 2 * 10**9 + 1, 2**53 - 1)]
    quarters = [Fraction(rng.randint(0, 10**6), 4) for _ in range(20)]
    bits = [(exponent << 52) + part for exponent, part in parts] + list(map(exact_bits, wholes + halves + quarters))
    bits += [exact_bits(value) + shift for value in (1, 10**9) for shift in (-1, 1)] + [0x7E37E43C8800759C]  # 1e300
    for pattern in bits:
        yield from (case("c", b"\1" + little([(pattern + (sign << 63), 8)])) for sign in (0, 1))
    for pattern in (0, exact_bits(5), 2**64 - 1):
        yield from (case("c", bytes([mark]) + little([(pattern, 8)])) for mark in (0, 2, 255))
    for _ in range(40):
        yield case("c", b"\1" + rng.randbytes(8))


def exact_bits(value):
    """The bits of a whole number, of halves or of quarters, where a float holds that value exactly."""
    quarters = int(value * 4)
    spare = max(quarters.bit_length() - 53, 0)
    bits = reference.bits_of(quarters >> spare) + (spare - 2 << 52 if quarters else 0)
    if reference.value_of(bits) != value:
        raise SystemExit(f"no float is {value}")
    return bits


def points(rng):
    limit, last = 2**53, 2**64 - 1
    pairs = [(0, 0), (7, 7), (3, 5), (0, 1), (1, 0), (311547, 3), (limit, limit), (2**63, 2**63)]
    pairs += [(last, 0), (0, last), (last, 1), (1, last), (last, last), (last - limit, limit + 1)]
    for total in (limit - 1, limit, limit + 1):
        pairs += [(figure, total - figure) for figure in (0, 1, 3, total // 2, total // 2 + 1, total - 1, total)]
    pairs += [(2**power + shift, rng.randrange(2**power)) for power in range(2, 54, 3) for shift in (-1, 0, 1)]
    pairs += [(rng.randrange(limit // 2), rng.randrange(limit // 2)) for _ in range(30)]
    pairs += [(rng.randrange(2**64), rng.randrange(2**64) >> rng.randrange(64)) for _ in range(20)]
    yield from (case("p", little([(figure, 8), (bound, 8)])) for figure, bound in pairs)


def door(rng):
    yield from cells(rng)
    yield from points(rng)
