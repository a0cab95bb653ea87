"""The cases of masses from sorting samples, each built for the answer that document 02 gives it.

A case built for a refusal is an error here where the reference answers another.
"""
from itertools import combinations, pairwise
from typing import NamedTuple

import reference
from cases import case
from faults import LAST, Fault, applied, in_offer, named
from histories import only, replaced
from reference import MASS_LIMIT, SAMPLE, SAMPLES, WHOLE, little

COUNTS = (0, 1, 2, 3, 4, 11, 12, 13, 399, 400, 401, 410)  # of samples
TAKEN = ((1, 12), (1, 13), (1, 399), (1, 400), (2, 3))  # a kind, and one of these that it takes
FEWEST = {kind: least for kind, (least, _) in SAMPLES.items()}
TOTALS = (0, 1, 7, 9999, MASS_LIMIT - 1, MASS_LIMIT)
TOO_LARGE = (MASS_LIMIT + 1, 2**32 - 1, 2**32, 2**32 + 5, 2**63, LAST)
EVEN = (1250,) * 8  # a sample with as much of each type
WRAPPED = (9442,) * 8  # no fraction is over 10000, and yet the sample adds up only modulo 2^16


class Sorting(NamedTuple):
    """What is asked: the masses of a total in kg, by the bytes of its samples."""

    kind: int
    total: int
    data: bytes


def masses_case(sorting, expect=None):
    """One case; expect is the refusal that it is built for."""
    found, _ = reference.masses(*sorting)
    if expect not in (None, found):
        raise SystemExit(f"masses built for {expect}, found {found}: {sorting}")
    return case("m", little([(sorting.kind, 1), (sorting.total, 8)]) + sorting.data)


def written(samples):
    """The bytes of samples, each eight fractions."""
    return little((fraction, 2) for fractions in samples for fraction in fractions)


def random_samples(rng, count):
    """The bytes of that many samples that add up."""
    return written(random_sample(rng) for _ in range(count))


def random_sample(rng):
    """Eight fractions that add up; of some types there is nothing, or next to nothing."""
    near = (0, 0, 1, WHOLE - 1, WHOLE)
    cuts = sorted(rng.choice((rng.choice(near), rng.randint(0, WHOLE), rng.randint(0, WHOLE))) for _ in range(7))
    return tuple(upper - lower for lower, upper in pairwise((0, *cuts, WHOLE)))


def fair_sorting(rng, kind, count=None):
    """One that is accepted; with as few samples as its kind takes where it is not said how many."""
    total = rng.choice((*TOTALS, rng.randint(0, 1000), rng.randint(0, MASS_LIMIT), rng.randint(0, MASS_LIMIT)))
    return Sorting(kind, total, random_samples(rng, count or FEWEST[kind]))


def resampled(sorting, place, sample):
    """The same with another sample at a place, which counts from the end where it is below 0."""
    at = SAMPLE * place % len(sorting.data)
    return sorting._replace(data=sorting.data[:at] + written([sample]) + sorting.data[at + SAMPLE :])


def in_data(field, *changes):
    """A fault for each change to the number of bytes."""
    return [Fault(15, field, lambda s, c=c: s._replace(data=c(s.data))) for c in changes]


def in_first(*samples):
    """A fault for each sample that does not add up, as the first of all."""
    return [Fault(16, "first sample", lambda s, f=fractions: resampled(s, 0, f)) for fractions in samples]


# Each a change to a sorting that is accepted, with as few samples as its kind takes; none loses the first sample.
FAULTS = [
    *in_offer(14, "total", *TOO_LARGE),
    *in_offer(15, "kind", 0, 3, 255),
    Fault(15, "kind", lambda sorting: sorting._replace(kind=3 - sorting.kind)),
    *in_data("length", lambda data: data[:-1], lambda data: data + b"\0", lambda data: data + bytes(8)),
    *in_data("number", lambda data: data[:SAMPLE], lambda data: data[:-SAMPLE]),
    *in_first(only(1, 0), only(2, 65535), replaced(EVEN, 0, 1249), replaced(EVEN, 7, 1251)),
    *in_first(WRAPPED, (65535, 10001, 0, 0, 0, 0, 0, 0), *(only(place, WHOLE + 1) for place in range(1, 9))),
]
PAIRS = [pair for pair in combinations(FAULTS, 2) if pair[0].field != pair[1].field]


def at_fault(rng):
    """Each fault alone, and one of each pair of fields, the one that is tested first winning."""
    of_fields = {}
    for one, other in PAIRS:
        of_fields.setdefault((one.field, other.field), []).append((one, other))
    for kind in FEWEST:
        for faults in [(fault,) for fault in FAULTS] + [rng.choice(pairs) for pairs in of_fields.values()]:
            yield masses_case(applied(fair_sorting(rng, kind), faults), named(*faults))


def numbers_of_samples(rng):
    """As many samples as a kind takes and as it does not, the same a byte off, and each length up to four samples."""
    for kind in (1, 2, 0, 3, 255):
        for count in COUNTS:
            sorting = Sorting(kind, rng.randint(0, MASS_LIMIT), random_samples(rng, count))
            yield masses_case(sorting, 0 if (kind, count) in TAKEN else 15)
    data = random_samples(rng, 401)
    for length in range(71):
        yield masses_case(Sorting(2, rng.randint(0, MASS_LIMIT), data[:length]), 0 if length == 48 else 15)
    for kind, counts in ((1, (1, 2, 3, 4, 11, 12, 13, 400)), (2, (11, 12, 13))):
        for length in (SAMPLE * count + off for count in counts for off in (-1, 1)):
            yield masses_case(Sorting(kind, rng.randint(0, MASS_LIMIT), data[:length]), 15)


def sums(rng):
    """Samples that do not add up: by one, by what another has too much, by what wraps at 2^16, and any bytes."""
    for kind, count in ((2, 3), (1, 12), (1, 25)):
        sorting = fair_sorting(rng, kind, count)
        for place in (0, count // 2, -1):
            for shift in (-1, 1):
                yield masses_case(resampled(sorting, place, off_by(rng, shift)), 16)
            yield masses_case(resampled(resampled(sorting, place, off_by(rng, 1)), place - 1, off_by(rng, -1)), 16)
            yield masses_case(resampled(sorting, place, WRAPPED), 16)
    for place, shift in ((0, -1), (-1, 1)):
        yield masses_case(resampled(fair_sorting(rng, 1, 400), place, off_by(rng, shift)), 16)
    for times in range(1, 8):
        sample = rng.sample((65535,) * times + (WHOLE + times,) + (0,) * (7 - times), 8)
        yield masses_case(resampled(fair_sorting(rng, 2), rng.randrange(3), sample), 16)
    for length in (16, 47, 48, 48, 48, 48, 49, 192, 192, 192, 208, 1000):
        kind, total = rng.choice((0, 1, 2, 3, 129)), rng.randrange(2**64) >> rng.randrange(64)
        yield masses_case(Sorting(kind, total, rng.randbytes(length)))
        yield masses_case(Sorting(1 if length > 100 else 2, rng.randint(0, MASS_LIMIT), rng.randbytes(length)))


def off_by(rng, shift):
    """A sample that misses its whole by a shift of one, up or down."""
    sample = random_sample(rng)
    j = sample.index(max(sample))
    return replaced(sample, j, sample[j] + shift)


def accepted(rng):
    """One type alone, all types alike, types with next to nothing, and samples at random, with all totals."""
    alike = [EVEN] + [only(place, WHOLE) for place in range(1, 9)]
    alike += [replaced((1,) * 8, j, WHOLE - 7) for j in (0, 3, 7)]
    for kind, count in FEWEST.items():
        for total in TOTALS:
            yield masses_case(Sorting(kind, total, random_samples(rng, count)), 0)
        for sample in alike:
            yield masses_case(Sorting(kind, rng.choice(TOTALS[1:]), written([sample]) * count), 0)
    for sample in (EVEN, only(1, WHOLE), random_sample(rng)):
        yield masses_case(Sorting(1, MASS_LIMIT, written([sample]) * 400), 0)
    for _ in range(50):
        yield masses_case(fair_sorting(rng, 2), 0)
    for _ in range(25):
        yield masses_case(fair_sorting(rng, 1, rng.randint(12, 40)), 0)


def samples(rng):
    yield from numbers_of_samples(rng)
    yield from at_fault(rng)
    yield from sums(rng)
    yield from accepted(rng)
