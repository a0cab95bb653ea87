"""The cases of shuffled files put right, each built for the answer that document 02 gives it.

A case built for a refusal, or for so many changed masses, is an error here where the reference answers another.
"""
from functools import reduce
from itertools import combinations, combinations_with_replacement, permutations, product
from math import prod
from operator import xor
from typing import NamedTuple

import reference
from cases import LONGEST, case
from faults import Fault, applied, named
from histories import KINDS_AND_CLIMATES, PLACES, file_of, random_masses, random_record, replaced
from reference import BYTES, MASSES, RECORDS, TYPES, little

SHIFTS = range(1, 8)  # of a rotation
LARGEST = (LONGEST - 9 - 8) // BYTES  # records of a file in a payload
FULL = 2**32 - 1  # of a mass or of a room


class Shuffled(NamedTuple):
    """What is asked: a file, the types that stood at its places, and the rooms of output and report."""

    order: tuple
    file: bytes
    room: int
    report: int


def shuffled(order, file, spare=0, spare_report=0):
    """A file with the rooms that it needs and so much more."""
    return Shuffled(order, file, len(file) + spare, len(file) // BYTES + spare_report)


def answer_of(asked):
    """What the reference answers."""
    lent = (bytes(min(room, LONGEST)) for room in (asked.room, asked.report))
    return reference.repair(bytes(asked.order), asked.file, *lent)


def repair_case(asked, expect=None):
    """One case; expect is the refusal and the number of changed masses that it is built for."""
    found = answer_of(asked)[:2]
    if expect not in (None, found):
        raise SystemExit(f"repair built for {expect}, found {found}: {asked}")
    return counted_case(len(asked.order), bytes(asked.order) + asked.file, asked.room, asked.report)


def counted_case(count, data, room, report):
    """One case of bytes of which so many should be the order's."""
    return case("o", little([(room, 4), (report, 4), (count, 1)]) + data)


def inverse(order):
    """The order that brings back what this one has put right."""
    return tuple(order.index(t) + 1 for t in TYPES)


def rotated(order, shift):
    return order[shift:] + order[:shift]


def swapped(order, i, j):
    """The order with the types of two places exchanged."""
    return replaced(replaced(order, i, order[j]), j, order[i])


def random_order(rng):
    return tuple(rng.sample(TYPES, 8))


def file_with(rng, *lists):
    """A file of records with these lists of masses. Their other bytes are not judged, and may be any."""
    return b"".join(rng.randbytes(MASSES) + little((mass, 4) for mass in masses) for masses in lists)


def distinct(rng):
    """Eight masses of which no two are the same."""
    return tuple(rng.sample(range(2**32), 8))


def few(rng):
    """Eight masses of which some are the same."""
    return tuple(rng.choices(rng.sample((0, 1, 255, 256, 2**31, FULL, rng.randrange(2**32)), 3), k=8))


def any_file(rng, records):
    return file_with(rng, *(rng.choice((distinct, few, random_masses))(rng) for _ in range(records)))


def distinct_file(rng, records):
    return file_with(rng, *(distinct(rng) for _ in range(records)))


def there_and_back(order, file, expect=None):
    """A file put right, and what it comes to shuffled again: as many masses change."""
    there = shuffled(order, file)
    answer = answer_of(there)
    yield repair_case(there, expect)
    yield repair_case(shuffled(inverse(order), answer.output), expect or answer[:2])


def identity(rng):
    """Every mass stands at its place already: the file is written as it is."""
    for records in range(4):
        yield repair_case(shuffled(TYPES, any_file(rng, records), 5, 2), (0, 0))
    yield repair_case(shuffled(TYPES, distinct_file(rng, 1)), (0, 0))


def moved(rng):
    """Each two masses exchanged, some three in a ring, all eight moved on or turned about."""
    for i, j in combinations(PLACES, 2):
        yield repair_case(shuffled(swapped(TYPES, i, j), distinct_file(rng, 1)), (0, 2))
    for i, j, k in rng.sample(list(permutations(PLACES, 3)), 24):
        yield repair_case(shuffled(swapped(swapped(TYPES, i, j), j, k), distinct_file(rng, 1)), (0, 3))
    for order in [rotated(TYPES, shift) for shift in SHIFTS] + [TYPES[::-1]]:
        yield from there_and_back(order, distinct_file(rng, 1), (0, 8))
    yield from there_and_back(rotated(TYPES, 3), distinct_file(rng, 2), (0, 16))


def random_orders(rng):
    """Any order for any masses, and for records that a ledger takes."""
    for records in (1, 2, 3) * 4:
        yield from there_and_back(random_order(rng), any_file(rng, records))
    for n, (kind, climate) in enumerate(KINDS_AND_CLIMATES):
        file = file_of(random_record(rng, n + i, kind, climate) for i in range(2))
        yield from there_and_back(random_order(rng), file)


def same_masses(rng):
    """Masses that move to where the same number stood: what changes its place is not what is another."""
    for mass in (0, 1, 2**31, FULL, rng.randrange(2**32)):
        yield repair_case(shuffled(rotated(TYPES, 1), file_with(rng, (mass,) * 8)), (0, 0))
    for i, j in combinations(PLACES, 2):
        masses = distinct(rng)
        yield repair_case(shuffled(swapped(TYPES, i, j), file_with(rng, replaced(masses, i, masses[j]))), (0, 0))
    for j, order in product(PLACES, (rotated(TYPES, 1), TYPES[::-1])):
        yield repair_case(shuffled(order, file_with(rng, replaced((7,) * 8, j, 9))), (0, 2))
    for shift in SHIFTS:
        yield repair_case(shuffled(rotated(TYPES, shift), file_with(rng, (5, 6) * 4)), (0, shift % 2 * 8))
    three = file_with(rng, (4, 4, 5, 5) * 2, (5, 6) * 4, (3,) * 8)
    yield repair_case(shuffled(rotated(TYPES, 1), three), (0, 4 + 8 + 0))
    for _ in range(6):
        yield from there_and_back(random_order(rng), file_with(rng, few(rng), few(rng)))


def single_bytes(rng):
    """Masses that differ in one byte alone, by any number, and in one bit alone."""
    for at in (0, 1, 2, 3) * 4:
        (i, j), masses = rng.sample(PLACES, 2), distinct(rng)
        near = replaced(masses, j, masses[i] ^ rng.randint(1, 255) << 8 * at)
        yield repair_case(shuffled(swapped(TYPES, i, j), file_with(rng, near)), (0, 2))
    for bit in range(32):
        others = rng.choice((0, FULL))
        near = replaced((others,) * 8, rng.choice(PLACES), others ^ 1 << bit)
        yield repair_case(shuffled(rotated(TYPES, rng.choice(SHIFTS)), file_with(rng, near)), (0, 2))


def any_bytes(rng):
    """Files of one byte throughout, one where every byte is another, and any bytes: no record is judged."""
    for byte, records in product((0, 255, 0xA5), (1, 2)):
        yield repair_case(shuffled(random_order(rng), bytes([byte]) * BYTES * records), (0, 0))
    yield from there_and_back((2, 4, 6, 8, 1, 3, 5, 7), bytes(range(1, 97)), (0, 16))
    for _ in range(6):
        yield from there_and_back(random_order(rng), rng.randbytes(BYTES * rng.randint(1, 2)))


def lengths(rng):
    """Each length of a file up to three records and a byte, and some about more records, with room and without."""
    file = any_file(rng, 4)
    for length in range(3 * BYTES + 2):
        asked = shuffled(random_order(rng), file[:length], rng.choice((0, 1)), rng.choice((0, 1)))
        if length % BYTES == 0:
            yield repair_case(asked, (0, answer_of(asked).changed))
        else:
            yield repair_case(rng.choice((asked, asked._replace(room=rng.randint(0, 9), report=0))), (21, 0))
    for records, over in product((10, 100), (-1, 1, 16, 24)):
        yield repair_case(Shuffled(random_order(rng), rng.randbytes(BYTES * records + over), 0, 0), (21, 0))


def rooms(rng):
    """One byte too few, just enough and one more of each buffer, and nothing of it."""
    for records in (1, 2, 3):
        file = distinct_file(rng, records)
        for spare, spare_report in product((-1, 0, 1, -len(file)), (-1, 0, 1, -records)):
            expect = (22, 0) if min(spare, spare_report) < 0 else (0, 8 * records)
            yield repair_case(shuffled(rotated(TYPES, 1), file, spare, spare_report), expect)
    for room, report in product((0, 1, 47), (0, 1, 3)):
        yield repair_case(Shuffled(random_order(rng), b"", room, report), (0, 0))
    file = distinct_file(rng, 2)
    for room, report in ((95, 300), (300, 1), (2, 96), (95, 1)):
        yield repair_case(Shuffled(random_order(rng), file, room, report), (22, 0))
    for room, report in ((96, 2), (97, 96), (200, 9)):
        yield repair_case(Shuffled(TYPES[::-1], file, room, report), (0, 16))


def other_lengths(rng):
    """Orders that are not of eight bytes."""
    for count in (0, 1, 2, 3, 4, 5, 6, 7, 9, 10):
        yield (*TYPES, 9, 10)[:count]
        yield (*random_order(rng), 1, 8)[:count]
    yield from ((*TYPES, 0), (0, *TYPES), TYPES * 2, (TYPES * 32)[:255], (0,) * 255)


def other_types(rng):
    """Bytes that are no type at each place: next to the types, and those that come to a type in fewer bits."""
    for j in PLACES:
        order = random_order(rng)
        yield from (replaced(TYPES, j, byte) for byte in (0, 9, 255, rng.randint(10, 254)))
        yield from (replaced(order, j, order[j] + more) for more in (8, 16, 32, 64, 128))
        yield replaced(order, j, 256 - order[j])
    yield from (tuple(t + more for t in TYPES) for more in (-1, 1, 8, 16, 32, 64, 128, 247))
    yield from ((byte,) * 8 for byte in (0, 9, 128, 255))


def agreeing(measure):
    """Eight types that are no order, and yet come to the same as one by a measure."""
    lists = combinations_with_replacement(TYPES, 8)
    return [types for types in lists if types != TYPES and measure(types) == measure(TYPES)]


def sums(types):
    """Their sum, and that of their squares."""
    return sum(types), sum(t * t for t in types)


def all_bits(types):
    return reduce(xor, types)


def doubled(rng):
    """A type that is named twice for another: at each two places, and so that a sum or the like comes out right."""
    for i, j in permutations(PLACES, 2):
        order = random_order(rng)
        yield replaced(order, i, order[j])
    yield from ((t,) * 8 for t in TYPES)
    yield from ((1, 1, 3, 4, 5, 6, 8, 8), (2, 2, 3, 4, 5, 6, 7, 7), (1, 2, 3, 4, 4, 7, 7, 8), (1, 2, 3, 3, 6, 6, 7, 8))
    for measure, count in ((sum, 8), (sums, 9), (prod, 12), (all_bits, 8)):
        yield from (tuple(rng.sample(types, 8)) for types in rng.sample(agreeing(measure), count))


def no_orders(rng):
    """Each with a record and room for it, or with nothing."""
    for part in (other_lengths, other_types, doubled):
        yield from (repair_case(shuffled(order, any_file(rng, rng.choice((0, 1)))), (20, 0)) for order in part(rng))


def in_asked(number, field, *changes):
    """A fault for each value of a field, worked out from what is asked."""
    return [Fault(number, field, lambda asked, c=c: asked._replace(**{field: c(asked)})) for c in changes]


# Each a change to what is asked for two records; a room is worked out from the file with its fault.
FAULTS = [
    *in_asked(20, "order", lambda asked: asked.order[:7], lambda asked: replaced(asked.order, 0, asked.order[7])),
    *in_asked(21, "file", lambda asked: asked.file[:-1], lambda asked: asked.file + b"\1"),
    *in_asked(22, "room", lambda asked: len(asked.file) - 1, lambda asked: 0),
    *in_asked(22, "report", lambda asked: len(asked.file) // BYTES - 1, lambda asked: 0),
]
FAULTS_AT_ONCE = [
    faults
    for count in (1, 2, 3, 4)
    for faults in combinations(FAULTS, count)
    if len({fault.field for fault in faults}) == count
]


def at_fault(rng):
    """Each fault alone, and each two, three and four of different fields: the one that is tested first is named."""
    for faults in FAULTS_AT_ONCE:
        asked = shuffled(random_order(rng), any_file(rng, 2), rng.choice((0, 1)), rng.choice((0, 1)))
        yield repair_case(applied(asked, faults), (named(*faults), 0))


def counted(rng):
    """Fewer bytes than those of the order should be: all are the order's, and the file is empty. Others of no order."""
    for count in (8, 9, 56, 255):
        yield counted_case(count, bytes(random_order(rng)), 2, 1)
    for count in (0, 7, 9, 56, 57, 255):
        yield counted_case(count, bytes(random_order(rng)) + any_file(rng, 1), BYTES, 1)
    for count, data in ((0, b""), (1, b""), (8, b""), (8, TYPES[:7]), (255, TYPES[:7]), (7, TYPES)):
        yield counted_case(count, bytes(data), 2, 1)


def large(rng):
    """As many records as a ledger takes, and as a payload holds, with more room than is lent; the longest payload."""
    for records, room in ((RECORDS, BYTES * RECORDS), (LARGEST, FULL)):
        asked = Shuffled(rotated(TYPES, 5), distinct_file(rng, records), room, records)
        yield repair_case(asked, (0, 8 * records))
    yield repair_case(asked._replace(room=0), (22, 0))
    yield repair_case(Shuffled(random_order(rng), rng.randbytes(LONGEST - 9 - 8), 0, 0), (21, 0))


def at_random(rng):
    """Any order or any bytes for one, any file, and any rooms about what it needs."""
    for _ in range(50):
        order = rng.choice((random_order(rng), random_order(rng), tuple(rng.choices(range(10), k=rng.randint(7, 9)))))
        file = any_file(rng, 4)[: BYTES * rng.randint(0, 3) + rng.choice((0, 0, 0, rng.randint(1, 47)))]
        needs = len(file), len(file) // BYTES
        room, report = (max(need + rng.choice((0, 0, 0, 1, rng.randint(-2, 40))), 0) for need in needs)
        yield repair_case(Shuffled(order, file, room, report))


def orders(rng):
    parts = identity, moved, random_orders, same_masses, single_bytes, any_bytes, lengths, rooms
    for part in (*parts, no_orders, at_fault, counted, large, at_random):
        yield from part(rng)


def every_order(rng):
    """Each order of the eight types, for a record of its own; a report with more room than is lent."""
    for order in permutations(TYPES):
        moves = sum(t != place for place, t in enumerate(order, 1))
        yield repair_case(shuffled(order, distinct_file(rng, 1)), (0, moves))
    yield repair_case(Shuffled(TYPES[::-1], distinct_file(rng, 1), BYTES, FULL), (0, 8))
