"""Wrong readings of request g of document 02, which the stored cases have to tell from the right one.

Each has a name, and functions that it puts in the place of the reference's. It always gives an answer: one that takes
what is no order, or no whole file, writes something.
"""
import struct
from functools import reduce
from itertools import accumulate, pairwise
from math import prod
from operator import ne, or_
from typing import NamedTuple

import misread
import reference
from order_cases import all_bits, inverse, orders, sums
from reference import BYTES, MASS_LIMIT, MASSES, RECORDS, TYPES, is_order, little, mass_at, put_right, records_of
from reference import repair

ALL = set(TYPES)


# What is an order


def loosely(order, data):
    """As put_right, for what is no order too: of two the last is taken, and a type that is not named has no mass."""
    named = {t: mass_at(data, place) for place, t in enumerate(order[:8], 1)}
    return with_masses(data, (named.get(t, 0) for t in TYPES))


def with_masses(data, masses):
    return data[:MASSES] + little((mass, 4) for mass in masses)


def taken(test):
    """Other orders than those that name each type once."""
    return {"is_order": test, "put_right": loosely}


def from_to(least, most):
    """Eight bytes of a range, none of them twice."""
    return taken(lambda order: len(order) == len(set(order)) == 8 and least <= min(order) and max(order) <= most)


def eight(test):
    """Eight types that pass a test."""
    return taken(lambda order: len(order) == 8 and set(order) <= ALL and test(order))


def agrees(measure):
    """Eight types of which some number is right."""
    return eight(lambda order: measure(order) == measure(TYPES))


def modulo(size):
    """Bytes that come to the eight types in fewer bits."""
    return taken(lambda order: sorted((t - 1) % size + 1 for t in order) == [*TYPES])


ORDERS = {
    "any bytes": taken(lambda order: True),
    "any eight bytes": taken(lambda order: len(order) == 8),
    "any eight bytes, none twice": from_to(0, 255),
    "type 0": from_to(0, 8),
    "type 9": from_to(1, 9),
    "types from 0": taken(lambda order: is_order(order) or sorted(order) == [*range(8)]),
    "any eight types": eight(lambda order: True),
    "eight types, the next another": eight(lambda order: all(t != after for t, after in pairwise(order))),
    "all types, some twice": taken(lambda order: set(order) == ALL),
    "all types, and others": taken(lambda order: set(order) >= ALL),
    "the first eight bytes": taken(lambda order: is_order(order[:8])),
    "the last eight bytes": taken(lambda order: is_order(order[-8:])),
    "seven types": taken(lambda order: is_order(order) or len(order) == 7 == len(set(order) & ALL)),
    "no bytes": taken(lambda order: is_order(order) or order == b""),
    **{f"types modulo {size}": modulo(size) for size in (8, 16, 32, 64, 128)},
    "the sum alone": agrees(sum),
    "sum and sum of squares": agrees(sums),
    "the product alone": agrees(prod),
    "the bits alone": agrees(all_bits),
}


# What is refused: a number, and a test of order, length of the file, and rooms of output and report

NO_ORDER = 20, lambda order, length, room, report: not is_order(order)
NOT_WHOLE = 21, lambda order, length, room, report: length % BYTES != 0
SHORT = 22, lambda order, length, room, report: room < length
SHORT_REPORT = 22, lambda order, length, room, report: report < length // BYTES


def tested(*faults):
    """Other faults, or the same in another order."""

    def first(order, file, *rooms):
        return next((number for number, holds in faults if holds(order, len(file), *rooms)), 0)

    return {"refusal_of_repair": first}


def of_length(holds):
    return tested(NO_ORDER, (21, lambda order, length, room, report: holds(length)), SHORT, SHORT_REPORT)


def of_room(holds):
    return tested(NO_ORDER, NOT_WHOLE, (22, lambda order, length, room, report: holds(length, room)), SHORT_REPORT)


def of_report(holds):
    short = 22, lambda order, length, room, report: holds(length // BYTES, report)
    return tested(NO_ORDER, NOT_WHOLE, SHORT, short)


BOTH_SHORT = 22, lambda *asked: SHORT[1](*asked) and SHORT_REPORT[1](*asked)
REFUSALS = {
    "21 before 20": tested(NOT_WHOLE, NO_ORDER, SHORT, SHORT_REPORT),
    "22 before 21": tested(NO_ORDER, SHORT, SHORT_REPORT, NOT_WHOLE),
    "22 of the output before 21": tested(NO_ORDER, SHORT, NOT_WHOLE, SHORT_REPORT),
    "22 of the report before 21": tested(NO_ORDER, SHORT_REPORT, NOT_WHOLE, SHORT),
    "22 before 20": tested(SHORT, SHORT_REPORT, NO_ORDER, NOT_WHOLE),
    "20 last": tested(NOT_WHOLE, SHORT, SHORT_REPORT, NO_ORDER),
    "bytes left over passed by": of_length(lambda length: False),
    "an empty file refused": of_length(lambda length: length % BYTES != 0 or length == 0),
    "1200 records refused": of_length(lambda length: length % BYTES != 0 or length >= BYTES * RECORDS),
    "1201 records refused": of_length(lambda length: length % BYTES != 0 or length > BYTES * RECORDS),
    **{f"a multiple of {part}": of_length(lambda length, p=part: length % p != 0) for part in (3, 4, 8, 16, 24)},
    "the output alone": tested(NO_ORDER, NOT_WHOLE, SHORT),
    "the report alone": tested(NO_ORDER, NOT_WHOLE, SHORT_REPORT),
    "both have to be short": tested(NO_ORDER, NOT_WHOLE, BOTH_SHORT),
    "an output one short taken": of_room(lambda length, room: room < length - 1),
    "an output just enough refused": of_room(lambda length, room: room <= length),
    "an output to spare refused": of_room(lambda length, room: room > length),
    "a report one short taken": of_report(lambda records, report: report < records - 1),
    "a report just enough refused": of_report(lambda records, report: report <= records),
    "a report to spare refused": of_report(lambda records, report: report > records),
    "a report by masses": of_report(lambda records, report: report < 8 * records),
    "a report by bytes": of_report(lambda records, report: report < BYTES * records),
    "a report by bits": of_report(lambda records, report: 8 * report < records),
}


# Where masses go


def masses_of(data):
    return [mass_at(data, t) for t in TYPES]


def one_by_one(order, data):
    """Masses written where others are still to be read."""
    masses = masses_of(data)
    for place, t in enumerate(order):
        masses[t - 1] = masses[place]
    return with_masses(data, masses)


def by_swaps(order, data):
    """Each mass exchanged with the one at its type's place, whatever came there before."""
    masses = masses_of(data)
    for place, t in enumerate(order):
        masses[t - 1], masses[place] = masses[place], masses[t - 1]
    return with_masses(data, masses)


def by_halves(order, data):
    """The upper two bytes of each mass stay."""
    return b"".join(right[:2] + old[2:] for right, old in zip(fours(put_right(order, data)), fours(data)))


def fours(data):
    return [data[at : at + 4] for at in range(0, BYTES, 4)]


def from_12(order, data):
    """The eight masses taken to stand four bytes earlier."""
    return data[:12] + put_right(order, bytes(4) + data[:44])[MASSES:] + data[44:]


def turned_about(order, data):
    """Masses written with their highest byte first."""
    right = put_right(order, data)
    return data[:MASSES] + b"".join(four[::-1] for four in fours(right)[4:])


def judged(order, data):
    """A record that a ledger would refuse left as it is, for bytes 14 and 15 or for a mass."""
    fair = data[14:16] == bytes(2) and max(masses_of(data)) <= MASS_LIMIT
    return put_right(order, data) if fair else data


def cut(order, data):
    """Masses cut at the most that a ledger takes."""
    return with_masses(data, (min(mass, MASS_LIMIT) for mass in masses_of(put_right(order, data))))


def put(function):
    return {"put_right": function}


PLACES = {
    "the inverse order": put(lambda order, data: put_right(inverse(order), data)),
    "nothing moved": put(lambda order, data: data),
    "masses moved one by one": put(one_by_one),
    "masses swapped one by one": put(by_swaps),
    "half of each mass moved": put(by_halves),
    "bytes 12 to 15 a mass": put(from_12),
    "highest byte first": put(turned_about),
    "records judged": put(judged),
    "masses cut": put(cut),
    "bytes 0 to 15 cleared": put(lambda order, data: bytes(16) + put_right(order, data)[16:]),
    "bytes 12 to 15 cleared": put(lambda order, data: data[:12] + bytes(4) + put_right(order, data)[16:]),
}


# What is told, counted and written, where there is no refusal


class Work(NamedTuple):
    order: bytes
    old: list  # records as they stood
    new: list  # records put right
    told: bytes  # of these, in the report
    output: bytes  # as it was lent
    report: bytes  # as it was lent


def answered(change):
    """Another answer, from the right one and the work."""

    def wrong(order, file, output, report):
        answer = repair(order, file, output, report)
        if answer.refusal:
            return answer
        old, new = records_of(file), records_of(answer.output[: len(file)])
        return change(answer, Work(order, old, new, answer.report[: len(old)], output, report))

    return {"repair": wrong}


def over(lent, data):
    """A buffer that was lent, with bytes written at its start."""
    return data + lent[len(data) :]


def bits(data):
    return sum(map(int.bit_count, data))


def told(by):
    """Another report, whose bits are counted."""

    def change(answer, work):
        report = bytes(by(work))
        return answer._replace(changed=bits(report), report=over(work.report, report))

    return answered(change)


def told_as(byte):
    """Each byte of the report another."""
    return told(lambda work: map(byte, work.told))


def places_of(work, old, new, chosen):
    """A byte with the bits of the places that are chosen by the type that stood there, the place and the record."""
    return sum(1 << place - 1 for t, place in zip(work.order, TYPES) if chosen(t, place, old, new))


def told_at(chosen):
    return told(lambda work: (places_of(work, old, new, chosen) for old, new in zip(work.old, work.new)))


def told_where(differ):
    """The bits of the places where the mass that stood there and the one that stands there now differ in some way."""
    return told_at(lambda t, place, old, new: differ(mass_at(old, place), mass_at(new, place)))


def single(mass):
    """A mass as a float of 32 bits."""
    return struct.pack("<f", mass)


REPORTS = {
    "bits by the order alone": told_at(lambda t, place, old, new: t != place),
    "bits where a mass stood": told_at(lambda t, place, old, new: mass_at(old, t) != mass_at(new, t)),
    "bits one place up": told_as(lambda byte: byte << 1 & 255),
    "bits one place down": told_as(lambda byte: byte >> 1),
    "bits from type 8 on": told_as(lambda byte: int(f"{byte:08b}"[::-1], 2)),
    "bits of what is the same": told_as(lambda byte: byte ^ 255),
    "all bits for one": told_as(lambda byte: 255 if byte else 0),
    "one bit for a record": told_as(lambda byte: 1 if byte else 0),
    "the number of bits": told_as(int.bit_count),
    "bits of what is more": told_where(lambda old, new: old < new),
    "bits of what is less": told_where(lambda old, new: old > new),
    "no bit for 0": told_where(lambda old, new: old != new and new > 0),
    "no bit where 0 stood": told_where(lambda old, new: old != new and old > 0),
    "bits where 0 comes or goes": told_where(lambda old, new: (old == 0) != (new == 0)),
    "masses as floats": told_where(lambda old, new: single(old) != single(new)),
    **{f"byte {at} alone": told_where(lambda old, new, a=at: (old ^ new) >> 8 * a & 255) for at in range(4)},
    **{f"all but bit {bit}": told_where(lambda old, new, b=bit: (old ^ new) & ~(1 << b)) for bit in range(32)},
    "bits that stay": told(lambda work: accumulate(work.told, or_)),
    "the first record's bits": told(lambda work: work.told[:1] * len(work.told)),
    "records from the last": told(lambda work: work.told[::-1]),
    "bits beside those lent": told(lambda work: map(or_, work.told, work.report)),
    "no byte without a change": told(lambda work: (byte or lent for byte, lent in zip(work.told, work.report))),
    "no report": told(lambda work: b""),
}


def counted(count):
    """Another number of changes."""
    return answered(lambda answer, work: answer._replace(changed=count(work)))


COUNTS = {
    "no count": counted(lambda work: 0),
    "all records": counted(lambda work: len(work.old)),
    "records with a change": counted(lambda work: sum(map(ne, work.old, work.new))),
    "masses that move": counted(lambda work: len(work.old) * sum(map(ne, work.order, TYPES))),
    "bytes that change": counted(lambda work: sum(map(ne, b"".join(work.old), b"".join(work.new)))),
    "places with a change": counted(lambda work: bits([reduce(or_, work.told, 0)])),
    "bits of the whole report": counted(lambda work: bits(over(work.report, work.told))),
    "bits of the first record": counted(lambda work: bits(work.told[:1])),
    "bits of the last record": counted(lambda work: bits(work.told[-1:])),
    "a count of one byte": counted(lambda work: bits(work.told) % 256),
}


def written(records):
    """Other records in the output."""
    return answered(lambda answer, work: answer._replace(output=over(work.output, b"".join(records(work)))))


def cleared(buffer, start):
    return buffer[:start] + bytes(len(buffer) - start)


def at_the_ends(answer, work):
    """Both buffers written up to their last bytes."""
    output, report = (data[::-1] for data in (b"".join(work.new), work.told))
    return answer._replace(output=over(work.output[::-1], output)[::-1], report=over(work.report[::-1], report)[::-1])


def last_left_out(_, work):
    return repair(work.order, b"".join(work.old[:-1]), work.output, work.report)


def lent_and_new(work):
    """What stood in the output for each record, and the record put right."""
    return zip(records_of(work.output), work.new)


WRITTEN = {
    "output cleared to its end": answered(
        lambda answer, work: answer._replace(output=cleared(answer.output, BYTES * len(work.old)))
    ),
    "report cleared to its end": answered(
        lambda answer, work: answer._replace(report=cleared(answer.report, len(work.old)))
    ),
    "buffers written up to their ends": answered(at_the_ends),
    "the last record left out": answered(last_left_out),
    "bytes 0 to 15 left": written(lambda work: (lent[:16] + new[16:] for lent, new in lent_and_new(work))),
    "records without a change left": written(
        lambda work: (new if byte else lent for byte, (lent, new) in zip(work.told, lent_and_new(work)))
    ),
    "the first record's bytes 0 to 15": written(lambda work: (work.new[0][:16] + new[16:] for new in work.new)),
}


# What a refusal leaves


def refused(change):
    """Another answer where there is a refusal, from the right one, the order and the file."""

    def wrong(order, file, output, report):
        answer = repair(order, file, output, report)
        return change(answer, order, file) if answer.refusal else answer

    return {"repair": wrong}


def short(change):
    """The same for refusal 22, from the right answer and from that with room enough."""

    def with_room(answer, order, file):
        return change(answer, repair(order, file, file, bytes(len(file) // BYTES)))

    return refused(lambda answer, *asked: with_room(answer, *asked) if answer.refusal == 22 else answer)


def one_buffer(answer, right):
    """The buffer written that has room."""
    pairs = (answer.output, right.output), (answer.report, right.report)
    output, report = (lent if len(lent) < len(data) else over(lent, data) for lent, data in pairs)
    return answer._replace(output=output, report=report)


def as_far_as(answer, right):
    """As many records written as there is room for in both."""
    records = min(len(answer.output) // BYTES, len(answer.report))
    output, report = right.output[: BYTES * records], right.report[:records]
    return answer._replace(output=over(answer.output, output), report=over(answer.report, report))


LEFT = {
    "output cleared by a refusal": refused(lambda answer, *_: answer._replace(output=cleared(answer.output, 0))),
    "report cleared by a refusal": refused(lambda answer, *_: answer._replace(report=cleared(answer.report, 0))),
    "changes counted by a refusal": short(lambda answer, right: answer._replace(changed=right.changed)),
    "one buffer written by a refusal": short(one_buffer),
    "both written as far as there is room": short(as_far_as),
}

READINGS = ORDERS | REFUSALS | PLACES | REPORTS | COUNTS | WRITTEN | LEFT


def unseen():
    """The names of the readings that give the line of every stored case."""
    return misread.unseen(READINGS, reference, "o", orders)
