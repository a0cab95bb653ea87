#!/usr/bin/env python3
"""What the program `cases` should print, worked out by the reference: docs/CASES.md in Python.

  cases.py < cases.bin
"""
import sys
from collections.abc import Callable
from itertools import cycle, islice
from typing import NamedTuple

import columns
import reference
import tunisia
import yearly_totals
from reference import Ledger, Year, number

LONGEST = 65536  # bytes of a payload, and of an output buffer
IMAGE = 200  # bytes of a ledger image
HEAD = 22  # bytes before the grams of a stretch
MOST_ENTRIES = 1300  # of electricity, of fuel, and of a column
COLUMNS = 9  # eight of releases, and one of figures
TOTALS_HEAD = 4  # bytes before those of a buffer of totals: its length, and how many follow
UNTOUCHED = number(b"\xa5" * 8, 0, 8)  # a place of a column that keeps its value


def image(ledger):
    """The 200 bytes of a ledger."""
    factor, site_class, f = ledger.year
    head = [(ledger.n, 2), (ledger.kind, 1), (ledger.climate, 1), (factor, 1), (site_class, 1), (f, 2)]
    return reference.little(head + [(value, 8) for value in ledger.T + ledger.R + ledger.released])


def read_image(data):
    """The ledger of the image that stands first in some bytes."""
    carbon = (tuple(number(data, at + 8 * j, 8) for j in range(8)) for at in (8, 72, 136))
    return Ledger(number(data, 0, 2), data[2], data[3], read_year(data[4:8]), *carbon)


def read_year(data):
    """The year's factors, as four bytes of an image say."""
    return Year(data[0], data[1], number(data, 2, 2))


def case(letter, payload):
    """The bytes of a case."""
    return letter.encode() + reference.little([(len(payload), 4)]) + payload


def decay_line(payload):
    return str(reference.decay(payload[0], number(payload, 1, 2)))


def step_line(payload):
    return step_words(reference.step(read_image(payload), payload[202:], step_room(payload)))


def step_room(payload):
    """The output buffer that a step is lent."""
    return b"\xa5" * number(payload, 200, 2)


def step_words(answer):
    numbers = [answer.refusal, *fields(answer.ledger), *answer.releases, answer.x0, answer.figure, answer.bound]
    return spaced(numbers) + " " + hexed(answer.output)


def run_line(payload):
    return run_words(reference.run(read_image(payload), payload[204:], run_room(payload)))


def run_room(payload):
    """The output buffer that a run is lent."""
    return b"\xa5" * min(number(payload, 200, 4), LONGEST)


def run_words(answer):
    numbers = [answer.accepted, answer.refusal, answer.work, *fields(answer.ledger)]
    return spaced(numbers) + " " + hexed(answer.output)


def listing_line(payload):
    return hexed(reference.listing(payload).encode())


def cell_line(payload):
    return spaced(reference.cell(number(payload, 1, 8) if payload[0] else None))


def point_line(payload):
    refusal, *floats = reference.point(number(payload, 0, 8), number(payload, 8, 8))
    return " ".join([str(refusal)] + [f"{bits:016x}" for bits in floats])


def masses_line(payload):
    refusal, masses = reference.masses(payload[0], number(payload, 1, 8), payload[9:])
    return spaced([refusal, *masses])


def factor_line(payload):
    return spaced(reference.factor_of(*payload))


def factor_by_codes_line(payload):
    return spaced(reference.factor_by_codes(*payload))


def repair_line(payload):
    output, report = (b"\xa5" * min(number(payload, at, 4), LONGEST) for at in (0, 4))
    end = 9 + payload[8]
    answer = reference.repair(payload[9:end], payload[end:], output, report)
    return spaced([answer.refusal, answer.changed]) + f" {hexed(answer.output)} {hexed(answer.report)}"


def read_stretch(payload):
    """The file, the first and last year, and the entries of electricity and fuel, which take the grams in turn."""
    k = min(number(payload, 20, 2), (len(payload) - HEAD) // 8)
    end = HEAD + 8 * k
    turn = cycle([number(payload, at, 8) for at in range(HEAD, end, 8)] or [0])
    electricity, fuel = (tuple(islice(turn, min(number(payload, at, 2), MOST_ENTRIES))) for at in (16, 18))
    return payload[end:], number(payload, 0, 8), number(payload, 8, 8), electricity, fuel


def reduction_line(payload):
    return spaced(tunisia.reduction(*read_stretch(payload)))


def read_columns(payload):
    """The file, and the nine columns as they are lent."""
    end = 2 * COLUMNS
    places = (min(number(payload, at, 2), MOST_ENTRIES) for at in range(0, end, 2))
    return payload[end:], tuple((UNTOUCHED,) * count for count in places)


def columns_line(payload):
    answer = columns.calculation(*read_columns(payload))
    words = (spaced(column) or "-" for column in answer.columns)
    return " ".join([str(answer.refusal), *words, spaced(answer.stocks)])


def read_totals(data):
    """The buffer of totals and the bytes after it: its length b, the number c of bytes that follow, and these."""
    b, end = number(data, 0, 2), TOTALS_HEAD + number(data, 2, 2)
    lent = data[TOTALS_HEAD:end][:b]
    return lent + bytes(b - len(lent)), data[end:]


def read_month(payload):
    """The ledger, the buffer of totals, the record's bytes and the output buffer of a step."""
    return read_image(payload), *read_totals(payload[202:]), step_room(payload)


def read_months(payload):
    """The same of a run, with the records' bytes."""
    return read_image(payload), *read_totals(payload[204:]), run_room(payload)


def month_line(payload):
    answer, totals = yearly_totals.take_month(*read_month(payload))
    return step_words(answer) + " " + without_zeros(totals)


def months_line(payload):
    answer, totals = yearly_totals.run_months(*read_months(payload))
    return run_words(answer) + " " + without_zeros(totals)


def without_zeros(totals):
    """The bytes of a buffer without the zeros at its end."""
    return hexed(totals.rstrip(b"\0"))


def fields(ledger):
    return [ledger.n, ledger.kind, ledger.climate, *ledger.year, *ledger.T, *ledger.R, *ledger.released]


def spaced(numbers):
    return " ".join(str(value) for value in numbers)


def hexed(data):
    return data.hex() or "-"


class Kind(NamedTuple):
    line: Callable
    least: int  # bytes of the payload
    most: int


KINDS = {
    "d": Kind(decay_line, 3, 3),
    "s": Kind(step_line, 202, LONGEST),
    "r": Kind(run_line, 204, LONGEST),
    "l": Kind(listing_line, 0, LONGEST),
    "c": Kind(cell_line, 9, 9),
    "p": Kind(point_line, 16, 16),
    "m": Kind(masses_line, 9, LONGEST),
    "u": Kind(factor_line, 6, 6),
    "k": Kind(factor_by_codes_line, 6, 6),
    "o": Kind(repair_line, 9, LONGEST),
    "t": Kind(reduction_line, HEAD, LONGEST),
    "b": Kind(columns_line, 2 * COLUMNS, LONGEST),
    "y": Kind(month_line, 202 + TOTALS_HEAD, LONGEST),
    "w": Kind(months_line, 204 + TOTALS_HEAD, LONGEST),
}


def lines(stream):
    """The line of each case in the stream's bytes, up to the first that cannot be read."""
    at = 0
    while at < len(stream):
        header, at = stream[at : at + 5], at + 5
        if len(header) < 5:
            yield "truncated"
            return
        kind, length = KINDS.get(chr(header[0])), number(header, 1, 4)
        if kind is None:
            yield "unknown kind"
            return
        if not kind.least <= length <= kind.most:
            yield "bad length"
            return
        payload, at = stream[at : at + length], at + length
        if len(payload) < length:
            yield "truncated"
            return
        yield kind.line(payload)


def printed(stream):
    """All that the program prints for a stream."""
    return "".join(line + "\n" for line in lines(stream))


if __name__ == "__main__":
    sys.stdout.write(printed(sys.stdin.buffer.read()))
