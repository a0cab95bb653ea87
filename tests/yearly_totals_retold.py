"""Request l of document 02 in another form: a plain run, whose output records are then laid out by years.

Steps, runs and output records are the ledger's own. Nothing here is taken from yearly_totals.py.
"""
import struct
from itertools import accumulate
from typing import NamedTuple

import reference

ORDER = 28, 1, 2, 3, 4, 5, 27, 6, 7, 8, 17, 9, 32  # in which the faults of a month are tested
OUTPUT = "<HBBI5Q"  # period, kind, climate, zero; x0, figure, bound, and both totals of carbon
YEAR = "<IIQQQ"  # number, months; x0, figure and bound added
BYTES = struct.calcsize(YEAR) * 100


class Line(NamedTuple):
    """The numbers of an output record that count here."""

    period: int
    kind: int
    x0: int
    figure: int
    bound: int


def lines_of(outputs):
    """Output records one after another."""
    parts = struct.iter_unpack(OUTPUT, outputs)
    return [Line(period, kind, *numbers) for period, kind, _, _, *numbers, _, _ in parts]


def as_expected(totals, period):
    """Whether the slot of a month has the bytes that a month before may have left, or is zero where there is none."""
    year, month = (period + 11) // 12, (period + 11) % 12
    slot = totals[32 * year - 32 : 32 * year]
    if month == 0:
        return not any(slot)
    *head, x0, figure, bound = struct.unpack(YEAR, slot)
    return head == [year, month] and all(total <= 10_000_000_000_000_000_000 for total in (x0, figure, bound))


def laid_out(totals, lines):
    """The totals with months added: each year with any has its number, how many it has now, and its new sums."""
    years, buffer = {}, bytearray(totals)
    for line in lines:
        years.setdefault(-(-line.period // 12), []).append(line)
    for year, months in years.items():
        _, before, *sums = struct.unpack_from(YEAR, totals, 32 * year - 32)
        for line in months:
            sums = [sums[0] + line.x0, sums[1] + line.figure, sums[2] + line.bound]
        struct.pack_into(YEAR, buffer, 32 * year - 32, year, before + len(months), *sums)
    return bytes(buffer)


def afresh(outputs):
    """The totals from output records alone, with running sums from the first month on."""
    lines = lines_of(outputs)
    columns = [list(accumulate(column, initial=0)) for column in zip(*(line[2:] for line in lines))] or [[0]] * 3
    buffer = b""
    for since in range(0, len(lines), 12):
        until = min(since + 12, len(lines))
        buffer += struct.pack(YEAR, since // 12 + 1, until - since, *(sums[until] - sums[since] for sums in columns))
    return buffer + bytes(BYTES - len(buffer))


def number_of(plain, totals, data):
    """The first fault of an offered record in the order of the tests, from the plain refusal, or 0."""
    found = {plain, 28 if len(totals) != BYTES else 0}
    if len(data) == 48:
        period, kind = struct.unpack_from("<HB", data)
        found.add(27 if kind == 1 else 0)
        found.add(32 if plain == 0 and len(totals) == BYTES and not as_expected(totals, period) else 0)
    return next((number for number in ORDER if number in found), 0)


def month(ledger, totals, data, output):
    """The answer of one step as a pair: the step with another refusal perhaps, and the totals."""
    answer = reference.step(ledger, data, output)
    number = number_of(answer.refusal, totals, data)
    if number:
        return (ledger, number, (0,) * 8, 0, 0, 0, output), totals
    return answer, laid_out(totals, lines_of(answer.output[:48]))


def taken(totals, lines):
    """How many months of a plain run go into the totals one after another, and the refusal of the next one."""
    for place, line in enumerate(lines):
        if line.kind == 1:
            return place, 27
        if not as_expected(totals, line.period):
            return place, 32
        totals = laid_out(totals, [line])
    return len(lines), 0


def months(ledger, totals, data, output):
    """The answer of a run as a pair: what a plain run makes of the records before the refused one, and the totals."""
    if len(totals) != BYTES:
        return (ledger, 0, 28, 0, output), totals
    plain = reference.run(ledger, data, output)
    lines = lines_of(plain.output[: 48 * plain.accepted])
    count, number = taken(totals, lines)
    kept = reference.run(ledger, data[: 48 * count], output)
    last = data[48 * count : 48 * count + 48]
    number = number or (number_of(plain.refusal, totals, last) if plain.refusal else 0)
    return kept._replace(refusal=number), laid_out(totals, lines[:count])
