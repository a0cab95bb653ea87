#!/usr/bin/env python3
"""Holds the reference to all that document 01 prints, to the sources' own tables and equations, and to demand 3.

It holds the refusal numbers to those of docs/METHOD.md, README.md and include/landfill.h.

Of document 02 it holds masses from samples, the carbon released so far, months that share the year's factors, the
correction factor from uncertainties, sludge with a measured dry matter, the shuffled files put right, the decay work
of a run, the Tunisian reference method, the calculation by columns, that more waste never shows less gas, and the
yearly totals beside a monthly run.

Prints ok and exits 0, or stops at the first check that fails.
"""
import os
import random
import struct
from decimal import Decimal
from fractions import Fraction
from itertools import product
from math import factorial

import cases
import columns_checks
import decay_tables
import months_checks
import more_checks
import order_checks
import reference
import refusal_checks
import retold
import samples_cases
import sludge_checks
import tunisia_checks
import uncertainty_checks
import work_checks
import yearly_totals_checks
from checks import NO_VALUES, NOTHING, ROOM, check, fields_of, offered, told_again
from faults import applied, named
from histories import KINDS_AND_CLIMATES, PLAIN, balanced, damaged, file_of, measured, next_measured, next_record, only
from histories import replaced
from reference import FRESH, Ledger, Year, decay, deposits, rates, step, write_record
from samples_cases import fair_sorting

HERE = os.path.dirname(os.path.abspath(__file__))


def constants():
    """The constants of the reference are those of the sources' tables, in document 01's units."""
    check("DOC", reference.DOC, tuple(percent * 100 for percent in retold.contents()))
    for climate in (1, 2, 3, 4):
        check(f"rates of climate {climate}", rates(climate), tuple(k * 1000 for k in retold.rates(climate)))
    check("MCF", reference.MCF, tuple(Fraction(factor) * 100 for factor in retold.MCF.values()))
    limits = reference.RECORDS, reference.BYTES, reference.MASS_LIMIT
    check("limits", limits, (1200, 48, 1_000_000_000))
    check("codes", (reference.KINDS, reference.CLIMATES, reference.CLASSES), ((1, 2), (1, 2, 3, 4), (1, 2, 3, 4)))
    check("a fresh ledger", FRESH, (0, 0, 0, NO_VALUES, NOTHING, NOTHING, NOTHING))


def tables():
    """Each entry meets the rule of document 01, and is the true exponential rounded down."""
    check("rates", (decay_tables.RATES, decay_tables.PARTS), (range(1, 401), {1: 1000, 2: 12000}))
    for kind, rate in ((kind, rate) for kind in (1, 2) for rate in range(1, 401)):
        x, D = Fraction(rate, (1000, 12000)[kind - 1]), decay(kind, rate)
        above = sum((-x) ** i / factorial(i) for i in range(15))
        below = above - x**15 / factorial(15)
        check("E(15) and E(14)", (decay_tables.series(x, 15), decay_tables.series(x, 14)), (below, above))
        check(f"rule for kind {kind} rate {rate}", D <= 10**9 * below and 10**9 * above < D + 1, True)
        check(f"kind {kind} rate {rate}", D, retold.entry(kind, Decimal(rate) / 1000))
    for kind, rate in [(0, 1), (3, 1), (255, 400), (1, 0), (2, 0), (1, 401), (2, 401), (1, 65535)]:
        check(f"kind {kind} rate {rate}", decay(kind, rate), 0)


def in_whole_numbers():
    """Each entry in whole numbers, every term rounded down; no sum comes within a thousandth of a whole billionth."""
    fine = 10**30  # a billionth
    for (kind, under), rate in product(((1, 1000), (2, 12000)), range(1, 401)):
        term = total = 10**9 * fine
        for i in range(1, 16):
            term = term * rate // (under * i)
            total += (-1) ** i * term
        check(f"kind {kind} rate {rate} in whole numbers", decay(kind, rate), total // fine)
        check(f"kind {kind} rate {rate} off a whole one", fine < 1000 * (total % fine) < 999 * fine, True)


def allowed():
    """The table of "One record": every value of every byte, the edges of the wider fields, and the refusal outside."""
    codes = {"kind": 2, "climate": 4, "site_class": 4}  # from 1 up to this
    ranges = {"factor": 1, "OX": 0, "F": 0, "DOCf": 0, "GWP": 1, "m7": 0, "m8": 0}  # from this up to 100
    fields = [(field, 1, high, 5) for field, high in codes.items()]
    fields += [(field, low, 100, 8) for field, low in ranges.items()]
    for field, low, high, number in fields:
        for value in range(256):
            check(f"{field} {value}", offered(**{field: value}).refusal, 0 if low <= value <= high else number)
    for f, number in [(0, 0), (9999, 0), (10000, 0), (10001, 8), (65535, 8)]:
        check(f"f {f}", offered(f=f).refusal, number)
    for bit in range(16):
        check(f"bit {bit} of bytes 14-15", offered(zero=(1 << bit).to_bytes(2, "little")).refusal, 5)
    for place in range(1, 9):
        for kg, number in [(10**9, 0), (10**9 + 1, 9), (2**32 - 1, 9)]:
            check(f"mass {kg}", offered(masses=only(place, kg)).refusal, number)
    for period, number in [(0, 6), (1, 0), (2, 6), (257, 6), (65535, 6)]:
        check(f"period {period} first", offered(period=period).refusal, number)


def refused():
    """Refusals 1 to 4 and 7 at their edges; T's ceiling is that of the sources."""
    data = write_record(PLAIN)
    for length, number in [(0, 1), (47, 1), (48, 0), (49, 1), (96, 1)]:
        check(f"{length} bytes", step(FRESH, (data * 2)[:length], ROOM).refusal, number)
    for room, number in [(0, 2), (47, 2), (48, 0), (49, 0)]:
        answer = step(FRESH, data, b"\xa5" * room)
        check(f"room for {room} bytes", (answer.refusal, answer.output[48:]), (number, b"\xa5" * max(room - 48, 0)))
    for n, number in [(1, 0), (2, 0), (1199, 0), (1200, 4), (1201, 3), (65535, 3)]:
        full = tuple(map(int, retold.carbon((n * 10**9,) * 8, 100, 100)))
        sound = Ledger(n, 1, 4, NO_VALUES, full, full)
        check(f"{n} records", offered(sound, period=(n + 1) % 2**16).refusal, number)
        for place in range(8):
            more = replaced(full, place, full[place] + 1)
            check("T over its ceiling", offered(balanced(sound._replace(T=more)), period=2).refusal, 3)
            check("R over T", offered(balanced(sound._replace(R=more)), period=2).refusal, 3)
    one = FRESH._replace(n=1, kind=1, climate=4)
    for code in range(256):
        other = one._replace(kind=code, year=(75, 1, 0) if code == 2 else NO_VALUES)
        check(f"kind {code} of a ledger", offered(other, period=2).refusal, {1: 0, 2: 7}.get(code, 3))
        number = 0 if code == 4 else 7 if 1 <= code <= 3 else 3
        check(f"climate {code} of a ledger", offered(one._replace(climate=code), period=2).refusal, number)
    mg = only(2, 1)
    for fields in ({"kind": 1}, {"climate": 1}, {"T": mg}, {"R": mg}, {"released": mg}, {"T": mg, "released": mg}):
        check(f"a fresh ledger with {fields}", offered(FRESH._replace(**fields)).refusal, 3)


def added_up():
    """Released and R add up to T, or do not, in one type of eight; the sum is the true one, and tested in its turn."""
    last = 2**64 - 1
    for T, R, released, number in [
        (0, 0, 0, 0),
        (9, 5, 4, 0),
        (9, 4, 5, 0),
        (9, 9, 0, 0),
        (9, 0, 9, 0),
        (9, 5, 3, 3),
        (9, 5, 5, 3),
        (9, 5, 4 + 2**32, 3),
        (9, 0, 0, 3),
        (0, 0, 1, 3),
        (9, 10, last, 3),
        (9, last, 10, 3),
        (0, 2**63, 2**63, 3),
        (last - 1, last, last, 3),
    ]:
        for place in range(1, 9):
            ledger = Ledger(1, 1, 4, NO_VALUES, *(only(place, carbon) for carbon in (T, R, released)))
            wanted = 3 if place == 6 and T > 0 else number
            check(str(ledger), offered(ledger, period=2).refusal, wanted)
    across = Ledger(1, 1, 4, NO_VALUES, (9,) * 5 + (0, 9, 9), (4,) * 5 + (0, 4, 4), (6, 4, 5, 5, 5, 0, 5, 5))
    check("added up only over all types", offered(across, period=2).refusal, 3)
    for n, length, room, number in [(1, 47, 47, 1), (1, 48, 47, 2), (1, 48, 48, 3), (1200, 48, 48, 3)]:
        check(f"the order of {number}", step(across._replace(n=n), bytes(length), bytes(room)).refusal, number)


def worked_figures():
    for name, kind, rate, wanted in [
        ("P1", 1, 400, 670320046),
        ("P2", 1, 20, 980198673),
        ("P3", 1, 60, 941764533),
        ("P4", 2, 400, 967216100),
        ("P5", 2, 1, 999916670),
    ]:
        check(name, decay(kind, rate), wanted)
    for name, place, climate, kind, G, R in [
        ("P6", 3, 4, 1, 49452, 100548),
        ("P7", 1, 1, 1, 8515, 421485),
        ("P8", 2, 2, 1, 23295, 376705),
        ("P9", 3, 4, 2, 4918, 145082),
        ("P10", 6, 1, 1, 0, 0),
    ]:
        answer = offered(kind=kind, climate=climate, masses=only(place, 1))
        check(name, (answer.refusal, answer.releases, answer.ledger.R), (0, only(place, G), only(place, R)))


def run_only():
    check("f 10000", offered(f=10000, masses=(10**9,) * 8).figure, 0)
    file = file_of(PLAIN._replace(period=n, masses=(n,) * 8) for n in range(1, 1202))
    check("record 1200", reference.run(FRESH, file[:-48], file)[1:4], (1200, 0, 8400))
    check("record 1201", reference.run(FRESH, file, file)[1:4], (1200, 4, 8400))
    check("no bytes", (reference.listing(b""), reference.run(FRESH, b"", b"")), ("", (FRESH, 0, 0, 0, b"")))


def listing_sample():
    periods = [(1, 1000), (2, 0), (5, 0)]
    file = file_of(PLAIN._replace(period=n, masses=only(3, kg)) for n, kg in periods)
    wanted = "1 49451994 311547 3 100548006\n2 33148662 208836 3 67399344\nrefused 6 at record 3\n"
    check("listing", reference.listing(file), wanted)


def door():
    """The bits that the reference reads and writes are held against Python's own floats."""
    for float_, wanted in [
        (-0.5, (11, 0)),
        (-1.0, (12, 0)),
        (-0.0, (0, 0)),
        (1.0, (0, 1)),
        (1e9, (0, 10**9)),
        (1e9 + 1, (12, 0)),
        (1e9 + 0.5, (11, 0)),
        (float("inf"), (11, 0)),
        (float("nan"), (11, 0)),
        (5e-324, (11, 0)),
        (1e300, (12, 0)),
    ]:
        check(f"cell {float_}", reference.cell(pattern(float_)), wanted)
    check("empty cell", reference.cell(None), (10, 0))
    for float_ in (0.0, 5e-324, -2.0**-1022, 3 * 2.0**-1023, 1.5, -2.0**1023, 2.0**53 - 1):
        check(f"value of {float_}", reference.value_of(pattern(float_)), Fraction(float_))
    for figure, bound in [(0, 0), (7, 7), (3, 5), (311547, 3), (2**53 - 1, 1), (2**53, 0), (2**52 + 1, 2**51)]:
        edges = float(figure), float(max(figure - bound, 0)), float(figure + bound)
        check(f"point {figure} {bound}", reference.point(figure, bound), (0, *map(pattern, edges)))
    for figure, bound in [(2**53, 1), (2**64 - 1, 1), (2**64 - 1, 2**64 - 1)]:
        check(f"point {figure} {bound}", reference.point(figure, bound), (13, 0, 0, 0))


def pattern(float_):
    return struct.unpack("<Q", struct.pack("<d", float_))[0]


def unlikely():
    """What no accepted record shows: every byte of a record another, and a ledger of a milligram of each type."""
    fields_of(bytes(range(1, 49)))
    ledger = Ledger(1, 1, 4, NO_VALUES, *[replaced((1,) * 8, 5, 0)] * 2)
    data = write_record(PLAIN._replace(period=2, GWP=100))
    told_again(ledger, data, step(ledger, data, ROOM))


def exact_stock(brought, d):
    """Every deposit times the fraction once for its own period and once for each later one."""
    n = len(brought)
    return sum((deposit * d ** (n - i + 1) for i, deposit in enumerate(brought, 1)), Fraction(0))


def demand_3(rng, kind, climate, part):
    """Offers records to a fresh ledger, passing over refused ones, and holds each answer against the exact formula.

    A type's decay fraction stands that part of a billionth above its entry.
    """
    d = [(decay(kind, rate) + part) / 10**9 if rate else Fraction(0) for rate in rates(climate)]
    ledger, brought, released, stock = FRESH, [()] * 8, [0] * 8, [Fraction(0)] * 8
    for _ in range(30):
        data = write_record(measured(rng, next_record(rng, ledger, kind, climate)))
        data = damaged(rng, data) if rng.random() < 0.2 else data
        answer = step(ledger, data, ROOM)
        if answer.refusal:
            check("refused", (answer.ledger, *answer[2:]), (ledger, NOTHING, 0, 0, 0, ROOM))
            continue
        record = told_again(ledger, data, answer)
        ledger, before = answer.ledger, stock
        n, left = ledger.n, ledger.R
        brought = [earlier + (deposit,) for earlier, deposit in zip(brought, deposits(record))]
        released = [earlier + release for earlier, release in zip(released, answer.releases)]
        stock = [exact_stock(deposit, fraction) for deposit, fraction in zip(brought, d)]
        check("T", ledger.T, tuple(map(sum, brought)))
        check("released", ledger.released, tuple(released))
        check("conservation", tuple(map(sum, zip(released, left))), ledger.T)
        for R, T, exact in zip(left, ledger.T, stock):
            check("stock", R <= exact < R + n + Fraction(n * T, 10**9), True)
        release = sum(before) + sum(deposits(record)) - sum(stock)
        check("figure", abs(answer.figure - retold.exact_figure(record, release)) < answer.bound, True)


def reread(rng, kind, climate):
    """A run, also one that stops, leaves released what x0 of its output records comes to, and type 6 nothing."""
    ledger, output, file = FRESH, b"", file_of(next_measured(rng, FRESH, kind, climate, 20))
    for part in (file[:240], damaged(rng, file[240:])):
        answer = reference.run(ledger, part, bytes(len(part) + 48))
        ledger, output = answer.ledger, output + answer.output[: 48 * answer.accepted]
    x0 = sum(numbers[4] for numbers in struct.iter_unpack("<HBBI5Q", output))
    check("totals", reference.totals(ledger), (sum(ledger.R), sum(ledger.T), x0))
    check("inert", (ledger.T[5], ledger.R[5], ledger.released[5]), (0, 0, 0))


def packed(*fractions):
    """The bytes of a sample: the fractions named, and nothing of the other types."""
    return struct.pack("<8H", *fractions, *[0] * (8 - len(fractions)))


def samples_counted():
    """Every edge of a total, and of how many samples a kind takes."""
    month = packed(1, 9990, 9) * 3
    for total, number in [(0, 0), (10**9, 0), (10**9 + 1, 14), (2**32 - 1, 14), (2**32 + 5, 14), (2**64 - 1, 14)]:
        check(f"total {total}", reference.masses(2, total, month)[0], number)
    most = {1: 400, 2: 3}
    for kind, Z, off in product((0, 1, 2, 3, 255), (0, 1, 2, 3, 4, 11, 12, 13, 399, 400, 401, 410), (-1, 0, 1)):
        length = max(16 * Z + off, 0)
        taken = off == 0 and kind in most and retold.LEAST_SAMPLES[kind] <= Z <= most[kind]
        found = reference.masses(kind, 5, (packed(10000) * (Z + 1))[:length])
        check(f"kind {kind} with {length} bytes", found, (0, only(1, 5)) if taken else (15, NOTHING))


def samples_added_up():
    """One sample among others that adds up, or does not, by one or by what wraps at 2^16."""
    whole = packed(2500, 0, 0, 0, 0, 0, 0, 7500)
    for sample, number in [
        (packed(0, 9999), 16),
        (packed(0, 9999, 1), 0),
        (packed(0, 9999, 2), 16),
        (packed(10001), 16),
        (packed(65535, 10001), 16),
        (packed(*[9442] * 8), 16),
        (packed(*[65535] * 8), 16),
    ]:
        for place in range(3):
            data = whole * place + sample + whole * (2 - place)
            check(f"sample {sample.hex()} at {place}", reference.masses(2, 1, data)[0], number)
    check("one over and one under", reference.masses(2, 1, packed(9999) + whole + packed(10001)), (16, NOTHING))


def samples_at_fault(rng):
    """Each fault alone, and which of two is named."""
    for kind, faults in product((1, 2), [(fault,) for fault in samples_cases.FAULTS] + samples_cases.PAIRS):
        sorting = applied(fair_sorting(rng, kind), faults)
        check(f"masses of {sorting}", reference.masses(*sorting), (named(*faults), NOTHING))


def sampled(sorting):
    """Accepted masses come from equations (5) to (8), each less than 1 kg from its share, and add up to the total."""
    refusal, masses = reference.masses(*sorting)
    shares = retold.mean_shares(sorting.total, list(struct.iter_unpack("<8H", sorting.data)))
    check("masses", (refusal, masses), (0, retold.whole_masses(shares)))
    check("sum of masses", sum(masses), sorting.total)
    for mass, share in zip(masses, shares, strict=True):
        check(f"{mass} for {share}", share - 1 < mass < share + 1, True)


def image():
    """A ledger image with every byte another, by Python's own means."""
    data = bytes(range(200))
    n, kind, climate, factor, site_class, f, *carbon = struct.unpack("<H4BH24Q", data)
    ledger = Ledger(n, kind, climate, Year(factor, site_class, f), *(tuple(carbon[at : at + 8]) for at in (0, 8, 16)))
    check("image", (cases.image(ledger), cases.read_image(data)), (data, ledger))


def cases_page():
    """The examples of docs/CASES.md: a case as hex, where 00*200 is a byte repeated, and its line below."""
    with open(os.path.join(HERE, "..", "docs", "CASES.md"), encoding="utf-8") as page:
        block = page.read().split("## Examples")[1].split("```")[1].split("\n")[1:-1]
    for example, wanted in zip(block[::3], block[1::3], strict=True):
        parts = [word.split("*") for word in example.split()]
        stream = b"".join(bytes.fromhex(part[0]) * int(part[1] if part[1:] else 1) for part in parts)
        check(f"docs/CASES.md, {example}", cases.printed(stream), wanted + "\n")


def main():
    constants()
    refusal_checks.in_documents()
    refusal_checks.in_header()
    worked_figures()
    allowed()
    refused()
    added_up()
    run_only()
    listing_sample()
    door()
    samples_counted()
    samples_added_up()
    months_checks.years_begin()
    months_checks.within_ranges()
    months_checks.in_order()
    sludge_checks.printed()
    sludge_checks.formulas()
    sludge_checks.ceilings()
    sludge_checks.in_order()
    uncertainty_checks.printed()
    uncertainty_checks.chosen()
    uncertainty_checks.every_byte()
    uncertainty_checks.in_order()
    order_checks.worked()
    order_checks.named_once()
    order_checks.every_room()
    work_checks.worked()
    work_checks.last_milligrams()
    work_checks.refused()
    work_checks.unsound()
    tunisia_checks.worked()
    tunisia_checks.years_alone()
    tunisia_checks.stretches()
    tunisia_checks.limits()
    tunisia_checks.months()
    columns_checks.worked()
    columns_checks.no_records()
    columns_checks.too_short()
    columns_checks.after_the_others()
    yearly_totals_checks.worked()
    yearly_totals_checks.limits()
    yearly_totals_checks.lengths()
    yearly_totals_checks.in_order()
    yearly_totals_checks.beside_plain()
    yearly_totals_checks.every_month()
    more_checks.worked()
    more_checks.dry_matter()
    more_checks.every_kilogram()
    more_checks.last_milligrams()
    more_checks.every_size()
    more_checks.full()
    tables()
    in_whole_numbers()
    unlikely()
    image()
    sludge_checks.every_byte()
    sludge_checks.greatest()
    work_checks.long_runs()
    tunisia_checks.greatest()
    columns_checks.full()
    yearly_totals_checks.full()
    rng = random.Random(1)
    for kind, climate in KINDS_AND_CLIMATES:
        for part in (Fraction(0), Fraction(rng.randint(1, 98), 99), 1 - Fraction(1, 10**9), 1 - Fraction(1, 10**40)):
            demand_3(rng, kind, climate, part)
    for kind, climate in KINDS_AND_CLIMATES * 4:
        reread(rng, kind, climate)
    for kind, climate in KINDS_AND_CLIMATES:
        months_checks.shared(rng, kind, climate)
        sludge_checks.not_remembered(rng, kind, climate)
    samples_at_fault(rng)
    for kind, Z in [(2, 3)] * 300 + [(1, rng.randint(12, 40)) for _ in range(50)] + [(1, 400)] * 3:
        sampled(fair_sorting(rng, kind, Z))
    uncertainty_checks.never_higher(rng)
    order_checks.in_order(rng)
    order_checks.at_random(rng)
    work_checks.factors_aside(rng)
    work_checks.one_record(rng)
    for kind, climate in KINDS_AND_CLIMATES:
        work_checks.at_random(rng, kind, climate)
    tunisia_checks.at_random(rng)
    columns_checks.one_record(rng)
    for kind, climate in KINDS_AND_CLIMATES:
        columns_checks.any_file(rng, kind, climate)
    columns_checks.short_cases(rng)
    for kind, climate in KINDS_AND_CLIMATES * 3:
        more_checks.at_random(rng, kind, climate)
        more_checks.within_the_limit(rng, kind, climate)
        more_checks.a_milligram(rng, kind, climate)
    more_checks.either_way(rng)
    for climate in (1, 2, 3, 4):
        yearly_totals_checks.offers(rng, climate)
        yearly_totals_checks.files(rng, climate)
    yearly_totals_checks.short_cases(rng)
    cases_page()
    uncertainty_checks.every_sum()
    order_checks.every_order(rng)
    print("ok")


if __name__ == "__main__":
    main()
