"""Holds the reference to request f of document 02: DOC of sludges, what is refused, T's ceilings, greatest numbers."""
from itertools import product

import reference
import retold
from checks import NO_VALUES, ROOM, check, offered, told_again
from histories import KINDS_AND_CLIMATES, PLAIN, balanced, file_of, greatest_record, next_record, only, plain_year
from months_checks import OTHERS, monthly
from reference import DOC_of, FRESH, Ledger, step, write_record

SOME = balanced(Ledger(1, 1, 4, NO_VALUES, *[(5, 5, 5, 5, 5, 0, 5, 5)] * 2))  # a ledger with some carbon
DEFAULT_AND_MOST = {7: (500, 5000), 8: (900, 2571)}  # DOC in hundredths of a percent


def printed():
    """What the documents print, and what the formulas give about the edges and about the default."""
    for m, domestic, industrial in [
        (0, 500, 900),
        (1, 50, 25),
        (2, 100, 51),
        (7, 350, 180),
        (10, 500, 257),
        (34, 1700, 874),
        (35, 1750, 900),
        (36, 1800, 925),
        (99, 4950, 2545),
        (100, 5000, 2571),
    ]:
        found = DOC_of(PLAIN._replace(m7=m, m8=m))
        check(f"DOC with m = {m}", found, (4300, 4000, 1500, 2400, 2000, 0, domestic, industrial))


def formulas():
    """DOC by the formulas of source 001, for each dry matter of each sludge."""
    for m in range(101):
        for m7, m8 in ((m, 0), (0, m), (m, 100 - m)):
            found = DOC_of(PLAIN._replace(m7=m7, m8=m8))
            check(f"DOC with {m7} and {m8}", found, tuple(percent * 100 for percent in retold.contents(m7, m8)))


def every_byte():
    """Each byte as the dry matter of each sludge, with mass and without: a step by the formulas, or refusal 8."""
    for m, place, kg, ledger in product(range(256), (7, 8), (0, 10**9 - 1), (FRESH, SOME)):
        fields = {"period": ledger.n + 1, f"m{place}": m, "masses": only(place, kg)}
        answer = offered(ledger, **fields)
        check(f"{fields}", answer.refusal, 0 if m <= 100 else 8)
        if m <= 100:
            told_again(ledger, write_record(PLAIN._replace(**fields)), answer)
        else:
            check(f"{fields} refused", (answer.ledger, answer.x0, answer.output), (ledger, 0, ROOM))


def ceilings():
    """T of each sludge at its default's most, at its ceiling and one more, whatever dry matter the record has."""
    for n, kind, place, m in product((1, 2, 1199, 1200), (1, 2), (7, 8), (0, 1, 100)):
        default, most = (n * 10**9 * doc * 100 for doc in DEFAULT_AND_MOST[place])
        for T, sound in [(default, True), (default + 1, True), (most - 1, True), (most, True), (most + 1, False)]:
            ledger = balanced(Ledger(n, kind, 4, plain_year(kind), only(place, T), only(place, T // 2)))
            number = 3 if not sound else 4 if n == 1200 else 0
            found = offered(ledger, period=n + 1, kind=kind, **{f"m{place}": m}).refusal
            check(f"T{place} of {T} after {n} with m = {m}", found, number)


def in_order():
    """Dry matter over 100 and one fault more: 1 to 7 are named before 8, and 17 and 9 after it."""
    for m, place in product((101, 255), (7, 8)):
        late = {"period": 3, "kind": 2, f"m{place}": m}
        for number, changes in [
            (5, {"zero": b"\1\0"}),
            (5, {"zero": b"\0\1"}),
            (5, {"site_class": 5}),
            (6, {"period": 4}),
            (7, {"climate": 3}),
            (8, {}),
            (8, OTHERS),
            (8, {"masses": only(place, 10**9 + 1)}),
        ]:
            check(f"{changes} with m = {m}", offered(monthly(2), **{**late, **changes}).refusal, number)
        data = write_record(PLAIN._replace(**late))
        for length, room, n, number in [(47, 47, 2, 1), (48, 47, 2, 2), (48, 48, 1201, 3), (48, 48, 1200, 4)]:
            check(f"the order of {number}", step(monthly(n), data[:length], bytes(room)).refusal, number)


def greatest():
    """The greatest records end with T at its ceilings; none of a sound ledger's numbers is above these."""
    contents = 4300, 4000, 1500, 2400, 2000, 0, 5000, 2571
    before, T = (tuple(n * 10**11 * doc for doc in contents) for n in (1199, 1200))
    answers = []
    for kind, climate in KINDS_AND_CLIMATES:
        records = [greatest_record(n, kind, climate, 100) for n in range(1200)]
        ended = reference.run(FRESH, file_of(records), bytes(48 * 1200))
        check("a full run", (*ended[1:4], ended.ledger.T), (1200, 0, 8400, T))
        full = Ledger(1199, kind, climate, ended.ledger.year, before, before)
        answers.append(step(full, write_record(records[-1]), ROOM))
        check("a full ledger", (answers[-1].refusal, answers[-1].ledger.T), (0, T))
    check("T", (max(T), sum(T)), (600_000 * 10**12, 2_612_520 * 10**12))
    B = sum(1201 + 1200 * t // 10**9 for t in T if t)
    x0, figure, bound = (max(answer[at] for answer in answers) for at in (3, 4, 5))
    found = f"{x0:.3e} {figure:.2e} {bound:.2e} {B:.2e}"
    check("x0, figure, bound, B", found, "3.735e+17 4.98e+16 4.18e+11 3.14e+12")


def not_remembered(rng, kind, climate):
    """Dry matter that comes and goes from one record to the next, in a year and over years: each has its own."""
    ledger, measures = FRESH, [(100, 0), (0, 0), (0, 100), (0, 0), (35, 10), (10, 35), (1, 1), (0, 0)]
    for m7, m8 in measures * 2:
        record = next_record(rng, ledger, kind, climate)._replace(m7=m7, m8=m8, masses=(10**9,) * 8)
        answer = step(ledger, write_record(record), ROOM)
        check("dry matter of its own", answer.refusal, 0)
        told_again(ledger, write_record(record), answer)
        ledger = answer.ledger
    check("T of the sludges", ledger.T[6:], (2 * 9300 * 10**11, 2 * 7353 * 10**11))
