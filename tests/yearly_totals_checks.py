"""Holds the reference to request l of document 02: worked numbers, the other form, every slot and limit, the claims."""
import struct
from itertools import pairwise

import cases
import reference
import yearly_totals
import yearly_totals_cases
import yearly_totals_faults
import yearly_totals_retold
from checks import NOTHING, check
from histories import PLAIN, damaged, file_of, greatest_record, next_measured, next_record, only, replaced
from reference import FRESH, Ledger, write_record

ZEROS = bytes(3200)
FILLED = b"\xee" * 3200
MONTH = PLAIN._replace(kind=2)
STAYS = b"\xa5" * 50  # an output buffer as it is lent


def slot(*numbers):
    """The bytes of a slot: year, months, x0, figure and bound."""
    return struct.pack("<2I3Q", *numbers)


def totals_of(*slots):
    """A buffer with these slots first, and zeros after them."""
    return b"".join(slots) + ZEROS[32 * len(slots) :]


def at(k, data, others=ZEROS):
    """A buffer with these bytes in a slot from 0 on, and zeros in the others, or what these have."""
    return others[: 32 * k] + data + others[32 * k + 32 :]


def shown(answer):
    """An answer with its totals, or totals alone, as is short enough to print: no slot that is all zero."""
    if not isinstance(answer, bytes):
        return *answer[:-1], shown(answer[-1])
    slots = {k // 32: answer[k : k + 32].hex() for k in range(0, len(answer), 32) if any(answer[k : k + 32])}
    return len(answer), slots


def same(name, found, wanted):
    """Two answers with totals are the same, or two buffers of totals."""
    if found != wanted:
        check(name, shown(found), shown(wanted))


def in_use(n, **fields):
    """A monthly ledger with n records and no waste."""
    return Ledger(n, 2, 4, (75, 1, 0))._replace(**fields) if n else FRESH


def month_of(ledger, totals, data, output=STAYS):
    """The answer to a month, which has to be that of the other form. A refusal changes nothing, a month one slot."""
    answer = yearly_totals.take_month(ledger, totals, data, output)
    name = f"month {data.hex()} for {ledger}"
    same(name, answer, yearly_totals_retold.month(ledger, totals, data, output))
    if answer.step.refusal:
        same(name, answer, ((ledger, answer.step.refusal, NOTHING, 0, 0, 0, output), totals))
    else:
        k = ledger.n // 12
        one_slot = at(k, answer.totals[32 * k : 32 * k + 32], totals)
        same(f"{name}: its slot alone", answer, (reference.step(ledger, data, output), one_slot))
    return answer


def run_of(ledger, totals, data, room=None):
    """The answer to a file, which has to be that of the other form."""
    output = b"\xa5" * (len(data) if room is None else room)
    answer = yearly_totals.run_months(ledger, totals, data, output)
    same(f"months {data.hex()}", answer, yearly_totals_retold.months(ledger, totals, data, output))
    return answer


def refused(name, number, ledger, totals, data, output=STAYS):
    check(name, month_of(ledger, totals, data, output).step.refusal, number)


def worked():
    """P9 and a month without waste after it, by hand; a year without carbon and a month more; one output record."""
    first = month_of(FRESH, ZEROS, write_record(MONTH._replace(masses=only(3, 1))))
    same("the first month", first.totals, totals_of(slot(1, 1, 4918, 30, 3)))
    # R 140325, G 4757: x1 3567, x2 802, figure 29; B is 3.
    second = month_of(first.step.ledger, first.totals, write_record(MONTH._replace(period=2)))
    same("the second month", second.totals, totals_of(slot(1, 2, 9675, 59, 6)))
    year = run_of(FRESH, ZEROS, file_of(MONTH._replace(period=n, masses=only(6, n)) for n in range(1, 14)))
    same("a year without carbon", year.totals, totals_of(slot(1, 12, 0, 0, 36), slot(2, 1, 0, 0, 3)))
    check("its work", year.run[1:4], (13, 0, 0))
    one_year = run_of(FRESH, at(0, bytes(32), FILLED), file_of(MONTH._replace(period=n) for n in range(1, 14)))
    same("other slots", one_year.totals, at(0, slot(1, 12, 0, 0, 36), FILLED))
    check("the next year of these", one_year.run[1:4], (12, 32, 0))
    numbers = [int.from_bytes(bytes(range(first, first + 8)), "little") for first in (1, 9, 17)]
    output = struct.pack("<HBBI5Q", 40, 2, 4, 0, *numbers, 2**64 - 1, 2**64 - 1)
    same("every byte of an output record", yearly_totals.afresh(output), at(3, slot(4, 1, *numbers)))


def every_month():
    """Every period: its slot alone changes, and its months have to be the remainder of n - 1 by 12."""
    for period in range(1, 1201):
        k, months = (period - 1) // 12, (period - 1) % 12
        data, ledger = write_record(MONTH._replace(period=period)), in_use(period - 1)
        before = slot(k + 1, months, 5, 6, 7) if months else bytes(32)
        wanted = slot(k + 1, months + 1, 5, 6, 10) if months else slot(k + 1, 1, 0, 0, 3)
        for others in (ZEROS, FILLED):
            same(f"period {period}", month_of(ledger, at(k, before, others), data).totals, at(k, wanted, others))
        for other in (k - 1, k + 1) if months else ():
            refused(f"period {period} in slot {other}", 32, ledger, at(other % 100, before), data)
    for month in range(12):
        for months in (*range(26), 255, 256, 256 + month, 2**31 + month):
            number = 0 if months == month else 32
            before = slot(3, months, 1, 1, 1) if month else slot(0, months, 0, 0, 0)
            refused(f"{months} months", number, in_use(24 + month), at(2, before), data_of(25 + month))


def data_of(period, **fields):
    return write_record(MONTH._replace(period=period, **fields))


def limits():
    """Each sum about 10^19, and every bit of a slot: with 0 months and with some; years that are not the slot's."""
    most = 10**19
    for place in range(3):
        for value in (0, 1, 2**32, 2**63 - 1, 2**63, most - 1, most, most + 1, most + 2**16, 2**64 - 1):
            before = at(1, slot(2, 5, *replaced((9, 9, 9), place, value)))
            refused(f"a sum of {value}", 32 if value > most else 0, in_use(17), before, data_of(18))
    full = month_of(in_use(17), at(1, slot(2, 5, most, most, most)), data_of(18)).totals
    same("sums of 10^19", full, at(1, slot(2, 6, most, most, most + 3)))
    refused("the month after it", 32, in_use(18), full, data_of(19))
    four = int.from_bytes(slot(1, 4, 0, 0, 0), "little")
    for bit in range(256):
        none, some = (at(0, (before ^ 1 << bit).to_bytes(32, "little")) for before in (0, four))
        refused(f"bit {bit} of no months", 32, FRESH, none, data_of(1))
        refused(f"bit {bit} of four months", 32 if bit < 64 else 0, in_use(4), some, data_of(5))
    for year in (0, 1, 2, 4, 13, 36, 256 + 3, 2**31 + 3):
        refused(f"year {year}", 32, in_use(30), at(2, slot(year, 6, 1, 1, 1)), data_of(31))
    for k, before in ((0, slot(1, 0, 0, 0, 0)), (99, slot(100, 0, 0, 0, 0)), (99, slot(100, 12, 0, 0, 3))):
        refused("a year that begins", 32, in_use(12 * k), at(k, before), data_of(12 * k + 1))


def lengths():
    """Only totals of 3200 bytes are taken, also without records; an empty file looks at nothing else."""
    for length in (0, 1, 32, 48, *range(3190, 3211), 6400):
        number = 0 if length == 3200 else 28
        refused(f"totals of {length} bytes", number, FRESH, bytes(length), data_of(1))
        for ledger in (FRESH, in_use(5), in_use(1200), in_use(3, kind=9)):
            for totals in (bytes(length), b"\7" * length):
                same("an empty file", run_of(ledger, totals, b"", 9), ((ledger, 0, number, 0, b"\xa5" * 9), totals))
    file = data_of(1) + data_of(2) + data_of(3)[:3]
    check("two months and three bytes", run_of(FRESH, ZEROS, file).run[1:4], (2, 1, 0))
    check("no room", run_of(FRESH, ZEROS, file, 95).run[1:4], (1, 2, 0))
    check("short totals", run_of(FRESH, ZEROS[1:], file, 95).run[1:4], (0, 28, 0))


def in_order():
    """Each refusal with the one that is tested after it, with the last one, and some with 27, in the second year."""
    over, six = only(8, 10**9 + 1), at(1, slot(2, 6, 1, 1, 1))
    faults = {
        28: {"totals": six[:-1]},
        1: {"length": 47},
        2: {"room": 47},
        3: {"ledger": {"R": only(1, 1)}},
        4: {"ledger": {"n": 1200}},
        5: {"site_class": 5},
        27: {"kind": 1},
        6: {"period": 20},
        7: {"climate": 3},
        8: {"GWP": 0},
        17: {"f": 1},
        9: {"masses": over},
        32: {"totals": at(1, slot(2, 7, 1, 1, 1))},
    }
    with_27 = [(number, 27) for number in (28, 1, 2, 3, 4)] + [(27, number) for number in (7, 8, 17, 9)]
    for one, other in [(0, 0), *pairwise(faults), *((number, 32) for number in faults), *with_27]:
        asked = faults.get(other, {}) | faults.get(one, {})
        if other == 4:
            asked["ledger"] = {"n": 1200, "R": only(1, 1)}
        ledger = in_use(18)._replace(**asked.pop("ledger", {}))
        totals, length, room = asked.pop("totals", six), asked.pop("length", 48), asked.pop("room", 48)
        data = write_record(MONTH._replace(**{"period": 19, **asked}))[:length]
        refused(f"{one} with {other}", one, ledger, totals, data, bytes(room))
    year = PLAIN._replace(period=4)
    for ledger in (FRESH, in_use(3), Ledger(3, 1, 4)):
        refused("a yearly record", 27, ledger, ZEROS, write_record(year))
    refused("a month for a yearly ledger", 7, Ledger(3, 1, 4), ZEROS, data_of(4))


def beside_plain():
    """Months 1 to 5 plain and 6 offered: 32. Months 1 to 5 offered, 6 to 12 plain and 13 offered: slot 0 keeps five."""
    file = file_of(MONTH._replace(period=n, masses=only(2, n)) for n in range(1, 15))
    plain = reference.run(FRESH, file[: 5 * 48], STAYS * 5).ledger
    refused("month 6", 32, plain, ZEROS, file[5 * 48 : 6 * 48])
    same("months 6 to 14", run_of(plain, ZEROS, file[5 * 48 :]), ((plain, 0, 32, 0, b"\xa5" * (9 * 48)), ZEROS))
    offered = run_of(FRESH, ZEROS, file[: 5 * 48])
    rest = reference.run(offered.run.ledger, file[5 * 48 : 12 * 48], STAYS * 7)
    answer = month_of(rest.ledger, offered.totals, file[12 * 48 : 13 * 48])
    check("month 13", (answer.step.refusal, answer.totals[:32]), (0, offered.totals[:32]))
    check("its year", answer.totals[32:64], slot(2, 1, *answer.step[3:6]))


def full():
    """1200 months and one more, from fresh, and in two files at any place: the totals are those of the output."""
    file = file_of(greatest_record(n, 2, 4, 100) for n in range(1201))
    whole = run_of(FRESH, ZEROS, file)
    check("1200 months", (whole.run.accepted, whole.run.refusal), (1200, 4))
    outputs = whole.run.output[: 1200 * 48]
    same("their totals", whole.totals, yearly_totals.afresh(outputs))
    same("their totals retold", whole.totals, yearly_totals_retold.afresh(outputs))
    check("sums far below 10^19", max(map(max, struct.iter_unpack("<2I3Q", whole.totals))) < 10**18 * 5, True)
    for place in (1, 594, 1199):
        first = run_of(FRESH, ZEROS, file[: 48 * place])
        rest = run_of(first.run.ledger, first.totals, file[48 * place :])
        found = first.run.accepted + rest.run.accepted, first.run.work + rest.run.work
        check(f"in two at {place}", found, (1200, whole.run.work))
        check(f"the end in two at {place}", (rest.run.refusal, rest.run.ledger), (4, whole.run.ledger))
        same("totals carried on", rest.totals, whole.totals)


def offers(rng, climate):
    """Any records offered one after another: months, damaged ones, years, some with a buffer or room too short."""
    ledger, totals, outputs = FRESH, ZEROS, b""
    for _ in range(40):
        data = write_record(next_record(rng, ledger, 2, climate))
        data = rng.choice((data, data, data, damaged(rng, data), data[:2] + b"\1" + data[3:]))
        short = rng.random() < 0.1
        room = STAYS[: rng.choice((47, 48, 50, 50, 50))]
        answer = month_of(ledger, totals[: 3200 - short], data, room)
        plain, number = reference.step(ledger, data, room), answer.step.refusal
        yearly = len(data) == 48 and data[2] == 1
        expected = 28 if short else 27 if yearly and plain.refusal not in (1, 2, 3, 4, 5) else plain.refusal
        check("32 never comes, and each refusal is the step's own", number, expected)
        if number == 0:
            ledger, totals, outputs = answer.step.ledger, answer.totals, outputs + answer.step.output[:48]
        same("the totals afresh", totals, yearly_totals.afresh(outputs))
        same("the totals afresh, retold", totals, yearly_totals_retold.afresh(outputs))
    check("untouched slots", any(totals[32 * ((ledger.n + 11) // 12) :]), False)


def files(rng, climate):
    """Files from fresh with the totals carried on, good and damaged: a plain run, but for yearly records."""
    ledger, totals, outputs = FRESH, ZEROS, b""
    for _ in range(4):
        file = file_of(next_measured(rng, ledger, 2, climate, rng.randint(1, 15)))
        file = damaged(rng, file) if rng.random() < 0.4 else file
        answer, plain = run_of(ledger, totals, file), reference.run(ledger, file, b"\xa5" * len(file))
        if answer.run.refusal != 27:
            check("the plain run", answer.run, plain)
        ledger, totals = answer.run.ledger, answer.totals
        outputs += answer.run.output[: 48 * answer.run.accepted]
        same("the totals afresh", totals, yearly_totals.afresh(outputs))


def short_cases(rng):
    """The cases of this request, without that of 1200 months."""
    for part in yearly_totals_cases.SHORT + yearly_totals_faults.SHORT:
        for each in part(rng):
            if each[:1] == b"y":
                month_of(*cases.read_month(each[5:]))
            else:
                asked = cases.read_months(each[5:])
                same("run", yearly_totals.run_months(*asked), yearly_totals_retold.months(*asked))
