"""Checks the reference against request j of document 02: worked numbers, the ledger's, the other form, the refusals."""
import struct

import cases
import columns
import columns_cases
import columns_faults
import columns_retold
import reference
from checks import NOTHING, check, offered
from histories import PLAIN, damaged, file_of, greatest_record, next_measured, only, replaced
from reference import FRESH, write_record
from tunisia_checks import plain

STAYS = 7  # what a place holds that is lent


def lent(*places):
    """Columns with so many places each, or nine with the same number."""
    return tuple((STAYS,) * count for count in (places * 9)[:9])


def answer_of(file, columns_lent):
    """The answer of the reference, which has to be that of the other form."""
    answer = columns.calculation(file, columns_lent)
    found = [answer.refusal, *answer.columns, *answer.stocks]
    check(f"columns of {file.hex()}", found, columns_retold.calculation(file, columns_lent))
    return answer


def refused(name, file, columns_lent, number):
    """Nothing is written, and the stocks are 0."""
    check(name, answer_of(file, columns_lent), (number, columns_lent, NOTHING))


def worked():
    """P6 to P10, each in columns with a place more; document 01's listing, with places past the run in some columns."""
    for name, t, climate, kind, G, R, figure in [
        ("P6", 3, 4, 1, 49452, 100548, 311),
        ("P7", 1, 1, 1, 8515, 421485, 53),
        ("P8", 2, 2, 1, 23295, 376705, 146),
        ("P9", 3, 4, 2, 4918, 145082, 30),
        ("P10", 6, 1, 1, 0, 0, 0),
    ]:
        file = file_of([PLAIN._replace(kind=kind, climate=climate, masses=only(t, 1))])
        wanted = tuple((release, STAYS) for release in only(t, G)) + ((figure, STAYS),)
        check(name, answer_of(file, lent(2)), (0, wanted, only(t, R)))
    found = answer_of(plain(only(3, 1000), NOTHING), lent(2, 2, 3, 2, 2, 2, 2, 2, 4))
    food, figures = (49451994, 33148662, STAYS), (311547, 208836, STAYS, STAYS)
    nothing = (0, 0)
    wanted = nothing, nothing, food, nothing, nothing, nothing, nothing, nothing, figures
    check("document 01's listing", found, (0, wanted, only(3, 67399344)))
    late = plain(only(3, 1000), NOTHING) + write_record(PLAIN._replace(period=5))
    refused("its third record", late, lent(3), 6)


def no_records():
    """An empty file is accepted with columns of any length, also of 0, and changes none."""
    for places in ((0,), (1,), (0, 3), (1200,), (1300, 0, 1)):
        check(f"no bytes in {places}", answer_of(b"", lent(*places)), (0, lent(*places), NOTHING))


def too_short():
    """Every number of places about that of the records, in each column alone and in all."""
    for count in (1, 2, 3, 13):
        file = plain(*[only(2, 5)] * count)
        for places in range(count + 3):
            number = 0 if places >= count else 26
            for column in range(9):
                for others in (count, count + 2):
                    found = answer_of(file, replaced(lent(others), column, (STAYS,) * places))
                    check(f"{places} places of column {column} for {count}", found.refusal, number)
            check(f"{places} places for {count}", answer_of(file, lent(places)).refusal, number)
        refused("a short column", file, replaced(lent(count), 8, (STAYS,) * (count - 1)), 26)
        refused("no places", file, lent(0), 26)


def after_the_others():
    """Each other refusal of a second and of a last month is answered before 26, and so is each of a first record."""
    over, month = only(8, 10**9 + 1), {"kind": 2, "climate": 4}
    for number, changes in [
        (5, {"site_class": 5}),
        (5, {"zero": b"\0\1"}),
        (6, {"period": 65535}),
        (7, {"climate": 3}),
        (7, {"kind": 1}),
        (8, {"GWP": 0}),
        (8, {"m7": 101}),
        (17, {"factor": 76}),
        (17, {"f": 1, "masses": over}),
        (9, {"masses": over}),
    ]:
        months = [PLAIN._replace(**{"period": n, **month}) for n in (1, 2, 3, 4)]
        for place in (0, 1, 3) if number in (5, 6, 8, 9) else (1, 3):
            months_then = months[:place] + [months[place]._replace(**changes)] + months[place + 1 :]
            for places in (4, 3, 0, 1300):
                refused(f"{changes} at {place} in {places}", file_of(months_then), lent(places), number)
            refused(f"{changes} at {place}", file_of(months_then), replaced(lent(9), 8, ()), number)
    for length, count in ((1, 0), (47, 0), (1, 2), (24, 2), (47, 3)):
        file = plain(*[only(1, 9)] * count, NOTHING)[: 48 * count + length]
        for places in (0, count, count + 1, 1300):
            refused(f"{length} bytes after {count} records", file, lent(places), 1)


def full():
    """1200 records are worked out, and one more is refused with 4, whatever the places."""
    file = plain(*[only(1 + n % 8, n) for n in range(1201)])
    same_as_ledger(file[:-48], lent(1200, 1201))
    for places in (0, 1199):
        refused("1200 records", file[:-48], lent(places), 26)
    for places in (0, 1200, 1201):
        refused("1201 records", file, lent(places), 4)
    refused("1200 records and 47 bytes", file[:-1], lent(1200), 1)
    same_as_ledger(file_of(greatest_record(n, 1, 1, 100) for n in range(1200)), lent(1200))


def same_as_ledger(file, columns_lent):
    """Releases and figures of every period and the end stocks are the ledger's: of its steps, run and listing."""
    answer, ledger, count = answer_of(file, columns_lent), FRESH, len(file) // 48
    for place in range(count):
        step = reference.step(ledger, file[48 * place : 48 * place + 48], bytes(48))
        check("releases", tuple(column[place] for column in answer.columns), (*step.releases, step.figure))
        ledger = step.ledger
    run = reference.run(FRESH, file, bytes(len(file)))
    check("stocks", (answer.refusal, answer.stocks, run.ledger, ledger), (0, ledger.R, ledger, run.ledger))
    rows = list(zip(*(column[:count] for column in answer.columns)))
    found = [(sum(row[:8]), row[8]) for row in rows]
    check("output records", found, [numbers[4:6] for numbers in struct.iter_unpack("<HBBI5Q", run.output)])
    words = [line.split() for line in reference.listing(file).splitlines()]
    check("listing", found, [(int(x0), int(figure)) for _, x0, figure, _, _ in words])
    for new, old in zip(answer.columns, columns_lent, strict=True):
        check("places past the run", (len(new), new[count:]), (len(old), old[count:]))


def one_record(rng):
    """One record of any masses, against the answer of a step."""
    for _ in range(20):
        changes = {"kind": rng.randint(1, 2), "climate": rng.randint(1, 4)}
        changes["masses"] = tuple(rng.randint(0, 10**9) for _ in range(8))
        step, answer = offered(**changes), answer_of(file_of([PLAIN._replace(**changes)]), lent(1))
        check("one record", answer, (0, tuple((number,) for number in (*step.releases, step.figure)), step.ledger.R))


def any_file(rng, kind, climate):
    """A good file is the ledger's; a damaged one has the refusal of a run, and else 26 where a column is short."""
    count = rng.randint(1, 30)
    file = file_of(next_measured(rng, FRESH, kind, climate, count))
    same_as_ledger(file, lent(*(count + rng.choice((0, 1, 5)) for _ in range(9))))
    for _ in range(10):
        data, places = damaged(rng, file), [count + rng.choice((-1, 0, 0, 1, 2)) for _ in range(9)]
        run = reference.run(FRESH, data, bytes(len(data) + 48))
        number = run.refusal or (26 if min(places) < run.accepted else 0)
        check("refusal", answer_of(data, lent(*places)).refusal, number)


def short_cases(rng):
    """The cases of this request, without those of 1200 records."""
    for part in columns_cases.SHORT + columns_faults.SHORT:
        for each in part(rng):
            answer_of(*cases.read_columns(each[5:]))
