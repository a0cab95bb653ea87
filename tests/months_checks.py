"""Holds the reference to request c of document 02: which months are refused, what is remembered, what is unsound."""
import retold
from checks import NO_VALUES, ROOM, check, offered
from histories import only, random_record
from reference import FRESH, Ledger, Year, step, write_record

PLAIN_YEAR = Year(75, 1, 0)  # that of a plain record
OTHERS = {"factor": 76, "site_class": 2, "f": 256}


def monthly(n, **values):
    """A monthly ledger that remembers plain values, or some others."""
    return Ledger(n, 2, 4, PLAIN_YEAR._replace(**values)) if n else FRESH


def years_begin():
    """Months 1, 13, 25 .. bring their own values, the others repeat them; the other fields are free, and years too."""
    begin = range(1, 1201, 12)
    free = {"OX": 11, "F": 51, "DOCf": 51, "GWP": 29, "masses": only(2, 1)}
    for month in [*range(1, 40), *range(250, 260), *range(1175, 1201)]:
        ledger, turn = monthly(month - 1), {"period": month, "kind": 2}
        for field, value in OTHERS.items():
            answer = offered(ledger, **turn, **{field: value})
            wanted = (0, PLAIN_YEAR._replace(**{field: value})) if month in begin else (17, PLAIN_YEAR)
            check(f"{field} of month {month}", (answer.refusal, answer.ledger.year), wanted)
            answer = offered(Ledger(month - 1, 1, 4) if month > 1 else FRESH, period=month, **{field: value})
            check(f"{field} of year {month}", (answer.refusal, answer.ledger.year), (0, NO_VALUES))
        for changes in ({}, free):
            answer = offered(ledger, **turn, **changes)
            check(f"month {month} with {changes}", (answer.refusal, answer.ledger.year), (0, PLAIN_YEAR))


def within_ranges():
    """Every value of a remembered byte, the edges of f, and any value where nothing is to be remembered."""
    tried = [("factor", value, 1 <= value <= 100) for value in range(256)]
    tried += [("site_class", value, 1 <= value <= 4) for value in range(256)]
    tried += [("f", value, value <= 10000) for value in (0, 1, 255, 256, 9999, 10000, 10001, 10240, 65535)]
    for field, value, fits in tried:
        for n in (1, 12, 1199):
            refusal = offered(monthly(n, **{field: value}), period=n + 1, kind=2, **{field: value}).refusal
            check(f"{field} {value} remembered at {n}", refusal, 0 if fits else 3)
        year = Year()._replace(**{field: value})
        for kind, ledger in ((1, Ledger(1, 1, 4, year)), (1, Ledger(12, 1, 4, year)), (2, FRESH._replace(year=year))):
            answer = offered(ledger, period=ledger.n + 1, kind=kind)
            check(f"{field} {value} of {ledger}", answer.refusal, 3 if value else 0)
    check("no year after a month", offered(Ledger(12, 2, 4), period=13, kind=2).refusal, 3)


def in_order():
    """A month with other values and one fault more: 1 to 8 are named before 17, and 9 after it."""
    late = {"period": 3, "kind": 2, **OTHERS}
    for number, changes in [
        (5, {"zero": b"\0\1"}),
        (6, {"period": 4}),
        (7, {"climate": 3}),
        (7, {"kind": 1}),
        (8, {"GWP": 0}),
        (8, {"factor": 101}),
        (8, {"f": 10001}),
        (17, {}),
        (17, {"masses": only(8, 10**9 + 1)}),
    ]:
        check(f"{changes} in another year", offered(monthly(2), **{**late, **changes}).refusal, number)
    for length, room, ledger, number in [
        (47, 47, monthly(2), 1),
        (48, 47, monthly(2), 2),
        (48, 48, monthly(2, f=10001), 3),
        (48, 48, monthly(1200), 4),
        (48, 48, monthly(1200, factor=0), 3),
    ]:
        check(f"the order of {number}", step(ledger, bytes(length), bytes(room)).refusal, number)
    over = offered(monthly(12), period=13, kind=2, factor=76, masses=only(1, 10**9 + 1))
    check("a first month with 9", (over.refusal, over.ledger), (9, monthly(12)))


def shared(rng, kind, climate):
    """Offers records with few values to a fresh ledger, passing over refused ones: each year has one value of each."""
    ledger, accepted = FRESH, []
    for _ in range(150):
        values = {"factor": (75, 75, 75, 76), "site_class": (1, 1, 1, 2), "f": (0, 0, 0, 256)}
        values = {field: rng.choice(few) for field, few in values.items()}
        record = random_record(rng, ledger.n, kind, climate)._replace(**values)
        answer = step(ledger, write_record(record), ROOM)
        alike = all(len(year) == 1 for year in retold.years_of([*accepted, record], kind))
        check("the year's factors", answer.refusal, 0 if alike else 17)
        accepted, ledger = accepted + [record] * alike, answer.ledger
        check("remembered", (ledger.n, ledger.year), (len(accepted), retold.remembered(accepted, kind)))
