"""Wrong readings of request l of document 02 about the order of refusals, and about what changes with one."""
from reference import BYTES, MASS_LIMIT, RECORDS, YEARLY, in_range, is_coded, read_record, repeats_year, sound, step
from yearly_totals import EMPTY, SLOT, added, goes_with, refusal_of_month, slot_of, take_month
from yearly_totals_faults import ORDER


def instead(change):
    """Another refusal, from the right one and what is asked."""
    return {"refusal_of_month": lambda *asked: change(refusal_of_month(*asked), *asked)}


# The order of the tests


def holding(ledger, totals, data, room):
    """Every refusal that holds; those of a record's fields where there is a whole record."""
    found = {28: len(totals) != len(EMPTY), 1: len(data) != BYTES, 2: room < BYTES, 3: not sound(ledger)}
    found[4] = ledger.n == RECORDS
    if len(data) == BYTES:
        record = read_record(data)
        found |= {5: not is_coded(record), 27: record.kind == YEARLY, 6: record.period != ledger.n + 1}
        found[7] = ledger.n > 0 and (record.kind, record.climate) != (ledger.kind, ledger.climate)
        found |= {8: not in_range(record), 17: not repeats_year(ledger, record), 9: max(record.masses) > MASS_LIMIT}
        found[32] = 1 <= record.period <= RECORDS and not goes_with(totals, record.period)
    return {number for number, holds in found.items() if holds}


def tested(order):
    """Refusals tested in another order."""
    return {"refusal_of_month": lambda *asked: next((number for number in order if number in holding(*asked)), 0)}


def others(number):
    return [other for other in ORDER if other != number]


def moved(number, place):
    """A refusal tested at another place among the others."""
    return tested([*others(number)[:place], number, *others(number)[place:]])


def swapped(place):
    """Two neighbours tested the other way about."""
    return tested([*ORDER[:place], ORDER[place + 1], ORDER[place], *ORDER[place + 2 :]])


TESTED = {
    **{f"{number} first": moved(number, 0) for number in (27, 32)},
    **{
        f"{number} after {other}": moved(number, place)
        for number in (27, 28, 32)
        for place, other in enumerate(others(number), 1)
        if place != ORDER.index(number)
    },
    **{f"{ORDER[place + 1]} before {ORDER[place]}": swapped(place) for place in range(len(ORDER) - 1)},
    **{f"{number} not tested": tested(others(number)) for number in ORDER[5:]},
}


# What is refused with 28 and 27


def with_totals(change):
    """Totals changed before they are tested, from the ledger and these."""
    return {
        "refusal_of_month": lambda ledger, totals, *asked: refusal_of_month(ledger, change(ledger, totals), *asked)
    }


def with_own_slot(ledger, totals):
    """Totals drawn out where they have the slot of the next month."""
    return (totals + EMPTY)[: len(EMPTY)] if len(totals) >= SLOT * (slot_of(ledger.n + 1)[0] + 1) else totals


INSTEAD = {27: (23, 7, 5, 28), 28: (1, 2, 22, 26, 27, 32), 32: (3, 6, 17, 28, 29, 31)}
ANSWERED = {
    "longer totals taken": with_totals(lambda ledger, totals: totals[: len(EMPTY)]),
    "shorter totals taken": with_totals(with_own_slot),
    "7 for a yearly record where the ledger is monthly": instead(
        lambda refusal, ledger, *_: 7 if refusal == 27 and ledger.kind == 2 else refusal
    ),
    "27 for a yearly ledger": instead(
        lambda refusal, ledger, *_: 27 if refusal in (0, 7) and ledger.kind == YEARLY else refusal
    ),
    "yearly records taken": instead(lambda refusal, ledger, *_: 0 if refusal == 27 and ledger.n == 0 else refusal),
    **{
        f"{other} for {number}": instead(lambda refusal, *_, n=number, o=other: o if refusal == n else refusal)
        for number, others_of in INSTEAD.items()
        for other in others_of
    },
}


# What changes with a refusal


def refused(numbers, change):
    """Another answer where there is one of these refusals, from the right one, the ledger and the record's bytes."""

    def wrong(ledger, totals, data, output):
        answer = take_month(ledger, totals, data, output)
        return change(answer, ledger, data) if answer.step.refusal in numbers else answer

    return {"take_month": wrong}


def added_anyway(answer, ledger, _):
    """A month added to the totals, with numbers of 1."""
    return answer._replace(totals=added(answer.totals, ledger.n + 1, 1, 1, 1)) if ledger.n < RECORDS else answer


def cleared(answer, *_):
    return answer._replace(totals=bytes(len(answer.totals)))


def in_step(answer, **fields):
    return answer._replace(step=answer.step._replace(**fields))


def counted(answer, ledger, _):
    return in_step(answer, ledger=ledger._replace(n=ledger.n + 1))


def overwritten(answer, *_):
    return in_step(answer, output=bytes(len(answer.step.output)))


def stepped(*fields):
    """Parts of the plain step's answer with 32."""

    def change(answer, ledger, data):
        plain = step(ledger, data, answer.step.output)
        return in_step(answer, **{field: getattr(plain, field) for field in fields})

    return refused([32], change)


REFUSED = {
    **{f"a month added with {number}": refused([number], added_anyway) for number in others(28) if number != 4},
    **{f"totals cleared with {number}": refused([number], cleared) for number in ORDER},
    **{f"the record counted with {number}": refused([number], counted) for number in (28, 27, 32)},
    **{f"the output cleared with {number}": refused([number], overwritten) for number in (28, 27, 32)},
    "the ledger moves on with 32": stepped("ledger"),
    "the output is written with 32": stepped("output"),
    "the releases are answered with 32": stepped("releases"),
    "x0, figure and bound are answered with 32": stepped("x0", "figure", "bound"),
}

READINGS = TESTED | ANSWERED | REFUSED
