"""Wrong readings of request j of document 02 about refusals, and about what is written and answered then."""
from columns import Answer, calculation, figure_column, refusal_of_columns, release_column
from reference import BYTES, FRESH, NONE, RECORDS, REFUSALS, TYPES, read_record, records_of, run
from tunisia import refusal_of_year


def accepted(file):
    """How many records the first engine accepts."""
    return run(FRESH, file, bytes(len(file))).accepted


def first_engine(file):
    """The refusal of the first engine, which is right."""
    return run(FRESH, file, bytes(len(file))).refusal


def short(file, columns):
    """Whether a column is too short, which is right."""
    return min(map(len, columns)) < len(records_of(file))


def tested(wrong):
    """Another test of 26, from the number of records and the numbers of places."""

    def refusal(file, columns):
        return first_engine(file) or (26 if wrong(len(records_of(file)), list(map(len, columns))) else 0)

    return {"refusal_of_columns": refusal}


def first(number, test):
    """A refusal tested before the others."""
    return {"refusal_of_columns": lambda file, lent: number if test(file, lent) else refusal_of_columns(file, lent)}


def without(place):
    """The length of one column not tested."""
    return tested(lambda records, places: min(places[:place] + places[place + 1 :]) < records)


TESTED = {
    **{f"column {place + 1} not tested": without(place) for place in range(9)},
    **{f"column {place + 1} alone tested": tested(lambda n, places, at=place: places[at] < n) for place in range(9)},
    "26 where every column is short": tested(lambda records, places: max(places) < records),
    "all places together": tested(lambda records, places: sum(places) < 9 * records),
    "columns not tested": tested(lambda records, places: False),
    "26 for one place short alone": tested(lambda records, places: min(places) == records - 1),
    "one place short taken": tested(lambda records, places: min(places) < records - 1),
    "a place more needed": tested(lambda records, places: min(places) <= records),
    "a place more needed for any record": tested(lambda records, places: 0 < records >= min(places)),
    "just as many places": tested(lambda records, places: set(places) != {records}),
    "columns of one length": tested(lambda records, places: min(places) < records or len(set(places)) > 1),
    "no column without places": tested(lambda records, places: min(places) < max(records, 1)),
    "1200 places needed": tested(lambda records, places: min(places) < RECORDS),
    "places for 48 bytes each": tested(lambda records, places: min(places) < BYTES * records),
    "records in 8 bits": tested(lambda records, places: min(places) < records % 256),
    "places in 8 bits": tested(lambda records, places: min(count % 256 for count in places) < records),
    "a place more needed for figures": tested(lambda records, places: min(places) < records or places[8] == records),
}
BEFORE = {
    "26 before the first engine's refusal": first(26, short),
    "26 of whole records first": first(26, lambda file, lent: min(map(len, lent)) < len(file) // BYTES),
    "26 of accepted records first": first(26, lambda file, lent: min(map(len, lent)) < accepted(file)),
}


# The first engine's refusal


def with_room(room):
    """The first engine with room for less."""
    return first(2, lambda file, _: run(FRESH, file, bytes(room(file))).refusal == 2)


def over(part):
    """The answer for another file."""
    return {"calculation": lambda file, columns: calculation(part(file), columns)}


def instead(number, other):
    """A number answered in the place of another."""
    return refused(lambda file, answer: answer._replace(refusal=other) if answer.refusal == number else answer)


def refused(change):
    """Another answer where there is a refusal, from the file and the right one."""

    def wrong(file, columns):
        answer = calculation(file, columns)
        return change(file, answer) if answer.refusal else answer

    return {"calculation": wrong}


def refusals(file):
    """The refusal of each record, each passed over where it is refused."""
    ledger = FRESH
    for data in records_of(file):
        answer = run(ledger, data, bytes(BYTES))
        ledger = answer.ledger
        if answer.refusal:
            yield answer.refusal


def by_refusals(choose):
    """Another refusal of the records, where there are some."""
    return refused(lambda file, answer: answer if answer.refusal == 26 else answer._replace(refusal=choose(file)))


def longer_ledger(file, lent):
    """Record 1201 accepted."""
    refusal = refusal_of_columns(file, lent)
    return 26 * short(file, lent) if refusal == 4 else refusal


OF_RECORDS = [number for number in REFUSALS["record"] if number not in (2, 3, 23, 27, 28, 32)]
ENGINE = {
    "room for one record less": with_room(lambda file: max(len(records_of(file)) - 1, 0) * BYTES),
    "room for 1199 records": with_room(lambda file: BYTES * (RECORDS - 1)),
    "no room": with_room(lambda file: 0),
    "room for one record": with_room(lambda file: BYTES),
    "bytes left over ignored": over(lambda file: file[: len(file) // BYTES * BYTES]),
    "bytes left over ignored without a record": over(lambda file: file if len(file) >= BYTES else b""),
    "47 bytes left over taken": over(lambda file: file + b"\0" if len(file) % BYTES == 47 else file),
    "the accepted records worked out": over(lambda file: file[: BYTES * accepted(file)]),
    "the records up to 1200 worked out": over(lambda file: file[: BYTES * RECORDS]),
    "1201 records accepted": {"refusal_of_columns": longer_ledger},
    "1200 records refused": first(4, lambda file, _: len(file) == BYTES * RECORDS),
    "4 before 1": first(4, lambda file, _: len(file) > BYTES * RECORDS),
    "4 for a long file before the others": first(4, lambda file, _: len(file) // BYTES > RECORDS),
    "1 before the others": first(1, lambda file, _: len(file) % BYTES > 0),
    "months refused as in request i": first(23, lambda file, _: refusal_of_year(FRESH, file[:BYTES]) == 23),
    "an empty file refused": first(1, lambda file, _: not file),
    "the last record's refusal": by_refusals(lambda file: list(refusals(file))[-1]),
    "the lowest refusal": by_refusals(lambda file: min(refusals(file))),
    **{f"{number} passed by": instead(number, 0) for number in (*OF_RECORDS, 26)},
    **{f"26 for {number}": instead(number, 26) for number in OF_RECORDS},
    **{f"{number} for 26": instead(26, number) for number in (1, 2, 22, 24)},
    "21 for bytes left over": instead(1, 21),
}


# What is written with a refusal


def worked_out(file):
    """The nine columns and the stocks of the accepted records."""
    records = [read_record(data) for data in records_of(file)[: accepted(file)]]
    releases, stocks = zip(*(release_column(records, t) for t in TYPES))
    return (*releases, figure_column(records, releases)), stocks


def over_lent(new, old, chosen):
    """A column that is written as far as it has places, or stays."""
    return (*new[: len(old)], *old[len(new) :]) if chosen else old


def where(numbers, change):
    """Another answer where there is one of these refusals."""
    return refused(lambda file, answer: change(file, answer) if answer.refusal in numbers else answer)


def written(numbers, choose):
    """Some columns written: choose says so from the place of one, the number of accepted records and the places."""

    def change(file, answer):
        new, places = worked_out(file)[0], list(map(len, answer.columns))
        chosen = [choose(at, len(new[0]), places) for at in range(9)]
        return answer._replace(columns=tuple(map(over_lent, new, answer.columns, chosen)))

    return where(numbers, change)


def everywhere(*_):
    return True


def with_room_for_all(at, count, places):
    return places[at] >= count


def stocked(*numbers):
    """The stocks of the accepted records."""
    return where(numbers, lambda file, answer: answer._replace(stocks=worked_out(file)[1]))


def cleared(*places):
    """Some columns cleared."""

    def change(_, answer):
        columns = enumerate(answer.columns)
        return answer._replace(columns=tuple((0,) * len(old) if at in places else old for at, old in columns))

    return refused(change)


WRITTEN = {
    "columns written as far as they go with 26": written([26], everywhere),
    "columns with room written with 26": written([26], with_room_for_all),
    "columns before the short one written": written([26], lambda at, count, places: min(places[: at + 1]) >= count),
    "releases written where the figures are short": written([26], lambda at, count, places: min(places[:8]) >= count),
    "figures written with 26": written([26], lambda at, count, places: at == 8),
    "columns written up to the refused record": written(OF_RECORDS, everywhere),
    "columns with room written up to the refused record": written(OF_RECORDS, with_room_for_all),
    "the first column written up to the refused record": written(OF_RECORDS, lambda at, *_: at == 0),
    "figures written up to the refused record": written(OF_RECORDS, lambda at, *_: at == 8),
    **{f"written up to a record refused with {number}": written([number], everywhere) for number in OF_RECORDS},
    "stocks of the accepted records": stocked(*OF_RECORDS),
    **{f"stocks with {number}": stocked(number) for number in (*OF_RECORDS, 26)},
    "all columns cleared": cleared(*range(9)),
    "the figures cleared": cleared(8),
    "the first column cleared": cleared(0),
    "stocks of 1": refused(lambda _, answer: answer._replace(stocks=(1, *NONE[1:]))),
    "nothing answered": refused(lambda _, answer: Answer(answer.refusal, ((),) * 9, NONE)),
}

READINGS = TESTED | BEFORE | ENGINE | WRITTEN
