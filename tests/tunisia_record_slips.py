"""Wrong readings of request i of document 02 about which records are refused, and with which number."""
from reference import BYTES, FRESH, MASS_LIMIT, MONTHLY, NONE, RECORDS, YEARLY, in_range, is_coded, read_record
from reference import records_of, refusal_of, take
from tunisia import figures_of, refusal_of_year, years_of

TESTS = {  # of whole records, by number
    4: lambda ledger, record: ledger.n == RECORDS,
    5: lambda ledger, record: not is_coded(record),
    23: lambda ledger, record: record.kind == MONTHLY,
    6: lambda ledger, record: record.period != ledger.n + 1,
    7: lambda ledger, record: ledger.n > 0 and (record.kind, record.climate) != (ledger.kind, ledger.climate),
    8: lambda ledger, record: not in_range(record),
    9: lambda ledger, record: max(record.masses) > MASS_LIMIT,
}


def tested(*order, **other):
    """The tests of whole records in an order, some of them others."""
    tests = TESTS | {int(name.strip("_")): test for name, test in other.items()}

    def wrong(ledger, data):
        if len(data) != BYTES:
            return 1
        record = read_record(data)
        return next((number for number in order if tests[number](ledger, record)), 0)

    return {"refusal_of_year": wrong}


def month_first(ledger, data):
    """A short record refused by its third byte."""
    return 23 if data[2:3] == b"\2" else refusal_of_year(ledger, data)


def of_record(wrong):
    """Another refusal of a record, from the ledger, the bytes and the right refusal."""
    return {"refusal_of_year": lambda ledger, data: wrong(ledger, data, refusal_of_year(ledger, data))}


def instead(number, other):
    """A number answered in the place of another."""
    return of_record(lambda ledger, data, refusal: other if refusal == number else refusal)


def ended(change):
    """Another end of the accepted years, from their figures and the right refusal."""
    return {"years_of": lambda file: change(*years_of(file))}


def with_rooms(room):
    """Output with room for less, from the length of a file."""

    def wrong(file):
        figures, stopped = years_of(file)
        records = room(len(file)) // BYTES
        return (figures[:records], 2) if records < len(figures) else (figures, stopped)

    return {"years_of": wrong}


def passing_months(file):
    """Monthly records passed over."""
    return years_of(b"".join(data for data in records_of(file) if data[2:3] != b"\2"))


def passing_all(file):
    """Every refused record passed over; the first refusal is answered."""
    figures, ledger, releases, stopped = [], FRESH, NONE, 0
    for offered in records_of(file):
        refusal = refusal_of_year(ledger, offered)
        stopped = stopped or refusal
        if not refusal:
            record = read_record(offered)
            figures.append(figures_of(record, ledger, sum(releases)))
            ledger, releases = take(ledger, record)
    return figures, stopped


def as_a_run(ledger, data):
    """The refusals of a plain run."""
    return refusal_of(ledger, data, BYTES)


def for_7_alone(ledger, data):
    """23 where a plain run has 7 for a month."""
    refusal = refusal_of(ledger, data, BYTES)
    return 23 if refusal == 7 and read_record(data).kind == MONTHLY else refusal


def other_climate(ledger, record):
    return ledger.n > 0 and record.climate != ledger.climate


def no_class(_, record):
    """Refusal 5 without its test of the class."""
    return not is_coded(record._replace(site_class=1))


def first_month(ledger, record):
    return record.kind == MONTHLY and ledger.n == 0


def later_month(ledger, record):
    return record.kind == MONTHLY and ledger.n > 0


ALL = 4, 5, 23, 6, 7, 8, 9
READINGS = {
    "23 before 1": {"refusal_of_year": month_first},
    "23 before 4": tested(23, 4, 5, 6, 7, 8, 9),
    "23 before 5": tested(4, 23, 5, 6, 7, 8, 9),
    "23 after 6": tested(4, 5, 6, 23, 7, 8, 9),
    "23 after 7 of the climate": tested(4, 5, 6, 7, 23, 8, 9, _7=other_climate),
    "23 after 8": tested(4, 5, 6, 8, 23, 7, 9),
    "23 last": tested(4, 5, 6, 8, 9, 23, 7),
    "5 before 4": tested(5, 4, 23, 6, 7, 8, 9),
    "7 before 6": tested(4, 5, 23, 7, 6, 8, 9),
    "8 before 7": tested(4, 5, 23, 6, 8, 7, 9),
    "9 before 8": tested(4, 5, 23, 6, 7, 9, 8),
    "the class not tested": tested(*ALL, _5=no_class),
    "a plain run": {"refusal_of_year": as_a_run},
    "23 in the place of 7 alone": {"refusal_of_year": for_7_alone},
    "7 for a month": instead(23, 7),
    "5 for a month": instead(23, 5),
    "a first month accepted": tested(*ALL, _23=later_month),
    "a later month 7": tested(*ALL, _23=first_month),
    "months accepted": tested(4, 5, 6, 8, 9),
    "23 for any kind that is not yearly": tested(4, 23, 5, 6, 7, 8, 9, _23=lambda _, record: record.kind != YEARLY),
    "months passed over": {"years_of": passing_months},
    "refused records passed over": {"years_of": passing_all},
    "the refused record counted": ended(lambda figures, stopped: (figures + figures[-1:] * (stopped > 1), stopped)),
    "the last year not counted": ended(lambda figures, stopped: (figures[:-1] if stopped else figures, stopped)),
    "room for one record": with_rooms(lambda length: BYTES),
    "room one byte short": with_rooms(lambda length: length - 1),
    "room for 1199 records": with_rooms(lambda length: BYTES * (RECORDS - 1)),
    "bytes left over passed by": ended(lambda figures, stopped: (figures, 0 if stopped == 1 else stopped)),
    "record 1201 passed by": ended(lambda figures, stopped: (figures, 0 if stopped == 4 else stopped)),
    "record 1201 accepted": instead(4, 0),
    "1200 years and bytes left over as 4": of_record(lambda ledger, _, refusal: 4 if ledger.n == RECORDS else refusal),
    "record 1200 refused": of_record(lambda ledger, _, refusal: refusal or 4 * (ledger.n == RECORDS - 1)),
    "an empty file as 1": {"years_of": lambda file: years_of(file) if file else ([], 1)},
}
