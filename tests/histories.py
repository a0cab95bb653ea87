"""Records, files and ledgers to offer: at random, and at the limits of document 01."""
from reference import BYTES, CLIMATES, DOC, FRESH, KINDS, MASS_LIMIT, MONTHLY, MONTHS, MOST_DOC, NO_YEAR, NONE, Ledger
from reference import Record, Year, read_record, records_of, remembers, take, write_record, year_of

PLACES = range(8)
KINDS_AND_CLIMATES = [(kind, climate) for kind in KINDS for climate in CLIMATES]
UNMEASURED = 0, 0, bytes(2)  # bytes 12 to 15 of a record without dry matter
PLAIN = Record(1, 1, 4, 75, 10, 50, 50, 1, 28, 0, *UNMEASURED, NONE)  # the factors of document 01's listing, no waste
RANGES = {"factor": (1, 100), "site_class": (1, 4), "f": (0, 10000)}  # of the year's factors


def replaced(values, j, value):
    """A list with another value at a place."""
    return values[:j] + (value,) + values[j + 1 :]


def only(place, kg):
    """Eight masses, all 0 but that of one type."""
    return replaced((0,) * 8, place - 1, kg)


def ceilings(n, contents=MOST_DOC):
    """The most that T may be after n records, for each type."""
    return tuple(n * MASS_LIMIT * doc * 100 for doc in contents)


def by_default(n):
    """The most that T comes to after n records without dry matter, for each type."""
    return ceilings(n, DOC)


def balanced(ledger):
    """The ledger with all released that is not left; where R is over T it adds up only modulo 2^64."""
    released = tuple((t - r) % 2**64 for t, r in zip(ledger.T, ledger.R))
    return ledger._replace(released=released if ledger.n > 0 else NONE)


def greatest_record(n, kind, climate, m=0):
    """The record after n others that gives the greatest figure and bound, with this dry matter of both sludges."""
    return Record(n + 1, kind, climate, 100, 0, 100, 100, 1, 100, 0, m, m, bytes(2), (MASS_LIMIT,) * 8)


def file_of(records):
    """The bytes of records one after another."""
    return b"".join(map(write_record, records))


def whole_records(data):
    """The fields of the whole records in a file."""
    return [read_record(part) for part in records_of(data) if len(part) == BYTES]


def random_masses(rng):
    top = rng.choice((1, 50, 10**5, MASS_LIMIT))
    return tuple(rng.choice((0, rng.randint(0, top), rng.randint(0, top), top)) for _ in PLACES)


def random_record(rng, n, kind, climate):
    """A record that a sound ledger with n records of this kind and climate accepts; a month where it begins a year.

    It has no dry matter.
    """
    factor, GWP, OX, F, DOCf = (rng.choice((1, 100, rng.randint(1, 100))) for _ in range(5))
    f = rng.choice((0, rng.randint(0, 10000), rng.randint(0, 10000), 9999))
    site_class, masses = rng.randint(1, 4), random_masses(rng)
    return Record(n + 1, kind, climate, factor, OX - 1, F, DOCf, site_class, GWP, f, *UNMEASURED, masses)


def measured(rng, record):
    """The record with any dry matter of the two sludges, or none."""
    m7, m8 = (rng.choice((0, 1, 100, rng.randint(1, 100), rng.randint(1, 100))) for _ in range(2))
    return record._replace(m7=m7, m8=m8)


def random_file(rng, n, kind, climate, records):
    """The bytes of records that follow n others; months of one year each have factors of their own."""
    return file_of(random_record(rng, n + i, kind, climate) for i in range(records))


def hit(rng, data, places):
    """A file with a byte of one record changed, at one of these places."""
    at = rng.randrange(0, len(data), BYTES) + rng.choice(places)
    return data[:at] + bytes([rng.randrange(256)]) + data[at + 1 :]


def damaged(rng, data):
    """A file with a byte changed, bytes cut off or added, a record twice, or its parts the other way about."""
    at, start = rng.randrange(len(data)), rng.randrange(0, len(data), BYTES)
    changes = (
        data[:at] + bytes([rng.randrange(256)]) + data[at + 1 :],
        data[:at],
        data + rng.randbytes(rng.randint(1, 60)),
        data[: start + BYTES] + data[start:],
        data[start:] + data[:start],
    )
    return rng.choice(changes)


def taken(ledger, records):
    """The ledger after records, also where it would refuse them."""
    for record in records:
        ledger, _ = take(ledger, record)
    return ledger


def lived(rng, kind, climate, periods):
    """The ledger after that many records."""
    return taken(FRESH, (random_record(rng, n, kind, climate) for n in range(periods)))


def random_ledger(rng, kind, climate, n=None, tops=by_default):
    """A sound ledger in the middle of a history: lived through, or any with no T over its top."""
    if n is None and rng.random() < 0.5:
        return lived(rng, kind, climate, rng.randint(1, 20))
    n = n or rng.choice((1, 2, 255, 256, rng.randint(1, 1180)))
    T = tuple(rng.randint(0, top) >> rng.choice((0, 0, 10, 40, 64)) for top in tops(n))
    R = tuple(rng.choice((0, t, rng.randint(0, t))) for t in T)
    return balanced(Ledger(n, kind, climate, plain_year(kind), T, R))


def plain_year(kind):
    """What a ledger of this kind may remember."""
    return year_of(PLAIN) if kind == MONTHLY else NO_YEAR


def in_year_of(ledger, data):
    """The ledger in the year of a file's first record: a monthly one remembers its factors, or plain ones."""
    if ledger.kind != MONTHLY or ledger.n == 0:
        return ledger._replace(year=NO_YEAR)
    firsts = *whole_records(data[:BYTES]), PLAIN
    return next(filter(remembers, (ledger._replace(year=year_of(first)) for first in firsts)))


def sharing(record, year):
    """The record with the factors of a year."""
    return record._replace(**year._asdict())


def next_record(rng, ledger, kind, climate):
    """A record that a sound ledger of this kind and climate accepts."""
    record = random_record(rng, ledger.n, kind, climate)
    return sharing(record, ledger.year) if kind == MONTHLY and ledger.n % MONTHS else record


def next_records(rng, ledger, kind, climate, count):
    """So many records that it accepts one after another."""
    records = []
    for _ in range(count):
        records.append(next_record(rng, ledger, kind, climate))
        ledger = taken(ledger, records[-1:])
    return records


def next_measured(rng, ledger, kind, climate, count):
    """The same with any dry matter."""
    return [measured(rng, record) for record in next_records(rng, ledger, kind, climate, count)]


def random_year(rng):
    return Year(*(rng.randint(low, high) for low, high in RANGES.values()))


def moved(values, field, shift):
    """A record or a year with one value so much further in its range, where the least follows the most."""
    low, high = RANGES[field]
    return values._replace(**{field: low + (getattr(values, field) - low + shift) % (high - low + 1)})


def another(rng, values, field):
    """The same with any other value of the range."""
    low, high = RANGES[field]
    return moved(values, field, rng.randint(1, high - low))
