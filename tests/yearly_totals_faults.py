"""The cases of yearly totals where a record is refused: ledger, totals and output then stay. And those of odd payloads.

Each is built for its answer, as those in yearly_totals_cases.py are.
"""
from itertools import combinations

import cases
from base_cases import byte_changed
from cases import LONGEST, case
from faults import Fault, Offer, applied, in_record, named, of_field
from histories import damaged, file_of, greatest_record, hit, next_measured, random_ledger
from months_faults import FIELDS_OF_RECORD, in_month
from reference import BYTES, CLIMATES, FRESH, MONTHLY, MONTHS, RECORDS, REFUSALS, YEARLY, Year, little, write_record
from sludge_cases import OVER
from yearly_totals import EMPTY, MOST, SLOT, Slot, read_slot, slot_of, take_month, with_slot
from yearly_totals_cases import FIRST, START, SUMS, Site, after, after_plain, asked_at, month_case, months_case
from yearly_totals_cases import payload_of, some_months, some_sums

LENGTHS = 0, 1, 32, 3168, 3199, 3201, 6400, LONGEST - 1  # of totals, each refused with 28
(YEAR,) = in_record(27, "kind", YEARLY)
ORDER = [number for number in REFUSALS["record"] if number != 23]  # in which the refusals of a month are tested
OFTEN = {1: "length", 2: "room", 3: "R", 4: "n", 5: "site_class", 6: "period", 7: "climate", 8: "GWP", 9: "masses"}


def of_totals(number, change):
    """A fault in the totals, from these and the record's period."""
    return Fault(number, "totals", change)


def in_slot(change):
    """A fault in the record's slot, from its numbers, its place from 0 on and the record's period."""

    def wrong(totals, period):
        k, _ = slot_of(period)
        return with_slot(totals, k, change(read_slot(totals, k), k, period))

    return of_totals(32, wrong)


def field_of_slot(field, value):
    """Another value of one number in the record's slot, from the place of the slot and the months before."""
    return in_slot(lambda slot, k, period: slot._replace(**{field: value(k, slot_of(period)[1]) % 2**32}))


def one_sum(field, value):
    """Another sum in the record's slot."""
    return in_slot(lambda slot, *_: slot._replace(**{field: value}))


def of_length(length):
    """Totals of another length."""
    return of_totals(28, lambda totals, _: (totals + bytes(length))[:length])


# Changes to the totals of a month that does not begin its year.
OTHER_MONTHS = [field_of_slot("months", lambda k, months, by=by: months + by) for by in (1, -1, 12, 256, 2**31)]
OTHER_MONTHS += [field_of_slot("months", lambda *_: 0), field_of_slot("months", lambda k, months: 12 * k + months)]
OTHER_YEARS = [field_of_slot("year", lambda k, _, by=by: k + 1 + by) for by in (1, -1, 12, 256, 2**31)]
OTHER_YEARS += [field_of_slot("year", lambda *_: 0)]
TOO_LARGE = [one_sum(field, value) for field in SUMS for value in (MOST + 1, MOST + 2**32, 2**64 - 1)]
NO_SLOT = in_slot(lambda *_: Slot())
DIFFERS = [*OTHER_MONTHS[:5], *OTHER_YEARS, *TOO_LARGE, NO_SLOT]


def fault_of(rng, number):
    """A fault with this number, which may come with one of each other number."""
    own = {28: [of_length(length) for length in (0, 3199, 3201)], 27: [YEAR], 17: [in_month("f", 1)], 32: DIFFERS}
    return rng.choice(own.get(number) or of_field(number, OFTEN[number]))


def asked_with(site, record, faults):
    """The site, the bytes offered and the room, after some faults; a length of the totals comes last of these."""
    offer = applied(Offer(site.ledger, record), [fault for fault in faults if fault.field != "totals"])
    totals = site.totals
    for fault in sorted(faults, key=lambda fault: -fault.number):
        totals = fault.change(totals, record.period) if fault.field == "totals" else totals
    return Site(offer.ledger, totals), offer.data(), offer.room


def fault_case(site, record, faults):
    """One step with some faults, built for the first that is tested."""
    site, data, room = asked_with(site, record, faults)
    return month_case(site, data, named(*faults), room)


def within_year(rng):
    """A month of the first years that does not begin its year."""
    return asked_at(rng, MONTHS * rng.randrange(3) + rng.randint(1, MONTHS - 1))


def no_totals(rng):
    """Totals of another length, with a good month, without bytes, in a run, and in a run without records."""
    for length in LENGTHS:
        site, record = asked_at(rng, rng.choice((0, 1, 12)))
        yield fault_case(site, record, [of_length(length)])
        short = site._replace(totals=(site.totals + bytes(length))[:length])
        yield months_case(short, rng.choice((b"", write_record(record))), (0, 28), room=50)
    used = after(START, some_months(rng, 3))
    full, unsound = used.ledger._replace(n=RECORDS), FRESH._replace(climate=1)
    for site in (Site(used.ledger, used.totals[:-1]), Site(unsound, b""), Site(full, used.totals + b"\0")):
        yield months_case(site, b"", (0, 28), room=0)
        yield months_case(site, bytes(7), (0, 28))
        yield month_case(site, b"", 28)


def by_year(rng):
    """A yearly record: from fresh, for a monthly ledger and for a yearly one; in a run; a month for a yearly ledger."""
    yield month_case(START, write_record(FIRST._replace(kind=YEARLY)), 27)
    for n in (1, 12):
        site, record = asked_at(rng, n)
        yield fault_case(site, record, [YEAR])
        later = some_months(rng, 2, after(site, [record]))
        yield months_case(site, file_of([record, later[0]._replace(kind=YEARLY), later[1]]), (1, 27))
    for n in (1, 12):
        climate = rng.choice(CLIMATES)
        ledger = random_ledger(rng, YEARLY, climate, n)
        years = next_measured(rng, ledger, YEARLY, climate, 2)
        yield month_case(Site(ledger), write_record(years[0]), 27)
        yield month_case(Site(ledger), write_record(years[0]._replace(kind=MONTHLY)), 7)
        yield months_case(Site(ledger), file_of(years), (0, 27))
    yield months_case(START, file_of(next_measured(rng, FRESH, YEARLY, 2, 3)), (0, 27))


def with_byte(totals, at, value):
    return totals[:at] + bytes([value]) + totals[at + 1 :]


def damaged_slots(rng):
    """Every byte of a slot in turn: with 0 months each is refused; else those of year, months and too large sums."""
    for at in range(SLOT):
        yield month_case(Site(FRESH, with_byte(EMPTY, at, 1)), write_record(FIRST), 32)
    for at in (0, 7, 8, 31):
        site, record = asked_at(rng, MONTHS)
        totals = with_byte(site.totals, SLOT + at, rng.choice((2, 128, 255)))
        yield month_case(site._replace(totals=totals), write_record(record), 32)
    for at in range(8):
        site, record = asked_at(rng, MONTHS * rng.randrange(2) + rng.randint(1, 11))
        place = SLOT * slot_of(record.period)[0] + at
        totals = with_byte(site.totals, place, site.totals[place] ^ 1 << rng.randrange(8))
        yield month_case(site._replace(totals=totals), write_record(record), 32)
    low = with_slot(EMPTY, 0, Slot(1, 3, 5, 5, 5))
    site, record = asked_at(rng, 3)
    for at in range(8, SLOT):
        last = at % 8 == 7
        yield month_case(site._replace(totals=with_byte(low, at, 255)), write_record(record), 32 if last else 0)
        if last:
            for value, number in ((0x8A, 0), (0x8B, 32)):
                yield month_case(site._replace(totals=with_byte(low, at, value)), write_record(record), number)


def differs(rng):
    """Each change of a slot in a month within its year; a slot that is left from another time at a year's start."""
    for fault in OTHER_MONTHS:
        yield fault_case(*asked_at(rng, MONTHS * rng.randint(1, 2) + rng.randint(2, 10)), [fault])
    for fault in OTHER_YEARS + TOO_LARGE:
        yield fault_case(*within_year(rng), [fault])
    began = Slot(2), Slot(2, 12), Slot(2, 12, 9, 9, 9), Slot(0, 12), Slot(bound=3)
    late = (1188, 99, Slot(100)), (RECORDS - 1, 99, Slot(99, 11, 4, 4, 4))
    for n, k, slot in (*((12, 1, slot) for slot in began), *late):
        site, record = asked_at(rng, n)
        yield month_case(site._replace(totals=with_slot(EMPTY, k, slot)), write_record(record), 32)


def beside_plain(rng):
    """Months of the same year taken without totals; a month that is offered again to the ledger before it."""
    months = some_months(rng, 16)
    for offered, plain in ((0, 5), (0, 1), (5, 6), (3, 11), (12, 13), (0, 13), (5, 14)):
        site = after_plain(after(START, months[:offered]), months[offered:plain])
        yield month_case(site, write_record(months[plain]), 32)
    yield months_case(after_plain(START, months[:5]), file_of(months[5:7]), (0, 32))
    for n in (0, 4, 11, 12):
        again = Site(after(START, months[:n]).ledger, after(START, months[: n + 1]).totals)
        yield month_case(again, write_record(months[n]), 32)


def past_most(rng):
    """A month that takes a sum to just 10^19, or one further: the next month is taken, or refused."""
    for at, field in enumerate(SUMS):
        months = [greatest_record(n, MONTHLY, 3) for n in range(3)]
        site, data = after(START, months[:1]), file_of(months[1:])
        added = take_month(*site, data[:BYTES], bytes(BYTES)).step[3 + at]
        for over, expect in ((0, (2, 0)), (1, (1, 32))):
            slot = Slot(1, 1, *some_sums(rng))._replace(**{field: MOST + over - added})
            yield months_case(site._replace(totals=with_slot(EMPTY, 0, slot)), data, expect)


def at_fault(rng):
    """Each fault of a record by number and field, dry matter over its range, and another factor in a year."""
    for number, field in FIELDS_OF_RECORD:
        if (number, field) == (7, "kind"):
            continue  # a yearly record, which is 27 here
        fault = rng.choice([each for each in of_field(number, field) if each.instead != 0])
        yield fault_case(*within_year(rng), [fault])
    for fault in (rng.choice(OVER), *(in_month(field, 1) for field in Year._fields)):
        yield fault_case(*within_year(rng), [fault])
    for number, fields in ((1, ["length"]), (2, ["room"]), (3, ["n", "R", "T"]), (4, ["n"])):
        for field in fields:
            yield fault_case(*within_year(rng), [rng.choice(of_field(number, field))])


def two_faults(rng):
    """Each two numbers at once, so that the first of the two is seen to be tested first; all of them."""
    for pair in combinations(ORDER, 2):
        yield fault_case(*within_year(rng), [fault_of(rng, number) for number in pair])
    yield fault_case(*within_year(rng), [fault_of(rng, number) for number in ORDER])


def stopped(rng):
    """Runs that a fault of each number from 5 on stops after a month or more: these are in the totals, no other is."""
    for number, place in zip((5, 27, 6, 7, 8, 17, 9), (1, 2, 3) * 3):
        months = some_months(rng, place + 2)
        site = after(START, months[:place])
        _, data, _ = asked_with(site, months[place], [fault_of(rng, number)])
        yield months_case(START, file_of(months[:place]) + data + write_record(months[-1]), (place, number))
    for place in (0, 12):
        months = some_months(rng, place + 1)
        file = file_of(months)
        yield months_case(START, file[: -rng.randint(1, 47)], (place, 1))
        yield months_case(START, file, (place, 2), room=len(file) - rng.randint(1, BYTES))
    months = some_months(rng, 26)
    for k, slot in ((1, Slot(2)), (1, Slot(2, 12, 7, 7, 7)), (0, Slot(1, 1)), (2, Slot(bound=1))):
        yield months_case(Site(FRESH, with_slot(EMPTY, k, slot)), file_of(months), (MONTHS * k, 32))
    for unsound in (FRESH._replace(kind=2), after(START, months[:3]).ledger._replace(n=RECORDS + 1)):
        yield months_case(Site(unsound), file_of(months[:2]), (0, 3))


def past_the_last(rng):
    """The last month that a ledger takes, and one more; that one alone, good, yearly or short, with totals of zeros."""
    site, record = asked_at(rng, RECORDS - 1)
    more = record._replace(period=RECORDS + 1)
    yield months_case(site, file_of([record, more]), (1, 4))
    full = Site(after(site, [record]).ledger)
    yield month_case(full, write_record(more), 4)
    yield month_case(full, write_record(more._replace(kind=YEARLY)), 4)
    yield month_case(full, write_record(more)[:-1], 1)


def odd_payloads(rng):
    """More bytes than the totals have, and fewer bytes than are said to follow; zeros that are given; none given."""
    site, record = asked_at(rng, 14)
    data, spare = write_record(record), rng.randbytes(20)
    for width, letter in ((2, "y"), (4, "w")):
        head = cases.image(site.ledger) + little([(BYTES, width)])
        for b, c, rest in (
            (len(EMPTY), len(EMPTY), site.totals + data),
            (len(EMPTY), len(EMPTY) + 20, site.totals + spare + data),
            (len(EMPTY), 101, site.totals[:100] + data),
            (len(EMPTY), LONGEST - 1, site.totals[:64] + data),
            (len(EMPTY), 1, b""),
            (len(EMPTY), 0, data),
            (3, 20, spare + data),
            (0, 20, spare + data),
            (LONGEST - 1, 20, spare + data),
            (0, 0, b""),
        ):
            yield case(letter, head + little([(b, 2), (c, 2)]) + rest)


def at_random(rng):
    """A byte of ledger or record changed, or one of the slot; files with damage."""
    for _ in range(6):
        site, record = asked_at(rng, rng.randrange(30))
        ledger, data = byte_changed(rng, Offer(site.ledger, record), range(cases.IMAGE + BYTES))
        yield month_case(site._replace(ledger=ledger), data, None)
        at = SLOT * slot_of(record.period)[0] + rng.randrange(SLOT)
        totals = with_byte(site.totals, at, rng.randrange(256))
        yield month_case(site._replace(totals=totals), write_record(record), None)
    for _ in range(8):
        site, record = asked_at(rng, rng.randrange(30))
        file = file_of([record, *some_months(rng, rng.randint(1, 5), after(site, [record]))])
        file = rng.choice((damaged, lambda rng, file: hit(rng, file, range(BYTES))))(rng, file)
        yield case("w", payload_of(site, file, len(file), 4))


SHORT = no_totals, by_year, damaged_slots, differs, beside_plain, past_most, at_fault, two_faults, stopped
SHORT += past_the_last, odd_payloads, at_random


def with_totals_refused(rng):
    for part in SHORT:
        yield from part(rng)
