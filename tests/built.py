"""Cases of steps, runs and listings, each built for its answer: one that the reference does not give is an error here.

Those in a year take a ledger without regard to what it remembers, and put it into the year of the first record offered.
"""
import cases
import reference
from cases import case
from histories import in_year_of, whole_records
from reference import BYTES, MONTHLY, MONTHS, REFUSALS, little, year_of

AFTER_17 = REFUSALS["record"][REFUSALS["record"].index(17) + 1 :]


def step_case(ledger, data, room=BYTES, expect=None):
    """One step; expect is the refusal that it is built for."""
    found = reference.refusal_of(ledger, data, room)
    if expect not in (None, found):
        raise SystemExit(f"step built for {expect}, found {found}: {ledger} room {room} {data.hex()}")
    return case("s", cases.image(ledger) + little([(room, 2)]) + data)


def run_case(ledger, data, room, expect=None, work=None):
    """A whole run; expect is the accepted count and the refusal that it is built for, work its decay work."""
    answer = reference.run(ledger, data, bytes(min(room, cases.LONGEST)))
    found = answer.accepted, answer.refusal
    if expect not in (None, found) or work not in (None, answer.work):
        raise SystemExit(f"run built for {expect}, work {work}, found {found}, {answer.work}: {ledger} room {room}")
    return case("r", cases.image(ledger) + little([(room, 4)]) + data)


def listing_case(data, expect):
    """A listing; expect is the accepted count and the refusal that it is built for."""
    accepted, refusal = expect
    found = reference.listing(data).splitlines()[-1]
    as_built = found == f"refused {refusal} at record {accepted + 1}" if refusal else found.startswith(f"{accepted} ")
    if not as_built:
        raise SystemExit(f"listing built for {expect}, found {found}")
    return case("l", data)


def offer_case(offer, expect):
    return step_case(offer.ledger, offer.data(), offer.room, expect)


def step_in_year(ledger, data, room=BYTES, expect=None):
    return step_case(in_year_of(ledger, data), data, room, expect)


def run_in_year(ledger, data, room, expect=None):
    """Expect is what the run is built for where no month changes its year's factors before."""
    ledger = in_year_of(ledger, data)
    return run_case(ledger, data, room, expect and unless_changed(ledger, data, expect))


def offer_in_year(offer, expect):
    return step_in_year(offer.ledger, offer.data(), offer.room, expect)


def unless_changed(ledger, data, expect):
    """The accepted count and the refusal, or 17 where a month changes its year's factors before that is tested."""
    accepted, refusal = expect
    kept = kept_months(ledger, data)
    return (kept, 17) if kept < accepted or (kept == accepted and refusal in AFTER_17) else expect


def kept_months(ledger, data):
    """How many records there are before the first month that has other factors than the first month of its year."""
    records = whole_records(data)
    for place, record in enumerate(records):
        first = place - (ledger.n + place) % MONTHS
        year = year_of(records[first]) if first >= 0 else ledger.year
        if record.kind == MONTHLY and year_of(record) != year:
            return place
    return len(records)
