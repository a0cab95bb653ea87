"""Every fault that document 01 lists under "Refusal numbers", each as a change to an offer that would be accepted.

Request f of document 02 takes some of them back, and gives some another number.
"""
from collections.abc import Callable
from typing import NamedTuple

from histories import PLACES, balanced, by_default, replaced
from reference import BYTES, FRESH, MASS_LIMIT, RECORDS, REFUSALS, Ledger, Record, little, write_record

LAST = 2**64 - 1
ORDER = [number for tested in REFUSALS.values() for number in tested]  # in which refusals are tested


class Offer(NamedTuple):
    """One record for one ledger, with n above 0: the bytes offered are cut or drawn out to the length."""

    ledger: Ledger
    record: Record
    length: int = BYTES
    room: int = BYTES

    def data(self):
        return (write_record(self.record) * 3)[: self.length]


class Fault(NamedTuple):
    number: int  # of the refusal
    field: str
    change: Callable  # from an offer to one with this fault
    instead: int | None = None  # the refusal by request f, where it is another; 0 for none


def at_n(number, n):
    """The ledger moved to another n, and the record's period with it."""
    return Fault(number, "n", lambda o: Offer(o.ledger._replace(n=n), o.record._replace(period=(n + 1) % 2**16)))


def not_fresh(**fields):
    """No record accepted, and yet these fields."""
    return Fault(3, "n", lambda o: Offer(FRESH._replace(**fields), o.record._replace(period=1)))


def in_ledger(field, **values):
    """An unsound ledger, balanced; a value that is a function is worked out from the ledger."""
    return Fault(3, field, lambda o: o._replace(ledger=balanced(changed(o.ledger, values, o.ledger))))


def in_record(number, field, *values):
    """A fault for each value of a record's field; one that is a function is worked out from the offer."""
    return [Fault(number, field, lambda o, v=v: o._replace(record=changed(o.record, {field: v}, o))) for v in values]


def changed(fields, values, known):
    return fields._replace(**{name: value(known) if callable(value) else value for name, value in values.items()})


def in_offer(number, field, *values):
    """A fault for each value of a field of the offer itself."""
    return [Fault(number, field, lambda o, v=v: o._replace(**{field: v})) for v in values]


def four_bytes(data):
    """Bytes 12 to 15, which document 01 has zero; by request f the first two are m of types 7 and 8."""
    fields = {"m7": data[0], "m8": data[1], "zero": data[2:]}
    number = 5 if any(data[2:]) else 8 if max(data) > 100 else 0
    return Fault(5, "zero", lambda o: o._replace(record=changed(o.record, fields, o)), number)


def brought(j, top):
    return in_ledger("T", T=lambda ledger: replaced(ledger.T, j, top(by_default(ledger.n)[j])))


def left(j, top):
    return in_ledger("R", R=lambda ledger: replaced(ledger.R, j, top(ledger.T[j])))


def shifted_period(shift):
    return lambda offer: (offer.ledger.n + 1 + shift) % 2**16


def other_climate(shift):
    return lambda offer: (offer.record.climate - 1 + shift) % 4 + 1


def one_mass(j, kg):
    return lambda offer: replaced(offer.record.masses, j, kg)


FAULTS = [
    *in_offer(1, "length", 0, 1, 47, 49, 96, 144),
    *in_offer(2, "room", 0, 1, 47),
    *(at_n(3, n) for n in (1201, 1202, 2048, 65535)),
    *(not_fresh(**{field: code}) for field in ("kind", "climate") for code in (1, 2, 255)),
    *(not_fresh(T=replaced(FRESH.T, j, 1)) for j in PLACES),
    *(not_fresh(R=replaced(FRESH.R, j, 1)) for j in PLACES),
    *(not_fresh(T=replaced(FRESH.T, j, 2**63), R=replaced(FRESH.R, j, 2**63)) for j in PLACES),
    *(in_ledger("ledger kind", kind=kind) for kind in (0, 3, 255)),
    *(in_ledger("ledger climate", climate=climate) for climate in (0, 5, 255)),
    *(brought(j, lambda default: default + 1) for j in PLACES[:6]),
    *(brought(j, lambda default: default + 1)._replace(instead=0) for j in PLACES[6:]),
    *(brought(j, lambda default: LAST) for j in PLACES),
    *(left(j, lambda T: T + 1) for j in PLACES),
    *(left(j, lambda T: LAST) for j in PLACES),
    at_n(4, RECORDS),
    *in_record(5, "kind", 0, 3, 255),
    *in_record(5, "climate", 0, 5, 255),
    *in_record(5, "site_class", 0, 5, 255),
    *(four_bytes(little([(byte << 8 * at, 4)])) for at in range(4) for byte in (1, 128, 255)),
    *map(four_bytes, (bytes([128, 128, 0, 0]), bytes([0, 0, 1, 255]), bytes([255] * 4))),
    *in_record(6, "period", 0, 65535, *map(shifted_period, (-1, 1, 256, 32768))),
    *in_record(7, "kind", lambda offer: 3 - offer.record.kind),
    *in_record(7, "climate", *map(other_climate, (1, 2, 3))),
    *in_record(8, "factor", 0, 101, 255),
    *in_record(8, "OX", 101, 255),
    *in_record(8, "F", 101, 255),
    *in_record(8, "DOCf", 101, 255),
    *in_record(8, "GWP", 0, 101, 255),
    *in_record(8, "f", 10001, 10240, 65535),
    *in_record(9, "masses", *(one_mass(j, kg) for j in PLACES for kg in (MASS_LIMIT + 1, 2**31, 2**32 - 1))),
]
OF_RECORD = [fault for fault in FAULTS if fault.field in Record._fields]


def named(*faults):
    """The refusal that an offer, or what else is asked, meets with these faults."""
    met = {fault.number if fault.instead is None else fault.instead for fault in faults}
    return next((number for number in ORDER if number in met), 0)


def of_field(number, field):
    return [fault for fault in FAULTS if (fault.number, fault.field) == (number, field)]


def applied(offer, faults):
    """The offer with several faults; one that moves n comes first, as others are worked out from n."""
    for fault in sorted(faults, key=lambda fault: fault.field != "n"):
        offer = fault.change(offer)
    return offer
