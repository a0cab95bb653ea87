"""What the checks of the selftest share."""
import struct

import retold
from histories import PLAIN
from reference import FRESH, Record, read_record, step, write_record

ROOM = bytes(48)
NOTHING = (0, 0, 0, 0, 0, 0, 0, 0)  # of the eight types
NO_VALUES = (0, 0, 0)  # of a year


def check(name, found, wanted):
    if found != wanted:
        raise SystemExit(f"{name}: {found} where {wanted} should stand")


def offered(ledger=FRESH, **changes):
    """The answer to a plain record with some fields changed."""
    return step(ledger, write_record(PLAIN._replace(**changes)), ROOM)


def fields_of(data):
    """A record's fields, read by Python's own means."""
    record = Record(*struct.unpack("<H8BH2B2s", data[:16]), struct.unpack("<8I", data[16:]))
    check("record", (read_record(data), write_record(record)), (record, data))
    return record


def told_again(ledger, data, answer):
    """An accepted record's step and its output record, each told a second time."""
    record = fields_of(data)
    n, kind, climate, _, T, R, released = answer.ledger
    check("ledger", (n, kind, climate), (ledger.n + 1, record.kind, record.climate))
    check("step", (T, R, released, *answer[2:6]), retold.step(ledger, record))
    numbers = *answer[3:6], sum(R), sum(T)
    check("output record", answer.output, struct.pack("<HBBI5Q", record.period, kind, climate, 0, *numbers))
    return record
