"""Holds the reference to request g of document 02: where masses go, the report, what is refused, and the way back."""
import struct
from itertools import permutations, product

import retold
from checks import check
from faults import applied, named
from order_cases import FAULTS_AT_ONCE, any_file, few, file_with, random_order, shuffled
from reference import repair

IN_PLACE = bytes([1, 2, 3, 4, 5, 6, 7, 8])
TURNED = IN_PLACE[::-1]
OUTPUT, REPORT = b"\xa5" * 200, b"\x5a" * 9  # lent, with bytes to spare


def record(*masses):
    return struct.pack("<16s8I", bytes(range(101, 117)), *masses)


def repaired(order, file, output=OUTPUT, report=REPORT):
    """What the reference answers, which has to be what is told a second time."""
    answer = repair(order, file, output, report)
    check(f"order {order.hex()} for {file.hex()}", answer, retold.repaired(order, file, output, report))
    return answer


def refused(number, order, file, output=OUTPUT, report=REPORT):
    """Nothing is written, and nothing is counted."""
    answer = repaired(order, file, output, report)
    check(f"order {order.hex()} for {len(file)} bytes", answer, (number, 0, output, report))


def worked():
    """Records put right by hand: order, masses, masses at their types' places, and the report from type 8 to type 1."""
    tens = 10, 20, 30, 40, 50, 60, 70, 80
    for order, old, new, bits in [
        ((1, 2, 3, 4, 5, 6, 7, 8), tens, tens, "00000000"),
        ((3, 1, 2, 4, 5, 6, 7, 8), tens, (20, 30, 10, 40, 50, 60, 70, 80), "00000111"),
        ((1, 2, 3, 4, 5, 7, 8, 6), tens, (10, 20, 30, 40, 50, 80, 60, 70), "11100000"),
        ((2, 3, 4, 5, 6, 7, 8, 1), tens, (80, 10, 20, 30, 40, 50, 60, 70), "11111111"),
        ((2, 3, 4, 5, 6, 7, 8, 1), (5, 5, 5, 5, 5, 5, 5, 6), (6, 5, 5, 5, 5, 5, 5, 5), "10000001"),
        ((8, 7, 6, 5, 4, 3, 2, 1), (1, 2, 3, 4, 4, 3, 2, 0), (0, 2, 3, 4, 4, 3, 2, 1), "10000001"),
        ((2, 1, 3, 4, 5, 6, 7, 8), (7, 7, 0, 0, 0, 0, 0, 0), (7, 7, 0, 0, 0, 0, 0, 0), "00000000"),
        ((2, 1, 3, 4, 5, 6, 8, 7), (1, 257, 0, 0, 0, 0, 5, 2**31 + 5), (257, 1, 0, 0, 0, 0, 2**31 + 5, 5), "11000011"),
    ]:
        answer = repaired(bytes(order), record(*old))
        wanted = bits.count("1"), record(*new) + OUTPUT[48:], bytes([int(bits, 2)]) + REPORT[1:]
        check(f"{old} by {order}", answer, (0, *wanted))
    two = record(*tens) + bytes(range(48))
    first, second = record(20, 10, *tens[2:]), bytes([*range(16), *range(20, 24), *range(16, 20), *range(24, 48)])
    answer = repaired(bytes([2, 1, 3, 4, 5, 6, 7, 8]), two, b"x" * 97, b"yyy")
    check("two records", answer, (0, 4, first + second + b"x", b"\3\3y"))


def named_once():
    """Every byte at each place, other lengths, and types at four places with several at the other four."""
    file = record(1, 2, 3, 4, 5, 6, 7, 8)
    for place, byte in product(range(8), range(256)):
        if byte != IN_PLACE[place]:
            refused(20, IN_PLACE[:place] + bytes([byte]) + IN_PLACE[place + 1 :], file)
    for length in range(300):
        if length != 8:
            refused(20, (IN_PLACE * 40)[:length], file)
            refused(20, bytes(place % 256 for place in range(1, length + 1)), file)
    for four, others in product(product(range(1, 9), repeat=4), ((5, 6, 7, 8), (8, 4, 2, 1), (3, 3, 6, 6))):
        order = bytes(four + others)
        check(f"order {order.hex()}", repaired(order, file).refusal, 0 if len(set(order)) == 8 else 20)


def every_room():
    """Each length of a file up to three records and a byte, with each room about what it needs."""
    file = bytes(range(3 * 48 + 1))
    for length in range(len(file) + 1):
        part, records = file[:length], length // 48
        for room, report_room in product({0, 1, 48, max(length - 1, 0), length, length + 1, 200}, range(6)):
            output, report = OUTPUT[:room], REPORT[:report_room]
            if length % 48 != 0:
                refused(21, TURNED, part, output, report)
            elif room < length or report_room < records:
                refused(22, TURNED, part, output, report)
            else:
                answer = repaired(TURNED, part, output, report)
                check(f"{length} bytes into {room}", answer[:2], (0, 8 * records))
                check("output to spare", answer.output[length:], output[length:])
                check("report to spare", answer.report[records:], report[records:])


def in_order(rng):
    """Several faults at once: 20 is named before 21, and 21 before 22."""
    for faults in FAULTS_AT_ONCE:
        asked = applied(shuffled(random_order(rng), any_file(rng, 2)), faults)
        refused(named(*faults), bytes(asked.order), asked.file, OUTPUT[: asked.room], REPORT[: asked.report])


def kept(file):
    """What no order changes: the first bytes of each record, and its masses whatever their places."""
    return [(head, sorted(masses)) for head, *masses in struct.iter_unpack("<16s8I", file)]


def brought_back(order, file):
    """A file put right: nothing is lost, no change is what leaves the file as it is, and the inverse brings it back."""
    output, report = bytes(len(file)), bytes(len(file) // 48)
    there = repaired(order, file, output, report)
    check("what is kept", kept(there.output), kept(file))
    check("no change", there.changed == 0, there.output == file)
    check("bits", there.changed, sum(bin(byte).count("1") for byte in there.report))
    inverse = bytes(sorted(IN_PLACE, key=lambda place: order[place - 1]))
    back = repair(inverse, there.output, output, report)
    check(f"order {order.hex()} and back", back, (0, there.changed, file, there.report))


def at_random(rng):
    """Orders for files of any bytes, and for files of masses that are often the same; an order that moves nothing."""
    for records in (0, 1, 2, 3, 5) * 40:
        for file in (rng.randbytes(48 * records), file_with(rng, *(few(rng) for _ in range(records)))):
            brought_back(bytes(random_order(rng)), file)
            answer = repaired(IN_PLACE, file, bytes(len(file)), bytes(records))
            check("an order that moves nothing", answer, (0, 0, file, bytes(records)))


def every_order(rng):
    """All orders of eight types, each for a record of its own."""
    for order in permutations(IN_PLACE):
        brought_back(bytes(order), any_file(rng, 1))
