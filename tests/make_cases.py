#!/usr/bin/env python3
"""Writes cases for the program `cases` (docs/CASES.md), and the lines that the reference gives for them.

  make_cases.py [--group GROUP] [--seed N] [--out DIR]
  make_cases.py --store
  make_cases.py --check

GROUP is base, door, samples, released, months, uncertainty, sludge, orders, work, tunisia, columns,
yearly_totals, all of these, every-sum, every-rate or every-order.
DIR gets cases.bin and cases.txt, and a pair stop-*.bin, stop-*.txt for each way in which input cannot be read.
Every run with the same seed writes the same bytes; the stored cases are those of all groups with seed 1. Three groups
are not among them: every-sum has a case for each sum of squares that uncertainties come to, every-rate a look-up of
each rate with each of the kinds 1, 2, 0, 3 and 255, every-order a shuffled record for each order of the types.
--store writes the stored files anew that the reference decides, and says what changed: the stored cases, their
lines, and what the listing prints for its sample. --check only compares; its status is 1 where one differs.
"""
import argparse
import os
import random
import sys
from itertools import zip_longest

import cases
from base_cases import base, every_rate
from cases import case
from columns_cases import by_columns
from columns_faults import by_columns_refused
from door_cases import door
from months_cases import months
from order_cases import every_order, orders
from reference import listing, little
from released_cases import released
from samples_cases import samples
from sludge_cases import sludge
from tunisia_cases import years
from tunisia_faults import years_refused
from uncertainty_cases import every_sum, uncertainty
from work_cases import work
from work_faults import work_stopped
from yearly_totals_cases import with_totals
from yearly_totals_faults import with_totals_refused

ROOT = os.path.join(os.path.dirname(os.path.abspath(__file__)), "..")
GROUPS = {"base": [base], "door": [door], "samples": [samples], "released": [released], "months": [months]}
GROUPS |= {"uncertainty": [uncertainty], "sludge": [sludge], "orders": [orders], "work": [work, work_stopped]}
GROUPS |= {"tunisia": [years, years_refused], "columns": [by_columns, by_columns_refused]}
GROUPS |= {"yearly_totals": [with_totals, with_totals_refused]}
GROUPS["all"] = [cases_of for group in GROUPS.values() for cases_of in group]
GROUPS["every-sum"] = [every_sum]
GROUPS["every-rate"] = [every_rate]
GROUPS["every-order"] = [every_order]
FIRST = case("d", b"\1\1\0")
STOPS = {
    "header": FIRST + FIRST[:4],
    "kind": FIRST + case("x", b"") + FIRST,
    "long": FIRST + b"l" + little([(cases.LONGEST + 1, 4)]),
    "short": FIRST + case("d", b"\1\1") + FIRST,
    "samples": FIRST + case("m", bytes(8)) + FIRST,
    "step": FIRST + case("s", bytes(cases.IMAGE + 1)) + FIRST,
    "run": FIRST + case("r", bytes(cases.IMAGE + 3)) + FIRST,
    "step-136": FIRST + case("s", bytes(136 + 2)) + FIRST,
    "run-136": FIRST + case("r", bytes(136 + 4)) + FIRST,
    "factor-5": FIRST + case("u", bytes(5)) + FIRST,
    "factor-7": FIRST + case("u", bytes(7)) + FIRST,
    "codes-5": FIRST + case("k", b"\0\0\1\1\1") + FIRST,
    "codes-7": FIRST + case("k", b"\0\0\1\1\1\1\1") + FIRST,
    "order-8": FIRST + case("o", bytes(8)) + FIRST,
    "order-long": FIRST + b"o" + little([(cases.LONGEST + 1, 4)]),
    "years-21": FIRST + case("t", bytes(cases.HEAD - 1)) + FIRST,
    "years-long": FIRST + b"t" + little([(cases.LONGEST + 1, 4)]),
    "columns-17": FIRST + case("b", bytes(2 * cases.COLUMNS - 1)) + FIRST,
    "columns-long": FIRST + b"b" + little([(cases.LONGEST + 1, 4)]),
    "month-205": FIRST + case("y", bytes(cases.IMAGE + 5)) + FIRST,
    "month-long": FIRST + b"y" + little([(cases.LONGEST + 1, 4)]),
    "months-207": FIRST + case("w", bytes(cases.IMAGE + 7)) + FIRST,
    "months-long": FIRST + b"w" + little([(cases.LONGEST + 1, 4)]),
    "payload": FIRST + FIRST[:-1],
}


def stream_of(group, seed):
    """The bytes of a group's cases."""
    return b"".join(each for cases_of in GROUPS[group] for each in cases_of(random.Random(seed)))


def read(path):
    with open(path, "rb") as file:
        return file.read()


def write(path, data):
    with open(path, "wb") as file:
        file.write(data)


def write_pair(folder, name, stream):
    write(os.path.join(folder, name + ".bin"), stream)
    write(os.path.join(folder, name + ".txt"), cases.printed(stream).encode())


def stale():
    """The stored files that do not hold what the reference gives: path, bytes that stand there, bytes that should."""
    stream = stream_of("all", 1)
    sample = read(os.path.join(ROOT, "crates/listing/stdin"))
    for name, wanted in [
        ("crates/cases/stdin", stream),
        ("crates/cases/stdout", cases.printed(stream).encode()),
        ("crates/listing/stdout", listing(sample).encode()),
    ]:
        found = read(os.path.join(ROOT, name))
        if found != wanted:
            yield name, found, wanted


def store():
    """Writes the stored files anew, and says what changed."""
    changed = list(stale())
    for name, found, wanted in changed:
        write(os.path.join(ROOT, name), wanted)
        before, after = found.splitlines(), wanted.splitlines()
        lines = sum(old != new for old, new in zip_longest(before, after))
        print(f"{name}: changed" + (f" in {lines} of {len(after)} lines" if name.endswith("stdout") else ""))
    if not changed:
        print("nothing changed")
    return 0


def check():
    """Says in one line which stored files differ, and how they are made."""
    changed = [name for name, _, _ in stale()]
    if changed:
        names = ", ".join(changed)
        print(f"not what the reference gives: {names}; python3 tests/make_cases.py --store makes them anew")
    return 1 if changed else 0


def main():
    options = argparse.ArgumentParser(description=__doc__.split("\n")[0])
    options.add_argument("--group", choices=GROUPS, default="all")
    options.add_argument("--seed", type=int, default=1, metavar="N")
    options.add_argument("--out", default=".", metavar="DIR")
    options.add_argument("--store", action="store_true", help="write the stored files anew, and say what changed")
    options.add_argument("--check", action="store_true", help="say which stored files differ")
    options = options.parse_args()
    if options.store:
        return store()
    if options.check:
        return check()
    os.makedirs(options.out, exist_ok=True)
    write_pair(options.out, "cases", stream_of(options.group, options.seed))
    for name, stream in STOPS.items():
        write_pair(options.out, f"stop-{name}", stream)
    return 0


if __name__ == "__main__":
    sys.exit(main())
