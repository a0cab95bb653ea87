#!/usr/bin/env python3
"""Works the entries of the decay table out from exact fractions, by the rule of document 01, "The decay table".

  decay_tables.py               prints those by year as a Rattle constant, laid out as rt fmt lays it out
  decay_tables.py --check FILE  compares it with the one that stands in FILE; exit status 1 where they differ
"""
import sys
import textwrap
from fractions import Fraction
from math import floor

BILLION = 10**9
COLUMNS = 100  # the longest line of rt fmt
RATES = range(1, 401)  # thousandths a year
PARTS = {1: 1000, 2: 12000}  # by kind: x is the rate over this number


def series(x, n):
    """E(n): the sum of (-x)^i / i! for i from 0 to n."""
    total = term = Fraction(1)
    for i in range(1, n + 1):
        term *= -x / i
        total += term
    return total


def entry(kind, rate):
    """The whole number D with D <= 10^9 * E(15) and 10^9 * E(14) < D + 1; an error where there is none or a second."""
    x = Fraction(rate, PARTS[kind])
    low, high = BILLION * series(x, 15), BILLION * series(x, 14)
    fitting = [D for D in range(floor(high) - 1, floor(low) + 2) if D <= low and high < D + 1]
    if len(fitting) != 1:
        raise ValueError(f"kind {kind}, rate {rate}: the rule fits {fitting}, not one number")
    return fitting[0]


def block():
    """The lines of the entries by year as a Rattle constant."""
    entries = " ".join(f"{entry(1, rate)}," for rate in RATES)
    rows = textwrap.wrap(entries, COLUMNS, initial_indent="    ", subsequent_indent="    ")
    return [f"const YEARLY: [u32; {len(RATES)}] = [", *rows, "];"]


def difference(wanted, path, lines):
    """What keeps the lines of a source from holding the wanted block, or None where they hold it."""
    if lines.count(wanted[0]) != 1:
        return f"{path}: the line '{wanted[0]}' stands {lines.count(wanted[0])} times, not once"
    start = lines.index(wanted[0])
    for i, line in enumerate(wanted):
        found = lines[start + i] if start + i < len(lines) else "the end of the file"
        if found != line:
            return f"{path}:{start + i + 1}: '{found.strip()}' stands where '{line.strip()}' should"
    return None


def main(words):
    wanted = block()
    if not words:
        print("\n".join(wanted))
        return 0
    if len(words) != 2 or words[0] != "--check":
        print(__doc__, file=sys.stderr)
        return 2
    with open(words[1], encoding="utf-8") as source:
        lines = source.read().split("\n")
    found = difference(wanted, words[1], lines)
    if found:
        print(found)
    return 1 if found else 0


if __name__ == "__main__":
    sys.exit(main(sys.argv[1:]))
