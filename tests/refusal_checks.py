"""Holds the refusal numbers of the reference to those of docs/METHOD.md, README.md and include/landfill.h."""
import os
import re

from checks import check
from faults import ORDER

ROOT = os.path.join(os.path.dirname(os.path.abspath(__file__)), "..")
HEADER = os.path.join("include", "landfill.h")


def part_of(name, start, end):
    """The part of a file after some words, up to others."""
    with open(os.path.join(ROOT, name), encoding="utf-8") as file:
        return file.read().split(start)[1].split(end)[0]


def in_table(name):
    """The numbers in a document's table of refusals."""
    return [int(number) for number in re.findall(r"\n\| (\d+) \|", part_of(name, "\n## Refusal numbers", "\n## "))]


def in_documents():
    """Both documents have each number once; docs/METHOD.md has them in the order of the tests."""
    name = os.path.join("docs", "METHOD.md")
    check(f"refusals in {name}", in_table(name), ORDER)
    check("refusals in README.md", sorted(in_table("README.md")), sorted(ORDER))


def in_header():
    """The header names 0 and each number, and no other; each name has a text of its own, and nothing else has one."""
    names = dict(re.findall(r"(LANDFILL_\w+) = (\d+)", part_of(HEADER, "/* Refusals.", "};")))
    check(f"refusals in {HEADER}", sorted(map(int, names.values())), [0, *sorted(ORDER)])
    body = part_of(HEADER, "landfill_refusal_text(unsigned refusal)", "\n}")
    cases, texts = re.findall(r"case (.+?):", body), re.findall(r'return "(.+)";', body)
    check(f"texts in {HEADER}", sorted(cases), sorted(names))
    check(f"one text each in {HEADER}, and one for no refusal", len(set(texts)), len(names) + 1)
