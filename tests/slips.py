#!/usr/bin/env python3
"""A test of the selftest: changes each number of the reference by one, up and down, and sees the selftest fail.

And one of the stored cases of requests g to j and l: sees them answered otherwise by every wrong reading in
order_slips.py, in work_slips.py, in tunisia_slips.py, in columns_slips.py and in yearly_totals_slips.py.

  slips.py    names every change and reading that goes unseen, then counts; status 1 where there is one (some minutes)
"""
import ast
import os
import shutil
import subprocess
import sys
import tempfile

import columns_slips
import order_slips
import tunisia_slips
import work_slips
import yearly_totals_slips

ROOT = os.path.join(os.path.dirname(os.path.abspath(__file__)), "..")
FILES = [os.path.join("tests", name) for name in ("reference.py", "tunisia.py", "columns.py", "yearly_totals.py")]
SAME = "range(16, (48 - 1), 4)"  # the one change that changes nothing
MISREAD = {"g": order_slips, "h": work_slips, "i": tunisia_slips, "j": columns_slips}  # wrong readings of a request
MISREAD["l"] = yearly_totals_slips


def numbers(node):
    """The numbers in a piece of the program; a power of two numbers, as 10**9, is one."""
    if isinstance(node, ast.Constant) and type(node.value) is int:
        yield node
    elif isinstance(node, ast.BinOp) and isinstance(node.op, ast.Pow) and isinstance(node.right, ast.Constant):
        yield node
    else:
        for part in ast.iter_child_nodes(node):
            yield from numbers(part)


def slips(lines):
    """Each change: the place of its line, and the line as it then reads. What imports the modules is left as it is."""
    body = ast.parse("\n".join(lines)).body
    start = next(i for i, part in enumerate(body) if isinstance(part, (ast.Assign, ast.ClassDef)))
    for node in (node for part in body[start:] for node in numbers(part)):
        line, first, last = lines[node.lineno - 1], node.col_offset, node.end_col_offset
        for change in ("+ 1", "- 1"):
            slip = f"{line[:first]}({line[first:last]} {change}){line[last:]}"
            if SAME not in slip:
                yield node.lineno - 1, slip


def passes(copy, name, lines):
    """Whether the selftest is content with these lines of a file of the reference."""
    with open(os.path.join(copy, name), "w", encoding="utf-8") as file:
        file.write("\n".join(lines))
    words = [sys.executable, "-B", os.path.join(copy, "tests", "selftest.py")]
    return subprocess.run(words, capture_output=True, check=False).returncode == 0


def changed(copy, name):
    """The changes of a file, each with its line's number and whether it goes unseen; the file is then as it was."""
    with open(os.path.join(ROOT, name), encoding="utf-8") as file:
        lines = file.read().split("\n")
    if not passes(copy, name, lines):
        raise SystemExit("the selftest fails with nothing changed")
    for at, slip in slips(lines):
        yield f"{name}:{at + 1}: {slip.strip()}", passes(copy, name, lines[:at] + [slip] + lines[at + 1 :])
    with open(os.path.join(copy, name), "w", encoding="utf-8") as file:
        file.write("\n".join(lines))


def main():
    with tempfile.TemporaryDirectory() as copy:
        for part in ("tests", "tools", "docs", "include"):
            shutil.copytree(os.path.join(ROOT, part), os.path.join(copy, part))
        shutil.copy(os.path.join(ROOT, "README.md"), copy)
        tried = [change for name in FILES for change in changed(copy, name)]
    misread = [(request, name) for request, readings in MISREAD.items() for name in readings.unseen()]
    for slip, unseen in tried:
        if unseen:
            print(f"NOT SEEN: {slip}")
    for request, name in misread:
        print(f"NOT SEEN: request {request} read as: {name}")
    count = len(tried) + sum(len(readings.READINGS) for readings in MISREAD.values())
    missed = sum(unseen for _, unseen in tried) + len(misread)
    print(f"slips: {count - missed} seen, {missed} unseen")
    return 1 if missed else 0


if __name__ == "__main__":
    sys.exit(main())
