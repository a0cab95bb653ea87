#!/usr/bin/env python3
"""Gives the definitions and lemmas of the crates their names in snake case: `entryOf` and `run-join` become `entry_of` and `run_join`.

usage: python3 tools/port_names.py [--look]        at the top of the repository, once, after port.py
       python3 tools/port_names.py --text FILE..   the same names in other texts, between backticks

A name is turned if a file of specs/ declares it, or one of proofs/ that is no function's own proof. With --look nothing is written, and the
names that would fall together are listed.
"""

import collections
import glob
import os
import re
import sys

OWN = ("Proof.antt", "Invariants.antt", "Answers.antt", "Lib.antt")
DECLARED = re.compile(r'^\s*(?:(?:pub|abbrev|unfoldable|opaque)\s+)*((?:[^\s(){}:;,.λ"|]+\s+)*?[^\s(){}:;,.λ"|]+)\s*:(?=\s|$)')
HEADED = re.compile(r"^\s*(?:(?:pub|abbrev|unfoldable|opaque)\s+)*(?:data|record|module|ruleset)\s+(\S+)")
TOKEN = re.compile(r"[^\s(){}\[\],;.«»\"`:!&|=+*/<>]+")
# Letters of the source method and of document 01 stay as they are written there.
LETTERS = {"V²", "v²", "φ"}
# Names that would fall together with another in sight, beside those that get `_lem` below.
CHOSEN = {"B-most": "b_of_most", "sameSign": "same_signs"}
# Names that port.py turned already, and that would fall together with a definition: where, what, and the name instead.
SCOPED = (
    ("by_type/proofs/", "left_alone", "left_alone_lem"),
    ("releases/proofs/", "left_alone", "left_alone_lem"),
    ("promise_run/", "whole_run", "whole_run_lem"),
)


def snake(name):
    name = name.replace("-", "_")
    name = re.sub(r"(?<=[a-z0-9])([A-Z])", r"_\1", name)
    name = re.sub(r"^([A-Z])(?=Of$)", r"\1_", name)
    return name.lower()


def sources(root):
    for kind in ("specs", "proofs"):
        yield from sorted(glob.glob(f"{root}/crates/*/{kind}/**/*.antt", recursive=True))


def declared(root):
    names = collections.defaultdict(set)
    for path in sources(root):
        if os.path.basename(path) in OWN:
            continue
        with open(path, encoding="utf-8") as f:
            for line in f:
                if line.lstrip().startswith("--"):
                    continue
                for name in (DECLARED.match(line) or HEADED.match(line) or [None, ""])[1].split():
                    names[name].add(path)
    return names


def is_old(name):
    if name in LETTERS or "◌" in name or not re.search(r"[A-Za-z]", name):
        return False
    if re.match(r"^[A-Z]", name):
        return "-" in name or bool(re.match(r"^[A-Z]Of$", name))
    return "-" in name or bool(re.search(r"[A-Z]", name))


def turned(root):
    """The new name of each old one. A lemma that would have a definition's name gets `_lem`, as in the library."""
    found = declared(root)
    new = {name: CHOSEN.get(name, snake(name)) for name in found if is_old(name)}
    taken = collections.Counter(new.values()) + collections.Counter(name for name in found if name not in new)
    return {old: name + "_lem" if "-" in old and taken[name] > 1 else name for old, name in new.items()}


def in_line(line, mark, names):
    """The code of a line, and what its comment has between backticks."""
    at = line.find(mark)
    while at > 0 and not line[at - 1].isspace():
        at = line.find(mark, at + 1)
    code, comment = (line, "") if at < 0 else (line[:at], line[at:])
    new = lambda m: names.get(m[0], m[0])
    return TOKEN.sub(new, code) + re.sub(r"`[^`]*`", lambda m: TOKEN.sub(new, m[0]), comment)


def turn(text, path, names):
    names = names | {old: new for where, old, new in SCOPED if f"/crates/{where}" in path}
    mark = "--" if path.endswith(".antt") else "//"
    return "".join(in_line(line, mark, names) for line in text.splitlines(keepends=True))


def falls(root, names):
    """Names that would fall together: two that become one, and one that becomes a word which a file of it has already."""
    said = []
    found = declared(root)
    made = collections.defaultdict(set)
    for old, new in names.items():
        made[new].add(old)
    for new, olds in sorted(made.items()):
        olds |= {new} & set(found)
        if len(olds) > 1:
            said.append(f"{new}: {', '.join(f'{o} in {sorted(p[len(root) + 8:] for p in found[o])}' for o in sorted(olds))}")
    for path in list(sources(root)) + sorted(glob.glob(f"{root}/crates/*/src/*.rt")):
        with open(path, encoding="utf-8") as f:
            words = {w for line in f for w in TOKEN.findall(line.split("--")[0] if path.endswith(".antt") else line.split("//")[0])}
        for old in sorted(words & set(names)):
            if names[old] in words:
                said.append(f"{path[len(root) + 8:]}: {old} would be {names[old]}, which is there")
    return said


def main(argv):
    root = os.getcwd()
    if argv[:1] == ["--text"]:
        with open(f"{root}/docs/PORT-NAMES.tsv", encoding="utf-8") as f:
            names = dict(line.rstrip("\n").split("\t") for line in f)
        for path in argv[1:]:
            with open(path, encoding="utf-8") as f:
                text = f.read()
            new = re.sub(r"`[^`\n]*`", lambda m: TOKEN.sub(lambda t: names.get(t[0], t[0]), m[0]), text)
            if new != text:
                with open(path, "w", encoding="utf-8") as f:
                    f.write(new)
        return 0
    names = turned(root)
    if argv[:1] == ["--look"]:
        print("\n".join(falls(root, names)))
        return 0
    for path in list(sources(root)) + sorted(glob.glob(f"{root}/crates/*/src/*.rt")):
        with open(path, encoding="utf-8") as f:
            text = f.read()
        new = turn(text, path, names)
        if new != text:
            with open(path, "w", encoding="utf-8") as f:
                f.write(new)
    with open(f"{root}/docs/PORT-NAMES.tsv", "w", encoding="utf-8") as f:
        f.write("".join(f"{old}\t{new}\n" for old, new in sorted(names.items())))
    return 0


if __name__ == "__main__":
    raise SystemExit(main(sys.argv[1:]))
