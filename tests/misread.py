"""What the wrong readings of a request have in common: the stored cases have to show each of them."""
import random
from unittest import mock

import cases


def unseen(readings, module, letters, *groups):
    """The names of the readings that give the line of every stored case of the groups; short cases are tried first.

    A reading has a name, and functions that it puts in the place of the module's. The cases have these letters.
    """
    line_of = {ord(letter): cases.KINDS[letter].line for letter in letters}
    stored = sorted((each for cases_of in groups for each in cases_of(random.Random(1))), key=len)
    lines = [(line_of[each[0]], each[5:], line_of[each[0]](each[5:])) for each in stored]
    for name, functions in readings.items():
        with mock.patch.multiple(module, **functions):
            if all(line(payload) == printed for line, payload, printed in lines):
                yield name
