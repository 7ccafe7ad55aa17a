"""The library of tests/refused.c, which refuses memory and calls of the system, and what programs do with it.

A program is begun with it put before the C library (LD_PRELOAD); refused.c says what its variables are.
"""
import atexit
import functools
import os
import pathlib
import tempfile

from tests import callers
from tests.common import answer

# What the library counts, in the order in which it writes the numbers.
COUNTED = ("request", "call", "move", "wait", "block", "largest")
ALONE, GOING_ON = {}, {"ON": 1}


@functools.cache
def library():
    """Its path. It is built at the first request."""
    folder = tempfile.TemporaryDirectory(prefix="failing-")
    atexit.register(folder.cleanup)
    return callers.preload(pathlib.Path(folder.name), "refused")


def settings(**variables):
    """The environment of a program that gets it, with variables of refused.c."""
    named = {f"REFUSED_{name}": str(value) for name, value in variables.items()}
    return os.environ | {"LD_PRELOAD": str(library())} | named


def counts_in(path):
    """The numbers that it wrote into a file, by name."""
    return dict(zip(COUNTED, map(int, path.read_text().split())))


def counts_of(words, counts, **variables):
    """What a program answers, and the numbers of its run, which are written into a file first."""
    done = answer(words, env=settings(COUNTS=counts, **variables))
    return done, counts_in(counts)


def each(totals, *kinds):
    """Each single refusal of some kinds, alone or with all after it: what it is, and the variables for it."""
    for kind, goes_on in kinds:
        for number in range(1, totals[kind] + 1):
            yield f"{kind} {number}{' and on' if goes_on else ''}", {"KIND": kind, "NTH": number} | goes_on
