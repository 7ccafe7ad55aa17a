"""Files that are made to be slow (bench/worst.py) take no more steps than their length allows.

All commands of index-tool are run on each file, except those of tables, on which bench_times is run; with `--set
name=TEXT`, on those files alone whose name has TEXT. Valgrind's callgrind counts the instructions at two sizes of each
file, of which one is twice the other. Instructions are what comparisons and bytes looked at add up to, and don't depend
on what else the machine does. They may grow by a tenth more than the case says, and be so many a byte of the greater
file as tests/worst.rows has for the case and the call.

On a larger file each command has the memory that the case says for a byte of it, added to what any program takes, and
answers as it does with more: the same status, and as many bytes, of which there may be so many a byte of the file as
the row says. With `--set show=1` the rows are printed as the program is now, with a sixth to spare.
"""
import math
import os
import pathlib
import subprocess
import tempfile

import worst  # (bench/worst.py)

from tests import TOP
from tests.case import Case, needs
from tests.common import program, setting, steps
from tests.each import each

ROWS = TOP / "tests" / "worst.rows"
# How the names of files begin in which an extension is made to be slow.
GROUPS = {
    "cached trees": ("children of", "nodes ", "cached trees"),
    "extensions": (
        "small extensions", "resolve-undo", "blocks of", "untracked names", "directories", "runs of", "a monitor's",
        "words of zeros",
    ),
}
# What share of a case's least size the smaller file has that steps are counted of, by whether a command reads it: so
# much that a program's start is little of it. And that of the file that a command has little memory for.
SHARES, HELD_SHARE = {True: 32, False: 8}, 4
# The bytes of memory that a program takes before it reads anything.
START = 48 << 20


def is_command(call):
    return call in worst.TOLD


def calls_of(case):
    """What is run on the file of a case: all commands, where it is a command's."""
    commands = worst.TOLD if any(map(is_command, case.calls)) else ()
    return (*commands, *(call for call in case.calls if not is_command(call)))


def on_file(case, size, run):
    """What a run on the case's file of a size comes to, and the file's length."""
    with tempfile.TemporaryDirectory(prefix="worst-") as folder:
        path = worst.put(pathlib.Path(folder), case.make(size))
        return run(path), path.stat().st_size


def told(words, memory=None):
    """The status of a run that has so much memory, and how many bytes it prints."""
    limit = ("sh", "-c", 'ulimit -v "$0" && exec "$@"', str(memory >> 10)) if memory else ()
    done = subprocess.run((*limit, *map(str, words)), stdin=subprocess.DEVNULL, capture_output=True, check=False)
    return done.returncode, len(done.stdout)


class Found:
    """What one call on the files of a case comes to."""

    def __init__(self, case, call, tool, times):
        self.case, self.call = case, call
        words = lambda path: worst.words(case, call, tool, times, path)
        size = case.least // SHARES[is_command(call)]
        self.one, _ = on_file(case, size, lambda path: steps(words(path)))
        self.two, self.length = on_file(case, 2 * size, lambda path: steps(words(path)))
        self.wide = self.held = (0, 0)
        self.wide_length = 1
        if is_command(call):
            self.compare(words)

    def compare(self, words):
        """Runs the command with little memory, and with as much as there is."""

        def run(path):
            return told(words(path)), told(words(path), START + self.case.memory * path.stat().st_size)

        (self.wide, self.held), self.wide_length = on_file(self.case, self.case.least // HELD_SHARE, run)

    def row(self):
        """The line of tests/worst.rows for it: steps a byte, and bytes that are printed a byte."""
        numbers = (self.two / self.length, self.wide[1] / self.wide_length)
        return "\t".join((self.case.name, self.call, *(str(math.ceil(it * 7 / 6)) for it in numbers)))

    def faults(self, most):
        """What is wrong, where so many steps and so many printed bytes a byte are the most."""
        most_steps, most_bytes = most
        if self.two > 1.1 * self.case.growth * self.one or self.two > self.length * most_steps:
            yield f"{self.two} steps for {self.length} bytes, and {self.one} for half of it"
        if self.held != self.wide:
            yield f"status and bytes {self.held} in little memory, and {self.wide} in more"
        if self.wide[1] > self.wide_length * most_bytes:
            yield f"{self.wide[1]} bytes are printed of {self.wide_length}"


def bounds():
    """How many steps, and how many printed bytes, a byte of the file each call of a case may take."""
    found = {}
    for line in ROWS.read_text().splitlines():
        name, call, *most = line.split("\t")
        found[name, call] = [int(number) for number in most]
    return found


def group_of(case):
    """What of a file is made to be slow."""
    if not any(map(is_command, case.calls)):
        return "tables"
    return next((name for name, begins in GROUPS.items() if case.name.startswith(begins)), "entries")


@needs("valgrind")
class Worst(Case):
    def look(self, group):
        """At the files of a group whose names have the text that is asked for."""
        cases = [case for case in worst.CASES if group_of(case) == group and setting("name", "") in case.name]
        wanted, tools = [(case, call) for case in cases for call in calls_of(case)], (self.tool, program("bench_times"))
        most, is_shown = bounds(), setting("show", "")
        for found in each(lambda pair: Found(*pair, *tools), wanted, os.cpu_count()):
            if is_shown:
                print(found.row(), flush=True)
                continue
            faults = [*found.faults(most[found.case.name, found.call])]
            self.hold(f"{found.case.name}, {found.call}: {'; '.join(faults)}", not faults)

    def test_entries(self):
        self.look("entries")

    def test_cached_trees(self):
        self.look("cached trees")

    def test_other_extensions(self):
        self.look("extensions")

    def test_tables(self):
        self.look("tables")
