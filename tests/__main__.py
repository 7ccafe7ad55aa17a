"""Runs tests, counts their checks, and says what each module took.

Usage: python3 -m tests [MODULE | GROUP ..] [--except MODULE | GROUP ..] [-k NAME] [--set NAME=VALUE]
                        [--built] [--list] [-v]

A MODULE is tests/test_MODULE.py. The groups are `sources` (what reads sources only), `check` (what ./check runs) and
`ci` (all, which is also the default). With -k only those tests run whose names have NAME in them, or match it as a
pattern. --built takes the programs that `rt ci` left. --set gives a module a number or a text that its first comment
names. --list prints the tests and runs none, -v prints each test with its seconds.

A line for each check that fails, and for each module 'MODULE: N passed, M failed' with its seconds; at the end a table
of the times. The last line is 'N passed, M failed', and the status is 1 where M isn't 0. `python3 -m unittest -k NAME`
runs the same tests.
"""
import argparse
import importlib
import os
import sys
import time
import traceback
import unittest

from tests import case
from tests.common import BUILT

SOURCES = ("scripts", "numbers", "rows")
CHECK = (*SOURCES, "commands", "first", "examples", "refused")
OTHERS = (
    "versions", "kept", "trees", "staged", "update", "saved", "found", "howto", "readme", "dist", "kill", "live",
    "tasks", "python", "windows", "digests", "maps", "pictures", "json", "headers", "files", "linked", "called", "fuzz",
    "worst",
)
GROUPS = {"sources": SOURCES, "check": CHECK, "ci": CHECK + OTHERS}


class Result(unittest.TestResult):
    """The counts of one module's tests. A line is printed for each check that fails and for what isn't run."""

    def __init__(self, name, is_verbose):
        super().__init__()
        self.name, self.is_verbose, self.passed, self.failed, self.start = name, is_verbose, 0, 0, 0

    def say(self, line):
        print(f"{self.name}: {line}", flush=True)

    def startTest(self, test):
        super().startTest(test)
        self.start = time.monotonic()

    def stopTest(self, test):
        super().stopTest(test)
        counts = case.passed.pop(test.id(), 0), case.failed.pop(test.id(), 0)
        self.passed, self.failed = self.passed + counts[0], self.failed + counts[1]
        if self.is_verbose:
            self.say(f"{test.id().rpartition('.')[2]}: {counts[0]} passed, {counts[1]} failed, {self.seconds():.1f} s")

    def seconds(self):
        return time.monotonic() - self.start

    def addSuccess(self, test):
        # (a test without a check counts as one)
        if not case.passed[test.id()] + case.failed[test.id()]:
            self.passed += 1

    def addSkip(self, test, reason):
        super().addSkip(test, reason)
        self.say(f"{reason}: {test.id().partition('.')[2]} is left out")

    def addSubTest(self, test, subtest, err):
        if err is not None:
            self.say(f"{test.id().rpartition('.')[2]}: {err[1]}")

    def addError(self, test, err):
        self.failed += 1
        self.say(f"{test.id().partition('.')[2]}: {''.join(traceback.format_exception(*err))}")

    addFailure = addError


def modules_of(words):
    """The modules that these words name, in the order of GROUPS, each once."""
    named = {name for word in words for name in GROUPS.get(word, (word.removeprefix("test_"),))}
    unknown = named - {*GROUPS["ci"]}
    if unknown:
        sys.exit(f"python3 -m tests: there is no module or group {', '.join(sorted(unknown))}")
    return [name for name in GROUPS["ci"] if name in named]


def wanted(options):
    """The modules that are asked for."""
    excepted = modules_of(options.without)
    return [name for name in modules_of(options.names or ["ci"]) if name not in excepted]


def tests_in(suite):
    """The tests of a suite, one by one."""
    for each in suite:
        yield from tests_in(each) if isinstance(each, unittest.TestSuite) else [each]


def loaded(names, patterns):
    """The suites of the modules that have a test of these patterns."""
    loader = unittest.TestLoader()
    loader.testNamePatterns = [each if "*" in each else f"*{each}*" for each in patterns] or None
    for name in names:
        suite = loader.loadTestsFromModule(importlib.import_module(f"tests.test_{name}"))
        if suite.countTestCases():
            yield name, suite


def show(suites):
    """Prints the tests, each with the first line of what it says of itself."""
    for name, suite in suites:
        for test in tests_in(suite):
            said = test.shortDescription()
            print(f"{name}: {test.id().partition('.test_')[2].partition('.')[2]}{f': {said}' if said else ''}")


def run(suites, is_verbose):
    """Runs the modules in turn. What each came to: its name, the checks that passed and failed, and the seconds."""
    rows = []
    for number, (name, suite) in enumerate(suites):
        result, start = Result(name, is_verbose), time.monotonic()
        print(f"[{number + 1}/{len(suites)}] {name}: {suite.countTestCases()} tests", flush=True)
        suite.run(result)
        rows.append((name, result.passed, result.failed, time.monotonic() - start))
        print(f"{name}: {result.passed} passed, {result.failed} failed, {rows[-1][3]:.1f} s", flush=True)
    return rows


def main():
    parse = argparse.ArgumentParser(prog="python3 -m tests", usage=__doc__.partition("Usage: ")[2].partition("\n\n")[0])
    parse.add_argument("names", nargs="*")
    parse.add_argument("--except", dest="without", nargs="+", default=[])
    parse.add_argument("-k", dest="patterns", action="append", default=[])
    parse.add_argument("--set", dest="settings", action="append", default=[])
    parse.add_argument("--built", action="store_true")
    parse.add_argument("--list", action="store_true")
    parse.add_argument("-v", dest="is_verbose", action="store_true")
    options = parse.parse_args()
    for each in options.settings:
        name, _, value = each.partition("=")
        os.environ[f"TEST_{name.upper()}"] = value
    if options.built:
        os.environ[BUILT] = "1"
    suites = [*loaded(wanted(options), options.patterns)]
    if options.list:
        return show(suites)
    rows = run(suites, options.is_verbose)
    print(f"\n{'module':<12}{'passed':>8}{'failed':>8}{'seconds':>9}")
    for name, passed, failed, seconds in sorted(rows, key=lambda row: -row[3]):
        print(f"{name:<12}{passed:>8}{failed:>8}{seconds:>9.1f}")
    total = [sum(row[column] for row in rows) for column in (1, 2)]
    print(f"{total[0]} passed, {total[1]} failed", flush=True)
    sys.exit(0 if total[1] == 0 and rows else 1)


if __name__ == "__main__":
    main()
