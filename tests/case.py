"""The base of all tests, which counts single checks and has temporary folders and the built program."""
import collections
import pathlib
import shutil
import tempfile
import unittest

from tests.common import program

# How many checks of each test passed and failed, by the test's id.
passed, failed = collections.Counter(), collections.Counter()


def needs(*programs):
    """Skips a test or a class of tests where one of these programs isn't there."""
    lacking = [name for name in programs if not shutil.which(name)]
    return unittest.skipIf(lacking, f"there is no {' and no '.join(lacking)}")


class Case(unittest.TestCase):
    """Tests whose single checks are counted. A test with a failed check goes on, and fails."""

    def hold(self, what, holds):
        """Counts one check, and reports what isn't so where it doesn't hold."""
        (passed if holds else failed)[self.id()] += 1
        if not holds:
            with self.subTest(what):
                raise self.failureException(what)

    def hold_all(self, found, front=""):
        """Counts several checks, each with a text for its failure. The front is put before each text."""
        for what, holds in found:
            self.hold(f"{front}{what}", holds)

    def room(self):
        """A new temporary folder, which is removed after the test."""
        folder = tempfile.TemporaryDirectory(prefix=f"{type(self).__module__.rpartition('.')[2]}-")
        self.addCleanup(folder.cleanup)
        return pathlib.Path(folder.name).resolve()

    @property
    def tool(self):
        """The path of index-tool, which is built where that isn't done yet."""
        return program("index_tool")
