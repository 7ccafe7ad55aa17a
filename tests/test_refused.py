"""Programs answer the same, or name the fault, where memory is refused and where calls of the system fail.

Each request for memory is refused in turn, and each call of the system fails, by tests/refused.c, put before the C
library. Each row and command is run with nothing refused first, which gives the model's answer.

Rows of refused.rows, each by itself: each request for memory is refused, alone and with all after it. The answer is the
same, or lack of memory: `fault: memory` as the only fault, with the entries that were there before, where a call was
lent a list; or the program ends with status 1 and says that memory was lacking for the row itself. Another fault, a
missing value or another list is a failure. Of rows that read a file by its name (`at`), each call of the system fails
too, as below, or says that there is no file; what can't be read is then named, the file or the shared one, and only
where opening the file itself says that it isn't there, `or-default` gives an empty index.

A row after `quiet N` asks for N blocks more than the same row does where its call has no name, and so is refused before
its words are read. The table says what N is made of: what the program itself takes for the words and the answer. The
call takes none then, as no part of the sum is below 0. A request that makes a block longer doesn't count: the answer's
text grows so, and a value has a first block before it grows.

Rows that write a file (`write-file`): the same, each call of the system fails too, and the step is told that failed.
The file at the path is the old one where writing was refused, and else the new one; version, checksum and entries of
the index are as before where it was refused. A lock stays only where all calls fail.

Commands of index-tool on whole files: the same, and each call that opens, looks at, reads, writes, moves in, renames or
removes a file fails (EIO), alone and with all after it; finds no file, no room or no memory; moves one byte; is
interrupted. The answer is the same; of `salvage` also that without a shared index, where a call fails; or status 1 with
one line on standard error, which names memory where memory was refused, standard output is a front of the answer, and
the file that was to be written is the old one or the new one, byte for byte. Calls that move less or are interrupted
change nothing. The lines of single calls that fail name, in turn: the index that is read, its shared one, the output;
or the lock file that can't be made, that can't be written, and that can't take the place of the index.
`--set name=TEXT` tries only rows and commands that have TEXT, `--set jobs=N` runs so many at a time.
"""
import hashlib
import itertools
import os
import pathlib
import shutil
import tempfile

from tests import TOP
from tests.case import Case, needs
from tests.common import program, setting
from tests.each import each
from tests.model import extensions, words, writing
from tests.model.bytes import digest as digest_of
from tests.refusing import FAULTS, OLD, Command, Place, Row, Written

# The link of the files with all extensions, up to its id.
LINK_HEAD = extensions.LINK + (76).to_bytes(4, "big")


def places():
    """A lock that another holds, a folder that isn't there, and a folder in the place of the index."""
    given, locked = split(), "the index can't be locked"
    held = "another process writes the index, or ended while it did; if none does, remove that file"
    yield Place("out", given | {"out": OLD, "out.lock": OLD}, f"the index is locked, as out.lock is there: {held}")
    yield Place("nowhere/out", given, f"{locked}: nowhere/out.lock: No such file or directory (os error 2)")
    yield Place("out", given | {"out": None}, f"{locked}: out: it is a folder")


def rows(crate):
    """The rows of the table for a program."""
    for line in table():
        first, rest = line.split(" ", 1)
        if first == crate and not rest.startswith("write-file "):
            yield Row(crate, rest)


def quiet_rows():
    """The rows whose calls ask for no memory."""
    for line in table():
        if line.startswith("quiet "):
            count, crate, row = line.split(" ", 3)[1:]
            yield Row(crate, row, int(count))


def writing_rows():
    """The rows that write a file."""
    for line in table():
        crate, rest = line.split(" ", 1)
        if rest.startswith("write-file "):
            yield Written(crate, rest)


def table():
    """The lines of the table."""
    lines = (TOP / "tests" / "refused.rows").read_text().splitlines()
    return [line for line in lines if line and not line.startswith("#")]


def folders():
    """The files that commands are tried on, with those of their folders: those of the table, with links that lead
    nowhere, and a split index."""
    named = [line.split(" ") for line in table()]
    found = [words.bytes_of(row[3], TOP / "crates" / row[0] / "data") for row in named if row[1:3] == ["file", "sha1"]]
    for number, data in enumerate(found):
        body = data[:-20].replace(LINK_HEAD + b"\x11" * 20, LINK_HEAD + bytes(20))
        yield f"{number}.index", {f"{number}.index": body + digest_of("sha1", body)}
    yield "split.index", split()
    # One that is read in windows.
    names = ";".join(f"{number:02d}" + "a" * 30_000 for number in range(40))
    large = writing.body(words.list_of(f"[{names}]", "sha1"))[1]
    yield "large.index", {"large.index": large + digest_of("sha1", large)}


def split():
    """A split index whose shared one has the paths b, c and d: it takes the first out, has another c, and a new a."""
    shared = words.list_of("[b;c;d]", "sha1")
    version, digest, data = writing.image(shared)
    link = digest + bytes.fromhex("0000000300000002" "0000000200000000" "0000000000000001" "00000000")
    link += bytes.fromhex("0000000300000002" "0000000200000000" "0000000000000002" "00000000")
    body = writing.body(words.list_of("[{}:0:100755:0:77;a]", "sha1"))[1]
    body += writing.item_bytes(extensions.LINK, link)
    return {f"sharedindex.{digest.hex()}": data, "split.index": body + digest_of("sha1", body)}


def commands_of(command):
    """A command on each of these files."""
    return [Command(command, "sha1", name, given) for name, given in folders()]


def commands_of_the_table():
    """The commands of the table, whose requests aren't refused."""
    calls = tuple(how for how in FAULTS if "request" not in how)
    for line in table():
        if line.startswith("index_tool "):
            _, command, kind, data, *line = line.split(" ", 4)
            name = f"{hashlib.sha1(data.encode()).hexdigest()[:8]}.index"
            said = line[0].replace("FILE", name) if line else None
            yield Command(command, kind, name, {name: words.bytes_of(data, None)}, calls, said)


def tried(case, tool, place):
    """How many runs a case made, and what was wrong."""
    box = pathlib.Path(tempfile.mkdtemp(dir=place))
    ample = case.run(tool, box)
    wrong = [case.fault(ample, ample, None)]
    if case.quiet is not None:
        wrong.append(case.noise(ample, tool, box))
    for how in case.hows:
        steps = []
        for nth in range(1, ample.counts[FAULTS[how][0]] + 1):
            run = case.run(tool, box, how, nth)
            fault = case.fault(run, ample, how)
            wrong.append(fault and f"{how} {nth}: {fault}")
            steps.append(case.step(run))
        if case.steps(how) is not None:
            named = [step for step, _ in itertools.groupby(filter(None, steps))]
            wrong.append(None if named == case.steps(how) else f"{how}: the steps that failed: {named}")
    shutil.rmtree(box)
    return len(wrong), [fault for fault in wrong if fault]


@needs("cc")
class Refused(Case):
    def look(self, cases):
        """At cases side by side, each with one thing refused after the other."""
        text, place, jobs = setting("name", ""), self.room(), setting("jobs", os.cpu_count())
        cases = [case for case in cases if text in f"{case.crate} {case.name}"]
        found = each(lambda case: tried(case, program(case.crate), place), cases, jobs)
        for case, (count, wrong) in zip(cases, found):
            self.hold_all(("", True) for _ in range(count - len(wrong)))
            self.hold_all((f"{case.crate}: {case.name[:120]}: {fault}", False) for fault in wrong)


class Rows(Refused):
    def test_indexes(self):
        self.look(rows("test_rows"))

    def test_lookups(self):
        self.look(rows("test_lookup_rows"))

    def test_changes(self):
        self.look(rows("test_change_rows"))

    def test_writing_to_a_file(self):
        self.look(writing_rows())

    def test_calls_that_ask_for_no_memory(self):
        self.look(quiet_rows())


class Commands(Refused):
    """Each command on whole files with all extensions, on a split index, and on one that is read in windows."""

    def test_list(self):
        self.look(commands_of("list"))

    def test_check(self):
        self.look(commands_of("check"))

    def test_check_trees(self):
        self.look(commands_of("check-trees"))

    def test_map(self):
        self.look(commands_of("map"))

    def test_map_svg(self):
        self.look(commands_of("map-svg"))

    def test_show(self):
        self.look(commands_of("show"))

    def test_show_json(self):
        self.look(commands_of("show-json"))

    def test_trees(self):
        self.look(commands_of("trees"))

    def test_rewrite(self):
        self.look(commands_of("rewrite"))

    def test_rewrite4(self):
        self.look(commands_of("rewrite4"))

    def test_rewrite_trees(self):
        self.look(commands_of("rewrite-trees"))

    def test_salvage(self):
        self.look(commands_of("salvage"))

    def test_commands_of_the_table(self):
        self.look(commands_of_the_table())

    def test_places_where_nothing_can_be_written(self):
        self.look(places())
