"""`./index-tool` answers as the built program does, also where it isn't built yet.

The clone is a copy of the files that index-tool is made of. Two files are read there by `rt try` itself: a split index
with its shared one, and a damaged index. All else is asked with a stand-in for `rt` on the path, which runs the built
program as `rt try` does: in another folder and without an environment. Of files of each sort the status is the
program's, and so is what is printed after the line that says that the run isn't proved: with KIND and FILE, without
them by `--auto`, and of the standard input. So it is with words that are no command; help and version come without that
line. What can't be answered as the program would has it proved first, which the stand-in refuses: a command that
writes, a pipe, a file that is another one elsewhere, and more output than `rt try` prints. Where the clone has the
program built, of the files that lie there, that program runs.
"""
import hashlib
import os
import shutil
import sys

import crates  # (tools/crates.py)

from tests import TOP
from tests.case import Case
from tests.common import answer
from tests.each import each

TOOL = "index_tool"
UNPROVED, FIRST = "index-tool: this run isn't proved", "index-tool: it is proved first"
# What stands in for `rt`: it runs PROGRAM, and takes no more output than `rt try` does.
STAND_IN = r"""#!/usr/bin/env bash
[ "$1" != doc ] || { echo /no/page; exit 0; }
[ "$1" = try ] || { echo "refused: $*"; exit 1; }
shift 2
room=$(mktemp -d)
trap 'rm -rf "$room"' EXIT
cd "$room"
env -i PROGRAM "$@" >out 2>faults
status=$?
[ "$(stat -c %s out)" -le 1048576 ] || { printf 'checked: no-answer\nrun=no-answer proved=no\n' >&2; exit 6; }
cat out
cat faults - >&2 <<<"checked: ended status=$status
run=ended status=$status runners=1 proved=no"
exit $status
"""


def entry(name):
    """An entry of version 2 without times, with an id of ones."""
    data = bytes(24) + b"\0\0\x81\xa4" + bytes(12) + b"\x11" * 20 + len(name).to_bytes(2, "big") + name
    return data + bytes(8 - len(data) % 8)


def index(names, more=b""):
    data = b"DIRC\0\0\0\2" + len(names).to_bytes(4, "big") + b"".join(map(entry, names)) + more
    return data + hashlib.sha1(data).digest()


def make_files(work):
    """Files of each sort, below a folder."""
    whole = index([b"a", b"b"])
    link = b"link\0\0\0\x2c" + whole[-20:] + bytes(24)
    for folder in ("with", "without", "a folder"):
        (work / folder).mkdir(parents=True)
        (work / folder / "split.index").write_bytes(index([], link))
    (work / "with" / f"sharedindex.{whole[-20:].hex()}").write_bytes(whole)
    (work / "link.index").symlink_to("with/split.index")
    (work / "damaged.index").write_bytes(whole[:-1] + bytes([whole[-1] ^ 1]))
    (work / "many.index").write_bytes(index([b"file-%05d" % number for number in range(20000)]))
    for name in ("whole.index", "-", "{}", "line\nend", "name=here", "h\u00ebr", "a folder/whole.index"):
        (work / name).write_bytes(whole)
    os.mkfifo(work / "pipe.index")
    (work / "tree" / ".git").mkdir(parents=True)
    (work / "tree" / "below").mkdir()
    (work / "tree" / ".git" / "index").write_bytes(whole)
    (work / "linked").mkdir()
    (work / "linked" / ".git").write_text("gitdir: ../tree/.git\n")


def clone(place):
    """A copy of the repository's files that index-tool is made of, with its scripts."""
    for name in ("index-tool", "crates.txt", "HANDLES", "VERSION"):
        shutil.copy2(TOP / name, place / name)
    shutil.copytree(TOP / "tools", place / "tools")
    for crate in crates.needed(TOOL):
        for part in ("src", "specs", "proofs"):
            if (TOP / "crates" / crate / part).is_dir():
                shutil.copytree(TOP / "crates" / crate / part, place / "crates" / crate / part)
    (place / "crates.txt").write_text("".join(f"{crates.lines()[crate]}\n" for crate in crates.needed(TOOL)))


class Clone(Case):
    """A clone, with the built program to compare its answers with."""

    def setUp(self):
        self.place = self.room()
        self.work = self.place / "work"
        clone(self.place)
        make_files(self.work)
        (self.place / "bin").mkdir()
        stand_in = self.place / "bin" / "rt"
        stand_in.write_text(STAND_IN.replace("PROGRAM", f"'{self.tool}'"))
        stand_in.chmod(0o755)
        self.env = {**os.environ, "PATH": f"{self.place / 'bin'}:{os.environ['PATH']}"}

    def call(self, words, env=None, **options):
        """The status of the wrapper, what it prints, and the first line on standard error by itself."""
        options = {"cwd": self.work, "env": env or self.env, **options}
        status, out, faults = answer((self.place / "index-tool", *words), **options)
        first, _, rest = faults.partition(b"\n")
        return (status, out, rest), first.decode(errors="replace")

    def same(self, words, env=None, **options):
        """Whether an unproved run answers as the program does, and what it answers."""
        wanted = answer((self.tool, *words), **{"cwd": self.work, **options})
        got, first = self.call(words, env, **options)
        return f"{words}: {first}, {got}, and not {wanted}", got == wanted and first.startswith(UNPROVED)

    def proved_first(self, words, **options):
        """Whether it is proved first, which the stand-in refuses."""
        (status, out, rest), first = self.call(words, **options)
        is_told = first.startswith(UNPROVED) and FIRST in rest.decode() or words[0] == "rewrite"
        is_refused = (status, out) == (3, b"") and b"refused" in rest
        return f"{words}: {first}, {status}, {out}, {rest}", is_told and is_refused

    def at_once(self, words):
        """Whether it is answered without the program, as that answers."""
        wanted = answer((self.tool, *words), cwd=self.work)
        got = answer((self.place / "index-tool", *words), cwd=self.work, env=self.env)
        return f"{words}: {got}, and not {wanted}", got == wanted

    def ask(self, how, calls, **options):
        """At several calls side by side."""
        self.hold_all(each(lambda words: how(words, **options), calls, 8))


class Unbuilt(Clone):
    """Where nothing is built, with the stand-in for `rt`."""

    def test_files_of_each_sort(self):
        names = ("whole.index", "damaged.index", "with/split.index", "without/split.index", "link.index", "none.index")
        names += ("", "a folder", "./-", "{}", "line\nend", "name=here", "h\u00ebr", "a folder/whole.index")
        names += ("./whole.index", "../work/whole.index", "../work/without/split.index", "whole.index/")
        names += ("./without//split.index", str(self.work / "without" / "split.index"))
        self.ask(self.same, [("list", "sha1", name) for name in names])

    def test_commands_of_a_damaged_file(self):
        commands = ("check", "check-trees", "map", "map-svg", "show", "show-json", "trees")
        self.ask(self.same, [(command, "sha1", "damaged.index") for command in commands])

    def test_other_kind_and_many_entries(self):
        self.ask(self.same, [("list", "sha256", "whole.index"), ("check", "sha1", "many.index")])

    def test_what_cannot_be_read_elsewhere_is_proved_first(self):
        names = ("pipe.index", "many.index", "/proc/self/stat", "/dev/null")
        self.ask(self.proved_first, [("list", "sha1", name) for name in names])
        with open(self.work / "whole.index", "rb") as file:
            self.ask(self.proved_first, [("list", "sha1", "/dev/stdin")], stdin=file)
        self.ask(self.proved_first, [("list", "sha1", "./split.index")], cwd=self.work / "without")

    def test_what_writes_is_proved_first(self):
        self.ask(self.proved_first, [("rewrite", "sha1", "whole.index", "made.index")])

    def test_options(self):
        calls = ("list -a whole.index", "check --auto ./whole.index", "list -z sha1 whole.index")
        self.ask(self.same, [words.split() for words in (*calls, "map --quote -az whole.index")])

    def test_standard_input(self):
        data = (self.work / "whole.index").read_bytes()
        self.ask(self.same, [("list", "-a", "-"), ("list", "sha1", "-")], input=data)

    def test_work_trees(self):
        for folder in ("tree", "tree/below"):
            calls = [("list", "-a"), ("check", "--auto", "sha1"), ("trees", "-az")]
            self.ask(self.same, calls, cwd=self.work / folder)

    def test_linked_work_tree_is_proved_first(self):
        self.ask(self.proved_first, [("list", "-a")], cwd=self.work / "linked")

    def test_wrong_words(self):
        calls = ("list", "check sha1", "list whole.index", "list -a -az whole.index", "rewrite whole.index a")
        calls += ("update whole.index", "list md5 whole.index", "no sha1 whole.index", "prove it", "rewrite sha1 a")
        calls = [words.split() for words in (*calls, "list -a a b")]
        calls += [("list", "sha1", "whole.index", "b"), ("list", "", "a"), ("list", "--zero", "whole.index")]
        self.ask(self.same, calls)

    def test_help_and_version_at_once(self):
        calls = ("", "--help", "-V", "help", "help list", "salvage --help", "help help")
        self.ask(self.at_once, [words.split() for words in calls])

    def test_word_that_is_not_utf_8_at_once(self):
        self.ask(self.at_once, [("list", "sha1", os.fsdecode(b"\xff"))])


class ByRt(Clone):
    """Where nothing is built, by `rt try` itself."""

    def test_split_index_with_its_shared_one(self):
        self.ask(self.same, [("list", "sha1", "with/split.index")], env=os.environ)

    def test_damaged_index(self):
        self.ask(self.same, [("list", "sha1", "../work/damaged.index")], env=os.environ)


class Built(Clone):
    """Where the program is built in the clone."""

    words = ("list", "sha1", "whole.index")

    def setUp(self):
        super().setUp()
        self.made = self.place / "out" / TOOL / TOOL
        self.made.parent.mkdir(parents=True, exist_ok=True)
        shutil.copy2(self.tool, self.made)
        self.source = self.place / "crates" / TOOL / "src" / "main.rt"
        tools = str(self.place / "tools")
        mark = f"import sys; sys.path.insert(0, {tools!r}); import marks; marks.Mark({TOOL!r}).write()"
        self.hold("the mark", answer((sys.executable, "-B", "-c", mark), env=self.env)[0] == 0)

    def runs(self):
        """The built program answers."""
        wanted = answer((self.tool, *self.words), cwd=self.work)
        got = answer((self.place / "index-tool", *self.words), cwd=self.work, env=self.env)
        self.hold(f"{got}", got == wanted)

    def test_program_runs(self):
        self.runs()

    def test_program_runs_where_a_source_has_another_time(self):
        os.utime(self.source)
        self.runs()
        status, out, faults = answer((self.place / "index-tool", "prove"), env=self.env)
        is_made = (status, faults) == (0, b"") and str(self.made) in out.decode()
        self.hold(f"prove: {status}, {out}, {faults}", is_made)

    def test_changed_source_is_not_run_as_proved(self):
        self.source.write_text(self.source.read_text() + "// another\n")
        self.hold(*self.same(self.words))

    def test_further_source_is_not_run_as_proved(self):
        (self.source.parent / "more.rt").write_text("")
        self.hold(*self.same(self.words))
