"""What callers in C ask of the static library in one process, which no example asks.

tests/linked.c asks for tables of each size, and tests/written.c for rooms; from four threads at once; with rows that
can't be written; by way of a lock; and with each request for memory refused in turn. tests/kept.c does so of two files
that are read and checked as one, and of a table that is written over an index, whose cached tree must go where a row is
another. tests/large.c reads, searches and writes long files in memory of just the sizes that are told. tests/changed.c
makes changes of an index: what git lists of it, and of the sides of conflicts that went, and the tree that it writes
are those that `git update-index --index-info` leaves in a copy. tests/given.c asks for the trees of an index, each of
which must be the object that git has by its id, the root's that of `git write-tree`. tests/locked.c locks an index,
commits and gives up. tests/nulls.c passes NULL where a length is 0, as C and as C++. Callers are built with
AddressSanitizer and UndefinedBehaviorSanitizer where these are there, except for refusals of memory.
"""
import shutil

from tests import failing, installed
from tests.case import Case, needs
from tests.common import ID_LEN, KINDS, answer, run
from tests.damaged import unsound
from tests.failing import ALONE, GOING_ON
from tests.made import SIZES, image, sealed, table
from tests.repositories import SEARCHED, index_of
from tests.repository import ask_git, git, index_in, write

CHANGE_QUESTIONS = (("ls-files", "-s", "-z"), ("ls-files", "--resolve-undo", "-z"), ("write-tree",))


def index_info(listed):
    """Lines of changes of an index, of which git lists this: some paths go, conflicts are settled or made, and files
    take the place of directories and the other way round."""
    rows = [(line.partition(b"\t")[0].split(), line.partition(b"\t")[2]) for line in listed.split(b"\0")[:-1]]
    digest = rows[0][0][1]
    none = b"0" * len(digest)
    for place, ((mode, id, stage), path) in enumerate(rows):
        if stage == b"2":
            yield b"%s %s 0\t%s" % (mode, id, path)
        elif place % 3 == 0:
            yield b"0 %s 0\t%s" % (none, path)
        elif place % 7 == 0:
            yield from (b"0 %s 0\t%s" % (none, path), b"100644 %s 1\t%s" % (id, path), b"100755 %s 3\t%s" % (id, path))
    yield from (b"100644 %s 0\t%s" % (digest, path) for path in (b"run/inner", b"src/inner", b"new/file", b"A"))


def objects_in(text):
    """The ids of objects as `git cat-file --batch` prints them."""
    while text:
        head, _, rest = text.partition(b"\n")
        yield head.split()[0]
        text = rest[int(head.split()[2]) + 1 :]


@needs("git", "cc")
class Called(Case):
    """Callers in C that print `ok`, or a line for each thing that isn't so."""

    def setUp(self):
        self.place = self.room()

    def three(self, kind):
        """An index of three entries."""
        folder = self.place / f"{kind}-three"
        git(self.place, "init", "-q", "-b", "main", f"--object-format={kind}", str(folder))
        for name in ("a", "docs/one.txt", "docs/two.txt"):
            write(folder, name, f"{name}\n")
        git(folder, "add", ".")
        git(folder, "commit", "-q", "-m", "First")
        return index_in(folder)

    def is_ok(self, what, caller, *words, **options):
        """The caller finds nothing."""
        done = answer((caller, *words), **options)
        self.hold(f"{what}: {done}", done[:2] == (0, b"ok\n"))

    def look(self, name, *asked):
        """What a caller finds of an index of three entries, asked so."""
        for kind in KINDS:
            path = self.three(kind)
            for word in asked:
                self.is_ok(f"{kind}, {word}", installed.in_c_sanitized(name), word, kind, path)

    def refuse(self, name, word, kind, *paths):
        """Each request for memory is refused in turn, alone and with all after it."""
        words = (installed.in_c(name), word, kind, *paths)
        done, totals = failing.counts_of(words, self.place / "counts")
        self.hold(f"{kind}, requests for memory, {word}: {done}", done[0] == 0 and totals["request"] > 0)
        for what, refusal in failing.each(totals, ("request", ALONE), ("request", GOING_ON)):
            status, out, _ = answer(words, env=failing.settings(**refusal))
            is_right = status == 0 and out in (b"ok\n", b"memory\nok\n")
            self.hold(f"{kind}, {what} refused, {word}: {status}, {out}", is_right)


class Reading(Called):
    def test_tables_of_each_size(self):
        self.look("linked", "sizes")

    def test_kinds_that_are_none_and_damaged_bytes(self):
        self.look("linked", "numbers")

    def test_searches_find_what_a_look_at_each_row_finds(self):
        for kind in KINDS:
            for sort in SEARCHED:
                caller = installed.in_c_sanitized("linked")
                self.is_ok(f"{kind}, {sort}", caller, "searches", kind, index_of(kind, sort))

    def test_reading_and_checking_with_memory_refused(self):
        for kind in KINDS:
            path, fallen = self.three(kind), self.place / "fallen.index"
            fallen.write_bytes(sealed(kind, next(unsound(kind, path.read_bytes()[: -ID_LEN[kind]]))))
            for word, file in (("once", path), ("sound", path), ("fallen", fallen)):
                self.refuse("linked", word, kind, file)

    def test_null_with_a_length_of_0(self):
        callers = [installed.in_c_sanitized("nulls")]
        if shutil.which("g++"):
            callers += [installed.in_cxx_sanitized("nulls", standard) for standard in ("c++98", "c++20")]
        for kind in KINDS:
            path = self.three(kind)
            for caller in callers:
                self.is_ok(f"{kind}, {caller.name}", caller, kind, path)

    def test_long_files_in_memory_of_their_size(self):
        for kind in KINDS:
            for size in SIZES:
                for is_version_4 in (False, True):
                    path = self.place / "large.index"
                    path.write_bytes(image(table(kind, size), is_version_4))
                    done = answer((installed.in_c_sanitized("large"), kind, path))
                    self.hold(f"{kind}, {size}: {done}", done == (0, b"ok\n", b""))


class Writing(Called):
    def test_four_threads_at_once(self):
        self.look("written", "threads")

    def test_rooms_of_each_size(self):
        self.look("written", "rooms")

    def test_rows_that_cannot_be_written(self):
        self.look("written", "unfit")

    def test_paths_and_locks(self):
        self.look("written", "files")

    def test_writing_with_memory_refused(self):
        for kind in KINDS:
            self.refuse("written", "written", kind, self.three(kind))

    def test_locks_that_are_committed_or_given_up(self):
        for kind in KINDS:
            self.is_ok(kind, installed.in_c_sanitized("locked"), kind, self.three(kind))


class Kept(Called):
    """An index that is written over, and a split one that is read with its shared one."""

    def wanted(self, kind, file):
        """What index-tool writes of a file."""
        path = self.place / "wanted.index"
        run((self.tool, "rewrite", "--keep", kind, file, path))
        return path

    def split(self, kind):
        index = index_of(kind, "split")
        return index, next(index.parent.glob("sharedindex.*"))

    def look_at(self, kind, word, *files):
        caller = installed.in_c_sanitized("kept")
        self.is_ok(f"{kind}, {word}", caller, word, kind, self.wanted(kind, files[0]), *files)

    def test_index_that_is_written_over(self):
        for kind in KINDS:
            self.look_at(kind, "over", self.three(kind))

    def test_sparse_index_that_is_written_over(self):
        for kind in KINDS:
            copy = self.place / "sparse.index"
            shutil.copy(index_of(kind, "sparse"), copy)
            self.look_at(kind, "over", copy)

    def test_split_index_with_its_shared_one(self):
        for kind in KINDS:
            self.look_at(kind, "split", *self.split(kind))

    def test_split_index_without_its_shared_one(self):
        for kind in KINDS:
            alone = self.place / "alone" / f"{kind}.index"
            alone.parent.mkdir(exist_ok=True)
            shutil.copy(index_of(kind, "split"), alone)
            three = self.three(kind)
            self.is_ok(kind, installed.in_c_sanitized("kept"), "missing", kind, three, alone)

    def test_each_with_memory_refused(self):
        for kind in KINDS:
            three = self.three(kind)
            wanted = self.wanted(kind, three)
            self.refuse("kept", "over-once", kind, wanted, three)
            for word in ("split-once", "check-once"):
                self.refuse("kept", word, kind, wanted, *self.split(kind))


class Changes(Called):
    """Changes of an index are those that git makes itself."""

    def look_at(self, sort):
        for kind in KINDS:
            self.change(kind, index_of(kind, sort).parent.parent)

    def change(self, kind, folder):
        copies = [self.place / f"{kind}-changed-by-{name}" for name in ("git", "C")]
        for copy in copies:
            shutil.copytree(folder, copy, symlinks=True)
        lines = b"\n".join(index_info(git(folder, "ls-files", "-s", "-z"))) + b"\n"
        git(copies[0], "update-index", "--index-info", input=lines)
        self.is_ok(kind, installed.in_c_sanitized("changed"), "commit", kind, index_in(copies[1]), input=lines)
        for words in CHANGE_QUESTIONS:
            wanted, found = (ask_git(copy, *words)[:2] for copy in copies)
            self.hold(f"{kind}, {words[0]}: {found}", found == wanted)
        wanted, found = (ask_git(copy, "fsck", "--no-dangling")[:2] for copy in copies)
        self.hold(f"{kind}, fsck: {found}", found == wanted)

    def test_of_files_alone(self):
        self.look_at("alone")

    def test_of_conflicts(self):
        self.look_at("conflicts")

    def test_of_resolved_conflicts(self):
        self.look_at("resolved")

    def test_of_a_split_index(self):
        self.look_at("split")

    def test_of_version_4_in_blocks(self):
        self.look_at("in_blocks")

    def test_of_files_meant_to_be_added(self):
        self.look_at("meant_to_be_added")

    def test_rooms_of_each_size(self):
        for kind in KINDS:
            split = index_of(kind, "split")
            files = [(index_of(kind, sort),) for sort in ("alone", "in_blocks")]
            for each in (*files, (split, next(split.parent.glob("sharedindex.*")))):
                self.is_ok(f"{kind}, {each[0]}", installed.in_c_sanitized("changed"), "rooms", kind, *each)

    def test_with_memory_refused(self):
        for kind in KINDS:
            split = index_of(kind, "split")
            self.refuse("changed", "once", kind, split, next(split.parent.glob("sharedindex.*")))


class Trees(Called):
    """The trees of an index are those that git has."""

    def look_at(self, sort):
        for kind in KINDS:
            folder = self.place / f"{kind}-{sort}"
            shutil.copytree(index_of(kind, sort).parent.parent, folder, symlinks=True)
            self.compare(kind, sort, folder)

    def compare(self, kind, sort, folder):
        lines = git(folder, "ls-files", "-s", "-z", "--sparse").split(b"\0")[:-1]
        unmerged = [place for place, line in enumerate(lines) if line.split()[2] != b"0"]
        status, out, faults = answer((installed.in_c_sanitized("given"), "list", kind, index_in(folder)))
        if unmerged:
            is_refused = (status, out) == (0, b"fault 17 at %d\n" % unmerged[0])
            self.hold(f"{kind}: no trees: {out}, {faults}", is_refused)
            return
        root, ids = git(folder, "write-tree").strip(), [*objects_in(out)]
        listed = git(folder, "ls-tree", "-r", "-d", "-z", root.decode()).split(b"\0")[:-1]
        wanted = {root, *(words.split()[2] for words in listed if words.split()[1] == b"tree")}
        is_whole = status == 0 and ids[-1:] == [root] and len(ids) == len({*ids})
        self.hold(f"{kind}: trees: {status}, {faults}", is_whole)
        self.hold(f"{kind}: each tree: {ids}", {*ids} < wanted if sort == "sparse" else {*ids} == wanted)
        objects = git(folder, "cat-file", "--batch", input=b"\n".join(ids) + b"\n")
        self.hold(f"{kind}: the bytes of the trees", objects == out)

    def test_of_files_alone(self):
        self.look_at("alone")

    def test_of_conflicts(self):
        self.look_at("conflicts")

    def test_of_resolved_conflicts(self):
        self.look_at("resolved")

    def test_of_files_meant_to_be_added(self):
        self.look_at("meant_to_be_added")

    def test_of_skipped_entries(self):
        self.look_at("skipped")

    def test_of_sparse_directories(self):
        self.look_at("sparse")

    def test_of_a_split_index(self):
        self.look_at("split")

    def test_of_version_4_in_blocks(self):
        self.look_at("in_blocks")

    def test_rooms_of_each_size(self):
        self.look("given", "rooms")

    def test_with_memory_refused(self):
        for kind in KINDS:
            self.refuse("given", "once", kind, self.three(kind))
