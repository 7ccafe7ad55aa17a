"""git takes what `index-tool salvage` saves of the damaged index of a repository.

A repository's index is written in version 2 and in version 4. The file is cut at some places, and a byte of it is
changed at others. Then `git ls-files` has to list as many entries as the program tells, and `check --strict` finds
nothing wrong. Where it was cut, these are those before the cut, `git status` names all others as deleted from the
index, `git fsck` finds no fault, and after `git reset` all is as it was.

A split index is damaged after its link: its trailer is another, or it is cut. What is saved of it lists the same
entries as before, and nothing that git says of the repository changes. Without the shared index, or where that is
damaged too, the program says that entries are missing.

A sparse index has another trailer, or is cut after an entry that stands for a directory. What is saved has the mark of
a sparse index, as git's own has it, and git says the same of it.

Last 504 copies of indexes of seven sorts are damaged in eight ways: cut; a byte, a mode or an id is another; bytes are
zeros, garbage, left out, put in. `git ls-files` and `git status` take each that is saved, with `--all` and without,
`index-tool check` finds nothing wrong, and it has the version of the damaged one. With `--all` no entry is missing that
is there without it.
"""
import random
import re

from tests import repositories
from tests.case import Case, needs
from tests.common import ID_LEN, KINDS, Broken, answer
from tests.repositories import said, start
from tests.repository import ask_git, git, index_in, write

# The mark of a sparse index, without content.
MARK = b"sdir\0\0\0\0"


def damaged(data, number):
    """The file cut, or with a byte behind its header that is another."""
    place = random.Random(number).randrange(12, len(data) - 64)
    return data[:place] if is_cut(number) else data[:place] + bytes([data[place] ^ 0xff]) + data[place + 1:]


def is_cut(number):
    return number % 2 == 0


def entries(folder):
    """The lines of the entries that git lists."""
    return git(folder, "ls-files", "-s", "-z").split(b"\0")[:-1]


def paths(lines):
    return {line.partition(b"\t")[2] for line in lines}


def lost(folder):
    """The paths that git names as deleted from the index."""
    lines = git(folder, "status", "--porcelain", "-z", "--no-renames").split(b"\0")
    return {line[3:] for line in lines if line[:2] == b"D "}


def saved(tool, folder, kind, number, listed):
    """What is looked at of one damaged file, and whether it is so."""
    index = index_in(folder)
    index.write_bytes(damaged(index.read_bytes(), number))
    status, out, faults = answer((tool, "salvage", kind, index, index))
    told = re.search(rb": (\d+) declared, (\d+) read, (\d+) kept; .*first fault at \d+: .*\n$", faults)
    yield f"what is told: {status}, {faults}", (status, out) == (0, b"") and told is not None
    kept = entries(folder)
    yield "the number of entries", told is not None and [len(listed), len(kept)] == [int(told[1]), int(told[3])]
    yield "check --strict", answer((tool, "check", "--strict", kind, index)) == (0, b"ok\n", b"")
    if not is_cut(number):
        index.unlink()
    else:
        yield "the entries", kept == listed[: len(kept)]
        yield "what was lost", lost(folder) == paths(listed) - paths(kept)
        yield "git fsck", ask_git(folder, "fsck")[0] == 0
    git(folder, "reset", "-q")
    yield "git reset", entries(folder) == listed


def split(folder, version):
    """The repository's index as a split one, the place behind its link, and its shared index."""
    git(folder, "config", "splitIndex.maxPercentChange", "100")
    git(folder, "reset", "-q")
    for words in ("--no-split-index", f"--index-version={version}"), ("--split-index",):
        git(folder, "update-index", *words)
    write(folder, "docs/file-2.txt", "another\n")
    write(folder, "docs/new.txt", f"new in {version}\n")
    git(folder, "add", "docs")
    git(folder, "rm", "-q", "--cached", "src/file-1.txt", "tests/file-0.txt")
    data = index_in(folder).read_bytes()
    for path in (folder / ".git").glob("sharedindex.*"):
        head = data.find(bytes.fromhex(path.name[12:])) - 8
        if head >= 0 and data[head : head + 4] == b"link":
            return data, head + 8 + int.from_bytes(data[head + 4 : head + 8], "big"), path
    raise Broken(f"{folder}, version {version}: git wrote another index")


def split_saved(tool, folder, kind, version):
    """What is looked at of damaged split indices, and whether it is so."""
    data, end, shared = split(folder, version)
    index, before, lines = index_in(folder), said(folder), {True: b"merged with", False: b"the entries of"}
    length = ID_LEN[kind]
    bytes_of_shared = shared.read_bytes()

    def tried(what, damaged, is_merged):
        index.write_bytes(damaged)
        status, out, faults = answer((tool, "salvage", kind, index, index))
        is_told = (status, out) == (0, b"") and b"; " + lines[is_merged] + b" " in faults
        yield f"{what}: what is told: {status}, {faults}", is_told
        yield f"{what}: what git says", not is_merged or said(folder) == before

    yield from tried("another trailer", data[:-1] + bytes([data[-1] ^ 1]), True)
    for cut in range(end + length, len(data), 7):
        yield from tried(f"cut at {cut}", data[:cut], True)
    yield from tried("another end", data[:end] + bytes(9) + data[end + 9 :], True)
    shared.write_bytes(bytes_of_shared[:-1] + bytes([bytes_of_shared[-1] ^ 1]))
    yield from tried("a damaged shared index", data, False)
    shared.unlink()
    yield from tried("no shared index", data, False)


def sparse_saved(tool, folder, kind, version):
    """What is looked at of damaged sparse indices, and whether it is so."""
    git(folder, "update-index", "--index-version", version, "--force-write-index")
    index, before = index_in(folder), said(folder)
    data, listed = index.read_bytes(), git(folder, "ls-files", "-s", "-z", "--sparse").split(b"\0")[:-1]
    yield "a sparse index", MARK in data and any(line.startswith(b"040000 ") for line in listed)

    def salvaged(damaged):
        index.write_bytes(damaged)
        status, out, _ = answer((tool, "salvage", kind, index, index))
        return (status, out) == (0, b"") and MARK in index.read_bytes()

    yield "another trailer: the mark", salvaged(data[:-1] + bytes([data[-1] ^ 1]))
    yield "another trailer: what git says", said(folder) == before
    yield "cut: the mark", salvaged(data[: len(data) * 2 // 3])
    kept = git(folder, "ls-files", "-s", "-z", "--sparse").split(b"\0")[:-1]
    yield "cut: the entries", 0 < len(kept) < len(listed) and kept == listed[: len(kept)]
    index.write_bytes(data)


def with_bytes(data, place, put, left_out=None):
    """The data with these bytes at a place, in place of as many, or of so many."""
    return data[:place] + put + data[place + (len(put) if left_out is None else left_out):]


def damages(data, kind, chance):
    """The ways in which a file is damaged, each with a copy."""
    end, length = len(data), ID_LEN[kind]
    place, first = chance.randrange(12, end - length), data.find(b"\x81\xa4", 12 + 8 * chance.randrange(end // 12))
    mode = max(first, data.find(b"\x81\xa4"))
    some = chance.randrange(1, 60)
    yield "cut", data[:max(place, 12 + length)]
    yield "a byte", with_bytes(data, place, bytes([data[place] ^ chance.randrange(1, 256)]))
    yield "a mode", with_bytes(data, mode - 2, chance.choice((bytes(4), chance.randbytes(4))))
    yield "an id", with_bytes(data, mode + 14, chance.choice((bytes(length), chance.randbytes(length))))
    yield "zeros", with_bytes(data, place, bytes(min(some, end - place)))
    yield "garbage", with_bytes(data, place, chance.randbytes(min(some, end - place)))
    yield "a gap", with_bytes(data, place, b"", some)
    yield "an insertion", with_bytes(data, place, chance.randbytes(some), 0)


def taken(tool, folder, kind, data, what):
    """What is looked at of what is saved of a damaged file, and whether it is so."""
    index, kept = index_in(folder), {}
    for words in (), ("--all",):
        name = " ".join((what, *words))
        index.write_bytes(data)
        status, out, faults = answer((tool, "salvage", *words, kind, index, index))
        yield f"{name}: what is told: {status}, {faults}", (status, out, faults.count(b"\n")) == (0, b"", 1)
        # (renames are found by reading both files, and an id of a damaged entry names no file)
        for asked in ("ls-files", "-s", "-z"), ("status", "-s", "--no-renames"):
            done, _, fault = ask_git(folder, *asked)
            # (an id that names no object is found by git alone, where it reads the tree of a whole directory)
            yield f"{name}: git {asked[0]}: {fault}", done == 0 or fault.startswith(b"fatal: unable to read tree ")
        yield f"{name}: check", answer((tool, "check", kind, index)) == (0, b"ok\n", b"")
        yield f"{name}: the version", index.read_bytes()[7] in ({4} if data[7] == 4 else {2, 3})
        kept[words] = answer((tool, "list", "-z", kind, index))[1].split(b"\0")[:-1]
    yield f"{what}: some of all", set(kept[()]) <= set(kept["--all",])


@needs("git")
class Saved(Case):
    def repository(self, kind):
        folder = self.room() / "repository"
        start(folder, kind)
        return folder

    def look(self, case, shape=None):
        """At a repository of each kind and version, which has this shape."""
        for kind in KINDS:
            for version in ("2", "4"):
                folder = self.repository(kind)
                if shape:
                    shape(folder)
                self.hold_all(case(self.tool, folder, kind, version), f"{kind}, version {version}: ")

    def test_cut_or_changed_files(self):
        for kind in KINDS:
            folder = self.repository(kind)
            for version in ("2", "4"):
                listed = entries(folder)
                for number in range(12):
                    git(folder, "update-index", "--index-version", version, "--force-write-index")
                    found = saved(self.tool, folder, kind, number, listed)
                    self.hold_all(found, f"{kind}, version {version}, damage {number}: ")

    def test_split_indexes(self):
        self.look(split_saved)

    def test_sparse_indexes(self):
        self.look(sparse_saved, repositories.sparse)

    def look_at_copies(self, sort):
        """At 36 damaged copies of an index of each kind, of this sort."""
        for kind in KINDS:
            chance = random.Random(f"{kind} {sort.__name__}")
            folder = repositories.made(self.room(), kind, sort)
            data = index_in(folder).read_bytes()
            copies = [copy for _ in range(5) for copy in damages(data, kind, chance)][:36]
            for number, (way, damaged) in enumerate(copies):
                what = f"{kind}, copy {number}, {way}"
                self.hold_all(taken(self.tool, folder, kind, damaged, what))

    def test_copies_of_files_alone(self):
        self.look_at_copies(repositories.alone)

    def test_copies_with_conflicts(self):
        self.look_at_copies(repositories.conflicts)

    def test_copies_with_resolved_conflicts(self):
        self.look_at_copies(repositories.resolved)

    def test_copies_with_files_meant_to_be_added(self):
        self.look_at_copies(repositories.meant_to_be_added)

    def test_copies_with_skipped_entries(self):
        self.look_at_copies(repositories.skipped)

    def test_copies_of_sparse_indexes(self):
        self.look_at_copies(repositories.sparse)

    def test_copies_of_split_indexes(self):
        self.look_at_copies(repositories.split)
