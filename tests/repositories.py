"""Repositories of several sorts that git makes, whose indexes have other extensions, flags and versions."""
import atexit
import functools
import pathlib
import tempfile

from tests.common import KINDS, Broken
from tests.repository import ask_git, git, index_in, write

QUESTIONS = (
    ("ls-files", "-s"),
    ("ls-files", "-s", "--sparse"),
    ("ls-files", "-v"),
    ("ls-files", "--debug"),
    ("status", "--porcelain=v2"),
    ("diff-index", "HEAD"),
    ("fsck",),
)


def said(folder):
    """All that git says of a repository, without the mark that entries of a shared index have in memory alone."""
    answers = {words: ask_git(folder, *words) for words in QUESTIONS}
    status, out, faults = answers["ls-files", "--debug"]
    return answers | {("ls-files", "--debug"): (status, out.replace(b"flags: 8000000\n", b"flags: 0\n"), faults)}


def start(folder, kind):
    """A repository with one commit: paths of many fronts and lengths, a program and a symbolic link."""
    git(folder.parent, "init", "-q", "-b", "main", f"--object-format={kind}", str(folder))
    for area in ("docs", "src", "src/inner/deep", "src/inner/other", "tests"):
        for number in range(12):
            write(folder, f"{area}/file-{number}.txt", f"{area} {number}\n")
    # The path behind this one drops more bytes of it than a number of one byte can say.
    write(folder, f"src/{'long' * 50}.txt", "long\n")
    write(folder, "src/gr\u00fc\u00dfe \u4f60.txt", "words\n")
    write(folder, "run", "#!/bin/sh\n")
    (folder / "run").chmod(0o755)
    (folder / "link").symlink_to("src/file-1.txt")
    git(folder, "add", ".")
    git(folder, "commit", "-q", "-m", "First")


def alone(folder):
    write(folder, "docs/file-3.txt", "staged\n")
    git(folder, "add", ".")
    write(folder, "docs/file-4.txt", "in the folder alone\n")
    return b"TREE" in index_in(folder).read_bytes()


def conflicts(folder):
    """Both sides change one file, add one and remove one that the other changes."""
    one, two = "docs/file-1.txt", "docs/file-2.txt"
    git(folder, "branch", "side")
    for side, removed, changed in (("side", one, two), ("main", two, one)):
        git(folder, "checkout", "-q", side)
        git(folder, "rm", "-q", removed)
        for name in (changed, "src/file-1.txt", "src/new.txt"):
            write(folder, name, f"{name} by {side}\n")
        git(folder, "add", ".")
        git(folder, "commit", "-q", "-m", side)
    status = ask_git(folder, "merge", "-q", "side")[0]
    return status == 1 and {line.split()[2] for line in git(folder, "ls-files", "-u").splitlines()} == {
        b"1", b"2", b"3"
    }


def resolved(folder):
    are_there = conflicts(folder)
    git(folder, "add", "docs", "src")
    return are_there and b"REUC" in index_in(folder).read_bytes()


def meant_to_be_added(folder):
    for name in ("docs/new.txt", "zone.txt"):
        write(folder, name, "later\n")
        git(folder, "add", "-N", name)
    return index_in(folder).read_bytes()[:8] == b"DIRC\0\0\0\3"


def skipped(folder):
    git(folder, "update-index", "--skip-worktree", "docs/file-1.txt", "run")
    git(folder, "update-index", "--assume-unchanged", "docs/file-2.txt", "link")
    (folder / "docs" / "file-1.txt").unlink()
    return {line[:1] for line in git(folder, "ls-files", "-v").splitlines()} == {b"H", b"S", b"h"}


def sparse(folder):
    git(folder, "sparse-checkout", "set", "--cone", "--sparse-index", "src/inner/deep")
    return b"sdir" in index_in(folder).read_bytes()


def split(folder):
    """A split index that takes entries out of the shared one, puts others in their place and has some of its own."""
    git(folder, "update-index", "--split-index")
    git(folder, "rm", "-q", "docs/file-1.txt", "tests/file-2.txt")
    for name in ("docs/file-5.txt", "docs/new.txt", "run", "zone.txt"):
        write(folder, name, "another\n")
    git(folder, "add", ".")
    return b"link" in index_in(folder).read_bytes()


def in_blocks(folder):
    settings = (
        "index.version=4", "index.threads=4", "index.recordOffsetTable=true", "index.recordEndOfIndexEntries=true"
    )
    for setting in settings:
        git(folder, "config", *setting.split("="))
    git(folder, "update-index", "--index-version", "4", "--force-write-index")
    data = index_in(folder).read_bytes()
    return data[:8] == b"DIRC\0\0\0\4" and b"IEOT" in data


SORTS = (alone, conflicts, resolved, meant_to_be_added, skipped, sparse, split, in_blocks)
SORTS_BY_NAME = {sort.__name__: sort for sort in SORTS}
# Those whose entries are searched: a split index has some with an empty path.
SEARCHED = ("alone", "conflicts", "skipped", "sparse", "in_blocks")


def made(room, kind, sort):
    """A new repository of a sort, in a folder of its own."""
    folder = room / f"{kind}-{sort.__name__}" / "repository"
    folder.parent.mkdir(parents=True)
    start(folder, kind)
    if not sort(folder):
        raise Broken(f"{kind}, {sort.__name__}: git wrote another index")
    return folder


@functools.cache
def kept_room():
    """A folder that is removed when all tests are done."""
    folder = tempfile.TemporaryDirectory(prefix="repositories-")
    atexit.register(folder.cleanup)
    return pathlib.Path(folder.name).resolve()


@functools.cache
def kept(kind, name):
    """A repository of the sort of this name, made once for all tests that only read it."""
    return made(kept_room(), kind, SORTS_BY_NAME[name])


def index_of(kind, name):
    """The index of such a repository."""
    return index_in(kept(kind, name))


def indexes():
    """The indexes of repositories of each kind and sort: kind, name of the sort, and path."""
    for kind in KINDS:
        for name in SORTS_BY_NAME:
            yield kind, name, index_of(kind, name)
