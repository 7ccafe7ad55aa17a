"""Repositories whose indexes have each extension that git keeps, alone and together with others."""
import functools
import os

from tests import repositories, repository
from tests.repository import WRITING, index_in, write

# (a status may write the index, by which alone git makes an untracked cache)
git = functools.partial(repository.git, env=WRITING)
ask_git = functools.partial(repository.ask_git, env=WRITING)
PAST = 1_600_000_000
# git's order of what is kept.
ORDER = (b"TREE", b"REUC", b"UNTR", b"FSMN", b"sdir", b"EOIE")


def settle(folder):
    """All times of files and folders lie in the past, so that git trusts what it knows of them."""
    for place, folders, names in os.walk(folder):
        if ".git" in folders:
            folders.remove(".git")
        for path in (place, *(os.path.join(place, name) for name in names)):
            os.utime(path, (PAST, PAST), follow_symlinks=False)


def start(folder, kind):
    """A repository with one commit, whose files are told apart by what a test can set."""
    repositories.start(folder, kind)
    for setting in ("core.trustctime=false", "core.checkstat=minimal", "rerere.enabled=true"):
        git(folder, "config", *setting.split("="))


def plain(folder):
    """Entries alone: in another index, as that of a commit has a cached tree."""
    index_in(folder).unlink()
    git(folder, "update-index", "--add", "run", "link", "docs/file-1.txt", "docs/file-2.txt")


def nothing(folder):
    """No entries, no extension."""
    index_in(folder).unlink()
    git(folder, "update-index", "--force-write-index")


def tree(folder):
    """A cached tree with all counts."""
    git(folder, "read-tree", "HEAD")


def tree_in_part(folder):
    """One that lacks some of its counts."""
    write(folder, "src/inner/new.txt", "staged\n")
    git(folder, "add", "src/inner/new.txt")


def tree_of_lengths(folder):
    """One whose directories git has by the lengths of their names."""
    for name in ("b/one", "aa/one", "ab/one", "aaa/bb/one", "aaa/c/one"):
        write(folder, name, "one\n")
    git(folder, "add", ".")
    git(folder, "commit", "-q", "-m", "Second")


def resolved(folder):
    """Conflicts of several sorts, each resolved."""
    repositories.conflicts(folder)
    for name in ("src/file-1.txt", "src/new.txt"):
        write(folder, name, "by both\n")
    git(folder, "add", "docs", "src")
    git(folder, "rerere")


def resolved_in_part(folder):
    """Some that are resolved, of a program among them, beside others."""
    git(folder, "update-index", "--chmod=+x", "src/file-1.txt")
    git(folder, "commit", "-q", "-m", "A program")
    repositories.conflicts(folder)
    git(folder, "add", "src/file-1.txt", "docs/file-1.txt")


def merge_of_one(folder, name):
    """A conflict of one file, which is resolved."""
    git(folder, "checkout", "-q", "-b", "side")
    for branch in ("side", "main"):
        git(folder, "checkout", "-q", branch)
        write(folder, name, f"{branch}\n")
        git(folder, "commit", "-q", "-a", "-m", branch)
    ask_git(folder, "merge", "-q", "side")
    git(folder, "add", name)


def unresolved_again(folder):
    """Resolve-undo of nothing, as what was resolved is a conflict again."""
    merge_of_one(folder, "run")
    git(folder, "checkout", "-q", "-m", "--", "run")


def untracked_files(folder, area="docs"):
    """Files that aren't staged, some of them ignored, in folders that are and in folders that aren't."""
    for name in ("one", "new/one", "new/deep/er/one", "junk/one", f"{area}/one", f"{area}/old.junk"):
        write(folder, name, "one\n")
    write(folder, ".gitignore", "junk/\n")
    write(folder, f"{area}/.gitignore", "*.junk\n")
    settle(folder)


def untracked(folder):
    untracked_files(folder)
    git(folder, "update-index", "--untracked-cache")
    git(folder, "status")


def untracked_alone(folder):
    """A cache of no directory yet."""
    git(folder, "update-index", "--untracked-cache")


def untracked_all(folder):
    """A cache by which each file is told, beside patterns of all three places."""
    untracked_files(folder)
    write(folder, ".git/patterns", "*.none\n")
    write(folder, ".git/info/exclude", "*.gone\n")
    for setting in ("status.showUntrackedFiles=all", f"core.excludesFile={folder}/.git/patterns"):
        git(folder, "config", *setting.split("=", 1))
    git(folder, "config", "core.untrackedCache", "true")
    git(folder, "status", "-uall")


def untracked_in_part(folder):
    """A cache that an edit made forget some directories."""
    untracked(folder)
    git(folder, "add", "new/one", "docs/one")
    git(folder, "rm", "-q", "--cached", "src/file-1.txt")


def untracked_many(folder):
    """So many directories that their bitmaps have runs of words."""
    for number in range(300):
        write(folder, f"area/{number:03}/one", "one\n")
        write(folder, f"area/{number:03}/two", "two\n")
    git(folder, "add", "area/*/one")
    untracked(folder)
    git(folder, "rm", "-q", "--cached", "area/150/one")


def watch(folder, version, dirty=()):
    """A monitor's hook that names some files, and notes what it is asked."""
    hook = folder / ".git" / "monitor"
    named = "".join(f"{name}\\0" for name in dirty)
    token = "token of monitor\\0" if version == 2 else ""
    hook.write_text(f'#!/bin/sh\nprintf "%s\\n" "$*" >>"{folder}/.git/asked"\nprintf "{token}{named}"\n')
    hook.chmod(0o755)
    git(folder, "config", "core.fsmonitor", str(hook))
    git(folder, "config", "core.fsmonitorHookVersion", str(version))
    git(folder, "update-index", "--fsmonitor")
    git(folder, "status")
    git(folder, "update-index", "--force-write-index")


def watched(folder):
    watch(folder, 2)


def watched_of_version_1(folder):
    watch(folder, 1)


def watched_changes(folder):
    """Some files that changed since."""
    watch(folder, 2, ("run", "docs/file-3.txt"))


def watched_many(folder):
    """So many entries that the bits have runs of words."""
    for number in range(400):
        write(folder, f"area/{number:03}", "one\n")
    git(folder, "add", ".")
    watch(folder, 2, [f"area/{number:03}" for number in (*range(150), 300, 301)])


def sparse(folder):
    git(folder, "sparse-checkout", "set", "--cone", "--sparse-index", "src/inner/deep")


def mark_end(folder):
    git(folder, "config", "index.recordEndOfIndexEntries", "true")
    git(folder, "update-index", "--force-write-index")


def marked(shape):
    """A shape with an end marker behind it."""

    def with_marker(folder):
        shape(folder)
        mark_end(folder)

    with_marker.__name__ = f"{shape.__name__}, with an end marker"
    return with_marker


def all_together(folder):
    resolved(folder)
    sparse(folder)
    # (where a folder is there that the work tree leaves out, git forgets what the monitor said)
    untracked_files(folder, "src/inner/deep")
    git(folder, "update-index", "--untracked-cache")
    git(folder, "config", "index.recordEndOfIndexEntries", "true")
    watch(folder, 2, ("run",))


# Each shape with the extensions that git writes of it.
SHAPES = {
    plain: (),
    marked(plain): (b"EOIE",),
    nothing: (),
    marked(nothing): (b"EOIE",),
    tree: (b"TREE",),
    marked(tree): (b"TREE", b"EOIE"),
    tree_in_part: (b"TREE",),
    tree_of_lengths: (b"TREE",),
    marked(tree_of_lengths): (b"TREE", b"EOIE"),
    resolved: (b"TREE", b"REUC"),
    resolved_in_part: (b"TREE", b"REUC"),
    unresolved_again: (b"TREE", b"REUC"),
    untracked_alone: (b"TREE", b"UNTR"),
    untracked: (b"TREE", b"UNTR"),
    untracked_all: (b"TREE", b"UNTR"),
    untracked_in_part: (b"TREE", b"UNTR"),
    untracked_many: (b"TREE", b"UNTR"),
    watched: (b"TREE", b"FSMN"),
    watched_of_version_1: (b"TREE", b"FSMN"),
    watched_changes: (b"TREE", b"FSMN"),
    watched_many: (b"TREE", b"FSMN"),
    sparse: (b"TREE", b"sdir"),
    marked(sparse): (b"TREE", b"sdir", b"EOIE"),
    all_together: ORDER,
}
BY_NAME = {shape.__name__: shape for shape in SHAPES}
