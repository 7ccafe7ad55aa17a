"""git answers the same with what `rewrite4` and `rewrite` write in the place of a repository's index.

Each repository's index is written with `--keep`, in version 4, and by `rewrite` in the version that it has, or 2 for a
3 without need; and without `--keep`, in version 4, and in 2 or 3. With each in place, git must answer as it did to its
own: listings, status, differences and fsck. index-tool must list what git lists, find nothing wrong, and write with
`--keep` the same bytes of all three files by `rewrite4`, and of each file those of its version by `rewrite`.
"""
import itertools

from tests import TOP, repositories
from tests.case import Case, needs
from tests.common import KINDS, answer
from tests.repositories import said
from tests.repository import git, index_in


def asked(tool, folder, kind, writer, before):
    """What git and index-tool are asked about the index that is there now, and whether they answer as they should."""
    there = index_in(folder)
    index = there.read_bytes()
    for words, answered in said(folder).items():
        yield f"git {' '.join(words)} behind {writer}", answered == before[words]
    listed = git(folder, "ls-files", "-s", "-z", "--sparse").replace(b"\0", b"\n")
    yield f"index-tool list behind {writer}", answer((tool, "list", kind, there)) == (0, listed, b"")
    yield f"index-tool check behind {writer}", answer((tool, "check", kind, there)) == (0, b"ok\n", b"")
    yield f"the index that is only read, behind {writer}", there.read_bytes() == index


def version_of(index):
    """The version that an index's header names."""
    return int.from_bytes(index[4:8], "big")


def versions(tool, folder, kind):
    """Each check of a repository: what isn't so, and whether it holds."""
    there, written, before = index_in(folder), folder / ".git" / "written", said(folder)
    files = {"git": there.read_bytes()}
    yield from asked(tool, folder, kind, "git", before)
    for command, headers in (("rewrite4", {4}), ("rewrite", {4} if version_of(files["git"]) == 4 else {2, 3})):
        there.write_bytes(files["git"])
        done = answer((tool, command, "--keep", kind, there, written))
        yield f"index-tool {command} --keep", done == (0, b"", b"")
        if done[0] != 0:
            return
        files[command] = written.read_bytes()
        there.write_bytes(files[command])
        version = version_of(files[command])
        yield f"version {version} behind {command}", files[command][:4] == b"DIRC" and version in headers
        yield from asked(tool, folder, kind, command, before)
    for command, headers in (("rewrite4", {4}), ("rewrite", {2, 3})):
        there.write_bytes(files["git"])
        done = answer((tool, command, kind, there, written))
        plain = written.read_bytes()
        yield f"index-tool {command}: {done}", done == (0, b"", b"") and version_of(plain) in headers
        there.write_bytes(plain)
        yield from asked(tool, folder, kind, f"{command} without --keep", before)
    for command, (writer, index) in itertools.product(("rewrite4", "rewrite"), files.items()):
        there.write_bytes(index)
        status = answer((tool, command, "--keep", kind, there, written))[0]
        wanted = files["rewrite4" if writer == "rewrite4" else command]
        yield f"{command} behind {writer}: the bytes", status == 0 and written.read_bytes() == wanted


@needs("git")
class Versions(Case):
    def look(self, sort):
        for kind in KINDS:
            folder = repositories.made(self.room(), kind, sort)
            self.hold_all(versions(self.tool, folder, kind), f"{kind}: ")

    def test_statuses(self):
        """Of a listing, of a file that isn't there, of no words, and of a word that isn't UTF-8."""
        one = TOP / "crates" / "index_tool" / "data" / "one.index"
        calls = ((0, ("list", "sha1", one)), (1, ("list", "sha1", f"{one}.gone")), (2, ()))
        calls += ((2, ("list", "sha1", "\udcff")),)
        for status, words in calls:
            self.hold(f"status {status} of {ascii(words)}", answer((self.tool, *words))[0] == status)

    def test_files_alone(self):
        self.look(repositories.alone)

    def test_conflicts_of_a_merge(self):
        self.look(repositories.conflicts)

    def test_resolved_conflicts(self):
        self.look(repositories.resolved)

    def test_files_meant_to_be_added(self):
        self.look(repositories.meant_to_be_added)

    def test_entries_skipped_or_taken_for_unchanged(self):
        self.look(repositories.skipped)

    def test_sparse_directories(self):
        self.look(repositories.sparse)

    def test_split_index(self):
        self.look(repositories.split)

    def test_version_4_in_blocks(self):
        self.look(repositories.in_blocks)
