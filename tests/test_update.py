"""What `index-tool update` makes of indexes is what `git update-index --index-info` makes of them.

Random sequences of texts of changes (`--set sequences=N` of each kind of ids, by default 150) are given to git and to
index-tool, each with an index of its own that begins the same: a repository's, one with a merge that isn't decided on,
a split one, or none. The texts mix the three forms of lines, all modes, stages, removals, files in the place of folders
and the other way round, ids in upper case, and names with bytes that are quoted, by newlines and by NULs. After each
text git lists the same entries and the same sides of conflicts that were taken out (`ls-files --stage`,
`--resolve-undo`) in both, writes the same trees or refuses the same, and finds nothing wrong (`fsck`). A sequence ends
where git leaves sides of a conflict that are at odds with others of their stage, and index-tool takes them out, and
records them.

Some texts have a line that both refuse. Then the message names that line by its number, the index has the bytes that
it had, and no lock is left.
"""
import functools
import os
import random
import re
import shutil

from tests import repository
from tests.case import Case, needs
from tests.common import ID_LEN, KINDS, answer, setting
from tests.repository import WRITING, index_in

MODES = (
    b"100644", b"100755", b"120000", b"160000", b"644", b"755", b"0100664", b"100744", b"120777", b"40755", b"160001",
    b"1", b"60000", b"7777777", b"37777777777",
)
NAMES = (b"a", b"a-b", b"a.b", b"a0", b"a b", b"a\tb", b"a\nb", b'"a', b'a"', b"a\\b", b"b", b"\x01\x7f")
NAMES += (b"\xc3\xa9", b"\xff")
LETTERS = dict(zip(b"\a\b\t\n\v\f\r\"\\", b'abtnvfr"\\'))
# a time of a file, in nanoseconds
PAST = 1_600_000_000 * 10**9 + 5

git = functools.partial(repository.git, env=WRITING)


def by(index):
    """Git with this index."""
    return functools.partial(repository.ask_git, env=WRITING | {"GIT_INDEX_FILE": str(index)})


def quoted(source, path):
    """A path in double quotes, each byte spelled in one of the ways that there are."""

    def spelled(byte):
        if byte in LETTERS and source.random() < 0.7:
            return b"\\%c" % LETTERS[byte]
        if byte in LETTERS or byte < 32 or source.random() < 0.1:
            return b"\\%03o" % byte
        return b"%c" % byte
    return b'"' + b"".join(map(spelled, path)) + b'"'


def line(source, nul, mode, digest, stage, path):
    """A line of a change, in one of the forms."""
    if source.random() < 0.1:
        digest = digest.upper()
    if stage or source.random() < 0.3:
        head = b"%s %s %d" % (mode, digest, stage)
    elif source.random() < 0.5:
        head = b"%s %s %s" % (mode, source.choice((b"blob", b"commit", b"anything")), digest)
    else:
        head = b"%s %s" % (mode, digest)
    if not nul and (path[:1] == b'"' or b"\n" in path or source.random() < 0.3):
        path = quoted(source, path)
    return head + b"\t" + path


def changes(source, nul, kind, blobs):
    """The lines of some changes."""
    none = b"0" * 2 * ID_LEN[kind]
    for _ in range(source.randrange(1, 12)):
        path = b"/".join(source.choice(NAMES) for _ in range(source.choice((1, 1, 2, 2, 3))))
        sort = source.random()
        if sort < 0.25:
            yield line(source, nul, source.choice((b"0", b"000000")), source.choice((none, blobs[0])), 0, path)
        elif sort < 0.4:
            # (an index with a merged entry beside sides of a conflict is one that git can't read)
            yield line(source, nul, b"0", none, 0, path)
            for stage in source.sample((1, 2, 3), source.randrange(1, 4)):
                yield line(source, nul, source.choice(MODES[:2]), source.choice(blobs), stage, path)
        else:
            yield line(source, nul, source.choice(MODES), source.choice(blobs), 0, path)


def wrong(source, nul, kind, blobs):
    """A line that git and index-tool refuse, each by itself."""
    right = line(source, nul, b"100644", blobs[0], 0, b"x")
    lines = [
        b"", b"x", right.replace(b"\t", b" "), b"9" + right, b"4" + b"0" * 10 + b" " + blobs[0] + b"\tx",
        b"100644 " + blobs[0][:-1] + b"\tx", b"100644 " + blobs[0][:-1] + b"g\tx", b"100644 %s 4\tx" % blobs[0],
        b"100644\t" + blobs[0], b"100644 %s\tx" % (b"0" * 2 * ID_LEN[kind]),
    ]
    if not nul:
        lines += [b'100644 %s\t"%s' % (blobs[0], path) for path in (b"a", b"\\q\"", b"\\400\"", b"\\12\"")]
    return source.choice(lines)


def start(folder, kind):
    """A repository with some objects and indices: of a commit, a split one, and of a merge that isn't decided on."""
    git(folder.parent, "init", "-q", "-b", "main", f"--object-format={kind}", str(folder))
    for number, branch in ((0, "main"), (1, "side"), (2, "main")):
        git(folder, "checkout", "-q", *(["-b"] if number == 1 else []), branch) if number else None
        for path in ("a/a/b", "a/b", "b/b", "a-b"):
            (folder / path).parent.mkdir(parents=True, exist_ok=True)
            (folder / path).write_text(f"{path} {number if path != 'b/b' else 0}\n")
        git(folder, "add", ".")
        git(folder, "commit", "-q", "-m", str(number))
    git(folder, "write-tree")
    blobs = [entry.split(b" ")[1] for entry in git(folder, "ls-files", "-s").splitlines()]
    (folder / "whole").write_bytes(index_in(folder).read_bytes())
    split(folder, blobs[0])
    repository.ask_git(folder, "merge", "-q", "side", env=WRITING)
    (folder / "merge").write_bytes(index_in(folder).read_bytes())
    return blobs


def split(folder, blob):
    """Makes a split index of the whole one, with entries of its own; and copies the one that it shares beside it."""
    (folder / "split").write_bytes((folder / "whole").read_bytes())
    ask = functools.partial(by(folder / "split"), folder, "-c", "splitIndex.maxPercentChange=100", "update-index")
    ask("--split-index")
    ask("--add", "--cacheinfo", f"100644,{blob.decode()},split")
    for file in (folder / ".git").glob("sharedindex.*"):
        shutil.copy(file, folder)


def seen(folder, index):
    """What git says of an index."""
    ask = by(index)
    listed, undone = ask(folder, "ls-files", "-s", "-z"), ask(folder, "ls-files", "--resolve-undo", "-z")
    # (git writes no index where there is none and nothing comes)
    before = index.read_bytes() if index.exists() else None
    tree = ask(folder, "write-tree")
    index.unlink(missing_ok=True)
    if before is not None:
        index.write_bytes(before)
    return listed, undone, tree[:2], ask(folder, "fsck", "--no-dangling", "--no-progress")[0]


def are_left_by_git(theirs, ours):
    """Whether what differs is that git left entries at odds, of which index-tool recorded the sides it took out."""
    listed, undone = ([set(told[at][1].split(b"\0")) for told in (theirs, ours)] for at in (0, 1))
    left = listed[0] - listed[1]
    sides = {entry for entry in left if not entry.split(b"\t")[0].endswith(b" 0")}
    merged = [entry.split(b"\t", 1)[1] for entry in left - sides]
    is_below = all(any(b" 0\t%s/" % path in entry for entry in listed[0]) for path in merged)
    # (a side that is recorded comes in the place of one that was recorded of its path and stage before)
    recorded, replaced = ({entry.split(b" ", 2)[2] for entry in them} for them in (sides, undone[0] - undone[1]))
    return left and listed[1] < listed[0] and sides == undone[1] - undone[0] and replaced <= recorded and is_below


def update(tool, folder, kind, nul, index, text):
    """The status and the faults of git, and of index-tool, each with its index."""
    theirs = by(index[0])(folder, "update-index", *(["-z"] if nul else []), "--index-info", input=text)
    ours = answer((tool, "update", *(["-z"] if nul else []), kind, index[1]), input=text)
    return theirs, ours


def sequence(tool, folder, kind, blobs, number):
    """What is compared in a sequence of texts, and whether it is so."""
    source = random.Random(f"update {kind} {number}")
    index = folder / "theirs", folder / "ours"
    begun = source.choice(("whole", "merge", "split", None))
    for file in index:
        file.unlink(missing_ok=True)
        if begun:
            file.write_bytes((folder / begun).read_bytes())
    for _ in range(source.randrange(1, 4)):
        nul, end_of = source.random() < 0.5, b"\n"
        if nul:
            end_of = b"\0"
        lines = list(changes(source, nul, kind, blobs))
        place = source.randrange(len(lines) + 1) if source.random() < 0.15 else None
        if place is not None:
            lines.insert(place, wrong(source, nul, kind, blobs))
        text = end_of.join(lines) + (end_of if lines[-1] == b"" or source.random() < 0.8 else b"")
        before = index[1].read_bytes() if index[1].exists() else None
        theirs, ours = update(tool, folder, kind, nul, index, text)
        if place is not None:
            behind = index[1].read_bytes() if index[1].exists() else None
            yield "refused", theirs[0] != 0 and ours[:2] == (1, b"") and b"line %d: " % (place + 1) in ours[2]
            yield "as it was", behind == before and not index[1].with_name("ours.lock").exists()
            continue
        yield "done", theirs[0] == 0 and ours == (0, b"", b"")
        yield "no lock", not index[1].with_name("ours.lock").exists()
        told = [seen(folder, file) for file in index]
        # (docs/DIFFERENCES.md tells where git leaves them)
        if are_left_by_git(*told):
            return
        yield "the same", index[1].exists() and told[0] == told[1]


def watched(tool, folder, kind, blobs):
    """What a monitor said is of the same entries as after git's own change."""
    hook, index = folder / ".git" / "monitor", (folder / "theirs", folder / "ours")
    hook.write_text('#!/bin/sh\nprintf "token\\0a/b\\0"\n')
    hook.chmod(0o755)
    watching = ("-c", f"core.fsmonitor={hook}", "-c", "core.fsmonitorHookVersion=2")
    asked = functools.partial(by(folder / "watched"), folder, *watching)
    (folder / "watched").write_bytes((folder / "whole").read_bytes())
    git(folder, "checkout", "-q", "-f", "main")
    for words in (("update-index", "--fsmonitor"), ("status",), ("update-index", "--force-write-index")):
        asked(*words)
    told = asked("ls-files", "-f")[1]
    yield "a monitor told of some entries", b"\nh " in b"\n" + told and b"H a/b\n" in told
    for number in range(40):
        source = random.Random(f"watched {kind} {number}")
        for file in index:
            file.write_bytes((folder / "watched").read_bytes())
        text = b"\n".join(changes(source, False, kind, blobs)) + b"\n"
        theirs = by(index[0])(folder, *watching, "update-index", "--index-info", input=text)
        ours = answer((tool, "update", kind, index[1]), input=text)
        theirs_told, ours_told = (
            set(by(file)(folder, *watching, "ls-files", "-f", "-s", "-z")[1].split(b"\0")) for file in index
        )
        yield f"done {number}", theirs[0] == 0 and ours == (0, b"", b"")
        # (git may leave some that are at odds, as docs/DIFFERENCES.md tells)
        yield f"of the same entries, {number}", b"FSMN" in index[1].read_bytes() and ours_told <= theirs_told


def differing(tool, folder, kind, blobs):
    """Lines that git passes over, or reads in another way, are refused."""
    index, blob = folder / "ours", blobs[0]
    index.write_bytes((folder / "whole").read_bytes())
    for text in (
        b"100644 %s\t\n" % blob, b"100644 %s\ta//b\n" % blob, b"100644 %s\t.git/x\n" % blob,
        b"100644 %s\tx/../y\n" % blob,
        b"120000 %s\t.gitmodules\n" % blob, b"40000 %s\tx\n" % blob, b"40000 %s\tx/\n" % blob,
        b"40000 %s 1\tx/\n" % blob, b"100644 two words %s\tx\n" % blob,
        b"100644 blob %s 2\tx\n" % blob, b'100644 %s\t"x"y\n' % blob, b" 644 %s\tx\n" % blob, b"+644 %s\tx\n" % blob,
        b"100644 %s\tx\0y\n" % blob,
    ):
        done = answer((tool, "update", kind, index), input=text)
        is_as_it_was = index.read_bytes() == (folder / "whole").read_bytes()
        yield f"{text!r} is refused", done[:2] == (1, b"") and b"line 1: " in done[2] and is_as_it_was


def timed(tool, folder, kind, blobs):
    """A change gives the index another time, and git sees what it saw before; a text without one keeps the time."""
    git(folder, "config", "core.trustctime", "false")
    git(folder, "checkout", "-q", "-f", "main")
    index, unseen = (folder / "theirs", folder / "ours"), folder / "a-b"
    index[0].write_bytes((folder / "whole").read_bytes())
    for text in ("base\n", "work\n"):
        unseen.write_text(text)
        os.utime(unseen, ns=(PAST, PAST))
        if text == "base\n":
            by(index[0])(folder, "add", "a-b")
    index[1].write_bytes(index[0].read_bytes())
    for file in index:
        os.utime(file, ns=(PAST, PAST))
    done = answer((tool, "update", kind, index[1]), input=b"")
    yield "no line keeps the time", done == (0, b"", b"") and index[1].stat().st_mtime_ns == PAST
    theirs, ours = update(tool, folder, kind, False, index, b"100644 %s\tnew\n" % blobs[0])
    yield "a line is read", theirs[0] == 0 and ours == (0, b"", b"")
    yield "a line gives another time", all(file.stat().st_mtime_ns > PAST for file in index)
    told = [by(file)(folder, "status", "--porcelain", "-uno") for file in index]
    yield "git sees that a file was changed", told[0] == told[1] and b"M a-b\n" in told[1][1]


def sparse(tool, folder, kind):
    """In a sparse index paths in a whole directory are refused, and of others all is as after git's own change."""
    folder.mkdir()
    git(folder, "init", "-q", f"--object-format={kind}", ".")
    for path in ("in/a", "out/b", "out/deep/c", "outer", "top"):
        (folder / path).parent.mkdir(parents=True, exist_ok=True)
        (folder / path).write_text(f"{path}\n")
    git(folder, "add", ".")
    git(folder, "commit", "-q", "-m", "x")
    git(folder, "sparse-checkout", "set", "--cone", "--sparse-index", "in")
    begun = index_in(folder).read_bytes()
    whole = by(index_in(folder))(folder, "ls-files", "--sparse", "-s")[1]
    yield "git made a sparse index", b"040000 " in whole and b"\tout/\n" in whole
    blob, tree = (git(folder, "rev-parse", name).split()[0] for name in ("HEAD:top", "HEAD:out"))
    index, right = (folder / "theirs", folder / "ours"), b"100644 %s\tx\n" % blob
    for text in (
        b"100644 %s\tout/b\n" % blob, b"100644 %s\tout/new\n" % blob, b"100644 %s 1\tout/deep/c\n" % blob,
        b"0 %s\tout/b\n" % blob, b"0 %s\tout/deep/c\n" % blob, b"40000 %s\tout/\n" % tree,
        b"40000 %s\tnew/\n" % tree,
    ):
        index[1].write_bytes(begun)
        done = answer((tool, "update", kind, index[1]), input=right + text)
        is_as_it_was = index[1].read_bytes() == begun and not index[1].with_name("ours.lock").exists()
        yield f"{text!r} is refused", done[:2] == (1, b"") and b"line 2: " in done[2] and is_as_it_was
    for text in (
        b"100644 %s\tin/b\n" % blob, b"0 %s\tin/a\n" % blob, b"100644 %s\touter\n" % blob,
        b"100644 %s\tout0/b\n" % blob, b"100644 %s\tout\n" % blob, b"0 %s\tout\n" % blob,
    ):
        for file in index:
            file.write_bytes(begun)
        theirs, ours = update(tool, folder, kind, False, index, text)
        told = [seen(folder, file) for file in index]
        yield f"{text!r} is made", theirs[0] == 0 and ours == (0, b"", b"") and told[0] == told[1]


def instructions(tool, folder, before, lines):
    """The instructions by which lines change an index that others have made."""
    (folder / "made").unlink(missing_ok=True)
    words = (tool, "update", "sha1", folder / "made")
    made = answer(words, input=b"".join(before))
    counted = ("valgrind", "--tool=callgrind", "--callgrind-out-file=/dev/null")
    told = answer((*counted, *words), input=b"".join(lines))
    found = re.search(rb"Collected : (\d+)", told[2])
    return int(found[1]) if found and made[0] == told[0] == 0 else 0


def shapes(count):
    """What lines do, those that make an index, and those that change it then."""
    digest = b"1" * 2 * ID_LEN["sha1"]

    def lines(form):
        return [form % (digest, number) for number in range(count)]

    new = [b"100644 %s\t%d/%d\n" % (digest, number % 97, number) for number in range(count)]
    random.Random("steps").shuffle(new)
    files, within = lines(b"100644 %s\tf%06d\n"), lines(b"100644 %s\tf%06d/x\n")
    ours = lines(b"100644 %s 2\tf%06d\n")
    sides = lines(b"100644 %s 1\tf%06d\n") + ours
    yield "new paths in no order", [], new
    yield "conflicts resolved", sides, files
    yield "conflicts resolved from the last on", sides, files[::-1]
    yield "conflicts taken out", sides, lines(b"0 %s\tf%06d\n")
    yield "files where folders are", within, files
    yield "folders where files are", files, within
    yield "sides where folders are", lines(b"100644 %s 2\tf%06d/x\n"), ours
    in_turn = [line for both in zip(within, files) for line in both]
    yield "folders and files in turn", [], in_turn
    yield "folders and files in turn, from the last on", [], in_turn[::-1]
    yield "from the last on, then their folder", [], lines(b"100644 %s\td/%06d\n")[::-1] + [b"100644 %s\td\n" % digest]


@needs("git")
class Update(Case):
    def begun(self, kind):
        """A repository with indexes, and the ids of its files."""
        folder = self.room() / "repository"
        return folder, start(folder, kind)

    def test_random_sequences_of_changes(self):
        for kind in KINDS:
            folder, blobs = self.begun(kind)
            for number in range(setting("sequences", 150)):
                found = sequence(self.tool, folder, kind, blobs, number)
                self.hold_all(found, f"{kind}, sequence {number}: ")

    def test_sequences_begin_with_a_split_index(self):
        for kind in KINDS:
            folder, _ = self.begun(kind)
            self.hold(f"{kind}: git made a split index", b"link" in (folder / "split").read_bytes())

    def test_lines_that_git_reads_otherwise_are_refused(self):
        """docs/DIFFERENCES.md has these lines, which git passes over or reads in another way."""
        for kind in KINDS:
            folder, blobs = self.begun(kind)
            self.hold_all(differing(self.tool, folder, kind, blobs), f"{kind}: ")

    def test_answer_of_a_monitor_stays_of_the_same_entries(self):
        for kind in KINDS:
            folder, blobs = self.begun(kind)
            self.hold_all(watched(self.tool, folder, kind, blobs), f"{kind}: ")

    def test_lines_in_whole_directories_of_a_sparse_index_are_refused(self):
        for kind in KINDS:
            self.hold_all(sparse(self.tool, self.room() / "sparse", kind), f"{kind}: ")

    def test_change_gives_another_time_so_that_git_sees_changed_files(self):
        for kind in KINDS:
            folder, blobs = self.begun(kind)
            self.hold_all(timed(self.tool, folder, kind, blobs), f"{kind}: ")


@needs("git", "valgrind")
class Steps(Case):
    """Twice as many lines take about twice as many instructions."""

    def look(self, name):
        folder = self.room()
        less, more = (next(shape for shape in shapes(count) if shape[0] == name) for count in (4_000, 8_000))
        few, many = (instructions(self.tool, folder, *shape[1:]) for shape in (less, more))
        self.hold(f"{name}: from {few} to {many} instructions", 0 < few < many < 2.3 * few)

    def test_new_paths_in_no_order(self):
        self.look("new paths in no order")

    def test_conflicts_resolved(self):
        self.look("conflicts resolved")

    def test_conflicts_resolved_from_the_last_on(self):
        self.look("conflicts resolved from the last on")

    def test_conflicts_taken_out(self):
        self.look("conflicts taken out")

    def test_files_where_folders_are(self):
        self.look("files where folders are")

    def test_folders_where_files_are(self):
        self.look("folders where files are")

    def test_sides_where_folders_are(self):
        self.look("sides where folders are")

    def test_folders_and_files_in_turn(self):
        self.look("folders and files in turn")

    def test_folders_and_files_in_turn_from_the_last_on(self):
        self.look("folders and files in turn, from the last on")

    def test_from_the_last_on_then_their_folder(self):
        self.look("from the last on, then their folder")
