"""What the examples in C, Rust and Python do with an index is what git does.

Repositories are of the sorts of tests/repositories.py, some with changes of each sort in the work tree, and racy ones.
The examples `list` and `check` must print what git lists, and ok. `status` must name each file that git finds changed,
and none but those that may be. `stage` must leave the index that git leaves by `git add` and by `git rm --cached` in a
copy. git must list the same, with the same status and tree, and `git fsck` find nothing; and a change in the second of
the staging must still be seen. `resolve` must name the paths that git has in conflict, and settle all or one of them by
each side. Where the lock is there, nothing is written.
"""
import os
import shutil

from tests import installed, repositories
from tests.case import Case, needs
from tests.common import KINDS, answer
from tests.repositories import start
from tests.repository import ask_git, git, index_in, write

USED = ("list", "check", "status", "stage", "resolve")


# ---- What is listed, and what a work tree has


def listings(kind, folder, programs):
    """What is looked at of the listing and of the check of an index."""
    index = index_in(folder)
    wanted = git(folder, "ls-files", "-s", "-z", "--sparse").replace(b"\0", b"\n")
    for language, those in programs.items():
        yield f"a list in {language}", answer((those["list"], kind, index)) == (0, wanted, b"")
        yield f"a check in {language}", answer((those["check"], kind, index)) == (0, b"ok\n", b"")


def states(kind, folder, programs):
    """What is looked at of a work tree: what git finds changed is named, and what is named may have changed."""
    changes = {}
    for line in git(folder, "status", "--porcelain", "-z", "-uno", "--ignore-submodules=all").split(b"\0"):
        if line:
            changes[line[3:]] = line[1:2] if line[:2] not in (b"AA", b"UU", b"DU", b"UD", b"DD", b"AU", b"UA") else b"U"
    wanted = {path: letter for path, letter in changes.items() if letter != b" "}
    for language, those in programs.items():
        status, out, faults = answer((those["status"], kind, folder))
        named = dict(line.split(b"\t", 1)[::-1] for line in out.splitlines())
        sure = {path: letter for path, letter in named.items() if letter != b"R"}
        yield f"a status in {language}", (status, faults) == (0, b"")
        yield f"changes that are sure in {language}", all(wanted.get(path) == letter for path, letter in sure.items())
        yield f"changes that aren't passed over in {language}", wanted.keys() <= named.keys()


def settle(folder):
    """Makes the index younger than all files that it lists."""
    for path in folder.rglob("*"):
        if path.is_file() and not path.is_symlink() and ".git" not in path.parts:
            os.utime(path, (1600000000, 1600000000))
    for path in folder.rglob("*"):
        if path.is_symlink():
            os.utime(path, (1600000000, 1600000000), follow_symlinks=False)
    git(folder, "update-index", "-q", "--refresh")


def changes(folder):
    """A work tree with changes of each sort, behind an index that is younger than its files, with a submodule."""
    inner, kind = folder / "inner", git(folder, "rev-parse", "--show-object-format").decode().strip()
    git(folder, "init", "-q", "-b", "main", f"--object-format={kind}", str(inner))
    write(inner, "file", "inner\n")
    git(inner, "add", ".")
    git(inner, "commit", "-q", "-m", "Inner")
    git(folder, "add", ".")
    settle(folder)
    write(inner, "file", "another\n")
    write(folder, "docs/file-1.txt", "more than it was before\n")
    (folder / "docs" / "file-2.txt").unlink()
    (folder / "docs" / "file-3.txt").chmod(0o755)
    (folder / "run").chmod(0o644)
    (folder / "docs" / "file-4.txt").unlink()
    (folder / "docs" / "file-4.txt").symlink_to("file-5.txt")
    (folder / "link").unlink()
    (folder / "link").symlink_to("another place")
    (folder / "docs" / "file-6.txt").unlink()
    (folder / "docs" / "file-6.txt").mkdir()


def racy(folder):
    """A file that is written again with as many bytes, right behind the index."""
    write(folder, "docs/file-1.txt", "DOCS 1\n")


def meant_and_gone(folder):
    """Files that are only meant to be added, of which one is gone, beside others that are."""
    repositories.meant_to_be_added(folder)
    settle(folder)
    for name in ("docs/file-1.txt", "zone.txt"):
        (folder / name).unlink()
    shutil.rmtree(folder / "src" / "inner")


# ---- What is staged and unstaged in place


def put(folder, name, text="another\n"):
    """Puts a file there, and gives its name."""
    write(folder, name, text)
    return name


def a_new_file(folder):
    return put(folder, "docs/new.txt")


def a_first_file(folder):
    return put(folder, "A")


def a_last_file(folder):
    return put(folder, "z/deep/er/gr\u00fc\u00dfe\tof a tab")


def a_changed_file(folder):
    return put(folder, "docs/file-1.txt", "DOCS 1\n")


def a_program(folder):
    (folder / "docs" / "file-2.txt").chmod(0o755)
    return "docs/file-2.txt"


def a_link(folder):
    (folder / "docs" / "file-3.txt").unlink()
    (folder / "docs" / "file-3.txt").symlink_to("file-4.txt")
    return "docs/file-3.txt"


def a_submodule(folder):
    kind = git(folder, "rev-parse", "--show-object-format").decode().strip()
    git(folder, "init", "-q", "-b", "main", f"--object-format={kind}", str(folder / "inner"))
    write(folder / "inner", "file", "inner\n")
    git(folder / "inner", "add", ".")
    git(folder / "inner", "commit", "-q", "-m", "Inner")
    return "inner"


def a_directory_for_a_file(folder):
    (folder / "docs" / "file-1.txt").unlink()
    return put(folder, "docs/file-1.txt/inner")


def a_file_for_a_directory(folder):
    shutil.rmtree(folder / "src" / "inner")
    return put(folder, "src/inner")


def a_conflict(folder):
    repositories.conflicts(folder)
    return put(folder, "src/file-1.txt")


def a_file_that_was_meant(folder):
    repositories.meant_to_be_added(folder)
    return "zone.txt"


def beside_sparse_directories(folder):
    repositories.sparse(folder)
    return put(folder, "src/inner/deep/new.txt")


def in_a_split_index(folder):
    repositories.split(folder)
    return put(folder, "docs/file-2.txt")


def in_version_4(folder):
    repositories.in_blocks(folder)
    return put(folder, "docs/file-2.txt")


def one_file(folder):
    return "docs/file-3.txt"


def one_directory(folder):
    return "src/inner"


def a_conflict_to_remove(folder):
    repositories.conflicts(folder)
    return "src/file-1.txt"


def a_deleted_file(folder):
    (folder / "docs" / "file-4.txt").unlink()
    return "docs/file-4.txt"


STAGED = (
    a_new_file, a_first_file, a_last_file, a_changed_file, a_program, a_link, a_submodule, a_directory_for_a_file,
    a_file_for_a_directory, a_conflict, a_file_that_was_meant, beside_sparse_directories, in_a_split_index,
    in_version_4,
)
# (the last one may write the index)
QUESTIONS = (("ls-files", "-s", "-z", "--sparse"), ("status", "--porcelain=v2"), ("write-tree",))


def id_of(folder, path):
    """The id of what stands at a path, which git stores."""
    file = folder / path
    if file.is_symlink():
        return git(folder, "hash-object", "-w", "--stdin", input=os.fsencode(os.readlink(file))).decode().strip()
    if file.is_dir():
        return git(file, "rev-parse", "HEAD").decode().strip()
    return git(folder, "hash-object", "-w", path).decode().strip()


def copied(folder, name):
    """A copy of a repository, for which git looks at no numbers that a copy changes."""
    made = folder.with_name(name)
    shutil.copytree(folder, made, symlinks=True)
    return made


def told(folder):
    """What git answers of a repository."""
    return [ask_git(folder, *words)[:2] for words in QUESTIONS]


def faults_of(folder):
    """What git finds wrong with a repository. Its own sparse index may name trees that it hasn't made."""
    return {*ask_git(folder, "fsck", "--no-dangling")[1].splitlines()}


def stagings(kind, folder, make, programs):
    """What is looked at where a path is staged or unstaged in place."""
    git(folder, "config", "core.checkStat", "minimal")
    git(folder, "config", "core.trustctime", "false")
    path, is_put, others = make(folder), make in STAGED, copied(folder, "of-git")
    git(others, *(("add", "--", path) if is_put else ("rm", "-q", "-r", "--cached", "--", path)))
    found, wanted = faults_of(others), told(others)
    for language, those in programs.items():
        other = copied(folder, f"of-{language}")
        words = (those["stage"], kind, ".git/index", path, *([id_of(other, path)] if is_put else []))
        yield f"it is done in {language}", answer(words, cwd=other) == (0, b"", b"")
        yield f"no lock is left in {language}", not (other / ".git" / "index.lock").exists()
        if make is a_changed_file:
            yield f"a change in the second in {language}", b"MM " in changed_unseen(other, path)
        elif is_put:
            settings = ("-c", "core.checkStat=default", "-c", "core.trustctime=true")
            dirty = ask_git(other, *settings, "diff-files", "--name-only", "--", path)
            yield f"the stat in {language}", dirty == (0, b"", b"")
        yield f"git's check in {language}", faults_of(other) <= found
        yield f"git's answers in {language}", told(other) == wanted


def changed_unseen(folder, path):
    """What git tells of a path that changes at the same time and size as was staged, and is put back then."""
    file = folder / path
    text, seen = file.read_text(), file.stat()
    for other in (text.swapcase(), text):
        file.write_text(other)
        os.utime(file, ns=(seen.st_atime_ns, seen.st_mtime_ns))
        if other != text:
            status = git(folder, "status", "--porcelain", "--", path)
    return status


def refusals(kind, folder, programs):
    """What is looked at where nothing can be staged."""
    repositories.sparse(folder)
    index, before = index_in(folder), index_in(folder).read_bytes()
    put(folder, "docs/new.txt")
    id, lock = id_of(folder, "docs/new.txt"), index.with_name("index.lock")
    for language, those in programs.items():
        for words in (("docs/new.txt", id), ("docs/file-1.txt",), ("no/such/file", id), ("A", "abc"), ("A", id, id)):
            status, out, faults = answer((those["stage"], kind, index, *words), cwd=folder)
            is_refused = status in (1, 2) and out == b"" and faults != b""
            yield f"{words} in {language}", is_refused and index.read_bytes() == before and not lock.exists()
        lock.touch()
        for name, words in (("stage", ("run",)), ("resolve", ("ours",))):
            status, out, faults = answer((those[name], kind, index, *words), cwd=folder)
            is_refused = (status, out) == (1, b"") and b"index.lock" in faults
            yield f"{name} beside a lock in {language}", is_refused and index.read_bytes() == before and lock.exists()
        lock.unlink()


def beginnings(room, kind, programs):
    """What is looked at where there is no index yet."""
    for language in programs.keys() - {"C"}:
        folder = room / f"begun-{kind}-{language}"
        git(room, "init", "-q", "-b", "main", f"--object-format={kind}", str(folder))
        put(folder, "docs/new.txt")
        words = (programs[language]["stage"], kind, ".git/index", "docs/new.txt", id_of(folder, "docs/new.txt"))
        yield f"a first file in {language}", answer(words, cwd=folder) == (0, b"", b"")
        yield f"git's answer in {language}", git(folder, "status", "--porcelain") == b"A  docs/new.txt\n"


# ---- What is resolved


def resolutions(kind, folder, programs):
    """What is looked at where conflicts are settled."""
    repositories.conflicts(folder)
    before = git(folder, "ls-files", "-s", "-z").split(b"\0")[:-1]
    staged = [(line.partition(b"\t")[2], line.split()[2], line) for line in before]
    paths = list(dict.fromkeys(path for path, stage, _ in staged if stage != b"0"))
    yield "there are conflicts of three sorts", len(paths) == 4
    for language, those in programs.items():
        listed = answer((those["resolve"], kind, index_in(folder)))
        yield f"they are listed in {language}", listed == (0, b"".join(path + b"\n" for path in paths), b"")
        for stage, side in ((b"1", "base"), (b"2", "ours"), (b"3", "theirs")):
            for number, asked in enumerate((paths, paths[1:2])):
                other = copied(folder, f"{side}-{number}-{language}")
                given = [os.fsdecode(path) for path in asked] if asked != paths else []
                done = answer((those["resolve"], kind, index_in(other), side, *given))
                is_told = done == (0, b"".join(path + b"\n" for path in asked), b"")
                yield f"{asked} by {side} in {language}", is_told
                kept = [it for it in staged if it[0] not in asked or it[1] == stage]
                wanted = [it.replace(b" %s\t" % at, b" 0\t") if path in asked else it for path, at, it in kept]
                is_settled = git(other, "ls-files", "-s", "-z").split(b"\0")[:-1] == wanted
                is_whole = ask_git(other, "write-tree")[0] == (0 if asked == paths else 128)
                is_sound = ask_git(other, "fsck", "--no-dangling")[:2] == (0, b"")
                yield f"git's answers behind {asked} by {side} in {language}", is_settled and is_whole and is_sound


@needs("git")
class Tasks(Case):
    def setUp(self):
        """The examples by their language and name. Those in Python call a library that the C compiler makes."""
        self.programs = {}
        if shutil.which("cc"):
            self.programs["Python"] = {name: installed.in_python(name) for name in USED}
            self.programs["C"] = {name: installed.in_c_sanitized(name) for name in USED}
        if shutil.which("cargo"):
            self.programs["Rust"] = installed.in_rust()

    def look(self, case, shape=None):
        """At a repository of each kind, which has this shape first."""
        for kind in KINDS:
            folder = self.room() / "repository"
            start(folder, kind)
            if shape:
                shape(folder)
            self.hold_all(case(kind, folder, self.programs), f"{kind}: ")


class WorkTrees(Tasks):
    """Listings, checks and the state of a work tree."""

    def look_at(self, shape):
        self.look(lambda *words: (*listings(*words), *states(*words)), shape)

    def test_files_alone(self):
        self.look_at(repositories.alone)

    def test_conflicts(self):
        self.look_at(repositories.conflicts)

    def test_resolved_conflicts(self):
        self.look_at(repositories.resolved)

    def test_files_meant_to_be_added(self):
        self.look_at(repositories.meant_to_be_added)

    def test_skipped_entries(self):
        self.look_at(repositories.skipped)

    def test_sparse_directories(self):
        self.look_at(repositories.sparse)

    def test_split_index(self):
        self.look_at(repositories.split)

    def test_version_4_in_blocks(self):
        self.look_at(repositories.in_blocks)

    def test_changes_of_each_sort(self):
        self.look_at(changes)

    def test_racy_file(self):
        self.look_at(racy)

    def test_files_meant_to_be_added_and_gone(self):
        self.look_at(meant_and_gone)


class InPlace(Tasks):
    def look_at(self, make):
        self.look(lambda kind, folder, programs: stagings(kind, folder, make, programs))


class Staging(InPlace):
    """A path that is staged in place."""

    def test_a_new_file(self):
        self.look_at(a_new_file)

    def test_a_first_file(self):
        self.look_at(a_first_file)

    def test_a_last_file(self):
        self.look_at(a_last_file)

    def test_a_changed_file(self):
        self.look_at(a_changed_file)

    def test_a_program(self):
        self.look_at(a_program)

    def test_a_link(self):
        self.look_at(a_link)

    def test_a_submodule(self):
        self.look_at(a_submodule)

    def test_a_directory_for_a_file(self):
        self.look_at(a_directory_for_a_file)

    def test_a_file_for_a_directory(self):
        self.look_at(a_file_for_a_directory)

    def test_a_conflict(self):
        self.look_at(a_conflict)

    def test_a_file_that_was_meant(self):
        self.look_at(a_file_that_was_meant)

    def test_beside_sparse_directories(self):
        self.look_at(beside_sparse_directories)

    def test_in_a_split_index(self):
        self.look_at(in_a_split_index)

    def test_in_version_4(self):
        self.look_at(in_version_4)

    def test_first_file_of_a_new_index(self):
        for kind in KINDS:
            self.hold_all(beginnings(self.room(), kind, self.programs), f"{kind}: ")

    def test_refused_changes_and_locks(self):
        self.look(refusals)


class Unstaging(InPlace):
    """A path that is unstaged in place."""

    def test_one_file(self):
        self.look_at(one_file)

    def test_one_directory(self):
        self.look_at(one_directory)

    def test_a_conflict_to_remove(self):
        self.look_at(a_conflict_to_remove)

    def test_a_deleted_file(self):
        self.look_at(a_deleted_file)


class Resolving(Tasks):
    def test_conflicts_by_each_side(self):
        self.look(resolutions)
