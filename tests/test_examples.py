"""The examples, and `index-times list-tree`, print and write what they should of the files that are kept with them.

A run is `args`, a word a line, and `stdout`: one of a crate itself, which `rt ci` makes too, and one in each folder of
its `runs/`. It is made in a copy of the crate's `data/`, has to print what its `stdout` has, and ends with status 0.
"""
import hashlib
import os
import re
import shutil
import subprocess

from tests import TOP
from tests.case import Case, needs
from tests.common import answer, program
from tests.model import state, writing

RUNS = TOP / "crates" / "examples" / "runs"
DATA = TOP / "crates" / "examples" / "data"
WORDS = {
    "checkout": "INDEX DIRECTORY",
    "merge": "OURS BASE THEIRS PATH",
    "repair": "INDEX OUT",
    "sample": "INDEX PATH",
    "stage": "INDEX ID PATH",
    "status": "INDEX SECONDS LIST",
    "tree-builder": "LIST OUT",
}
DIGEST_LEN = 20
PAST = 1_500_000_000


def runs_of(crate):
    """The folders of a crate's runs."""
    folder = TOP / "crates" / crate
    return [it.parent for it in (folder / "args", *sorted(folder.glob("runs/*/args"))) if it.is_file()]


def words_of(run):
    return (run / "args").read_text().splitlines()


def ends_in_digest(data):
    return data[-DIGEST_LEN:] == hashlib.sha1(data[:-DIGEST_LEN]).digest()


def repaired(made, room):
    """Repairs the broken index: what is written is the model's of that."""
    shutil.copytree(DATA, room / "data")
    answer((made, *words_of(RUNS / "repair")), cwd=room / "data")
    broken, repaired = ((room / "data" / f"{name}.index").read_bytes() for name in ("broken", "repaired"))
    body = broken[:-DIGEST_LEN]
    index = state.read(body + hashlib.sha1(body).digest(), "sha1")[0]
    wanted = writing.image(index, writing.Options(with_end_marker=False))[2]
    yield "another index than the broken one", repaired == wanted and not ends_in_digest(broken)


def built(made, room):
    """Builds the index of a list: its digest is the one that was printed."""
    shutil.copytree(DATA, room / "data")
    answer((made, *words_of(RUNS / "tree-builder")), cwd=room / "data")
    index = (room / "data" / "built.index").read_bytes()
    printed = (RUNS / "tree-builder" / "stdout").read_text().split()[-1]
    yield "another file than was told", ends_in_digest(index) and index[-DIGEST_LEN:].hex() == printed


def trees_listed(made, room):
    """Runs tree-builder on its list as `git ls-tree -r` prints it, and with `-l`, where sizes stand before the tab."""
    lines = [re.split("[ \t]", line) for line in (DATA / "tree.list").read_text().splitlines()]
    wanted = (RUNS / "tree-builder" / "stdout").read_bytes()
    for size in ("", "       7", "       -"):
        listed = "".join(f"{mode} blob {blob}{size}\t{path}\n" for mode, blob, _, path in lines)
        (room / "tree.list").write_text(listed)
        built = room / "trees.index"
        built.write_bytes(b"")
        found = answer((made, "tree-builder", "tree.list", built.name), cwd=room)
        yield f"tree-builder, sizes {size!r}: {found}", found == (0, wanted, b"")
        data = built.read_bytes()
        yield f"tree-builder, sizes {size!r}: another file", data[-DIGEST_LEN:].hex() == wanted.split()[-1].decode()


def owners(made, room):
    """Runs status on files of an owner and a group of unlike numbers, and with each changed in the list."""
    index = state.read((DATA / "status.index").read_bytes(), "sha1")[0]
    for entry in index.entries:
        entry.stat = entry.stat._replace(uid=1001, gid=2002)
    (room / "status.index").write_bytes(writing.image(index)[2])
    lines = [line.split(" ") for line in (DATA / "status.list").read_text().splitlines()]
    everything = b"".join(entry.path + b"\n" for entry in index.entries)
    kept = (RUNS / "status" / "stdout").read_bytes()
    for uid, gid, wanted in (("1001", "2002", kept), ("2002", "2002", everything), ("1001", "1001", everything)):
        listed = "".join(" ".join((*words[:4], uid, gid, *words[6:])) + "\n" for words in lines)
        (room / "status.list").write_text(listed)
        found = answer((made, "status", "status.index", "1790000500", "status.list"), cwd=room)
        yield f"status of {uid} and {gid}: {found}", found == (0, wanted, b"")


def staged_as_git(made, room):
    """Stages a file beside git: in a repository in conflict, where files stand, and where a folder is needed."""
    top, quiet = room / "repository", {"stdout": subprocess.DEVNULL, "stderr": subprocess.DEVNULL}

    def git(*words, **how):
        return subprocess.run(("git", "-c", "user.name=x", "-c", "user.email=x@x", *words), cwd=top, **how)

    top.mkdir()
    git("init", "-q", "-b", "main", check=True)
    for path in ("a", "d/b", "d/c"):
        (top / path).parent.mkdir(exist_ok=True)
        (top / path).write_text(path)
    git("add", ".", check=True)
    git("commit", "-qm", "1", check=True)
    git("checkout", "-qb", "side", check=True)
    (top / "a").write_text("theirs")
    git("commit", "-qam", "2", check=True)
    git("checkout", "-q", "main", check=True)
    (top / "a").write_text("ours")
    git("commit", "-qam", "3", check=True)
    git("merge", "side", **quiet)
    blob = git("hash-object", "-w", "--stdin", input=b"new", stdout=subprocess.PIPE, check=True).stdout.decode().strip()
    index = top / ".git/index"
    before = index.read_bytes()
    for path in ("a", "e", "d", "d/b", "d/c/x", "a/b"):
        seen = []
        for words in ((made, "stage", ".git/index", blob, path), None):
            index.write_bytes(before)
            if words:
                found = answer(words, cwd=top)
                yield f"stage {path}: {found}", found == (0, b"", b"")
            else:
                git("update-index", "--add", "--replace", "--cacheinfo", f"100644,{blob},{path}", check=True)
            told = [("ls-files", "-s"), ("ls-files", "--resolve-undo"), ("write-tree",), ("fsck", "--no-dangling")]
            seen.append([git(*it, stdout=subprocess.PIPE, stderr=subprocess.PIPE).stdout for it in told])
        yield f"stage {path}: {seen}", seen[0] == seen[1]
    index.write_bytes(before)
    status, out, faults = answer((made, "stage", ".git/index", blob, ".git/x"), cwd=top)
    yield f"stage .git/x: {faults}", (status, out) == (1, b"") and index.read_bytes() == before


def untracked_as_git(made, room):
    """Stages what an untracked cache lists: git then lists the rest by it as without it, and as behind its own edit."""
    top = room / "untracked"

    def git(*words, **how):
        return subprocess.run(("git", *words), cwd=top, check=True, stdout=subprocess.PIPE, **how).stdout

    top.mkdir()
    git("init", "-q", "-b", "main")
    for path in ("a", "d/b", "d/e/f", "g/h/i"):
        (top / path).parent.mkdir(parents=True, exist_ok=True)
        (top / path).write_text(path)
    git("add", ".")
    for path in ("c", "d/x", "d/e/y", "g/h/z", "k/l", "k/m", "n/o/p"):
        (top / path).parent.mkdir(parents=True, exist_ok=True)
        (top / path).write_text(path)
    for place, _, names in os.walk(top):
        for path in (place, *(os.path.join(place, name) for name in names)):
            os.utime(path, (PAST, PAST))
    git("config", "core.untrackedCache", "true")
    git("update-index", "--untracked-cache")
    git("status", "--porcelain")
    index = top / ".git/index"
    before = index.read_bytes()
    yield "git has an untracked cache", b"UNTR" in before
    for path in ("c", "d/x", "d/e/y", "k/l", "n/o/p", "a", "d", "q/r"):
        source = path if (top / path).is_file() else "a"
        blob = git("hash-object", "-w", source).decode().strip()
        index.write_bytes(before)
        found = answer((made, "stage", ".git/index", blob, path), cwd=top)
        yield f"stage {path}: {found}", found == (0, b"", b"") and b"UNTR" in index.read_bytes()
        # (by the cache as it is, and then by one that git has begun anew for other flags)
        seen = [git("status", "--porcelain"), git("status", "--porcelain", "-uall")]
        without = [git("-c", "core.untrackedCache=false", "status", "--porcelain", *it) for it in ((), ("-uall",))]
        index.write_bytes(before)
        git("update-index", "--add", "--replace", "--cacheinfo", f"100644,{blob},{path}")
        theirs = [git("status", "--porcelain"), git("status", "--porcelain", "-uall")]
        yield f"status behind {path}: {seen}, {without}, {theirs}", seen == without == theirs


def lacking_words(made, room):
    """Looks at examples that lack their words."""
    for words in ((), ("unknown",), *((name,) for name in WORDS)):
        status, out, faults = answer((made, *words), cwd=room)
        told = f"{words[0]} {WORDS[words[0]]}" if words and words[0] in WORDS else "NAME WORDS"
        yield f"{words}: status {status}, {faults}", (
            (status, out) == (1, b"") and f"usage: examples {told}".encode() in faults and faults.count(b"\n") == 1
        )


def lacking_files(made, room):
    """Looks at examples whose file isn't there."""
    for name, words in WORDS.items():
        lacking = ["1" if word == "SECONDS" else "lacking" for word in words.split()]
        status, out, faults = answer((made, name, *lacking), cwd=room)
        yield f"{name}, no file: status {status}, {faults}", (status, out) == (1, b"") and faults.count(b"\n") == 1


class Runs(Case):
    def look(self, crate):
        for run in runs_of(crate):
            data = self.room() / "data"
            shutil.copytree(TOP / "crates" / crate / "data", data)
            status, out, faults = answer((program(crate), *words_of(run)), cwd=data)
            what = f"{' '.join(words_of(run))}: status {status}, {faults.decode(errors='replace')}"
            self.hold(what, (status, out, faults) == (0, (run / "stdout").read_bytes(), b""))

    def test_examples(self):
        self.look("examples")

    def test_list_tree(self):
        self.look("bench_times")


class Examples(Case):
    def look(self, case):
        self.hold_all(case(program("examples"), self.room()))

    def test_repair_writes_the_model_of_the_broken_index(self):
        self.look(repaired)

    def test_tree_builder_writes_the_digest_that_it_prints(self):
        self.look(built)

    def test_tree_builder_takes_lists_of_git_ls_tree(self):
        self.look(trees_listed)

    def test_status_compares_owner_and_group(self):
        self.look(owners)

    @needs("git")
    def test_stage_leaves_what_git_leaves(self):
        self.look(staged_as_git)

    @needs("git")
    def test_stage_leaves_the_untracked_cache_of_git(self):
        self.look(untracked_as_git)

    def test_words_that_are_missing(self):
        self.look(lacking_words)

    def test_file_that_is_missing(self):
        self.look(lacking_files)
