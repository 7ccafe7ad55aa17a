"""The static library, called from C and from Rust, answers as `index-tool` and git do.

The files are indexes of repositories that git makes, and with `--set folder=FOLDER` each file `*.index` below that, of
which a folder `sha1` or `sha256` on the way says the kind. Each is listed and checked by the examples in C and in Rust
as it is; cut at many places; with bytes changed; and with damage under a digest that fits, as of entries out of order
and of a cached tree that counts too much. They must print what `index-tool list` and `check` print, and refuse what
they refuse, in the same words. A link to a shared index is followed, as the library reads and checks both. Each file is
written anew too, in its own version and in version 4: it must have the bytes that `index-tool rewrite --keep` and
`rewrite4 --keep` write, except a cached tree that doesn't fit the entries; and git must list the same of what is
written of its own indexes, and write the same tree.

The crate in Rust is built from its package too, with the library that pkg-config knows. The README's samples must print
the ids that git has staged, and refuse a damaged index. Callers in C are built with AddressSanitizer and
UndefinedBehaviorSanitizer where these are there. test_called asks in one process what no example asks.
"""
import itertools
import pathlib
import shutil

from tests import TOP, installed
from tests.case import Case, needs
from tests.common import KINDS, answer, run, setting
from tests.damaged import damaged
from tests.made import sealed
from tests.model import entries, extensions, state, writing
from tests.repositories import SEARCHED, index_of
from tests.repository import WRITING, ask_git, git

GIT_QUESTIONS = (("ls-files", "-s", "-z"), ("ls-files", "-s", "-z", "--sparse"), ("write-tree",))
MODES = (b"040000", b"100644", b"100755", b"120000", b"160000")


def tests_in_rust(sort):
    """Whether rust/tests pass, over the indexes of a sort, which are in order."""
    files = {f"GIX_INDEX_{kind.upper()}": str(index_of(kind, sort)) for kind in KINDS}
    files |= {f"GIX_INDEX_SPLIT_{kind.upper()}": str(index_of(kind, "split")) for kind in KINDS}
    words = ("cargo", "test", "--quiet", "--offline", "--release")
    status, out, faults = answer(words, cwd=TOP / "rust", env=installed.in_rust_here() | files)
    yield f"tests in Rust over {sort}: {(out + faults).decode()}", status == 0


def packaged(room):
    """Whether the crate in Rust can be packaged, and is built from there over the library that pkg-config knows."""
    env = installed.in_rust_here()
    run(("cargo", "package", "--quiet", "--offline", "--allow-dirty", "--no-verify"), cwd=TOP / "rust", env=env)
    shutil.unpack_archive(next((installed.room() / "target" / "package").glob("*.crate")), room / "package", "gztar")
    folder = next((room / "package").iterdir())
    wanted = ("README.md", "LICENSE-MIT", "LICENSE-APACHE", "Cargo.toml", "build.rs", "src/lib.rs")
    yield "the files of the crate in Rust", all((folder / name).is_file() for name in wanted)
    del env["GIX_INDEX_LIB"]
    env |= {"CARGO_TARGET_DIR": str(room / "target-of-package"), "PKG_CONFIG_LIBDIR": str(room / "no such folder")}
    words = ("cargo", "build", "--quiet", "--offline", "--examples")
    status, _, faults = answer(words, cwd=folder, env=env | {"PKG_CONFIG_PATH": ""})
    yield "a crate in Rust without the library", status != 0 and b"c/install PREFIX" in faults
    if shutil.which("pkg-config"):
        env |= {"PKG_CONFIG_PATH": str(installed.prefix() / "lib" / "pkgconfig")}
        yield "a crate in Rust over pkg-config", answer(words, cwd=folder, env=env) == (0, b"", b"")


def told(done, path):
    """A program's status and output, and its fault without the names of the program and of files."""
    status, out, faults = done
    text = faults.decode(errors="replace")
    text = text.partition(f"{path}: ")[2] if f"{path}: " in text else text
    return status, out, text.removeprefix("its shared index: ")


def listings(tool, programs, room, kind, data):
    """What is looked at of one file, and whether it is so."""
    path = room / "file.index"
    path.write_bytes(data)
    for word, those in programs.items():
        wanted = told(answer((tool, word, kind, path)), path)
        is_of_link = "shared index" in wanted[2] or "sharedindex." in wanted[2]
        for language, program_of in those.items():
            found = told(answer((program_of, kind, path)), path)
            yield f"a {word} in {language}", found[:2] == wanted[:2] if is_of_link else found == wanted


def for_callers(kind, data, has_tree):
    """An index that `index-tool` wrote, as callers write it: without a cached tree that doesn't fit."""
    if has_tree:
        return data
    version, count = state.read_header(data, kind)
    rest = entries.read_entries(data[state.HEADER_LENGTH :], kind, version, count)[1]
    items = extensions.walk_before_trailer(rest, kind).items
    kept = [item for item in items if item[0] not in (extensions.TREE, extensions.END_MARKER)]
    start = len(data) - len(rest)
    is_marked = any(item[0] == extensions.END_MARKER for item in items)
    marker = extensions.end_marker_bytes(kind, start, kept) if is_marked else b""
    return sealed(kind, data[:start] + b"".join(writing.item_bytes(*item) for item in kept) + marker)


def has_git_mode(line):
    """Whether a line of a listing doesn't begin with a mode that is none of git's."""
    mode = line.partition(b" ")[0]
    return len(mode) != 6 or not mode.isdigit() or mode in MODES


def may_refuse(tool, kind, path):
    """Whether the library may refuse to write what was read of a file: rows out of order, or that can't stand in it."""
    lines = answer((tool, "list", kind, path))[1]
    is_unfit = b"\t\n" in lines or b"\0" in lines or not all(map(has_git_mode, lines.split(b"\n")))
    return is_unfit or answer((tool, "check", kind, path))[0] != 0


def rewritings(tool, writers, room, kind, data):
    """What is looked at where one file is written again."""
    path, wanted, out = (room / name for name in ("file.index", "wanted.index", "out.index"))
    path.write_bytes(data)
    for more in ((), ("4",)):
        # (an index of version 4 stays one)
        word = "rewrite4" if more or data[4:8] == b"\0\0\0\4" else "rewrite"
        wanted.unlink(missing_ok=True)
        is_written = answer((tool, word, "--keep", kind, path, wanted))[0] == 0
        is_right = is_written and answer((tool, "check-trees", kind, path))[0] == 0
        for language, program_of in writers.items():
            out.unlink(missing_ok=True)
            status = answer((program_of, kind, path, out, *more))[0]
            is_alone = not out.with_name("out.index.lock").exists()
            if status == 0:
                is_same = is_written and out.read_bytes() == for_callers(kind, wanted.read_bytes(), is_right)
                yield f"a {word} in {language}", is_same and is_alone
            else:
                may = not is_written or may_refuse(tool, kind, path)
                yield f"a refusal to {word} in {language}", status == 1 and is_alone and not out.exists() and may


def asked(folder, index, words):
    """What git answers of an index."""
    return ask_git(folder, *words, env=WRITING | {"GIT_INDEX_FILE": str(index)})


def git_reads(writers, room, kind, sort):
    """Whether git lists the same of what is written of its own indexes, and writes the same tree."""
    out, copy, index = room / "out.index", room / "copy.index", index_of(kind, sort)
    for shared in index.parent.glob("sharedindex.*"):
        shutil.copy(shared, room)
    shutil.copy(index, copy)
    wanted = [asked(index.parent.parent, copy, words) for words in GIT_QUESTIONS]
    for language, program_of in writers.items():
        for more in ((), ("4",)):
            out.unlink(missing_ok=True)
            is_written = answer((program_of, kind, index, out, *more))[0] == 0
            is_same = is_written and [asked(index.parent.parent, out, words) for words in GIT_QUESTIONS] == wanted
            yield f"{kind}: git's answers to what {language} wrote", is_same


def samples(room, those, sort):
    """Whether the README's samples print the id that git has staged at a path, and refuse a damaged index."""
    index, changed = index_of("sha1", sort), room / "damaged.index"
    lines = git(index.parent.parent, "ls-files", "-s", "-z").split(b"\0")[:-1]
    staged = [line.partition(b"\t")[::2] for line in lines]
    ids = {path: words.split()[1] for words, path in staged if words.endswith(b" 0")}
    wanted = {path.decode(): ids.get(path, b"none") for _, path in staged} | {"no such path": b"none"}
    changed.write_bytes(index.read_bytes()[:-1] + bytes([index.read_bytes()[-1] ^ 1]))
    for language, program_of in those.items():
        told_ids = {path: answer((program_of, index, path)) for path in wanted}
        are_right = all(told_ids[path] == (0, wanted[path] + b"\n", b"") for path in wanted)
        yield f"the sample in {language}", are_right
        status, out, faults = answer((program_of, changed, "a"))
        yield f"the sample in {language} of a damaged index", (status, out) == (1, b"") and faults != b""


def of_folder(folder):
    """The indexes below a folder: kind, name and bytes."""
    for path in sorted(pathlib.Path(folder).rglob("*.index")):
        kinds = [part for part in path.parts if part in KINDS]
        if kinds:
            yield kinds[-1], path.name, path.read_bytes()


@needs("git")
class Examples(Case):
    """The examples in C and in Rust, and what they print and write."""

    def examples(self, name):
        found = {"C": installed.in_c_sanitized(name)} if shutil.which("cc") else {}
        return found | ({"Rust": installed.in_rust()[name]} if shutil.which("cargo") else {})

    def look_at(self, kind, data, room):
        """At an index and at damaged copies of it, in a folder that has what they link to."""
        programs, writers = {word: self.examples(word) for word in ("list", "check")}, self.examples("rewrite")
        for place, copy in enumerate(damaged(kind, data)):
            looks = (listings(self.tool, programs, room, kind, copy), rewritings(self.tool, writers, room, kind, copy))
            self.hold_all(itertools.chain(*looks), f"{kind}, copy {place}: ")

    def look(self, sort):
        for kind in KINDS:
            room, index = self.room(), index_of(kind, sort)
            for shared in index_of(kind, "split").parent.glob("sharedindex.*"):
                shutil.copy(shared, room)
            self.look_at(kind, index.read_bytes(), room)
            self.hold_all(git_reads(self.examples("rewrite"), self.room(), kind, sort))

    def test_files_alone(self):
        self.look("alone")

    def test_conflicts(self):
        self.look("conflicts")

    def test_resolved_conflicts(self):
        self.look("resolved")

    def test_files_meant_to_be_added(self):
        self.look("meant_to_be_added")

    def test_skipped_entries(self):
        self.look("skipped")

    def test_sparse_directories(self):
        self.look("sparse")

    def test_split_index(self):
        self.look("split")

    def test_version_4_in_blocks(self):
        self.look("in_blocks")

    def test_files_of_a_folder(self):
        folder = setting("folder", "")
        if not folder:
            self.skipTest("no folder is asked for (--set folder=FOLDER)")
        for kind, name, data in of_folder(folder):
            with self.subTest(name):
                self.look_at(kind, data, self.room())

    def test_samples_of_the_readme(self):
        self.hold_all(samples(self.room(), self.examples("sample"), "alone"))

    def test_samples_of_the_readme_in_a_conflict(self):
        self.hold_all(samples(self.room(), self.examples("sample"), "conflicts"))


@needs("git", "cargo")
class Rust(Case):
    def test_tests_of_the_crate_over_git_indexes(self):
        for sort in SEARCHED:
            self.hold_all(tests_in_rust(sort))

    def test_crate_is_built_from_its_package(self):
        self.hold_all(packaged(self.room()))
