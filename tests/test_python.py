"""The module in Python, over the shared library, reads and writes what git does.

Its numbers and structures must be those of the headers in c/, and the shared library have the calls of these and no
other name. Of each index of repositories that git makes the entries must be those that git lists, with its stats and
flags; searches must find what a look at each entry finds; what is written must be read again, by git too. Of copies
that are damaged the module must say what the example `list` in C says.

Paths are staged and unstaged at random, one by one and many at once, and in a table that does the same by itself. What
comes of it is committed under a lock, and git must list the same, and the sides of conflicts that went. An entry that
can't be staged must leave the index as it was. A lock is removed if it is left without a commit, however that is. The
entries whose files may have changed must be those that each rule by itself gives, and all that git finds changed.

Each Python since 3.8 that is there reads one index. pip installs a copy of the module's folder, and mypy checks the
module and a caller by its strict rules, if they are there.
"""
import ctypes
import os
import random
import re
import shutil
import sys

from tests import TOP, installed, module_edits, module_views, repositories
from tests.case import Case, needs
from tests.common import KINDS, answer, run
from tests.damaged import damaged
from tests.module_edits import TURNS, is_raised, listed
from tests.repository import git, index_in

HEADERS = ("gix_index.h", "gix_index_table.h", "gix_index_file.h")
STRUCTURES = ("row", "summary", "places", "form", "written", "tree", "given", "comparison", "seen", "table",
              "lock")
PYTHONS = tuple(f"python3.{minor}" for minor in range(8, 20))


def headers():
    return "".join((TOP / "c" / name).read_text(encoding="utf-8") for name in HEADERS)


def calls():
    """The names of the calls that the headers have."""
    text = (TOP / "c" / "gix_index.h").read_text(encoding="utf-8")
    declared = re.findall(r"^(?:uint32_t|size_t|bool|void) (gix_index_\w+)\(", text, re.MULTILINE)
    return {*declared, *re.findall(r"^GIX_INDEX_API \w+ (gix_index_\w+)\(", headers(), re.MULTILINE)}


def numbers(module):
    """What is looked at of the numbers and of the version."""
    found = dict(re.findall(r"^#define (GIX_INDEX_\w+) (0x[0-9a-fA-F]+|\d+)u?\b", headers(), re.MULTILINE))
    of_c = {name: int(text, 8 if re.match("0[0-7]", text) else 0) for name, text in found.items()}
    for name, number in module.NUMBERS.items():
        yield f"{name} is {number}", of_c.get(name) == number
    version = re.search(r'^#define GIX_INDEX_VERSION "(.*)"$', headers(), re.MULTILINE)[1]
    yield "the version", version == module.__version__


def structures(module, room):
    """What is looked at of the structures: the place and the size of each field."""
    library = sys.modules[f"{module.__name__}._library"]
    wanted, lines = [], []
    for name in STRUCTURES:
        made = getattr(library, name.capitalize())
        wanted.append(f"{name} {ctypes.sizeof(made)}")
        lines.append(f'printf("{name} %zu\\n", sizeof(gix_index_{name}));')
        for field in (field[0] for field in made._fields_):
            at = getattr(made, field)
            wanted.append(f"{name}.{field} {at.offset} {at.size}")
            place, size = f"offsetof(gix_index_{name}, {field})", f"sizeof(((gix_index_{name} *)0)->{field})"
            lines.append(f'printf("{name}.{field} %zu %zu\\n", {place}, {size});')
    source = room / "structures.c"
    head = '#define _POSIX_C_SOURCE 200809L\n#include "gix_index_file.h"\nint main(void) {\n'
    source.write_text(head + "\n".join(lines) + "\nreturn 0;\n}\n")
    run(("cc", "-std=c11", f"-I{TOP / 'c'}", "-c", "-o", room / "structures.o", source))
    run(("cc", "-o", room / "structures", room / "structures.o", installed.prefix() / "lib" / "libgix_index.a"))
    found = answer((room / "structures",))[1].decode().splitlines()
    yield from ((f"in Python {line}", line in found) for line in wanted)


def names(room):
    """What is looked at of the shared library: its names, and how it is found."""
    folder = installed.prefix() / "lib"
    if shutil.which("nm"):
        lines = answer(("nm", "-D", "--defined-only", folder / "libgix_index.so"))[1].decode().split("\n")
        yield f"the shared library has {len(calls())} names", {line.split()[-1] for line in lines if line} == calls()
    version = re.search(r'^#define GIX_INDEX_VERSION "(.*)"$', headers(), re.MULTILINE)[1]
    wanted = {f"libgix_index.so{end_of}" for end_of in ("", f".{version}", f".{version.partition('.')[0]}")}
    yield "its files", {path.name for path in folder.glob("libgix_index.so*")} == wanted
    if shutil.which("pkg-config"):
        env = os.environ | {"PKG_CONFIG_PATH": str(folder / "pkgconfig"), "LD_LIBRARY_PATH": str(folder)}
        words = answer(("pkg-config", "--cflags", "--libs", "gix_index"), env=env)[1].decode().split()
        source, index = TOP / "c" / "examples" / "sample.c", TOP / "crates" / "index_tool" / "data" / "one.index"
        run(("cc", "-o", room / "shared", source, *words))
        run(("cc", "-o", room / "static", source, words[0], folder / "libgix_index.a"))
        for name in ("shared", "static"):
            yield f"a {name} caller", answer((room / name, index, "a"), env=env) == (0, b"1" * 40 + b"\n", b"")
        (room / "moved").mkdir()
        shutil.copy(room / "static", room / "moved")
        yield "a caller that needs no library", answer((room / "moved" / "static", index, "b")) == (0, b"none\n", b"")


# ---- What is read


def with_other_end(data):
    """Returns the bytes with another last byte."""
    return data[:-1] + bytes((data[-1] ^ 1,))


def debugged(index):
    """An index as `git ls-files --debug --sparse` shows it, of paths that aren't quoted."""
    for path, _, _, flags, at in index:
        yield os.fsdecode(path)
        yield f"  ctime: {at.ctime_secs}:{at.ctime_nsecs}"
        yield f"  mtime: {at.mtime_secs}:{at.mtime_nsecs}"
        yield f"  dev: {at.dev}\tino: {at.ino}"
        yield f"  uid: {at.uid}\tgid: {at.gid}"
        yield f"  size: {at.size}\tflags: {flags & ~0x8004fff:x}"


def searches(index):
    """What is looked at of what is found in an index."""
    entries = index.entries
    fronts = {path[:size] for path in (entry.path for entry in entries) for size in (0, 1, 5, len(path))}
    folders = {entry.path.rpartition(b"/")[0] for entry in entries}
    yield "each entry is found", all(index.find(entry.path, entry.stage) == entry for entry in entries)
    first = entries[0]
    yield "no other is", index.find("no such path") is None and index.find(first.path, 3 - first.stage) is None
    for front in fronts | {b"no such path"}:
        wanted = [entry for entry in entries if entry.path.startswith(front)]
        yield f"the front {front!r}", index.prefix(front) == wanted
    for folder in folders - {b""} | {b"no such path"}:
        below = [entry for entry in entries if entry.path.startswith(folder + b"/")]
        yield f"the folder {folder!r}", index.closest(folder) == (below[0] if below else None)
        below = [entry for entry in entries if entry.path.lower().startswith(folder.lower() + b"/")]
        found = index.closest(folder.swapcase(), ignore_case=True)
        yield f"the folder {folder!r} in another case", found == (below[0] if below else None)
    places = (index[0], index[-1], index[1:3], len(index), entries[0] in index)
    yield "it is a sequence", places == (entries[0], entries[-1], entries[1:3], len(entries), True)


def is_unchanged(a, b, comparison):
    """Whether two stats are of one unchanged file (git-config, "core.trustctime" and "core.checkStat")."""
    by_nanoseconds = comparison.use_nsec and comparison.check_stat
    times = ["mtime", *["ctime"] * comparison.trust_ctime]
    names = ["size", *(f"{time}_secs" for time in times), *(f"{time}_nsecs" for time in times if by_nanoseconds)]
    names += ["ino", "uid", "gid", *["dev"] * comparison.use_stdev] if comparison.check_stat else []
    return all(getattr(a, name) == getattr(b, name) for name in names)


def comparisons(module, chance):
    """What is looked at of stats that are compared with each other, and with the time of an index."""
    names = module.Stat._fields
    for turn in range(TURNS):
        comparison = module.Comparison(*(chance.random() < 0.5 for _ in range(4)))
        one = module.Stat(*(chance.choice((0, 7, 2**32 - 1)) for _ in names))
        other = one._replace(**{chance.choice(names): chance.choice((0, 7)) for _ in range(turn % 3)})
        yield f"{one} and {other}", one.matches(other, comparison) == is_unchanged(one, other, comparison)
        secs, nsecs = one.mtime_secs + chance.choice((-(2**33), -1, 0, 0, 1, 2**33)), chance.choice((6, 7, 8))
        later = nsecs <= one.mtime_nsecs or not (comparison.use_nsec and comparison.check_stat)
        wanted = secs < one.mtime_secs or secs == one.mtime_secs and later
        yield f"{one} at {secs}.{nsecs}", one.is_racy(secs * 10**9 + nsecs, comparison) == wanted


def modes(module, room):
    """What is looked at of the modes that entries take of what is seen."""
    mode, (file, program, link, folder) = module.Mode, (room / name for name in ("file", "program", "link", "folder"))
    file.write_bytes(b"")
    program.write_bytes(b"")
    program.chmod(0o755)
    link.symlink_to("file")
    folder.mkdir()
    seen = {path: os.lstat(path) for path in (file, program, link, folder)}
    for path, at in seen.items():
        yield f"the mode of a {path.name}", all(mode.matching(it, at) == mode.of(at) for it in (mode.FILE, mode.LINK))
        yield f"a {path.name} as it was", mode.matching(mode.of(at), at) == mode.of(at)
    yield "a file for a link", mode.matching(mode.LINK, seen[file], has_symlinks=False) == mode.LINK
    yield "no bit", mode.matching(mode.FILE, seen[program], executable_bit=False) == mode.FILE


def blobs(module, kind, room):
    """What is looked at of the ids of files."""
    git(room, "init", "-q", f"--object-format={kind}", f"blobs-{kind}")
    for data in (b"", b"a\n", bytes(range(256)) * 300, b"\0" * 99):
        wanted = git(room / f"blobs-{kind}", "hash-object", "--no-filters", "--stdin", input=data).decode()
        yield f"the id of {len(data)} bytes", module.Kind(kind).blob_id(data).hex() == wanted.strip()


def readings(module, kind, folder):
    """What is looked at of an index that is read."""
    path = index_in(folder)
    index, data = module.Index.open(path), path.read_bytes()
    shared = next((it.read_bytes() for it in (folder / ".git").glob("sharedindex.*")), None)
    yield "its kind and its version", (index.kind.value, index.version) == (kind, data[7])
    yield "its time", index.mtime_ns == path.stat().st_mtime_ns
    yield "its entries", listed(index) == git(folder, "ls-files", "-s", "-z", "--sparse")
    shown = git(folder, "-c", "core.quotePath=false", "ls-files", "--debug", "--sparse", "-z").replace(b"\0", b"\n")
    lines = [re.sub(r"flags: (\w+)$", lambda it: f"flags: {int(it[1], 16) & ~0x8004fff:x}", line)
             for line in os.fsdecode(shown).splitlines()]
    yield "its stats and flags", lines == [*debugged(index)]
    yield "its bytes", module.Index.from_bytes(data, shared=shared).entries == index.entries
    module.check_file(path)
    module.check(data, module.Kind(kind), shared)
    own = module.Index.from_bytes(data)
    yield "its link", (own.shared_id is not None) == (shared is not None)
    if shared is not None:
        yield "a part isn't written", is_raised(ValueError, own.to_bytes)
        words = (data, None, with_other_end(shared))
        yield "another shared index", is_raised(module.Refused, module.Index.from_bytes, *words)
    yield from searches(index)
    for version in (None, 2, 4):
        again = module.Index.from_bytes(index.to_bytes(version))
        wanted = index.version if version is None and index.version == 4 else version or 2
        yield f"what is written in version {version}", again.entries == index.entries and again.version in (wanted, 3)
    yield "a version that is none", is_raised(ValueError, index.to_bytes, 5)
    yield from trees(module, folder, index)
    if shared is not None:
        yield "a part has no trees", is_raised(ValueError, own.write_trees)


def trees(module, folder, index):
    """What is looked at of the trees of an index."""
    if any(entry.stage for entry in index):
        yield "no trees of a conflict", is_raised(module.Refused, index.write_trees)
        return
    found = index.write_trees()
    root = bytes.fromhex(git(folder, "write-tree").decode())
    of_git = [git(folder, "cat-file", "tree", id.hex()) for id, _ in found]
    yield "its trees", found[-1][0] == root and [data for _, data in found] == of_git


def damages(module, kind, data, room, program_of):
    """What is looked at of copies of an index that are damaged."""
    path = room / "damaged.index"
    for place, copy in enumerate(damaged(kind, data)):
        path.write_bytes(copy)
        status, out, faults = answer((program_of, kind, path))
        try:
            found = (0, listed(module.Index.open(path, module.Kind(kind))).replace(b"\0", b"\n"), "")
        except (module.Error, OSError) as error:
            found = (1, b"", f"{error}\n")
        text = faults.decode(errors="replace").partition(f"{path}: ")[2]
        is_of_link = "sharedindex." in text or "No such file" in text
        yield f"copy {place}: {text}", found[:2] == (status, out) and (is_of_link or found[2] == text)


def faults(module, kind, room):
    """What is looked at of files that are no index."""
    (room / "none.index").write_bytes(b"this is no index, but it is long enough to be one\n")
    missing, made = room / "missing.index", module.Kind(kind)
    for call in (module.Index.open, module.check_file, module.Index.lock):
        yield f"no file, {call.__name__}", is_raised(FileNotFoundError, call, missing, made)
        yield f"no index, {call.__name__}", is_raised(module.Refused, call, room / "none.index")
        yield f"a folder, {call.__name__}", is_raised(OSError, call, room)
        yield f"a NUL, {call.__name__}", is_raised(ValueError, call, "a\0b")
    yield "no lock is left", not [*room.glob("*.lock")]
    with module.Index.lock(missing, made, missing_ok=True) as index:
        index.commit()
    yield "an index with no entry", len(module.Index.open(missing, made)) == 0 and missing.stat().st_size < 50
    missing.unlink()


def samples(room, folder):
    """What is looked at of the README's sample."""
    index, changed = index_in(folder), room / "damaged.index"
    changed.write_bytes(with_other_end(index.read_bytes()))
    id = git(folder, "rev-parse", ":docs/file-3.txt")
    sample = installed.in_python("sample")
    yield "the sample's id", answer((sample, index, "docs/file-3.txt")) == (0, id, b"")
    yield "the sample without one", answer((sample, index, "docs")) == (0, b"none\n", b"")
    status, out, said = answer((sample, changed, "docs/file-3.txt"))
    yield "the sample of a damaged index", (status, out, said.count(b"\n")) == (1, b"", 1)


def installs(room):
    """What is looked at of a copy of the module's folder that pip installs."""
    source, modules = room / "source", room / "modules"
    shutil.copytree(TOP / "python", source, ignore=shutil.ignore_patterns("__pycache__"))
    pip = (sys.executable, "-m", "pip", "--disable-pip-version-check")
    if answer((*pip, "--version"))[0] != 0:
        print(f"python: there is no pip: a copy of {TOP / 'python'} isn't installed")
        return
    words = (*pip, "install", "--quiet", "--no-index", "--no-deps", "--no-compile", "--target", modules, ".")
    env = {name: text for name, text in os.environ.items() if name not in ("GIX_INDEX_LIB", "PYTHONPATH")}
    build = (sys.executable, "-B", "-c", "import backend; backend.build_wheel('.')")
    status, _, said = answer(build, cwd=source, env=env)
    yield "a wheel without the library", status == 1 and b"GIX_INDEX_LIB names no folder" in said
    done = answer(words, cwd=source, env=env | {"GIX_INDEX_LIB": str(installed.prefix() / "lib")})
    yield f"pip: {done}", done[0] == 0
    names = {path.name for path in (modules / "gix_index").iterdir()}
    yield f"the files: {names}", {"__init__.py", "py.typed", "libgix_index.so.1"} <= names
    licenses = {path.name for path in modules.glob("gix_index-*.dist-info/*")}
    yield f"the licenses: {licenses}", {"LICENSE-MIT", "LICENSE-APACHE"} <= licenses
    index = TOP / "crates" / "index_tool" / "data" / "one.index"
    found = answer((sys.executable, "-B", source / "examples" / "sample.py", index, "a"),
                   cwd=room, env=env | {"PYTHONPATH": str(modules)})
    yield f"the sample: {found}", found == (0, b"1" * 40 + b"\n", b"")


@needs("git", "cc")
class Python(Case):
    @classmethod
    def setUpClass(cls):
        place = str(installed.prefix() / "lib" / "python")
        sys.path.insert(0, place)
        cls.addClassCleanup(sys.path.remove, place)
        import gix_index

        cls.module = gix_index


class Module(Python):
    """What needs no index, or only files."""

    def test_numbers_are_those_of_the_headers(self):
        self.hold_all(numbers(self.module))

    def test_structures_are_those_of_the_headers(self):
        self.hold_all(structures(self.module, self.room()))

    def test_shared_library_has_the_calls_of_the_headers(self):
        self.hold_all(names(self.room()))

    def test_modes_of_what_is_seen(self):
        self.hold_all(modes(self.module, self.room()))

    def test_stats_are_compared_as_git_does(self):
        self.hold_all(comparisons(self.module, random.Random(1)))

    def test_files_that_are_no_index(self):
        for kind in KINDS:
            self.hold_all(faults(self.module, kind, self.room()), f"{kind}: ")

    def test_ids_of_files(self):
        for kind in KINDS:
            self.hold_all(blobs(self.module, kind, self.room()), f"{kind}: ")

    def test_random_edits(self):
        for kind in KINDS:
            for number in range(len(repositories.SORTS)):
                index = self.module.Index(self.module.Kind(kind))
                found = module_edits.edits(self.module, index, random.Random(number))
                self.hold_all(found, f"{kind}, edits {number}: ")

    def test_random_edits_that_are_committed(self):
        for kind in KINDS:
            for number in range(4):
                found = module_edits.committed_edits(self.module, kind, self.room(), random.Random(number))
                self.hold_all(found, f"{kind}, edits {number}: ")

    def test_many_entries(self):
        for kind in KINDS:
            self.hold_all(module_edits.many(self.module, kind), f"{kind}: ")

    def test_locks_without_an_index(self):
        for kind in KINDS:
            self.hold_all(module_edits.beginnings(self.module, kind, self.room()), f"{kind}: ")

    def test_entries_that_are_made(self):
        for kind in KINDS:
            self.hold_all(module_views.made_entries(self.module, kind), f"{kind}: ")

    def test_single_files_that_may_have_changed(self):
        for kind in KINDS:
            for look in (module_views.single_changes, module_views.options, module_views.modes_that_differ):
                self.hold_all(look(self.module, kind, self.room()), f"{kind}: ")

    def test_sample_of_the_readme(self):
        for kind in KINDS:
            folder = repositories.made(self.room(), kind, repositories.alone)
            self.hold_all(samples(self.room(), folder), f"{kind}: ")

    def test_each_python_that_is_there(self):
        index = index_in(repositories.made(self.room(), "sha1", repositories.alone))
        wanted = answer((installed.in_python("list"), "sha1", index))
        env = os.environ | {"PYTHONPATH": str(installed.prefix() / "lib" / "python")}
        example = TOP / "python" / "examples" / "list.py"
        for name in filter(shutil.which, PYTHONS):
            done = answer((name, "-B", "-W", "error", example, "sha1", index), env=env)
            if answer((name, "-c", ""))[0] == 0:
                self.hold(f"{name}: a listing", wanted[0] == 0 and done == wanted)


class Packages(Python):
    """The module as other programs take it."""

    @needs("mypy")
    def test_types(self):
        self.hold_all(module_views.typed(self.room(), installed.prefix() / "lib" / "python"))

    def test_installing_a_copy_of_its_folder(self):
        self.hold_all(installs(self.room()))


class Indexes(Python):
    """Indexes of repositories, which are read, changed and committed."""

    def look(self, sort, *others):
        """At a repository of each kind, in turn by each of these checks and some others."""
        changes = module_edits.sparse_faults if sort is repositories.sparse else module_edits.commits
        looks = (readings, module_views.members, module_views.equalities, changes, *others, module_views.changes)
        for kind in KINDS:
            folder = repositories.made(self.room(), kind, sort)
            for each in looks:
                self.hold_all(each(self.module, kind, folder), f"{kind}: ")

    def look_at_damages(self, sort):
        for kind in KINDS:
            folder = repositories.made(self.room(), kind, sort)
            data = index_in(folder).read_bytes()
            self.hold_all(damages(self.module, kind, data, self.room(), installed.in_c("list")), f"{kind}: ")

    def test_damaged_copies(self):
        self.look_at_damages(repositories.alone)

    def test_damaged_copies_of_split_indexes(self):
        self.look_at_damages(repositories.split)

    def test_files_alone(self):
        self.look(repositories.alone, module_edits.unstagings, module_edits.extended_flags)

    def test_conflicts(self):
        self.look(repositories.conflicts, module_edits.sides)

    def test_resolved_conflicts(self):
        self.look(repositories.resolved)

    def test_files_meant_to_be_added(self):
        self.look(repositories.meant_to_be_added)

    def test_skipped_entries(self):
        self.look(repositories.skipped)

    def test_sparse_directories(self):
        self.look(repositories.sparse)

    def test_split_index(self):
        self.look(repositories.split)

    def test_version_4_in_blocks(self):
        self.look(repositories.in_blocks)
