"""Checks of what the module in Python says of an index: what is in it, what it equals, and what may have changed."""
import itertools
import os
import shutil

from tests.common import ID_LEN, answer
from tests.module_edits import is_raised
from tests.repository import git, index_in, write

CALLER = """
import os
from typing import List, Optional

from gix_index import Entry, Flags, Index, Kind, Mode, Stat


def names(index: Index) -> List[str]:
    return [f"{entry.mode.name} {(entry.flags & Flags.EXTENDED).value} {entry.path.decode()}" for entry in index]


index: Index = Index.open(b".git/index", Kind.SHA1)
index.stage(Entry("text", b"", 0o100644), [Entry(b"bytes", b"", Mode.LINK, Flags.INTENT_TO_ADD)])
count: int = index.unstage("text", recursive=True)
found: List[Entry] = [*index.changed(os.lstat), *index.changed({}), *index.changed(entry.stat for entry in index)]
checksum: Optional[bytes] = index.checksum
is_there: bool = "text" in index and index == Index()
"""


# ---- Entries, and two indexes


def members(module, kind, folder):
    """What is in an index, and which types its entries have."""
    index = module.Index.open(index_in(folder))
    entries = index.entries
    paths = {entry.path for entry in entries}
    yield "each path", all(path in index and os.fsdecode(path) in index for path in paths)
    yield "no other path", not any(path in index for path in (b"", b"docs", "no such path", b"\xff"))
    yield "each entry", all(entry in index for entry in entries)
    others = (entries[0]._replace(**words) for words in ({"mode": 0o100600}, {"path": b"docs"}))
    yield "no other entry", not any(entry in index for entry in others)
    yield "no other value", None not in index and 5 not in index and entries[0].id not in index
    types = {(type(entry.mode), type(entry.flags), type(entry.stat)) for entry in (*entries, index[0])}
    yield "types", types == {(module.Mode, module.Flags, module.Stat)}
    for stage in (-1, 4, 9, "0", None):
        yield f"stage {stage!r}", is_raised(ValueError, index.find, entries[0].path, stage)


def made_entries(module, kind):
    """Looks at entries that a caller makes."""
    entry = module.Entry("gr\u00fc\u00dfe", bytes(ID_LEN[kind]), 0o120000, 0x6000)
    same = module.Entry("gr\u00fc\u00dfe".encode(), bytes(ID_LEN[kind]), module.Mode.LINK, module.Flags(0x6000))
    yield "a path as a str", entry == same and entry.path == same.path
    yield "a mode", entry.mode is module.Mode.LINK and module.Entry(b"a", b"", 0o100600).mode == 0o100600
    yield "flags", type(entry.flags) is module.Flags and module.Flags.EXTENDED in entry.flags
    yield "a stage", entry.stage == 2
    yield "each stage", [module.Entry(b"a", b"", flags=it << 12).stage for it in range(4)] == [*range(4)]


def equalities(module, kind, folder):
    """Looks at indexes that are equal, and that aren't."""
    path, algorithm = index_in(folder), module.Kind(kind)
    one, other = module.Index.open(path), module.Index.open(path)
    data, entry = path.read_bytes(), one[0]
    yield "one file", one == other and not one != other
    with module.Index.lock(path) as index:
        yield "a locked index", index == one
    yield "other values", one != 5 and one != one.entries and is_raised(TypeError, hash, one)
    yield "no time", one != module.Index.from_bytes(data)
    yield "one text", module.Index.from_bytes(data) == module.Index.from_bytes(bytearray(data))
    yield "new ones", module.Index(algorithm) == module.Index(algorithm)
    yield "another algorithm", module.Index(module.Kind.SHA1) != module.Index(module.Kind.SHA256)
    yield "the checksum", one.checksum == data[-ID_LEN[kind] :] and module.Index(algorithm).checksum is None
    other.stage(entry)
    yield "an entry again", one == other
    other.stage(entry._replace(stat=entry.stat._replace(size=entry.stat.size + 1)))
    yield "another stat", one != other
    other.stage(entry)
    yield "the same again", one == other
    other.unstage(entry.path)
    yield "an entry less", one != other
    null = module.Index.from_bytes(data[: -ID_LEN[kind]] + bytes(ID_LEN[kind]))
    yield "another checksum", null != module.Index.from_bytes(data) and null.checksum is None


# ---- What may have changed


def may_have_changed(module, index, comparison, entry, seen):
    """Whether the file of an entry may have changed, by each rule in turn."""
    flags, modes = module.Flags, module.Mode
    if entry.stage:
        return True
    if entry.flags & (flags.ASSUME_VALID | flags.SKIP_WORKTREE) or entry.mode == modes.DIRECTORY:
        return False
    if entry.flags & flags.INTENT_TO_ADD or seen is None:
        return True
    mode, at = modes.of(seen), module.Stat.of(seen)
    if mode != entry.mode or mode == modes.COMMIT:
        return mode != entry.mode
    is_smudged = entry.stat.size == 0 and entry.id != index.kind.blob_id(b"")
    return is_smudged or not entry.stat.matches(at, comparison) or entry.stat.is_racy(index.mtime_ns, comparison)


def seen_in(folder):
    """A function for what is seen of a path in a folder."""
    return lambda path: os.lstat(os.path.join(os.fsencode(folder), path))


def stats_of(index, look):
    """What is seen at the path of each entry, in their order."""
    found = []
    for entry in index:
        try:
            found.append(look(entry.path))
        except (FileNotFoundError, NotADirectoryError):
            found.append(None)
    return found


def change(folder):
    """Changes files of a work tree in each way, if they are there."""
    for number, name in enumerate(("src/file-1.txt", "src/file-2.txt", "run", "link", "src/file-3.txt")):
        path = folder / name
        if os.path.lexists(path) and number != 2:
            path.unlink()
        if number == 0:
            write(folder, name, "more than it was before\n")
        elif number == 2 and path.exists():
            path.chmod(0o644)
        elif number == 3:
            path.symlink_to("another place")
        elif number == 4:
            os.mkfifo(path)
    for path in (folder / "src" / "inner" / "other", folder / "tests"):
        shutil.rmtree(path, ignore_errors=True)
    write(folder, "tests", "a file\n")


def changes(module, kind, folder):
    """Looks at a work tree before and after changes: which entries may have changed, by stats given in each way."""
    look = seen_in(folder)
    for what in ("as it is", "changed"):
        index = module.Index.open(index_in(folder))
        seen = stats_of(index, look)
        by_path = {entry.path: each for entry, each in zip(index, seen) if each is not None}
        ways = {"a function": look, "a mapping": by_path, "an iterable": iter(seen),
                "a mapping of str": {os.fsdecode(path): each for path, each in by_path.items()}}
        wanted = [it for it, at in zip(index, seen) if may_have_changed(module, index, module.Comparison(), it, at)]
        for name, stats in ways.items():
            yield f"{what}, by {name}", index.changed(stats) == wanted
        of_git = git(folder, "diff-files", "--name-only", "-z", "--ignore-submodules=all").split(b"\0")[:-1]
        yield f"{what}, what git finds", {*of_git} <= {entry.path for entry in wanted}
        for flags in itertools.product((False, True), repeat=4):
            by = module.Comparison(*flags)
            wanted = [it for it, at in zip(index, seen) if may_have_changed(module, index, by, it, at)]
            yield f"{what}, by {by}", index.changed(seen, by) == wanted
        change(folder)


def single_changes(module, kind, room):
    """Looks at single files: racy ones, empty ones, numbers of more than 32 bits, and stats without a mode."""
    (room / "file").write_bytes(b"")
    os.utime(room / "file", (1_600_000_000, 1_600_000_000))
    seen, algorithm = os.lstat(room / "file"), module.Kind(kind)
    empty, other = algorithm.blob_id(b""), algorithm.blob_id(b"other\n")
    index = module.Index(algorithm)
    index.stage(module.Entry.of("empty", empty, seen), module.Entry.of("other", other, seen))
    large = module.Entry(b"large", other, stat=module.Stat(size=5, mtime_secs=7))
    yield "without a time", index.changed([seen, seen]) == index.entries
    index.mtime_ns = seen.st_mtime_ns + 10**9
    yield "a size of 0", index.changed([seen, seen]) == [index.find("other")]
    index.mtime_ns = seen.st_mtime_ns
    yield "a racy time", index.changed([seen, seen]) == index.entries
    for count in (0, 1, 3):
        yield f"{count} stats for two entries", is_raised(ValueError, index.changed, [seen] * count)
    yield "another error", is_raised(PermissionError, index.changed, denied)
    single, times = module.Index(algorithm), {"st_mtime_ns": 7 * 10**9, "st_ctime_ns": 0}
    single.mtime_ns = 10**18
    single.stage(large)
    yield "an equal Stat", single.changed({b"large": large.stat}) == []
    yield "another Stat", single.changed([large.stat._replace(uid=1)]) == [large]
    wide = os.stat_result((0o100644, 0, 0, 1, 0, 0, 5 + (1 << 32), 0, 7, 0), times)
    yield "a size of more than 32 bits", single.changed([wide]) == []


def modes_that_differ(module, kind, room):
    """Looks at entries of each mode, and at a file of each type at their path, with the stat that the entry has."""
    algorithm, modes = module.Kind(kind), module.Mode
    names = [room / name for name in ("file", "program", "link", "folder", "fifo")]
    for path in names[:2]:
        path.write_bytes(b"text")
    names[1].chmod(0o755)
    names[2].symlink_to("text")
    names[3].mkdir()
    os.mkfifo(names[4])
    for mode, path in itertools.product(modes, (*names, room / "none")):
        seen = os.lstat(path) if os.path.lexists(path) else None
        index = module.Index(algorithm)
        at = module.Stat.of(seen) if seen else module.Stat()
        index.stage(module.Entry(b"a", algorithm.blob_id(b"text"), mode, stat=at))
        index.mtime_ns = 10**19
        wanted = mode != modes.DIRECTORY and (seen is None or modes.of(seen) != mode)
        yield f"{mode!r} and a {path.name}", index.changed([seen]) == index.entries * wanted
        index.stage(index[0]._replace(stat=module.Stat(size=9)))
        wanted = mode != modes.DIRECTORY and (wanted or mode != modes.COMMIT)
        yield f"{mode!r} and another {path.name}", index.changed([seen]) == index.entries * wanted


def denied(path):
    raise PermissionError(13, "Permission denied", path)


def options(module, kind, room):
    """Looks at a link and a program in a file system that has neither."""
    index, algorithm = module.Index(module.Kind(kind)), module.Kind(kind)
    (room / "file").write_bytes(b"file")
    seen = os.lstat(room / "file")
    index.mtime_ns = 10**19
    for mode in (module.Mode.LINK, module.Mode.EXECUTABLE, module.Mode.FILE):
        entry = module.Entry(mode.name, algorithm.blob_id(b"file"), mode, stat=module.Stat.of(seen))
        index.stage(entry)
    names = [entry.path for entry in index]
    for words, wanted in (({}, {b"LINK", b"EXECUTABLE"}), ({"has_symlinks": False}, {b"EXECUTABLE"}),
                          ({"executable_bit": False}, {b"LINK"}),
                          ({"has_symlinks": False, "executable_bit": False}, set())):
        found = {entry.path for entry in index.changed(lambda path: seen if path in names else None, **words)}
        yield f"{words}", found == wanted


# ---- Types


def typed(room, modules):
    """Looks at the module and at a caller with the strict rules of mypy."""
    caller = room / "caller.py"
    caller.write_text(CALLER, encoding="utf-8")
    env = os.environ | {"MYPYPATH": str(modules)}
    words = ("mypy", "--strict", f"--cache-dir={room / 'cache'}", modules / "gix_index", caller)
    status, out, faults = answer(words, env=env, cwd=room)
    yield f"mypy: {(out + faults).decode(errors='replace')}", status == 0
