"""Checks of entries that are staged, unstaged and committed by the module in Python."""
import os
import random
import stat
import time

from tests.common import ID_LEN
from tests.repository import ask_git, git, index_in, write

# How many times something is staged or unstaged.
TURNS = 150
PARTS = (b"a", b"b", b"a-b", b"docs", b"src", b"file-1.txt", b"gr\xc3\xbc\xc3\x9fe", b"\xff")
# How many entries are staged in one call, and the seconds of a processor that this may take at most. It takes a tenth.
MANY, MOST_SECONDS = 16_000, 2


def is_raised(fault, call, *words, **names):
    """Whether a call raises this."""
    return text_raised(fault, call, *words, **names) is not None


def text_raised(fault, call, *words, **names):
    """The text of the exception of this type that a call raises, or None."""
    try:
        call(*words, **names)
    except fault as error:
        return str(error)
    return None


def listed(index):
    """An index as `git ls-files -s -z --sparse` lists it."""
    return b"".join(b"%06o %s %d\t%s\0" % (it.mode, it.id.hex().encode(), it.stage, it.path) for it in index)


# ---- Random edits


def way(path, other):
    """Whether one path is the other, or lies below it."""
    return path == other or path.startswith(other + b"/")


def staged(table, entry):
    """Stages an entry in a table of entries by path and stage."""
    if not entry.stage:
        for key in [key for key in table if way(key[0], entry.path) or way(entry.path, key[0])]:
            del table[key]
    table[entry.path, entry.stage] = entry


def drawn(module, kind, draw):
    """A random entry."""
    path = b"/".join(draw.choice(PARTS) for _ in range(draw.randrange(1, 4)))
    seen = module.Stat(*(draw.randrange(1 << 32) for _ in module.Stat._fields))
    flags = draw.choice((0, 0, 0, 1, 2, 3)) << 12
    return module.Entry(path, draw.randbytes(kind.len_in_bytes), module.Mode.FILE, flags, seen)


def edits(module, index, draw):
    """Stages and unstages at random, and says whether a table that does the same has the same entries in the end."""
    table, one_by_one = {(entry.path, entry.stage): entry for entry in index}, module.Index(index.kind)
    one_by_one.stage(index)
    for turn in range(TURNS):
        path = drawn(module, index.kind, draw).path
        if draw.random() < 0.3:
            path = draw.choice([*table])[0] if table else path
        if draw.random() < 0.35:
            is_recursive = draw.random() < 0.7
            gone = [key for key in table if (way(key[0], path) if is_recursive else key[0] == path)]
            counts = [each.unstage(path, recursive=is_recursive) for each in (index, one_by_one)]
            yield f"how many go in turn {turn}", counts == [len(gone)] * 2
            for key in gone:
                del table[key]
        else:
            entries = [drawn(module, index.kind, draw) for _ in range(draw.choice((1, 1, 2, 9)))]
            entries[0] = entries[0]._replace(path=path)
            index.stage(entries[0], iter(entries[1:]))
            for entry in entries:
                one_by_one.stage(entry)
                staged(table, entry)
        if turn % 10 == 0 or turn == TURNS - 1:
            yield f"turn {turn}", index.entries == one_by_one.entries == [table[key] for key in sorted(table)]
    yield "what is written", module.Index.from_bytes(index.to_bytes()).entries == index.entries


def committed_edits(module, kind, room, draw):
    """Stages and unstages at random under a lock, and says whether the file has the same entries after the commit."""
    path = room / f"{draw.random()}.index"
    for turn in range(6):
        with module.Index.lock(path, module.Kind(kind), missing_ok=True) as index:
            for _ in range(12):
                entries = [drawn(module, index.kind, draw) for _ in range(draw.choice((1, 2, 9)))]
                # (in git a side of a conflict replaces others in its way, so that these are at paths without a slash)
                sides = [it._replace(path=b"side" + it.path[-1:]) for it in entries if it.stage]
                index.stage([it for it in entries if not it.stage], sides)
                index.stage(it._replace(path=it.path + b"/inner", flags=0) for it in sides if draw.random() < 0.2)
                index.unstage(draw.choice(index).path, recursive=draw.random() < 0.5)
            index.commit()
        found = module.Index.open(path, module.Kind(kind))
        yield f"commit {turn}", found.entries == index.entries and is_in_order(found)


def is_in_order(index):
    keys = [(entry.path, entry.stage) for entry in index]
    return keys == sorted({*keys})


def many(module, kind):
    """Looks at many entries that are staged at once, in order and not, into an empty index and into a full one."""
    id, seen = bytes(ID_LEN[kind] - 1) + b"1", module.Stat(size=3)
    paths = [b"src/%03d/%d/file-%05d" % (number // 500, number % 10, number) for number in range(MANY)]
    entries = [module.Entry(path, id, stat=seen) for path in paths]
    wanted = sorted(entries)
    random.Random(1).shuffle(entries)
    index = module.Index(module.Kind(kind))
    for what, given in (("in order", wanted), ("again, in no order", entries)):
        start = time.process_time()
        index.stage(given)
        took = time.process_time() - start
        yield f"{MANY} entries {what}", index.entries == wanted
        yield f"{MANY} entries {what} take {took:.2f} s", took < MOST_SECONDS


# ---- What can't be staged


def wrong_values(module, kind):
    """Values of an entry that can't be staged, with the exception, and what its text has to name."""
    size, most = ID_LEN[kind], str(2**32 - 1)
    for name in ("mode", "flags"):
        for value in (-1, 1 << 32):
            yield {name: value}, ValueError, (name, str(value), most)
        yield {name: "100644"}, TypeError, (name, "'100644'", "int")
    for name in module.Stat._fields:
        yield {"stat": module.Stat(**{name: 1 << 33})}, ValueError, (f"stat.{name}", str(1 << 33), most)
        yield {"stat": module.Stat(**{name: 1.5})}, TypeError, (f"stat.{name}", "1.5", "int")
    yield {"stat": (1, 2)}, TypeError, ("stat", "(1, 2)", "Stat")
    yield {"flags": module.NUMBERS["GIX_INDEX_REMOVE"]}, ValueError, ("flags", "0x20000")
    yield {"id": bytes(size - 1)}, ValueError, ("id", str(size - 1), f"{size} bytes")
    yield {"id": "1" * size}, TypeError, ("id", "'11", f"{size} bytes")
    yield {"path": b""}, ValueError, ("path", "b''")
    yield {"path": "a\0b"}, ValueError, ("path", r"'a\x00b'", "NUL")
    yield {"path": 7}, TypeError, ("path", "7", "bytes")


def refusals(module, kind, index):
    """Looks at entries that can't be staged: the text has which entry it is, and no entry of the call is staged."""
    before, good = index.entries, module.Entry("docs", bytes(ID_LEN[kind]))
    for words, fault, named in wrong_values(module, kind):
        wrong = before[0]._replace(**words)
        text = text_raised(fault, index.stage, good, [before[1], wrong]) or ""
        names = ("entry 2", repr(wrong.path), *named)
        yield f"{words}: {text}", all(name in text for name in names) and index.entries == before
    for word in ("docs", b"docs", None, 5, [before[0], "docs"], [(b"docs", good.id)]):
        yield f"{word!r} is no entry", is_raised(TypeError, index.stage, good, word) and index.entries == before


def beginnings(module, kind, room):
    """Looks at a lock where there is no index yet."""
    path, lock = room / "none", room / "none.lock"
    text = text_raised(ValueError, module.Index.lock, path, missing_ok=True) or ""
    named = (str(path), "kind", "None", "Kind.SHA1", "Kind.SHA256")
    yield f"no algorithm: {text}", all(name in text for name in named) and not lock.exists()
    yield "no index", is_raised(FileNotFoundError, module.Index.lock, path) and not lock.exists()
    with module.Index.lock(path, module.Kind(kind), missing_ok=True) as index:
        entry = module.Entry("gr\u00fc\u00dfe", bytes(ID_LEN[kind] - 1) + b"1")
        index.stage(entry, entry._replace(path="gr\u00fcn"))
        yield "paths as str", [each.path.decode() for each in index] == ["gr\u00fcn", "gr\u00fc\u00dfe"]
        index.commit()
    with module.Index.lock(path, missing_ok=True) as index:
        yield "its algorithm is known then", index.kind.value == kind and "gr\u00fc\u00dfe" in index


# ---- What is committed


def leavings(module, path, lock):
    """Looks at locks that are left without a commit."""
    before = path.read_bytes()
    with module.Index.lock(path) as index:
        yield "another lock", is_raised(FileExistsError, module.Index.lock, path)
        yield "it has entries", index.entries == module.Index.open(path).entries and index.path == str(path)
        index.unstage("docs", recursive=True)
    yield "it is left", not lock.exists() and path.read_bytes() == before
    try:
        with module.Index.lock(path) as index:
            raise KeyError
    except KeyError:
        yield "it is left by a fault", not lock.exists() and path.read_bytes() == before
    index = module.Index.lock(path)
    index.close()
    yield "it is closed", not lock.exists() and is_raised(ValueError, index.commit)
    index = module.Index.lock(path)
    yield "it is held", lock.exists()
    child = os.fork()
    if child == 0:
        index.close()
        os._exit(0)
    os.waitpid(child, 0)
    yield "another process leaves it", lock.exists()
    del index
    yield "it is forgotten", not lock.exists()


def endings(index):
    """Looks at changes of an index that isn't locked any more."""
    before = index.entries
    for call, words in ((index.stage, (before[0],)), (index.stage, ()), (index.unstage, (before[0].path,))):
        yield f"{call.__name__} is too late", is_raised(ValueError, call, *words) and index.entries == before


def commits(module, kind, folder):
    """What is looked at where an index is locked, changed and committed."""
    path = index_in(folder)
    lock = path.with_name("index.lock")
    path.chmod(0o640)
    with module.Index.lock(path):
        yield "git is kept out", ask_git(folder, "add", ".")[0] == 128 and lock.exists()
    yield from leavings(module, path, lock)
    write(folder, "docs/new.txt", "new\n")
    id = bytes.fromhex(git(folder, "hash-object", "-w", "docs/new.txt").decode())
    moment = path.stat().st_mtime_ns
    with module.Index.lock(path) as index:
        yield from refusals(module, kind, index)
        index.stage(module.Entry.of("docs/new.txt", id, os.lstat(folder / "docs" / "new.txt")))
        index.unstage("src/inner", recursive=True)
        index.commit(sync=True)
        yield "a second commit", is_raised(ValueError, index.commit)
        yield from endings(index)
    seen = path.stat()
    yield "no lock is left", not lock.exists()
    yield "time and permissions stay", (seen.st_mtime_ns, stat.S_IMODE(seen.st_mode)) == (moment, 0o640)
    wanted = [line for line in index if line.path == b"docs/new.txt" or line.path.startswith(b"src/inner")]
    yield "what is staged", [entry.id for entry in wanted] == [id]
    yield "what is committed", index.entries == module.Index.open(path).entries
    yield "git's listing", listed(index) == git(folder, "ls-files", "-s", "-z")
    yield "git's check", ask_git(folder, "fsck", "--no-dangling")[:2] == (0, b"")
    yield "git's status", b"A  docs/new.txt\n" in git(folder, "status", "--porcelain")
    with module.Index.lock(path) as index:
        index.stage(module.Entry(b"a", id, 0o100600))
        yield "a mode that is none", is_raised(module.Refused, index.commit)
    yield "it is as it was", listed(module.Index.open(path)) == git(folder, "ls-files", "-s", "-z")
    yield "no lock is left behind a fault", not lock.exists()


def sides(module, _, folder):
    """Looks at conflicts of which one is unstaged, and one is staged as our side has it."""
    path = index_in(folder)
    with module.Index.lock(path) as index:
        conflicts = [entry for entry in index if entry.stage]
        first = conflicts[0].path
        ours = next(entry for entry in conflicts if entry.stage == 2 and entry.path != first)
        yield "sides go", index.unstage(first) == len([entry for entry in conflicts if entry.path == first])
        index.stage(ours._replace(flags=ours.flags & ~module.Flags.STAGE_MASK))
        yield "one stays", [entry.stage for entry in index if entry.path == ours.path] == [0]
        third = next(entry for entry in conflicts if entry.path not in (first, ours.path))
        index.stage(third._replace(path=third.path + b"/inner", flags=0))
        yield "a directory for sides", third.path not in index and third.path + b"/inner" in index
        index.commit()
    undone = git(folder, "ls-files", "--resolve-undo", "-z")
    gone = [entry for entry in conflicts if entry.path in (first, ours.path, third.path)]
    wanted = all(b"%s %d\t%s\0" % (it.id.hex().encode(), it.stage, it.path) in undone for it in gone)
    yield "sides that went are recorded", wanted
    yield "git's listing", listed(index) == git(folder, "ls-files", "-s", "-z")


def extended_flags(module, kind, folder):
    """Looks at entries that are only meant to be added, and that are skipped, as git does it and as the module does."""
    flags, path = module.Flags, index_in(folder)
    write(folder, "meant.txt", "later\n")
    others = folder.with_name("of-git")
    git(folder.parent, "clone", "-q", str(folder), str(others))
    write(others, "meant.txt", "later\n")
    git(others, "add", "-N", "meant.txt")
    git(others, "update-index", "--skip-worktree", "run")
    empty = module.Kind(kind).blob_id(b"")
    with module.Index.lock(path) as index:
        run = index.find("run")
        index.stage(module.Entry("meant.txt", empty, flags=flags.INTENT_TO_ADD))
        index.stage(run._replace(flags=flags.SKIP_WORKTREE))
        index.commit()
    for name, flag in (("meant.txt", flags.INTENT_TO_ADD), ("run", flags.SKIP_WORKTREE)):
        found = [each.find(name).flags for each in (index, module.Index.open(path))]
        yield f"the flags of {name}", found == [flag | flags.EXTENDED] * 2
    for words in (("ls-files", "-v", "--", "meant.txt", "run"), ("status", "--porcelain", "--", "meant.txt", "run")):
        yield f"git's {words[0]}", git(folder, *words) == git(others, *words)


def unstagings(module, _, folder):
    """Looks at how many entries are unstaged."""
    index = module.Index.open(index_in(folder))
    below = [entry for entry in index if entry.path.startswith(b"docs/")]
    yield "a directory", index.unstage("docs") == 0 and "docs/file-1.txt" in index
    yield "a path", index.unstage("docs/file-1.txt") == 1 and index.unstage(b"docs/file-1.txt") == 0
    yield "all below", index.unstage("docs", recursive=True) == len(below) - 1 and index.closest("docs") is None
    yield "nothing", index.unstage("docs", recursive=True) == index.unstage("no/such/path", recursive=True) == 0


def sparse_faults(module, kind, folder):
    """What is looked at of paths in directories that a sparse index leaves out."""
    index = module.Index.open(index_in(folder))
    before, outside = index.entries, module.Entry("A", bytes(ID_LEN[kind]))
    for stage in (0, 0x2000):
        entry = module.Entry(b"docs/new.txt", bytes(ID_LEN[kind]), flags=stage)
        yield "staging there", is_raised(ValueError, index.stage, outside, entry) and index.entries == before
    yield "unstaging there", is_raised(ValueError, index.unstage, "docs/file-1.txt") and index.entries == before
    yield "unstaging what isn't there", index.unstage("docs") == 0
    yield "unstaging it", index.unstage("docs", recursive=True) == 1 and index.find("docs/") is None
    yield "unstaging another by its path", index.unstage("tests/") == 1 and index.find("tests/") is None
