"""Files that are made to be slow: what a file of so many bytes can hold most of, or claim most of.

Each case is a rule that makes a file of a size, and what is run on it. `bench/run --worst` times the cases, and
test_worst counts the instructions that they take.
"""
import hashlib
import random
from typing import Callable, NamedTuple

# What index-tool is timed with as a rule; all that it can be told to do with a file; which of these have an OUT; and the
# calls of index-times that make tables.
COMMANDS = ("list", "check", "rewrite4")
TREES = "trees"
WRITING = ("rewrite", "rewrite4", "rewrite-trees", "salvage")
TOLD = ("list", "check", "check-trees", "map", "map-svg", "show", "show-json", TREES, *WRITING)
FOLDED, DIRECTORIES = "make-folded", "make-table"
ONES = 1 | (2**32 - 1) << 1


def index(version, count, *pieces):
    """The bytes of an index of SHA-1."""
    data = b"DIRC" + version.to_bytes(4, "big") + count.to_bytes(4, "big") + b"".join(pieces)
    return data + hashlib.sha1(data).digest()


def head(length, stage=0):
    """An entry before its path of this length."""
    flags = min(length, 0xFFF) | stage << 12
    return bytes(24) + (0o100644).to_bytes(4, "big") + bytes(12) + b"\x11" * 20 + flags.to_bytes(2, "big")


def entry(path, stage=0):
    """An entry of versions 2 and 3."""
    data = head(len(path), stage) + path
    return data + bytes(8 - len(data) % 8)


def offset_number(number):
    """A number as version 4 spells it."""
    spelled = bytes([number & 0x7F])
    while number := number >> 7:
        number -= 1
        spelled = bytes([0x80 | number & 0x7F]) + spelled
    return spelled


def delta(taken, tail, length):
    """An entry of version 4, whose path is the one before it with so many bytes taken off and a tail put on."""
    return head(length) + offset_number(taken) + tail + b"\0"


def item(signature, content):
    """An extension."""
    return signature + len(content).to_bytes(4, "big") + content


def bitmap(bits, *words):
    """A bitmap of these words, of which the last begins a run."""
    spelled = b"".join(word.to_bytes(8, "big") for word in words)
    return bits.to_bytes(4, "big") + len(words).to_bytes(4, "big") + spelled + max(len(words) - 1, 0).to_bytes(4, "big")


def nodes(names):
    """A cached tree of one root with a child of each name."""
    children = b"".join(b"%s\0-1 0\n" % name for name in names)
    return item(b"TREE", b"\0-1 %d\n" % len(names) + children)


def varint(number):
    """A number as the untracked cache spells it."""
    return offset_number(number)


def untracked(blocks, count, *bitmaps):
    """An untracked cache of these blocks of directories."""
    return item(b"UNTR", b"\0" + bytes(116) + b".gitignore\0" + varint(count) + blocks + b"".join(bitmaps) + b"\0")


def shuffled(names):
    return random.Random(len(names)).sample(names, len(names))


def marked(extensions):
    """An index without entries, with extensions that have no content and an end marker behind them."""
    digest = hashlib.sha1(extensions).digest()
    return index(2, 0, extensions, item(b"EOIE", (12).to_bytes(4, "big") + digest))


def deep(folder, depth):
    """A path of so many folders of one name."""
    return (folder + b"/") * depth


def in_turn(count, depth):
    """Paths of two deep folders in turn, so that each shares nothing with the one before it."""
    return [deep(b"ab"[at % 2 : at % 2 + 1], depth) + b"%07d" % at for at in range(count)]


def files(paths, stage=0):
    return index(2, len(paths), *(entry(path, stage) for path in paths))


def split(zeros):
    """A split index whose link has so many words of 64 places, of which none is set."""
    words = (zeros << 33).to_bytes(8, "big") + bytes(8 * zeros)
    bits = (64 * zeros).to_bytes(4, "big") + (zeros + 1).to_bytes(4, "big") + words + bytes(4)
    return index(2, 0, item(b"link", SHARED[-20:] + bits + NO_BITS))


NAMES = lambda size: [b"%07d" % number for number in range(size)]
NO_BITS = bitmap(0)
# The index that split ones share.
SHARED = index(2, 0)


def of_one_folder(count, depth):
    """Entries of one deep folder, in version 4."""
    front = deep(b"a", depth)
    length = len(front) + 7
    tails = (delta(7, b"%07d" % at, length) for at in range(1, count))
    return index(4, count, delta(0, front + b"%07d" % 0, length), *tails)


class Case(NamedTuple):
    name: str
    # What the first size counts is in the name; the others are twice and four times as much.
    least: int
    # The bytes of the file of a size.
    make: Callable[[int], bytes]
    # What is run on it: commands of index-tool, or calls of index-times with names that are looked up.
    calls: tuple[str, ...] = COMMANDS
    names: bytes = b"a\n"
    # By what more than twice as much may take, for files whose paths have more bytes than they.
    growth: float = 2.0
    # So many bytes of memory for each of the file's have to do, beside what a program takes before it reads anything.
    memory: int = 70


CASES = (
    Case("entries in order, version 2", 50_000, lambda n: index(2, n, *map(entry, NAMES(n)))),
    Case("entries shuffled, version 2", 50_000, lambda n: index(2, n, *map(entry, shuffled(NAMES(n))))),
    Case("one path of so many bytes, version 2", 1_000_000, lambda n: index(2, 1, entry(b"a" * n))),
    Case("one path of so many bytes, version 4", 1_000_000, lambda n: index(4, 1, delta(0, b"a" * n, n))),
    Case("one path of so many folders", 1_000_000, lambda n: index(2, 1, entry(b"a/" * (n // 2) + b"a"))),
    Case(
        "each path taken off whole, version 4",
        50_000,
        lambda n: index(4, n, delta(0, b"%07d" % 0, 7), *(delta(7, b"%07d" % at, 7) for at in range(1, n))),
    ),
    Case(
        "each path a byte longer, version 4",
        4_000,
        lambda n: index(4, n, *(delta(0, b"a", at) for at in range(1, n + 1))),
        growth=4.0,
    ),
    Case("children of one node, in order", 250_000, lambda n: index(2, 0, nodes(NAMES(n)))),
    Case("children of one node, falling", 250_000, lambda n: index(2, 0, nodes(NAMES(n)[::-1]))),
    Case("children of one node, shuffled", 250_000, lambda n: index(2, 0, nodes(shuffled(NAMES(n))))),
    Case("children of one name", 250_000, lambda n: index(2, 0, nodes([b"a"] * n))),
    Case(
        "nodes 2,048 deep, side by side",
        256,
        lambda n: index(
            2,
            0,
            item(
                b"TREE",
                b"\0-1 %d\n" % n + b"".join(b"%d\0-1 1\n" % at + b"a\0-1 1\n" * 2046 + b"a\0-1 0\n" for at in range(n)),
            ),
        ),
    ),
    Case("nodes deeper than may be", 250_000, lambda n: index(2, 0, item(b"TREE", b"\0-1 1\n" + b"a\0-1 1\n" * n))),
    Case("small extensions before an end marker", 250_000, lambda n: marked(item(b"ABCD", b"") * n)),
    Case(
        "cached trees, of which the last counts", 50_000, lambda n: index(2, 0, item(b"TREE", b"\0-1 1\na\0-1 0\n") * n)
    ),
    Case(
        "resolve-undo of so many paths",
        100_000,
        lambda n: index(
            2, 0, item(b"REUC", b"".join(b"%07d\0" b"1\0" b"0\0" b"0\0" % at + b"\x11" * 20 for at in range(n)))
        ),
    ),
    Case(
        "blocks of an offset table",
        500_000,
        lambda n: index(2, 0, item(b"IEOT", b"\0\0\0\1" + b"\0\0\0\x0c\0\0\0\1" * n)),
    ),
    Case(
        "untracked names of one directory",
        250_000,
        lambda n: index(
            2,
            0,
            untracked(
                varint(n) + varint(0) + b"\0" + b"".join(b"%07d\0" % at for at in range(n)),
                1,
                NO_BITS,
                NO_BITS,
                NO_BITS,
            ),
        ),
    ),
    Case(
        "directories of one directory",
        250_000,
        lambda n: index(
            2, 0, untracked(varint(0) + varint(n - 1) + b"\0" + b"\0\0a\0" * (n - 1), n, NO_BITS, NO_BITS, NO_BITS)
        ),
    ),
    Case(
        "directories deeper than may be",
        250_000,
        lambda n: index(2, 0, untracked(b"\0\1a\0" * (n - 1) + b"\0\0a\0", n, NO_BITS, NO_BITS, NO_BITS)),
    ),
    Case(
        "runs of 2^38 directories that are valid",
        50_000,
        lambda n: index(2, 0, untracked(b"\0\0\0", 1, bitmap(1, *[ONES] * n), NO_BITS, NO_BITS)),
    ),
    Case(
        "runs of 2^38 directories to check alone",
        50_000,
        lambda n: index(2, 0, untracked(b"\0\0\0", 1, NO_BITS, bitmap(1, *[ONES] * n), NO_BITS)),
    ),
    Case(
        "runs of no directory",
        250_000,
        lambda n: index(2, 0, untracked(b"\0\0\0", 1, bitmap(1, *[ONES - 1] * n), NO_BITS, NO_BITS)),
    ),
    Case(
        "a monitor's runs of 2^38 entries",
        250_000,
        lambda n: index(
            2, 0, item(b"FSMN", b"\0\0\0\1" + bytes(8) + (12 + 8 * n).to_bytes(4, "big") + bitmap(1, *[ONES] * n))
        ),
    ),
    Case("a header that counts more entries", 4_000_000, lambda n: index(2, n // 62, bytes(n))),
    Case("words of zeros in a link", 250_000, split),
    Case("1,000 entries of two folders so deep, in turn", 200, lambda n: files(in_turn(1_000, n)), (FOLDED,)),
    Case("the same in order", 200, lambda n: files(sorted(in_turn(1_000, n))), (FOLDED, DIRECTORIES)),
    Case("so many entries of two folders 100 deep, in turn", 4_000, lambda n: files(in_turn(n, 100)), (FOLDED,)),
    Case(
        "500 entries of folders of their own, so deep",
        100,
        lambda n: files([b"%03d/" % at + deep(b"a", n) for at in range(500)]),
        (FOLDED, DIRECTORIES),
    ),
    Case(
        "one path of so many folders, as tables", 16_000, lambda n: files([deep(b"a", n) + b"a"]), (FOLDED, DIRECTORIES)
    ),
    Case("entries of one folder 2,000 deep, version 4", 10_000, lambda n: of_one_folder(n, 2_000), (TREES,)),
    Case("entries of one path at stage 3", 25_000, lambda n: files([b"a"] * n, 3), ("entry", FOLDED), b"a\n" * 200),
)


def put(folder, data):
    """Writes the file of a case into a folder, with the index that it may share beside it, and gives its path."""
    (folder / f"sharedindex.{SHARED[-20:].hex()}").write_bytes(SHARED)
    (folder / "index").write_bytes(data)
    return folder / "index"


def words(case, call, tool, times, path):
    """The command line of one call on the file at this path."""
    if call not in TOLD:
        names = path.with_name("names")
        names.write_bytes(case.names)
        return [times, "lookup", call, path, names]
    keep = ["--keep"] if call in ("rewrite", "rewrite4") else []
    return [tool, call, *keep, "sha1", path, *([path.with_name("out")] if call in WRITING else [])]
