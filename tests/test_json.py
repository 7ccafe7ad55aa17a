"""What `index-tool show-json` prints of index files is what the model reads in them.

Files of either kind of id and of each version hold entries with each kind of flag, paths that are to be escaped or
that aren't UTF-8, and each extension with values at its bounds: bitmaps whose words break off, that declare fewer bits
than they set, of runs side by side, and of runs longer than a file; offset tables and end markers, one and several.
What is printed is one line, and UTF-8; Python's `json` reads it; it is what docs/show-json.schema.json says, and the
document that the model has, with its members in their order. Of a file that can't be read as an index nothing is
printed, and one line of fault. `--set file=PATH` looks at that file too, as one of both kinds.
"""
import json
import pathlib
import sys

from tests import TOP
from tests.case import Case
from tests.common import ID_LEN, KINDS, answer, setting
from tests.made import sealed, trailers
from tests.model import document, entries, extensions, schema, state, trees, writing
from tests.model.bitmaps import Bitmap
from tests.model.bytes import null_id

PATHS = (
    b"a", b'quote " backslash \\ slash /', bytes(range(1, 32)) + b"\x7f", b"\xff", b"dir/\xc3\x28", b"dir/\xc3\xa4",
    b"\xed\xa0\x80", b"\xf0\x9f\x98\x80", b"\xc0\xaf", b"\xe2\x80\xa8", b"long/" + b"x" * 5000,
)
FLAGS = (
    0, entries.ASSUME_VALID, entries.EXTENDED | entries.INTENT_TO_ADD, entries.EXTENDED | entries.SKIP_WORKTREE,
    entries.flags_of_stage(1), entries.flags_of_stage(2), entries.flags_of_stage(3),
)
MODES = (entries.FILE, entries.EXECUTABLE, entries.SYMLINK, entries.SUBMODULE)
MOST = 2 ** 32 - 1
BITMAPS = (
    Bitmap(0, []),
    Bitmap(3, [1 << 33, 0b101]),
    Bitmap(2, [1 << 33, 0b111]),
    Bitmap(64, [1 << 33, 2 ** 64 - 1]),
    Bitmap(200, [1 | 2 << 1 | 1 << 33, 0b1011]),
    Bitmap(192, [1 << 33, 1 << 63, 1 | 1 << 1 | 1 << 33, 1]),
    Bitmap(64, [2 << 33, 0b1]),
    Bitmap(64, [1 | 1 << 1 | 2 << 33]),
    Bitmap(65, [1 | 1 << 1 | 2 << 33]),
    Bitmap(63, [1 | 1 << 1 | 2 << 33]),
    Bitmap(100, [1 | MOST << 1 | 1 << 33, 1]),
    Bitmap(200, [1 | 1 << 1 | 1 << 33, 1 | 1 << 2 | 1 << 63, 1 << 33]),
    Bitmap(300, [1 | 1 << 1, 1 | 2 << 1 | 1 << 33, 0b111, 1 << 33, 1 << 63, 1 | 1 << 1]),
    Bitmap(100, [1 | 1 << 1, 1 | 1 << 1]),
    Bitmap(130, [1 << 33, 2 ** 64 - 1, 1 | 1 << 1 | 1 << 33, 0b110, 5 << 33]),
    Bitmap(MOST, [MOST << 1]),
    Bitmap(MOST, [1 | MOST << 1]),
    Bitmap(MOST, [1 | (2**26 - 1) << 1 | 1 << 33, 2 ** 63 - 1]),
    Bitmap(MOST, [(2 ** 26 - 1) << 1 | 1 << 33, 1 << 62 | 1 << 63]),
    Bitmap(64, [1 << 33, int("01" * 32, 2)]),
)


def bitmap_bytes(bitmap):
    numbers = [(bitmap.bits, 4), (len(bitmap.words), 4)] + [(word, 8) for word in bitmap.words] + [(0, 4)]
    return b"".join(number.to_bytes(length, "big") for number, length in numbers)


def stat(first):
    return entries.Stat(*(min(first * (place + 1), MOST) for place in range(len(entries.Stat._fields))))


def stat_bytes(first):
    return b"".join(number.to_bytes(4, "big") for number in stat(first))


def an_id(kind, byte):
    return bytes([byte]) * ID_LEN[kind]


def entry_lists(kind):
    """Lists of entries."""
    yield []
    yield [entries.Entry(b"a", an_id(kind, 0x11))]
    made = []
    for place, path in enumerate(sorted(PATHS)):
        flags, mode = FLAGS[place % len(FLAGS)], MODES[place % len(MODES)]
        made.append(entries.Entry(path, an_id(kind, place), mode=mode, flags=flags, stat=stat((MOST, 0, 7)[place % 3])))
    yield made
    yield [entries.Entry(b"%06d" % place, an_id(kind, 0xab)) for place in range(2000)]


def tree_contents(kind):
    leaf = trees.Tree(b"b", an_id(kind, 2), 1, [])
    for name in (b"dir", b'"\n', b"\xff"):
        below = trees.Tree(name, an_id(kind, 3), None, [leaf, trees.Tree(b"c", an_id(kind, 4), MOST, [])])
        yield trees.to_bytes(trees.Tree(b"", an_id(kind, 1), 3, [below]))
        yield trees.to_bytes(trees.Tree(name, null_id(kind), None, []))


def link_contents(kind):
    yield an_id(kind, 5)
    for place, bitmap in enumerate(BITMAPS):
        yield an_id(kind, 5) + bitmap_bytes(bitmap) + bitmap_bytes(BITMAPS[-place])


def monitor_contents():
    for bitmap in BITMAPS:
        dirty = len(bitmap_bytes(bitmap)).to_bytes(4, "big") + bitmap_bytes(bitmap)
        yield b"\0\0\0\1" + (2 ** 64 - 1).to_bytes(8, "big") + dirty
        for token in (b"", b"builtin:0\\\"\t", b"\xff\xfe"):
            yield b"\0\0\0\2" + token + b"\0" + dirty


def undo_contents(kind):
    yield b""
    for name in (b"path", b'a"b', b"\xff"):
        yield name + b"\0100644\0" + b"0\0160000\0" + an_id(kind, 6) + an_id(kind, 7) + name + b"x\0" + b"0\0" * 3


def untracked_contents(kind):
    """Caches with no directory, and with three, of which the last two lie in the first."""
    for name in (b".gitignore", b'"', b"\xff"):
        for info in (null_id(kind), an_id(kind, 8)):
            head = bytes([len(name)]) + name + stat_bytes(9) + stat_bytes(MOST) + bytes(4) + info + an_id(kind, 9)
            yield head + name + b"\0" + b"\0"
            blocks = b"\2\2\0" + name + b"\0" + b"u\0" + b"\0\0" + name + b"\0" + b"\0\0d\0"
            marks = bitmap_bytes(Bitmap(3, [1 << 33, 0b101])) + bitmap_bytes(Bitmap(3, [1 << 33, 0b010]))
            marks += bitmap_bytes(Bitmap(3, [1 << 33, 0b100]))
            yield head + name + b"\0" + b"\3" + blocks + marks + stat_bytes(1) + stat_bytes(2) + an_id(kind, 10) + b"\0"


def table_contents():
    """Offset tables of one block, of two and of many, and what is none."""
    yield b"\0\0\0\1" + bytes(8)
    yield b"\0\0\0\1" + b"\0\0\0\x0c\0\0\0\2" + b"\xff" * 8
    yield b"\0\0\0\1" + b"".join(place.to_bytes(8, "big") for place in range(300))
    yield from (b"", b"\0\0\0\1", b"\0\0\0\2" + bytes(8), b"\0\0\0\1" + bytes(9))


def mark_contents(kind):
    """Offsets with a digest, which are believed nowhere, and what is none."""
    yield from (b"", bytes(3), b"\0\0\0\x0c" + bytes(ID_LEN[kind] - 1), bytes(5 + ID_LEN[kind]))
    yield b"\xff" * 4 + an_id(kind, 0xcd)
    yield b"\0\0\0\x0c" + null_id(kind)


def extensions_of(kind):
    """Extensions, one or more at a time."""
    yield []
    for signature, contents in (
        (b"TREE", tree_contents(kind)), (b"link", link_contents(kind)), (b"FSMN", monitor_contents()),
        (b"REUC", undo_contents(kind)), (b"UNTR", untracked_contents(kind)), (b"sdir", [b""]),
        (b"IEOT", table_contents()), (b"EOIE", mark_contents(kind)), (b"TREE", [b"malformed"]), (b"zzzz", [b""]),
    ):
        yield from ([(signature, content)] for content in contents)
    yield [(b"IEOT", content) for content in table_contents()]
    yield [(b"IEOT", content) for content in reversed(list(table_contents()))]
    yield [(b"EOIE", content) for content in mark_contents(kind)] + [(b"FSMN", b"malformed")]
    whole = ((b"TREE", tree_contents(kind)), (b"REUC", undo_contents(kind)), (b"FSMN", monitor_contents()))
    yield [(signature, list(contents)[-1]) for signature, contents in whole]


def files(kind, is_version_4):
    """Files of a version with each list of entries, and with extensions after one entry."""
    for place, listed in enumerate(entry_lists(kind)):
        found = state.State(kind)
        for one in listed:
            found.push(one)
        start = writing.body(found, writing.Options(is_version_4=is_version_4))[1]
        for items in extensions_of(kind) if place == 1 else [[]]:
            data = start + b"".join(writing.item_bytes(*item) for item in items)
            yield from trailers(kind, data)
            data += extensions.end_marker_bytes(kind, len(start), items)
            yield sealed(kind, data)


def document_of(data, kind):
    """What the model has of a file, or None where it is no index."""
    try:
        return document.document(*state.read_file(data, kind), state.read_marks(data, kind))
    except state.Fault:
        return None


def is_held(tool, place, kind, data, rules):
    """Whether the program prints of a file what the model has of it."""
    status, out, faults = answer((tool, "show-json", kind, place))
    wanted = document_of(data, kind)
    if wanted is None:
        return (status, out, faults.count(b"\n")) == (1, b"", 1)
    if (status, faults, out.count(b"\n"), out[-1:]) != (0, b"", 1, b"\n"):
        return False
    found = json.loads(out.decode())
    return rules.holds(found) and json.dumps(found) == json.dumps(wanted)


class Json(Case):
    @classmethod
    def setUpClass(cls):
        cls.rules = schema.Schema(json.loads((TOP / "docs" / "show-json.schema.json").read_text()))
        cls.addClassCleanup(sys.setrecursionlimit, sys.getrecursionlimit())
        sys.setrecursionlimit(100_000)

    def look(self, kind, is_version_4):
        place = self.room() / "index"
        for data in dict.fromkeys(files(kind, is_version_4)):
            place.write_bytes(data)
            self.hold(data.hex()[:2000], is_held(self.tool, place, kind, data, self.rules))

    def test_sha1_in_versions_2_and_3(self):
        self.look("sha1", False)

    def test_sha1_in_version_4(self):
        self.look("sha1", True)

    def test_sha256_in_versions_2_and_3(self):
        self.look("sha256", False)

    def test_sha256_in_version_4(self):
        self.look("sha256", True)

    def test_file_that_is_asked_for(self):
        path = setting("file", "")
        if not path:
            self.skipTest("no file is asked for (--set file=PATH)")
        for kind in KINDS:
            is_right = is_held(self.tool, path, kind, pathlib.Path(path).read_bytes(), self.rules)
            self.hold(f"{kind}: {path}", is_right)
