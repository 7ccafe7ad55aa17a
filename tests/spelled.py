"""Small files that are spelled byte for byte, most of one entry, for tests of the commands."""
import hashlib

ID = "11" * 20
# Version 2, one entry: no times, mode 100644, the id, a name of one byte, and a NUL, as 64 is a multiple of eight.
HEADER = b"DIRC\0\0\0\2\0\0\0\1"
ENTRY = bytes(24) + b"\0\0\x81\xa4" + bytes(12) + b"\x11" * 20 + b"\0\1a" + bytes(1)
BODY = HEADER + ENTRY
# What `sha1sum` says of these 76 bytes.
DIGEST = bytes.fromhex("8ad344e44b1514b69c3d3188a2483312dc74336d")
NULL = bytes(20)
# The object of its tree, and the cached tree that names it; and an end marker behind that.
TREE = b"100644 a\0" + b"\x11" * 20
TREE_ID = hashlib.sha1(b"tree %d\0" % len(TREE) + TREE).digest()
NODE = b"TREE" + (25).to_bytes(4, "big") + b"\x001 0\n" + TREE_ID
MARKER = b"EOIE" + (24).to_bytes(4, "big") + (76).to_bytes(4, "big") + hashlib.sha1(NODE[:8]).digest()
# A cached tree of a root without a count; and an end marker behind that.
BARE = b"TREE" + (6).to_bytes(4, "big") + b"\x00-1 0\n"
BARE_MARKER = MARKER[:12] + hashlib.sha1(BARE[:8]).digest()
# What was at the stages 1 and 3 of a path that was in conflict; the same with zeros before a mode; and no such thing.
UNDO = b"REUC" + (58).to_bytes(4, "big") + b"b\x00100644\x000\x00120000\0" + b"\x11" * 20 + b"\x22" * 20
SPELLED = b"REUC" + (60).to_bytes(4, "big") + UNDO[8:10] + b"00" + UNDO[10:]
NO_UNDO = b"REUC" + (4).to_bytes(4, "big") + b"b\x008\0"
LISTED = f"100644 {ID} 0\ta\n".encode()
SHARED = f"sharedindex.{ID}"
# An offset table with two blocks, and an end marker behind it.
TABLE = b"IEOT" + (20).to_bytes(4, "big") + b"\0\0\0\1" + b"\0\0\0\x0c\0\0\0\1" + b"\0\0\0\x4c\0\0\0\0"
MARKED = b"EOIE" + (24).to_bytes(4, "big") + (76).to_bytes(4, "big") + hashlib.sha1(TABLE[:8]).digest()
# A bitmap that declares 2^32 - 1 bits, of a run word for 2^32 - 1 words of set bits. And one that declares 200: a run
# of 64 set bits, a literal word with its bits 0, 2 and 63, and a run word for a literal word that isn't there.
FAR = b"\xff" * 4 + (1).to_bytes(4, "big") + (2 ** 33 - 1).to_bytes(8, "big") + bytes(4)
BROKEN_WORDS = (1 | 1 << 1 | 1 << 33, 1 | 1 << 2 | 1 << 63, 1 << 33)
BROKEN = b"\0\0\0\xc8\0\0\0\3" + b"".join(it.to_bytes(8, "big") for it in BROKEN_WORDS) + bytes(4)
FAR_LINK = b"link" + (20 + len(FAR + BROKEN)).to_bytes(4, "big") + b"\x11" * 20 + FAR + BROKEN
# A link with an id of ones, and two bitmaps of no bits.
SPLIT = b"DIRC\0\0\0\2\0\0\0\0" + b"link\0\0\0\x2c" + b"\x11" * 20 + bytes(24) + NULL
# The same to the index of one entry, whose file has its digest in its name.
LINKED, LINKED_SHARED = SPLIT.replace(b"\x11" * 20, DIGEST), f"sharedindex.{DIGEST.hex()}"
# Texts for `update`, the first where there is no file; what `git ls-files --stage` says behind each, and the digest at
# the end of the file that `git update-index --index-info` writes, in git 2.39.5.
SIDE = "22" * 20
UPDATES = [
    (
        f'100644 {ID} 1\ta\n100644 {SIDE} 3\ta\n100755 {ID}\t"b/\\303\\251"\n',
        f'100644 {ID} 1\ta\n100644 {SIDE} 3\ta\n100755 {ID} 0\t"b/\\303\\251"\n',
        "2533eb4077c0fbf17c6168bbb4440264a6504513",
    ),
    (
        f"100644 {SIDE} 0\ta\n0 {NULL.hex()}\tb/none\n",
        f'100644 {SIDE} 0\ta\n100755 {ID} 0\t"b/\\303\\251"\n',
        "0baccb04f6b6f55bd4120162f2199603eaf1ca01",
    ),
]
# A name that would take two lines and change what a terminal shows, and how it is told.
WILD, TOLD = "bad\n\x1b[1m.index", "bad\\n\\u{1b}[1m.index"


def named(path):
    """The entry with another name of one byte."""
    return ENTRY.replace(b"\0\1a", b"\0\1" + path)


def of_two(first, second):
    return b"DIRC\0\0\0\2\0\0\0\2" + named(first) + named(second) + NULL


def in_conflict(stage_of_d):
    """Entries `a` and `d/a`, `a` of stage 1, and a cached tree with a count of `d` alone, which has that entry."""
    below = ENTRY[:60] + bytes([stage_of_d << 4]) + b"\3d/a" + bytes(7)
    content = b"\x00-1 1\nd\x001 0\n" + TREE_ID
    tree = b"TREE" + len(content).to_bytes(4, "big") + content
    return b"DIRC\0\0\0\2\0\0\0\2" + ENTRY.replace(b"\0\1a", b"\x10\1a") + below + tree + NULL


def entry(path, mode=0o100644, ident=b"\x11" * 20, stage=0):
    head = bytes(24) + mode.to_bytes(4, "big") + bytes(12) + ident + (stage << 12 | len(path)).to_bytes(2, "big") + path
    return head + bytes(8 - len(head) % 8)


# Entries that aren't those of an index that git works with, and how the fault begins that `check --strict` names; and
# entries that are.
UNSOUND = [
    ([entry(b"a", mode=0)], 'entry 0, "a": the mode 0 is none that an index has\n'),
    ([entry(b"a"), entry(b"b", mode=0o100600)], 'entry 1, "b": the mode 100600 is none that an index has\n'),
    ([entry(b"")], 'entry 0, "": the path is empty\n'),
    ([entry(b"a\0b")], 'entry 0, "a'),
    ([entry(b"/a")], 'entry 0, "/a": the path has an empty name\n'),
    ([entry(b"a//b")], 'entry 0, "a//b": the path has an empty name\n'),
    ([entry(b"../a")], 'entry 0, "../a": the path has a name '),
    ([entry(b"a/./b")], 'entry 0, "a/./b": the path has a name '),
    ([entry(b".GIT/a")], 'entry 0, ".GIT/a": the path has a name '),
    ([entry(b"a", ident=bytes(20))], 'entry 0, "a": the id is the null id\n'),
    ([entry(b"out", mode=0o40000)], 'entry 0, "out": '),
    ([entry(b"a"), entry(b"a-b"), entry(b"a/b")], 'entry 0, "a", is a file or a whole directory, but "a/b" '),
    ([entry(b"out/", mode=0o40000), entry(b"out/b")], 'entry 0, "out/", is a file or a whole directory, but "out/b" '),
    ([entry(b"a"), entry(b"a", stage=2)], 'entry 0, "a", is merged, but sides of a conflict '),
    ([entry(b"out"), entry(b"out/", mode=0o40000)], 'entry 0, "out", is a file or a whole directory, but "out/" '),
]
SOUND = [
    [entry(b"a", mode=0o100755), entry(b"b", mode=0o120000), entry(b"c", mode=0o160000)],
    [entry(b"a", stage=2), entry(b"a/b", stage=3)],
    [entry(b"a"), entry(b"a-b"), entry(b"ab/c")],
    [entry(b"in/a"), entry(b"out/", mode=0o40000), entry(b"top")],
]


def of(entries):
    return b"DIRC\0\0\0\2" + len(entries).to_bytes(4, "big") + b"".join(entries) + NULL


FILES = {
    "whole.index": BODY + NULL,
    "cut.index": (BODY + NULL)[:95],
    "sealed.index": BODY + bytes(19) + b"\1",
    "twice.index": of_two(b"\n", b"\n"),
    "falling.index": of_two(b"b", b"a"),
    # (the second of three has no mode)
    "modeless.index": HEADER[:11] + b"\3" + ENTRY + named(b"b").replace(b"\x81\xa4", bytes(2)) + named(b"c") + NULL,
    "held.index.lock": b"another's",
    WILD: BODY + bytes(19) + b"\1",
    f"{WILD}.lock": b"another's",
    "split.index": SPLIT,
    "linked.index": LINKED,
    # (a path with a NUL in it, which a file of version 4 can't hold)
    "nul.index": HEADER + ENTRY[:60] + b"\0\3a\0b" + bytes(7) + NULL,
    "marked.index": BODY + TABLE + MARKED + NULL,
    "far.index": b"DIRC\0\0\0\2\0\0\0\0" + FAR_LINK + NULL,
    "lie.index": BODY + NODE[:-1] + bytes([NODE[-1] ^ 1]) + NULL,
    "right.index": BODY + NODE + NULL,
    "ended.index": BODY + NODE[:-1] + bytes([NODE[-1] ^ 1]) + MARKER + NULL,
    "undo.index": BODY + SPELLED + TABLE + NODE + NULL,
    "no-undo.index": BODY + NO_UNDO + NODE + NULL,
    "conflict.index": in_conflict(0),
    "deep.index": in_conflict(2),
}


# The entry in version 4, and with its cached tree in version 2.
FOUR = b"DIRC\0\0\0\4\0\0\0\1" + ENTRY[:62] + b"\0a\0"
TREED = BODY + NODE


def sealed(data):
    """The bytes with their digest at the end."""
    return data + hashlib.sha1(data).digest()

# Words that are no command, and the line that is said of them.
LEFT_OUT = "KIND and FILE are missing; with --auto each may be left out, FILE in a work tree"
NO_WORDS = "KIND, FILE and OUT are missing; with --auto KIND may be left out"
NO_MISSING = "unexpected argument '--missing-ok' found; to pass '--missing-ok' as a value, use '-- --missing-ok'"
WRONG = [
    ("", "a command is missing (see index-tool --help)"),
    ("lst", "unrecognized subcommand 'lst', did you mean 'list'?"),
    ("List sha1 a", "unrecognized subcommand 'List', did you mean 'list'?"),
    ("help lst", "unrecognized subcommand 'lst', did you mean 'list'?"),
    ("a\nb\x1b[1m", "unrecognized subcommand 'a\\nb\\u{1b}[1m'"),
    ("--hlep", "unexpected argument '--hlep' found, did you mean '--help'?"),
    ("list", LEFT_OUT),
    ("check-trees", LEFT_OUT),
    ("list sha1", "FILE is missing behind KIND"),
    ("list whole.index", "invalid value 'whole.index' for KIND: it is sha1 or sha256, or left out with --auto"),
    ("list md5", "invalid value 'md5' for KIND: it is sha1 or sha256, or left out with --auto"),
    ("list md5 x", "invalid value 'md5' for KIND: it is sha1 or sha256, or left out with --auto"),
    ("list --auto md5 x", "invalid value 'md5' for KIND: it is sha1 or sha256, or left out with --auto"),
    ("list SHA1 x", "invalid value 'SHA1' for KIND: it is sha1 or sha256, or left out with --auto"),
    ("list sha1 a b", "unexpected argument 'b' found"),
    ("list -z -z sha1 whole.index", "the argument '-z' cannot be used multiple times"),
    ("list -a --auto whole.index", "the argument '--auto' cannot be used multiple times"),
    ("list --quoted a", "unexpected argument '--quoted' found, did you mean '--quote'?"),
    ("list --keep sha1 a", "unexpected argument '--keep' found; to pass '--keep' as a value, use '-- --keep'"),
    ("list --strict sha1 a", "unexpected argument '--strict' found; to pass '--strict' as a value, use '-- --strict'"),
    ("check -z sha1 whole.index", "unexpected argument '-z' found; to pass '-z' as a value, use '-- -z'"),
    ("map-svg sha1 whole.index picture.svg", "unexpected argument 'picture.svg' found"),
    ("trees --missing-ok sha1 whole.index", NO_MISSING),
    ("rewrite --missing-ok sha1 whole.index none.index", NO_MISSING),
    ("rewrite --all sha1 a b", "unexpected argument '--all' found; to pass '--all' as a value, use '-- --all'"),
    ("rewrite-trees --missing-ok --missing-ok sha1 a b", "the argument '--missing-ok' cannot be used multiple times"),
    ("rewrite", NO_WORDS),
    ("rewrite sha1 whole.index", "OUT is missing behind FILE"),
    (
        "rewrite whole.index none.index",
        "invalid value 'whole.index' for KIND: it is sha1 or sha256, or left out with --auto",
    ),
    ("rewrite --auto whole.index", "OUT is missing behind FILE"),
    ("rewrite4 sha1", "FILE and OUT are missing behind KIND"),
    ("rewrite-trees", NO_WORDS),
    ("rewrite-trees --missing-ok sha1 whole.index", "OUT is missing behind FILE"),
    ("update -z", "KIND and FILE are missing; with --auto KIND may be left out"),
    ("update whole.index", "invalid value 'whole.index' for KIND: it is sha1 or sha256, or left out with --auto"),
    ("update sha1 -", "invalid value '-' for FILE: the standard input has the changes"),
    ("update sha1 whole.index more", "unexpected argument 'more' found"),
    ("salvage", NO_WORDS),
    ("rewrite sha1 whole.index -", "invalid value '-' for OUT: it is the path of a file, as `./-` is"),
    ("rewrite sha1 whole.index none.index more", "unexpected argument 'more' found"),
]
