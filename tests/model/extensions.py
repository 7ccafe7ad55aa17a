"""The extensions of an index, by gitformat-index, each read from its whole content.

A reader of an optional extension raises `Unreadable` where the content has no value.
"""

from dataclasses import dataclass
from typing import Optional

from tests.model import bitmaps
from tests.model.bytes import ID_LENGTH, Unreadable, digest, number, numbers, take, up_to

TREE = b"TREE"
LINK = b"link"
RESOLVE_UNDO = b"REUC"
UNTRACKED = b"UNTR"
MONITOR = b"FSMN"
END_MARKER = b"EOIE"
OFFSET_TABLE = b"IEOT"
SPARSE = b"sdir"

HEADER_LENGTH = 8


@dataclass
class Walk:
    """The whole extensions at the front, as pairs of signature and content, and how many bytes were walked over."""

    items: list
    walked: int


def walk(data):
    """Extensions in turn. A header whose size passes the end is walked over, and nothing behind it."""
    items, at = [], 0
    while at + HEADER_LENGTH <= len(data):
        size, _ = number(data[at + 4:], 4)
        signature, start = data[at:at + 4], at + HEADER_LENGTH
        at = start
        if start + size > len(data):
            break
        items.append((signature, data[start:start + size]))
        at = start + size
    return Walk(items, at)


def walk_before_trailer(data, kind):
    """The same of all but a trailer."""
    if len(data) < ID_LENGTH[kind]:
        raise Unreadable
    return walk(data[:len(data) - ID_LENGTH[kind]])


@dataclass
class Link:
    """The id of a shared index, and which of its entries are left out and replaced."""

    shared: bytes
    delete: Optional[bitmaps.Bitmap] = None
    replace: Optional[bitmaps.Bitmap] = None

    @property
    def has_bitmaps(self):
        return self.delete is not None


class LinkFault(Exception):
    """The first fault of a link, in words."""

    def __init__(self, text, bitmap=None):
        super().__init__(text)
        self.text, self.bitmap = text, bitmap


def read_link(data, kind):
    try:
        shared, data = take(data, ID_LENGTH[kind])
    except Unreadable:
        raise LinkFault("link extension too short to read share index checksum") from None
    link = Link(shared)
    if not data:
        return link
    for name in ("delete", "replace"):
        try:
            found, data = bitmaps.read(data)
        except bitmaps.PartMissing as missing:
            raise LinkFault(missing.part, name) from None
        setattr(link, name, found)
    if data:
        raise LinkFault("garbage trailing link extension")
    return link


def octal(digits):
    """A number in octal digits, with or without `+` before them, of 32 bits."""
    digits = digits[1:] if digits[:1] == b"+" else digits
    if not digits or any(digit not in b"01234567" for digit in digits):
        raise Unreadable
    value = int(digits, 8)
    if value >= 2 ** 32:
        raise Unreadable
    return value


def read_resolve_undo(data, kind):
    """Pairs of a path and what was at its stages 1 to 3: a mode and an id, or None where the mode is 0."""
    paths = []
    while data:
        path, data = up_to(data, 0)
        modes = []
        for _ in range(3):
            digits, data = up_to(data, 0)
            modes.append(octal(digits))
        stages = []
        for mode in modes:
            stage = None
            if mode:
                object_id, data = take(data, ID_LENGTH[kind])
                stage = mode, object_id
            stages.append(stage)
        paths.append((path, stages))
    return paths


def resolve_undo_bytes(paths):
    """The content of resolve-undo. A mode has no zeros before it."""
    pieces = []
    for path, stages in paths:
        pieces += [path + b"\0"] + [b"%o\0" % (stage[0] if stage else 0) for stage in stages]
        pieces += [stage[1] for stage in stages if stage]
    return b"".join(pieces)


@dataclass
class Monitor:
    """The time in nanoseconds, or a token of bytes, and which entries are dirty."""

    token: object
    dirty: bitmaps.Bitmap


def read_monitor(data):
    version, data = number(data, 4)
    if version == 1:
        token, data = number(data, 8)
    elif version == 2:
        token, data = up_to(data, 0)
    else:
        raise Unreadable
    size, data = number(data, 4)
    if size != len(data):
        raise Unreadable
    try:
        dirty, rest = bitmaps.read(data)
    except bitmaps.PartMissing:
        raise Unreadable from None
    if rest:
        raise Unreadable
    return Monitor(token, dirty)


def monitor_bytes(monitor):
    """The content of what a monitor said: version 1 where the token is a time, and else version 2."""
    is_time = isinstance(monitor.token, int)
    token = monitor.token.to_bytes(8, "big") if is_time else monitor.token + b"\0"
    dirty = bitmaps.to_bytes(monitor.dirty)
    return (1 if is_time else 2).to_bytes(4, "big") + token + len(dirty).to_bytes(4, "big") + dirty


def read_offset_table(data):
    """Pairs of an offset and a count, one at least, behind the version 1."""
    version, data = number(data, 4)
    if version != 1 or not data or len(data) % 8:
        raise Unreadable
    values, _ = numbers(data, 4, len(data) // 4)
    return list(zip(values[::2], values[1::2]))


def first_offset_table(data, kind):
    """The first offset table among extensions before a trailer, also where that one is malformed."""
    for signature, content in walk_before_trailer(data, kind).items:
        if signature == OFFSET_TABLE:
            return read_offset_table(content)
    raise Unreadable


def signatures_digest(kind, items):
    """The digest of the signatures and sizes of extensions, given as pairs of signature and content."""
    headers = [signature + len(content).to_bytes(4, "big") for signature, content in items]
    return digest(kind, b"".join(headers))


def read_end_marker(data, kind):
    """Where the end marker of a whole file says that the entries end.

    It is looked for before the trailer of a SHA-1 file. Between that place and the marker there must be whole
    extensions and nothing else, one at least, and the marker has the digest of their signatures and sizes.
    """
    header = END_MARKER + (24).to_bytes(4, "big")
    marker_length, trailer_length = HEADER_LENGTH + 24, ID_LENGTH["sha1"]
    start = len(data) - trailer_length - marker_length
    if kind != "sha1" or start < 0:
        raise Unreadable
    marker = data[start:start + marker_length]
    offset = int.from_bytes(marker[8:12], "big")
    if marker[:8] != header or not 12 <= offset <= start:
        raise Unreadable
    between = data[offset:start]
    items = walk(between).items
    whole = sum(HEADER_LENGTH + len(content) for _, content in items)
    if not items or whole != len(between) or signatures_digest(kind, items) != marker[12:]:
        raise Unreadable
    return offset


def read_end_mark(data, kind):
    """What an end marker says, whether it is so or not: an offset and a digest."""
    offset, rest = number(data, 4)
    found, rest = take(rest, ID_LENGTH[kind])
    if rest:
        raise Unreadable
    return offset, found


def end_marker_bytes(kind, offset, items):
    """The end marker behind these extensions."""
    content = offset.to_bytes(4, "big") + signatures_digest(kind, items)
    return END_MARKER + len(content).to_bytes(4, "big") + content
