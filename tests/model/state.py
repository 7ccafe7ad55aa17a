"""A whole index, read of its bytes: the state, or the first fault."""

from dataclasses import dataclass, field
from typing import Optional

from tests.model import entries, extensions, trees, untracked_cache
from tests.model.bytes import ID_LENGTH, Unreadable, digest, null_id

HEADER_LENGTH = 12
SIGNATURE = b"DIRC"
VERSIONS = (2, 3, 4)

# How much of the memory that a caller limits an entry takes.
ENTRY_SIZE = 96
# About how many bytes of a path version 4 spells for an entry.
AVERAGE_TAIL = 80


@dataclass
class State:
    """An index in memory. `storage` has the bytes of the paths in the order in which the entries came.

    `fits` says whether the extensions speak of these entries, and not of those before an edit, or of those of a shared
    index too.
    """

    kind: str
    version: int = 2
    entries: list = field(default_factory=list)
    storage: bytes = b""
    is_sparse: bool = False
    had_end_marker: bool = False
    had_offset_table: bool = False
    tree: Optional[trees.Tree] = None
    link: Optional[extensions.Link] = None
    resolve_undo: Optional[list] = None
    untracked: Optional[untracked_cache.Cache] = None
    monitor: Optional[extensions.Monitor] = None
    fits: bool = True

    def push(self, entry):
        """Puts an entry at the end."""
        self.entries.append(entry)
        self.storage += entry.path


class Fault(Exception):
    """The first fault of an index, by its name, and what it carries."""

    def __init__(self, name, /, **carried):
        super().__init__(name)
        self.name, self.carried = name, carried


@dataclass
class Options:
    """The memory that the caller allows, and the checksum that it expects."""

    limit: Optional[int] = None
    checksum: Optional[bytes] = None


def block_length(length, offset, kind):
    """How many bytes can be entries: up to where an end marker says, else up to the trailer."""
    end = length - ID_LENGTH[kind] if offset is None else offset
    return max(0, end - HEADER_LENGTH)


def fixed_length(kind):
    """The length of an entry before its path, with one word of flags."""
    return 10 * 4 + ID_LENGTH[kind] + 2


def smallest_entry(kind, version):
    """The length of an entry without a path: up to a multiple of eight, or in version 4 with a number and a NUL."""
    fixed = fixed_length(kind)
    return fixed + 2 if version == 4 else (fixed + 8) // 8 * 8


def most_entries(length, offset, kind, version):
    """How many entries a file of that length can hold."""
    return block_length(length, offset, kind) // smallest_entry(kind, version)


def estimated_paths(count, length, offset, kind, version):
    """About how many bytes the paths of so many entries take."""
    fixed = fixed_length(kind)
    block = block_length(length, offset, kind)
    if version == 4:
        return max(0, min(block - count * (fixed + 2), AVERAGE_TAIL * count))
    return max(0, block - count * fixed)


def read_header(data, kind):
    """The version and the declared number of entries."""
    if len(data) < HEADER_LENGTH + ID_LENGTH[kind]:
        raise Fault("header", text="File is too small even for header with zero entries and smallest hash")
    if data[:4] != SIGNATURE:
        raise Fault("header", text="Signature mismatch - this doesn't claim to be a header file")
    version = int.from_bytes(data[4:8], "big")
    if version not in VERSIONS:
        raise Fault("version", number=version)
    return version, int.from_bytes(data[8:12], "big")


def end_marker(data, kind):
    """Where the end marker says that the entries end, or None."""
    try:
        return extensions.read_end_marker(data, kind)
    except Unreadable:
        return None


def check_sizes(data, kind, version, count, limit):
    """More entries than the file can hold, and more memory than is allowed."""
    offset = end_marker(data, kind)
    if count > most_entries(len(data), offset, kind, version):
        raise Fault("header", text="Declared entry count exceeds possible entries for file size")
    paths = estimated_paths(count, len(data), offset, kind, version)
    if limit is not None and max(ENTRY_SIZE * count, paths) > limit:
        raise Fault("limit")


def check_mandatory(signature, content, kind):
    """A link that can't be read, a mark of a sparse index with content, and what has to be understood and isn't."""
    if signature == extensions.LINK:
        try:
            extensions.read_link(content, kind)
        except extensions.LinkFault as fault:
            raise Fault("link", fault=fault) from None
    elif b"a" <= signature[:1] <= b"z" and (signature != extensions.SPARSE or content):
        raise Fault("mandatory", signature=signature)


def last_value(items, signature, read):
    """The value of the last extension of this signature; None where there is none, or where that one is malformed."""
    contents = [content for name, content in items if name == signature]
    if not contents:
        return None
    try:
        return read(contents[-1])
    except Unreadable:
        return None


def take_extensions(state, items, limit):
    """Puts the values of extensions into the state."""
    kind = state.kind
    for signature, content in items:
        check_mandatory(signature, content, kind)
    signatures = [signature for signature, _ in items]
    state.is_sparse = extensions.SPARSE in signatures
    state.had_end_marker = extensions.END_MARKER in signatures
    state.had_offset_table = extensions.OFFSET_TABLE in signatures
    state.tree = last_value(items, extensions.TREE, lambda data: trees.read(data, kind, limit))
    state.link = last_value(items, extensions.LINK, lambda data: extensions.read_link(data, kind))
    state.fits = state.link is None or state.link.shared == null_id(kind)
    state.resolve_undo = last_value(
        items, extensions.RESOLVE_UNDO, lambda data: extensions.read_resolve_undo(data, kind))
    state.untracked = last_value(items, extensions.UNTRACKED, lambda data: untracked_cache.read(data, kind, limit))
    state.monitor = last_value(items, extensions.MONITOR, extensions.read_monitor)


def read(data, kind, options=Options()):
    """The state, and the id at the end of the file, or None where that is null."""
    version, count = read_header(data, kind)
    check_sizes(data, kind, version, count, options.limit)
    try:
        found, rest = entries.read_entries(data[HEADER_LENGTH:], kind, version, count)
    except entries.EntryFault as fault:
        raise Fault("entry", place=fault.place) from None
    state = State(kind, version, found, b"".join(entry.path for entry in found))
    trailer_length = len(rest)
    if len(rest) >= ID_LENGTH[kind]:
        walk = extensions.walk_before_trailer(rest, kind)
        take_extensions(state, walk.items, options.limit)
        trailer_length -= walk.walked
    if trailer_length != ID_LENGTH[kind]:
        raise Fault("trailer", actual=trailer_length, expected=ID_LENGTH[kind])
    state.is_sparse |= any(entry.mode == entries.DIRECTORY for entry in found)
    trailer = rest[-trailer_length:]
    if trailer == null_id(kind):
        return state, None
    if options.checksum not in (None, trailer):
        raise Fault("digest", actual=trailer, expected=options.checksum)
    return state, trailer


def value_or_none(contents, read):
    """The value of the first of these contents; None where there is none, or where that one is malformed."""
    try:
        return read(contents[0]) if contents else None
    except Unreadable:
        return None


def read_marks(data, kind):
    """What the first offset table of a file that can be read says, as pairs, and what the last end marker says.

    None where there is none or it is malformed.
    """
    version, count = read_header(data, kind)
    _, rest = entries.read_entries(data[HEADER_LENGTH:], kind, version, count)
    items = extensions.walk_before_trailer(rest, kind).items
    tables = [content for name, content in items if name == extensions.OFFSET_TABLE]
    markers = [content for name, content in reversed(items) if name == extensions.END_MARKER]
    table = value_or_none(tables, extensions.read_offset_table)
    return table, value_or_none(markers, lambda content: extensions.read_end_mark(content, kind))


def read_file(data, kind, skip_hash=False, options=Options()):
    """The same of a file, whose digest is compared first, unless it is null, too short or not to be looked at."""
    length = ID_LENGTH[kind]
    trailer = data[-length:]
    if not skip_hash and len(data) >= length and trailer != null_id(kind):
        actual = digest(kind, data[:-length])
        if actual != trailer:
            raise Fault("digest", actual=actual, expected=trailer)
    return read(data, kind, options)
