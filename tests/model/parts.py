"""The parts of a file, side by side, up to its first fault by place, and what can be saved of its entries."""

from dataclasses import dataclass, field
from types import SimpleNamespace
from typing import Optional

from tests.model import entries, extensions, files, merging, state
from tests.model.bytes import ID_LENGTH, Unreadable, digest, null_id


# The modes of entries, but that of a whole directory.
MODES = (entries.FILE, entries.EXECUTABLE, entries.SYMLINK, entries.SUBMODULE)
# Names that git lets stand in no path, whatever their case.
BARRED = (b"", b".", b"..", b".git")
# What a line of `salvage` ends with.
MERGED = b"; merged with the shared index"
MISSING = b"; the entries of the shared index are missing"


def is_name(name, is_link):
    """Whether git lets a name stand in a path."""
    return name.lower() not in BARRED and not (is_link and name.lower() == b".gitmodules")


def is_fit(kind, entry):
    """Whether git works with an entry. The path of a whole directory has a slash at its end."""
    path, mode = entry.path, entry.mode
    if mode == entries.DIRECTORY:
        if not path.endswith(b"/"):
            return False
        path, mode = path[:-1], entries.FILE
    *above, last = path.split(b"/")
    named = all(is_name(name, False) for name in above) and is_name(last, mode == entries.SYMLINK)
    return mode in MODES and entry.id != null_id(kind) and b"\0" not in path and named


def at_fault(kind, found):
    """The place of the first entry that git doesn't work with, or that doesn't stand behind the one before it."""
    for place, entry in enumerate(found):
        if not is_fit(kind, entry) or (place and entry.key <= found[place - 1].key):
            return place
    return None


@dataclass
class Parts:
    """What each part is, with its length; whether the last one begins with a fault; and the entries and the last whole
    link before it."""

    data: bytes
    found: list = field(default_factory=list)
    is_damaged: bool = False
    declared: int = 0
    front: list = field(default_factory=list)
    has_link: bool = False
    link: Optional[extensions.Link] = None

    @property
    def end(self):
        """How many bytes have a part."""
        return sum(length for length, _ in self.found)

    @property
    def last(self):
        """Where the last part begins."""
        return self.end - self.found[-1][0]

    def completed(self, kind, folder):
        """The entries before a fault, with those of the shared index that stands in the folder, and whether these were
        merged with them or are missing."""
        if self.link is None:
            return self.front, MISSING if self.has_link else b""
        if self.link.shared == null_id(kind):
            return self.front, b""
        try:
            shared = files.shared_at(kind, self.link.shared, folder)
            return merging.merged(self.link, SimpleNamespace(entries=self.front), shared), MERGED
        except (files.Unread, state.Fault, merging.MergeFault):
            return self.front, MISSING

    @property
    def version(self):
        """The version of a file that has a header."""
        return int.from_bytes(self.data[4:8], "big")

    def saved(self, kind, folder, keeps_all=False):
        """The entries that are kept, with those of the shared index that is in the folder; how many are told, up to the
        words of a fault; and what became of the shared index. Kept are those before the first at fault, or all that git
        works with, in order, of each path and stage the first."""
        found, told = self.completed(kind, folder)
        if told == MISSING:
            found = [entry for entry in found if entry.path]
        place, firsts = at_fault(kind, found), {}
        for entry in filter(lambda entry: is_fit(kind, entry), found):
            firsts.setdefault(entry.key, entry)
        kept = [firsts[key] for key in sorted(firsts)] if keeps_all else found[:place]
        counts = b"%d declared, %d read, %d kept" % (self.declared, len(self.front), len(kept))
        if place is not None:
            counts += b"; %d before the first entry at fault, %d behind it: " % (place, len(found) - place - 1)
        return kept, counts, told

    def put(self, length, what):
        self.found.append((length, what))

    def refuse(self):
        """All bytes that have no part yet are one, which begins with a fault."""
        self.put(len(self.data) - self.end, b"unread")
        self.is_damaged = True
        return self

    def lines(self):
        """The lines of a map."""
        offset, printed = 0, b""
        for length, what in self.found:
            printed += b"%d\t%d\t%s\n" % (offset, length, what)
            offset += length
        return printed


def escaped(data):
    """Plain characters as they are, a backslash twice, and any other byte in base 16."""
    plain = {byte: bytes([byte]) for byte in range(32, 127)} | {ord("\\"): b"\\\\"}
    return b"".join(plain.get(byte, b"\\x%02x" % byte) for byte in data)


def put_entry(parts, rest, kind, version, place, previous):
    """Puts the next entry and its parts, and gives its path and what is left."""
    if version == 4:
        entry, after = entries.read_compressed(rest, kind, previous)
        padding = 0
    else:
        entry, after = entries.read_padded(rest, kind)
        fixed = state.fixed_length(kind) + (2 if entry.flags & entries.EXTENDED else 0)
        padding = len(rest) - len(after) - fixed - len(entry.path)
    parts.put(len(rest) - len(after) - padding, b"entry %d %s" % (place, escaped(entry.path)))
    if padding:
        parts.put(padding, b"padding")
    parts.front.append(entry)
    return entry.path, after


def put_extensions(parts, data, kind):
    """Puts the parts of extensions and of what is left over behind them, and says whether none is at fault."""
    walk = extensions.walk(data)
    for signature, content in walk.items:
        parts.has_link |= signature == extensions.LINK
        try:
            state.check_mandatory(signature, content, kind)
        except state.Fault:
            return False
        if signature == extensions.LINK:
            parts.link = extensions.read_link(content, kind)
        parts.put(8, b"extension %s head" % escaped(signature))
        parts.put(len(content), b"extension %s content" % escaped(signature))
    tail = len(data) - sum(8 + len(content) for _, content in walk.items)
    if tail not in (0, 8):
        return False
    if tail:
        parts.put(tail, b"left over")
    return True


def parts_of(data, kind):
    """All parts of a file, or those up to the first fault and the rest."""
    parts = Parts(data)
    try:
        version, count = state.read_header(data, kind)
    except state.Fault:
        return parts.refuse()
    parts.put(state.HEADER_LENGTH, b"header")
    parts.declared = count
    rest, previous = data[state.HEADER_LENGTH:], None
    for place in range(count):
        try:
            previous, rest = put_entry(parts, rest, kind, version, place, previous)
        except Unreadable:
            return parts.refuse()
    length = ID_LENGTH[kind]
    is_crowded = count > state.most_entries(len(data), state.end_marker(data, kind), kind, version)
    if is_crowded or len(rest) < length or not put_extensions(parts, rest[:len(rest) - length], kind):
        return parts.refuse()
    trailer = data[-length:]
    if trailer not in (null_id(kind), digest(kind, data[:-length])):
        return parts.refuse()
    parts.put(length, b"trailer")
    return parts
