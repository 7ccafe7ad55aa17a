"""Entries of an index: their flags and modes, and how gitformat-index spells them."""

from dataclasses import dataclass, field
from typing import NamedTuple

from tests.model.bytes import ID_LENGTH, Unreadable, number, numbers, offset_number, take, up_to

# Flags as they stand in memory: the first word of a file below, what a program marks for itself above, and the second
# word of a file in the highest bits.
LENGTH_BITS = 0x0FFF
STAGE_BITS = 0x3000
EXTENDED = 0x4000
ASSUME_VALID = 0x8000
REMOVE = 1 << 17
UP_TO_DATE = 1 << 18
INTENT_TO_ADD = 1 << 29
SKIP_WORKTREE = 1 << 30
SECOND_WORD_BITS = (INTENT_TO_ADD | SKIP_WORKTREE) >> 16

DIRECTORY = 0o040000
FILE = 0o100644
EXECUTABLE = 0o100755
SYMLINK = 0o120000
SUBMODULE = 0o160000
MODE_BITS = DIRECTORY | FILE | EXECUTABLE | SYMLINK | SUBMODULE


class Stat(NamedTuple):
    """What an index keeps of a file, in the order of a file but for the mode."""

    ctime_seconds: int = 0
    ctime_nanoseconds: int = 0
    mtime_seconds: int = 0
    mtime_nanoseconds: int = 0
    dev: int = 0
    ino: int = 0
    uid: int = 0
    gid: int = 0
    size: int = 0


@dataclass
class Entry:
    """One record: a full path, and what is said of it."""

    path: bytes
    id: bytes
    mode: int = FILE
    flags: int = 0
    stat: Stat = field(default_factory=Stat)

    @property
    def stage(self):
        return stage_of(self.flags)

    @property
    def is_removed(self):
        return self.flags & REMOVE != 0

    @property
    def is_directory(self):
        return self.mode in (DIRECTORY, SUBMODULE)

    @property
    def key(self):
        """What entries are ordered by: the path as unsigned bytes, then the stage."""
        return self.path, self.stage


def stage_of(flags):
    return (flags & STAGE_BITS) >> 12


def flags_of_stage(stage):
    return stage << 12


def first_word(flags):
    """The bits of the first word of a file, without a length."""
    return flags & (STAGE_BITS | EXTENDED | ASSUME_VALID)


def second_word(flags):
    """The bits of the second word of a file."""
    return flags >> 16 & SECOND_WORD_BITS


def flags_of_second_word(word):
    return word << 16


def kept_flags(flags):
    """What is left of flags that are written and read again: of the second word only where the first says so."""
    kept = first_word(flags)
    if flags & EXTENDED:
        kept |= flags_of_second_word(second_word(flags))
    return kept


def kept_mode(mode):
    """The bits that a named mode has."""
    return mode & MODE_BITS


def read_fixed(data, kind):
    """All before the path: an entry without one, the length field, and what is left."""
    values, data = numbers(data, 4, 10)
    mode = values.pop(6)
    object_id, data = take(data, ID_LENGTH[kind])
    word, data = number(data, 2)
    flags = first_word(word)
    if word & EXTENDED:
        second, data = number(data, 2)
        if second & ~SECOND_WORD_BITS:
            raise Unreadable
        flags |= flags_of_second_word(second)
    return Entry(b"", object_id, kept_mode(mode), flags, Stat(*values)), word & LENGTH_BITS, data


def read_padded(data, kind):
    """An entry of versions 2 and 3. Its size is a multiple of eight, with one to eight bytes behind the path.

    A length field with all bits set says only that the path ends before the first NUL.
    """
    entry, length, rest = read_fixed(data, kind)
    if length < LENGTH_BITS:
        entry.path, rest = take(rest, length)
    else:
        entry.path, _ = up_to(rest, 0)
        _, rest = take(rest, len(entry.path))
    unpadded = len(data) - len(rest)
    _, rest = take(rest, 8 - unpadded % 8)
    return entry, rest


def read_compressed(data, kind, previous):
    """An entry of version 4. `previous` is the path of the entry before it, or None."""
    entry, _, data = read_fixed(data, kind)
    stripped, data = offset_number(data)
    tail, data = up_to(data, 0)
    entry.path = tail
    if previous is not None:
        if stripped > len(previous):
            raise Unreadable
        entry.path = previous[:len(previous) - stripped] + tail
    return entry, data


class EntryFault(Exception):
    """The entry at this place can't be read."""

    def __init__(self, place):
        super().__init__(place)
        self.place = place


def read_entries(data, kind, version, count):
    """So many entries, and what is left."""
    entries, previous = [], None
    for place in range(count):
        try:
            if version == 4:
                entry, data = read_compressed(data, kind, previous)
            else:
                entry, data = read_padded(data, kind)
        except Unreadable:
            raise EntryFault(place) from None
        entries.append(entry)
        previous = entry.path
    return entries, data
