# SPDX-License-Identifier: MIT OR Apache-2.0
"""Hash algorithms, modes, flags, stats, entries and exceptions."""
from __future__ import annotations

import ctypes
import enum
import os
import stat
from typing import TYPE_CHECKING, Dict, NamedTuple, Optional, Union, cast

from ._library import NUMBERS, Row, Seen, library
from ._library import Comparison as _Comparison

Path = Union[str, bytes]
FilePath = Union[str, bytes, "os.PathLike[str]", "os.PathLike[bytes]"]
UINT32 = 0xFFFFFFFF
NANOSECONDS = 1_000_000_000


class Kind(enum.Enum):
    """The hash algorithm of a repository's ids."""

    SHA1 = "sha1"
    SHA256 = "sha256"

    @property
    def len_in_bytes(self) -> int:
        """Returns the number of bytes of an id."""
        return 20 if self is Kind.SHA1 else 32

    @property
    def number(self) -> int:
        """Returns the number that the library has for the hash algorithm."""
        return NUMBERS[f"GIX_INDEX_{self.name}"]

    def blob_id(self, data: bytes) -> bytes:
        """Returns the id that git has for a file with these bytes. The caller applies filters."""
        id = (ctypes.c_uint8 * 32)()
        library().gix_index_blob_id(self.number, data, len(data), id)
        return bytes(id)[: self.len_in_bytes]


class Mode(enum.IntEnum):
    """The mode of an entry's file: its type, and whether its owner may run it."""

    DIRECTORY = NUMBERS["GIX_INDEX_DIRECTORY"]  #: a directory of a sparse index
    FILE = NUMBERS["GIX_INDEX_FILE"]
    EXECUTABLE = NUMBERS["GIX_INDEX_EXECUTABLE"]
    LINK = NUMBERS["GIX_INDEX_LINK"]
    COMMIT = NUMBERS["GIX_INDEX_COMMIT"]  #: a submodule

    @classmethod
    def of(cls, seen: os.stat_result) -> Optional[Mode]:
        """Returns the mode of an entry for the result of `os.lstat`. A directory gets that of a submodule.

        Returns None for a device, a fifo or a socket.
        """
        if stat.S_ISREG(seen.st_mode):
            return cls.EXECUTABLE if seen.st_mode & stat.S_IXUSR else cls.FILE
        return cls.LINK if stat.S_ISLNK(seen.st_mode) else cls.COMMIT if stat.S_ISDIR(seen.st_mode) else None

    @staticmethod
    def matching(mode: int, seen: os.stat_result, has_symlinks: bool = True, executable_bit: bool = True) -> Mode:
        """Returns the mode that an entry has to get to match the result of `os.lstat`. It is its own if they match.

        Without has_symlinks a file counts as a link. Without executable_bit a file's mode is unchanged. These are git's
        `core.symlinks` and `core.fileMode`.
        """
        kinds = (stat.S_ISREG(seen.st_mode), stat.S_ISDIR(seen.st_mode), stat.S_ISLNK(seen.st_mode))
        # (a link has all bits)
        is_executable = kinds[0] and bool(seen.st_mode & stat.S_IXUSR)
        file = Seen(*kinds, is_executable, has_symlinks, executable_bit)
        return mode_of(library().gix_index_mode_for(mode, ctypes.byref(file)))


class Flags(enum.IntFlag):
    """The flags of an entry. The bits of STAGE_MASK are its stage.

    An entry with INTENT_TO_ADD or SKIP_WORKTREE also has EXTENDED. `Index.stage` sets it.
    """

    STAGE_MASK = NUMBERS["GIX_INDEX_STAGE_MASK"]
    EXTENDED = NUMBERS["GIX_INDEX_EXTENDED"]  #: the file has a second word of flags of the entry
    ASSUME_VALID = NUMBERS["GIX_INDEX_ASSUME_VALID"]  #: the file is taken for unchanged
    INTENT_TO_ADD = NUMBERS["GIX_INDEX_INTENT_TO_ADD"]  #: the path is to be added later
    SKIP_WORKTREE = NUMBERS["GIX_INDEX_SKIP_WORKTREE"]  #: the file isn't wanted in the work tree


_MODES = {int(mode): mode for mode in Mode}
_FLAGS: Dict[int, Flags] = {}


def mode_of(number: int) -> Mode:
    """Returns the mode with this number. What isn't the number of a mode is returned as it is."""
    return cast(Mode, _MODES.get(number, number))


def flags_of(number: int) -> Flags:
    """Returns the flags with this number. What isn't a number of 32 bits is returned as it is."""
    found = _FLAGS.get(number)
    if found is not None:
        return found
    if not isinstance(number, int) or not 0 <= number <= UINT32:
        return cast(Flags, number)
    return _FLAGS.setdefault(int(number), Flags(number))


class Comparison(NamedTuple):
    """Which numbers of a stat are compared in addition to the last change and the size. The default is git's.

    They are git's `core.trustctime` and `core.checkStat`.
    """

    trust_ctime: bool = True  #: the ctime is
    check_stat: bool = True  #: inode, owner and group are
    use_nsec: bool = False  #: nanoseconds are, with check_stat
    use_stdev: bool = False  #: the device is, with check_stat

    @property
    def told(self) -> _Comparison:
        """Returns the library's structure."""
        return _Comparison(*self)


BY_DEFAULT = Comparison()


class Stat(NamedTuple):
    """The stat of an entry's file, with the 32 bits of each number that an index stores."""

    ctime_secs: int = 0  #: when the file's own data changed last, in seconds since the begin of 1970
    ctime_nsecs: int = 0
    mtime_secs: int = 0  #: when its contents changed last
    mtime_nsecs: int = 0
    dev: int = 0
    ino: int = 0
    uid: int = 0
    gid: int = 0
    size: int = 0

    @classmethod
    def of(cls, seen: os.stat_result) -> Stat:
        """Returns the stat for the result of `os.lstat`, each number modulo 2 to the 32nd."""
        times = (*divmod(seen.st_ctime_ns, NANOSECONDS), *divmod(seen.st_mtime_ns, NANOSECONDS))
        numbers = (*times, seen.st_dev, seen.st_ino, seen.st_uid, seen.st_gid, seen.st_size)
        return cls(*(number & UINT32 for number in numbers))

    def matches(self, seen: Stat, comparison: Comparison = BY_DEFAULT) -> bool:
        """Returns whether a file with the stat `seen` counts as unchanged, by the numbers that are compared.

        A file as new as its index may have changed all the same: see `is_racy`.
        """
        rows = (ctypes.byref(Row(*self)), ctypes.byref(Row(*seen)))
        return bool(library().gix_index_matches(*rows, ctypes.byref(comparison.told)))

    def is_racy(self, mtime_ns: int, comparison: Comparison = BY_DEFAULT) -> bool:
        """Returns whether the file may have changed when an index with this time was written, or later.

        Then its stat proves nothing. The time is `Index.mtime_ns`.
        """
        time = divmod(mtime_ns, NANOSECONDS)
        return bool(library().gix_index_is_racy(ctypes.byref(Row(*self)), *time, ctypes.byref(comparison.told)))


class _Entry(NamedTuple):
    path: bytes
    id: bytes  #: of the object that holds the contents: 20 or 32 bytes
    mode: Mode
    flags: Flags  #: the stage among them, and others that are only in memory
    stat: Stat


class Entry(_Entry):
    """An entry of an index. A path that is a str is encoded as by `os.fsencode`.

    A mode that git doesn't have stays an int.
    """

    __slots__ = ()

    def __new__(
        cls, path: Path, id: bytes, mode: int = Mode.FILE, flags: int = Flags(0), stat: Stat = Stat()
    ) -> Entry:
        name = path if isinstance(path, bytes) else os.fsencode(path)
        return tuple.__new__(cls, (name, id, mode_of(mode), flags_of(flags), stat))

    if TYPE_CHECKING:
        # (the strict rules of mypy allow `path in index` only if entries have this method)
        def __eq__(self, other: object) -> bool: ...

    @property
    def stage(self) -> int:
        """Returns 0, or in a conflict 1 for the common ancestor, 2 for our side, 3 for theirs."""
        return self.flags >> 12 & 3

    @classmethod
    def of(cls, path: Path, id: bytes, seen: os.stat_result) -> Entry:
        """Returns the entry of an existing file, link or submodule, for the result of `os.lstat`."""
        mode = Mode.of(seen)
        if mode is None:
            raise ValueError(f"{os.fsdecode(path)} is a device, a fifo or a socket, which no index has")
        return cls(path, id, mode, 0, Stat.of(seen))


class Error(Exception):
    """Why an index isn't read or written, if the reason is neither an OSError nor a MemoryError."""


class Refused(Error, ValueError):
    """The bytes are no index, are damaged, or fail a check; or entries can't be written."""

    def __init__(self, text: str, fault: int, place: int, of_shared: bool = False) -> None:
        super().__init__(f"its shared index: {text}" if of_shared else text)
        self.fault = fault  #: one of the numbers GIX_INDEX_FAULT_ of `NUMBERS`
        self.place = place  #: the entry that the fault names, counted from 0, or 0
        self.of_shared = of_shared  #: whether the bytes of the shared index are at fault
