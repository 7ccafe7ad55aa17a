# SPDX-License-Identifier: MIT OR Apache-2.0
"""Entries that are compared with the files of a work tree, by their stats."""
from __future__ import annotations

import ctypes
import os
import struct
from typing import Callable, Iterable, Iterator, List, Mapping, Optional, Set, Tuple, Union

from ._library import ROW, STAT, library
from ._rows import Rows
from ._values import NANOSECONDS, UINT32, Comparison, Flags, Kind, Mode, Stat

Seen = Union[os.stat_result, Stat]
Stats = Union[Callable[[bytes], Optional[Seen]], Mapping[bytes, Optional[Seen]], Iterable[Optional[Seen]]]
Look = Callable[[bytes], Optional[Seen]]
Source = Tuple[Optional[Look], List[Optional[Seen]]]

# What is used of each row: its stat as bytes, its mode and flags, and the range of its path.
_ROW = struct.Struct(f"{4 * len(STAT)}sII40xNN")
_ID = struct.Struct(f"{4 * len(STAT) + 16}x32s")
_STAT = struct.Struct(f"{len(STAT)}I")
assert _ROW.size == ROW.size
# The rest of a row that has a stat alone.
_REST = bytes(ROW.size - _STAT.size)
_NO_SIZE = bytes(4)
_IGNORED = int(Flags.ASSUME_VALID | Flags.SKIP_WORKTREE)
_STAGE, _INTENT = int(Flags.STAGE_MASK), int(Flags.INTENT_TO_ADD)
_SPECIAL = _IGNORED | _STAGE | _INTENT
_DIRECTORY, _COMMIT = int(Mode.DIRECTORY), int(Mode.COMMIT)


# ---- What gives the stats


def _of_mapping(stats: Mapping[bytes, Optional[Seen]]) -> Look:
    def look(path: bytes) -> Optional[Seen]:
        seen = stats.get(path)
        return stats.get(os.fsdecode(path)) if seen is None else seen  # type: ignore[call-overload]

    return look


def source_of(stats: Stats, count: int) -> Source:
    """Returns a function for the stat at a path, or a list of the stats of all entries. `count` is their number."""
    if isinstance(stats, Mapping):
        return _of_mapping(stats), []
    if callable(stats):
        return stats, []
    seen = list(stats)
    if len(seen) != count:
        raise ValueError(f"stats has {len(seen)} items, expected {count}, one for each entry")
    return None, seen


# ---- Comparisons


def _bytes_of(seen: Seen) -> bytes:
    """Returns a stat as a row has it, each number modulo 2 to the 32nd."""
    numbers = seen if isinstance(seen, Stat) else Stat.of(seen)
    return _STAT.pack(*(number & UINT32 for number in numbers))


def _is_settled(stat: bytes, seen: os.stat_result, before: int) -> bool:
    """Returns whether a file has each number of a stat, isn't empty, and was last changed before this second."""
    _, ino, dev, _, uid, gid, size, _, mtime, ctime = seen
    ctime_ns, mtime_ns = seen.st_ctime_ns - ctime * NANOSECONDS, seen.st_mtime_ns - mtime * NANOSECONDS
    try:
        numbers = _STAT.pack(ctime, ctime_ns, mtime, mtime_ns, dev, ino, uid, gid, size)
    except struct.error:
        return False
    return numbers == stat and mtime < before and size > 0


class Comparer:
    """Compares the rows of a table with stats. The options are those of `Mode.matching`."""

    def __init__(self, rows: Rows, kind: Kind, mtime_ns: int, comparison: Comparison, *options: bool) -> None:
        self._rows, self._paths = bytes(rows.rows), bytes(rows.paths)
        self._start = ctypes.cast(ctypes.c_char_p(self._rows), ctypes.c_void_p).value or 0
        self._time, self._told, self._options = divmod(mtime_ns, NANOSECONDS), comparison.told, options
        self._empty_id = kind.blob_id(b"").ljust(32, b"\0")
        #: the modes of entries and files that fit each other
        self._fitting: Set[Tuple[int, int]] = set()

    def changed(self, source: Source) -> Iterator[int]:
        """Yields the numbers of the rows whose files may have changed."""
        (look, given), usual = source, os.stat_result
        paths, fitting, (before, _) = self._paths, self._fitting, self._time
        for number, (stat, mode, flags, start, size) in enumerate(_ROW.iter_unpack(self._rows)):
            if flags & _SPECIAL or mode == _DIRECTORY:
                if flags & _STAGE or flags & _INTENT and not flags & _IGNORED:
                    yield number
                continue
            try:
                seen = look(paths[start : start + size]) if look else given[number]
            except (FileNotFoundError, NotADirectoryError):
                seen = None
            # (most files are as they were: this is the fastest way to see it)
            if type(seen) is usual and (mode, seen.st_mode) in fitting and _is_settled(stat, seen, before):
                continue
            if seen is None or not self._is_of_mode(mode, seen):
                yield number
            elif mode != _COMMIT and not self._is_unchanged(number, stat, seen):
                yield number

    def _is_of_mode(self, mode: int, seen: Seen) -> bool:
        """Returns whether a file has the mode of an entry. A `Stat` has no mode to compare."""
        if isinstance(seen, Stat):
            return True
        fits = Mode.of(seen) is not None and Mode.matching(mode, seen, *self._options) == mode
        if fits:
            self._fitting.add((mode, seen.st_mode))
        return fits

    def _is_unchanged(self, number: int, stat: bytes, seen: Seen) -> bool:
        """Returns whether the stat of a row proves that its file is unchanged."""
        row, by = self._start + number * ROW.size, ctypes.byref(self._told)
        if not library().gix_index_matches(row, _bytes_of(seen) + _REST, by):
            return False
        if library().gix_index_is_racy(row, *self._time, by):
            return False
        # (git writes the size 0 for a file that it has to read again)
        return not stat.endswith(_NO_SIZE) or _ID.unpack_from(self._rows, number * ROW.size) == (self._empty_id,)
