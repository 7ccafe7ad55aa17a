# SPDX-License-Identifier: MIT OR Apache-2.0
"""A table of entries in the layout of C, with searches in it."""
from __future__ import annotations

import struct
from typing import Any, Iterable, Iterator, List, Optional, Tuple

from ._library import NUMBERS, ROW, STAT, at, library
from ._values import Entry, Stat, flags_of, mode_of

# Rows that are replaced: the number of the first one, the path and the stage of the row that replaces them, the number
# after the last one, and the new row, or no bytes.
Splice = Tuple[int, bytes, int, int, bytes]

# What an entry has of a row, without the stage and the number of the hash algorithm.
_ENTRY = struct.Struct(f"{len(STAT)}I2I8x32sNN")
_PATH = struct.Struct("NN")
# The flags among the numbers of 32 bits of a row.
_FLAGS = len(STAT) + 1
assert _ENTRY.size == ROW.size


def _entry(fields: Tuple[Any, ...], path: bytes, id_len: int) -> Entry:
    mode, flags, id = fields[len(STAT) : len(STAT) + 3]
    # (no value has to be converted or checked)
    stat = tuple.__new__(Stat, fields[: len(STAT)])
    return tuple.__new__(Entry, (path, id[:id_len], mode_of(mode), flags_of(flags), stat))


class Search:
    """Searches in a table. While it exists, the table can't grow or shrink."""

    def __init__(self, rows: Rows) -> None:
        self.rows, self._words, self._library = rows, rows.words, library()

    def least(self, path: bytes, stage: int = 0) -> int:
        """Returns the number of the first row that isn't less than a path and a stage."""
        return int(self._library.gix_index_lower_bound(*self._words, path, len(path), stage))

    def find(self, path: bytes, stage: int = 0) -> Optional[int]:
        """Returns the number of the row with a path and a stage, or None."""
        number = int(self._library.gix_index_find(*self._words, path, len(path), stage))
        return number if number < len(self.rows) else None

    def end_of(self, path: bytes, start: int) -> int:
        """Returns the end of the rows with a path, which begin at this number."""
        while self.rows.has_path(start, path):
            start += 1
        return start

    def range_of(self, path: bytes) -> Tuple[int, int]:
        """Returns the range of the rows with a path, at any stage."""
        start = self.least(path)
        return start, self.end_of(path, start)

    def below(self, path: bytes) -> Tuple[int, int]:
        """Returns the range of the rows below a path."""
        # (0 is the byte after the slash)
        return self.least(path + b"/"), self.least(path + b"0")


class Rows:
    """The rows of a table, and the paths in which each row has a range."""

    def __init__(self, rows: Optional[bytearray] = None, paths: Optional[bytearray] = None) -> None:
        self.rows = bytearray() if rows is None else rows
        self.paths = bytearray() if paths is None else paths

    def __len__(self) -> int:
        return len(self.rows) // ROW.size

    @property
    def words(self) -> Tuple[Any, ...]:
        """Returns the table as arguments of a call. While they exist, the table can't grow or shrink."""
        return (at(self.rows), len(self), at(self.paths), len(self.paths))

    # ---- Entries

    def entry(self, number: int, id_len: int) -> Entry:
        """Returns the entry of a row, with an id of this length."""
        fields = _ENTRY.unpack_from(self.rows, number * ROW.size)
        return _entry(fields, bytes(self.paths[fields[-2] : fields[-2] + fields[-1]]), id_len)

    def entries(self, id_len: int) -> Iterator[Entry]:
        """Yields the entries of all rows as they are now."""
        paths = bytes(self.paths)
        for fields in _ENTRY.iter_unpack(bytes(self.rows)):
            yield _entry(fields, paths[fields[-2] : fields[-2] + fields[-1]], id_len)

    def has_path(self, number: int, path: bytes) -> bool:
        """Returns whether there is a row with this number, and it has this path."""
        if number >= len(self):
            return False
        start, size = _PATH.unpack_from(self.rows, (number + 1) * ROW.size - _PATH.size)
        return size == len(path) and self.paths.startswith(path, start)

    def mode(self, number: int) -> int:
        """Returns the mode of a row."""
        return int(_ENTRY.unpack_from(self.rows, number * ROW.size)[len(STAT)])

    # ---- Changes

    def removed(self, start: int, end: int) -> bytes:
        """Returns the rows of a range, each marked as a path that is to be removed."""
        rows = bytearray(self.rows[start * ROW.size : end * ROW.size])
        with memoryview(rows) as view, view.cast("I") as numbers:
            for number in range(_FLAGS, len(numbers), ROW.size // numbers.itemsize):
                numbers[number] |= NUMBERS["GIX_INDEX_REMOVE"]
        return bytes(rows)

    def _joined(self, splices: List[Splice]) -> Tuple[int, bytes]:
        """Returns the end of the rows that splices in order change, and the rows that replace these."""
        last = splices[0][0]
        parts: List[Any] = []
        with memoryview(self.rows) as view:
            for start, _, _, end, row in splices:
                if start > last:
                    parts.append(view[last * ROW.size : start * ROW.size])
                if row:
                    parts.append(row)
                if end > last:
                    last = end
            return last, b"".join(parts)

    def splice(self, splices: Iterable[Splice]) -> int:
        """Replaces rows, and returns by how many rows the table grew. Ranges may overlap.

        After an exception the table is unchanged.
        """
        before, ordered = len(self), sorted(splices)
        if ordered:
            last, rows = self._joined(ordered)
            self.rows[ordered[0][0] * ROW.size : last * ROW.size] = rows
        return len(self) - before
