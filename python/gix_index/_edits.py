# SPDX-License-Identifier: MIT OR Apache-2.0
"""Entries that are staged: their checks, their rows, and what they replace in a table."""
from __future__ import annotations

import functools
import os
import struct
from operator import index, itemgetter
from typing import Any, Iterable, Iterator, List, NamedTuple, Sequence, Set, Tuple, Type, Union

from ._library import NUMBERS, ROW, STAT
from ._rows import Search, Splice
from ._values import UINT32, Entry, Flags, Kind, Mode

_REMOVE, _EXTENDED = NUMBERS["GIX_INDEX_REMOVE"], int(Flags.EXTENDED)
# The flags that a file has in the second word of an entry's flags.
_IN_SECOND_WORD = int(Flags.INTENT_TO_ADD | Flags.SKIP_WORKTREE)

# What is wrong with a value: the type of the exception, and its text.
Wrong = Tuple[Type[Exception], str]
# An entry that is staged: its path, its stage and its row, or no bytes if a later entry replaces it.
Staged = Tuple[bytes, int, bytes]


class Plan(NamedTuple):
    """What staging changes in a table."""

    splices: List[Splice]
    in_the_way: List[Tuple[int, int]]  #: the ranges of rows that are removed and have other paths
    rows: bytes  #: those that are added, in the order of the entries


# ---- Checks


def entries_in(arguments: Iterable[Union[Entry, Iterable[Entry]]]) -> List[Entry]:
    """Returns entries that are given one by one, or in lists or other iterables."""
    found: List[Entry] = []
    for each in arguments:
        if isinstance(each, Entry):
            found.append(each)
        elif isinstance(each, Iterable) and not isinstance(each, (str, bytes)):
            found.extend(each)
        else:
            raise TypeError(f"{each!r} is given, expected an Entry or an iterable of entries")
    return found


def _wrong_number(name: str, value: Any) -> Iterator[Wrong]:
    """Yields what is wrong with a number of 32 bits."""
    try:
        is_valid = 0 <= index(value) <= UINT32
    except TypeError:
        yield TypeError, f"{name} is {value!r}, expected an int"
    else:
        if not is_valid:
            yield ValueError, f"{name} is {value!r}, expected 0 to {UINT32}"


def _wrong_path(path: Any) -> Iterator[Wrong]:
    """Yields what is wrong with a path."""
    if not isinstance(path, (str, bytes, os.PathLike)):
        yield TypeError, f"path is {path!r}, expected bytes or a str"
    elif not path or b"\0" in os.fsencode(path):
        yield ValueError, f"path is {path!r}, expected at least one byte, and no NUL"


def _wrong_values(entry: Entry, kind: Kind) -> Iterator[Wrong]:
    """Yields what is wrong with the values of an entry, in their order."""
    path, id, mode, flags, stat = entry
    yield from _wrong_path(path)
    size = f"expected {kind.len_in_bytes} bytes, as {kind.value} has"
    if not isinstance(id, (bytes, bytearray)):
        yield TypeError, f"id is {id!r}, {size}"
    elif len(id) != kind.len_in_bytes:
        yield ValueError, f"id has {len(id)} bytes, {size}"
    yield from _wrong_number("mode", mode)
    yield from _wrong_number("flags", flags)
    if not isinstance(stat, tuple) or len(stat) != len(STAT):
        yield TypeError, f"stat is {stat!r}, expected a Stat: Stat.of makes one of the result of os.lstat"
    else:
        for name, number in zip(STAT, stat):
            yield from _wrong_number(f"stat.{name}", number)
    yield ValueError, f"flags is {flags:#x}, expected a value without {_REMOVE:#x}, which removes a path"


def _exception(number: int, entry: Any, kind: Kind) -> Exception:
    """Returns the exception for an entry that can't be staged. It has the entry's number in the list."""
    if not isinstance(entry, Entry):
        return TypeError(f"entry {number}: {entry!r} is given, expected an Entry")
    exception, text = next(_wrong_values(entry, kind))
    return exception(f"entry {number}, {entry.path!r}: {text}")


def packed(entries: Iterable[Entry], kind: Kind, start: int) -> Tuple[List[Staged], bytes]:
    """Returns entries as rows, and their paths joined. The first path has the offset `start`.

    Raises ValueError or TypeError for the first entry that has a value which no row has.
    """
    staged: List[Staged] = []
    id_len, id_kind, pack = kind.len_in_bytes, kind.number, ROW.pack
    for number, entry in enumerate(entries):
        try:
            name, id, mode, flags, stat = entry
            path = name if type(name) is bytes else os.fsencode(name)
            # (with 0 it is a plain int, of which operations are faster than of Flags)
            bits = index(flags) + 0
            if bits & _IN_SECOND_WORD:
                bits |= _EXTENDED
            stage = bits >> 12 & 3
            row = pack(*stat, mode, bits, stage, id_kind, id, start, len(path))
            is_valid = len(id) == id_len and path and b"\0" not in path and not bits & _REMOVE
        except (TypeError, ValueError, struct.error):
            is_valid = False
        if not is_valid or not isinstance(entry, Entry):
            raise _exception(number, entry, kind)
        staged.append((path, stage, row))
        start += len(path)
    return staged, b"".join([path for path, _, _ in staged])


# ---- What entries replace


@functools.lru_cache(maxsize=4096)
def _with_those_above(directory: bytes) -> Tuple[bytes, ...]:
    found = []
    while directory:
        found.append(directory)
        directory = directory.rpartition(b"/")[0]
    return tuple(found)


def _directories(path: bytes) -> Tuple[bytes, ...]:
    """Returns the directories above a path, the lowest first."""
    return _with_those_above(path.rpartition(b"/")[0])


def _ask_outside(search: Search, paths: Iterable[bytes]) -> None:
    """Raises a ValueError if a path is in a directory that a sparse index has as one entry."""
    seen: Set[bytes] = set()
    for path in paths:
        for directory in _directories(path):
            if directory in seen:
                break
            if len(directory) + 1 == len(path):
                continue
            seen.add(directory)
            number = search.find(directory + b"/")
            if number is not None and search.rows.mode(number) == Mode.DIRECTORY:
                text = f"is in {os.fsdecode(directory)}/, expected a path outside of the directories of a sparse index"
                raise ValueError(f"{os.fsdecode(path)} {text}")


def _are_apart(staged: Sequence[Staged]) -> bool:
    """Returns whether no entry is in conflict, or at the path of another one, or at a directory above another one."""
    files = {path for path, stage, _ in staged if not stage}
    directories = {path.rpartition(b"/")[0] for path in files}
    above = {each for directory in directories for each in _with_those_above(directory)}
    return len(files) == len(staged) and files.isdisjoint(above)


def _settled(staged: Sequence[Staged]) -> Sequence[Staged]:
    """Returns the entries in their order. Those that a later one replaces have no row."""
    if _are_apart(staged):
        return staged
    files: Set[bytes] = set()
    above: Set[bytes] = set()
    sides: Set[Tuple[bytes, int]] = set()
    settled = []
    for each in reversed(staged):
        path, stage, _ = each
        directories = _directories(path)
        is_replaced = path in files or path in above or not files.isdisjoint(directories)
        if is_replaced or stage and (path, stage) in sides:
            each = (path, stage, b"")
        settled.append(each)
        if stage:
            sides.add((path, stage))
        else:
            files.add(path)
            above.update(directories)
    settled.reverse()
    return settled


def to_remove(search: Search, path: bytes, is_recursive: bool) -> List[Tuple[int, int]]:
    """Returns the ranges of the rows at a path, or also below it."""
    _ask_outside(search, [path])
    return [search.range_of(path), search.below(path)] if is_recursive else [search.range_of(path)]


def planned(search: Search, staged: Sequence[Staged]) -> Plan:
    """Returns what staging these entries one after the other changes in a table."""
    settled = _settled(staged)
    added = b"".join([row for _, _, row in settled])
    if not len(search.rows):
        ordered = sorted(sorted(settled, key=itemgetter(1)), key=itemgetter(0))
        return Plan([(0, b"", 0, 0, b"".join([row for _, _, row in ordered]))], [], added)
    _ask_outside(search, [path for path, _, _ in staged])
    above: Set[bytes] = set()
    splices, in_the_way = [], []
    for path, stage, row in settled:
        start = search.least(path, stage)
        if stage:
            splices.append((start, path, stage, start + (search.find(path, stage) is not None), row))
            continue
        end = search.end_of(path, start)
        if end < search.least(path + b"0"):
            in_the_way.append(search.below(path))
        splices.append((start, path, stage, end, row))
        for directory in _directories(path):
            if directory in above:
                break
            above.add(directory)
            in_the_way.append(search.range_of(directory))
    in_the_way = [(start, end) for start, end in in_the_way if start < end]
    return Plan(splices + [(start, b"", 0, end, b"") for start, end in in_the_way], in_the_way, added)
