# SPDX-License-Identifier: MIT OR Apache-2.0
"""The exceptions for the statuses of calls, and how a hash algorithm is found."""
from __future__ import annotations

import ctypes
import enum
import errno
import os
from typing import Any, Callable, Dict, Optional, TypeVar, Union

from ._library import NUMBERS, Given, Summary, Written
from ._values import FilePath, Kind, Refused

_T = TypeVar("_T")


class Status(enum.IntEnum):
    """The statuses of calls."""

    DONE = NUMBERS["GIX_INDEX_DONE"]
    REFUSED = NUMBERS["GIX_INDEX_REFUSED"]
    MEMORY = NUMBERS["GIX_INDEX_MEMORY"]
    NO_ROOM = NUMBERS["GIX_INDEX_NO_ROOM"]
    WRONG_NUMBER = NUMBERS["GIX_INDEX_WRONG_NUMBER"]
    NONE = NUMBERS["GIX_INDEX_NONE"]
    SYSTEM = NUMBERS["GIX_INDEX_SYSTEM"]
    NOT_REGULAR = NUMBERS["GIX_INDEX_NOT_REGULAR"]


def file_path(path: FilePath) -> bytes:
    """Returns a path as C takes it."""
    name = os.fsencode(path)
    if b"\0" in name:
        raise ValueError("embedded null byte")
    return name


class Text:
    """Memory for the message of an error."""

    def __init__(self) -> None:
        self.room = ctypes.create_string_buffer(8192)

    def of(self, said: Summary) -> str:
        """Returns the message that was written."""
        return self.room.raw[: said.text_bytes].decode(errors="replace")


def fault_of(status: int, path: Optional[FilePath], said: Any, text: str) -> Exception:
    """Returns the exception for a status other than success. For an error of the system it has errno."""
    of_shared = bool(getattr(said, "of_shared", 0))
    if status == Status.MEMORY:
        return MemoryError("out of memory for an index")
    if status == Status.SYSTEM:
        number = ctypes.get_errno()
        return OSError(number, f"{'Its shared index: ' if of_shared else ''}{os.strerror(number)}", path)
    if status == Status.NOT_REGULAR:
        return OSError(errno.EINVAL, "It is no regular file, and isn't replaced", path)
    return Refused(text, said.fault, said.fault_place, of_shared)


_WHY_UNWRITTEN = {
    "GIX_INDEX_FAULT_ORDER": "entry {} isn't above the one before it, by path and stage",
    "GIX_INDEX_FAULT_ROW": "entry {} can't be written: its path, its id or its stage is at fault",
    "GIX_INDEX_FAULT_MODE": "entry {} can't be written: its mode is none that git has",
    "GIX_INDEX_FAULT_NAME": "change {} is refused: git lets no such name stand in its path",
    "GIX_INDEX_FAULT_COUNT": "the index has more entries than the 4294967295 that a file can count",
    "GIX_INDEX_FAULT_LENGTH": "the index would take more bytes than the 4294967295 that a file can have",
}

_WHY_NO_TREES = {
    "GIX_INDEX_FAULT_ORDER": "entry {} isn't above the one before it, by path and stage",
    "GIX_INDEX_FAULT_ROW": "entry {} can't stand in a tree: its path or its id is at fault",
    "GIX_INDEX_FAULT_MODE": "entry {} can't stand in a tree: its mode is none that git has",
    "GIX_INDEX_FAULT_NAME": "entry {} can't stand in a tree: git lets no such name stand in its path",
    "GIX_INDEX_FAULT_UNMERGED": "entry {} is in conflict",
    "GIX_INDEX_FAULT_BELOW": "entry {} lies below another entry's path, which is no directory, or stands whole",
    "GIX_INDEX_FAULT_COUNT": "the index has more entries than the 2147483647 of which trees are made",
}


def _why(texts: Dict[str, str], told: Union[Given, Written]) -> str:
    found = (text for name, text in texts.items() if NUMBERS[name] == told.fault)
    return next(found, "the index that is changed is refused").format(told.fault_place)


def raise_unwritten(status: int, told: Written, path: Optional[FilePath] = None) -> None:
    """Raises an exception if a table wasn't written."""
    if status == Status.WRONG_NUMBER:
        raise ValueError("the version of an index is 2, 3 or 4")
    if status != Status.DONE:
        raise fault_of(status, path, told, _why(_WHY_UNWRITTEN, told))


def raise_ungiven(status: int, told: Given) -> None:
    """Raises an exception if no trees were returned."""
    if status != Status.DONE:
        raise fault_of(status, None, told, _why(_WHY_NO_TREES, told))


def by_kind(kind: Optional[Kind], call: Callable[[Kind], _T]) -> _T:
    """Returns the result of a call with a hash algorithm. Without one, tries SHA-1 and then SHA-256.

    If both are rejected, the exception is that of the algorithm with which the digest of the bytes matches, if there is
    one.
    """
    if kind is not None:
        return call(kind)
    try:
        return call(Kind.SHA1)
    except Refused as first:
        try:
            return call(Kind.SHA256)
        except Refused as second:
            digest = NUMBERS["GIX_INDEX_FAULT_DIGEST"]
            raise (second if first.fault == digest != second.fault else first) from None
