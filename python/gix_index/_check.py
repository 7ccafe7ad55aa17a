# SPDX-License-Identifier: MIT OR Apache-2.0
"""Checks an index, from bytes and from its path."""
from __future__ import annotations

import ctypes
from typing import Callable, Optional

from ._faults import Status, Text, by_kind, fault_of, file_path
from ._library import Bytes, Summary, at, library
from ._values import FilePath, Kind


def _check(path: Optional[FilePath], call: Callable[..., int]) -> None:
    text, said = Text(), Summary()
    status = call(text.room, len(text.room), ctypes.byref(said))
    if status != Status.DONE:
        raise fault_of(status, path, said, text.of(said))


def check(data: Bytes, kind: Optional[Kind] = None, shared: Optional[Bytes] = None) -> None:
    """Checks an index, given as all bytes of its file, or an index with the shared index that it links to.

    The entries have to increase strictly by path, then stage, and the cached tree has to be consistent. Otherwise it
    raises `Refused`. Without a kind, the hash algorithm is the one with which the bytes pass.
    """
    words = (at(data), len(data)) if shared is None else (at(data), len(data), at(shared), len(shared))
    call = library().gix_index_check if shared is None else library().gix_index_check_split
    by_kind(kind, lambda kind: _check(None, lambda *room: call(*words, kind.number, False, *room)))


def check_file(path: FilePath, kind: Optional[Kind] = None) -> None:
    """Checks the index at a path, as `index-tool check` does. A link to a shared index is followed."""
    name, call = file_path(path), library().gix_index_check_file
    by_kind(kind, lambda kind: _check(path, lambda *room: call(name, kind.number, *room)))
