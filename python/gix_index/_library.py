# SPDX-License-Identifier: MIT OR Apache-2.0
"""The shared library: the numbers, structures and calls of its headers, by their names there."""
from __future__ import annotations

import ctypes
import functools
import os
import struct
from typing import Any, Iterator, Optional, Union

VERSION = "1.0.0"
UPSTREAM_VERSION = "0.55.0"

# The numbers of the headers in C, by their names there.
NUMBERS = {
    "GIX_INDEX_DONE": 0,
    "GIX_INDEX_REFUSED": 1,
    "GIX_INDEX_MEMORY": 2,
    "GIX_INDEX_NO_ROOM": 3,
    "GIX_INDEX_WRONG_NUMBER": 4,
    "GIX_INDEX_NONE": 5,
    "GIX_INDEX_SYSTEM": 6,
    "GIX_INDEX_NOT_REGULAR": 7,
    "GIX_INDEX_STOPPED": 8,
    "GIX_INDEX_SHA1": 1,
    "GIX_INDEX_SHA256": 2,
    "GIX_INDEX_UNCONFLICTED": 0,
    "GIX_INDEX_BASE": 1,
    "GIX_INDEX_OURS": 2,
    "GIX_INDEX_THEIRS": 3,
    "GIX_INDEX_DIRECTORY": 0o040000,
    "GIX_INDEX_FILE": 0o100644,
    "GIX_INDEX_EXECUTABLE": 0o100755,
    "GIX_INDEX_LINK": 0o120000,
    "GIX_INDEX_COMMIT": 0o160000,
    "GIX_INDEX_STAGE_MASK": 0x3000,
    "GIX_INDEX_EXTENDED": 0x4000,
    "GIX_INDEX_ASSUME_VALID": 0x8000,
    "GIX_INDEX_REMOVE": 0x20000,
    "GIX_INDEX_INTENT_TO_ADD": 0x20000000,
    "GIX_INDEX_SKIP_WORKTREE": 0x40000000,
    "GIX_INDEX_FAULT_HEADER": 1,
    "GIX_INDEX_FAULT_VERSION": 2,
    "GIX_INDEX_FAULT_LIMIT": 3,
    "GIX_INDEX_FAULT_ENTRY": 4,
    "GIX_INDEX_FAULT_EXTENSION": 5,
    "GIX_INDEX_FAULT_LINK": 6,
    "GIX_INDEX_FAULT_TRAILER": 7,
    "GIX_INDEX_FAULT_DIGEST": 8,
    "GIX_INDEX_FAULT_ORDER": 10,
    "GIX_INDEX_FAULT_CACHED_TREE": 11,
    "GIX_INDEX_FAULT_ROW": 12,
    "GIX_INDEX_FAULT_COUNT": 13,
    "GIX_INDEX_FAULT_LENGTH": 14,
    "GIX_INDEX_FAULT_MODE": 15,
    "GIX_INDEX_FAULT_NAME": 16,
    "GIX_INDEX_FAULT_UNMERGED": 17,
    "GIX_INDEX_FAULT_BELOW": 18,
}

Bytes = Union[bytes, bytearray, memoryview]


# The numbers of a row in their order: those of a stat, and others.
STAT = ("ctime_secs", "ctime_nsecs", "mtime_secs", "mtime_nsecs", "dev", "ino", "uid", "gid", "size")
MARKS = ("mode", "flags", "stage", "kind")


class Row(ctypes.Structure):
    """gix_index_row."""

    _fields_ = [
        *((name, ctypes.c_uint32) for name in (*STAT, *MARKS)),
        ("id", ctypes.c_uint8 * 32),
        ("path_start", ctypes.c_size_t),
        ("path_len", ctypes.c_size_t),
    ]


class Summary(ctypes.Structure):
    """gix_index_summary."""

    _fields_ = [
        *((name, ctypes.c_size_t) for name in ("entries", "path_bytes", "text_bytes", "fault_place")),
        *((name, ctypes.c_uint32) for name in ("fault", "version", "has_link", "of_shared")),
        ("shared_id", ctypes.c_uint8 * 32),
    ]


class Places(ctypes.Structure):
    """gix_index_places."""

    _fields_ = [("start", ctypes.c_size_t), ("end", ctypes.c_size_t)]


class Form(ctypes.Structure):
    """gix_index_form."""

    _fields_ = [("kind", ctypes.c_uint32), ("version", ctypes.c_uint32), ("skip_hash", ctypes.c_bool)]


class Written(ctypes.Structure):
    """gix_index_written."""

    _fields_ = [
        *((name, ctypes.c_size_t) for name in ("bytes", "fault_place")),
        *((name, ctypes.c_uint32) for name in ("fault", "version", "tree", "of_shared")),
    ]


class Tree(ctypes.Structure):
    """gix_index_tree."""

    _fields_ = [("id", ctypes.c_uint8 * 32), ("start", ctypes.c_size_t), ("len", ctypes.c_size_t)]


class Given(ctypes.Structure):
    """gix_index_given."""

    _fields_ = [
        *((name, ctypes.c_size_t) for name in ("trees", "bytes", "fault_place")),
        ("fault", ctypes.c_uint32),
    ]


class Comparison(ctypes.Structure):
    """gix_index_comparison."""

    _fields_ = [(name, ctypes.c_bool) for name in ("trust_ctime", "check_stat", "use_nsec", "use_stdev")]


class Seen(ctypes.Structure):
    """gix_index_seen."""

    _fields_ = [
        (name, ctypes.c_bool)
        for name in ("is_file", "is_dir", "is_symlink", "is_executable", "has_symlinks", "executable_bit")
    ]


class Time(ctypes.Structure):
    """The system's timespec."""

    _fields_ = [("tv_sec", ctypes.c_long), ("tv_nsec", ctypes.c_long)]


class Table(ctypes.Structure):
    """gix_index_table."""

    _fields_ = [
        *((name, ctypes.c_void_p) for name in ("rows", "paths", "bytes")),
        ("bytes_len", ctypes.c_size_t),
        ("mtime", Time),
        ("said", Summary),
    ]


class Lock(ctypes.Structure):
    """gix_index_lock."""

    _fields_ = [
        ("path", ctypes.c_char_p),
        ("lock_path", ctypes.c_char_p),
        ("file", ctypes.c_int),
        ("is_held", ctypes.c_bool),
        ("mode", ctypes.c_uint32),
        ("mtime", Time),
    ]


# A row as bytes, by the order of the structure's fields.
ROW = struct.Struct("13I32sNN")
assert ROW.size == ctypes.sizeof(Row)

_AT, _LEN, _U32, _BOOL = ctypes.c_void_p, ctypes.c_size_t, ctypes.c_uint32, ctypes.c_bool
_ROWS = (_AT, _LEN, _AT, _LEN)
# The result and the arguments of each call.
CALLS = {
    "gix_index_version": (_U32,),
    "gix_index_read": (_U32, _AT, _LEN, _U32, _BOOL, *_ROWS, _AT, _LEN, _AT),
    "gix_index_read_split": (_U32, _AT, _LEN, _AT, _LEN, _U32, _BOOL, *_ROWS, _AT, _LEN, _AT),
    "gix_index_check": (_U32, _AT, _LEN, _U32, _BOOL, _AT, _LEN, _AT),
    "gix_index_check_split": (_U32, _AT, _LEN, _AT, _LEN, _U32, _BOOL, _AT, _LEN, _AT),
    "gix_index_find": (_LEN, *_ROWS, _AT, _LEN, _U32),
    "gix_index_lower_bound": (_LEN, *_ROWS, _AT, _LEN, _U32),
    "gix_index_matches": (_BOOL, _AT, _AT, _AT),
    "gix_index_is_racy": (_BOOL, _AT, ctypes.c_int64, _U32, _AT),
    "gix_index_mode_for": (_U32, _U32, _AT),
    "gix_index_blob_id": (_U32, _U32, _AT, _LEN, _AT),
    "gix_index_find_prefix": (_U32, *_ROWS, _AT, _LEN, _AT),
    "gix_index_closest": (_LEN, *_ROWS, _AT, _LEN),
    "gix_index_closest_icase": (_LEN, *_ROWS, _AT, _LEN),
    "gix_index_write": (_U32, *_ROWS, _AT, _AT, _LEN, _AT),
    "gix_index_write_over": (_U32, *_ROWS, _AT, _LEN, _AT, _AT, _LEN, _AT),
    "gix_index_update": (_U32, *_ROWS, _AT, _LEN, _AT, _LEN, _U32, _AT, _LEN, _AT),
    "gix_index_trees": (_U32, *_ROWS, _U32, _AT, _LEN, _AT, _LEN, _AT),
    "gix_index_read_file": (_U32, _AT, _U32, _AT, _LEN, _AT),
    "gix_index_check_file": (_U32, _AT, _U32, _AT, _LEN, _AT),
    "gix_index_drop_table": (None, _AT),
    "gix_index_lock_file": (_U32, _AT, _AT),
    "gix_index_rollback": (None, _AT),
    "gix_index_commit": (_U32, _AT, _AT, _AT, _BOOL, _AT),
    "gix_index_commit_changes": (_U32, _AT, _U32, *_ROWS, _BOOL, _AT),
}


def _folders() -> Iterator[str]:
    """Yields the directories in which the library is searched for."""
    asked = os.environ.get("GIX_INDEX_LIB")
    if asked:
        yield asked
        return
    folder, before = os.path.dirname(os.path.realpath(__file__)), ""
    while folder != before:
        yield folder
        folder, before = os.path.dirname(folder), folder


@functools.lru_cache(maxsize=None)
def library() -> ctypes.CDLL:
    """Returns the shared library. Its calls preserve errno."""
    major, minor, patch = map(int, VERSION.split("."))
    name = f"libgix_index.so.{major}"
    there = next(filter(os.path.isfile, (os.path.join(folder, name) for folder in _folders())), name)
    try:
        loaded = ctypes.CDLL(there, use_errno=True)
    except OSError as error:
        what = f"{error}: `c/install PREFIX` builds it, and GIX_INDEX_LIB may name its folder, PREFIX/lib"
        raise ImportError(what, name="gix_index") from error
    # (each later minor version has the same calls and structures)
    number = loaded.gix_index_version()
    if number >> 16 != major or number < major << 16 | minor << 8 | patch:
        what = f"{there} has version {number >> 16}.{number >> 8 & 255}.{number & 255}, and {VERSION} or later is needed"
        raise ImportError(f"{what}: `c/install PREFIX` builds it", name="gix_index")
    for call, (answer, *words) in CALLS.items():
        function = getattr(loaded, call)
        function.restype, function.argtypes = answer, words
    return loaded


def at(data: Bytes) -> Any:
    """Returns a pointer to bytes as an argument, whose length is another argument. C can write to a bytearray."""
    if isinstance(data, bytearray):
        return ctypes.byref(ctypes.c_char.from_buffer(data)) if data else None
    return bytes(data)


def bytes_at(address: Optional[int], size: int) -> bytes:
    """Returns the bytes at an address in the library's memory. The address is None if there are none."""
    return ctypes.string_at(address, size) if address and size else b""
