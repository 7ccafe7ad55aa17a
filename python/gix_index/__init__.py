# SPDX-License-Identifier: MIT OR Apache-2.0
"""The git index: reads, searches, changes and writes its entries by functions that are proved to meet their contracts.

`Index` is a copy of the entries of an index file that owns its memory. This module calls the shared library that
`c/install PREFIX` builds. The module itself is only tested. It needs Python 3.8 or later, and no other package.

    from gix_index import Index

    with Index.lock(".git/index") as index:
        index.unstage("README")
        index.commit()

`Index.stage` adds one entry or many. `Index.changed(os.lstat)` returns the entries whose files may have changed.
`Index.write_trees` returns the objects that `git write-tree` makes of the entries, with the root as the last.

The index that is replaced is the one that was read under the lock, so no change by git is lost. Version 4 and all
extensions are preserved as git preserves them. A split index becomes a complete one.

Paths of entries are bytes, relative to the top of the work tree, with slashes. A call that takes a path also takes a
str, as `os.fsencode` encodes it.

The shared library has the major version of the module, and at least its minor version. It is searched for in this
order:

- in the directory that GIX_INDEX_LIB names,
- in this directory and in each directory above it,
- as the system's loader finds it.
"""
from ._check import check, check_file
from ._index import Index, Locked
from ._library import NUMBERS, UPSTREAM_VERSION, VERSION
from ._values import Comparison, Entry, Error, Flags, Kind, Mode, Refused, Stat

__all__ = [
    "NUMBERS", "UPSTREAM_VERSION", "Comparison", "Entry", "Error", "Flags", "Index", "Kind", "Locked", "Mode",
    "Refused", "Stat", "check", "check_file"
]
__version__ = VERSION
