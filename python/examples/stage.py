# SPDX-License-Identifier: MIT OR Apache-2.0
"""Stages or unstages a path in place, under the lock of the index, as `git update-index` does.

Usage: stage.py sha1|sha256 INDEX PATH [ID]

PATH is relative to the top of the work tree, as git lists it. Run this program there. With ID, which `git hash-object
-w PATH` prints, the file there is staged with its mode and stat (or a submodule, at the commit ID). Entries in its way
are removed: a conflict, what is below PATH, or a file above it. Without ID, PATH is removed, and all that is below it;
the work tree is unchanged. A path in a directory of a sparse index is rejected.
"""
import os
import sys

from gix_index import Entry, Index, Kind

if len(sys.argv) not in (4, 5):
    sys.exit(__doc__)
kind, file, path, *ids = sys.argv[1:]
with Index.lock(file, Kind(kind), missing_ok=True) as index:
    if ids:
        index.stage(Entry.of(path, bytes.fromhex(ids[0]), os.lstat(path)))
    else:
        index.unstage(path, recursive=True)
    index.commit()
