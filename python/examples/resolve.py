# SPDX-License-Identifier: MIT OR Apache-2.0
"""Lists the paths in conflict of an index, or resolves them in place, under its lock, by one side of the merge.

Usage: resolve.py sha1|sha256 INDEX [base|ours|theirs [PATH..]]

With a side, each PATH in conflict is staged as that side has it, or is removed if the side has none. Without a PATH
that is each path in conflict. The file in the work tree is unchanged. A line is printed for each path that is in
conflict or was resolved.
"""
import os
import sys

from gix_index import Flags, Index, Kind

if len(sys.argv) < 3:
    sys.exit(__doc__)
kind, file, *more = sys.argv[1:]
stage, asked = ("base", "ours", "theirs").index(more[0]) + 1 if more else 0, [os.fsencode(path) for path in more[1:]]
with Index.lock(file, Kind(kind)) as index:
    conflicts = [entry for entry in index if entry.stage and (not asked or entry.path in asked)]
    for path in dict.fromkeys(entry.path for entry in conflicts):
        sys.stdout.buffer.write(path + b"\n")
        if stage:
            index.unstage(path)
    if stage:
        sides = [entry for entry in conflicts if entry.stage == stage]
        index.stage(entry._replace(flags=entry.flags & ~Flags.STAGE_MASK) for entry in sides)
        index.commit()
