# SPDX-License-Identifier: MIT OR Apache-2.0
"""Lists the entries of an index as `git ls-files -s` does, with paths as they are. A link is followed.

Usage: list.py sha1|sha256 FILE

The status is 1 where FILE can't be read or is no such index, and for wrong words, with lines on standard error.
"""
import sys

from gix_index import Error, Index, Kind

if len(sys.argv) != 3:
    sys.exit(__doc__)
try:
    index = Index.open(sys.argv[2], Kind(sys.argv[1]))
except (Error, OSError) as error:
    sys.exit(f"list: {sys.argv[2]}: {error}")
for entry in index:
    line = (entry.mode, entry.id.hex().encode(), entry.stage, entry.path)
    sys.stdout.buffer.write(b"%06o %s %d\t%s\n" % line)
