# SPDX-License-Identifier: MIT OR Apache-2.0
"""Prints the id that an index has staged at a path, or none.

Usage: sample.py INDEX PATH

The status is 1 where INDEX can't be read or is no such index, and for wrong words, with lines on standard error.
"""
import sys

from gix_index import Error, Index


def id_at(file, path):
    """The id that an index has staged at a path, if any."""
    entry = Index.open(file).find(path)
    return entry.id.hex() if entry else None


if len(sys.argv) != 3:
    sys.exit(__doc__)
try:
    print(id_at(*sys.argv[1:]) or "none")
except (Error, OSError) as error:
    sys.exit(f"sample: {sys.argv[1]}: {error}")
