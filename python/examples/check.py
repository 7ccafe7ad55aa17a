# SPDX-License-Identifier: MIT OR Apache-2.0
"""Checks an index as `index-tool check` does, with its link followed: its entries have to be in order, and its cached
tree has to hold together.

Usage: check.py sha1|sha256 FILE

It prints ok. The status is 1 where FILE can't be read or doesn't pass, and for wrong words, with lines on standard
error.
"""
import sys

from gix_index import Error, Kind, check_file

if len(sys.argv) != 3:
    sys.exit(__doc__)
try:
    check_file(sys.argv[2], Kind(sys.argv[1]))
except (Error, OSError) as error:
    sys.exit(f"check: {sys.argv[2]}: {error}")
print("ok")
