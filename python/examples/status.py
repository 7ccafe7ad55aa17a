# SPDX-License-Identifier: MIT OR Apache-2.0
"""Prints which files of a work tree differ from its index, by their stats alone.

Usage: status.py sha1|sha256 FOLDER

FOLDER is the top of a work tree, and FOLDER/.git/index its index. For each entry whose file differs it prints a line: a
letter, a tab and the path without quotes.

- D: the file is missing.
- T: it is of another type.
- M: it changed, or its bit for execution.
- R: its stat is equal, but that proves nothing, so its contents have to be compared.
- A: it is only intended to be added.
- U: it is in conflict.

Submodules, directories of a sparse index, and entries that are assumed unchanged or skipped are ignored.
"""
import os
import sys

from gix_index import Flags, Index, Kind, Mode, Stat


def letter_of(entry):
    """Returns the letter of an entry that may have changed. A missing file is seen as a directory, which none is."""
    seen = os.lstat(entry.path if os.path.lexists(entry.path) else ".")
    mode = Mode.of(seen)
    cases = {
        b"U": entry.stage,
        b"D": mode == Mode.COMMIT,
        b"A": entry.flags & Flags.INTENT_TO_ADD,
        b"T": mode is None or (mode == Mode.LINK) != (entry.mode == Mode.LINK),
        b"M": mode != entry.mode or not entry.stat.matches(Stat.of(seen)),
    }
    return next((letter for letter, holds in cases.items() if holds), b"R")


_, kind, folder = sys.argv
os.chdir(folder)
entries = Index.open(".git/index", Kind(kind)).changed(os.lstat)
lines = (letter_of(entry) + b"\t" + entry.path + b"\n" for entry in entries if entry.mode != Mode.COMMIT)
sys.stdout.buffer.writelines(dict.fromkeys(lines))
