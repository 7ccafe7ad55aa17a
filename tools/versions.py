# SPDX-License-Identifier: MIT OR Apache-2.0
"""The version of this project, and the files that repeat it.

The file VERSION has a line each for the version, its date, and the version of the crate gix-index that is ported.
docs/words writes them into the files below, and `docs/words --check` holds these files to them.
"""
import collections
import re

from crates import TOP

Version = collections.namedtuple("Version", "version date upstream")
SHAPES = {"version": r"\d+\.\d+\.\d+", "date": r"\d{4}-\d\d-\d\d", "upstream": r"\d+\.\d+\.\d+"}


def read():
    """Returns what VERSION has, and ends this script if its lines have another shape."""
    text = (TOP / "VERSION").read_text(encoding="utf-8")
    found = re.fullmatch("".join(rf"{name} ({shape})\n" for name, shape in SHAPES.items()), text)
    if found is None:
        raise SystemExit(f"VERSION has other lines than {', '.join(SHAPES)}, or a number of another shape")
    return Version(*found.groups())


VERSION, DATE, UPSTREAM = read()
MAJOR, MINOR, PATCH = map(int, VERSION.split("."))
# What `index-tool --version` prints after the program's name.
SHOWN = f"{VERSION} (gix-index {UPSTREAM})"
# Each file that repeats the version: how a line begins, and how it goes on.
PLACES = {
    "c/gix_index.h": {
        "#define GIX_INDEX_VERSION ": f'"{VERSION}"',
        "#define GIX_INDEX_VERSION_MAJOR ": f"{MAJOR}",
        "#define GIX_INDEX_VERSION_MINOR ": f"{MINOR}",
        "#define GIX_INDEX_VERSION_PATCH ": f"{PATCH}",
        "#define GIX_INDEX_VERSION_NUMBER ": f"0x{MAJOR:02x}{MINOR:02x}{PATCH:02x}u /* the three, a byte each */",
        "#define GIX_INDEX_UPSTREAM_VERSION ": f'"{UPSTREAM}"',
    },
    "c/gix_index.pc": {"Version: ": VERSION, "upstream_version=": UPSTREAM},
    "crates/index_c/src/version.rt": {"pub const VERSION: u32 = ": f"0x{MAJOR:02x}_{MINOR:02x}_{PATCH:02x};"},
    "crates/tool_args/src/table.rt": {"const VERSION: &str = ": f'"{SHOWN}";'},
    "python/gix_index/_library.py": {"VERSION = ": f'"{VERSION}"', "UPSTREAM_VERSION = ": f'"{UPSTREAM}"'},
    "rust/Cargo.lock": {'version = "': f'{VERSION}"'},
    "rust/Cargo.toml": {"version = ": f'"{VERSION}"', "upstream = ": f'"gix-index {UPSTREAM}"'},
    "rust/src/lib.rs": {"pub const UPSTREAM_VERSION: &str = ": f'"{UPSTREAM}";'},
}


def versioned():
    """Yields each file that repeats the version, with the text that it has to have."""
    for name, lines in PLACES.items():
        text = (TOP / name).read_text(encoding="utf-8")
        for head, value in lines.items():
            text, count = re.subn(f"^{re.escape(head)}.*$", lambda _: head + value, text, flags=re.MULTILINE)
            if count != 1:
                raise SystemExit(f"VERSION: {name} has {count} lines that begin with {head!r}, and not one")
        yield TOP / name, text
