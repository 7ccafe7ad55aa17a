# SPDX-License-Identifier: MIT OR Apache-2.0
"""The line that names the licenses of a source, which each source of c/, rust/, python/ and tools/ begins with."""
from crates import TOP

LICENSES = "SPDX-License-Identifier: MIT OR Apache-2.0"
FOLDERS = ("c", "rust", "python", "tools")
# How a comment on a line of its own is written, by a file's ending. A file without one is a script.
COMMENTS = {
    ".c": "/* {} */", ".h": "/* {} */", ".map": "/* {} */", ".rs": "// {}", ".py": "# {}", ".pc": "# {}", "": "# {}",
}
MADE = {"target", "__pycache__"}
# (these are the licenses themselves)
TEXTS = {"LICENSE-MIT", "LICENSE-APACHE"}


def sources():
    """Yields the sources that begin with the line."""
    for folder in FOLDERS:
        for file in sorted((TOP / folder).rglob("*")):
            is_source = file.suffix in COMMENTS and file.name not in TEXTS
            if is_source and file.is_file() and not MADE & {*file.relative_to(TOP).parts}:
                yield file


def place_in(lines):
    """Returns the index of the line that names the licenses: the second of a script, else the first."""
    return 1 if lines and lines[0].startswith("#!") else 0


def line_of(file):
    """Returns the line for a file. The maps of tools/names have comments as scripts have."""
    is_script = file.suffix == ".map" and file.is_relative_to(TOP / "tools")
    return COMMENTS["" if is_script else file.suffix].format(LICENSES)


def lacking():
    """Yields the sources that don't begin with the line."""
    for file in sources():
        lines = file.read_text(encoding="utf-8").splitlines()
        at = place_in(lines)
        if lines[at:at + 1] != [line_of(file)]:
            yield file


def add():
    """Adds the line where it is lacking, and returns the files."""
    files = [*lacking()]
    for file in files:
        lines = file.read_text(encoding="utf-8").splitlines(keepends=True)
        lines.insert(place_in(lines), line_of(file) + "\n")
        file.write_text("".join(lines), encoding="utf-8")
    return files
