# SPDX-License-Identifier: MIT OR Apache-2.0
"""Finds the paths and names in the documents that don't exist in the repository.

A path in backquotes is looked at where it begins with a folder of the repository, with the name of a crate, or with
src/, specs/ or proofs/, which are those of the crates that the same item of a list names, or of the README's own crate.
Its ending may be left out. A step in capitals, as in `refusals/CRATE/`, stands for any name. In docs/CHANGING.md each
file that is named by itself is looked at too, and each name is to stand somewhere in the sources.
"""
import functools
import re

from crates import TOP, listed, made_of

CRATES = tuple(listed())
FOLDERS = ("bench", "c", "crates", "docs", "python", "refusals", "rust", "tests", "tools")
PARTS = ("src", "specs", "proofs")
SCRIPTS = ("tests", "tests/model", "python/gix_index", "rust/src", "c", "tools", "refusals")
ENDINGS = ("", ".rt", ".antt", ".edit", ".py", ".md")
QUOTED = re.compile(r"`([^`]+)`")
ITEM = re.compile(r"\n(?=\s*\n|#|(?:[-*]|\d+\.) |\| )")
PATH = re.compile(r"[\w.*+-]+(?:/[\w.*+<>-]+)+/?")
FILE = re.compile(r"[\w-]+\.(?:rt|antt|edit|py|rows)")
NAME = re.compile(r"[A-Za-z_]\w*")
CHANGING = "docs/CHANGING.md"


def documents():
    """The documents whose paths are looked at."""
    found = [*TOP.glob("*.md"), *TOP.glob("docs/*.md"), *TOP.glob("*/README.md"), *TOP.glob("crates/*/README.md")]
    return [file for file in sorted(set(found)) if str(file.relative_to(TOP)) != "docs/MAP.md"]


def is_there(folder, path):
    """Whether a path leads somewhere from a folder, whose steps in capitals, and dots in a row, are any name."""
    steps = [re.sub(r"^[A-Z]{2,}(?=$|\.)", "*", step) for step in path.rstrip("/").split("/")]
    found = "/".join(steps).replace("..", "*")
    # (a module of tests is named without the begin and the end of its file)
    names = [found, re.sub(r"^tests/(?=[a-z]+$)", "tests/test_", found)]
    return any(any(folder.glob(name + ending)) for name in names for ending in ENDINGS)


@functools.lru_cache(maxsize=None)
def file_names(crate):
    return {file.name for file in made_of([crate])}


class Item:
    """An item of a list, a row of a table or a paragraph of a document."""

    def __init__(self, document, text):
        self.document, self.quoted = document, [each.strip() for each in QUOTED.findall(text)]
        named = [each.partition("/")[0] for each in (document.parent.name, *self.quoted)]
        self.crates = [each for each in named if each in CRATES] or CRATES

    def is_path_there(self, path):
        first = path.partition("/")[0]
        if first in FOLDERS:
            # (a document of a folder may name what lies in it)
            return is_there(TOP, path) or is_there(self.document.parent, path)
        if first in CRATES:
            return is_there(TOP / "crates", path) or is_there(TOP / "refusals", path)
        if first in PARTS:
            is_program = re.search(r"\.(?!rt$|antt$)\w+$", path)
            return is_program or any(is_there(TOP / "crates" / crate, path) for crate in self.crates)
        return True

    def faults(self):
        """The paths that lead nowhere, and in the recipes the files and names that are nowhere."""
        words = [word for quoted in self.quoted for word in quoted.split()]
        found = [word for word in words if PATH.fullmatch(word) and not self.is_path_there(word)]
        if str(self.document.relative_to(TOP)) != CHANGING:
            return found
        found += [each for each in self.quoted if FILE.fullmatch(each) and not self.is_file_there(each)]
        return found + [each for each in self.quoted if NAME.fullmatch(each) and each not in known_names()]

    def is_file_there(self, name):
        is_script = any((TOP / folder / name).is_file() for folder in SCRIPTS)
        return is_script or any(name in file_names(crate) for crate in self.crates)


@functools.lru_cache(maxsize=None)
def known_names():
    """The words of the sources, the crates, and the files of edits."""
    files = [*made_of(CRATES), *TOP.glob("tests/**/*"), *TOP.glob("tools/*"), *TOP.glob("refusals/**/*")]
    files += [*TOP.glob("c/**/*.h"), *TOP.glob("rust/**/*.rs"), *TOP.glob("python/**/*.py"), TOP / "crates.txt"]
    found = {step for file in files for step in (file.stem, file.parent.name)}
    for file in files:
        if file.is_file() and file.suffix in (".rt", ".antt", ".py", ".c", ".h", ".rs", ".txt", ""):
            found.update(re.findall(r"\w+", file.read_text(encoding="utf-8", errors="replace")))
    return found


def astray():
    """Each path or name that stands for nothing: the document, and the path."""
    for document in documents():
        text = document.read_text(encoding="utf-8")
        faults = {fault for item in ITEM.split(text) for fault in Item(document, item).faults()}
        yield from ((document.relative_to(TOP), fault) for fault in sorted(faults))
