# SPDX-License-Identifier: MIT OR Apache-2.0
"""Finds the public functions of the libraries that no other crate uses. It goes by their names alone.

A function counts as used where its name stands in the sources of another crate, or in the new text of an edit of one.
It may stand alone where it is a law, which is there for its contract; where a private module hides it; and where it is
what users call: in gix_index or index_c, or passed on by gix_index, by itself, with its module or with its type.
"""
import re
import sys

from crates import TOP, is_static, listed, made_of
from imports import ITEMS, leaves_of, without_comments

sys.path.insert(0, str(TOP / "refusals"))
from judge import HEAD, functions_in

FRONT = "gix_index"
PUBLIC = re.compile(r"\s*pub (?!\()")
MODULE = re.compile(r"^(pub )?mod (\w+);", re.MULTILINE)
TYPE = re.compile(r"\b(?:for )?(\w+)(?:<[^<>]*>)?\s*$")


def texts_of(crate):
    """The sources of a crate, by their files."""
    return {file: file.read_text(encoding="utf-8") for file in made_of([crate]) if file.suffix == ".rt"}


def code_of(text):
    """The text without comments, and without the imports of clauses, whose definitions may be called as functions."""
    return ITEMS[".rt"].sub(lambda item: "" if item[3].startswith("ghost") else item[0], without_comments(text, ".rt"))


def words_of(texts):
    return {word for text in texts for word in re.findall(r"\w+", code_of(text))}


def words_of_edits(crate):
    """The words that the edits of a crate write."""
    texts = [file.read_text(encoding="utf-8") for file in (TOP / "refusals" / crate).rglob("*.edit")]
    return words_of("\n".join(re.findall(r"^new:(.*)", text, re.MULTILINE)) for text in texts)


def passed_on(texts):
    """The paths that the sources of a crate pass on."""
    items = (item for text in texts for item in ITEMS[".rt"].finditer(text) if item[2] == "pub ")
    return [leaf.partition(" as ")[0].split("::") for item in items for leaf in leaves_of(item[4])]


class Library:
    """A library, and what of it can be named from outside."""

    def __init__(self, crate, texts):
        self.crate, self.texts, self.top = crate, texts, TOP / "crates" / crate / "src"
        self.passed = {path[-1] for path in passed_on(texts.values())}

    def steps_to(self, file):
        """The modules that lead to a file."""
        steps = file.relative_to(self.top).with_suffix("").parts
        return () if steps == ("lib",) else steps

    def is_open(self, file):
        """Whether the module that a file is can be named from outside."""
        above, steps = self.top / "lib.rt", self.steps_to(file)
        for count, step in enumerate(steps, 1):
            if ("pub ", step) not in MODULE.findall(self.texts.get(above, "")):
                return False
            above = self.top.joinpath(*steps[:count]).with_suffix(".rt")
        return True

    def functions(self):
        """The functions that can be named from outside: each with its file and the name of its type, if it has one."""
        for file, text in self.texts.items():
            lines = text.split("\n")
            for each in functions_in(str(file), text):
                head = next(line for line in lines[each.first - 1 : each.last] if HEAD.match(line))
                owner = TYPE.search(each.block)
                is_seen = owner or each.name in self.passed or self.is_open(file)
                if PUBLIC.match(head) and is_seen and not self.is_law(file):
                    yield file, each.name, owner and owner[1]

    def is_law(self, file):
        return self.crate.endswith("_laws") or file.stem == "laws"


def libraries():
    """The libraries whose functions are there for other crates."""
    for crate in listed():
        is_library = (TOP / "crates" / crate / "src" / "lib.rt").is_file() and not is_static(crate)
        if is_library and crate != FRONT and not crate.startswith("test_"):
            yield crate


def is_passed_on(crate, module, names, front):
    """Whether gix_index passes on one of the names, or the crate's module, which is the last step to a file."""
    return any(path[-1] in names or path[0] == crate and path[-1] in module for path in front)


def idle():
    """How many public functions the libraries have, and the names of those that no other crate uses."""
    texts = {crate: texts_of(crate) for crate in listed()}
    words = {crate: words_of(texts[crate].values()) | words_of_edits(crate) for crate in texts}
    front, count, found = passed_on(texts[FRONT].values()), 0, []
    for crate in libraries():
        others, library = set().union(*(words[each] for each in words if each != crate)), Library(crate, texts[crate])
        for file, name, owner in library.functions():
            count += 1
            steps = library.steps_to(file)
            if name not in others and not is_passed_on(crate, steps[-1:], {name, owner}, front):
                found.append("::".join((crate, *steps, name)))
    return count, found
