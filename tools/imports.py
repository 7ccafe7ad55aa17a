# SPDX-License-Identifier: MIT OR Apache-2.0
"""Finds the imports that their file doesn't need, and takes them out. It goes by the text of the files alone.

An import is needed where its name stands in its file outside of comments and imports. An operator is needed where all
of its symbols stand there. Where the text can't tell, an import counts as needed: one that passes a name on, a glob,
one `as _`, a trait, whose methods may be called, the steps behind a `do`, a name that another file reaches through
this one, and what comes from the library of a macro that is called.
"""
import functools
import os
import pathlib
import re
import shutil

from crates import TOP, listed, made_of

TEXTS = r'"(?:\\.|[^"\\])*"'
COMMENTS = {
    ".rt": re.compile(rf"{TEXTS}|b?'(?:\\[^']*|[^'\\])'(?!\w)|(//[^\n]*|/\*.*?\*/)", re.DOTALL),
    ".antt": re.compile(rf"{TEXTS}|(\{{-.*?-\}}|(?<!\S)--[^\n]*)", re.DOTALL),
}
ITEMS = {
    ".rt": re.compile(r"^( *)((?:pub(?:\([\w:]+\))? )?)((?:ghost )?use )([^;]*);", re.MULTILINE),
    ".antt": re.compile(r"^()((?:(?:unfoldable )?pub )?)(use )([^\n{]*(?:\{[^}]*\})?[^\n]*)", re.MULTILINE),
}
TRAIT = re.compile(r"^ *(?:pub(?:\([\w:]+\))? )?(?:\w+ )*trait (\w+)", re.MULTILINE)
MACRO = re.compile(r"\b(\w+)! ?[({\[]")
# (what may stand beside an operator's symbol; a name in antt may have a quote and a hyphen)
EDGE = r"[\s(){}\[\],.;◌]"
STEPS = ("◌>>=◌", "◌>>◌")


def without_comments(text, ending):
    """The text with a space for each sign of a comment, so that all else stands where it was."""
    return COMMENTS[ending].sub(lambda m: re.sub(r"[^\n]", " ", m[0]) if m[1] else m[0], text)


def branches_of(tree):
    """What stands in front of the braces of an import, and what stands between them: None where it has none."""
    front, brace, inside = tree.strip().partition("{")
    if not brace:
        return front, None
    found, depth = [""], 0
    for sign in inside[: inside.rindex("}")]:
        depth += (sign == "{") - (sign == "}")
        if sign == "," and depth == 0:
            found.append("")
        else:
            found[-1] += sign
    return front, [" ".join(branch.split()) for branch in found if branch.strip()]


def leaves_of(tree):
    """Each path that an import names, with its `as`."""
    front, branches = branches_of(tree)
    if branches is None:
        return [front]
    return [front + leaf for branch in branches for leaf in leaves_of(branch)]


def without(tree, gone, before=""):
    """The import without the paths that go, or nothing where none is left."""
    front, branches = branches_of(tree)
    if branches is None:
        return "" if before + front in gone else front
    left = [branch for branch in (without(each, gone, before + front) for each in branches) if branch]
    if len(left) != 1 or not front.endswith("::"):
        return f"{front}{{{', '.join(left)}}}" if left else ""
    return front[:-2] + left[0][4:] if re.match(r"self\b", left[0]) else front + left[0]


def name_of(leaf):
    """The name by which a file knows what an import names."""
    path, _, other = leaf.partition(" as ")
    if other:
        return other.strip()
    steps = path.split("::") if "::" in path else path.split(".")
    return steps[-2] if steps[-1] == "self" and len(steps) > 1 else steps[-1].strip()


class Words:
    """The names and the symbols of operators that stand in a text."""

    def __init__(self, text, ending):
        self.text, self.inner = text, r"[\w'-]" if ending == ".antt" else r"\w"
        self.names = set(re.findall(f"{self.inner}+", text))
        self.symbols = set(re.split(EDGE, text))

    def have(self, name):
        if "◌" in name:
            return all(symbol in self.symbols for symbol in name.split("◌") if symbol)
        if name == "[]":
            return re.search(r"\[ ?\]", self.text) is not None
        if re.fullmatch(f"{self.inner}+", name):
            return name in self.names
        return re.search(rf"(?<!{self.inner}){re.escape(name)}(?!{self.inner})", self.text) is not None


def traits_in(texts):
    return {name for text in texts if "trait " in text for name in TRAIT.findall(text)}


@functools.lru_cache(maxsize=None)
def own_traits():
    """The traits of this repository, under the names that an import gives them too."""
    texts = [file.read_text(encoding="utf-8") for file in made_of(listed()) if file.suffix == ".rt"]
    names = traits_in(texts)
    others = re.findall(r"\b(\w+) as (\w+)\b", "\n".join(texts))
    return names | {other for name, other in others if name in names}


@functools.lru_cache(maxsize=None)
def kit_traits():
    """The traits of the toolchain's libraries, or None where the toolchain isn't there."""
    found = shutil.which("rt")
    top = pathlib.Path(found).resolve().parent.parent / "rattle" if found else None
    if top is None or not top.is_dir():
        return None
    files = (pathlib.Path(folder, name) for folder, _, names in os.walk(top) for name in names if name.endswith(".rt"))
    return traits_in(file.read_text(encoding="utf-8") for file in files)


class File:
    """A file with its imports, and its text without them and without comments."""

    def __init__(self, path):
        self.path, self.ending = path, path.suffix
        self.text = path.read_text(encoding="utf-8")
        bare = without_comments(self.text, self.ending)
        self.items = list(ITEMS[self.ending].finditer(bare))
        self.rest = ITEMS[self.ending].sub(" ", bare)
        self.words = Words(self.rest, self.ending)
        self.all_leaves = [leaf for item in self.items for leaf in leaves_of(item[4])]

    def pairs(self):
        """Each last step of a path in the file with the step in front of it."""
        steps = [leaf.partition(" as ")[0].split("::")[-2:] for leaf in self.all_leaves if "::" in leaf]
        return {tuple(pair) for pair in steps} | set(re.findall(r"\b(\w+)::(?=(\w+))", self.rest))

    def module(self):
        """The name of the module that the file is."""
        return "crate" if self.path.name in ("lib.rt", "main.rt") else self.path.stem


class Crate:
    """The files of a crate, and which of their imports they need."""

    def __init__(self, name):
        self.files = [File(path) for path in made_of([name])]
        self.pairs = {file.path: file.pairs() for file in self.files if file.ending == ".rt"}

    def is_reached(self, file, name):
        """Whether another file of the crate names what this one imports, by a path through this one."""
        paths = {(file.module(), name), ("super", name)}
        return any(paths & pairs for path, pairs in self.pairs.items() if path != file.path)

    def is_needed_in_rust(self, file, leaf, name):
        if re.search(rf"(?<![\w:]){re.escape(name)}::", " ".join(file.all_leaves)) or self.is_reached(file, name):
            return True
        last, library = leaf.partition(" as ")[0].split("::")[-1].strip(), leaf.split("::")[0]
        called = set(MACRO.findall(file.rest))
        if any(name_of(other) in called and other.split("::")[0] == library for other in file.all_leaves):
            return True
        if last in own_traits():
            return True
        return library not in ("crate", "super", "self", *listed()) and (kit_traits() is None or last in kit_traits())

    def is_needed(self, file, item, leaf):
        """Whether a file needs what an import names."""
        name = name_of(leaf)
        if item[2] or name in ("_", "*") or file.words.have(name):
            return True
        if file.ending == ".rt" and not item[3].startswith("ghost"):
            return self.is_needed_in_rust(file, leaf, name)
        if name in STEPS and file.words.have("do"):
            return True
        return any(other.startswith(f"{name}.") for other in file.all_leaves)

    def unneeded(self):
        """Each file with the imports that it doesn't need: the items, and which of their paths."""
        for file in self.files:
            found = [(item, [leaf for leaf in leaves_of(item[4]) if not self.is_needed(file, item, leaf)])
                     for item in file.items]
            found = [(item, leaves) for item, leaves in found if leaves]
            if found:
                yield file, found


def unneeded(crate):
    """Each import of a crate that its file doesn't need: the file, the line of the item, and the path."""
    for file, found in Crate(crate).unneeded():
        for item, leaves in found:
            line = file.text.count("\n", 0, item.start()) + 1
            yield from ((file.path.relative_to(TOP), line, leaf) for leaf in leaves)


def without_item(text, item):
    """The text without a whole import, its line, and a blank line that would be one too many."""
    before, behind = text[: item.start()], text[item.end() :]
    behind = behind[1:] if behind.startswith("\n") else behind
    is_spare = behind.startswith("\n") and (not before or before.endswith(("\n\n", "{\n")))
    return before + (behind[1:] if is_spare else behind)


def mended(text, found):
    """The text of a file without the imports that it doesn't need."""
    for item, leaves in reversed(found):
        tree = without(item[4], leaves)
        if tree:
            text = text[: item.start(4)] + tree + text[item.end(4) :]
        else:
            text = without_item(text, item)
    return text


def mend(crate):
    """Takes the imports out of a crate's files, and gives the files that it wrote."""
    written = []
    for file, found in Crate(crate).unneeded():
        file.path.write_text(mended(file.text, found), encoding="utf-8")
        written.append(file.path.relative_to(TOP))
    return written
