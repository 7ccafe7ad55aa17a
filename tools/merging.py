# SPDX-License-Identifier: MIT OR Apache-2.0
"""The merges of tools/merge.py: how a crate becomes part of another one, and by which paths its items are named then.

A line of a map is one of those that tools/renaming.py lists, for names that would collide, or

  merge FROM INTO [MODULE] : HEADING
  narrow CRATE PATH FUNCTION   (a public function that only its own crate uses now becomes `pub(crate)`)

The modules of FROM become modules of INTO. The items of FROM's root go to the module MODULE of INTO; its `pub use`
lines go to INTO's root. The README of INTO has that of FROM under the heading, unless tools/names/readmes/ has another.
"""
import re
from typing import NamedTuple

from imports import branches_of, leaves_of, name_of
from renaming import KINDS, Line, item_of
from rewriting import applied, closing
from scopes import ITEM, hidden

MOD = re.compile(r"^((?:(?:///|#\[)[^\n]*\n)*)((?:pub(?:\([\w:]+\))? )?mod (\w+);)\n", re.M)
EXPORT = re.compile(r"^(?:(?:///|#\[)[^\n]*\n)*pub use ([^;]*);\n", re.M)
ATTRIBUTE = re.compile(r"^#!\[[^\n]*\]\n", re.M)
DOC = re.compile(r"\A(?://![^\n]*\n)*")
NEXT = re.compile(r"\{|\w+|\*")
PATH_WORD = r"[\w.*+<>-]+(?:/[\w.*+<>-]+)*/?"


class Merge(NamedTuple):
    """A line of a map: the crate, the one that it becomes part of, and the module for the items of its root."""

    source: str
    target: str
    module: str
    heading: str
    where: str


def lib_of(crate):
    return f"crates/{crate}/src/lib.rt"


class Root:
    """What a crate's root file has."""

    def __init__(self, text):
        self.text = text
        self.modules = {found[3]: found for found in MOD.finditer(text)}
        self.exports = list(EXPORT.finditer(text))
        self.exported = {name_of(leaf) for found in self.exports for leaf in leaves_of(" ".join(found[1].split()))}
        self.doc = DOC.match(text)[0]
        self.items = {found[2] for found in ITEM.finditer(hidden(text, ".rt")) if found[1] != "mod"}

    def rest(self):
        """The text without attributes of the crate, modules, and what it exports."""
        text = EXPORT.sub("", MOD.sub("", ATTRIBUTE.sub("", self.text)))
        return re.sub(r"\n{3,}", "\n\n", text).rstrip("\n") + "\n"


class Paths:
    """The paths of items, as they are after a merge."""

    def __init__(self, merge, files):
        self.merge, self.source, self.target, self.module = merge, merge.source, merge.target, merge.module
        self.root = Root(files[lib_of(merge.source)])
        front = f"crates/{merge.source}/proofs/"
        self.lemmas = {path[len(front) : -5] for path in files if path.startswith(front) and path.endswith(".antt")}
        self.definition = re.compile(rf"\bRattle\.{self.source}\.(specs\.declared|specs|proofs)\.([^\s.{{}}()\[\],;]+)")
        names = f"crate|self|{self.source}|{self.target}"
        self.head = re.compile(rf"(?<![\w:.$])((?:super\s*::\s*)+|(?:{names})\s*::\s*)(?=[\w{{*])")
        children = "|".join(sorted(self.root.modules)) or "-"
        self.child = re.compile(rf"(?<![\w:.$])(?=(?:{children})\s*::)")
        self.word = re.compile(rf"\b{self.source}\b(?!\()")
        self.file = re.compile(rf"(?<![\w/.-])(?:crates/|refusals/(?:control/)?)?{self.source}/{PATH_WORD}")
        self.edits = {path.rpartition("/")[2] for path in files if self.is_edit_of(path, self.target)}
        self.faults = []

    @staticmethod
    def is_edit_of(path, crate):
        return path.endswith(".edit") and crate in path.split("/")[1:3]

    def front(self, name):
        """The module in front of a name of the old root: nothing for a module, and for what the new root exports."""
        if name in self.root.modules or name in self.root.exported or name in ("specs", "proofs", "self"):
            return ""
        if name == "*" or not self.module:
            self.faults.append(f"{self.source}::{name} needs a module")
        return self.module

    # ---- definitions

    def in_definitions(self, text):
        """The text with the new paths of definitions, lemmas and goals."""

        def new_path(found):
            part, name = found[1], found[2]
            is_flat = part == "specs" or part == "proofs" and name in self.lemmas
            front = "" if is_flat else self.front(name.lstrip("+"))
            return f"Rattle.{self.target}.{part}.{front + '.' if front else ''}{name}"

        return self.definition.sub(new_path, text)

    # ---- sources

    def in_code(self, text, role, depth):
        """The text of code with new paths. The role is `source`, `target` or `other`: the crate that it was in."""
        bare, changes = hidden(text, ".rt"), []
        for found in self.head.finditer(bare):
            first = found[1].replace("::", " ").split()
            if self.leads_to_root(first, role, depth):
                changes += self.from_root(bare, found, first[0], role, depth)
            elif first == [self.target] and role == "source":
                changes.append((found.start(), found.end(), "crate::"))
        if role == "source" and depth == 0:
            changes += [(it.start(), it.start(), "crate::") for it in self.child.finditer(bare)]
        return applied(text, changes)

    def leads_to_root(self, first, role, depth):
        """Whether the first names of a path lead to the root of the crate that is merged."""
        if first == [self.source]:
            return True
        is_up = first[0] == "super" and len(first) == depth or first == ["self"] and depth == 0
        return role == "source" and (first == ["crate"] or is_up)

    def from_root(self, bare, found, first, role, depth):
        """The changes of a path from the root."""
        start = found.end()
        if bare[start] == "{":
            names = list(self.branches(bare, start))
        else:
            names = [(start, NEXT.match(bare, start)[0])]
        fronts = [(at, self.front(name)) for at, name in names]
        is_moved = any(front for _, front in fronts)
        if first == "self" and depth == 0 and is_moved:
            return []
        if first in (self.source, "self") or first == "super" and is_moved:
            yield found.start(), found.end(), f"{self.target}::" if role == "other" else "crate::"
        same = {front for _, front in fronts}
        if len(same) == 1:
            fronts = [(start, same.pop())]
        # (a change at a place where another one ends)
        for at, front in fronts:
            if front:
                yield at, at + 1, f"{front}::{bare[at]}"

    @staticmethod
    def branches(bare, opening):
        """Where each branch in braces begins, and its first name."""
        depth, is_next = 0, True
        for at in range(opening + 1, closing(bare, opening)):
            sign = bare[at]
            if is_next and not sign.isspace():
                yield at, NEXT.match(bare, at)[0]
                is_next = False
            depth += (sign == "{") - (sign == "}")
            is_next = is_next or sign == "," and depth == 0

    # ---- comments and documents

    def in_prose(self, text):
        """The text with new paths of files, and new names of crates and items."""
        text = self.file.sub(lambda found: self.new_path_in_text(found[0]), text)
        text = re.sub(rf"\b{self.source}::(\w+)", self.new_item, text)
        return self.word.sub(self.target, text)

    def new_item(self, found):
        name = found[1]
        front = self.module if name in self.root.items else ""
        return f"{self.target}::{front + '::' if front else ''}{name}"

    def new_path_in_text(self, path):
        """The new path of a file that a text names, perhaps without the folder in front or the ending."""
        if path.startswith(("crates/", "refusals/")):
            return self.moved(path)
        return self.moved(f"crates/{path}")[len("crates/") :]

    # ---- files

    def moved(self, path):
        """The new path of a file or folder of the repository."""
        parts = path.split("/")
        if parts[-1] in self.edits and self.is_edit_of(path, self.source):
            # (an edit's name is the only one of the crate)
            parts[-1] = f"{parts[-2].replace('-', '_')}_{parts[-1]}"
        if parts[:2] == ["crates", self.source]:
            return "/".join(["crates", self.target, *self.in_crate(parts[2:])])
        if parts[:3] == ["refusals", "control", self.source]:
            return "/".join(["refusals", "control", self.target, *parts[3:]])
        if parts[:2] == ["refusals", self.source]:
            rest = parts[2:]
            if rest[:1] == ["lib"] and self.module:
                rest = [self.module, *rest[1:]]
            return "/".join(["refusals", self.target, *rest])
        return path

    def in_crate(self, parts):
        if parts[:2] in (["src", "lib.rt"], ["src", "lib"]) and self.module:
            return ["src", parts[1].replace("lib", self.module), *parts[2:]]
        if parts[:1] == ["proofs"] and len(parts) > 1 and parts[1] not in ("", "*"):
            stem = parts[1].removesuffix(".antt")
            is_flat = stem in self.lemmas or stem == "Lib" or stem in self.root.modules
            return parts if is_flat or not self.module else ["proofs", self.module, *parts[1:]]
        return parts

    # ---- roots

    def module_text(self):
        """The text of the module that the old root becomes, or nothing if the old root has no items."""
        if not self.root.items:
            return None
        return self.in_prose(self.in_definitions(self.in_code(self.root.rest(), "source", 0)))

    def root_text(self, text):
        """The text of the root of INTO, with the modules of FROM and what it exports."""
        # (each `mod` line is put in front of the first one whose name is greater)
        added = {name: found[0] for name, found in self.root.modules.items()}
        if self.root.items:
            added[self.module] = f"pub mod {self.module};\n"
        for name, item in sorted(added.items()):
            places = [*MOD.finditer(text)]
            behind = next((it.start() for it in places if it[3] > name), None)
            at = behind if behind is not None else places[-1].end()
            text = text[:at] + item + text[at:]
        exports = [found[0] for found in self.root.exports]
        if exports:
            places = [*EXPORT.finditer(text)]
            at = places[-1].end() if places else [*MOD.finditer(text)][-1].end()
            text = text[:at] + ("" if places else "\n") + "".join(exports) + text[at:]
        if self.root.doc and not self.root.items:
            end = DOC.match(text).end()
            text = text[:end] + "//!\n" + self.in_prose(self.root.doc) + text[end:]
        return text

    # ---- edits

    def edit(self, text, role):
        """The new text of an edit of a crate in that role."""
        lines, depth, is_root = [], None, False
        for line in text.split("\n"):
            sign, _, rest = line.partition(": ")
            if sign == "file" and role == "source":
                steps = re.sub(r"\Asrc/|(?:/mod)?\.rt\Z", "", rest.strip()).split("/")
                is_root = steps in (["lib"], ["main"])
                depth = 0 if is_root else len(steps)
                line = "file: " + "/".join(self.in_crate(rest.strip().split("/")))
            elif sign == "file":
                depth = 1
            elif sign in ("old", "new") and depth is not None:
                line = f"{sign}: {self.in_definitions(self.in_code(rest, role, depth))}"
            elif sign == "at" and role == "source":
                front = self.front(rest.strip().partition("::")[0])
                line = f"at: {front + '::' if front else ''}{rest}"
            lines.append(self.in_prose(line))
        return "\n".join(lines)


def joined_imports(text, ending):
    """The text of a file without an import that is in it twice, line by line."""
    found, seen = [], set()
    for line in text.split("\n"):
        is_import = re.match(r"(?:pub )?(?:ghost )?use [^{]*(?:\{[^{}]*\})?;?$", line)
        if is_import and line in seen:
            continue
        if is_import:
            seen.add(line)
        found.append(line)
    return "\n".join(found)


def narrowed(text, name):
    """The text with a public function that other crates can't name."""
    return re.sub(rf"\bpub ((?:const |unsafe |final )*fn {name}\b)", r"pub(crate) \1", text)


def read_merges(path):
    """The merges of a map, its functions to narrow, and its other lines as tools/renaming.py reads them."""
    merges, narrow, names = [], [], []
    with open(path, encoding="utf-8") as text:
        for number, line in enumerate(text, 1):
            front, _, heading = line.partition("#")[0].partition(" : ")
            kind, *words = front.split() or [""]
            where = f"{path}:{number}"
            if kind == "merge" and len(words) in (2, 3):
                merges.append(Merge(words[0], words[1], "".join(words[2:]), heading.strip(), where))
            elif kind == "narrow" and len(words) == 3:
                narrow.append((words[0], "/".join(words[1].split("::")), words[2]))
            elif kind and len(words) == KINDS.get(kind):
                names.append(Line(item_of(kind, words), words[-1], where))
            elif kind:
                raise SystemExit(f"{where}: it is none of the lines that tools/merging.py lists")
    return merges, narrow, names
