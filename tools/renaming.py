# SPDX-License-Identifier: MIT OR Apache-2.0
"""The maps of tools/rename.py: which items get which names, and what is wrong with them.

A line of a map is one of these; `#` starts a comment, and names are those before any map:

  crate OLD NEW
  module CRATE PART PATH NEW          (PART is src, specs or proofs, PATH as in `access::lookup`; NEW is one name)
  def CRATE PART FILE OLD NEW         (a definition or a lemma of specs/ or proofs/)
  item CRATE PATH OLD NEW             (a function, type or constant of src/; PATH is `-` for the root file)
  method CRATE PATH TYPE OLD NEW      (no other type of the repository has a method of that name)
  param CRATE PATH FUNCTION OLD NEW   (a parameter or a variable)
"""
import collections
import re
from typing import NamedTuple

KINDS = {"crate": 2, "module": 4, "def": 5, "item": 4, "method": 5, "param": 5}
FRONT = "gix_index"


class Line(NamedTuple):
    """A line of a map: its item, the new name, and where it stands."""

    item: tuple
    new: str
    where: str


def steps_of(path):
    return () if path == "-" else tuple(path.split("::"))


def item_of(kind, words):
    """The item that the words of a line name."""
    if kind == "crate":
        return ("crate", words[0])
    if kind == "module":
        return ("module", words[0], words[1], steps_of(words[2]))
    if kind == "def":
        return ("def", words[0], words[1], steps_of(words[2]), words[3])
    return (kind, words[0], steps_of(words[1]), *words[2:-1])


def read_map(path):
    """The lines of a map."""
    found = []
    with open(path, encoding="utf-8") as text:
        for number, line in enumerate(text, 1):
            kind, *words = line.partition("#")[0].split() or [""]
            if kind and len(words) != KINDS.get(kind):
                raise SystemExit(f"{path}:{number}: it is none of the lines that tools/renaming.py lists")
            if kind:
                found.append(Line(item_of(kind, words), words[-1], f"{path}:{number}"))
    return found


def name_of(item):
    """The last name of an item."""
    return item[3][-1] if item[0] == "module" else item[-1]


class Renames:
    """What is renamed, of what is there."""

    def __init__(self, workspace, lines):
        self.workspace, self.lines, self.faults, self.gone = workspace, lines, [], []
        self.crates = {line.item[1]: line.new for line in lines if line.item[0] == "crate"}
        present = set(workspace.everything())
        self.new, self.params = {}, collections.defaultdict(dict)
        for line in lines:
            self.add(self.found(line.item), line, present)
        self.by_name = collections.defaultdict(dict)
        for item in present:
            if item[0] != "crate":
                self.by_name[name_of(item)][item] = self.new.get(item)
        self.names = {name_of(item) for item in self.new if item[0] != "crate"}

    def found(self, item):
        """The item under the crate's name of now: a map may be applied where another has renamed the crate."""
        if item[0] != "crate" and item[1] not in self.workspace.crates:
            return (item[0], self.crates.get(item[1], item[1]), *item[2:])
        return item

    def add(self, item, line, present):
        if item[0] == "param":
            if self.has_param(item):
                self.params[item[1:4]][item[4]] = line.new
            else:
                self.gone.append(line)
        elif item not in present:
            self.gone.append(line)
        elif self.new.get(item, line.new) != line.new:
            self.faults.append(f"{line.where}: another line gives it the name {self.new[item]}")
        else:
            self.new[item] = line.new

    def has_param(self, item):
        file = self.workspace.file(item[1], "src", item[2])
        return file is not None and re.search(rf"\b{item[4]}\b", file.bare) is not None

    def check(self):
        """What is wrong with the maps: names that are taken, and names that are not to change."""
        yield from self.faults
        for item in self.new.keys() & self.public():
            yield f"{self.where(item)}: gix_index has it under this name"
        for item, new in self.new.items():
            yield from (f"{self.where(item)}: {fault}" for fault in self.faults_of(item, new))

    def public(self):
        """The items that gix_index has under their own names: those are upstream's, and stay."""
        found = set()
        for (crate, part, _), file in self.workspace.files.items():
            if crate == FRONT and part == "src":
                for path, _, is_public, has_alias in file.leaves(False):
                    node, item = self.workspace.source(file, path) if is_public else (None, None)
                    found |= {item} if item and not has_alias else set()
                    found |= self.within(node) if node and node[0] == "rust" else set()
                found |= {file.own(name) for name in file.items if self.is_open(file, name)}
        return found

    def within(self, node):
        """The public items of a module, and of those in it."""
        found = set()
        for (crate, part, steps), file in self.workspace.files.items():
            if crate == node[1] and part == "src" and steps[: len(node[2])] == node[2]:
                found |= {file.own(name) for name in file.items if self.is_open(file, name)}
                found |= {("module", crate, part, steps)} if steps != node[2] else set()
        return found

    @staticmethod
    def is_open(file, name):
        """Whether a source has a public item of that name."""
        return re.search(rf"^pub (?:\w+ )*{name}\b", file.bare, re.M) is not None

    def where(self, item):
        return next((line.where for line in self.lines if self.found(line.item) == item), str(item))

    def faults_of(self, item, new):
        if item[0] == "crate":
            if new in self.workspace.crates and new not in self.crates:
                yield f"there is a crate {new}"
            return
        file = self.workspace.file(*(item[1:4] if item[0] == "def" else (item[1], "src", item[2])))
        if item[0] in ("def", "item"):
            if new in file.items and file.own(new) not in self.new:
                yield f"its file has {new} already"
        if item[0] == "item":
            others = {*file.items, *(steps[-1] for steps in self.workspace.modules.get(item[1:3], ()))}
            if any(new.lower() == each.lower() for each in others - {name_of(item)}):
                yield f"{new} is a name of its module but for case"
        if item[0] == "method":
            owners = {each[1:4] for each in self.by_name[item[-1]] if each[0] == "method" and each not in self.new}
            if owners:
                yield f"other types have a method {item[-1]}: {sorted(owners)[0]}"
        if item[0] == "module" and self.workspace.file(item[1], item[2], (*item[3][:-1], new)):
            yield f"there is a module {new}"

    def twins(self):
        """The new names of definitions that another crate has too."""
        for item, new in self.new.items():
            if item[0] == "def" and item[2] == "specs":
                yield from (f"{self.where(item)}: {fault}" for fault in self.twins_of(item, new))

    def twins_of(self, item, new):
        """The definitions of other crates that would have the new name too."""
        for other, name in self.by_name[new].items():
            if other[0] == "def" and other[2] == "specs" and other[1] != item[1] and not name and self.is_public(other):
                yield f"{new} is defined in {other[1]} too"
        for other, name in self.new.items():
            if name == new and other[0] == "def" and other[2] == "specs" and other[1] != item[1]:
                yield f"{new} becomes a name of {other[1]} too"

    def is_public(self, item):
        file = self.workspace.file(*item[1:4])
        return re.search(rf"\bpub (?:record |data )?{re.escape(item[-1])}(?=\s|$)", file.bare) is not None

    def inverse(self):
        """The lines of the map that takes these names back."""
        for line in self.lines:
            item, old = line.item, line.item[-1] if line.item[0] != "module" else line.item[3][-1]
            words = [line.item[0], *self.renamed_path(item)]
            yield " ".join([*words, line.new, old] if item[0] != "module" else [*words, old])

    def renamed_path(self, item):
        """The words in front of an item's name, as they are after the maps."""
        if item[0] == "crate":
            return []
        crate = self.crates.get(item[1], item[1])
        parts = [item[2]] if item[0] in ("def", "module") else []
        part, steps = (item[2], item[3]) if parts else ("src", item[2])
        path = []
        for end in range(1, len(steps) + 1):
            path.append(self.module_name(item[1], part, steps[:end]))
        # (a method's type, and a parameter's function, may have a new name too)
        rest = [self.item_name(item[1:3], name) for name in item[3:-1]] if item[0] in ("method", "param") else []
        return [crate, *parts, "::".join(path) or "-", *rest]

    def item_name(self, module, name):
        return next((line.new for line in self.lines if line.item == ("item", *module, name)), name)

    def module_name(self, crate, part, steps):
        return next((line.new for line in self.lines if line.item == ("module", crate, part, steps)), steps[-1])
