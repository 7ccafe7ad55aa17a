# SPDX-License-Identifier: MIT OR Apache-2.0
"""What the names in the files of crates stand for: the modules of a workspace, their items, and the scope of each file.

An item is a tuple: ("crate", crate), ("module", crate, part, path), ("def", crate, part, path, name) of specs/ or
proofs/, ("item", crate, path, name) of src/, or ("method", crate, path, type, name). It goes by the texts alone.
"""
import functools
import pathlib
import re

from imports import ITEMS, leaves_of, name_of

TEXTS = r'"(?:\\.|[^"\\])*"'
HIDDEN = {
    ".rt": re.compile(rf"{TEXTS}|b?'(?:\\[^']*|[^'\\])'(?!\w)|//[^\n]*|/\*.*?\*/", re.DOTALL),
    ".antt": re.compile(rf"{TEXTS}|\{{-.*?-\}}|(?<!\S)--[^\n]*", re.DOTALL),
}
SPACE = re.compile(r"[^\n]")
OPENER = re.compile(
    r"(?:(?:pub|abbrev|unfoldable|private) )*(record|data|module|mutual|abbrev mutual)\b(?: (?:pub )?(\S+))?"
)
SIGNATURE = re.compile(r"(?:(?:pub|abbrev|unfoldable|private) )*([^\s:(){}]+) :(?=\s|$)")
ITEM = re.compile(
    r"^(?:pub(?:\([\w:]+\))? )?(?:(?:const|unsafe|final|extern(?: \"C\")?) +)*"
    r"(fn|struct|enum|union|trait|const|static|type|mod|macro_rules!) (\w+)",
    re.M,
)
BLOCK = re.compile(r"^(?:unsafe )?impl\b[^{]*\{", re.M)
TRAIT = re.compile(r"^(?:pub(?:\([\w:]+\))? )?(?:unsafe )?trait (\w+)", re.M)
METHOD = re.compile(r"^    (?:pub(?:\([\w:]+\))? )?(?:(?:const|unsafe|final) )*fn (\w+)", re.M)
OWNER = re.compile(r"(?:for )?&?(?:mut )?(\w+)(?:<[^{]*>)?\s*(?:where[^{]*|requires[^{]*)?\{$")
# (a text in quotes is hidden)
FUNCTION = re.compile(
    r"^( *)(?:pub(?:\([\w:]+\))? )?(?:(?:const|unsafe|final|extern(?: \"C\")?) +)*fn (\w+)", re.M
)
GENERATED = ("Goals", "Given", "Lts", "Law")


def hidden(text, ending):
    """The text with spaces for comments, and for what stands in quotes."""
    return HIDDEN[ending].sub(lambda found: SPACE.sub(" ", found[0]), text)


class File:
    """A source of a crate: its text, its imports, and what it defines."""

    def __init__(self, crate, top, path):
        self.crate, self.path, self.part = crate, path, path.relative_to(top).parts[0]
        self.ending, self.text = path.suffix, path.read_text(encoding="utf-8")
        self.bare = hidden(self.text, self.ending)
        self.imports = list(ITEMS[self.ending].finditer(self.bare))
        steps = path.relative_to(top / self.part).with_suffix("").parts
        self.steps = () if steps in (("lib",), ("main",)) else steps[:-1] if steps[-1] == "mod" else steps
        self.items, self.methods, self.spans = {}, {}, {}
        (self.add_items if self.ending == ".rt" else self.add_definitions)()

    def add_items(self):
        for found in ITEM.finditer(self.bare):
            self.items[found[2]] = found[1]
        for found in BLOCK.finditer(self.bare):
            owner = OWNER.search(found[0])
            self.add_methods(owner[1] if owner else "", found.end())
        for found in TRAIT.finditer(self.bare):
            self.add_methods(found[1], found.end())

    def add_methods(self, owner, start):
        end = self.bare.find("\n}", start)
        for found in METHOD.finditer(self.bare, start, end if end >= 0 else len(self.bare)):
            self.methods.setdefault(found[1], set()).add(owner)

    def add_definitions(self):
        """Takes what is at the top of the file or in a section: of a record its name, of a `data` its cases too."""
        around = []
        for line in self.bare.split("\n"):
            if line.strip() in ("", "where"):
                continue
            indent = len(line) - len(line.lstrip())
            while around and around[-1][0] >= indent:
                around.pop()
            kind = around[-1][1] if around else "module"
            opener = OPENER.match(line, indent) if kind in ("module", "mutual") else None
            if opener:
                self.add_definition(opener[2] if opener[1] in ("record", "data") else None, indent, opener[1])
                around.append((indent, opener[1].split()[-1]))
                continue
            signature = SIGNATURE.match(line, indent)
            if signature and kind in ("module", "mutual", "data"):
                self.add_definition(signature[1], indent, "case" if kind == "data" else "value")
            around.append((indent, "body"))

    def add_definition(self, name, indent, kind):
        if name and name not in ("_", "where"):
            self.items.setdefault(name, kind)
            self.spans.setdefault(name, indent)

    def own(self, name):
        """The item of a name that this file defines."""
        if self.ending == ".rt":
            return ("item", self.crate, self.steps, name)
        return ("def", self.crate, self.part, self.steps, name)

    @functools.lru_cache(maxsize=None)
    def leaves(self, is_ghost):
        """Each path that the file imports: with the local name, and whether it is public, and whether another one."""
        found = []
        for item in self.imports:
            if (self.ending == ".antt" or item[3].startswith("ghost")) == is_ghost:
                for leaf in leaves_of(" ".join(item[4].split())):
                    found.append((leaf.partition(" as ")[0].strip(), name_of(leaf), bool(item[2]), " as " in leaf))
        return found


class Workspace:
    """All files of the crates of a folder, by what they are."""

    def __init__(self, top, crates):
        self.top, self.crates, self.files = pathlib.Path(top), list(crates), {}
        self.listed, self.modules = set(self.crates), {}
        for crate in self.crates:
            folder = self.top / "crates" / crate
            for part, ending in (("src", ".rt"), ("specs", ".antt"), ("proofs", ".antt")):
                for path in sorted((folder / part).rglob(f"*{ending}")):
                    file = File(crate, folder, path)
                    self.files[crate, part, file.steps] = file
                    if part == "src" and file.steps:
                        self.modules.setdefault((crate, file.steps[:-1]), []).append(file.steps)

    def file(self, crate, part, steps):
        return self.files.get((crate, part, tuple(steps)))

    # ---- paths of definitions

    def step(self, node, name):
        """What a name leads to from a place: a place further on, and the item that it names."""
        kind = node[0] if node else None
        if kind == "library":
            return (("top", name), ("crate", name)) if name in self.listed else (None, None)
        if kind == "top":
            return (("part", node[1], name), None) if name in ("specs", "proofs") else (None, None)
        if kind == "part":
            return self.step_in_part(node[1], node[2], name)
        if kind == "file":
            return self.step_in_file(node, name)
        if kind == "source":
            return self.step_in_source(node, name)
        return None, None

    def step_in_part(self, crate, part, name):
        if part == "specs" and name == "declared":
            return ("source", crate, ()), None
        if self.file(crate, part, (name,)):
            return ("file", crate, part, (name,)), ("module", crate, part, (name,))
        lists = self.file(crate, part, ("Lib",))
        found = self.passed_on(lists, name) if lists else (None, None)
        if part == "proofs" and found == (None, None):
            return self.step_in_source(("source", crate, ()), name)
        return found

    def passed_on(self, file, name):
        """What a file passes on under a name: a name that it gives itself is no item."""
        for path, local, is_public, has_alias in file.leaves(True):
            if is_public and local == name:
                node, item = self.definition(path)
                return node, None if has_alias else item
        return None, None

    def step_in_file(self, node, name):
        _, crate, part, steps = node
        file = self.file(crate, part, steps)
        if name in file.items:
            return None, file.own(name)
        return self.passed_on(file, name)

    def step_in_source(self, node, name):
        """What a name leads to in what the check makes of sources: a module, a type, or a function with its goals."""
        _, crate, steps = node[:3]
        name = name.lstrip("+")
        if len(node) == 4:
            file = self.file(crate, "src", steps)
            owners = file.methods.get(name, ()) if file else ()
            item = ("method", crate, steps, node[3], name) if node[3] in owners else None
            return ("goals", crate, steps, name, node[3]), item
        if self.file(crate, "src", (*steps, name)) and name not in GENERATED:
            return ("source", crate, (*steps, name)), ("module", crate, "src", (*steps, name))
        file = self.file(crate, "src", steps)
        if name == "TheConstants":
            return ("source", crate, steps), None
        if file and name in file.items:
            kind = "goals" if file.items[name] == "fn" else "source"
            return (kind, crate, steps, name), ("item", crate, steps, name)
        return None, None

    @functools.lru_cache(maxsize=None)
    def definition(self, path):
        """The place and the item at the end of a path of definitions."""
        names, node, item = path.split("."), ("library",), None
        for name in names[1:] if names[0] == "Rattle" else ():
            node, item = self.step(node, name.strip())
        return node, item

    # ---- paths of sources

    def enter(self, node, name):
        """Does what `step` does, for a path in sources."""
        if node is None:
            return None, None
        if node[0] == "type":
            file = self.file(node[1], "src", node[2])
            owners = file.methods.get(name, ()) if file else ()
            return None, ("method", *node[1:], name) if node[3] in owners else None
        _, crate, steps = node
        if self.file(crate, "src", (*steps, name)):
            return ("rust", crate, (*steps, name)), ("module", crate, "src", (*steps, name))
        file = self.file(crate, "src", steps)
        if file and name in file.items:
            return ("type", crate, steps, name), file.own(name)
        return self.entered_on(file, name) if file else (None, None)

    def entered_on(self, file, name):
        for path, local, _, has_alias in file.leaves(False):
            if local == name:
                node, item = self.source(file, path)
                return node, None if has_alias else item
        return None, None

    def start(self, file, name):
        """Where the first name of a path of sources leads from a file."""
        if name == "crate":
            return ("rust", file.crate, ()), None
        if name in ("super", "self"):
            return ("rust", file.crate, file.steps[: len(file.steps) - (name == "super")]), None
        if name in self.listed and name not in file.items:
            return ("rust", name, ()), ("crate", name)
        return None, None

    @functools.lru_cache(maxsize=None)
    def source(self, file, path):
        """The place and the item at the end of a path that a file imports."""
        node, item = None, None
        for place, name in enumerate(it.strip() for it in path.split("::")):
            if place == 0:
                node, item = self.start(file, name)
                if node is None and self.file(file.crate, "src", (*file.steps, name)):
                    node, item = ("rust", file.crate, (*file.steps, name)), None
            elif name == "super" and node and node[0] == "rust":
                node, item = ("rust", node[1], node[2][:-1]), None
            elif name != "self":
                node, item = self.enter(node, name)
        return node, item

    # ---- scopes

    @functools.lru_cache(maxsize=None)
    def scope(self, file, is_ghost):
        """The places and the items that a file's names lead to; names given by `as` are no items."""
        found = {}
        for path, local, _, has_alias in file.leaves(is_ghost):
            if local == "*":
                found.update(self.all_of(self.source(file, path[:-3])[0]))
                continue
            node, item = self.definition(path) if is_ghost else self.source(file, path)
            found[local] = node, None if has_alias else item
        if is_ghost == (file.ending == ".antt"):
            for name in file.items:
                found[name] = (None if is_ghost else ("type", file.crate, file.steps, name)), file.own(name)
        if not is_ghost:
            for module in self.modules.get((file.crate, file.steps), ()):
                found[module[-1]] = ("rust", file.crate, module), ("module", file.crate, "src", module)
        return found

    def all_of(self, node):
        file = self.file(node[1], "src", node[2]) if node and node[0] == "rust" else None
        return self.scope(file, False) if file else {}

    def everything(self):
        """Each item of the workspace."""
        for crate in self.crates:
            yield "crate", crate
        for (crate, part, steps), file in self.files.items():
            if steps and steps != ("Lib",):
                yield "module", crate, part, steps
            yield from (file.own(name) for name in file.items)
            for name, owners in file.methods.items():
                yield from (("method", crate, steps, owner, name) for owner in owners)
