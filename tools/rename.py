#!/usr/bin/env python3
# SPDX-License-Identifier: MIT OR Apache-2.0
"""Gives crates, modules, definitions and functions other names, in all that names them.

Usage: tools/rename.py --map FILE [--map FILE ..] [--root FOLDER] [--skip] [--wrap] [--check | --inverse | --mend]

tools/renaming.py describes the maps. A name is changed if it is that item, by the imports of its file. An edit is read
in the scope of the source that it edits, and a document by the crates that it names. A second run changes nothing.

  --check    changes nothing; lists what is wrong with the maps, and names that may be meant otherwise
  --skip     passes over lines whose item isn't there, and lists them
  --inverse  prints the map that takes the names back
  --wrap     breaks the lines of definitions, proofs and comments that get too long by their new names
  --mend     changes no name, and mends edits whose texts `rt fmt` has laid out otherwise
"""
import argparse
import os
import pathlib
import re
import sys

sys.dont_write_bytecode = True
import crates
from mending import mend_all
from renaming import Renames, read_map
from rewriting import FILE_PATH, Rewriter, applied
from scopes import Workspace
from wrapping import wrap

LEFT_OUT = {".git", "out", "target", "__pycache__", "node_modules"}
# What is made, or carried over by tools/carry.py, and maps.
MADE = ("refusals/seen", "tools/names")
PROSE, LONG = (".md", ".edit", ".list"), 100_000


def files_of(top):
    """Each file of the repository that a person writes."""
    for folder, folders, names in os.walk(top):
        folders[:] = sorted(set(folders) - LEFT_OUT)
        for name in sorted(names):
            path = pathlib.Path(folder, name).relative_to(top)
            if not str(path).startswith(MADE):
                yield path


class Mover:
    """Where files go."""

    def __init__(self, rewriter):
        self.rewriter, self.new = rewriter, rewriter.renames.new
        self.workspace, self.crates = rewriter.workspace, rewriter.renames.crates

    def moved(self, path):
        """The new path of a file or folder of the repository."""
        parts = str(path).split("/")
        if parts[0] == "crates" and len(parts) > 1:
            return "/".join(["crates", *self.in_crate(parts[1], parts[2:])])
        if parts[:2] == ["refusals", "control"]:
            return "/".join([*parts[:2], *(self.crates.get(part, part) for part in parts[2:3]), *parts[3:]])
        if parts[0] == "refusals" and len(parts) > 1 and parts[1] in self.workspace.crates:
            names, rest = self.split(parts[1], parts[2:])
            return "/".join(["refusals", self.crates.get(parts[1], parts[1]), *names, *rest])
        return str(path)

    def split(self, crate, parts):
        """The new names of the modules in front of a path, and what is behind them."""
        count = 0
        while count < len(parts) and self.workspace.file(crate, "src", parts[: count + 1]):
            count += 1
        return self.rewriter.module_names(crate, "src", parts[:count]), parts[count:]

    def in_crate(self, crate, parts):
        front = [self.crates.get(crate, crate)]
        if crate not in self.workspace.crates or not parts or parts[0] not in ("src", "specs", "proofs"):
            return [*front, *parts]
        return [*front, parts[0], *self.in_part(crate, parts[0], parts[1:])]

    def in_part(self, crate, part, parts):
        if not parts:
            return []
        *folders, last = parts
        stem, dot, ending = last.partition(".")
        if part == "proofs" and folders:
            return [*self.of_proof(crate, folders), last]
        names = self.rewriter.module_names(crate, part, [*folders, stem])
        return [*names[:-1], names[-1] + dot + ending]

    def of_proof(self, crate, folders):
        """The new path of the folder of a function's proof."""
        node, found = ("source", crate, ()), []
        for folder in folders:
            node, item = self.workspace.step(node, folder) if node else (None, None)
            name = folder.lstrip("+")
            new = self.new.get(item, name)
            found.append("+" * (len(folder) - len(name)) + new)
        return found

    def in_text(self, text, crate=None):
        """The text with the new paths of files, of those too that begin within a crate."""

        def new_path(found):
            path = found[0]
            first = path.partition("/")[0]
            if first in ("crates", "refusals"):
                return self.with_ending(path)
            if first in self.workspace.crates:
                return self.with_ending(f"crates/{path}")[len("crates/") :]
            if crate and first in ("src", "specs", "proofs"):
                return self.with_ending(f"crates/{crate}/{path}").split("/", 2)[2]
            return path

        return FILE_PATH.sub(new_path, text)

    def with_ending(self, path):
        return self.moved(path)


def named_crates(rewriter, text):
    return sorted({word for word in re.findall(r"\b[a-z_]+\b", text) if word in rewriter.workspace.listed})


def paragraphs(text):
    return re.split(r"(\n(?=\s*\n|#|(?:[-*]|\d+\.) |\| ))", text)


def document(rewriter, mover, path, text):
    """The new text of a document or script: names by the crates that the paragraph or the path names."""
    own = path.parts[1] if path.parts[0] in ("crates", "refusals") and len(path.parts) > 2 else None
    found, rewriter.document = [], str(path)
    for paragraph in paragraphs(text) if path.suffix == ".md" else [text]:
        crates_named = named_crates(rewriter, paragraph) or [own]
        paragraph = applied(paragraph, rewriter.in_prose(paragraph, 0, None, tuple(crates_named)))
        found.append(mover.in_text(paragraph, own or (crates_named[0] if len(crates_named) == 1 else None)))
    return rewriter.with_crates("".join(found))


def list_line(rewriter, mover, line):
    """The new text of a line of tools/lint.list; `tools/lint --shrink` takes out what is no longer so."""
    kind, _, rest = line.partition(" ")
    if kind == "function":
        crate, _, steps = rest.partition("::")
        return f"function {rewriter.renames.crates.get(crate, crate)}::{rewriter.moved_function(crate, steps)}"
    if kind == "name":
        return line
    return rewriter.with_crates(mover.in_text(line))


def new_text(rewriter, mover, top, path):
    """The new text of a file, or None where it is none."""
    parts = path.parts
    if str(path) in rewriter.sources:
        return rewriter.rewritten(rewriter.sources[str(path)])
    try:
        text = (top / path).read_text(encoding="utf-8")
    except UnicodeDecodeError:
        return None
    if str(path) == "docs/MAP.md" or path.suffix not in PROSE and len(text) > LONG:
        # (made texts, as tables and pictures, name crates alone)
        return rewriter.with_crates(text)
    if path.suffix == ".edit":
        crate = parts[2] if parts[:2] == ("refusals", "control") else parts[1]
        return rewriter.edit(text, crate)
    if str(path) == "tools/lint.list":
        return "\n".join(list_line(rewriter, mover, line) for line in text.split("\n"))
    return document(rewriter, mover, path, text)


def prepared(rewriter, top):
    """The rewriter, with the files by their paths, and with what calls what: its goals have names of those."""
    rewriter.sources = {str(file.path.relative_to(top)): file for file in rewriter.workspace.files.values()}
    for file in rewriter.workspace.files.values():
        if file.ending == ".rt":
            rewriter.rewritten(file)
    return rewriter


def rename(rewriter, top):
    """The new text of each file, and where it goes."""
    mover, written = Mover(prepared(rewriter, top)), {}
    for path in files_of(top):
        written[path] = new_text(rewriter, mover, top, path), mover.moved(path)
    return written


def write(top, written):
    changed = moved = 0
    for path, (text, new) in written.items():
        old = top / path
        is_same = text is None or text == old.read_text(encoding="utf-8")
        changed, moved = changed + (not is_same), moved + (str(path) != new)
        target = top / new
        target.parent.mkdir(parents=True, exist_ok=True)
        if str(path) != new:
            os.rename(old, target)
        if not is_same:
            mode = target.stat().st_mode
            target.write_text(text, encoding="utf-8")
            os.chmod(target, mode)
    for folder, folders, names in sorted(os.walk(top / "crates"), reverse=True):
        if not os.listdir(folder):
            os.rmdir(folder)
    for folder, folders, names in sorted(os.walk(top / "refusals"), reverse=True):
        if not os.listdir(folder):
            os.rmdir(folder)
    return changed, moved


def options():
    parser = argparse.ArgumentParser(description=__doc__, formatter_class=argparse.RawDescriptionHelpFormatter)
    parser.add_argument("--map", action="append", default=[])
    parser.add_argument("--root", default=crates.TOP, type=pathlib.Path)
    parser.add_argument("--skip", action="store_true")
    parser.add_argument("--wrap", action="store_true")
    mode = parser.add_mutually_exclusive_group()
    for name in ("--check", "--inverse", "--mend"):
        mode.add_argument(name, action="store_true")
    return parser.parse_args()


def main():
    args = options()
    top = args.root.resolve()
    if args.mend:
        return print(*mend_all(top, files_of(top)), sep="\n")
    renames = Renames(Workspace(top, crates.listed(top)), [line for path in args.map for line in read_map(path)])
    if args.inverse:
        return print(*renames.inverse(), sep="\n")
    faults = list(renames.check())
    gone = [f"{line.where}: {' '.join(map(str, line.item))} isn't there" for line in renames.gone]
    rewriter = Rewriter(renames)
    if args.check:
        rename(rewriter, top)
        faults += renames.twins()
        print(*faults, *gone, *sorted(set(rewriter.notes)), sep="\n")
        print(f"{len(faults) + len(gone)} faults, {len(set(rewriter.notes))} to be looked at")
        return sys.exit(1 if faults or gone else 0)
    if faults or gone and not args.skip:
        sys.exit("\n".join([*faults, *gone]))
    print(*gone, sep="\n", end="\n" * bool(gone))
    written = rename(rewriter, top)
    if args.wrap:
        for name, file in rewriter.sources.items():
            text, new = written[pathlib.Path(name)]
            written[pathlib.Path(name)] = wrap(text, file.ending, file.text), new
    changed, moved = write(top, written)
    print(f"{len(renames.new)} names; {changed} files changed, {moved} moved")


if __name__ == "__main__":
    main()
