#!/usr/bin/env python3
# SPDX-License-Identifier: MIT OR Apache-2.0
"""Makes crates parts of other crates, in all that names them.

Usage: tools/merge.py [--map FILE] [--root FOLDER] [--check | --chain]

tools/merging.py describes the lines of the map, which is tools/names/merges.map if it isn't given. Merges are applied
in the order of the map. One whose crate isn't there any more is passed over, so a second run changes nothing.

  --check  changes nothing; lists what collides, what gets too large, and merges that lengthen the longest chain
  --chain  changes nothing; prints the longest chain of crates, by lines of code, definitions and proofs
"""
import argparse
import importlib.machinery
import importlib.util
import os
import pathlib
import re
import sys

sys.dont_write_bytecode = True
import crates
from documents import joined_document, joined_readme
from merging import Paths, Root, joined_imports, lib_of, narrowed, read_merges
from rename import Mover, files_of, prepared, new_text
from renaming import Renames
from rewriting import Rewriter
from scopes import Workspace
from wrapping import wrap

sys.path.insert(0, str(crates.TOP / "refusals"))
from judge import functions_in

MOST_LONGER = 0.03
LINES = re.compile(r"crates/(\w+)/(?:src|specs|proofs)/")
JOINED = re.compile(r"crates/\w+/(?:README\.md|specs/Lib\.antt|proofs/Lib\.antt|src/lib\.rt)")


def rooms():
    """tools/rooms, as a module."""
    path = str(crates.TOP / "tools" / "rooms")
    spec = importlib.util.spec_from_loader("rooms", importlib.machinery.SourceFileLoader("rooms", path))
    module = importlib.util.module_from_spec(spec)
    spec.loader.exec_module(module)
    return module


def with_modules(path, text, names):
    """The text of a crate's README with the new names of its modules, in front of functions."""
    for line in names:
        kind, crate, part, *steps = line.item
        if kind == "module" and part == "src" and str(path) == f"crates/{crate}/README.md":
            text = text.replace(f"`{steps[0][-1]}::", f"`{line.new}::")
    return text


class Tree:
    """The texts of a repository by their paths, and where each file was."""

    def __init__(self, top, names):
        self.top, self.texts, self.was = top, {}, {}
        renames = Renames(Workspace(top, crates.listed(top)), names) if names else None
        mover = Mover(prepared(Rewriter(renames), top)) if names else None
        self.faults = [*renames.check()] if names else []
        self.gone = [line.where for line in renames.gone] if names else []
        for path in files_of(top):
            text = self.read(path)
            if text is not None:
                new = with_modules(path, new_text(mover.rewriter, mover, top, path), names) if names else text
                place = mover.moved(path) if names else str(path)
                self.texts[place], self.was[place] = new, str(path)

    def read(self, path):
        try:
            return (self.top / path).read_text(encoding="utf-8")
        except UnicodeDecodeError:
            return None

    def put(self, old, new, text):
        """Gives a file another path and another text."""
        if old != new:
            self.was[new] = self.was.pop(old)
            del self.texts[old]
        self.texts[new] = text

    def drop(self, path):
        del self.texts[path], self.was[path]

    def write(self, before):
        """Writes what differs, and returns how many files have another text, and how many another path."""
        changed = moved = 0
        for path in sorted(before - set(self.was.values())):
            os.remove(self.top / path)
        for path, old in self.was.items():
            target, source = self.top / path, self.top / old
            if path != old:
                target.parent.mkdir(parents=True, exist_ok=True)
                os.rename(source, target)
                moved += 1
            if target.read_text(encoding="utf-8") != self.texts[path]:
                mode = target.stat().st_mode
                target.write_text(self.texts[path], encoding="utf-8")
                os.chmod(target, mode)
                changed += 1
        for part in ("crates", "refusals"):
            for folder, _, _ in sorted(os.walk(self.top / part), reverse=True):
                if not os.listdir(folder):
                    os.rmdir(folder)
        return changed, moved


# ---- crates.txt


def uses_in(text):
    """The crates that each crate of crates.txt uses."""
    rows = [line.partition("#")[0] for line in text.splitlines()]
    return {row.partition(":")[0].split()[0]: row.partition(":")[2].split() for row in rows if ":" in row}


def merged_list(text, merge):
    """The text of crates.txt after a merge, with each crate after those that it uses; None if there is a cycle."""
    source, target = merge.source, merge.target
    lines = {line.partition(":")[0].split()[0]: line for line in text.splitlines() if line.partition("#")[0].strip()}
    uses, heads = uses_in(text), {name: line.partition(":")[0] for name, line in lines.items()}
    touched = {name for name, its in uses.items() if source in its} | {target}
    uses[target] = [*uses[target], *uses.pop(source)]
    uses = {name: [target if it == source else it for it in its] for name, its in uses.items()}
    uses = {name: [it for it in dict.fromkeys(its) if it != name] for name, its in uses.items()}
    order = ordered(uses)
    if order is None:
        return None
    comments = [line for line in text.splitlines() if line.startswith("#")]
    place = {name: at for at, name in enumerate(order)}
    for name in touched - {source}:
        uses[name].sort(key=lambda it: (it not in place, -place.get(it, 0), it))
    rows = [f"{heads[name]}:{''.join(f' {it}' for it in uses[name])}" for name in order]
    return "\n".join([*comments, *rows]) + "\n"


def ordered(uses):
    """The crates, each after those that it uses and else as they were; None if there is a cycle."""
    done, around = {}, set()

    def visit(name):
        if name in around:
            return False
        if name in done:
            return True
        around.add(name)
        if not all(visit(it) for it in uses[name] if it in uses):
            return False
        around.discard(name)
        done[name] = True
        return True

    return [*done] if all(visit(name) for name in uses) else None


# ---- how large crates are


def weights(texts):
    """The lines of code, definitions and proofs of each crate."""
    found = {}
    for path, text in texts.items():
        crate = LINES.match(path)
        if crate:
            found[crate[1]] = found.get(crate[1], 0) + text.count("\n")
    return found


def chain(texts):
    """The longest chain of crates, by lines: how many it has, and the crates bottom up."""
    uses, lines, best = uses_in(texts["crates.txt"]), weights(texts), {}
    for name in ordered(uses):
        below = max((best[it] for it in uses[name] if it in best), default=(0, []))
        best[name] = below[0] + lines.get(name, 0), [*below[1], name]
    return max(best.values())


def too_large(texts, crate, looks):
    """What a crate has more of than tools/rooms lets it have."""
    front = f"crates/{crate}/src/"
    sources = {path: text for path, text in texts.items() if path.startswith(front)}
    functions = sum(len(functions_in(path, text)) for path, text in sources.items())
    lines = sum(len(looks.code_lines(text)) for text in sources.values())
    if functions > looks.MOST_FUNCTIONS or lines > looks.MOST_LINES:
        yield f"{crate} would have {functions} functions and {lines} lines"


# ---- a merge


def role_of(path, merge):
    crate = path.split("/")[2 if path.startswith("refusals/control/") else 1] if "/" in path else ""
    return {merge.source: "source", merge.target: "target"}.get(crate, "other")


def depth_of(path):
    """How many modules deep a source is."""
    steps = path.split("/")[3:]
    return 0 if steps in (["lib.rt"], ["main.rt"]) else len(steps) - (steps[-1] == "mod.rt")


def new_text_of(paths, path, text):
    """The new text of a file."""
    role = role_of(path, paths.merge)
    if role == "other" and paths.source not in text:
        return text
    if path.endswith(".edit"):
        return paths.edit(text, role)
    if path.endswith(".rt") and path.startswith("crates/"):
        new = paths.in_prose(paths.in_definitions(paths.in_code(text, role, depth_of(path))))
        return wrap(joined_imports(new, ".rt"), ".rt", text)
    if path.endswith(".antt"):
        return wrap(joined_imports(paths.in_prose(paths.in_definitions(text)), ".antt"), ".antt", text)
    if path == "tools/lint.list":
        return "\n".join(list_line(paths, line) for line in text.split("\n"))
    if path.endswith(".md"):
        return joined_document(paths, path, text)
    return paths.in_prose(paths.in_definitions(text))


def list_line(paths, line):
    """The new text of a line of tools/lint.list."""
    kind, _, rest = line.partition(" ")
    crate, sign, name = rest.partition("::")
    if kind == "function" and crate == paths.source:
        front = paths.front(name.partition("::")[0])
        return f"function {paths.target}::{front + '::' if front else ''}{name}"
    return paths.in_prose(line)


def merge_roots(tree, paths):
    """Joins the root files, the lists of modules, and the READMEs of both crates."""
    source, target, texts = paths.source, paths.target, tree.texts
    module = paths.module_text()
    texts[lib_of(target)] = paths.root_text(texts[lib_of(target)])
    if module is None:
        tree.drop(lib_of(source))
    else:
        tree.put(lib_of(source), f"crates/{target}/src/{paths.module}.rt", module)
    for part in ("specs", "proofs"):
        old, new = f"crates/{source}/{part}/Lib.antt", f"crates/{target}/{part}/Lib.antt"
        if old in texts and new in texts:
            texts[new] = texts[new].rstrip("\n") + "\n" + paths.in_definitions(texts[old])
            tree.drop(old)
        elif old in texts:
            tree.put(old, new, paths.in_definitions(texts[old]))
    old, new = f"crates/{source}/README.md", f"crates/{target}/README.md"
    given = tree.top / "tools" / "names" / "readmes" / f"{target}.md"
    both = joined_readme(paths, paths.in_prose(texts[new]), paths.in_prose(texts[old]))
    texts[new] = given.read_text(encoding="utf-8") if given.is_file() else both
    tree.drop(old)


def collisions(tree, paths):
    """The files of a crate that would take the place of others, and names that its new root has already."""
    for path in tree.texts:
        new = paths.moved(path)
        if new != path and new.lower() in {it.lower() for it in tree.texts} and not JOINED.fullmatch(path):
            yield f"{path} would become {new}, which is there"
    root = Root(tree.texts[lib_of(paths.target)])
    there = {it.lower(): it for it in (*root.items, *root.exported, *root.modules)}
    added = {*paths.root.modules, *paths.root.exported, *([paths.module] if paths.root.items else ())}
    both = [*paths.root.exported & {*root.items, *root.exported}, *added & {*root.modules}]
    yield from (f"{paths.target} has {name} already" for name in both)
    if paths.root.items and not paths.module:
        yield f"the root of {paths.source} has items, so the map needs a module: {', '.join(sorted(paths.root.items))}"


def apply_merge(tree, merge):
    """Merges a crate into another one, and returns what is wrong with that."""
    texts = tree.texts
    if lib_of(merge.source) not in texts:
        return [f"there is no crate {merge.source}"]
    listed = merged_list(texts["crates.txt"], merge)
    if listed is None:
        return ["there would be a cycle of crates"]
    paths = Paths(merge, texts)
    faults = [*collisions(tree, paths)]
    if faults:
        return faults
    for path in sorted(texts):
        if path != lib_of(merge.source) and not (JOINED.fullmatch(path) and role_of(path, merge) == "source"):
            new = "crates.txt" if path == "crates.txt" else paths.moved(path)
            tree.put(path, new, listed if path == "crates.txt" else new_text_of(paths, path, texts[path]))
    merge_roots(tree, paths)
    left = [path for path, text in texts.items() if re.search(rf"\b{merge.source}\b", text)]
    return [*paths.faults, *(f"{path} names {merge.source} yet" for path in left if path != "CHANGELOG.md")]


def apply_all(tree, merges):
    """Applies the merges in their order, and gives what is wrong with each."""
    looks = rooms()
    for merge in merges:
        if lib_of(merge.source) not in tree.texts:
            print(f"{merge.where}: {merge.source} isn't there")
            continue
        before = chain(tree.texts)[0]
        faults = apply_merge(tree, merge)
        after = chain(tree.texts)[0]
        faults += too_large(tree.texts, merge.target, looks)
        if after > before * (1 + MOST_LONGER):
            faults.append(f"the longest chain would have {after} lines, and has {before}")
        print(f"{merge.source} -> {merge.target}: the longest chain has {after} lines ({after - before:+})")
        yield from (f"{merge.where}: {fault}" for fault in faults)


def narrow_function(texts, crate, module, name):
    """Makes a function `pub(crate)`, in its source and in the edits that quote it."""
    file = f"crates/{crate}/src/{module}.rt"
    if file in texts:
        texts[file] = narrowed(texts[file], name)
    for path, text in texts.items():
        if path.endswith(".edit") and crate in path.split("/")[1:3] and f"file: src/{module}.rt" in text:
            texts[path] = narrowed(text, name)


def options():
    parser = argparse.ArgumentParser(description=__doc__, formatter_class=argparse.RawDescriptionHelpFormatter)
    parser.add_argument("--map", default=str(crates.TOP / "tools" / "names" / "merges.map"))
    parser.add_argument("--root", default=crates.TOP, type=pathlib.Path)
    mode = parser.add_mutually_exclusive_group()
    for name in ("--check", "--chain"):
        mode.add_argument(name, action="store_true")
    return parser.parse_args()


def main():
    args = options()
    merges, narrow, names = read_merges(args.map)
    top = args.root.resolve()
    if args.chain:
        count, longest = chain(Tree(top, []).texts)
        return print(f"{count} lines: {' '.join(longest)}")
    tree = Tree(top, names)
    before = set(tree.was.values())
    faults = [*tree.faults, *apply_all(tree, merges)]
    for crate, module, name in narrow:
        narrow_function(tree.texts, crate, module, name)
    count = len(uses_in(tree.texts["crates.txt"]))
    print(*faults, sep="\n", end="\n" * bool(faults))
    if args.check or faults:
        print(f"{len(faults)} faults; {count} crates")
        return sys.exit(1 if faults else 0)
    changed, moved = tree.write(before)
    print(f"{count} crates; {changed} files changed, {moved} moved")


if __name__ == "__main__":
    main()
