#!/usr/bin/env python3
# SPDX-License-Identifier: MIT OR Apache-2.0
"""Carries the record of edits that were seen rejected over to a tree that a map made of another one.

Usage: tools/carry.py OLD --map FILE [--map FILE ..] [--draw FILE] [--seed TEXT]

OLD is the tree before, and the maps are those of tools/rename.py or of tools/merge.py. Run it in the tree after, with
its edits mended. A line of OLD's refusals/seen is carried over if its sums are those of OLD, and each file of the
edit's crate is what the maps make of the old file, except layout, comments and the order of imports. If a crate below
differs otherwise, the edit waits for its turn. One in ten of the lines is drawn at random, and the path of its edit is
written to the file (`drawn` without --draw), for refusals/run to judge.
"""
import argparse
import pathlib
import random
import re
import sys

sys.dont_write_bytecode = True
import crates
from imports import ITEMS, leaves_of
from merge import Tree, apply_merge, narrow_function
from merging import read_merges
from rename import files_of
from scopes import hidden

sys.path.insert(0, str(crates.TOP / "refusals"))
import record
from judge import Unusable, read_edit

WAITS = "0" * 16


def plain(text, ending):
    """The text of a source without layout, comments and the order of imports."""
    bare = without_comments(text, ending)
    names = sorted(leaf for item in ITEMS[ending].finditer(bare) for leaf in leaves_of(" ".join(item[4].split())))
    rest = ITEMS[ending].sub("", bare)
    # (a longer line gets commas and braces, which say nothing)
    modules = re.compile(r"^\s*(?:pub )?mod \w+;?", re.M)
    return names, sorted(modules.findall(rest)), re.sub(r"[\s,;{}]", "", modules.sub("", rest))


def without_comments(text, ending):
    """The text without comments; what stands in quotes stays."""
    bare, found, at = hidden(text, ending), [], 0
    for quoted in re.finditer(r'"(?:\\.|[^"\\])*"', text, re.DOTALL):
        # (a quote within a comment is none)
        if bare[quoted.start() - 1 : quoted.start()].strip() or not is_comment(text, quoted.start(), ending):
            found += [bare[at : quoted.start()], quoted[0]]
            at = quoted.end()
    return "".join(found) + bare[at:]


def is_comment(text, at, ending):
    line = text[text.rfind("\n", 0, at) + 1 : at]
    return re.search(r"//" if ending == ".rt" else r"(?<!\S)--", line) is not None


def images(old, maps):
    """What the maps make of a tree: the texts by their new paths, and the new path of each file."""
    merges, narrow, names = [], [], []
    for path in maps:
        for every, some in zip((merges, narrow, names), read_merges(path)):
            every += some
    tree = Tree(old, names)
    for merge in merges:
        if apply_merge(tree, merge):
            sys.exit(f"{merge.where}: tools/merge.py --check lists what is wrong with it")
    for crate, module, name in narrow:
        narrow_function(tree.texts, crate, module, name)
    return tree.texts, {was: path for path, was in tree.was.items()}


def is_source(path):
    return path.startswith("crates/") and path.endswith((".rt", ".antt"))


def differing(texts, top):
    """The crates of which a file isn't what the maps make of the old one."""
    found = set()
    for path, image in texts.items():
        now = top / path
        if is_source(path):
            ending = now.suffix
            if not now.is_file() or plain(now.read_text(encoding="utf-8"), ending) != plain(image, ending):
                found.add(path.split("/")[1])
    others = (str(path) for path in files_of(top))
    return found | {path.split("/")[1] for path in others if is_source(path) and path not in texts}


def below_of(top):
    """All crates that each crate stands on."""
    return {crate: set(crates.needed(crate, top=top)) - {crate} for crate in crates.listed(top)}


def edits_of(top):
    """The edits that refusals/run judges, by their paths."""
    found = {}
    for path in files_of(top):
        if path.suffix == ".edit":
            is_right = path.parts[:2] == ("refusals", "control")
            crate = path.parts[2] if is_right else path.parts[1]
            found[str(path)] = crate, is_right
    return found


def sums_of(top, edits, wanted):
    """The sums of the edits of a tree, as the record has them."""
    import os

    os.chdir(top)
    sums, found = record.Sums(str(top), below_of(top)), {}
    for label in wanted:
        try:
            edit = read_edit(label, *edits[label])
        except (Unusable, OSError):
            continue
        found[label] = edit, sums.of(edit)
    return found


def is_image(old_edit, new_edit):
    """Whether an edit is the other one but for the pieces of lines that are quoted."""
    return old_edit.is_right == new_edit.is_right and len(old_edit.pairs) == len(new_edit.pairs)


def carried(old, top, texts, paths):
    """The lines that are taken over, and why others aren't."""
    seen, old_edits, new_edits = record.seen(str(old)), edits_of(old), edits_of(top)
    others, below = differing(texts, top), below_of(top)
    was = sums_of(old, old_edits, [label for label in seen if label in old_edits])
    moved = {label: paths[label] for label in was}
    now = sums_of(top, new_edits, [label for label in moved.values() if label in new_edits])
    found, left = {}, {}
    for label, (edit, sum) in was.items():
        new = moved[label]
        if seen[label].own != sum.own:
            left[new] = "it wasn't as it was seen"
        elif new not in now or not is_image(edit, now[new][0]):
            left[new] = "it is another edit now"
        elif now[new][0].crate in others:
            left[new] = f"{now[new][0].crate} differs by more than the maps"
        else:
            is_same = seen[label].below == sum.below and not below[now[new][0].crate] & others
            found[new] = record.Sum(now[new][1].own, now[new][1].below if is_same else WAITS)
    return found, left


def main():
    parser = argparse.ArgumentParser(description=__doc__, formatter_class=argparse.RawDescriptionHelpFormatter)
    parser.add_argument("old", type=pathlib.Path)
    parser.add_argument("--map", action="append", default=[])
    parser.add_argument("--draw", default="drawn")
    parser.add_argument("--seed")
    args = parser.parse_args()
    old, top = args.old.resolve(), crates.TOP
    draw, maps = pathlib.Path(args.draw).resolve(), [pathlib.Path(path).resolve() for path in args.map]
    found, left = carried(old, top, *images(old, maps))
    kept = {label: sum for label, sum in record.seen(str(top)).items() if (top / label).is_file()}
    with open(top / record.FILE, "w", encoding="utf-8") as out:
        out.writelines(f"{sum.own} {sum.below} {label}\n" for label, sum in sorted({**kept, **found}.items()))
    drawn = random.Random(args.seed).sample(sorted(found), -(-len(found) // 10))
    draw.write_text("".join(f"{label}\n" for label in sorted(drawn)), encoding="utf-8")
    print(*(f"{label}: {why}" for label, why in sorted(left.items())), sep="\n", end="\n" * bool(left))
    print(f"{len(found)} carried over, {len(left)} not; {len(drawn)} drawn")


if __name__ == "__main__":
    main()
