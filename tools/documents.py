# SPDX-License-Identifier: MIT OR Apache-2.0
"""Joins what documents have of two crates of which one becomes part of the other."""
import re

COLUMNS = 120
LIST = re.compile(r"(?:`(\w+)` over )?`\w+`(?:(?:, and |, | and )`\w+`)+")
BULLET = re.compile(r"^( *)- (?:(?!\n *- |\n\n).)*\n", re.MULTILINE | re.DOTALL)
# What an item says of a crate, up to the end of the clause.
SAID = r"`%s`:\s+((?:[^`;.]|`[^`]*`(?!:)|\.(?!\s))+)"


def without_twins(found):
    """A list of crates without those that are in it already, or that are over themselves."""
    front, names = (found[1], found[0].partition(" over ")[2]) if found[1] else ("", found[0])
    every = re.findall(r"`\w+`", names)
    left = [name for name in dict.fromkeys(every) if name != f"`{front}`"]
    if left == every:
        return found[0]
    is_and = " and " in names and len(left) > 1
    joined = f"{', '.join(left[:-1])} and {left[-1]}" if is_and else ", ".join(left)
    return f"`{front}` over {joined}" if front else joined


def filled(found):
    """An item of a list, with its lines filled."""
    indent = found[1]
    lines, words = [], found[0].split()
    line = indent + words[0]
    for word in words[1:]:
        if len(line) + 1 + len(word) > COLUMNS:
            lines.append(line)
            line = f"{indent}  {word}"
        else:
            line = f"{line} {word}"
    return "\n".join([*lines, line]) + "\n"


def joined_items(text, source, target):
    """The text of a list of crates, with what is said of one crate in the item of the other."""
    said = re.search(SAID % source, text)
    place = re.search(SAID % target, text)
    if not said or not place:
        return text
    front = re.search(r"(?:^ *- |[;.]\s+)\Z", text[: said.start()], re.MULTILINE)
    is_first = front and front[0].rstrip().endswith("-")
    behind = re.match(r"[;.](?:\s*)", text[said.end() :])
    if not front or not behind:
        return text
    is_last = re.match(r"[;.]\n(?: *- |\n)", text[said.end() :]) is not None
    if is_first and is_last:
        start, end = front.start(), said.end() + 2
    elif is_last and front[0].startswith("."):
        start, end = front.start() + 1, said.end() + 1
    elif is_first or front[0].startswith("."):
        start, end = said.start(), said.end() + len(behind[0])
    else:
        start, end = front.start(), said.end()
    added = "; " + " ".join(said[1].split())
    changes = sorted([(start, end, ""), (place.end(), place.end(), added)], reverse=True)
    for start, end, new in changes:
        text = text[:start] + new + text[end:]
    return BULLET.sub(lambda it: filled(it) if added in " ".join(it[0].split()) else it[0], text)


def joined_document(paths, path, text):
    """The new text of a document."""
    if path == "docs/ARCHITECTURE.md":
        text = joined_items(text, paths.source, paths.target)
    return LIST.sub(without_twins, paths.in_prose(paths.in_definitions(text)))


def joined_readme(paths, text, other):
    """The text of a README with another one after it, under a heading."""
    body = other.partition("\n")[2].strip("\n")
    return f"{text.rstrip()}\n\n## {paths.merge.heading}\n\n{body}\n"
