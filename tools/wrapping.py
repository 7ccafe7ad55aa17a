# SPDX-License-Identifier: MIT OR Apache-2.0
"""Breaks lines that are longer than they may be, in definitions, proofs and comments."""
import re

COLUMNS = 120
COMMENT = re.compile(r"( *)(///?!?|--) ")


def wrapped_comment(lines, at):
    """The lines of a paragraph of comments from a line that is too long on, and where it ends."""
    head = COMMENT.match(lines[at])
    front, end = head[0], at
    # (a paragraph goes on while its lines are filled)
    while end < len(lines) and lines[end].startswith(front) and (end == at or len(lines[end - 1]) > COLUMNS - 25):
        end += 1
    words = " ".join(line[len(front) :] for line in lines[at:end]).split(" ")
    found = [front + words[0]]
    for word in words[1:]:
        if len(found[-1]) + 1 + len(word) <= COLUMNS:
            found[-1] += " " + word
        else:
            found.append(front + word)
    return found, end


def split_import(line):
    """An import in two, where it is too long."""
    front, names = line.split("{", 1)
    names = names.rstrip("};").split(", ")
    end = ";" if line.endswith(";") else ""
    found = [[]]
    for name in names:
        if found[-1] and len(front) + len(", ".join([*found[-1], name])) + 3 > COLUMNS:
            found.append([])
        found[-1].append(name)
    return [f"{front}{{{', '.join(each)}}}{end}" for each in found]


def broken(line):
    """A line of a term in two, the second further in."""
    indent = len(line) - len(line.lstrip())
    for sign in (" → ", " × ", " ∙ ", " "):
        at = line.rfind(sign, indent + 40, COLUMNS)
        if at > 0 and line[:at].count('"') % 2 == 0:
            return [line[:at], " " * (indent + 4) + line[at + 1 :]]
    return [line]


def wrap(text, ending, old):
    """The text with the lines broken that got too long: those of the old text, line by line, were short enough."""
    lines, before, found, at = text.split("\n"), old.split("\n"), [], 0
    while at < len(lines):
        line, was = lines[at], before[at] if len(before) == len(lines) else ""
        if len(line) <= COLUMNS or len(was) > COLUMNS:
            found.append(line)
            at += 1
        elif COMMENT.match(line):
            several, at = wrapped_comment(lines, at)
            found += several
        else:
            is_import = re.match(r" *(?:pub )?(?:ghost )?use [^{]*\{[^{}]*\};?$", line)
            found += split_import(line) if is_import else broken(line) if ending == ".antt" else [line]
            at += 1
    return "\n".join(found)
