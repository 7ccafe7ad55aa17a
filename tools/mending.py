# SPDX-License-Identifier: MIT OR Apache-2.0
"""Mends edits whose texts a new layout has broken: the text that is changed stands in one line of the source again."""
import re

TOKEN = re.compile(r"\w+|[^\w\s]")


def tokens_of(text):
    return [(found[0], found.start(), found.end()) for found in TOKEN.finditer(text)]


def places(wanted, tokens):
    """Where the tokens stand among others, which may have a comma more in front of a closing bracket."""
    first = [place for place, token in enumerate(tokens) if token[0] == wanted[0]] if wanted else []
    for start in first:
        at, taken = start, []
        for word in wanted:
            if at < len(tokens) and tokens[at][0] == "," and word in ")]}":
                at += 1
            if at >= len(tokens) or tokens[at][0] != word:
                break
            taken.append(tokens[at])
            at += 1
        else:
            yield taken


def differing(old, new):
    """How many tokens the two have in common at their fronts and at their ends."""
    front = 0
    while front < min(len(old), len(new)) and old[front] == new[front]:
        front += 1
    behind = 0
    while behind < min(len(old), len(new)) - front and old[-1 - behind] == new[-1 - behind]:
        behind += 1
    return front, behind


def in_one_line(text, old, new, taken):
    """The texts of an edit within the line of the source that it changes; nothing where it changes several."""
    old_tokens, new_tokens = tokens_of(old), tokens_of(new)
    front, behind = differing([it[0] for it in old_tokens], [it[0] for it in new_tokens])
    if front + behind == len(old_tokens):
        # (what is only put in stands beside a token)
        front, behind = (front - 1, behind) if front else (front, behind - 1)
    changed = taken[front : len(taken) - behind]
    start, end = changed[0][1], changed[-1][2]
    if "\n" in text[start:end]:
        return None
    left = new_tokens[front : len(new_tokens) - behind]
    piece = new[left[0][1] : left[-1][2]] if left else ""
    line = text.rfind("\n", 0, start) + 1, text.find("\n", end)
    found = text[start:end], piece
    while text.count(found[0]) != 1 and (start, end) != line:
        # (a word more on each side, till the text stands once)
        before = re.search(r"\w*\W?$", text[line[0] : start])
        after = re.match(r"\W?\w*", text[end : line[1]])
        start, end = start - len(before[0]), end + len(after[0])
        found = before[0] + found[0] + after[0], before[0] + found[1] + after[0]
    return found if text.count(found[0]) == 1 else None


def mended_pair(text, old, new):
    """The texts of a pair as the source has them now; nothing where it isn't found."""
    if text.count(old) == 1:
        return old, new
    wanted = [it[0] for it in tokens_of(old)]
    found = list(places(wanted, tokens_of(text)))
    if len(found) != 1 and text.count(old) == 0:
        return None
    several = [pair for taken in found if (pair := in_one_line(text, old, new, taken))]
    return several[0] if len(several) == 1 else None


def mended(edit, sources):
    """The new text of an edit, or None where it can't be mended. The sources are the crate's, by their paths."""
    lines, texts, file, old = [], dict(sources), None, None
    for line in edit.split("\n"):
        sign, _, rest = line.partition(": ")
        if sign == "file":
            file = rest.strip()
        if sign == "old":
            old = rest
        elif line.startswith("new:") and old is not None:
            new = re.sub(r"\A ", "", line[len("new:") :])
            pair = mended_pair(texts[file], old, new) if file in texts else None
            if pair is None:
                return None
            texts[file] = texts[file].replace(*pair)
            if pair == (old, new):
                lines += [f"old: {old}", line]
                old = None
                continue
            lines += [f"old: {pair[0]}", f"new: {pair[1]}"]
            old = None
        else:
            lines.append(line)
    return "\n".join(lines)


def mend_all(top, paths):
    """Mends the edits of a repository, and gives each that it wrote or couldn't mend."""
    sources = {}
    for path in paths:
        if path.suffix != ".edit":
            continue
        crate = path.parts[2] if path.parts[:2] == ("refusals", "control") else path.parts[1]
        folder = top / "crates" / crate
        if crate not in sources:
            files = folder.glob("src/**/*.rt")
            sources[crate] = {str(file.relative_to(folder)): file.read_text(encoding="utf-8") for file in files}
        text = (top / path).read_text(encoding="utf-8")
        new = mended(text, sources[crate])
        if new is None:
            yield f"{path}: not mended"
        elif new != text:
            (top / path).write_text(new, encoding="utf-8")
            yield f"{path}: mended"
