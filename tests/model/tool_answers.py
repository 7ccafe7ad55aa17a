"""What `index-tool` has to answer to a command on a file of a folder: the fault's text only as far as it is defined."""

import json
from dataclasses import dataclass
from typing import Optional

from tests.model import document, lookups, made_trees, merging, parts, shown, state, trees, writing
from tests.model.files import Unread
from tests.model.files import index_at as read_at

# The file that commands which write one write.
OUT = "out"


@dataclass
class Answer:
    """The status, the standard output (None: the model doesn't say which), how the line on standard error begins, and
    the file that is written."""

    status: int = 0
    out: Optional[bytes] = b""
    fault: bytes = b""
    written: Optional[bytes] = None


class Refused(Exception):
    """How the line of a fault begins."""


def answer(command, kind, name, files):
    """The answer to a command on the file of this name, beside others that are given by their names."""
    try:
        if command == "salvage":
            return salvaged(kind, name, files)
        if command in OF_BYTES:
            return OF_BYTES[command](files[name], kind, name)
        return OF_INDICES[command](index_at(kind, name, files), name)
    except Refused as fault:
        return Answer(1, fault=f"index-tool: {fault}".encode())


def index_at(kind, name, files):
    """The index in a file, with the shared index that it links to."""
    try:
        return read_at(kind, name, files)[0]
    except Unread as missing:
        raise Refused(f"{missing}: ") from None
    except state.Fault:
        raise Refused(f"{name}: ") from None
    except merging.MergeFault as fault:
        raise Refused(f"{name}: the link to a shared index can't be followed: {fault}\n") from None


def listed(found, _):
    """A line for each entry: the mode, the id, the stage, a tab and the path."""
    lines = [b"%06o %s %d\t%s\n" % (it.mode, it.id.hex().encode(), it.stage, it.path) for it in found.entries]
    return Answer(out=b"".join(lines))


def checked(found, name):
    """Whether the entries increase and the cached tree holds together and fits them."""
    place = lookups.first_out_of_order(found.entries)
    if place is not None:
        raise Refused(f"{name}: entry {place}, ")
    try:
        if found.tree is not None:
            trees.verify_in_index(found.tree, len(found.entries))
    except trees.TreeFault:
        raise Refused(f"{name}: ") from None
    return Answer(out=b"ok\n")


def rewritten(is_version_4, is_kept=False):
    """The command that writes the index in version 4, or in the smallest, unless it has that version and is kept."""
    def made(found, _):
        is_four = is_version_4 or is_kept and found.version == 4
        options = writing.Options(is_version_4=is_four, is_kept=is_kept)
        try:
            return Answer(written=writing.image(found, options)[2])
        except writing.NulInPath:
            raise Refused(f"{OUT}: a path of the index has a NUL byte") from None
    return made


def made_of(found, entries, name):
    """The cached tree of some entries of an index, made anew."""
    place = lookups.first_out_of_order(found.entries)
    if place is not None:
        raise Refused(f"{name}: entry {place}, ")
    try:
        return made_trees.made(found.kind, entries)[0]
    except made_trees.NoTree:
        raise Refused(f"{name}: ") from None


def treed(found, name):
    """A line for each directory of the trees that the entries make."""
    return Answer(out=made_trees.lines(made_of(found, found.entries, name)))


def tree_checked(found, name):
    """What is checked, and whether each node that has a count has the id and the count that the entries give."""
    answer = checked(found, name)
    if found.tree is not None:
        merged, unmerged = made_trees.divided(found.entries)
        if made_trees.first_wrong(found.tree, made_of(found, merged, name), unmerged) is not None:
            raise Refused(f"{name}: ")
    return answer


def retreed(found, name):
    """The index with a cached tree made anew, of the counts that its own has too."""
    found.tree = made_trees.kept(made_of(found, found.entries, name), found.tree)
    return rewritten(False, True)(found, name)


def mapped(data, kind, name):
    """A line for each part up to the first fault, and one for the rest."""
    found = parts.parts_of(data, kind)
    if found.is_damaged:
        return Answer(1, found.lines(), f"index-tool: {name}: at byte {found.last}: ".encode())
    return Answer(out=found.lines())


def drawn(data, kind, name):
    """A picture of the parts, of which `tests/pictures` says what is in it."""
    answer = mapped(data, kind, name)
    answer.out = None
    return answer


def shown_whole(data, kind, name):
    """A line for each thing that a file holds by itself."""
    try:
        return Answer(out=shown.shown(*state.read_file(data, kind), state.read_marks(data, kind)))
    except state.Fault:
        raise Refused(f"{name}: ") from None


def shown_as_json(data, kind, name):
    """The same as JSON."""
    try:
        told = document.document(*state.read_file(data, kind), state.read_marks(data, kind))
    except state.Fault:
        raise Refused(f"{name}: ") from None
    return Answer(out=json.dumps(told, ensure_ascii=False, separators=(",", ":")).encode() + b"\n")


def salvaged(kind, name, files):
    """What is saved of the entries before the first at fault, and of a shared index, with a line that tells of them."""
    found = parts.parts_of(files[name], kind)
    if len(found.found) == 1:
        raise Refused(f"{name}: ")
    wanted = state.State(kind)
    kept, counts, _ = found.saved(kind, files)
    for entry in kept:
        wanted.push(entry)
    options = writing.Options(is_kept=True, is_version_4=found.version == 4)
    return Answer(fault=f"index-tool: {name}: ".encode() + counts, written=writing.image(wanted, options)[2])


# The commands that look at an index with its shared one, those that look at the bytes of a file, and one that looks at
# both.
OF_INDICES = {
    "list": listed,
    "check": checked,
    "trees": treed,
    "check-trees": tree_checked,
    "rewrite": rewritten(False),
    "rewrite4": rewritten(True),
    "rewrite-trees": retreed,
}
OF_BYTES = {"map": mapped, "map-svg": drawn, "show": shown_whole, "show-json": shown_as_json}
COMMANDS = [*OF_INDICES, *OF_BYTES, "salvage"]
