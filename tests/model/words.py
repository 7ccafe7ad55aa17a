"""The words of a row, read as DIALECT.md spells them."""

import re
from pathlib import Path

from tests.model import state
from tests.model.bytes import ID_LENGTH, digest
from tests.model.entries import Entry, Stat, flags_of_stage
from tests.model.objects import Check, Found, Store
from tests.model.state import State
from tests.model.trees import Tree

# What stands in a field that a row leaves out.
DEFAULT_MODE = "100644"
DEFAULT_ID = "11"

TEXT_PIECE = re.compile(rb"(?:\\([0-9a-f]{2})|([^\\{}]))(?:\{([0-9]+)\})?", re.DOTALL)


def bytes_of(word, folder):
    """The bytes that pieces stand for. Files lie in the folder."""
    data = b""
    for piece in word.split(",") if word != "-" else []:
        if piece.startswith("@"):
            data += part_of_file(piece[1:], folder)
        elif piece.startswith("%"):
            data += digest(piece[1:], data)
        else:
            digits, _, times = piece.partition("*")
            data += bytes.fromhex(digits) * int(times or 1)
    return data


def part_of_file(word, folder):
    name, _, places = word.partition(":")
    data = (Path(folder) / name).read_bytes()
    start, _, end = places.partition("..")
    return data[int(start or 0):int(end or len(data))]


def text_of(word):
    """The bytes that a text stands for."""
    data = word.encode()
    if data == b"{}":
        return b""
    found, at = b"", 0
    while at < len(data):
        piece = TEXT_PIECE.match(data, at)
        if piece is None:
            raise ValueError(f"not a text: {word}")
        escaped, plain, times = piece.groups()
        found += (plain or bytes.fromhex(escaped.decode())) * int(times or 1)
        at = piece.end()
    return found


def items_of(word):
    """The items of a list."""
    if not (word.startswith("[") and word.endswith("]")):
        raise ValueError(f"not a list: {word}")
    return word[1:-1].split(";") if word != "[]" else []


def fields_of(item, count):
    """The fields of an item, with empty ones for those that are left out."""
    fields = item.split(":")
    return fields + [""] * (count - len(fields))


def id_of(word, kind):
    """All digits of an id, or two that all of its bytes have."""
    data = bytes.fromhex(word)
    return data * ID_LENGTH[kind] if len(data) == 1 else data


def time_of(word):
    """Seconds and nanoseconds."""
    seconds, nanoseconds = word.split(".")
    return int(seconds), int(nanoseconds)


def optional_time_of(word):
    return None if word == "-" else time_of(word)


def stat_of(word):
    if not word:
        return Stat()
    ctime, mtime, *others = word.split(",")
    return Stat(*time_of(ctime), *time_of(mtime), *map(int, others))


def entry_of(item, kind):
    path, stage, mode, flags, object_id, stat = fields_of(item, 6)
    return Entry(
        text_of(path),
        id_of(object_id or DEFAULT_ID, kind),
        int(mode or DEFAULT_MODE, 8),
        int(flags or "0", 16) | flags_of_stage(int(stage or "0")),
        stat_of(stat))


def list_of(word, kind):
    """A state with the entries of a list."""
    found = State(kind)
    for item in items_of(word):
        found.push(entry_of(item, kind))
    return found


def state_of(word, kind, folder):
    """The same, or what is read of the bytes of a file."""
    if word.startswith("["):
        return list_of(word, kind)
    return state.read(bytes_of(word, folder), kind)[0]


def tree_of(word, kind):
    """A cached tree of a list of nodes in preorder."""
    root, waiting = None, []
    for item in items_of(word):
        name, count, children, object_id = fields_of(item, 4)
        node_id = id_of(object_id or DEFAULT_ID, kind)
        node = Tree(text_of(name), node_id, None if count == "-" else int(count))
        if waiting:
            waiting.pop().append(node)
        root = root or node
        waiting += [node.children] * int(children)
    return root


def store_of(word):
    """The store of a list of objects."""
    found = {}
    for item in items_of(word):
        first, what, field = fields_of(item, 3)
        if what == "fault":
            found[int(first, 16)] = Found(what, number=int(field))
        else:
            found[int(first, 16)] = Found(what, text_of(field) if field else b"")
    return Store(found)


def check_of(word):
    """A check of names."""
    name, what, number = word.split(":")
    return Check(text_of(name)[0], what == "link", int(number))


def named(words, name):
    """The word behind this name, or None."""
    return words[words.index(name) + 1] if name in words else None


def number_named(words, name):
    word = named(words, name)
    return None if word is None else int(word)


def is_yes(word):
    return {"yes": True, "no": False}[word]

