"""Objects of a store: trees, which list entries, and what of them makes an index."""

from dataclasses import dataclass
from typing import Optional

from tests.model.bytes import ID_LENGTH, Unreadable, take, up_to
from tests.model.entries import EXECUTABLE, FILE, SUBMODULE, SYMLINK, Entry

# Bits of a mode: what an entry is, and what a tree, a link and a file have there.
TYPE, TREE, LINK, PLAIN = 0o170000, 0o040000, 0o120000, 0o100000
OWNER_RUNS = 0o100


@dataclass
class Found:
    """What a store has for an id: an object of a kind, `fault` with a number, or `memory`."""

    what: str
    data: bytes = b""
    number: int = 0


@dataclass
class TreeEntry:
    """What a name in a tree stands for."""

    mode: int
    name: bytes
    id: bytes

    @property
    def is_tree(self):
        return self.mode & TYPE == TREE

    @property
    def is_link(self):
        return self.mode & TYPE == LINK

    @property
    def index_mode(self):
        """The mode of its kind in an index."""
        if self.is_link:
            return SYMLINK
        if self.mode & TYPE == PLAIN:
            return EXECUTABLE if self.mode & OWNER_RUNS else FILE
        return SUBMODULE


class Store:
    """What there is for the ids that begin with each byte."""

    def __init__(self, objects):
        self.objects = objects

    def find(self, object_id) -> Optional[Found]:
        return self.objects.get(object_id[0])


def tree_entry(data, kind):
    """The entry at the front of a tree, and what is left."""
    digits, data = up_to(data, ord(" "))
    if not digits or any(digit not in b"01234567" for digit in digits) or int(digits, 8) >= 2 ** 16:
        raise Unreadable
    name, data = up_to(data, 0)
    if not name:
        raise Unreadable
    object_id, data = take(data, ID_LENGTH[kind])
    return TreeEntry(int(digits, 8), name, object_id), data


def tree_entries(data, kind):
    """The entries of a tree up to its end, or to where it is malformed, and whether it is."""
    found = []
    while data:
        try:
            entry, data = tree_entry(data, kind)
        except Unreadable:
            return found, True
        found.append(entry)
    return found, False


class LeavesFault(Exception):
    """Why there is no list of leaves: the name of the fault, and what it carries."""

    def __init__(self, name, /, **carried):
        super().__init__(name)
        self.name, self.carried = name, carried


@dataclass
class Check:
    """Refuses names that begin with a byte, as those of links or not, by a number."""

    first: int
    is_of_links: bool
    number: int

    def look_at(self, path, entry):
        is_asked = entry.is_link or not self.is_of_links
        if is_asked and entry.name[0] == self.first:
            raise LeavesFault("refused", path=path, number=self.number)


class Leaves:
    """The leaves of a tree in preorder, where so many objects may be read."""

    def __init__(self, store, check, most, kind):
        self.store, self.check, self.left, self.kind = store, check, most, kind

    def of_tree(self, object_id, prefix=b""):
        """Those of one tree and all below it, each with its path."""
        for entry in self.read(object_id):
            path = prefix + entry.name
            if self.check is not None:
                self.check.look_at(path, entry)
            if entry.is_tree:
                yield from self.of_tree(entry.id, path + b"/")
            else:
                yield Entry(path, entry.id, entry.index_mode, 0)

    def read(self, object_id):
        if self.left == 0:
            raise LeavesFault("too many objects")
        self.left -= 1
        found = self.store.find(object_id)
        if found is None:
            raise LeavesFault("no object", id=object_id)
        if found.what == "memory":
            raise LeavesFault("memory")
        if found.what == "fault":
            raise LeavesFault("store", id=object_id, number=found.number)
        if found.what != "tree":
            raise LeavesFault("no tree", id=object_id)
        listed, is_malformed = tree_entries(found.data, self.kind)
        if is_malformed:
            raise LeavesFault("malformed", id=object_id)
        return listed
