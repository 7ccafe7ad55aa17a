"""Cached trees: read, written and verified, with objects of a store or without."""

from dataclasses import dataclass, field
from typing import Optional

from tests.model.bytes import ID_LENGTH, Unreadable, kind_of_id, null_id, take, up_to
from tests.model.objects import tree_entries

# Levels below the root that can be read.
DEEPEST = 2048
# How much of the memory that a caller limits a node takes.
NODE_SIZE = 104
# More digits than a number of 64 bits has.
MOST_DIGITS = 20
# Names of so many bytes and more are of one length where a tree is in git's order.
LONG_NAME = 256


@dataclass
class Tree:
    """A node: its name below its parent, its id, and how many entries of the index it stands for, or None."""

    name: bytes
    id: bytes
    count: Optional[int]
    children: list = field(default_factory=list)

    def preorder(self):
        """Each node with its level, before those in it."""
        waiting = [(0, self)]
        while waiting:
            level, node = waiting.pop()
            yield level, node
            waiting += [(level + 1, child) for child in reversed(node.children)]


def decimal(digits, is_signed):
    """A number in decimal digits."""
    sign = 1
    if is_signed and digits[:1] in (b"+", b"-"):
        sign = -1 if digits[:1] == b"-" else 1
        digits = digits[1:]
    if not digits or any(digit not in b"0123456789" for digit in digits):
        raise Unreadable
    digits = digits.lstrip(b"0") or b"0"
    if len(digits) > MOST_DIGITS:
        raise Unreadable
    return sign * int(digits)


def read_node(data, kind):
    """One node without its children, their number, and what is left."""
    name, data = up_to(data, 0)
    digits, data = up_to(data, ord(" "))
    count = decimal(digits, True)
    if not -2 ** 31 <= count < 2 ** 31:
        raise Unreadable
    digits, data = up_to(data, ord("\n"))
    children = decimal(digits, False)
    if children >= 2 ** 64:
        raise Unreadable
    object_id = null_id(kind)
    if count >= 0:
        object_id, data = take(data, ID_LENGTH[kind])
    return Tree(name, object_id, count if count >= 0 else None), children, data


def read(data, kind, limit=None):
    """The whole content of the extension: nodes in preorder, and nothing behind them."""
    root, missing, data = read_node(data, kind)
    open_nodes = [(root, missing)]
    check_children(missing, data, limit)
    while open_nodes:
        node, missing = open_nodes.pop()
        if missing == 0:
            sort_children(node)
            continue
        open_nodes.append((node, missing - 1))
        if len(open_nodes) > DEEPEST:
            raise Unreadable
        child, count, data = read_node(data, kind)
        check_children(count, data, limit)
        node.children.append(child)
        open_nodes.append((child, count))
    if data:
        raise Unreadable
    return root


def check_children(count, data, limit):
    """A number of children that passes the limit, or the bytes that are left, spells nothing."""
    if count > len(data) or (limit is not None and NODE_SIZE * count > limit):
        raise Unreadable


def sort_children(node):
    """Sorts children by name, of which no two may be one."""
    node.children.sort(key=lambda child: child.name)
    if len({child.name for child in node.children}) < len(node.children):
        raise Unreadable


def in_git_order(tree):
    """The same tree with shorter names first among the children of each node, and those of one length as they stand.

    Names of 256 bytes and more are of one length here.
    """
    children = sorted(tree.children, key=lambda child: min(len(child.name), LONG_NAME))
    return Tree(tree.name, tree.id, tree.count, [in_git_order(child) for child in children])


def to_bytes(tree):
    """The content of the extension."""
    pieces = []
    for _, node in tree.preorder():
        count = -1 if node.count is None else node.count
        pieces.append(node.name + b"\0%d %d\n" % (count, len(node.children)))
        pieces.append(b"" if node.count is None else node.id)
    return b"".join(pieces)


class TreeFault(Exception):
    """The first fault of a cached tree, by its name, and what it carries."""

    def __init__(self, name, /, **carried):
        super().__init__(name)
        self.name, self.carried = name, carried


def verify(root, store=None):
    """Raises the first fault, and without a store doesn't look at objects.

    A root has no name. At each node, first the names and counts of all children are looked at, and in a store the tree
    of a node with children; then each child is verified, and its own count compared with that of its children. The
    count of the root comes last.
    """
    if root.name:
        raise TreeFault("root with a name", name=root.name)
    verify_counted(root, store)


def verify_counted(node, store):
    if not node.children:
        return
    total, previous = 0, None
    for child in node.children:
        total += child.count or 0
        if total >= 2 ** 32:
            raise TreeFault("count overflow")
        if previous is not None and child.name <= previous:
            raise TreeFault("out of order", parent=node.id, current=child.name, previous=previous)
        previous = child.name
    if store is not None:
        verify_listed(node, store)
    for child in node.children:
        verify_counted(child, store)
    if node.count is not None and total > node.count:
        raise TreeFault("count", actual=total, expected=node.count)


def verify_listed(node, store):
    """The directories of the node's tree are its children. Of a malformed tree those before its fault count."""
    found = store.find(node.id)
    if found is not None and found.what == "memory":
        raise TreeFault("memory")
    if found is None or found.what != "tree":
        raise TreeFault("no tree", id=node.id)
    listed = [entry for entry in tree_entries(found.data, kind_of_id(node.id))[0] if entry.is_tree]
    names = {child.name for child in node.children}
    for entry in listed:
        if entry.name not in names:
            raise TreeFault("no child", parent=node.id, id=entry.id, name=entry.name)
    if len(listed) != len(node.children):
        raise TreeFault("other number", id=node.id, expected=len(listed), actual=len(node.children))


def verify_in_index(root, entry_count, store=None):
    """The same, and then in preorder the first node that counts more entries than there are."""
    verify(root, store)
    for _, node in root.preorder():
        if node.count is not None and node.count > entry_count:
            raise TreeFault("count past the index", name=node.name, actual=node.count, expected=entry_count)
