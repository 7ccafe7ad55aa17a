"""The trees of an index, as git makes them of its entries (git-write-tree, gitformat-index "Cache tree")."""

from tests.model import trees
from tests.model.bytes import digest, kind_of_id, null_id
from tests.model.entries import DIRECTORY, EXECUTABLE, FILE, INTENT_TO_ADD, SUBMODULE, SYMLINK

MODES = (FILE, EXECUTABLE, SYMLINK, SUBMODULE, DIRECTORY)


class NoTree(Exception):
    """An entry has no place in a tree: the name of the refusal, and what it carries."""

    def __init__(self, name, /, **carried):
        super().__init__(name)
        self.name, self.carried = name, carried


def check_name(name, path, is_link, check):
    """A name is some bytes without NUL that the check lets pass."""
    if not name:
        raise NoTree("empty name", path=path)
    if b"\0" in name:
        raise NoTree("nul", path=path)
    if check is not None and name[0] == check.first and (is_link or not check.is_of_links):
        raise NoTree("refused", path=path, number=check.number)


def check_path(path, mode, check):
    """Each name in turn, and how many directories lie above. That of a directory has a slash at its end."""
    *above, last = path.split(b"/")
    for level, name in enumerate(above):
        check_name(name, path, False, check)
        if level == trees.DEEPEST:
            raise NoTree("too deep", path=path)
    if mode == DIRECTORY and above and not last:
        return
    check_name(last, path, mode == SYMLINK, check)
    if mode == DIRECTORY:
        raise NoTree("no slash", path=path)


def check_entry(kind, entry, before, check):
    """Whether an entry has a place in a tree, beside those before it, by their paths."""
    path = entry.path
    if entry.stage:
        raise NoTree("unmerged", path=path)
    if entry.mode not in MODES:
        raise NoTree("mode", path=path, mode=entry.mode)
    check_path(path, entry.mode, check)
    if kind_of_id(entry.id) != kind:
        raise NoTree("another kind", path=path)
    if entry.id == null_id(kind):
        raise NoTree("no object", path=path)
    for place in (place for place, byte in enumerate(path) if byte == ord("/")):
        for other in (path[:place], path[:place + 1]):
            if other in before:
                raise NoTree("both", path=path, file=other)


def staged_of(kind, entries, check):
    """The entries that aren't marked as removed, each with a place in a tree."""
    found = {}
    for entry in entries:
        if not entry.is_removed:
            check_entry(kind, entry, found, check)
            found[entry.path] = entry
    return found.values()


def made(kind, entries, check=None):
    """The cached tree of the entries, and the objects in turn, each as its id and its bytes."""
    root, objects = {}, []
    for entry in staged_of(kind, entries, check):
        *above, name = (entry.path[:-1] if entry.mode == DIRECTORY else entry.path).split(b"/")
        place = root
        for each in above:
            place = place.setdefault(each, {})
        place[name] = entry
    node = node_of(kind, b"", root, objects)
    return node if node else trees.Tree(b"", put(kind, b"", objects), count_of(root)), objects


def put(kind, data, objects):
    """The id of a tree with these bytes."""
    found = digest(kind, b"tree %d\0" % len(data) + data)
    objects.append((found, data))
    return found


def count_of(directory):
    """How many entries lie below, or None where one is only intended to be added."""
    counts = [
        count_of(it) if isinstance(it, dict) else None if it.flags & INTENT_TO_ADD else 1 for it in directory.values()
    ]
    return None if None in counts else sum(counts)


def node_of(kind, name, directory, objects):
    """The node of a directory, or None where nothing in it stands in a tree."""
    children, listed = [], []
    for each, it in directory.items():
        if isinstance(it, dict):
            child = node_of(kind, each, it, objects)
            if child:
                children.append(child)
                listed.append((each + b"/", b"%o %s\0" % (DIRECTORY, each) + child.id))
        elif not it.flags & INTENT_TO_ADD:
            is_tree = it.mode == DIRECTORY
            listed.append((each + b"/" if is_tree else each, b"%o %s\0" % (it.mode, each) + it.id))
            if is_tree:
                children.append(trees.Tree(each, it.id, 1))
    if not listed:
        return None
    data = b"".join(line for _, line in sorted(listed))
    children.sort(key=lambda child: child.name)
    return trees.Tree(name, put(kind, data, objects), count_of(directory), children)


def named(tree):
    """The nodes in preorder, each behind the names that lead to it; none leads to the root."""
    names = []
    for level, node in tree.preorder():
        del names[max(level - 1, 0):]
        names += [node.name] if level else []
        yield tuple(names), node


def walked(tree):
    """The nodes in preorder, each behind its path."""
    for names, node in named(tree):
        yield b"/".join(names), node


def divided(entries):
    """The entries that are merged, or removed, and the others."""
    merged = [it for it in entries if it.is_removed or not it.stage]
    return merged, [it for it in entries if not it.is_removed and it.stage]


def first_wrong(tree, given, unmerged=()):
    """The first node in preorder that has a count, and another id or count than what is given to its directory.

    What is told is its path, the node, and the node that is given there, if one with a count is, and no unmerged entry
    lies below it.
    """
    known = {names: node for names, node in named(given) if node.count is not None}
    steps = [it.path.split(b"/") for it in unmerged]
    disputed = {tuple(parts[:level]) for parts in steps for level in range(len(parts))}
    for names, node in named(tree):
        same = None if names in disputed else known.get(names)
        if node.count is not None and (same is None or (node.id, node.count) != (same.id, same.count)):
            return b"/".join(names), node, same
    return None


def kept(tree, old):
    """The tree with the counts and ids alone that the old one, if there is one, has at the same names."""
    known = {} if old is None else {names: (node.id, node.count) for names, node in named(old)}
    for names, node in list(named(tree)):
        if node.count is None or known.get(names) != (node.id, node.count):
            node.id, node.count = bytes(len(node.id)), None
    return tree


def lines(tree):
    """A line for each directory in preorder: the id, the number of entries or -1, and the path."""
    counts = ((path, node, -1 if node.count is None else node.count) for path, node in walked(tree))
    return b"".join(b"%s %d\t%s\n" % (node.id.hex().encode(), count, path) for path, node, count in counts)
