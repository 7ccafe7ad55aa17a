"""Refusals as answers spell them, by DIALECT.md."""

from tests.model.show import text


def of_link(fault):
    """The fault of a link."""
    if fault.bitmap is None:
        return f"link: {fault.text}"
    return f"link, {fault.bitmap} bitmap: {fault.text}"


def of_digest(actual, expected):
    return f"digest {actual.hex()}, not {expected.hex()}"


def of_index(fault):
    """The fault of a whole index."""
    spellings = {
        "header": lambda text: f"header: {text}",
        "version": lambda number: f"version {number}",
        "limit": lambda: "past the limit",
        "entry": lambda place: f"entry {place}",
        "mandatory": lambda signature: f"mandatory {text(signature)}",
        "link": of_link,
        "trailer": lambda actual, expected: f"trailer of {actual} bytes, not {expected}",
        "digest": of_digest,
    }
    return spellings[fault.name](**fault.carried)


def of_tree(fault):
    """The fault of a cached tree."""
    spellings = {
        "root with a name": lambda name: f"a root named {text(name)}",
        "count": lambda actual, expected: f"{actual} within {expected}",
        "count overflow": lambda: "too many",
        "out of order": lambda parent, current, previous:
            f"{text(current)} behind {text(previous)} in {parent.hex()}",
        "count past the index": lambda name, actual, expected: f"{text(name)} counts {actual} of {expected}",
        "no tree": lambda id: f"no tree {id.hex()}",
        "no child": lambda parent, id, name: f"no child {text(name)} ({id.hex()}) in {parent.hex()}",
        "other number": lambda id, expected, actual:
            f"{expected} directories in {id.hex()}, {actual} children",
        "memory": lambda: "memory",
    }
    return spellings[fault.name](**fault.carried)


def of_leaves(fault):
    """Why a tree of a store has no list of leaves."""
    spellings = {
        "refused": lambda path, number: f"{text(path)} refused by {number}",
        "no object": lambda id: f"no object {id.hex()}",
        "no tree": lambda id: f"no tree {id.hex()}",
        "store": lambda id, number: f"{number} of the store at {id.hex()}",
        "malformed": lambda id: f"malformed {id.hex()}",
        "too many objects": lambda: "too many objects",
        "memory": lambda: "memory",
    }
    return spellings[fault.name](**fault.carried)


def of_no_tree(fault):
    """Why entries have no trees."""
    spellings = {
        "unmerged": lambda path: f"{text(path)} isn't merged",
        "mode": lambda path, mode: f"{text(path)} of mode {mode:o}",
        "empty name": lambda path: f"{text(path)} with an empty name",
        "nul": lambda path: f"{text(path)} with a nul",
        "refused": lambda path, number: f"{text(path)} refused by {number}",
        "no slash": lambda path: f"{text(path)} without its slash",
        "too deep": lambda path: f"{text(path)} too deep",
        "another kind": lambda path: f"{text(path)} of another kind",
        "no object": lambda path: f"{text(path)} of no object",
        "both": lambda path, file: f"{text(path)} in {text(file)}",
    }
    return spellings[fault.name](**fault.carried)


def of_tree_ids(path, node, given):
    """A node that tells something else than what the entries give."""
    other = "nothing" if given is None else f"{given.id.hex()} {given.count}"
    return f"{text(path)} has {node.id.hex()} {node.count}, not {other}"


def of_order(entries, place):
    """The entry at this place isn't above the one before it."""
    current, previous = entries[place], entries[place - 1]
    return f"{text(current.path)}:{current.stage} at {place} behind {text(previous.path)}:{previous.stage}"
