"""The bytes of an index that is written."""

from dataclasses import dataclass

from tests.model import extensions, trees, untracked_cache
from tests.model.bytes import digest, null_id, offset_number_bytes
from tests.model.entries import EXTENDED, LENGTH_BITS, first_word, second_word
from tests.model.state import SIGNATURE


class NulInPath(Exception):
    """A path that version 4 can't spell."""


@dataclass
class Options:
    """What is written of a state. Where all that fits is kept, nothing is asked of a cached tree and an end marker."""

    with_tree: bool = True
    with_end_marker: bool = True
    with_digest: bool = True
    is_version_4: bool = False
    is_kept: bool = False


def fixed_bytes(entry):
    """All of an entry before its path."""
    stat = list(entry.stat)
    values = stat[:6] + [entry.mode] + stat[6:]
    word = first_word(entry.flags) | min(len(entry.path), LENGTH_BITS)
    pieces = [value.to_bytes(4, "big") for value in values] + [entry.id, word.to_bytes(2, "big")]
    if entry.flags & EXTENDED:
        pieces.append(second_word(entry.flags).to_bytes(2, "big"))
    return b"".join(pieces)


def entry_bytes(entry):
    """An entry with the one NUL behind its path."""
    return fixed_bytes(entry) + entry.path + b"\0"


def padded_bytes(entry):
    """An entry of versions 2 and 3, with as many NULs as make its length a multiple of eight."""
    data = entry_bytes(entry)
    return data + bytes(-len(data) % 8)


def compressed_bytes(entry, previous):
    """An entry of version 4 behind one with the path `previous`."""
    common = 0
    while common < min(len(previous), len(entry.path)) and previous[common] == entry.path[common]:
        common += 1
    tail = offset_number_bytes(len(previous) - common) + entry.path[common:] + b"\0"
    return fixed_bytes(entry) + tail


def version_of(state, options):
    """The version of the file: an entry that is left out counts as well."""
    if options.is_version_4:
        return 4
    return 3 if any(entry.flags & EXTENDED for entry in state.entries) else 2


def entries_bytes(written, options):
    if not options.is_version_4:
        return b"".join(padded_bytes(entry) for entry in written)
    if any(b"\0" in entry.path for entry in written):
        raise NulInPath
    pieces, previous = [], b""
    for entry in written:
        pieces.append(compressed_bytes(entry, previous))
        previous = entry.path
    return b"".join(pieces)


def item_bytes(signature, content):
    """An extension."""
    return signature + len(content).to_bytes(4, "big") + content


def kept_items(state, count):
    """All that a state has and that fits so many entries that are written, in git's order.

    An untracked cache with an empty name and a monitor's answer that isn't of the entries are left out. What speaks of
    the entries is left out beside one that isn't written.
    """
    fits = state.fits and count == len(state.entries)
    items = []
    if state.tree is not None and fits:
        items.append((extensions.TREE, trees.to_bytes(trees.in_git_order(state.tree))))
    if state.resolve_undo is not None:
        items.append((extensions.RESOLVE_UNDO, extensions.resolve_undo_bytes(state.resolve_undo)))
    cache, monitor = state.untracked, state.monitor
    if cache is not None and fits and all(name for each in cache.directories for name in each.untracked):
        items.append((extensions.UNTRACKED, untracked_cache.to_bytes(cache, state.kind)))
    if monitor is not None and fits and monitor.dirty.is_within(count):
        items.append((extensions.MONITOR, extensions.monitor_bytes(monitor)))
    return items + [(extensions.SPARSE, b"")] * state.is_sparse


def chosen_items(state, options):
    """The cached tree where it is asked for, and the mark of a sparse index."""
    tree = [(extensions.TREE, trees.to_bytes(state.tree))] if state.tree is not None and options.with_tree else []
    return tree + [(extensions.SPARSE, b"")] * state.is_sparse


def body(state, options=Options()):
    """The version that is written, and all bytes but the trailer."""
    version = version_of(state, options)
    written = [entry for entry in state.entries if not entry.is_removed]
    data = SIGNATURE + version.to_bytes(4, "big") + len(written).to_bytes(4, "big")
    data += entries_bytes(written, options)
    end_of_entries = len(data)
    items = kept_items(state, len(written)) if options.is_kept else chosen_items(state, options)
    for signature, content in items:
        data += item_bytes(signature, content)
    is_behind_others = state.entries and items and options.with_end_marker
    if state.had_end_marker if options.is_kept else is_behind_others:
        data += extensions.end_marker_bytes(state.kind, end_of_entries, items)
    return version, data


def image(state, options=Options()):
    """The version that is written, the id that is answered, and all bytes."""
    version, data = body(state, options)
    trailer = digest(state.kind, data) if options.with_digest else null_id(state.kind)
    return version, trailer, data + trailer
