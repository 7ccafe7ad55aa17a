"""A shared index merged into a split one, by the bitmaps of the link between them."""

from dataclasses import replace

from tests.model.bitmaps import MALFORMED
from tests.model.entries import REMOVE

IN_SHARED = " bitmap length exceeds shared index length - more entries in bitmap than found in shared index"
IN_SPLIT = "replace bitmap length exceeds split index length - more entries in bitmap than found in split index"


class MergeFault(Exception):
    """Why the two can't be merged."""


def merged(link, split, shared):
    """The entries of the split index behind the merge. Without bitmaps these are its own.

    Each entry that the one bitmap marks in the shared index takes all but its path from the next entry of the split
    index. The other entries of the split index are put behind. Then those that the other bitmap marks, or that are to
    be removed, are left out, and the list is sorted by path and stage.
    """
    if shared.link is not None:
        raise MergeFault("shared index has a link of its own")
    if not link.has_bitmaps:
        return list(split.entries)
    lengthened = replaced(link.replace, split.entries, shared.entries)
    deleted = deleted_places(link.delete, len(lengthened))
    left = [
        entry for place, entry in enumerate(lengthened)
        if place not in deleted and not entry.is_removed
    ]
    return sorted(left, key=lambda entry: entry.key)


def replaced(bitmap, split, shared):
    """The shared entries with what replaces them, and the split entries that replace nothing."""
    lengthened, taken = list(shared), 0
    for place in bitmap.positions():
        if place == MALFORMED:
            raise MergeFault("replace bitmap is malformed")
        if place >= len(shared):
            raise MergeFault("replace" + IN_SHARED)
        if shared[place].flags & REMOVE:
            raise MergeFault("entry is marked as both replace and delete")
        if taken == len(split):
            raise MergeFault(IN_SPLIT)
        if split[taken].path:
            raise MergeFault("paths in split index entries that are for replacement should be empty")
        if not shared[place].path:
            raise MergeFault("paths in shared index entries that are replaced should not be empty")
        lengthened[place] = replace(split[taken], path=shared[place].path)
        taken += 1
    return lengthened + list(split[taken:])


def deleted_places(bitmap, length):
    places = set()
    for place in bitmap.positions():
        if place == MALFORMED:
            raise MergeFault("delete bitmap is malformed")
        if place >= length:
            raise MergeFault("delete" + IN_SHARED)
        places.add(place)
    return places
