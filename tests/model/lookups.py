"""Lookups over a list of entries, each by looking at every entry in turn. Answers are places in the list."""

from tests.model.entries import DIRECTORY, SUBMODULE

STAGES = (0, 1, 2, 3)
# The stages that an entry of a path is looked for at.
MERGED, OURS = 0, 2


def is_ordered_by_path(entries):
    """Whether paths never fall."""
    return all(entry.path <= following.path for entry, following in zip(entries, entries[1:]))


def is_strictly_ordered(entries):
    """Whether entries increase by path, then stage."""
    return first_out_of_order(entries) is None


def first_out_of_order(entries):
    """The first place whose entry isn't above the one before it, or None."""
    for place in range(1, len(entries)):
        if entries[place].key <= entries[place - 1].key:
            return place
    return None


def first(places):
    return next(iter(places), None)


def span(places):
    """The first place, and the place behind the last one; None where there are no places."""
    places = list(places)
    return (places[0], places[-1] + 1) if places else None


# Over entries whose paths never fall.


def place_of_path(entries, path):
    """Whether an entry has the path, and how many paths are below it."""
    below = sum(entry.path < path for entry in entries)
    return any(entry.path == path for entry in entries), below


def range_of_path(entries, path):
    return span(place for place, entry in enumerate(entries) if entry.path == path)


def range_of_prefix(entries, prefix):
    """The places whose path begins with the bytes. No bytes give all places, also where there are none."""
    if not prefix:
        return 0, len(entries)
    return span(place for place, entry in enumerate(entries) if entry.path.startswith(prefix))


def closest_to_directory(entries, directory):
    """The first directory among the entries at the path; where none stands there, the first below it."""
    at_path = [place for place, entry in enumerate(entries) if entry.path == directory]
    if at_path:
        return first(place for place in at_path if entries[place].is_directory)
    return first(places_below(entries, directory))


def places_below(entries, directory):
    """The places whose path begins with the directory and a slash."""
    return [place for place, entry in enumerate(entries) if entry.path.startswith(directory + b"/")]


def directories(entries):
    """What stands before a slash of a path, each once."""
    return {front for entry in entries for front in fronts(entry.path)}


def fronts(path):
    """What stands before each slash of the path."""
    return [path[:at] for at in range(len(path)) if path[at:at + 1] == b"/"]


# Over entries that increase by path, then stage.


def place_of_path_and_stage(entries, path, stage):
    """Whether an entry has both, and how many entries are below them."""
    below = sum(entry.key < (path, stage) for entry in entries)
    return any(entry.key == (path, stage) for entry in entries), below


def entry_of_path(entries, path):
    """The merged entry of the path, else that of our side."""
    for stage in (MERGED, OURS):
        is_found, place = place_of_path_and_stage(entries, path, stage)
        if is_found:
            return place
    return None


# Over entries in any order.


def folded(path, ignore_case):
    """The path with the letters `A` to `Z` made small where case is ignored."""
    return path.lower() if ignore_case else path


def first_at_path(entries, path, ignore_case):
    wanted = folded(path, ignore_case)
    return first(place for place, entry in enumerate(entries) if folded(entry.path, ignore_case) == wanted)


def first_directory(entries, directory, ignore_case):
    """The first entry that is this directory, or that stands below it."""
    wanted = folded(directory, ignore_case)
    for place, entry in enumerate(entries):
        path = folded(entry.path, ignore_case)
        if path.startswith(wanted + b"/") or (entry.mode in (DIRECTORY, SUBMODULE) and path == wanted):
            return place
    return None


def named_directories(entries, ignore_case):
    """What stands before a slash, and the paths of entries that are directories, each once."""
    named = directories(entries) | {entry.path for entry in entries if entry.is_directory}
    return {folded(path, ignore_case) for path in named}
