"""Edits of a state: sorting and taking out. The storage of the paths stays as it is."""

from tests.model.entries import EXECUTABLE, REMOVE, UP_TO_DATE


def sort(state):
    """By path and stage; entries that agree in both stay in their order."""
    state.entries.sort(key=lambda entry: entry.key)


def sort_by_falling_ids(state):
    """By path and stage, and where entries agree in both by falling ids."""
    state.entries.sort(key=lambda entry: entry.id, reverse=True)
    sort(state)


def remove_places(state, places):
    """Takes out the entries at these places and marks all as up to date. Answers the places that are asked about."""
    left = []
    for place, entry in enumerate(state.entries):
        entry.flags |= UP_TO_DATE
        if place not in places:
            left.append(entry)
    asked = list(range(len(state.entries)))
    state.entries = left
    return asked


def remove_at(state, place):
    """Takes one entry out and answers it."""
    return state.entries.pop(place)


def mark_removed(state):
    """Marks all entries as ones that a file leaves out."""
    for entry in state.entries:
        entry.flags |= REMOVE
    state.fits = False


def stage_removed(state, entry):
    """Stages an entry that a file leaves out, where none has its path and none is a file where it needs a folder.

    What an edit makes of the extensions isn't said here: what speaks of the entries isn't kept beside such an entry.
    """
    entry.flags |= REMOVE
    state.push(entry)
    sort(state)


def make_executable(state, path, stage):
    """Gives the entry of a path and a stage, where there is one, the mode of a file that can be run."""
    for entry in state.entries:
        if entry.key == (path, stage):
            entry.mode = EXECUTABLE
