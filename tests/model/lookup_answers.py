"""What `test_lookup_rows` has to answer: each lookup for some paths over a list of entries, and single searches."""

from tests.model import lookups, show, words
from tests.model.index_answers import with_state


def answer(row, folder):
    call, *rest = row.split(" ")
    return CALLS[call](rest, folder)


def answer_lookup(found, row):
    entries, paths = found.entries, [words.text_of(word) for word in row]
    is_ordered = lookups.is_ordered_by_path(entries)
    lines = [
        f"directories: {len(lookups.named_directories(entries, False))}",
        f"directories icase: {len(lookups.named_directories(entries, True))}",
        f"is_ordered_by_path: {show.yes(is_ordered)}",
        f"is_strictly_ordered: {show.yes(lookups.is_strictly_ordered(entries))}",
        f"entries_with_paths_by_filter_map: {show.listed(show.text(it.path) for it in entries if it.stage == 0)}",
    ]
    for path in paths:
        lines += [f"{show.text(path)}: {line}" for line in by_name(entries, path)]
    if is_ordered:
        return lines + by_order(entries, paths)
    for path in paths:
        for name in ("search_path", "entry_range", "prefixed_entries_range", "search_prefix"):
            lines.append(f"{show.text(path)}: {name}: among the entries")
    return lines


def place_word(is_found, place):
    return f"at {place}" if is_found else f"before {place}"


def comparisons(name, *most):
    """The line of a search that compares no more paths than it may."""
    return f"{name} comparisons: at most {sum(most)}"


def most_among(count):
    """The most paths that a search among so many may compare: one more than their number has binary digits."""
    return count.bit_length() + 1


def most_by_table(entries, path):
    """The most that a search by way of a table of directories may compare: the directories, and what is inside one."""
    directory, slash, _ = path.rpartition(b"/")
    if not slash:
        return [most_among(len(entries))]
    inside = lookups.places_below(entries, directory)
    return [most_among(len(lookups.directories(entries))), most_among(len(inside or entries))]


def by_name(entries, path):
    """The lookups over entries in any order, with case kept and ignored."""
    cases = (False, True)
    at_path = [lookups.first_at_path(entries, path, ignore_case) for ignore_case in cases]
    below = [lookups.first_directory(entries, path, ignore_case) for ignore_case in cases]
    places = ", ".join(show.optional(place) for place in at_path)
    directories = ", ".join(show.optional(place) for place in below)
    named = [len(lookups.named_directories(entries, ignore_case)) for ignore_case in cases]
    return [
        comparisons("search_path_icase", most_among(len(entries))),
        f"search_path_icase: {places}",
        f"entry_by_path_icase: {places}",
        *(comparisons("search_directory_icase", most_among(count)) for count in named),
        f"search_directory_icase: {directories}",
        f"entry_closest_to_directory_or_directory_icase: {directories}",
        f"path_is_directory_icase: {', '.join(show.yes(place is not None) for place in below)}",
    ]


def by_order(entries, paths):
    """The lookups over entries whose paths never fall, and those over entries that increase."""
    present = sum(lookups.place_of_path(entries, path)[0] for path in paths)
    lines = [
        f"directory_table directories: {len(lookups.directories(entries))}",
        f"count_present: {present}",
        f"directory_table count_present: {present}",
    ]
    is_strict = lookups.is_strictly_ordered(entries)
    for path in paths:
        found = by_path(entries, path) + (by_stage(entries, path) if is_strict else [])
        lines += [f"{show.text(path)}: {line}" for line in found]
    return lines


def by_path(entries, path):
    is_found, place = lookups.place_of_path(entries, path)
    of_path = lookups.range_of_path(entries, path)
    is_one = of_path is not None and of_path[1] - of_path[0] == 1
    search = "found" if is_found and not is_one else place_word(is_found, place)
    most = most_among(len(entries))
    below = lookups.span(lookups.places_below(entries, path))
    prefixed = lookups.range_of_prefix(entries, path)
    closest = lookups.closest_to_directory(entries, path)
    return [
        comparisons("search_path", most),
        f"search_path: {search}",
        comparisons("directory_table search_path", *most_by_table(entries, path)),
        f"directory_table search_path: {search}",
        f"directory_table range: {show.range_word(below)}",
        f"entry_range: {show.range_word(of_path)}",
        f"prefixed_entries_range: {show.range_word(prefixed)}",
        comparisons("search_prefix", most),
        f"search_prefix: {place}",
        f"entry_closest_to_directory_or_directory: {show.optional(closest)}",
        f"path_is_directory: {show.yes(closest is not None)}",
        f"prefixed_entries: {show.optional(None if prefixed is None else prefixed[1] - prefixed[0])}",
    ]


def by_stage(entries, path):
    found = [lookups.place_of_path_and_stage(entries, path, stage) for stage in lookups.STAGES]
    places = [place_word(*each) for each in found]
    half = [show.optional(place if there and place < len(entries) // 2 else None) for there, place in found]
    return [
        f"search_path_and_stage: {', '.join(places)}",
        comparisons("search_path_and_stage", most_among(len(entries))),
        f"directory_table search_path_and_stage: {', '.join(places)}",
        comparisons("directory_table search_path_and_stage", *most_by_table(entries, path)),
        f"entry_by_path: {show.optional(lookups.entry_of_path(entries, path))}",
        f"entry_index_by_path_and_stage_bounded: {', '.join(half)}",
    ]


def answer_search(found, row):
    path, most = words.text_of(row[0]), most_among(len(found.entries))
    if len(row) == 1:
        place = place_word(*lookups.place_of_path(found.entries, path))
        return [f"search_path: {place}", comparisons("search_path", most), f"entry_index_by_path: {place}"]
    is_found, place = lookups.place_of_path_and_stage(found.entries, path, int(row[1]))
    return [
        f"search_path_and_stage: {place_word(is_found, place)}",
        comparisons("search_path_and_stage", most),
        f"entry_index_by_path_and_stage: {place if is_found else 'none'}",
        f"entry_by_path_and_stage: {show.entry(found.entries[place]) if is_found else 'none'}",
    ]


def answer_order(found, _):
    pairs = zip(found.entries, found.entries[1:])
    return [f"cmp {place}: {show.sign(one.key, other.key)}" for place, (one, other) in enumerate(pairs)]


CALLS = {
    "lookup": with_state(answer_lookup),
    "search": with_state(answer_search),
    "order": with_state(answer_order),
}
