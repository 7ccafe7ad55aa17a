"""What `test_change_rows` has to answer: edits, merges, verified trees, writing, and files of a working tree."""

from pathlib import Path

from tests.model import (
    edits, extensions, faults, lookups, made_trees, merging, objects, show, state, trees, words, worktree,
    writing
)
from tests.model.bytes import digest, kind_of_id

# Which choice of extensions writes a cached tree and an end marker; `kept` keeps all that fits.
CHOICES = {
    "all": (True, True),
    "kept": (True, True),
    "none": (False, False),
    "neither": (False, False),
    "tree": (True, False),
    "marker": (False, True),
    "both": (True, True),
}


def answer(row, folder):
    call, *rest = row.split(" ")
    return CALLS[call](rest, folder)


def answer_edits(row, _):
    found, lines = words.list_of(row[1], row[0]), []
    for word in row[2:]:
        lines += [f"{word}: {line}" for line in edit(found, word)]
    return lines


def edit(found, word):
    """Makes one edit."""
    name, _, taken = word.partition("=")
    if name == "verify":
        return [verified(found.entries)]
    if name == "storage":
        return [f"storage: {show.bytes_word(found.storage)}"]
    lines = []
    if name == "push":
        found.push(words.entry_of(taken, found.kind))
    elif name == "sort":
        edits.sort(found)
    elif name == "sort-down":
        edits.sort_by_falling_ids(found)
    elif name == "remove":
        places = [int(place) for place in taken.split(",") if place]
        lines.append(f"seen: {show.listed(edits.remove_places(found, places))}")
    elif name == "at":
        lines.append(f"removed: {show.entry_fields(edits.remove_at(found, int(taken)))}")
    elif name == "executable":
        path, stage = taken.split(":")
        edits.make_executable(found, words.text_of(path), int(stage))
    else:
        raise ValueError(f"not an edit: {word}")
    return lines + [f"entries: {show.entries(found.entries)}"]


def verified(entries):
    place = lookups.first_out_of_order(entries)
    if place is None:
        return "verify: ordered"
    return f"fault: {faults.of_order(entries, place)}"


def answer_merge(row, folder):
    kind = row[0]
    shared, split = words.list_of(row[1], kind), words.list_of(row[2], kind)
    link, lines = extensions.read_link(words.bytes_of(row[3], folder), kind), []
    try:
        split.entries = merging.merged(link, split, shared)
    except merging.MergeFault as fault:
        lines.append(f"fault: link: {fault}")
    return lines + [f"entries: {show.entries(split.entries)}"]


def first_fault(verify, *taken):
    try:
        verify(*taken)
    except trees.TreeFault as fault:
        return [f"fault: {faults.of_tree(fault)}"]
    return ["verify: sound"]


def store_named(row):
    """The store of a row that has one."""
    word = words.named(row, "objects")
    return None if word is None else words.store_of(word)


def answer_verify_tree(row, _):
    return first_fault(trees.verify, words.tree_of(row[1], row[0]), store_named(row))


def answer_verify_extensions(row, folder):
    found = words.state_of(row[1], row[0], folder)
    if found.tree is None:
        return ["verify: sound"]
    return first_fault(trees.verify_in_index, found.tree, len(found.entries), store_named(row))


def answer_verify_tree_ids(row, _):
    kind, tree = row[0], words.named(row, "tree")
    if tree is None:
        return ["verify: right"]
    merged, unmerged = made_trees.divided(words.list_of(row[1], kind).entries)
    try:
        given, _ = made_trees.made(kind, merged)
    except made_trees.NoTree as fault:
        return [f"fault: {faults.of_no_tree(fault)}"]
    wrong = made_trees.first_wrong(words.tree_of(tree, kind), given, unmerged)
    return ["verify: right" if wrong is None else f"fault: {faults.of_tree_ids(*wrong)}"]


def answer_write_trees(row, folder):
    kind, room = row[0], words.number_named(row, "room")
    check = words.check_of(row[-1]) if row[2:] and ":" in row[-1] else None
    try:
        root, made = made_trees.made(kind, words.state_of(row[1], kind, folder).entries, check)
    except made_trees.NoTree as fault:
        return [f"fault: {faults.of_no_tree(fault)}"]
    lines = [f"object: {object_id.hex()} {show.bytes_word(data)}" for object_id, data in made]
    if room is not None and room < len(made):
        return lines[:room] + ["fault: sink 7"]
    return lines + [f"node: {show.node(node)}" for _, node in root.preorder()]


def answer_from_tree(row, _):
    kind, most, store = row[0], int(row[2]), words.store_of(row[3])
    check = words.check_of(row[4]) if row[4:] else None
    try:
        found = list(objects.Leaves(store, check, most, kind).of_tree(words.id_of(row[1], kind)))
    except objects.LeavesFault as fault:
        return [f"fault: {faults.of_leaves(fault)}"]
    storage = b"".join(entry.path for entry in found)
    return [f"entries: {show.entries(found)}", f"storage: {show.bytes_word(storage)}"]


def answer_image(row, folder, is_version_4=False):
    kind, choice, trailer, times = row[0], row[2], row[3], int(row[4])
    found = words.state_of(row[1], kind, folder)
    if "removed" in row:
        edits.mark_removed(found)
    if "tree" in row[4:]:
        found.tree = words.tree_of(words.named(row, "tree"), kind)
    if "staged" in row[4:]:
        if choice != "kept":
            raise ValueError("a staged entry beside another choice than kept")
        edits.stage_removed(found, words.entry_of(words.named(row, "staged"), kind))
    options = writing.Options(*CHOICES[choice], trailer == "digest", is_version_4, choice == "kept")
    try:
        for _ in range(times):
            found, _ = state.read(writing.image(found, options)[2], kind)
        version, checksum, data = writing.image(found, options)
        lines = [f"version: {version}", f"checksum: {checksum.hex()}"]
    except writing.NulInPath:
        lines, data = ["fault: nul in a path"], b""
    return lines + [f"len: {len(data)}", f"bytes: {show.bytes_word(data)}"]


def answer_image4(row, folder):
    return answer_image(row, folder, is_version_4=True)


def answer_end_marker(row, _):
    return [f"write_to: {show.bytes_word(extensions.end_marker_bytes(row[0], int(row[1]), []))}"]


def answer_sparse_mark(row, _):
    return [f"write_to: {show.bytes_word(writing.item_bytes(extensions.SPARSE, b''))}"]


def answer_write_tree(row, _):
    content = trees.to_bytes(words.tree_of(row[1], row[0]))
    written = writing.item_bytes(extensions.TREE, content)
    return [f"content_len: {len(content)}", f"write_to: {show.bytes_word(written)}"]


def answer_change_mode(row, _):
    mode, (is_executable, has_links, has_bits) = int(row[0], 8), map(words.is_yes, row[2:])
    change = worktree.changed_mode(mode, row[1], is_executable, has_links, has_bits)
    if change is None:
        return ["change_to_match_fs: none"]
    name, changed = change
    if name == "type":
        return [f"change_to_match_fs: type {changed:o}"]
    return ["change_to_match_fs: executable bit", f"apply: {changed:o}"]


def answer_racy(row, _):
    is_racy = worktree.is_racy(words.time_of(row[0]), words.time_of(row[1]), row[2])
    return [f"is_racy: {show.yes(is_racy)}"]


def answer_stats(row, _):
    one, other = words.stat_of(row[1]), words.stat_of(row[2])
    return [f"matches: {show.yes(worktree.stats_match(one, other, row[0]))}"]


def answer_stat(row, _):
    modified, created = map(words.optional_time_of, row[:2])
    return [f"from_fs: {show.stat(worktree.stat_of_file(modified, created, *map(int, row[2:])))}"]


def answer_entry_time(row, _):
    time = words.time_of(row[0])
    exact, low = worktree.exact_time(time), worktree.low_time(time)
    return [f"try_from: {show.time(exact)}", f"from_system: {show.time(low)}"]


def answer_file_time(row, _):
    return [f"time: {show.time(worktree.file_time(words.time_of(row[0])))}"]


def answer_compare_times(row, _):
    return [f"cmp_file_time: {show.optional(worktree.compared(*map(words.time_of, row)))}"]


def answer_tree_mode(row, _):
    mode = int(row[0], 8)
    return [f"to_tree_entry_mode: {mode:o}" if mode in worktree.NAMED else "to_tree_entry_mode: none"]


def answer_verify_bytes(row, folder):
    data, checksum = (words.bytes_of(word, folder) for word in row)
    if len(data) < len(checksum):
        return ["bytes: fault: too short"]
    actual = digest(kind_of_id(checksum), data[:len(data) - len(checksum)])
    return ["bytes: intact" if actual == checksum else f"bytes: fault: {faults.of_digest(actual, checksum)}"]


def answer_take_link(row, folder):
    link = words.state_of(row[1], row[0], folder).link
    return [f"take_link: {show.optional(link and link.shared.hex())}", "link: none"]


def answer_set_version(row, folder):
    words.state_of(row[1], row[0], folder)
    return [f"version: {row[2][1:]}"]


def file_of(row, folder):
    """The index that a row of `write-file` writes, and its checksum."""
    return state.read_file(words.bytes_of(row[1], folder), row[0])


def file_written(row, folder):
    """The version, the checksum and the bytes that such a row writes."""
    version_4, options = "v4" in row[3:], CHOICES["all"]
    return writing.image(file_of(row, folder)[0], writing.Options(*options, "null" not in row[3:], version_4))


def lines_of_write(answer, found, version, checksum):
    """What is told of such a row, up to what is verified."""
    lines = [f"write: {answer}", f"version: {version}", f"checksum: {show.optional(checksum and checksum.hex())}"]
    return lines + [f"entries: {show.entries(found.entries)}"]


def fault_of_write(row, folder):
    """Why nothing is written, or None. The lock is made before any byte is looked at."""
    path = Path(folder) / row[2]
    if not path.parent.is_dir():
        return f"lock {show.text(f'{row[2]}.lock'.encode())}"
    try:
        file_written(row, folder)
    except writing.NulInPath:
        return "nul in a path"
    return f"place {show.text(row[2].encode())}" if path.is_dir() else None


def answer_write_file(row, folder):
    try:
        found, checksum = file_of(row, folder)
    except state.Fault as fault:
        return [f"fault: {faults.of_index(fault)}"]
    fault = fault_of_write(row, folder)
    if fault is not None:
        return lines_of_write(f"fault: {fault}", found, found.version, checksum)
    version, checksum, _ = file_written(row, folder)
    lines = lines_of_write("whole", found, version, None if "null" in row[3:] else checksum)
    return lines + ["verify_integrity: intact"]


CALLS = {
    "edits": answer_edits,
    "merge": answer_merge,
    "verify-tree": answer_verify_tree,
    "verify-extensions": answer_verify_extensions,
    "verify-tree-ids": answer_verify_tree_ids,
    "write-trees": answer_write_trees,
    "from-tree": answer_from_tree,
    "image": answer_image,
    "image4": answer_image4,
    "end-marker": answer_end_marker,
    "sparse-mark": answer_sparse_mark,
    "write-tree": answer_write_tree,
    "change-mode": answer_change_mode,
    "racy": answer_racy,
    "stats": answer_stats,
    "stat": answer_stat,
    "entry-time": answer_entry_time,
    "file-time": answer_file_time,
    "compare-times": answer_compare_times,
    "tree-mode": answer_tree_mode,
    "verify-bytes": answer_verify_bytes,
    "take-link": answer_take_link,
    "set-version": answer_set_version,
    "write-file": answer_write_file,
}
