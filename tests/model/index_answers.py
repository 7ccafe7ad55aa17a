"""What `test_rows` has to answer: indexes, extensions, numbers and values of an entry. Each call answers lines."""

from tests.model import (
    bitmaps, entries, extensions, faults, files, merging, show, state, trees, untracked_cache, words, writing
)
from tests.model.bytes import (
    Unreadable, digest, kind_of_id, null_id, number, offset_number, offset_number_bytes, up_to
)

STAGE_NAMES = ("unconflicted", "base", "ours", "theirs")


def answer(row, folder):
    """The lines of a row. Files of rows lie in the folder."""
    call, *rest = row.split(" ")
    return CALLS[call](rest, folder)


def read(kind, data, options=None, skip_hash=None):
    """What is read of the bytes as a state, or as a file where something is said of its digest."""
    if skip_hash is None:
        return state.read(data, kind, options or state.Options())
    return state.read_file(data, kind, skip_hash)


def whole(kind, data, options=None, skip_hash=None):
    try:
        return show.whole(*read(kind, data, options, skip_hash))
    except state.Fault as fault:
        return [f"fault: {faults.of_index(fault)}"]


def answer_state(row, folder):
    expected = words.named(row, "expected")
    options = state.Options(words.number_named(row, "limit"), expected and bytes.fromhex(expected))
    return whole(row[0], words.bytes_of(row[1], folder), options)


def answer_file(row, folder):
    return whole(row[0], words.bytes_of(row[1], folder), skip_hash="unchecked" in row)


def answer_at(row, folder):
    kind, name, here = row[0], row[1], files.Folder(folder)
    if "or-default" in row and not here.has(name):
        return show.whole(state.State(kind), None)
    try:
        return show.whole(*files.index_at(kind, name, here))
    except files.Unread as missing:
        return [f"fault: file {show.text(str(missing).encode())}"]
    except state.Fault as fault:
        return [f"fault: {faults.of_index(fault)}"]
    except merging.MergeFault as fault:
        return [f"fault: link: {fault}"]


def facts(kind, data, skip_hash):
    """What is told of one front, by name."""
    try:
        return show.header(*read(kind, data, skip_hash=skip_hash))
    except state.Fault as fault:
        return {"fault": faults.of_index(fault)}


def answer_fronts(row, folder, skip_hash=None):
    data = words.bytes_of(row[1], folder)
    told = [facts(row[0], data[:length], skip_hash) for length in range(len(data) + 1)]
    names = ["fault", "checksum", "version", "object_hash", "is_sparse"]
    names += ["had_end_of_index_marker", "had_offset_table", "entries"]
    return [line for name in names for line in ranges(name, [it.get(name) for it in told])]


def ranges(name, values):
    """A line for each longest range of lengths at which the value is the same and there is one."""
    lines, start = [], 0
    for end in range(1, len(values) + 1):
        if end == len(values) or values[end] != values[start]:
            if values[start] is not None:
                lines.append(f"{start}..={end - 1}: {name}: {values[start]}")
            start = end
    return lines


def answer_file_fronts(row, folder):
    return answer_fronts(row, folder, skip_hash=False)


def answer_content_fronts(row, folder):
    reader, kind, word = row
    data = words.bytes_of(word, folder)
    taken = [] if reader in WITHOUT_KIND else [kind]
    told = []
    for length in range(len(data) + 1):
        lines = CALLS[reader](taken + [data[:length].hex() or "-"], folder)
        told.append(dict(line.split(": ", 1) for line in lines))
    names = ["fault", "tree", "link", "resolve_undo", "untracked", "fs_monitor", "offsets", "num_bits"]
    return [line for name in names for line in ranges(name, [it.get(name) for it in told])]


def with_state(told):
    """A call on a state; where its bytes can't be read, their fault."""
    def answered(row, folder):
        try:
            found = words.state_of(row[1], row[0], folder)
        except state.Fault as fault:
            return [f"fault: {faults.of_index(fault)}"]
        return told(found, row[2:])
    return answered


def images_of_entry(found, place):
    """The bytes of the entry at the place, and those in version 4."""
    entry, previous = found.entries[place], found.entries[place - 1].path if place > 0 else b""
    return writing.entry_bytes(entry), writing.compressed_bytes(entry, previous)


def answer_entry(found, row):
    data, compressed = images_of_entry(found, int(row[0]))
    return [f"write_to: {show.bytes_word(data)}", f"write_delta_to: {show.bytes_word(compressed)}"]


def answer_body(found, _):
    version, data = writing.body(found)
    lacks_nul = not any(b"\0" in entry.path for entry in found.entries if not entry.is_removed)
    return [
        f"version: {version}",
        f"bytes: {show.bytes_word(data)}",
        f"paths_without_nul: {show.yes(lacks_nul)}",
    ]


def answer_write(found, row):
    options = writing.Options(with_digest="null" not in row)
    version, checksum, data = writing.image(found, options)
    return [f"version: {version}", f"checksum: {checksum.hex()}", f"bytes: {show.bytes_word(data)}"]


def cuts(name, data):
    """What is answered beside writers of which each has room for so many of these bytes, from none to all."""
    return ranges(name, ["a front, and the writer's fault"] * len(data) + ["whole"])


def answer_cuts(found, row):
    options = writing.Options(with_digest="null" not in row, is_version_4="v4" in row)
    data = (writing.body(found, options)[1] if "body" in row else writing.image(found, options)[2])
    return cuts("write_to", data)


def answer_entry_cuts(found, row):
    data, compressed = images_of_entry(found, int(row[0]))
    return cuts("write_to", data) + cuts("write_delta_to", compressed)


def value_or_none(read_value, *taken):
    try:
        return read_value(*taken)
    except Unreadable:
        return None


def answer_tree(row, folder):
    data, limit = words.bytes_of(row[1], folder), words.number_named(row, "limit")
    return show.tree(value_or_none(trees.read, data, row[0], limit))


def answer_resolve_undo(row, folder):
    data = words.bytes_of(row[1], folder)
    return show.resolve_undo(value_or_none(extensions.read_resolve_undo, data, row[0]))


def answer_untracked(row, folder):
    data, limit = words.bytes_of(row[1], folder), words.number_named(row, "limit")
    return show.untracked(value_or_none(untracked_cache.read, data, row[0], limit))


def answer_monitor(row, folder):
    return show.monitor(value_or_none(extensions.read_monitor, words.bytes_of(row[0], folder)))


def answer_link(row, folder):
    try:
        return show.link(extensions.read_link(words.bytes_of(row[1], folder), row[0]))
    except extensions.LinkFault as fault:
        return [f"fault: {faults.of_link(fault)}"]


def answer_bitmap(row, folder):
    try:
        bitmap, rest = bitmaps.read(words.bytes_of(row[0], folder))
    except bitmaps.PartMissing as missing:
        return [f"fault: bitmap: {missing.part}"]
    positions = show.positions(bitmap)
    return [f"num_bits: {bitmap.bits}", f"positions: {positions}", f"rest: {len(rest)}"]


def answer_offsets(row, folder):
    blocks = value_or_none(extensions.read_offset_table, words.bytes_of(row[0], folder))
    return [f"offsets: {show.offsets(blocks)}"]


def answer_first_offsets(row, folder):
    blocks = value_or_none(extensions.first_offset_table, words.bytes_of(row[1], folder), row[0])
    return [f"offsets: {show.offsets(blocks)}"]


def answer_marker(row, folder):
    place = value_or_none(extensions.read_end_marker, words.bytes_of(row[1], folder), row[0])
    return [f"marker: {show.optional(place)}"]


def walked(walk):
    if walk is None:
        return ["extensions: none"]
    lines = []
    for place, (signature, content) in enumerate(walk.items):
        lines.append(f"extension {place}: {show.text(signature)} {show.bytes_word(content)}")
    return lines + [f"consumed: {walk.walked}"]


def answer_walk(row, folder):
    return walked(extensions.walk(words.bytes_of(row[0], folder)))


def answer_walk_file(row, folder):
    data = words.bytes_of(row[1], folder)
    return walked(value_or_none(extensions.walk_before_trailer, data, row[0]))


def front_number(read_number):
    """A call that reads a number at the front."""
    def answered(row, folder):
        found = value_or_none(read_number, words.bytes_of(row[0], folder))
        if found is None:
            return ["number: none"]
        return [f"number: {found[0]}", f"rest: {len(found[1])}"]
    return answered


def answer_whole(row, folder):
    return [f"number: {int.from_bytes(words.bytes_of(row[0], folder), 'big')}"]


def answer_split(row, folder):
    found = value_or_none(up_to, words.bytes_of(row[0], folder), int(row[1], 16))
    if found is None:
        return ["before: none"]
    return [f"before: {show.bytes_word(found[0])}", f"behind: {show.bytes_word(found[1])}"]


def answer_digest(row, folder):
    return [f"digest: {digest(row[0], words.bytes_of(row[1], folder)).hex()}"]


def answer_id(row, folder):
    data = words.bytes_of(row[0], folder)
    kind = kind_of_id(data)
    if kind is None:
        return ["id: none"]
    return [f"id: {data.hex()}", f"kind: {kind}", f"is_null: {show.yes(data == null_id(kind))}"]


def answer_verify(row, folder):
    actual, expected = (words.bytes_of(word, folder) for word in row)
    if actual == expected:
        return ["verify: equal"]
    return [f"fault: {faults.of_digest(actual, expected)}"]


def answer_entries(row, _):
    most = state.most_entries(int(row[2]), words.number_named(row, "offset"), row[0], int(row[1][1:]))
    return [f"max_entries_possible: {most}"]


def answer_paths(row, _):
    kind, version, count, length = row[0], int(row[1][1:]), int(row[2]), int(row[3])
    most = state.estimated_paths(count, length, words.number_named(row, "offset"), kind, version)
    return [f"estimate_path_storage_requirements_in_bytes: {most}"]


def answer_flags(row, _):
    flags = int(row[0], 16)
    stage = entries.stage_of(flags)
    return [
        f"flags: {flags:08x}",
        f"stage_raw: {stage}",
        f"stage: {STAGE_NAMES[stage]}",
        f"first word: {entries.first_word(flags):04x}",
        f"second word: {entries.second_word(flags):04x}",
        f"stored flags: {entries.kept_flags(flags):08x}",
    ]


def answer_word(row, _):
    bits = int(row[0], 16)
    return [f"bits: {bits:04x}", f"flags: {bits:08x}"]


def answer_second_word(row, _):
    bits = int(row[0], 16)
    return [f"bits: {bits:04x}", f"flags: {entries.flags_of_second_word(bits):08x}"]


def answer_stage(row, _):
    flags = f"{entries.flags_of_stage(int(row[0])):08x}"
    return [f"stage: {STAGE_NAMES[int(row[0])]}", f"from_stage: {flags}", f"from: {flags}"]


def answer_mode(row, _):
    mode = entries.kept_mode(int(row[0], 8))
    return [
        f"from_bits_truncate: {mode:o}",
        f"stored mode: {mode:o}",
        f"is_sparse: {show.yes(mode == entries.DIRECTORY)}",
        f"is_submodule: {show.yes(mode == entries.SUBMODULE)}",
    ]


def answer_time(row, _):
    time = words.time_of(row[0])
    return [f"time: {show.time(time if time[1] < 10 ** 9 else None)}"]


def answer_compare(row, _):
    return [f"cmp_filepaths: {show.sign(*(words.text_of(word) for word in row))}"]


# The readers whose call takes no kind of hash.
WITHOUT_KIND = ("monitor", "offsets", "bitmap")

CALLS = {
    "state": answer_state,
    "file": answer_file,
    "at": answer_at,
    "fronts": answer_fronts,
    "file-fronts": answer_file_fronts,
    "content-fronts": answer_content_fronts,
    "entry": with_state(answer_entry),
    "body": with_state(answer_body),
    "write": with_state(answer_write),
    "copy": with_state(lambda found, _: show.whole(found, None)),
    "cuts": with_state(answer_cuts),
    "entry-cuts": with_state(answer_entry_cuts),
    "tree": answer_tree,
    "resolve-undo": answer_resolve_undo,
    "untracked": answer_untracked,
    "monitor": answer_monitor,
    "link": answer_link,
    "bitmap": answer_bitmap,
    "offsets": answer_offsets,
    "first-offsets": answer_first_offsets,
    "marker": answer_marker,
    "walk": answer_walk,
    "walk-file": answer_walk_file,
    "offset": front_number(offset_number),
    "offset-of": lambda row, _: [f"write_var_int: {show.bytes_word(offset_number_bytes(int(row[0])))}"],
    "u32": front_number(lambda data: number(data, 4)),
    "u64": front_number(lambda data: number(data, 8)),
    "whole": answer_whole,
    "split": answer_split,
    "digest": answer_digest,
    "id": answer_id,
    "verify": answer_verify,
    "entries": answer_entries,
    "paths": answer_paths,
    "flags": answer_flags,
    "word": answer_word,
    "second-word": answer_second_word,
    "stage": answer_stage,
    "mode": answer_mode,
    "time": answer_time,
    "compare": answer_compare,
}
