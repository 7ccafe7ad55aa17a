"""Values as answers spell them, by DIALECT.md."""

from itertools import groupby, islice

# How many equal bytes are told by their number.
LONG = 8
# How many nodes, directories and positions are told.
MOST = 100
# Signs that a text doesn't show as they are.
ESCAPED = b"\\{}:;"


def runs(data):
    """Equal bytes that stand side by side: the byte and their number."""
    for byte, equal in groupby(data):
        yield byte, len(list(equal))


def bytes_word(data):
    """Digits, with a piece for each long run and for all between two of them."""
    pieces, is_open = [], False
    for byte, count in runs(data):
        if count >= LONG:
            pieces.append(f"{byte:02x}*{count}")
        elif is_open:
            pieces[-1] += f"{byte:02x}" * count
        else:
            pieces.append(f"{byte:02x}" * count)
        is_open = count < LONG
    return ",".join(pieces) or "-"


def text(data):
    pieces = []
    for byte, count in runs(data):
        is_plain = 0x21 <= byte <= 0x7E and byte not in ESCAPED
        sign = chr(byte) if is_plain else f"\\{byte:02x}"
        pieces.append(f"{sign}{{{count}}}" if count >= LONG else sign * count)
    return "".join(pieces) or "{}"


def listed(items):
    return "[" + ";".join(str(item) for item in items) + "]"


def yes(holds):
    return "yes" if holds else "no"


def optional(value):
    return "none" if value is None else str(value)


def short_id(object_id):
    """Two digits where all bytes are equal, else all."""
    return object_id[:1].hex() if len(set(object_id)) == 1 else object_id.hex()


def time(value):
    return "none" if value is None else f"{value[0]}.{value[1]}"


def stat(value):
    ctime, mtime = time(value[:2]), time(value[2:4])
    return ",".join([ctime, mtime] + [str(number) for number in value[4:]])


def entry_fields(entry):
    """All of an entry but for its path and stat."""
    flags = entry.flags & ~0x3000
    return f"{entry.stage}:{entry.mode:o}:{flags:x}:{short_id(entry.id)}"


def entry(value):
    word = f"{text(value.path)}:{entry_fields(value)}"
    return f"{word}:{stat(value.stat)}" if any(value.stat) else word


def entries(values):
    return listed(entry(value) for value in values)


def range_word(value):
    return "none" if value is None else f"{value[0]}..{value[1]}"


def sign(one, other):
    """How one value stands to the other."""
    if one == other:
        return "="
    return "<" if one < other else ">"


def node(value):
    count = "-" if value.count is None else value.count
    return f"{text(value.name)}:{count}:{len(value.children)}:{short_id(value.id)}"


def tree(value):
    if value is None:
        return ["tree: none"]
    nodes = [it for _, it in value.preorder()]
    lines = [f"tree: {len(nodes)} nodes"]
    return lines + [f"node {place}: {node(it)}" for place, it in enumerate(nodes[:MOST])]


def positions(bitmap):
    return listed(islice(bitmap.positions(), MOST))


def link(value):
    if value is None:
        return ["link: none"]
    lines = [f"link: {value.shared.hex()}", f"link bitmaps: {yes(value.has_bitmaps)}"]
    if value.has_bitmaps:
        for name, bitmap in (("delete", value.delete), ("replace", value.replace)):
            lines.append(f"link {name} num_bits: {bitmap.bits}")
            lines.append(f"link {name} positions: {positions(bitmap)}")
    return lines


def resolve_undo(value):
    if value is None:
        return ["resolve_undo: none"]
    lines = [f"resolve_undo: {len(value)} paths"]
    for place, (path, stages) in enumerate(value):
        fields = ["-" if it is None else f"{it[0]:o},{short_id(it[1])}" for it in stages]
        lines.append(f"undo {place}: {':'.join([text(path)] + fields)}")
    return lines


def id_with_stat(pair):
    return "none" if pair is None else f"{pair[1].hex()} {stat(pair[0])}"


def untracked(value):
    if value is None:
        return ["untracked: none"]
    lines = [
        f"untracked: {len(value.directories)} directories",
        f"untracked dir_flags: {value.flags:08x}",
        f"untracked identifier: {text(value.identifier)}",
        f"untracked info_exclude: {id_with_stat(value.info_exclude)}",
        f"untracked excludes_file: {id_with_stat(value.excludes_file)}",
        f"untracked exclude_filename_per_dir: {text(value.exclude_name)}",
    ]
    for place, it in enumerate(value.directories[:MOST]):
        lines += directory(f"directory {place}", it)
    return lines


def directory(name, value):
    exclude_file = None if value.exclude_file is None else value.exclude_file.hex()
    return [
        f"{name} name: {text(value.name)}",
        f"{name} untracked_entries: {listed(text(it) for it in value.untracked)}",
        f"{name} sub_directories: {listed(value.directories)}",
        f"{name} check_only: {yes(value.is_check_only)}",
        f"{name} exclude_file_oid: {optional(exclude_file)}",
        f"{name} stat: {'none' if value.stat is None else stat(value.stat)}",
    ]


def monitor(value):
    if value is None:
        return ["fs_monitor: none"]
    is_time = isinstance(value.token, int)
    token = f"v1 {value.token}" if is_time else f"v2 {text(value.token)}"
    return [
        f"fs_monitor: {token}",
        f"fs_monitor entry_dirty num_bits: {value.dirty.bits}",
        f"fs_monitor entry_dirty positions: {positions(value.dirty)}",
    ]


def offsets(blocks):
    return "none" if blocks is None else listed(f"{place}:{count}" for place, count in blocks)


def header(state, checksum):
    """What is told of a whole index, by name."""
    return {
        "checksum": "none" if checksum is None else checksum.hex(),
        "version": str(state.version),
        "object_hash": state.kind,
        "is_sparse": yes(state.is_sparse),
        "had_end_of_index_marker": yes(state.had_end_marker),
        "had_offset_table": yes(state.had_offset_table),
        "entries": str(len(state.entries)),
    }


def whole(state, checksum):
    """All lines of an index."""
    lines = [f"{name}: {value}" for name, value in header(state, checksum).items()]
    lines += [f"entry {place}: {entry(it)}" for place, it in enumerate(state.entries)]
    lines += tree(state.tree) + link(state.link) + resolve_undo(state.resolve_undo)
    return lines + untracked(state.untracked) + monitor(state.monitor)
