"""All that an index holds as lines for people, of the model's state."""

from tests.model import entries, parts

MODE_WORDS = {
    entries.DIRECTORY: "directory",
    entries.FILE: "file",
    entries.EXECUTABLE: "executable",
    entries.SYMLINK: "symlink",
    entries.SUBMODULE: "submodule",
}
FLAG_WORDS = (
    (entries.ASSUME_VALID, "assume-valid"),
    (entries.EXTENDED, "extended"),
    (entries.INTENT_TO_ADD, "intent-to-add"),
    (entries.SKIP_WORKTREE, "skip-worktree"),
)
SIDES = ("base", "ours", "theirs")
# The depth of the directories of a cached tree that stand furthest in, from the root's 0; those below them tell theirs.
DEEPEST_INDENT = 32
# Octal digits that every mode has, and those of a number that needs more.
MODE_DIGITS, ALL_DIGITS = 6, 11


def escaped(data):
    """Bytes as text that fits in a line."""
    return parts.escaped(data).decode()


def yes(holds):
    return "yes" if holds else "no"


def id_or_none(object_id):
    return "none" if object_id is None else object_id.hex()


def octal(number):
    digits = f"{number:o}"
    return digits.zfill(MODE_DIGITS if len(digits) <= MODE_DIGITS else ALL_DIGITS)


def mode(number):
    return f"{octal(number)} {MODE_WORDS.get(number, 'other')}"


def time(seconds, nanoseconds):
    return f"{seconds}.{nanoseconds:09}"


def further_in(lines):
    """The same lines a level further in."""
    return ["  " + line for line in lines]


def stat(value):
    return [
        f"size: {value.size}",
        f"mtime: {time(value.mtime_seconds, value.mtime_nanoseconds)}",
        f"ctime: {time(value.ctime_seconds, value.ctime_nanoseconds)}",
        f"dev: {value.dev}",
        f"ino: {value.ino}",
        f"uid: {value.uid}",
        f"gid: {value.gid}",
    ]


def entry(place, value):
    words = [word for bits, word in FLAG_WORDS if value.flags & bits == bits]
    fields = [
        f"path: {escaped(value.path)}",
        f"id: {value.id.hex()}",
        f"mode: {mode(value.mode)}",
        f"stage: {value.stage}",
        f"flags: {' '.join(words) or 'none'}",
    ]
    return [f"entry: {place}"] + further_in(fields + stat(value.stat))


def nodes(value, depth):
    """The lines of a directory and of all below it, each with its indent."""
    count = -1 if value.count is None else value.count
    fields = [f"id: {value.id.hex()}", f"entries: {count}"]
    if depth > DEEPEST_INDENT:
        fields.insert(0, f"depth: {depth}")
    indent = "  " * min(depth, DEEPEST_INDENT)
    lines = [indent + line for line in [f"directory: {escaped(value.name)}"] + further_in(fields)]
    for child in value.children:
        lines += nodes(child, depth + 1)
    return lines


def tree(value):
    if value is None:
        return ["cached tree: none"]
    return ["cached tree:"] + further_in(nodes(value, 0))


def places(ranges):
    """Ranges of places, each by its first one, and by its last one where there are more."""
    return " ".join(f"{it.start}" if len(it) == 1 else f"{it.start}-{it.stop - 1}" for it in ranges) or "none"


def bitmap(name, value):
    ranges, is_malformed = value.set_ranges()
    fields = [f"bits: {value.bits}", f"set: {places(ranges)}", f"malformed: {yes(is_malformed)}"]
    return [f"{name}:"] + further_in(fields)


def link(value):
    if value is None:
        return ["link: none"]
    fields = ["bitmaps: none"]
    if value.has_bitmaps:
        fields = bitmap("deleted", value.delete) + bitmap("replaced", value.replace)
    return [f"link: {value.shared.hex()}"] + further_in(fields)


def side(value):
    return "none" if value is None else f"{octal(value[0])} {value[1].hex()}"


def resolve_undo(value):
    if value is None:
        return ["resolve undo: none"]
    lines = []
    for path, sides in value:
        lines.append(f"path: {escaped(path)}")
        lines += further_in([f"{name}: {side(it)}" for name, it in zip(SIDES, sides)])
    return [f"resolve undo: {len(value)}"] + further_in(lines)


def exclude(name, pair):
    if pair is None:
        return [f"{name}: none"]
    return [f"{name}: {pair[1].hex()}"] + further_in(stat(pair[0]))


def directory(place, value):
    fields = [
        f"name: {escaped(value.name)}",
        f"check only: {yes(value.is_check_only)}",
        f"exclude file: {id_or_none(value.exclude_file)}",
    ]
    fields += ["stat: none"] if value.stat is None else ["stat:"] + further_in(stat(value.stat))
    fields += [f"untracked: {escaped(name)}" for name in value.untracked]
    fields += [f"subdirectory: {it}" for it in value.directories]
    return [f"directory: {place}"] + further_in(fields)


def untracked(value):
    if value is None:
        return ["untracked cache: none"]
    fields = [
        f"identifier: {escaped(value.identifier)}",
        f"flags: {value.flags}",
        f"exclude name: {escaped(value.exclude_name)}",
    ]
    fields += exclude("info/exclude", value.info_exclude) + exclude("excludes file", value.excludes_file)
    for place, it in enumerate(value.directories):
        fields += directory(place, it)
    return [f"untracked cache: {len(value.directories)}"] + further_in(fields)


def monitor(value):
    if value is None:
        return ["file system monitor: none"]
    is_time = isinstance(value.token, int)
    token = f"time: {value.token}" if is_time else f"token: {escaped(value.token)}"
    return ["file system monitor:"] + further_in([token] + bitmap("dirty", value.dirty))


def offset_table(is_there, blocks):
    if not is_there or blocks is None:
        return [f"offset table: {'malformed' if is_there else 'none'}"]
    lines = [f"block: offset {offset}, entries {count}" for offset, count in blocks]
    return [f"offset table: {len(blocks)}"] + further_in(lines)


def end_marker(is_there, mark):
    if not is_there or mark is None:
        return [f"end marker: {'malformed' if is_there else 'none'}"]
    return ["end marker:"] + further_in([f"offset: {mark[0]}", f"digest: {mark[1].hex()}"])


def shown(state, checksum, marks):
    """All lines, as bytes, with what the offset table and the end marker say."""
    lines = [f"version: {state.version}", f"checksum: {id_or_none(checksum)}", f"sparse: {yes(state.is_sparse)}"]
    listed = []
    for place, it in enumerate(state.entries):
        listed += entry(place, it)
    lines += [f"entries: {len(state.entries)}"] + further_in(listed)
    lines += tree(state.tree) + link(state.link) + resolve_undo(state.resolve_undo)
    lines += untracked(state.untracked) + monitor(state.monitor)
    lines += offset_table(state.had_offset_table, marks[0]) + end_marker(state.had_end_marker, marks[1])
    return "".join(line + "\n" for line in lines).encode()
