"""All that an index holds as one JSON document, of the model's state, as Python's `json` would read it."""


def text(name, data):
    """A member that is a text, or the digits of its bytes under another name where they aren't UTF-8."""
    try:
        return {name: data.decode()}
    except UnicodeDecodeError:
        return {f"{name}_bytes": data.hex()}


def id_or_null(object_id):
    return None if object_id is None else object_id.hex()


def stat(value):
    return {
        "mtime": {"secs": value.mtime_seconds, "nsecs": value.mtime_nanoseconds},
        "ctime": {"secs": value.ctime_seconds, "nsecs": value.ctime_nanoseconds},
        "dev": value.dev,
        "ino": value.ino,
        "uid": value.uid,
        "gid": value.gid,
        "size": value.size,
    }


def entry(value):
    return text("path", value.path) | {
        "id": value.id.hex(),
        "mode": value.mode,
        "stage": value.stage,
        "flags": value.flags,
        "stat": stat(value.stat),
    }


def tree(value):
    if value is None:
        return None
    return text("name", value.name) | {
        "id": value.id.hex(),
        "num_entries": value.count,
        "children": [tree(child) for child in value.children],
    }


def bitmap(value):
    """The declared bits, the ranges of those of them that are set, and whether the words break off before the last."""
    ranges, is_malformed = value.set_ranges()
    return {"num_bits": value.bits, "set": [[it.start, len(it)] for it in ranges], "is_malformed": is_malformed}


def link(value):
    if value is None:
        return None
    pair = {"delete": bitmap(value.delete), "replace": bitmap(value.replace)} if value.has_bitmaps else None
    return {"shared_index_checksum": value.shared.hex(), "bitmaps": pair}


def side(value):
    return None if value is None else {"mode": value[0], "id": value[1].hex()}


def resolve_undo(value):
    if value is None:
        return None
    return [text("name", path) | {"stages": [side(it) for it in sides]} for path, sides in value]


def exclude(pair):
    return None if pair is None else {"stat": stat(pair[0]), "id": pair[1].hex()}


def directory(value):
    return text("name", value.name) | {
        "stat": None if value.stat is None else stat(value.stat),
        "exclude_file_oid": id_or_null(value.exclude_file),
        "check_only": value.is_check_only,
        "untracked_entries": [text("name", name) for name in value.untracked],
        "sub_directories": list(value.directories),
    }


def untracked(value):
    if value is None:
        return None
    named = text("identifier", value.identifier) | {"dir_flags": value.flags}
    return named | text("exclude_filename_per_dir", value.exclude_name) | {
        "info_exclude": exclude(value.info_exclude),
        "excludes_file": exclude(value.excludes_file),
        "directories": [directory(it) for it in value.directories],
    }


def monitor(value):
    if value is None:
        return None
    is_time = isinstance(value.token, int)
    token = {"nanos_since_1970": value.token} if is_time else text("token", value.token)
    return token | {"entry_dirty": bitmap(value.dirty)}


def offset_table(blocks):
    if blocks is None:
        return None
    return [{"from_beginning_of_file": offset, "num_entries": count} for offset, count in blocks]


def end_marker(mark):
    return None if mark is None else {"offset_to_extensions": mark[0], "checksum": mark[1].hex()}


def document(state, checksum, marks):
    """The whole document, its members in their order, with what the offset table and the end marker say."""
    return {
        "version": state.version,
        "checksum": id_or_null(checksum),
        "is_sparse": state.is_sparse,
        "entries": [entry(it) for it in state.entries],
        "tree": tree(state.tree),
        "link": link(state.link),
        "resolve_undo": resolve_undo(state.resolve_undo),
        "untracked": untracked(state.untracked),
        "fs_monitor": monitor(state.monitor),
        "had_offset_table": state.had_offset_table,
        "offset_table": offset_table(marks[0]),
        "had_end_of_index_marker": state.had_end_marker,
        "end_of_index_marker": end_marker(marks[1]),
    }
