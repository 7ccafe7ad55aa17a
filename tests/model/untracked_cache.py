"""The untracked cache, by gitformat-index: what git knows of directories with files that no entry stands for."""

from dataclasses import dataclass, field
from typing import Optional

from tests.model import bitmaps
from tests.model.bytes import (
    ID_LENGTH, Unreadable, null_id, number, numbers, offset_number, offset_number_bytes, take, up_to
)
from tests.model.entries import Stat

# Levels below the first directory that can be read.
DEEPEST = 2048
# How much of the memory that a caller limits a directory, a name and a place take.
DIRECTORY_SIZE = 152
NAME_SIZE = 24
PLACE_SIZE = 8

STAT_LENGTH = 36


@dataclass
class Directory:
    """A directory: its name, the names of what is untracked in it, and the places of those in it in the list of all."""

    name: bytes
    untracked: list
    directories: list = field(default_factory=list)
    stat: Optional[Stat] = None
    exclude_file: Optional[bytes] = None
    is_check_only: bool = False


@dataclass
class Cache:
    """The whole cache. A pair of stat and id is None where the id is null; directories stand in preorder."""

    identifier: bytes
    info_exclude: Optional[tuple]
    excludes_file: Optional[tuple]
    exclude_name: bytes
    flags: int
    directories: list


def read_stat(data):
    values, rest = numbers(data, 4, STAT_LENGTH // 4)
    return Stat(*values), rest


def read_pairs(data, kind):
    """The two files of patterns with their stats, and the flags between them."""
    info_stat, data = read_stat(data)
    excludes_stat, data = read_stat(data)
    flags, data = number(data, 4)
    info_id, data = take(data, ID_LENGTH[kind])
    excludes_id, data = take(data, ID_LENGTH[kind])
    pairs = []
    for stat, object_id in ((info_stat, info_id), (excludes_stat, excludes_id)):
        pairs.append(None if object_id == null_id(kind) else (stat, object_id))
    return pairs, flags, data


def read(data, kind, limit=None):
    """The whole content of the extension."""
    if data[-1:] != b"\0":
        raise Unreadable
    length, data = offset_number(data)
    identifier, data = take(data, length)
    (info, excludes), flags, data = read_pairs(data, kind)
    name, data = up_to(data, 0)
    count, data = offset_number(data)
    directories = []
    if count > 0:
        check_number(count, len(data), DIRECTORY_SIZE, limit)
        directories, data = read_directories(data, limit)
        if len(directories) != count:
            raise Unreadable
        data = read_marks(data, kind, directories)
        if len(data) != 1:
            raise Unreadable
    elif data:
        raise Unreadable
    return Cache(identifier, info, excludes, name, flags, directories)


def check_number(count, most, size, limit):
    """A number of items that passes what the bytes or the limit allow spells nothing."""
    if count > most or (limit is not None and size * count > limit):
        raise Unreadable


def read_block(data, limit):
    """One directory without those in it, their number, and what is left."""
    names, data = offset_number(data)
    below, data = offset_number(data)
    name, data = up_to(data, 0)
    check_number(names, len(data) // 2, NAME_SIZE, limit)
    check_number(below, len(data) // 2, PLACE_SIZE, limit)
    untracked = []
    for _ in range(names):
        piece, data = up_to(data, 0)
        untracked.append(piece)
    return Directory(name, untracked), below, data


def read_directories(data, limit):
    """The first directory and all below it, each before those in it."""
    first, missing, data = read_block(data, limit)
    found, open_directories = [first], [(first, missing)]
    while open_directories:
        parent, missing = open_directories.pop()
        if missing == 0:
            continue
        open_directories.append((parent, missing - 1))
        if len(open_directories) > DEEPEST:
            raise Unreadable
        child, below, data = read_block(data, limit)
        parent.directories.append(len(found))
        found.append(child)
        open_directories.append((child, below))
    return found, data


def read_places(data, count):
    """A bitmap of so many directories, as the places of those that it marks, and what is left."""
    try:
        bitmap, data = bitmaps.read(data)
    except bitmaps.PartMissing:
        raise Unreadable from None
    if bitmap.bits > count:
        raise Unreadable
    places = []
    for place in bitmap.positions():
        if place == bitmaps.MALFORMED or place >= count:
            raise Unreadable
        places.append(place)
    return places, data


def read_marks(data, kind, directories):
    """What stands behind the directories: which have a stat, are only checked, and have an exclude file; then these."""
    with_stat, data = read_places(data, len(directories))
    check_only, data = read_places(data, len(directories))
    with_file, data = read_places(data, len(directories))
    for place in check_only:
        directories[place].is_check_only = True
    for place in with_stat:
        directories[place].stat, data = read_stat(data)
    for place in with_file:
        directories[place].exclude_file, data = take(data, ID_LENGTH[kind])
    return data


def stat_bytes(stat):
    return b"".join(value.to_bytes(4, "big") for value in stat)


def marks_bytes(directories):
    """What stands behind the directories: the bitmaps, the stats, and the ids of exclude files."""
    marks = [[each.stat is not None for each in directories], [each.is_check_only for each in directories]]
    marks.append([each.exclude_file is not None for each in directories])
    pieces = [bitmaps.to_bytes(bitmaps.of_places([place for place, it in enumerate(mark) if it])) for mark in marks]
    pieces += [stat_bytes(each.stat) for each in directories if each.stat is not None]
    pieces += [each.exclude_file for each in directories if each.exclude_file is not None]
    return b"".join(pieces)


def to_bytes(cache, kind):
    """The content of the extension, as git's files have it. A file of patterns that isn't there is zeros."""
    info, excludes = (pair or (Stat(), null_id(kind)) for pair in (cache.info_exclude, cache.excludes_file))
    data = offset_number_bytes(len(cache.identifier)) + cache.identifier + stat_bytes(info[0]) + stat_bytes(excludes[0])
    data += cache.flags.to_bytes(4, "big") + info[1] + excludes[1] + cache.exclude_name + b"\0"
    data += offset_number_bytes(len(cache.directories))
    for each in cache.directories:
        data += offset_number_bytes(len(each.untracked)) + offset_number_bytes(len(each.directories))
        data += each.name + b"\0"
        data += b"".join(name + b"\0" for name in each.untracked)
    return data + marks_bytes(cache.directories) + b"\0" if cache.directories else data
