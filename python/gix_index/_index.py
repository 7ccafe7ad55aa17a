# SPDX-License-Identifier: MIT OR Apache-2.0
"""An index, and one that is locked."""
from __future__ import annotations

import ctypes
import operator
import os
from typing import Iterable, Iterator, List, Optional, Sequence, Tuple, Union, overload

from ._changed import Comparer, Stats, source_of
from ._edits import entries_in, packed, planned, to_remove
from ._faults import Status, Text, by_kind, fault_of, file_path, raise_ungiven, raise_unwritten
from ._library import ROW, Bytes, Form, Given, Lock, Places, Summary, Table, Time, Tree, Written
from ._library import at, bytes_at, library
from ._rows import Rows, Search, Splice
from ._values import BY_DEFAULT, NANOSECONDS, Comparison, Entry, FilePath, Kind, Path


class Index(Sequence[Entry]):
    """The entries of an index, in the order of its file, as a sequence.

    Searches and changes require entries that strictly increase by path, byte by byte, and then by stage, as those of a
    valid index do. `check` checks whether an index's entries do. `in` searches for an entry, or for a path at any
    stage.

    Two indexes are equal if all of their entries are equal, and also their hash algorithm, version, time, checksum and
    link.
    """

    kind: Kind  #: of the ids
    version: int  #: of the file that was read: 2, 3 or 4; of a new index 2
    mtime_ns: int  #: when the file was written last that this was read from, as `os.stat_result` has it, or 0
    shared_id: Optional[bytes]  #: the id of the shared index that the bytes link to and that wasn't read

    def __init__(self, kind: Kind = Kind.SHA1) -> None:
        """Makes an index with no entry."""
        self.kind, self.version, self.mtime_ns, self.shared_id = kind, 2, 0, None
        self._rows, self._base, self._is_part = Rows(), b"", False

    @classmethod
    def from_bytes(cls, data: Bytes, kind: Optional[Kind] = None, shared: Optional[Bytes] = None) -> Index:
        """Reads an index from all bytes of its file, and of the shared index that it links to, if these are given.

        Without a kind, the hash algorithm is the one with which the bytes can be read. If they are no index, it raises
        `Refused`.
        """

        def read(kind: Kind) -> Index:
            index = Index(kind)
            index._fill(bytes(data), None if shared is None else bytes(shared))
            return index

        return by_kind(kind, read)

    @classmethod
    def open(cls, path: FilePath, kind: Optional[Kind] = None) -> Index:
        """Reads the index at a path. A link to a shared index is followed.

        The shared index is the file sharedindex.ID in the same directory. Without a kind, the hash algorithm is the one
        with which the file can be read. If the bytes are no index, it raises `Refused`. An error of the file system is
        an OSError.
        """

        def read(kind: Kind) -> Index:
            index = Index(kind)
            index._fill_from(path)
            return index

        return by_kind(kind, read)

    @classmethod
    def lock(cls, path: FilePath, kind: Optional[Kind] = None, missing_ok: bool = False) -> Locked:
        """Locks the index at a path, as git locks it, and reads it.

        At the end of a `with` statement the lock file is removed. The index is unchanged unless `Locked.commit` was
        called. Symbolic links are followed first, at most five.

        - FileExistsError: the lock file exists. Another process writes the index, or died while it did.
        - FileNotFoundError: there is no file at the path. With missing_ok the result is an index with no entry instead.
        - ValueError: with missing_ok there is no file at the path, and no hash algorithm is given.

        After an exception no lock is held.
        """
        lock = _Held(path)
        try:
            if kind is None and missing_ok and not lock.at.mode:
                text = "expected Kind.SHA1 or Kind.SHA256, because there is no index that has it"
                raise ValueError(f"{lock.path}: kind is None, {text}")
            return by_kind(kind, lambda kind: Locked(lock, kind, missing_ok))
        except BaseException:
            lock.give_up()
            raise

    # ---- Reading

    def _fill(self, data: bytes, shared: Optional[bytes]) -> None:
        words = (data, len(data)) if shared is None else (data, len(data), shared, len(shared))
        call = library().gix_index_read if shared is None else library().gix_index_read_split
        rows, paths, text, said = bytearray(), bytearray(), Text(), Summary()
        # (the first call returns the sizes, and checks digests only if it fails: a wrong digest comes before others)
        for skip_hash in (True, False, False):
            room = (at(rows), len(rows) // ROW.size, at(paths), len(paths), text.room, len(text.room))
            status = call(*words, self.kind.number, skip_hash, *room, ctypes.byref(said))
            if status == Status.DONE and not skip_hash:
                break
            if status in (Status.DONE, Status.NO_ROOM):
                rows, paths = bytearray(said.entries * ROW.size), bytearray(said.path_bytes)
        if status != Status.DONE:
            raise fault_of(status, None, said, text.of(said))
        self._rows, self._base = Rows(rows, paths), data
        self._take(said)

    def _fill_from(self, path: FilePath) -> None:
        table, text = Table(), Text()
        words = (file_path(path), self.kind.number, text.room, len(text.room), ctypes.byref(table))
        status = library().gix_index_read_file(*words)
        try:
            if status != Status.DONE:
                raise fault_of(status, path, table.said, text.of(table.said))
            rows = bytearray(bytes_at(table.rows, table.said.entries * ROW.size))
            self._rows = Rows(rows, bytearray(bytes_at(table.paths, table.said.path_bytes)))
            self._base = bytes_at(table.bytes, table.bytes_len)
            self.mtime_ns = table.mtime.tv_sec * NANOSECONDS + table.mtime.tv_nsec
            self._take(table.said)
        finally:
            library().gix_index_drop_table(ctypes.byref(table))

    def _take(self, said: Summary) -> None:
        shared_id = bytes(said.shared_id)[: self.kind.len_in_bytes]
        self.version, self._is_part = said.version, bool(said.has_link)
        self.shared_id = shared_id if said.has_link and any(shared_id) else None

    @property
    def checksum(self) -> Optional[bytes]:
        """Returns the checksum at the end of the bytes that were read, or None if it is zeros or nothing was read."""
        checksum = self._base[-self.kind.len_in_bytes :]
        return checksum if any(checksum) else None

    # ---- Entries

    def __len__(self) -> int:
        return len(self._rows)

    def __iter__(self) -> Iterator[Entry]:
        return self._rows.entries(self.kind.len_in_bytes)

    @overload
    def __getitem__(self, place: int) -> Entry: ...

    @overload
    def __getitem__(self, place: slice) -> List[Entry]: ...

    def __getitem__(self, place: Union[int, slice]) -> Union[Entry, List[Entry]]:
        if isinstance(place, slice):
            return [self[each] for each in range(*place.indices(len(self)))]
        # (a range raises an IndexError for an index that is out of range)
        return self._rows.entry(range(len(self))[place], self.kind.len_in_bytes)

    def __contains__(self, value: object) -> bool:
        if isinstance(value, Entry):
            return self.find(value.path, value.stage) == value
        if isinstance(value, (str, bytes)):
            name = os.fsencode(value)
            return self._rows.has_path(Search(self._rows).least(name), name)
        return super().__contains__(value)

    def __eq__(self, other: object) -> bool:
        if not isinstance(other, Index):
            return NotImplemented
        return self._read() == other._read() and len(self) == len(other) and all(map(operator.eq, self, other))

    def _read(self) -> Tuple[object, ...]:
        """Returns what was read in addition to the entries."""
        return self.kind, self.version, self._is_part, self.shared_id, self.checksum, self.mtime_ns

    @property
    def entries(self) -> List[Entry]:
        """Returns all entries."""
        return list(self)

    def find(self, path: Path, stage: int = 0) -> Optional[Entry]:
        """Returns the entry with the path and the stage, or None. A stage other than 0 to 3 is a ValueError."""
        if stage not in range(4):
            raise ValueError(f"stage is {stage!r}, expected 0 to 3")
        number = Search(self._rows).find(os.fsencode(path), stage)
        return None if number is None else self[number]

    def prefix(self, prefix: Path) -> List[Entry]:
        """Returns the entries whose path begins with the bytes of the prefix."""
        name, places = os.fsencode(prefix), Places()
        status = library().gix_index_find_prefix(*self._rows.words, name, len(name), ctypes.byref(places))
        return self[places.start : places.end] if status == Status.DONE else []

    def closest(self, directory: Path, ignore_case: bool = False) -> Optional[Entry]:
        """Returns the first entry that is the directory (sparse, or a submodule), or else the first entry below it.

        With ignore_case the case of ASCII letters is ignored, and the result is the first entry of either sort.
        """
        name = os.fsencode(directory)
        call = library().gix_index_closest_icase if ignore_case else library().gix_index_closest
        place = call(*self._rows.words, name, len(name))
        return self[place] if place < len(self) else None

    def changed(
        self,
        stats: Stats,
        comparison: Comparison = BY_DEFAULT,
        has_symlinks: bool = True,
        executable_bit: bool = True,
    ) -> List[Entry]:
        """Returns the entries whose files may have changed, by their stats.

        A stat is the result of `os.lstat`, or a `Stat`, or None if there is no file. A `Stat` has no mode to compare.
        The stats are given as one of these:

        - A function of the path, such as `os.lstat`. FileNotFoundError and NotADirectoryError mean that there is no
          file. The function isn't called for an entry whose stat isn't used.
        - A mapping from paths. There is no file at a path that isn't in it.
        - An iterable with a stat for each entry, in their order. Another count is a ValueError.

        The result has an entry if one of these holds:

        - It is in conflict, or only intended to be added.
        - There is no file, or `Mode.matching` returns another mode than the entry's.
        - `Stat.matches` is false, or `Stat.is_racy` is true with the time in `mtime_ns`.
        - Its size is 0, and its id isn't the one of an empty file. git writes this size if the file has to be read.

        The result has no directory of a sparse index. It has an entry with `Flags.ASSUME_VALID` or
        `Flags.SKIP_WORKTREE` only if it is in conflict. It has a submodule only if there is no directory at its path.
        """
        options = (comparison, has_symlinks, executable_bit)
        comparer = Comparer(self._rows, self.kind, self.mtime_ns, *options)
        return [self[number] for number in comparer.changed(source_of(stats, len(self)))]

    # ---- Changes

    def _ask_open(self) -> None:
        """Raises a ValueError if a change would be lost."""

    def _splice(self, splices: List[Splice], removed: List[Tuple[int, int]], rows: bytes) -> int:
        """Replaces rows, and returns by how many rows the table grew.

        The ranges that are removed, and the rows that are added, are those that a file has to change.
        """
        return self._rows.splice(splices)

    def unstage(self, path: Path, *, recursive: bool = False) -> int:
        """Removes the entries at a path, in conflict or not, and with `recursive` all entries below it.

        Returns how many entries were removed: 0 if there are none. A path in a directory of a sparse index is a
        ValueError.
        """
        self._ask_open()
        ranges = to_remove(Search(self._rows), os.fsencode(path), recursive)
        return -self._splice([(start, b"", 0, end, b"") for start, end in ranges], ranges, b"")

    def stage(self, *entries: Union[Entry, Iterable[Entry]]) -> None:
        """Adds entries, given one by one or as iterables. Each replaces the entries that are in its way.

        These are the ones with its path and its stage. An entry that isn't in conflict also replaces the ones with its
        path at each stage, those below it, and those at the directories above it. Many entries are added fastest by one
        call. With `Flags.INTENT_TO_ADD` or `Flags.SKIP_WORKTREE` an entry gets `Flags.EXTENDED`.

        All entries are checked first, so after an exception the index is unchanged. It raises a ValueError if one of
        these doesn't hold. The text has the entry, the value and what is expected.

        - A path has at least one byte, and no NUL. It isn't in a directory of a sparse index.
        - An id has as many bytes as the hash algorithm.
        - Mode, flags and each number of the stat have 32 bits. The flags aren't those of a path that is to be removed.

        A value of another type is a TypeError. git rejects further values, such as a mode that it doesn't have, or the
        path `.git`. They are `Refused` when the index is written.
        """
        self._ask_open()
        staged, paths = packed(entries_in(entries), self.kind, len(self._rows.paths))
        splices, in_the_way, rows = planned(Search(self._rows), staged)
        self._rows.paths += paths
        self._splice(splices, in_the_way, rows)

    # ---- Writing

    def _ask_whole(self) -> None:
        if self._is_part:
            raise ValueError("the index is split, and its link to a shared index isn't followed")

    def _form(self, version: Optional[int], skip_hash: bool) -> Form:
        self._ask_whole()
        return Form(self.kind.number, (4 if self.version == 4 else 2) if version is None else version, skip_hash)

    def to_bytes(self, version: Optional[int] = None, skip_hash: bool = False) -> bytes:
        """Returns all bytes of the index as a file.

        If the index was read from bytes, their mark of a sparse index is preserved, and their cached tree if it matches
        the entries. The version is 4 or 2; 2 becomes 3 if the flags of an entry require it. Without a version it stays
        4. With skip_hash the digest is zeros. If entries are out of order, or can't be in a file, it raises `Refused`.
        """
        form, told, base = self._form(version, skip_hash), Written(), self._base
        call = library().gix_index_write_over if base else library().gix_index_write
        over = (base, len(base)) if base else ()
        room, status = bytearray(), Status.NO_ROOM
        while status == Status.NO_ROOM:
            room = bytearray(told.bytes)
            status = call(*self._rows.words, *over, ctypes.byref(form), at(room), len(room), ctypes.byref(told))
        raise_unwritten(status, told)
        return bytes(room[: told.bytes])

    def write_trees(self) -> List[Tuple[bytes, bytes]]:
        """Returns the trees that `git write-tree` makes of the entries: the id and the bytes of each.

        Each follows the trees that it names, so that the root is the last, and a store can take them in this order. The
        bytes are those that `git cat-file tree` prints. An entry with Flags.INTENT_TO_ADD is in no tree. Whether the
        objects that entries name exist isn't checked. If entries are out of order, or can't be in a tree, such as those
        in conflict, it raises `Refused`.
        """
        self._ask_whole()
        told, trees, room, status = Given(), (Tree * 0)(), bytearray(), Status.NO_ROOM
        while status == Status.NO_ROOM:
            trees, room = (Tree * told.trees)(), bytearray(told.bytes)
            words = (self.kind.number, trees, len(trees), at(room), len(room), ctypes.byref(told))
            status = library().gix_index_trees(*self._rows.words, *words)
        raise_ungiven(status, told)
        size = self.kind.len_in_bytes
        return [(bytes(it.id)[:size], bytes(room[it.start : it.start + it.len])) for it in trees]


class _Held:
    """A lock file, and the file that it locks."""

    def __init__(self, path: FilePath) -> None:
        self.at, self.owner = Lock(), os.getpid()
        status = library().gix_index_lock_file(file_path(path), ctypes.byref(self.at))
        if status != Status.DONE:
            fault = fault_of(status, os.fsdecode(self.at.lock_path or self.at.path or path), self.at, "")
            self.give_up()
            if isinstance(fault, FileExistsError):
                fault.strerror = "Another process writes the index, or died in it; if none runs, remove this file"
            raise fault
        self.path = os.fsdecode(self.at.path)

    def give_up(self) -> None:
        """Removes the lock file, if it is still held. A forked process leaves it to its parent."""
        if os.getpid() == self.owner:
            library().gix_index_rollback(ctypes.byref(self.at))


class Locked(Index):
    """An index that is locked by `Index.lock`, until it is committed or closed.

    Use it in a `with` statement, which closes it at its end.
    """

    def __init__(self, lock: _Held, kind: Kind, missing_ok: bool) -> None:
        super().__init__(kind)
        self.path = lock.path  #: the file that is locked: the path that was given, behind all symbolic links
        # (if there is nothing at the path, its mode is 0)
        if lock.at.mode or not missing_ok:
            self._fill_from(lock.path)
        self._lock, self._changes = lock, bytearray()

    def __enter__(self) -> Locked:
        return self

    def __exit__(self, *_: object) -> None:
        self.close()

    def __del__(self) -> None:
        if hasattr(self, "_lock") and self._lock.at.is_held:
            self.close()

    def close(self) -> None:
        """Releases the lock. If it is still held, the index is unchanged, and the lock file is removed."""
        self._lock.give_up()

    def _ask_open(self) -> None:
        if not self._lock.at.is_held:
            raise ValueError(f"{self.path}: the index isn't locked any more, so a change would be lost")

    def _splice(self, splices: List[Splice], removed: List[Tuple[int, int]], rows: bytes) -> int:
        before = len(self._changes)
        try:
            for start, end in removed:
                self._changes += self._rows.removed(start, end)
            self._changes += rows
            return super()._splice(splices, removed, rows)
        except BaseException:
            del self._changes[before:]
            raise

    def commit(self, version: Optional[int] = None, skip_hash: bool = False, sync: bool = False) -> None:
        """Replaces the index that is locked, and ends the lock.

        Extensions are preserved as git preserves them when it makes these changes. The cached tree and the untracked
        cache lose what isn't valid any more. Sides of conflicts that were removed are recorded, so that `git checkout
        -m` restores them. A change that git rejects is `Refused`. With a version, or with skip_hash, the bytes of
        `Index.to_bytes` are written.

        The file keeps its permissions, and the time of the index that was read, so git compares each file that it would
        have compared before. With sync it is on the disk before it replaces the index. After an exception the index is
        unchanged, and the lock is ended too.
        """
        form, told = self._form(version, skip_hash), Written()
        if not self._lock.at.is_held:
            raise ValueError("the index isn't locked any more")
        if version is None and not skip_hash:
            count = len(self._changes) // ROW.size
            paths = self._rows.paths
            words = (self.kind.number, at(self._changes), count, at(paths), len(paths), sync)
            status = library().gix_index_commit_changes(ctypes.byref(self._lock.at), *words, ctypes.byref(told))
            raise_unwritten(status, told, self.path)
        else:
            self._commit_table(form, told, sync)

    def _commit_table(self, form: Form, told: Written, sync: bool) -> None:
        """Writes the entries over the index that was read, whichever changes led to them."""
        table = Table()
        # (these names keep the memory alive that the table points to)
        rooms = [ctypes.c_char.from_buffer(room) if room else None for room in (self._rows.rows, self._rows.paths)]
        base = ctypes.c_char_p(self._base)
        table.rows, table.paths = (None if room is None else ctypes.addressof(room) for room in rooms)
        table.bytes = ctypes.cast(base, ctypes.c_void_p).value if self._base else None
        table.bytes_len = len(self._base)
        table.mtime = Time(*divmod(self.mtime_ns, NANOSECONDS))
        table.said.entries, table.said.path_bytes = len(self), len(self._rows.paths)
        words = (ctypes.byref(table), ctypes.byref(form), sync, ctypes.byref(told))
        status = library().gix_index_commit(ctypes.byref(self._lock.at), *words)
        raise_unwritten(status, told, self.path)
