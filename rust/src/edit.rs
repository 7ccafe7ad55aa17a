// SPDX-License-Identifier: MIT OR Apache-2.0
//! Changes the entries of an index in memory.

use crate::entry::flags::STAGE_MASK;
use crate::raw::Row;
use crate::{Entry, Error, Index, Kind, Stat};
use std::fmt;

/// A mutable borrow of an entry of an index. Its path can't be changed.
pub struct EntryMut<'a> {
    row: &'a mut Row,
    paths: &'a [u8],
    kind: Kind,
}

impl fmt::Debug for EntryMut<'_> {
    fn fmt(&self, f: &mut fmt::Formatter<'_>) -> fmt::Result {
        f.debug_tuple("EntryMut").field(&self.entry()).finish()
    }
}

impl EntryMut<'_> {
    /// Returns the entry as it is now.
    #[must_use]
    pub fn entry(&self) -> Entry<'_> {
        Entry { row: self.row, paths: self.paths }
    }

    /// Sets the stat of the file.
    pub fn set_stat(&mut self, stat: Stat) {
        self.row.set_stat(stat);
    }

    /// Sets the id of the object with the contents. If it hasn't as many bytes as the index's ids, the error is
    /// [`Error::Id`], and the entry is unchanged.
    pub fn set_id(&mut self, id: &[u8]) -> Result<(), Error> {
        self.row.set_id(id, self.kind)
    }

    /// Sets the type of the file: one of the values of [`mode`](crate::mode). With another mode the index can't be
    /// written.
    pub fn set_mode(&mut self, mode: u32) {
        self.row.mode = mode;
    }

    /// Sets the flags, with the stage: values of [`flags`](crate::flags).
    pub fn set_flags(&mut self, flags: u32) {
        self.row.set_flags(flags);
    }
}

impl From<Stat> for Row {
    fn from(stat: Stat) -> Row {
        let mut row = Row::default();
        row.set_stat(stat);
        row
    }
}

impl Row {
    fn set_stat(&mut self, stat: Stat) {
        (self.mtime_secs, self.mtime_nsecs) = (stat.mtime.secs, stat.mtime.nsecs);
        (self.ctime_secs, self.ctime_nsecs) = (stat.ctime.secs, stat.ctime.nsecs);
        (self.dev, self.ino, self.uid, self.gid) = (stat.dev, stat.ino, stat.uid, stat.gid);
        self.size = stat.size;
    }

    fn set_id(&mut self, id: &[u8], kind: Kind) -> Result<(), Error> {
        if id.len() != kind.len_in_bytes() {
            return Err(Error::Id { expected: kind.len_in_bytes(), actual: id.len() });
        }
        self.kind = kind.number();
        self.id = [0; 32];
        self.id[..id.len()].copy_from_slice(id);
        Ok(())
    }

    fn set_flags(&mut self, flags: u32) {
        self.flags = flags;
        self.stage = (flags & STAGE_MASK) >> 12;
    }
}

impl Index {
    /// Returns an index with no entry, for ids of this hash algorithm.
    #[must_use]
    pub fn new(kind: Kind) -> Index {
        let (rows, paths) = (Vec::new(), Vec::new());
        Index { rows, paths, kind, version: 2, has_link: false, shared_id: [0; 32], checksum: [0; 32], timestamp: None }
    }

    /// Appends an entry, and its path to the other paths. The stage is that of the flags.
    ///
    /// This is dangerous because the order isn't checked. Searches guarantee less until the entries are in order again,
    /// as after [`sort_entries`](Index::sort_entries), and an index out of order can't be written. If the id hasn't as
    /// many bytes as the index's ids, the error is [`Error::Id`]. After an error the index is unchanged.
    pub fn dangerously_push_entry(
        &mut self,
        stat: Stat,
        id: &[u8],
        flags: u32,
        mode: u32,
        path: &[u8],
    ) -> Result<(), Error> {
        let mut row = Row { mode, path_start: self.paths.len(), path_len: path.len(), ..Row::default() };
        row.set_stat(stat);
        row.set_id(id, self.kind)?;
        row.set_flags(flags);
        self.rows.try_reserve(1).map_err(|_| Error::Memory)?;
        self.paths.try_reserve(path.len()).map_err(|_| Error::Memory)?;
        self.rows.push(row);
        self.paths.extend_from_slice(path);
        Ok(())
    }

    /// Sorts the entries by path, byte by byte, then by stage. The sort is stable.
    pub fn sort_entries(&mut self) {
        let paths = &self.paths;
        let key = |row: &Row| (&paths[row.path_start..][..row.path_len], row.stage);
        self.rows.sort_by(|a, b| key(a).cmp(&key(b)));
    }

    /// Calls the closure for each entry in order, with its index and its path, and removes those for which it returns
    /// true. The others keep their order.
    pub fn remove_entries(&mut self, mut should_remove: impl FnMut(usize, &[u8], Entry<'_>) -> bool) {
        let (paths, mut place) = (&self.paths, 0..);
        self.rows.retain(|row| {
            let entry = Entry { row, paths };
            !place.next().is_some_and(|place| should_remove(place, entry.path(), entry))
        });
    }

    /// Removes the entry at an index, counted from 0, and returns whether there was one. The others keep their order.
    pub fn remove_entry_at_index(&mut self, place: usize) -> bool {
        let is_there = place < self.rows.len();
        if is_there {
            self.rows.remove(place);
        }
        is_there
    }

    /// Returns a mutable borrow of the entry at an index, counted from 0.
    #[must_use]
    pub fn entry_mut(&mut self, place: usize) -> Option<EntryMut<'_>> {
        let row = self.rows.get_mut(place)?;
        Some(EntryMut { row, paths: &self.paths, kind: self.kind })
    }

    /// Returns a mutable borrow of the entry with the path and the stage, or `None`. It is the one that
    /// [`entry_index_by_path_and_stage`](Index::entry_index_by_path_and_stage) finds.
    #[must_use]
    pub fn entry_mut_by_path_and_stage(&mut self, path: &[u8], stage: u32) -> Option<EntryMut<'_>> {
        self.entry_mut(self.entry_index_by_path_and_stage(path, stage)?)
    }

    /// Returns mutable borrows of the entries, in their order.
    #[must_use]
    pub fn entries_mut(&mut self) -> impl ExactSizeIterator<Item = EntryMut<'_>> + DoubleEndedIterator {
        let (paths, kind) = (&self.paths, self.kind);
        self.rows.iter_mut().map(move |row| EntryMut { row, paths, kind })
    }
}
