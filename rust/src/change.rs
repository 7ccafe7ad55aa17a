// SPDX-License-Identifier: MIT OR Apache-2.0
//! Changes an index as git changes it.

use crate::entry::{flags, mode};
use crate::raw::{self, Written};
use crate::read::{bytes_of, shared_bytes_of};
use crate::write::{Options, most_bytes};
use crate::{Entry, Error, Index, Kind, Locked, Stat, room};

/// A change of an index.
#[derive(Clone, Copy, Debug, PartialEq, Eq, Hash)]
pub enum Change<'a> {
    /// An entry is staged, as by `git update-index --add --replace`. It replaces the entry with its path and its stage.
    /// If the flags have no stage, it replaces the entries with its path at all stages, as a conflict is resolved. It
    /// also replaces entries of its stage that are in its way: a file whose path has to be a directory, or entries
    /// below its path.
    Stage {
        /// The stat of the file.
        stat: Stat,
        /// The id of the object with the contents. It has as many bytes as those of the index.
        id: &'a [u8],
        /// Values of [`flags`], with the stage.
        flags: u32,
        /// One of the values of [`mode`].
        mode: u32,
        /// The path from the top of the work tree, with slashes.
        path: &'a [u8],
    },
    /// A path is removed, at each stage, but not what is below it, as by `git update-index --force-remove`.
    Unstage {
        /// The path from the top of the work tree, with slashes.
        path: &'a [u8],
    },
}

impl<'a> Change<'a> {
    /// Returns a change that stages the entry without its stage. It replaces all sides of its conflict.
    #[must_use]
    pub fn resolve(entry: Entry<'a>) -> Change<'a> {
        let (stat, flags, mode) = (entry.stat(), entry.flags() & !flags::STAGE_MASK, entry.mode());
        Change::Stage { stat, id: entry.id(), flags, mode, path: entry.path() }
    }
}

impl<'a> From<Entry<'a>> for Change<'a> {
    /// Returns a change that stages the entry as it is, at its own stage.
    fn from(entry: Entry<'a>) -> Change<'a> {
        let (stat, flags, mode) = (entry.stat(), entry.flags(), entry.mode());
        Change::Stage { stat, id: entry.id(), flags, mode, path: entry.path() }
    }
}

/// Returns the changes as rows of a table.
fn table_of(kind: Kind, changes: &[Change<'_>]) -> Result<Index, Error> {
    let mut table = Index::new(kind);
    for change in changes {
        match *change {
            Change::Stage { stat, id, flags, mode, path } => {
                table.dangerously_push_entry(stat, id, flags & !flags::REMOVE, mode, path)?;
            }
            Change::Unstage { path } => {
                let id = &[0; 32][..kind.len_in_bytes()];
                table.dangerously_push_entry(Stat::default(), id, flags::REMOVE, mode::FILE, path)?;
            }
        }
    }
    Ok(table)
}

/// Writes the index after the changes in `table` to `bytes`. The inner error has the size that is needed, if there is
/// less room.
fn put(index: &[u8], shared: &[u8], table: &Index, bytes: &mut [u8]) -> Result<Result<Written, usize>, Error> {
    let mut told = Written::default();
    // SAFETY: each pointer goes with the length of its slice, and what is written is apart from the rest.
    let status = unsafe {
        raw::gix_index_update(
            table.rows.as_ptr(),
            table.rows.len(),
            table.paths.as_ptr(),
            table.paths.len(),
            index.as_ptr(),
            index.len(),
            shared.as_ptr(),
            shared.len(),
            table.kind.number(),
            bytes.as_mut_ptr(),
            bytes.len(),
            &mut told,
        )
    };
    match status {
        raw::DONE => Ok(Ok(told)),
        raw::NO_ROOM => Ok(Err(told.bytes)),
        raw::MEMORY => Err(Error::Memory),
        _ => Err(Error::of_updated(&told)),
    }
}

/// Makes changes of an index, in their order, and returns all bytes of the new file. Either all changes are made or
/// none. The index is given as all bytes of its file, and so is the shared index that it links to. That isn't read if
/// there is no link.
///
/// Extensions are preserved as git preserves them. The cached tree loses the counts on the way to each path. The
/// untracked cache loses the data of the path's directories. Sides of conflicts that are removed are recorded, so that
/// `git checkout -m` restores them. The result has the index's version and its digest, and no link.
///
/// # Errors
///
/// [`Error::Refused`] has the first of these:
///
/// - an error in the bytes;
/// - [`Fault::Order`](crate::Fault::Order) of the index's entries;
/// - [`Fault::Row`](crate::Fault::Row), [`Fault::Mode`](crate::Fault::Mode) or [`Fault::Name`](crate::Fault::Name) with
///   the index of the first change that can't be made;
/// - [`Fault::Below`](crate::Fault::Below) with the index of the first change whose path is in a directory that a
///   sparse index has as one entry.
pub fn update(index: &[u8], shared: Option<&[u8]>, kind: Kind, changes: &[Change<'_>]) -> Result<Vec<u8>, Error> {
    let (table, shared) = (table_of(kind, changes)?, shared.unwrap_or_default());
    let mut bytes = room(0, most_bytes(&table) + index.len() + shared.len())?;
    loop {
        match put(index, shared, &table, &mut bytes)? {
            Ok(told) => {
                bytes.truncate(told.bytes);
                return Ok(bytes);
            }
            Err(len) => bytes = room(0, len)?,
        }
    }
}

impl Locked {
    /// Makes changes of the index that is locked, as [`update`] makes them, replaces it by the result, and ends the
    /// lock. If there is no index yet, the changes are made to one without entries.
    ///
    /// Permissions and time are those of the old index, so git compares each file that it would have compared. With
    /// `sync` the file is on the disk before it replaces the index. After an error the index is unchanged.
    pub fn commit_changes(self, kind: Kind, changes: &[Change<'_>], sync: bool) -> Result<(), Error> {
        let (index, shared) = if self.is_there() {
            let index = bytes_of(self.path().into())?;
            let shared = shared_bytes_of(self.path(), &index, kind)?;
            (index, shared)
        } else {
            (Index::new(kind).write_to(Options::default())?, None)
        };
        let bytes = update(&index, shared.as_deref(), kind, changes)?;
        self.replace(&bytes, None, sync)
    }
}
