// SPDX-License-Identifier: MIT OR Apache-2.0
//! Writes an index as bytes, and to its path.

use crate::raw::{self, Form, Written};
use crate::{Error, Index, room};
use std::path::Path;

/// The largest number of bytes of an index other than its paths: for each entry, and in addition to all entries.
const PER_ENTRY: usize = 96;
const BESIDE_ENTRIES: usize = 44;

/// Returns the largest number of bytes of these entries as an index without extensions.
pub(crate) fn most_bytes(index: &Index) -> usize {
    let paths: usize = index.rows.iter().map(|row| row.path_len).sum();
    BESIDE_ENTRIES + PER_ENTRY * index.rows.len() + paths
}

/// Which version is written.
#[derive(Clone, Copy, Debug, Default, PartialEq, Eq, Hash)]
pub enum VersionChoice {
    /// 4 if the index was read from a file of version 4, or replaces such a file that [`Locked`](crate::Locked) opened.
    /// Otherwise the smallest.
    #[default]
    Kept,
    /// 3 if an entry has [`EXTENDED`](crate::flags::EXTENDED), otherwise 2.
    Smallest,
    /// 4, in which paths are shortened.
    V4,
}

/// The options of writing.
#[derive(Clone, Copy, Debug, Default, PartialEq, Eq, Hash)]
pub struct Options {
    /// Which version is written.
    pub version: VersionChoice,
    /// Whether the trailer is zeros instead of the digest (git's `index.skipHash`).
    pub skip_hash: bool,
    /// Whether a file is synced to the disk before it replaces the index. git by default doesn't sync it.
    pub sync: bool,
}

/// What happened to the cached tree of an index that was replaced (gitformat-index, "Cache tree").
#[derive(Clone, Copy, Debug, PartialEq, Eq, Hash)]
pub enum CachedTree {
    /// There was none.
    None,
    /// It is preserved, because it matches the entries.
    Kept,
    /// It is left out, because it doesn't match the entries.
    LeftOut,
}

impl CachedTree {
    fn of(number: u32) -> CachedTree {
        match number {
            raw::TREE_KEPT => CachedTree::Kept,
            raw::TREE_LEFT_OUT => CachedTree::LeftOut,
            _ => CachedTree::None,
        }
    }
}

impl Index {
    /// Writes the index to `bytes`, over another index if its bytes are given. The inner error has the size that is
    /// needed, if there is less room.
    fn put(&self, over: Option<&[u8]>, options: Options, bytes: &mut [u8]) -> Result<Result<Written, usize>, Error> {
        let version = match options.version {
            VersionChoice::Kept if self.version == 4 => 4,
            VersionChoice::V4 => 4,
            _ => 2,
        };
        let form = Form { kind: self.kind.number(), version, skip_hash: options.skip_hash };
        let mut told = Written::default();
        let (rows, paths) = (&self.rows, &self.paths);
        // SAFETY: each pointer goes with the length of its slice, and what is written is apart from the rest.
        let status = unsafe {
            match over {
                None => raw::gix_index_write(
                    rows.as_ptr(),
                    rows.len(),
                    paths.as_ptr(),
                    paths.len(),
                    &form,
                    bytes.as_mut_ptr(),
                    bytes.len(),
                    &mut told,
                ),
                Some(index) => raw::gix_index_write_over(
                    rows.as_ptr(),
                    rows.len(),
                    paths.as_ptr(),
                    paths.len(),
                    index.as_ptr(),
                    index.len(),
                    &form,
                    bytes.as_mut_ptr(),
                    bytes.len(),
                    &mut told,
                ),
            }
        };
        match status {
            raw::DONE => Ok(Ok(told)),
            raw::NO_ROOM => Ok(Err(told.bytes)),
            raw::MEMORY => Err(Error::Memory),
            _ => Err(Error::of_written(&told)),
        }
    }

    /// Returns all bytes of the index, and what happened to the other's cached tree.
    pub(crate) fn image(&self, over: Option<&[u8]>, options: Options) -> Result<(Vec<u8>, CachedTree), Error> {
        if self.has_link {
            return Err(Error::Split);
        }
        let mut bytes = room(0, most_bytes(self) + over.map_or(0, <[u8]>::len))?;
        loop {
            match self.put(over, options, &mut bytes)? {
                Ok(told) => {
                    bytes.truncate(told.bytes);
                    return Ok((bytes, CachedTree::of(told.tree)));
                }
                Err(len) => bytes = room(0, len)?,
            }
        }
    }

    /// Writes the index as all bytes of a file: the entries and the digest, and no extension.
    ///
    /// The entries have to strictly increase by path, then stage. [`sort_entries`](Index::sort_entries) orders them so
    /// if no two have equal paths and stages. Each has a path without a NUL, and isn't a directory of a sparse index,
    /// whose mark is an extension.
    ///
    /// # Errors
    ///
    /// - [`Error::Refused`] with [`Fault::Row`](crate::Fault::Row) or [`Fault::Order`](crate::Fault::Order) for the
    ///   first entry that doesn't meet this.
    /// - [`Error::Split`] for an index with a link, because it lacks the entries of its shared index.
    pub fn write_to(&self, options: Options) -> Result<Vec<u8>, Error> {
        Ok(self.image(None, options)?.0)
    }

    /// Writes the index as all bytes of a file that replaces another index, given as all bytes of its file. Usually
    /// this is the one from which the entries were read.
    ///
    /// The mark of a sparse index is preserved, and then entries may be directories of one. The cached tree is
    /// preserved if it matches the entries, as `git write-tree` makes trees of them. Otherwise it is left out; the
    /// second value returns which. Stages of resolved conflicts are preserved. If the entries are those of the other
    /// index, its untracked cache and the data of a file system monitor are preserved too.
    ///
    /// The errors are those of [`write_to`](Index::write_to). Before them, [`Error::Refused`] is the first error in the
    /// other bytes, as [`from_bytes`](Index::from_bytes) returns it, without a message.
    pub fn write_to_over(&self, index: &[u8], options: Options) -> Result<(Vec<u8>, CachedTree), Error> {
        self.image(Some(index), options)
    }

    /// Writes the index to a path, which is locked once the bytes are ready. If the file was changed after it was read,
    /// the change is lost. [`Index::lock`] is safe if git writes concurrently.
    ///
    /// The bytes of [`write_to`](Index::write_to) are written to the lock file, which then replaces the index. So the
    /// path has the old index or the new one at each moment. Permissions, time and errors are those of [`Index::lock`]
    /// and [`Locked::commit`](crate::Locked::commit). After an error the path is unchanged; a lock file that existed is
    /// left.
    pub fn write(&self, path: impl AsRef<Path>, options: Options) -> Result<(), Error> {
        let bytes = self.write_to(options)?;
        Index::lock(path)?.replace(&bytes, self.timestamp, options.sync)
    }

    /// Writes the index to a path as [`write`](Index::write) does, but with the bytes that
    /// [`write_to_over`](Index::write_to_over) writes over `index`.
    pub fn write_over(&self, path: impl AsRef<Path>, index: &[u8], options: Options) -> Result<CachedTree, Error> {
        let (bytes, tree) = self.write_to_over(index, options)?;
        Index::lock(path)?.replace(&bytes, self.timestamp, options.sync)?;
        Ok(tree)
    }
}
