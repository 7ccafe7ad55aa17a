// SPDX-License-Identifier: MIT OR Apache-2.0
//! The git index, read and written by a static library whose functions are proved to meet their contracts.
//!
//! [`Index`] is a copy of the entries of an index file. It owns its memory, and can be searched, changed and written.
//! Names are those of the crate `gix-index` if they mean the same. `crates/index_c/README.md` describes what is proved.
//! This crate isn't proved: it passes slices to the library's calls and takes their results. It has no dependencies, so
//! its errors implement [`std::error::Error`] by hand.
//!
//! These calls are safe if git may write the same index concurrently: [`Index::lock`], then [`Locked::open`] if the
//! entries are needed, then [`Locked::commit_changes`] or [`Locked::commit`]. The index that is replaced is the one
//! that was read. [`Locked::commit_changes`] makes changes as git makes them, and [`Locked::commit`] writes an index
//! whose entries were edited. [`Index::write`] locks only when it writes. What another process wrote after the index
//! was read is lost.
//!
//! ```no_run
//! use gix_index_proved::{Change, Error, Index, Kind};
//!
//! /// Takes a path out of an index, at each stage, and tells whether it was there.
//! fn unstage(index: &str, path: &[u8]) -> Result<bool, Error> {
//!     let mut locked = Index::lock(index)?;
//!     let is_there = locked.open(Kind::Sha1)?.entry_index_by_path(path).is_ok();
//!     if is_there {
//!         locked.commit_changes(Kind::Sha1, &[Change::Unstage { path }], false)?;
//!     }
//!     Ok(is_there)
//! }
//! # let _ = unstage;
//! ```

#![deny(missing_docs, missing_debug_implementations)]

mod change;
mod check;
mod edit;
mod entry;
mod error;
mod lock;
mod raw;
mod read;
mod trees;
pub mod write;

pub use change::{Change, update};
pub use check::{verify, verify_file, verify_split};
pub use edit::EntryMut;
use entry::Hex;
pub use entry::{Entry, Options as StatOptions, Stat, Time, flags, mode};
pub use error::{Error, Fault, UnknownKind};
pub use lock::Locked;
use raw::{Places, Row};
use std::fmt;
use std::ops::Range;
use std::str::FromStr;
use std::time::SystemTime;

/// The version of this crate, which is that of the library.
pub const VERSION: &str = env!("CARGO_PKG_VERSION");

/// The version of the crate `gix-index` that the library ports.
pub const UPSTREAM_VERSION: &str = "0.55.0";

/// The hash algorithm of a repository's ids. Its text is `sha1` or `sha256`.
#[derive(Clone, Copy, Debug, PartialEq, Eq, PartialOrd, Ord, Hash)]
pub enum Kind {
    /// SHA-1, with ids of 20 bytes.
    Sha1,
    /// SHA-256, with ids of 32 bytes.
    Sha256,
}

impl Kind {
    /// Returns the number of bytes of an id: 20 or 32.
    #[must_use]
    pub const fn len_in_bytes(self) -> usize {
        match self {
            Kind::Sha1 => 20,
            Kind::Sha256 => 32,
        }
    }

    fn number(self) -> u32 {
        match self {
            Kind::Sha1 => raw::SHA1,
            Kind::Sha256 => raw::SHA256,
        }
    }
}

impl Kind {
    /// Returns the id, of 20 or 32 bytes, that git has for a file with these bytes. The caller applies filters and line
    /// ends to a file of the work tree.
    #[must_use]
    pub fn blob_id(self, bytes: &[u8]) -> Vec<u8> {
        let mut id = [0; 32];
        // SAFETY: the pointer goes with the length of its slice, and what is written is apart from it.
        let status = unsafe { raw::gix_index_blob_id(self.number(), bytes.as_ptr(), bytes.len(), &mut id) };
        debug_assert_eq!(status, raw::DONE);
        id[..self.len_in_bytes()].to_vec()
    }
}

impl fmt::Display for Kind {
    fn fmt(&self, f: &mut fmt::Formatter<'_>) -> fmt::Result {
        f.pad(match self {
            Kind::Sha1 => "sha1",
            Kind::Sha256 => "sha256",
        })
    }
}

impl FromStr for Kind {
    type Err = UnknownKind;

    fn from_str(text: &str) -> Result<Kind, UnknownKind> {
        match text {
            "sha1" => Ok(Kind::Sha1),
            "sha256" => Ok(Kind::Sha256),
            _ => Err(UnknownKind),
        }
    }
}

/// The entries of an index, in the order of its file. Two are equal if all of their entries are equal, and all other
/// values that were read from their files.
#[derive(Clone)]
pub struct Index {
    rows: Vec<Row>,
    paths: Vec<u8>,
    kind: Kind,
    version: u32,
    has_link: bool,
    shared_id: [u8; 32],
    checksum: [u8; 32],
    timestamp: Option<SystemTime>,
}

/// Returns `len` copies of a value, or an error if the allocation fails.
fn room<T: Copy>(value: T, len: usize) -> Result<Vec<T>, Error> {
    let mut values = Vec::new();
    values.try_reserve_exact(len).map_err(|_| Error::Memory)?;
    values.resize(len, value);
    Ok(values)
}

impl Index {
    /// Returns the hash algorithm of the ids.
    #[must_use]
    pub fn object_hash(&self) -> Kind {
        self.kind
    }

    /// Returns the version of the file that was read: 2, 3 or 4. A new index has version 2.
    #[must_use]
    pub fn version(&self) -> u32 {
        self.version
    }

    /// Returns when the file was last written from which this was read, or `None` if it wasn't read from a file. An
    /// index that is written gets this time, so git trusts no more of its entries than of those of the index that was
    /// read.
    #[must_use]
    pub fn timestamp(&self) -> Option<SystemTime> {
        self.timestamp
    }

    /// Returns whether the bytes link to a shared index that wasn't read.
    #[must_use]
    pub fn has_link(&self) -> bool {
        self.has_link
    }

    /// Returns the id of the shared index that the bytes link to and that wasn't read. Returns `None` if there is no
    /// link, or if its id is null, because then there is no shared index to read.
    #[must_use]
    pub fn shared_id(&self) -> Option<&[u8]> {
        let id = &self.shared_id[..self.kind.len_in_bytes()];
        (self.has_link && id.iter().any(|byte| *byte != 0)).then_some(id)
    }

    /// Returns the digest at the end of the file that was read. It is that of all bytes before it. Returns `None` if it
    /// is null, because no digest was computed, and for a new index. It is unchanged when entries change.
    #[must_use]
    pub fn checksum(&self) -> Option<&[u8]> {
        let id = &self.checksum[..self.kind.len_in_bytes()];
        id.iter().any(|byte| *byte != 0).then_some(id)
    }

    fn lend<'a>(&'a self, row: &'a Row) -> Entry<'a> {
        Entry { row, paths: &self.paths }
    }

    /// Returns the entries, in the order of the file.
    #[must_use]
    pub fn entries(&self) -> impl ExactSizeIterator<Item = Entry<'_>> + DoubleEndedIterator {
        self.rows.iter().map(|row| self.lend(row))
    }

    /// Returns the entry at an index, counted from 0.
    #[must_use]
    pub fn entry(&self, place: usize) -> Option<Entry<'_>> {
        self.rows.get(place).map(|row| self.lend(row))
    }

    /// Returns the index of the entry with the path and the stage, counted from 0, or `None`.
    ///
    /// This is guaranteed for entries that strictly increase by path, then stage. For other entries, a returned index
    /// is still that of an entry with the path and the stage.
    #[must_use]
    pub fn entry_index_by_path_and_stage(&self, path: &[u8], stage: u32) -> Option<usize> {
        // SAFETY: each pointer goes with the length of its slice, and nothing is written.
        let place = unsafe {
            raw::gix_index_find(
                self.rows.as_ptr(),
                self.rows.len(),
                self.paths.as_ptr(),
                self.paths.len(),
                path.as_ptr(),
                path.len(),
                stage,
            )
        };
        (place < self.rows.len()).then_some(place)
    }

    /// Returns the number of entries that are less than the path and the stage: the index at which an entry with both
    /// is, or would be inserted.
    pub(crate) fn lower_bound(&self, path: &[u8], stage: u32) -> usize {
        // SAFETY: each pointer goes with the length of its slice, and nothing is written.
        unsafe {
            raw::gix_index_lower_bound(
                self.rows.as_ptr(),
                self.rows.len(),
                self.paths.as_ptr(),
                self.paths.len(),
                path.as_ptr(),
                path.len(),
                stage,
            )
        }
    }

    /// Returns the index of the first entry with the path, at any stage, counted from 0. If there is none, the error is
    /// the index at which one at stage 0 would be inserted so that the entries stay in order.
    ///
    /// This is guaranteed for entries that strictly increase by path, then stage. For other entries, a returned index
    /// is still that of an entry with the path.
    pub fn entry_index_by_path(&self, path: &[u8]) -> Result<usize, usize> {
        let place = self.lower_bound(path, 0);
        match self.entry(place) {
            Some(entry) if entry.path() == path => Ok(place),
            _ => Err(place),
        }
    }

    /// Returns the entry with the path and the stage, or `None`. It is the one that
    /// [`entry_index_by_path_and_stage`](Index::entry_index_by_path_and_stage) finds.
    #[must_use]
    pub fn entry_by_path_and_stage(&self, path: &[u8], stage: u32) -> Option<Entry<'_>> {
        self.entry(self.entry_index_by_path_and_stage(path, stage)?)
    }

    /// Returns the range of indices of the entries whose path begins with the bytes of the prefix, counted from 0, or
    /// `None` if there are none. The empty prefix has all indices, also if there are no entries: `0..0`.
    ///
    /// If the paths are in order, the range has all such entries. For other entries it is a range of valid indices.
    #[must_use]
    pub fn prefixed_entries_range(&self, prefix: &[u8]) -> Option<Range<usize>> {
        let mut places = Places::default();
        // SAFETY: each pointer goes with the length of its slice, and what is written is apart from these.
        let status = unsafe {
            raw::gix_index_find_prefix(
                self.rows.as_ptr(),
                self.rows.len(),
                self.paths.as_ptr(),
                self.paths.len(),
                prefix.as_ptr(),
                prefix.len(),
                &mut places,
            )
        };
        (status != raw::NONE).then_some(places.start..places.end)
    }

    /// Returns the entries whose path begins with the bytes of the prefix, or `None` if there are none. They are those
    /// of [`prefixed_entries_range`](Index::prefixed_entries_range).
    #[must_use]
    pub fn prefixed_entries(
        &self,
        prefix: &[u8],
    ) -> Option<impl ExactSizeIterator<Item = Entry<'_>> + DoubleEndedIterator + use<'_>> {
        let rows = self.rows.get(self.prefixed_entries_range(prefix)?)?;
        Some(rows.iter().map(|row| self.lend(row)))
    }

    /// Returns the entry that is closest to a directory. If entries have the directory's path, it is the first of them
    /// that is a directory of a sparse index or a submodule, or `None`. Otherwise it is the first entry below the
    /// directory: its path begins with the directory and a slash.
    ///
    /// This is guaranteed for entries whose paths are in order. For other entries, a returned entry still is the
    /// directory or is below it.
    #[must_use]
    pub fn entry_closest_to_directory_or_directory(&self, directory: &[u8]) -> Option<Entry<'_>> {
        // SAFETY: each pointer goes with the length of its slice, and nothing is written.
        let place = unsafe {
            raw::gix_index_closest(
                self.rows.as_ptr(),
                self.rows.len(),
                self.paths.as_ptr(),
                self.paths.len(),
                directory.as_ptr(),
                directory.len(),
            )
        };
        self.entry(place)
    }

    /// Returns the first entry that is the directory itself (of a sparse index, or a submodule) or is below it, or
    /// `None`. The case of ASCII letters is ignored. The entries may be in any order, and each up to the result is
    /// compared.
    #[must_use]
    pub fn entry_closest_to_directory_or_directory_icase(&self, directory: &[u8]) -> Option<Entry<'_>> {
        // SAFETY: each pointer goes with the length of its slice, and nothing is written.
        let place = unsafe {
            raw::gix_index_closest_icase(
                self.rows.as_ptr(),
                self.rows.len(),
                self.paths.as_ptr(),
                self.paths.len(),
                directory.as_ptr(),
                directory.len(),
            )
        };
        self.entry(place)
    }

    /// Returns the entry at the path: that at stage 0, otherwise that at stage 2, our side of a merge, otherwise
    /// `None`. They are those that [`entry_by_path_and_stage`](Index::entry_by_path_and_stage) finds.
    #[must_use]
    pub fn entry_by_path(&self, path: &[u8]) -> Option<Entry<'_>> {
        self.entry_by_path_and_stage(path, 0).or_else(|| self.entry_by_path_and_stage(path, 2))
    }
}

impl PartialEq for Index {
    fn eq(&self, other: &Index) -> bool {
        let told = |index: &Index| {
            (index.kind, index.version, index.has_link, index.shared_id, index.checksum, index.timestamp)
        };
        told(self) == told(other) && self.entries().eq(other.entries())
    }
}

impl Eq for Index {}

impl fmt::Debug for Index {
    fn fmt(&self, f: &mut fmt::Formatter<'_>) -> fmt::Result {
        let mut shown = f.debug_struct("Index");
        shown.field("kind", &self.kind).field("version", &self.version).field("entries", &self.rows.len());
        if let Some(id) = self.shared_id() {
            shown.field("shared_id", &format_args!("{}", Hex(id)));
        }
        shown.field("timestamp", &self.timestamp).finish_non_exhaustive()
    }
}
