// SPDX-License-Identifier: MIT OR Apache-2.0
//! Why an index isn't read or written.

use crate::raw::{self, Summary, Given, Written};
use std::fmt;
use std::fs::FileType;
use std::io;
use std::os::unix::fs::FileTypeExt;
use std::path::PathBuf;

/// What is wrong with bytes that are no index, are damaged, or fail a check; or with entries that can't be written.
#[derive(Clone, Copy, Debug, PartialEq, Eq, Hash)]
#[non_exhaustive]
pub enum Fault {
    /// The bytes don't begin with the header of an index, or it declares more entries than they can hold.
    Header,
    /// The version isn't 2, 3 or 4.
    Version,
    /// The entry at this index, counted from 0, can't be read.
    Entry(usize),
    /// A mandatory extension is unknown.
    Extension,
    /// The link to a shared index is invalid.
    Link,
    /// The number of bytes after all entries and extensions isn't that of a trailer.
    Trailer,
    /// The digest isn't equal to the trailer.
    Digest,
    /// The entry at this index, counted from 0, isn't greater than the one before it, by path, then stage. Only calls
    /// that check, write, update or build trees return this.
    Order(usize),
    /// The cached tree isn't consistent, or counts more entries than there are. Only calls that check return this.
    CachedTree,
    /// The entry at this index, counted from 0, can't be written, or can't be in a tree.
    ///
    /// - It can't be written if its path is empty or has a NUL, or if it is a directory of a sparse index and no such
    ///   index is replaced.
    /// - It can't be in a tree if its id is zeros, or if it is below more than 2048 directories. A directory of a
    ///   sparse index can't be in a tree if its path has no slash at its end.
    Row(usize),
    /// There are more entries than the 4294967295 that a file can count, or the 2147483647 of which trees are built.
    Count,
    /// The file would have more than the 4294967295 bytes that its offsets can reach.
    Length,
    /// The entry at this index, counted from 0, has a mode that is none of git's five.
    Mode(usize),
    /// The path of the change or the entry at this index, counted from 0, has a name that is empty or that git rejects.
    /// Only [`update`](crate::update) and [`write_trees`](crate::Index::write_trees) return this.
    Name(usize),
    /// The entry at this index, counted from 0, is in conflict. Only [`write_trees`](crate::Index::write_trees) returns
    /// this.
    Unmerged(usize),
    /// The path of the entry at this index, counted from 0, is below that of another entry. The other entry is no
    /// directory, or it is a directory of a sparse index. [`write_trees`](crate::Index::write_trees) returns this.
    /// [`update`](crate::update) returns it for a change whose path is in a directory of a sparse index.
    Below(usize),
    /// An error with another number.
    Other(u32),
}

/// Why an index isn't read or written.
#[derive(Debug)]
#[non_exhaustive]
pub enum Error {
    /// The bytes are no index of this hash algorithm, are damaged, or fail a check; or the entries can't be written.
    Refused {
        /// What is wrong.
        fault: Fault,
        /// The message for `fault`.
        text: String,
    },
    /// The bytes of the shared index are no index of this hash algorithm, are damaged, or are those of another index.
    RefusedShared {
        /// What is wrong.
        fault: Fault,
        /// The message for `fault`.
        text: String,
    },
    /// An allocation failed.
    Memory,
    /// The index lacks the entries of its shared index.
    Split,
    /// An id has another number of bytes than those of the index.
    Id {
        /// The number of bytes of the index's ids.
        expected: usize,
        /// The number of bytes of the given id.
        actual: usize,
    },
    /// The lock file exists. Another process writes the index, or died while it did. Then the file has to be removed by
    /// hand.
    Locked {
        /// The lock file.
        lock: PathBuf,
    },
    /// The file to be replaced is a directory, a device, a fifo or a socket.
    NotRegular {
        /// The path with all symbolic links followed.
        path: PathBuf,
        /// The type of the file there.
        found: FileType,
    },
    /// A chain has more than five symbolic links. git follows at most five to an index.
    TooManyLinks {
        /// The path of the first link.
        path: PathBuf,
    },
    /// The target of a symbolic link doesn't exist.
    LeadsNowhere {
        /// The path of the first link.
        path: PathBuf,
        /// The target that doesn't exist.
        target: PathBuf,
    },
    /// A file has more bytes than the 4294967328 that an index can have, or has no end.
    TooLong {
        /// The path of the file.
        path: PathBuf,
    },
    /// The file, or its lock, can't be read or written.
    Io {
        /// The path of the file.
        path: PathBuf,
        /// The reason.
        error: io::Error,
    },
}

impl Fault {
    /// Returns the value for a number, with the index of an entry if it has one.
    fn of(number: u32, place: usize) -> Fault {
        match number {
            raw::FAULT_HEADER => Fault::Header,
            raw::FAULT_VERSION => Fault::Version,
            raw::FAULT_ENTRY => Fault::Entry(place),
            raw::FAULT_EXTENSION => Fault::Extension,
            raw::FAULT_LINK => Fault::Link,
            raw::FAULT_TRAILER => Fault::Trailer,
            raw::FAULT_DIGEST => Fault::Digest,
            raw::FAULT_ORDER => Fault::Order(place),
            raw::FAULT_CACHED_TREE => Fault::CachedTree,
            raw::FAULT_ROW => Fault::Row(place),
            raw::FAULT_COUNT => Fault::Count,
            raw::FAULT_LENGTH => Fault::Length,
            raw::FAULT_MODE => Fault::Mode(place),
            raw::FAULT_NAME => Fault::Name(place),
            raw::FAULT_UNMERGED => Fault::Unmerged(place),
            raw::FAULT_BELOW => Fault::Below(place),
            number => Fault::Other(number),
        }
    }
}

impl fmt::Display for Fault {
    fn fmt(&self, f: &mut fmt::Formatter<'_>) -> fmt::Result {
        match self {
            Fault::Header => f.write_str("the header is at fault"),
            Fault::Version => f.write_str("the version isn't 2, 3 or 4"),
            Fault::Entry(place) => write!(f, "entry {place} can't be read"),
            Fault::Extension => f.write_str("a mandatory extension isn't understood"),
            Fault::Link => f.write_str("the link to a shared index is at fault"),
            Fault::Trailer => f.write_str("the trailer is too short or too long"),
            Fault::Digest => f.write_str("the digest isn't the trailer"),
            Fault::Order(place) => write!(f, "entry {place} isn't above the one before it, by path and stage"),
            Fault::CachedTree => f.write_str("the cached tree is at fault"),
            Fault::Row(place) => {
                write!(f, "entry {place} can't be written: its path, its id or its stage is at fault")
            }
            Fault::Count => f.write_str("the index has more entries than the 4294967295 that a file can count"),
            Fault::Length => f.write_str("the index would take more bytes than the 4294967295 that a file can have"),
            Fault::Mode(place) => write!(f, "entry {place} can't be written: its mode is none that git has"),
            Fault::Name(place) => write!(f, "entry {place} can't be staged: git lets no such name stand in its path"),
            Fault::Unmerged(place) => write!(f, "entry {place} is in conflict"),
            Fault::Below(place) => write!(f, "entry {place} lies below another entry's path, which is no directory, or stands whole"),
            Fault::Other(number) => write!(f, "fault {number}"),
        }
    }
}

impl Error {
    /// Returns the error of a call that rejected entries.
    pub(crate) fn of_written(told: &Written) -> Error {
        let fault = Fault::of(told.fault, told.fault_place);
        let text = match fault {
            Fault::Row(_) | Fault::Mode(_) | Fault::Order(_) | Fault::Count | Fault::Length => fault.to_string(),
            fault => format!("the index that is written over is refused: {fault}"),
        };
        Error::Refused { fault, text }
    }

    /// Returns the error of a call that rejected changes.
    pub(crate) fn of_updated(told: &Written) -> Error {
        let fault = Fault::of(told.fault, told.fault_place);
        let text = match fault {
            Fault::Row(place) => format!("change {place} is refused: its path, its id or its stage is at fault"),
            Fault::Mode(place) => format!("change {place} is refused: its mode is none that git has"),
            Fault::Name(place) => format!("change {place} is refused: git lets no such name stand in its path"),
            fault => fault.to_string(),
        };
        if told.of_shared == 0 { Error::Refused { fault, text } } else { Error::RefusedShared { fault, text } }
    }

    /// Returns the error of a call that couldn't build trees.
    pub(crate) fn of_trees(told: &Given) -> Error {
        let fault = Fault::of(told.fault, told.fault_place);
        let text = match fault {
            Fault::Row(place) => format!("entry {place} can't stand in a tree: its path or its id is at fault"),
            Fault::Mode(place) => format!("entry {place} can't stand in a tree: its mode is none that git has"),
            Fault::Name(place) => {
                format!("entry {place} can't stand in a tree: git lets no such name stand in its path")
            }
            Fault::Count => "the index has more entries than the 2147483647 of which trees are made".to_owned(),
            fault => fault.to_string(),
        };
        Error::Refused { fault, text }
    }

    /// Returns the error of a call that rejected bytes.
    pub(crate) fn of(summary: &Summary, text: &[u8]) -> Error {
        let fault = Fault::of(summary.fault, summary.fault_place);
        let text = String::from_utf8_lossy(&text[..summary.text_bytes]).into_owned();
        if summary.of_shared == 0 { Error::Refused { fault, text } } else { Error::RefusedShared { fault, text } }
    }
}

/// Returns the name of a type of file that isn't regular.
fn name_of(found: &FileType) -> &'static str {
    if found.is_dir() {
        "directory"
    } else if found.is_fifo() {
        "fifo"
    } else if found.is_socket() {
        "socket"
    } else if found.is_symlink() {
        "symbolic link"
    } else {
        "device"
    }
}

impl fmt::Display for Error {
    fn fmt(&self, f: &mut fmt::Formatter<'_>) -> fmt::Result {
        match self {
            Error::Refused { text, .. } => f.write_str(text),
            Error::RefusedShared { text, .. } => write!(f, "its shared index: {text}"),
            Error::Memory => f.write_str("out of memory for an index"),
            Error::Split => f.write_str("the index is split, and its link to a shared index isn't followed"),
            Error::Id { expected, actual } => {
                write!(f, "an id has {actual} bytes, and those of the index have {expected}")
            }
            Error::Locked { lock } => write!(
                f,
                "{} is there: another process writes the index, or died while it did; if none runs, remove that file",
                lock.display()
            ),
            Error::NotRegular { path, found } => {
                write!(f, "{} is a {}, and no regular file: it isn't replaced", path.display(), name_of(found))
            }
            Error::TooManyLinks { path } => {
                write!(f, "{} leads over more than 5 symbolic links, one behind the other", path.display())
            }
            Error::LeadsNowhere { path, target } => {
                write!(f, "{} is a symbolic link to {}, which isn't there", path.display(), target.display())
            }
            Error::TooLong { path } => {
                write!(f, "{} has more than the 4294967328 bytes that an index can have", path.display())
            }
            Error::Io { path, error } => write!(f, "{}: {error}", path.display()),
        }
    }
}

impl std::error::Error for Error {
    fn source(&self) -> Option<&(dyn std::error::Error + 'static)> {
        match self {
            Error::Io { error, .. } => Some(error),
            _ => None,
        }
    }
}

impl From<Error> for io::Error {
    /// Converts the error. [`io::Error::get_ref`] returns the original, except for [`Error::Memory`], so that no memory
    /// is needed.
    fn from(error: Error) -> io::Error {
        let kind = match &error {
            Error::Memory => return io::ErrorKind::OutOfMemory.into(),
            Error::Refused { .. } | Error::RefusedShared { .. } => io::ErrorKind::InvalidData,
            Error::Split | Error::Id { .. } => io::ErrorKind::InvalidInput,
            Error::Locked { .. } => io::ErrorKind::AlreadyExists,
            Error::LeadsNowhere { .. } => io::ErrorKind::NotFound,
            Error::NotRegular { .. } | Error::TooManyLinks { .. } | Error::TooLong { .. } => io::ErrorKind::Other,
            Error::Io { error, .. } => error.kind(),
        };
        io::Error::new(kind, error)
    }
}

/// A text that isn't the name of a [`Kind`](crate::Kind).
#[derive(Clone, Copy, Debug, PartialEq, Eq, Hash)]
#[non_exhaustive]
pub struct UnknownKind;

impl fmt::Display for UnknownKind {
    fn fmt(&self, f: &mut fmt::Formatter<'_>) -> fmt::Result {
        f.write_str("the kind of an index's ids is sha1 or sha256")
    }
}

impl std::error::Error for UnknownKind {}
