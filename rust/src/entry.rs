// SPDX-License-Identifier: MIT OR Apache-2.0
//! An entry of an index: its stat, its mode, its flags, and a borrow of the entry itself.

use crate::raw::{self, Comparison, Row, Seen};
use std::fmt;
use std::fs::Metadata;
use std::hash::{Hash, Hasher};
use std::os::unix::fs::MetadataExt;
use std::time::{Duration, SystemTime, UNIX_EPOCH};

/// A time of an entry since the begin of 1970, with the 32 bits of each part that a file stores.
#[derive(Clone, Copy, Debug, Default, PartialEq, Eq, PartialOrd, Ord, Hash)]
pub struct Time {
    /// The number of seconds.
    pub secs: u32,
    /// The number of nanoseconds in addition.
    pub nsecs: u32,
}

impl From<Time> for SystemTime {
    fn from(time: Time) -> SystemTime {
        UNIX_EPOCH + Duration::new(time.secs.into(), time.nsecs)
    }
}

/// The stat of an entry, with the 32 bits of each number that a file stores (gitformat-index, "Index entry").
#[derive(Clone, Copy, Debug, Default, PartialEq, Eq, Hash)]
pub struct Stat {
    /// When the contents were last changed.
    pub mtime: Time,
    /// When the file's metadata were last changed.
    pub ctime: Time,
    /// The device.
    pub dev: u32,
    /// The inode.
    pub ino: u32,
    /// The owner.
    pub uid: u32,
    /// The owner's group.
    pub gid: u32,
    /// The size in bytes, modulo 2 to the 32nd.
    pub size: u32,
}

impl Stat {
    /// Returns the stat of a file's metadata, each number modulo 2 to the 32nd, as git stores it. The metadata usually
    /// come from [`symlink_metadata`](std::fs::symlink_metadata).
    #[must_use]
    pub fn from_fs(said: &Metadata) -> Stat {
        Stat {
            mtime: Time { secs: said.mtime() as u32, nsecs: said.mtime_nsec() as u32 },
            ctime: Time { secs: said.ctime() as u32, nsecs: said.ctime_nsec() as u32 },
            dev: said.dev() as u32,
            ino: said.ino() as u32,
            uid: said.uid(),
            gid: said.gid(),
            size: said.len() as u32,
        }
    }
}

/// Which numbers of a stat are compared, as in git (git-config, "core.trustctime" and "core.checkStat"). The default is
/// what git compares by default.
#[derive(Clone, Copy, Debug, PartialEq, Eq, Hash)]
pub struct Options {
    /// Compare the ctime.
    pub trust_ctime: bool,
    /// Compare inode, owner and group.
    pub check_stat: bool,
    /// Compare nanoseconds, with `check_stat`.
    pub use_nsec: bool,
    /// Compare the device, with `check_stat`.
    pub use_stdev: bool,
}

impl Default for Options {
    fn default() -> Options {
        Options { trust_ctime: true, check_stat: true, use_nsec: false, use_stdev: false }
    }
}

impl Options {
    fn raw(self) -> Comparison {
        let Options { trust_ctime, check_stat, use_nsec, use_stdev } = self;
        Comparison { trust_ctime, check_stat, use_nsec, use_stdev }
    }
}

impl Stat {
    /// Returns whether this is the stat of the same unchanged file. The time of the last change and the size are always
    /// compared, the rest as the options select.
    #[must_use]
    pub fn matches(&self, other: &Stat, options: Options) -> bool {
        let (row, seen) = (Row::from(*self), Row::from(*other));
        // SAFETY: each pointer is to a value, and nothing is written.
        unsafe { raw::gix_index_matches(&row, &seen, &options.raw()) }
    }

    /// Returns whether the file may have changed when an index with this time was written, or later. The stat proves
    /// nothing then. This is so if the file was last changed no earlier than that time.
    #[must_use]
    pub fn is_racy(&self, timestamp: SystemTime, options: Options) -> bool {
        let (secs, nsecs) = since_1970(timestamp);
        // SAFETY: each pointer is to a value, and nothing is written.
        unsafe { raw::gix_index_is_racy(&Row::from(*self), secs, nsecs, &options.raw()) }
    }
}

/// Returns the seconds since the begin of 1970, which are negative before it, and the nanoseconds in addition.
fn since_1970(time: SystemTime) -> (i64, u32) {
    match time.duration_since(UNIX_EPOCH) {
        Ok(behind) => (behind.as_secs() as i64, behind.subsec_nanos()),
        Err(before) => {
            let (secs, nsecs) = (before.duration().as_secs() as i64, before.duration().subsec_nanos());
            if nsecs == 0 { (-secs, 0) } else { (-secs - 1, 1_000_000_000 - nsecs) }
        }
    }
}

impl From<&Metadata> for Stat {
    fn from(said: &Metadata) -> Stat {
        Stat::from_fs(said)
    }
}

/// The mode of an entry's file: its type, and whether its owner may run it.
pub mod mode {
    use super::{Seen, raw};
    use std::fs::Metadata;
    use std::os::unix::fs::MetadataExt;

    /// A directory of a sparse index.
    pub const DIR: u32 = 0o040000;
    /// A file.
    pub const FILE: u32 = 0o100644;
    /// A file that its owner may run.
    pub const FILE_EXECUTABLE: u32 = 0o100755;
    /// A symbolic link.
    pub const SYMLINK: u32 = 0o120000;
    /// A submodule.
    pub const COMMIT: u32 = 0o160000;

    /// Returns the mode of an entry for a file with these metadata, as [`symlink_metadata`](std::fs::symlink_metadata)
    /// returns them. A directory gets the mode of a submodule. Returns `None` for a device, a fifo or a socket.
    #[must_use]
    pub fn from_fs(said: &Metadata) -> Option<u32> {
        if said.is_symlink() {
            Some(SYMLINK)
        } else if said.is_dir() {
            Some(COMMIT)
        } else if said.is_file() {
            Some(if said.mode() & 0o100 == 0 { FILE } else { FILE_EXECUTABLE })
        } else {
            None
        }
    }

    /// Returns the mode that an entry with this mode has to get to match the file at its path. It is the same mode if
    /// they match already. The metadata are those of [`symlink_metadata`](std::fs::symlink_metadata).
    ///
    /// `has_symlinks` is whether the file system has links; without them a file counts as the link. `executable_bit` is
    /// whether it has a bit for execution; without it a file's mode is unchanged (git-config, "core.symlinks" and
    /// "core.fileMode").
    #[must_use]
    pub fn change_to_match_fs(mode: u32, said: &Metadata, has_symlinks: bool, executable_bit: bool) -> u32 {
        let seen = Seen {
            is_file: said.is_file(),
            is_dir: said.is_dir(),
            is_symlink: said.is_symlink(),
            // (a link has all bits)
            is_executable: said.is_file() && said.mode() & 0o100 != 0,
            has_symlinks,
            executable_bit,
        };
        // SAFETY: the pointer is to a value, and nothing is written.
        unsafe { raw::gix_index_mode_for(mode, &seen) }
    }
}

/// The flags of an entry. Bits 12 and 13 are its stage.
pub mod flags {
    /// The bits of the stage.
    pub const STAGE_MASK: u32 = 0x3000;
    /// The file has 16 further bits of flags of the entry.
    pub const EXTENDED: u32 = 0x4000;
    /// The file is assumed to be unchanged.
    pub const ASSUME_VALID: u32 = 0x8000;
    /// Only in memory: an index that is written leaves the entry out.
    pub const REMOVE: u32 = 0x2_0000;
    /// The path is intended to be added later.
    pub const INTENT_TO_ADD: u32 = 0x2000_0000;
    /// The file isn't wanted in the work tree.
    pub const SKIP_WORKTREE: u32 = 0x4000_0000;
}

/// A borrow of an entry of an index. Two are equal if all values that were read are equal.
#[derive(Clone, Copy)]
pub struct Entry<'a> {
    pub(crate) row: &'a Row,
    pub(crate) paths: &'a [u8],
}

impl<'a> Entry<'a> {
    /// Returns the path from the top of the work tree, with slashes.
    #[must_use]
    pub fn path(&self) -> &'a [u8] {
        &self.paths[self.row.path_start..][..self.row.path_len]
    }

    /// Returns the id of the object with the contents: 20 or 32 bytes.
    #[must_use]
    pub fn id(&self) -> &'a [u8] {
        let len = if self.row.kind == raw::SHA256 { 32 } else { 20 };
        &self.row.id[..len]
    }

    /// Returns the stat of the file.
    #[must_use]
    pub fn stat(&self) -> Stat {
        let row = self.row;
        Stat {
            mtime: Time { secs: row.mtime_secs, nsecs: row.mtime_nsecs },
            ctime: Time { secs: row.ctime_secs, nsecs: row.ctime_nsecs },
            dev: row.dev,
            ino: row.ino,
            uid: row.uid,
            gid: row.gid,
            size: row.size,
        }
    }

    /// Returns the type of the file: one of the values of [`mode`].
    #[must_use]
    pub fn mode(&self) -> u32 {
        self.row.mode
    }

    /// Returns the flags: values of [`flags`], and others that are only in memory.
    #[must_use]
    pub fn flags(&self) -> u32 {
        self.row.flags
    }

    /// Returns the stage: 0, or in a conflict 1 for the common ancestor, 2 for our side, 3 for theirs.
    #[must_use]
    pub fn stage(&self) -> u32 {
        self.row.stage
    }

    /// Returns all values that were read. The stage is part of the flags.
    fn all(&self) -> (&'a [u8], &'a [u8], Stat, u32, u32) {
        (self.path(), self.id(), self.stat(), self.mode(), self.flags())
    }
}

impl PartialEq for Entry<'_> {
    fn eq(&self, other: &Entry<'_>) -> bool {
        self.all() == other.all()
    }
}

impl Eq for Entry<'_> {}

impl Hash for Entry<'_> {
    fn hash<H: Hasher>(&self, state: &mut H) {
        self.all().hash(state);
    }
}

/// Displays bytes in lower-case base 16, as ids are shown.
pub(crate) struct Hex<'a>(pub &'a [u8]);

impl fmt::Display for Hex<'_> {
    fn fmt(&self, f: &mut fmt::Formatter<'_>) -> fmt::Result {
        self.0.iter().try_for_each(|byte| write!(f, "{byte:02x}"))
    }
}

impl fmt::Debug for Entry<'_> {
    fn fmt(&self, f: &mut fmt::Formatter<'_>) -> fmt::Result {
        f.debug_struct("Entry")
            .field("path", &String::from_utf8_lossy(self.path()))
            .field("id", &format_args!("{}", Hex(self.id())))
            .field("mode", &format_args!("{:06o}", self.mode()))
            .field("flags", &format_args!("{:#x}", self.flags()))
            .field("stage", &self.stage())
            .finish_non_exhaustive()
    }
}
