// SPDX-License-Identifier: MIT OR Apache-2.0
//! Locks the index at a path, and replaces it.

use crate::read::{Opened, or_default};
use crate::write::{CachedTree, Options, VersionChoice};
use crate::{Error, Index, Kind};
use std::ffi::OsString;
use std::fmt;
use std::fs::{self, File, Metadata};
use std::io::{self, Write};
use std::path::{Path, PathBuf};
use std::time::{SystemTime, UNIX_EPOCH};

/// The largest number of symbolic links that are followed to the file that is locked, as in git.
const MOST_LINKS: usize = 5;

/// A lock file. It is removed if it is dropped while it is held.
struct LockFile {
    path: PathBuf,
    is_held: bool,
}

impl Drop for LockFile {
    fn drop(&mut self) {
        if self.is_held {
            // (there is no caller to whom a failure can be returned)
            let _ = fs::remove_file(&self.path);
        }
    }
}

/// A lock on the index at a path. Until it is committed or dropped, git and other programs that respect the lock don't
/// write the index.
///
/// What is read under the lock, usually by [`open`](Locked::open), is what a commit replaces. So no change of another
/// process is lost. If it is dropped, the index is unchanged, and the lock file is removed.
#[must_use = "dropped, it gives the lock up"]
pub struct Locked {
    file: File,
    lock: LockFile,
    path: PathBuf,
    old: Option<Metadata>,
    opened: Option<Kept>,
}

/// What is stored of the index that was opened under the lock.
struct Kept {
    bytes: Vec<u8>,
    kind: Kind,
    version: u32,
    shared_id: Option<Vec<u8>>,
}

impl fmt::Debug for Locked {
    fn fmt(&self, f: &mut fmt::Formatter<'_>) -> fmt::Result {
        let mut shown = f.debug_struct("Locked");
        shown.field("path", &self.path).field("lock", &self.lock.path);
        if let Some(Kept { bytes, kind, version, .. }) = &self.opened {
            shown.field("bytes", &bytes.len()).field("kind", kind).field("version", version);
        }
        shown.finish_non_exhaustive()
    }
}

fn fault(path: &Path) -> impl FnOnce(io::Error) -> Error {
    move |error| Error::Io { path: path.into(), error }
}

/// Returns the metadata of the file at a path, without following a link, or `None` if there is none.
fn seen_at(path: &Path) -> Result<Option<Metadata>, Error> {
    match fs::symlink_metadata(path) {
        Ok(seen) => Ok(Some(seen)),
        Err(error) if error.kind() == io::ErrorKind::NotFound => Ok(None),
        Err(error) => Err(fault(path)(error)),
    }
}

/// Returns the metadata of the file at a path, or `None` if there is none. If it isn't a regular file, this is an
/// error.
fn file_at(path: &Path) -> Result<Option<Metadata>, Error> {
    match seen_at(path)? {
        Some(seen) if !seen.is_file() => Err(Error::NotRegular { path: path.into(), found: seen.file_type() }),
        seen => Ok(seen),
    }
}

/// Returns the path at the end of all symbolic links.
fn behind_links(path: &Path) -> Result<PathBuf, Error> {
    let mut target = path.to_path_buf();
    for links in 0..=MOST_LINKS {
        match seen_at(&target)? {
            Some(seen) if !seen.is_symlink() => return Ok(target),
            None if links == 0 => return Ok(target),
            None => return Err(Error::LeadsNowhere { path: path.into(), target }),
            Some(_) => {}
        }
        let link = fs::read_link(&target).map_err(fault(&target))?;
        target.pop();
        target.push(link);
    }
    Err(Error::TooManyLinks { path: path.into() })
}

/// Returns the path with `.lock` appended.
fn lock_path(path: &Path) -> PathBuf {
    let mut lock = OsString::from(path);
    lock.push(".lock");
    lock.into()
}

/// Creates a lock file.
fn made(path: PathBuf) -> Result<(File, LockFile), Error> {
    match File::create_new(&path) {
        Ok(file) => Ok((file, LockFile { path, is_held: true })),
        Err(error) if error.kind() == io::ErrorKind::AlreadyExists => Err(Error::Locked { lock: path }),
        Err(error) => Err(Error::Io { path, error }),
    }
}

/// Returns whether an index may get this time. git reads 32 bits of the seconds. With 0 seconds it would trust every
/// entry.
fn is_time(time: &SystemTime) -> bool {
    time.duration_since(UNIX_EPOCH).map_or(true, |since| since.as_secs() as u32 != 0)
}

impl Locked {
    /// Acquires the lock, for [`Index::lock`].
    fn new(path: &Path) -> Result<Locked, Error> {
        if path.as_os_str().is_empty() {
            return Err(fault(path)(io::Error::new(io::ErrorKind::NotFound, "an empty path names no file")));
        }
        let path = behind_links(path)?;
        file_at(&path)?;
        let (file, lock) = made(lock_path(&path))?;
        let old = file_at(&path)?;
        if let Some(old) = &old {
            file.set_permissions(old.permissions()).map_err(fault(&lock.path))?;
        }
        Ok(Locked { file, lock, path, old, opened: None })
    }

    /// Returns the path of the file that is locked: the given path with all symbolic links followed.
    #[must_use]
    pub fn path(&self) -> &Path {
        &self.path
    }

    /// Returns whether there is an index to be replaced.
    pub(crate) fn is_there(&self) -> bool {
        self.old.is_some()
    }

    /// Reads the index that is locked, as [`Index::open`] does, and stores its bytes. Then [`commit`](Locked::commit)
    /// preserves the extensions that are still valid after a change.
    pub fn open(&mut self, kind: Kind) -> Result<Index, Error> {
        let Opened { index, bytes, shared_id } = Opened::at(&self.path, kind)?;
        self.opened = Some(Kept { bytes, kind, version: index.version, shared_id });
        Ok(index)
    }

    /// Reads the index that is locked as [`open`](Locked::open) does. Returns an index with no entry if there is no
    /// file yet.
    pub fn open_or_default(&mut self, kind: Kind) -> Result<Index, Error> {
        let opened = self.open(kind);
        or_default(opened, &self.path, kind)
    }

    /// Returns all bytes of the index that was [opened](Locked::open).
    #[must_use]
    pub fn bytes(&self) -> Option<&[u8]> {
        Some(&self.opened.as_ref()?.bytes)
    }

    /// Returns the id of the shared index that the [opened](Locked::open) index links to. The index has the entries of
    /// both. A commit writes all of them and no link.
    #[must_use]
    pub fn shared_id(&self) -> Option<&[u8]> {
        self.opened.as_ref()?.shared_id.as_deref()
    }

    /// Writes the bytes to the lock file, and renames it to the index.
    pub(crate) fn replace(self, bytes: &[u8], timestamp: Option<SystemTime>, sync: bool) -> Result<(), Error> {
        let Locked { mut file, mut lock, path, old, .. } = self;
        let old = old.and_then(|old| old.modified().ok());
        file.write_all(bytes).map_err(fault(&lock.path))?;
        if let Some(time) = timestamp.filter(is_time).or(old.filter(is_time)) {
            file.set_modified(time).map_err(fault(&lock.path))?;
        }
        if sync {
            file.sync_all().map_err(fault(&lock.path))?;
        }
        drop(file);
        fs::rename(&lock.path, &path).map_err(fault(&path))?;
        lock.is_held = false;
        Ok(())
    }

    /// Replaces the index that is locked, and returns what happened to its cached tree.
    ///
    /// If that index was [opened](Locked::open), with ids of the same hash algorithm, this writes the bytes of
    /// [`write_to_over`](Index::write_to_over). They preserve all extensions that are still valid. Version 4 is
    /// preserved too, unless the options ask for another. Otherwise this writes the bytes of
    /// [`write_to`](Index::write_to), without extensions.
    ///
    /// The file has the permissions of the index that it replaces, or those that the umask leaves. Its time is the
    /// first of these that exists:
    ///
    /// - the index's [`timestamp`](Index::timestamp), so that git compares each file that it would have compared with
    ///   the index that was read;
    /// - the time of the old index;
    /// - the time of its creation.
    ///
    /// A time of 0 seconds isn't set, because git would trust every entry by it. After an error the index is unchanged.
    /// The lock file is removed in each case, if possible.
    pub fn commit(mut self, index: &Index, mut options: Options) -> Result<CachedTree, Error> {
        let opened = self.opened.take().filter(|opened| opened.kind == index.kind);
        if options.version == VersionChoice::Kept && opened.as_ref().is_some_and(|opened| opened.version == 4) {
            options.version = VersionChoice::V4;
        }
        let (bytes, tree) = index.image(opened.as_ref().map(|opened| &opened.bytes[..]), options)?;
        self.replace(&bytes, index.timestamp, options.sync)?;
        Ok(tree)
    }

    /// Replaces the index that is locked by the bytes that [`write_to_over`](Index::write_to_over) writes over `bytes`.
    /// Otherwise this is [`commit`](Locked::commit).
    pub fn commit_over(self, index: &Index, bytes: &[u8], options: Options) -> Result<CachedTree, Error> {
        let (bytes, tree) = index.write_to_over(bytes, options)?;
        self.replace(&bytes, index.timestamp, options.sync)?;
        Ok(tree)
    }
}

impl Index {
    /// Locks the index at a path as git locks it. Then it can be read, changed and written without losing a change:
    /// [`Locked::commit`] replaces what [`Locked::open`] reads.
    ///
    /// First, symbolic links are followed. The target of a link has to exist. If the path isn't a link, the file need
    /// not exist. Then the lock file is created: the target's path with `.lock` appended. After an error all files are
    /// unchanged.
    ///
    /// # Errors
    ///
    /// - [`Error::TooManyLinks`] for more than five symbolic links.
    /// - [`Error::LeadsNowhere`] if the target of a link doesn't exist.
    /// - [`Error::NotRegular`] if the target is a directory, a device, a fifo or a socket.
    /// - [`Error::Locked`] if the lock file exists.
    pub fn lock(path: impl AsRef<Path>) -> Result<Locked, Error> {
        Locked::new(path.as_ref())
    }
}
