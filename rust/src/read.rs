// SPDX-License-Identifier: MIT OR Apache-2.0
//! Reads an index from bytes, and from its path.

use crate::entry::Hex;
use crate::raw::{self, Row, Summary};
use crate::{Error, Index, Kind, room};
use std::fs::{File, Metadata};
use std::io::{self, Read};
use std::path::{Path, PathBuf};

/// The largest number of bytes of an index file: 2 to the 32nd, and the longest trailer.
const MOST_BYTES: u64 = (1 << 32) + 32;

/// The bytes of an index, and of the shared index that it links to, if they are given.
#[derive(Clone, Copy)]
pub(crate) struct Files<'a> {
    pub bytes: &'a [u8],
    pub shared: Option<&'a [u8]>,
    pub kind: Kind,
}

impl Files<'_> {
    /// Reads the bytes into the table. Returns whether there was room for it, and the summary.
    fn read(self, skip_hash: bool, rows: &mut [Row], paths: &mut [u8]) -> Result<(bool, Summary), Error> {
        let mut text = [0; 300];
        let mut summary = Summary::default();
        let kind = self.kind.number();
        // SAFETY: each pointer goes with the length of its slice; those that are written through are distinct.
        let status = unsafe {
            match self.shared {
                None => raw::gix_index_read(
                    self.bytes.as_ptr(),
                    self.bytes.len(),
                    kind,
                    skip_hash,
                    rows.as_mut_ptr(),
                    rows.len(),
                    paths.as_mut_ptr(),
                    paths.len(),
                    text.as_mut_ptr(),
                    text.len(),
                    &mut summary,
                ),
                Some(shared) => raw::gix_index_read_split(
                    self.bytes.as_ptr(),
                    self.bytes.len(),
                    shared.as_ptr(),
                    shared.len(),
                    kind,
                    skip_hash,
                    rows.as_mut_ptr(),
                    rows.len(),
                    paths.as_mut_ptr(),
                    paths.len(),
                    text.as_mut_ptr(),
                    text.len(),
                    &mut summary,
                ),
            }
        };
        match status {
            raw::DONE => Ok((true, summary)),
            raw::NO_ROOM => Ok((false, summary)),
            raw::MEMORY => Err(Error::Memory),
            _ => Err(Error::of(&summary, &text)),
        }
    }

    /// Returns the last bytes of the index, as many as an id has.
    fn trailer(self) -> [u8; 32] {
        let (mut id, len) = ([0; 32], self.kind.len_in_bytes());
        if let Some(last) = self.bytes.len().checked_sub(len) {
            id[..len].copy_from_slice(&self.bytes[last..]);
        }
        id
    }

    /// Returns the index of these bytes. The first call returns the sizes, without checking digests. If it fails, a
    /// second call checks them, because a wrong digest is returned before all other errors.
    fn index(self) -> Result<Index, Error> {
        let (mut rows, mut paths) = (Vec::new(), Vec::new());
        let mut said = self.read(true, &mut rows, &mut paths).or_else(|_| self.read(false, &mut rows, &mut paths))?;
        loop {
            rows = room(Row::default(), said.1.entries)?;
            paths = room(0, said.1.path_bytes)?;
            said = self.read(false, &mut rows, &mut paths)?;
            if let (true, Summary { version, has_link, shared_id, .. }) = said {
                let (kind, has_link, checksum) = (self.kind, has_link != 0, self.trailer());
                return Ok(Index { rows, paths, kind, version, has_link, shared_id, checksum, timestamp: None });
            }
        }
    }
}

/// Reads the bytes of a file, at most one more than an index can have, and its metadata.
fn read(path: &Path) -> io::Result<(Vec<u8>, Metadata)> {
    let file = File::open(path)?;
    let (said, mut bytes) = (file.metadata()?, Vec::new());
    // (the size is only that of the first allocation, because the file may change)
    bytes.try_reserve_exact(said.len().min(MOST_BYTES + 1) as usize)?;
    file.take(MOST_BYTES + 1).read_to_end(&mut bytes)?;
    Ok((bytes, said))
}

/// Returns all bytes of a file, and its metadata.
fn bytes_and_metadata_of(path: PathBuf) -> Result<(Vec<u8>, Metadata), Error> {
    match read(&path) {
        Ok((bytes, _)) if bytes.len() as u64 > MOST_BYTES => Err(Error::TooLong { path }),
        Ok(all) => Ok(all),
        Err(error) if error.kind() == io::ErrorKind::OutOfMemory => Err(Error::Memory),
        Err(error) => Err(Error::Io { path, error }),
    }
}

/// Returns all bytes of a file.
pub(crate) fn bytes_of(path: PathBuf) -> Result<Vec<u8>, Error> {
    Ok(bytes_and_metadata_of(path)?.0)
}

/// Returns the bytes of the shared index with this id, in the directory of the index at a path.
fn beside(path: &Path, id: &[u8]) -> Result<Vec<u8>, Error> {
    bytes_of(path.with_file_name(format!("sharedindex.{}", Hex(id))))
}

/// Returns the bytes of the shared index to which the bytes of the index at a path link. Returns `None` if they don't
/// link or are rejected. A wrong digest is found before the shared index is searched for.
pub(crate) fn shared_bytes_of(path: &Path, bytes: &[u8], kind: Kind) -> Result<Option<Vec<u8>>, Error> {
    let own = Files { bytes, shared: None, kind };
    let Summary { has_link, shared_id, .. } = match own.read(true, &mut [], &mut []) {
        Ok((_, said)) => said,
        Err(Error::Memory) => return Err(Error::Memory),
        Err(_) => return Ok(None),
    };
    let id = &shared_id[..kind.len_in_bytes()];
    if has_link == 0 || id.iter().all(|byte| *byte == 0) {
        return Ok(None);
    }
    own.read(false, &mut [], &mut [])?;
    beside(path, id).map(Some)
}

impl Index {
    /// Reads an index from all bytes of its file. The digest of all bytes before the trailer is compared with the
    /// trailer, unless that is null. A link to a shared index isn't followed; [`has_link`](Index::has_link) returns
    /// whether there is one.
    pub fn from_bytes(bytes: &[u8], kind: Kind) -> Result<Index, Error> {
        Files { bytes, shared: None, kind }.index()
    }

    /// Reads an index from all bytes of its file, and those of the shared index that it links to. That is the file
    /// `sharedindex.ID` in the directory of the index. ID is [`shared_id`](Index::shared_id) in lower-case base 16.
    ///
    /// If there is no link, or its id is null, the shared bytes aren't read. Otherwise their trailer has to be the id,
    /// or null, and the entries are those of both.
    ///
    /// # Errors
    ///
    /// - [`Error::RefusedShared`] for an error in the shared bytes.
    /// - [`Fault::Link`](crate::Fault::Link) if the two don't match.
    pub fn from_split_bytes(bytes: &[u8], shared: &[u8], kind: Kind) -> Result<Index, Error> {
        Files { bytes, shared: Some(shared), kind }.index()
    }

    /// Reads the file at a path as [`from_bytes`](Index::from_bytes) reads bytes. If it links to a shared index, that
    /// file is read too, as by [`from_split_bytes`](Index::from_split_bytes), and the index has no link.
    ///
    /// A file with more than 2^32 bytes and a trailer, or without an end, is [`Error::TooLong`].
    pub fn open(path: impl AsRef<Path>, kind: Kind) -> Result<Index, Error> {
        Ok(Opened::at(path.as_ref(), kind)?.index)
    }

    /// Reads the file at a path as [`open`](Index::open) does. Returns an index with no entry if there is no file, as
    /// in a fresh repository.
    pub fn open_or_default(path: impl AsRef<Path>, kind: Kind) -> Result<Index, Error> {
        let path = path.as_ref();
        or_default(Index::open(path, kind), path, kind)
    }

    /// Reads the file at a path as [`open`](Index::open) does, and also returns its bytes, which
    /// [`write_to_over`](Index::write_to_over) takes.
    pub fn open_with_bytes(path: impl AsRef<Path>, kind: Kind) -> Result<(Index, Vec<u8>), Error> {
        let Opened { index, bytes, .. } = Opened::at(path.as_ref(), kind)?;
        Ok((index, bytes))
    }
}

/// Returns an index with no entry if the error is that there is no file at the path.
pub(crate) fn or_default(opened: Result<Index, Error>, at: &Path, kind: Kind) -> Result<Index, Error> {
    match opened {
        Err(Error::Io { path, error }) if error.kind() == io::ErrorKind::NotFound && path == at => Ok(Index::new(kind)),
        opened => opened,
    }
}

/// An index that was read from a path, with its link followed.
pub(crate) struct Opened {
    pub index: Index,
    /// All bytes of the file at the path.
    pub bytes: Vec<u8>,
    /// The id of the shared index that they link to.
    pub shared_id: Option<Vec<u8>>,
}

impl Opened {
    pub fn at(path: &Path, kind: Kind) -> Result<Opened, Error> {
        let (bytes, said) = bytes_and_metadata_of(path.into())?;
        let mut index = Index::from_bytes(&bytes, kind)?;
        let shared_id = index.shared_id().map(<[u8]>::to_vec);
        if index.has_link {
            let shared = shared_id.as_ref().map(|id| beside(path, id)).transpose()?.unwrap_or_default();
            index = Index::from_split_bytes(&bytes, &shared, kind)?;
        }
        // (a pipe or a device has no time at which an index was written)
        index.timestamp = if said.is_file() { said.modified().ok() } else { None };
        Ok(Opened { index, bytes, shared_id })
    }
}
