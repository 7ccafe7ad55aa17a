// SPDX-License-Identifier: MIT OR Apache-2.0
//! Checks an index, from bytes and from its path.

use crate::raw::{self, Summary};
use crate::read::{Files, bytes_of, shared_bytes_of};
use crate::{Error, Kind};
use std::path::Path;

impl Files<'_> {
    fn check(self) -> Result<(), Error> {
        let mut text = [0; 8192];
        let mut summary = Summary::default();
        let (bytes, len, kind) = (self.bytes.as_ptr(), self.bytes.len(), self.kind.number());
        let (room, room_len) = (text.as_mut_ptr(), text.len());
        // SAFETY: each pointer goes with the length of its slice; those that are written through are distinct.
        let status = unsafe {
            match self.shared {
                None => raw::gix_index_check(bytes, len, kind, false, room, room_len, &mut summary),
                Some(shared) => raw::gix_index_check_split(
                    bytes,
                    len,
                    shared.as_ptr(),
                    shared.len(),
                    kind,
                    false,
                    room,
                    room_len,
                    &mut summary,
                ),
            }
        };
        match status {
            raw::DONE => Ok(()),
            raw::MEMORY => Err(Error::Memory),
            _ => Err(Error::of(&summary, &text)),
        }
    }
}

/// Checks that these are all bytes of an index. Its entries have to strictly increase by path, then stage. Its cached
/// tree, if there is one, has to be consistent and to count no more entries than there are. Objects aren't read.
///
/// The errors are, in their order: those of [`Index::from_bytes`](crate::Index::from_bytes),
/// [`Fault::Order`](crate::Fault::Order) and [`Fault::CachedTree`](crate::Fault::CachedTree). Of a split index only its
/// own entries are checked. More than one entry with an empty path is out of order then.
pub fn verify(bytes: &[u8], kind: Kind) -> Result<(), Error> {
    Files { bytes, shared: None, kind }.check()
}

/// Checks an index and the shared index that it links to, as [`verify`] checks one. They are read as by
/// [`Index::from_split_bytes`](crate::Index::from_split_bytes), and the entries of both are checked.
pub fn verify_split(bytes: &[u8], shared: &[u8], kind: Kind) -> Result<(), Error> {
    Files { bytes, shared: Some(shared), kind }.check()
}

/// Checks the index at a path, as [`verify`] checks bytes and as `index-tool check` does. A link to a shared index is
/// followed, as by [`Index::open`](crate::Index::open).
pub fn verify_file(path: impl AsRef<Path>, kind: Kind) -> Result<(), Error> {
    let path = path.as_ref();
    let bytes = bytes_of(path.into())?;
    let shared = shared_bytes_of(path, &bytes, kind)?;
    Files { bytes: &bytes, shared: shared.as_deref(), kind }.check()
}
