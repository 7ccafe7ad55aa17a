// SPDX-License-Identifier: MIT OR Apache-2.0
//! Holds what searches of an index find against a look at each entry. `tests/linked` at the top of the repository runs
//! it.
//!
//! GIX_INDEX_SHA1 and GIX_INDEX_SHA256 name files, whose entries are in order. Without them nothing is looked at.

use gix_index_proved::{Entry, Fault, Index, Kind, mode};
use std::{env, fs};

/// What is looked for: each front of each path, as it is and with another byte behind it.
fn fronts(index: &Index) -> Vec<Vec<u8>> {
    let paths = index.entries().map(|entry| entry.path());
    let starts = paths.flat_map(|path| (0..=path.len()).map(|len| path[..len].to_vec()));
    let behind = [vec![], vec![b'/'], vec![0], vec![0xff]];
    starts.flat_map(|front| behind.clone().map(|byte| [front.clone(), byte].concat())).collect()
}

fn is_below(entry: Entry<'_>, directory: &[u8]) -> bool {
    entry.path().strip_prefix(directory).is_some_and(|rest| rest.starts_with(b"/"))
}

fn is_directory(entry: Entry<'_>) -> bool {
    matches!(entry.mode(), mode::DIR | mode::COMMIT)
}

/// A path and a stage, by which entries are told apart.
fn key_of(entry: Entry<'_>) -> (Vec<u8>, u32) {
    (entry.path().to_vec(), entry.stage())
}

fn look_for(index: &Index, front: &[u8]) {
    let found: Vec<_> = index.entries().filter(|entry| entry.path().starts_with(front)).map(key_of).collect();
    let told = index.prefixed_entries(front).map(|entries| entries.map(key_of).collect::<Vec<_>>());
    assert_eq!(told, (front.is_empty() || !found.is_empty()).then_some(found), "entries with a prefix");
    let range = index.prefixed_entries_range(front);
    assert_eq!(range.map(|range| range.len()), told.map(|entries| entries.len()), "places with a prefix");
    let closest = match index.entries().any(|entry| entry.path() == front) {
        true => index.entries().find(|entry| entry.path() == front && is_directory(*entry)),
        false => index.entries().find(|entry| is_below(*entry, front)),
    };
    let told = index.entry_closest_to_directory_or_directory(front);
    assert_eq!(told.map(key_of), closest.map(key_of), "the entry closest to a directory");
}

fn file_of(kind: Kind) -> Option<Vec<u8>> {
    let name = if kind == Kind::Sha1 { "GIX_INDEX_SHA1" } else { "GIX_INDEX_SHA256" };
    env::var_os(name).map(|path| fs::read(path).expect("the file is there"))
}

#[test]
fn searches() {
    for kind in [Kind::Sha1, Kind::Sha256] {
        let Some(bytes) = file_of(kind) else { continue };
        gix_index_proved::verify(&bytes, kind).expect("its entries are in order");
        let index = Index::from_bytes(&bytes, kind).expect("it can be read");
        fronts(&index).iter().for_each(|front| look_for(&index, front));
        assert!(index.prefixed_entries(b"no such path").is_none());
    }
}

#[test]
fn no_index_is_sound() {
    let error = gix_index_proved::verify(b"no index", Kind::Sha1).expect_err("there is none");
    assert!(matches!(error, gix_index_proved::Error::Refused { fault: Fault::Header, .. }), "{error}");
}
