// SPDX-License-Identifier: MIT OR Apache-2.0
//! Holds what is kept of an index that is written over against what was there, and a split index that is read and
//! checked with its shared one against the entries of both. `tests/linked` at the top of the repository runs it.
//!
//! GIX_INDEX_SHA1 and GIX_INDEX_SHA256 name files of repositories, GIX_INDEX_SPLIT_SHA1 and GIX_INDEX_SPLIT_SHA256
//! split indices beside their shared ones. Without them nothing is looked at.

mod common;

use common::Folder;
use gix_index_proved::write::{CachedTree, Options, VersionChoice};
use gix_index_proved::{Error, Fault, Index, Kind, Stat, verify_file, verify_split};
use std::path::PathBuf;
use std::{env, fs};

/// The files of a variable for each kind, where they are named.
fn files(variable: &str) -> impl Iterator<Item = (Kind, PathBuf, Vec<u8>)> {
    [(Kind::Sha1, "SHA1"), (Kind::Sha256, "SHA256")].into_iter().filter_map(move |(kind, name)| {
        let path = PathBuf::from(env::var_os(format!("{variable}_{name}"))?);
        let bytes = fs::read(&path).expect("the file is there");
        Some((kind, path, bytes))
    })
}

/// All that is read of an entry: path, id, stat numbers, mode and flags.
type All = (Vec<u8>, Vec<u8>, Stat, u32, u32);

fn entries_of(index: &Index) -> Vec<All> {
    let all = index.entries();
    all.map(|entry| (entry.path().to_vec(), entry.id().to_vec(), entry.stat(), entry.mode(), entry.flags())).collect()
}

fn has(bytes: &[u8], signature: &[u8]) -> bool {
    bytes.windows(signature.len()).any(|window| window == signature)
}

#[test]
fn what_tells_of_the_entries_is_kept() {
    for (kind, _, bytes) in files("GIX_INDEX") {
        let index = Index::from_bytes(&bytes, kind).expect("it can be read");
        for version in [VersionChoice::Smallest, VersionChoice::V4] {
            let options = Options { version, ..Options::default() };
            let (again, tree) = index.write_to_over(&bytes, options).expect("it can be written");
            assert_eq!(entries_of(&Index::from_bytes(&again, kind).expect("it can be read")), entries_of(&index));
            assert_eq!(has(&again, b"TREE"), tree == CachedTree::Kept);
            assert_eq!(has(&again, b"sdir\0\0\0\0"), has(&bytes, b"sdir\0\0\0\0"));
            // (git leaves one that is right, beside entries in conflict too)
            assert_eq!(tree == CachedTree::Kept, has(&bytes, b"TREE"));
        }
    }
}

#[test]
fn a_tree_goes_with_an_id() {
    for (kind, _, bytes) in files("GIX_INDEX") {
        let mut index = Index::from_bytes(&bytes, kind).expect("it can be read");
        let tree = index.write_to_over(&bytes, Options::default()).expect("it can be written").1;
        index.entry_mut(0).expect("it has entries").set_id(&vec![7; kind.len_in_bytes()]).expect("it is as long");
        let (again, other) = index.write_to_over(&bytes, Options::default()).expect("it can be written");
        if tree == CachedTree::Kept && other == CachedTree::LeftOut {
            assert!(!has(&again, b"TREE"));
            assert_eq!(index.write_to_over(&again, Options::default()).expect("it can be written").1, CachedTree::None);
        }
    }
}

#[test]
fn a_damaged_index_is_not_written_over() {
    for (kind, _, mut bytes) in files("GIX_INDEX") {
        let index = Index::from_bytes(&bytes, kind).expect("it can be read");
        bytes[20] ^= 1;
        let error = index.write_to_over(&bytes, Options::default()).unwrap_err();
        assert!(matches!(error, Error::Refused { fault: Fault::Digest, .. }), "{error}");
        let error = index.write_to_over(b"", Options::default()).unwrap_err();
        assert!(matches!(error, Error::Refused { fault: Fault::Header, .. }), "{error}");
    }
}

#[test]
fn a_link_is_followed() {
    for (kind, path, bytes) in files("GIX_INDEX_SPLIT") {
        let own = Index::from_bytes(&bytes, kind).expect("it can be read");
        let id = own.shared_id().expect("it links to a shared index");
        let name: String = id.iter().map(|byte| format!("{byte:02x}")).collect();
        assert!(matches!(own.write_to(Options::default()), Err(Error::Split)));
        let shared = fs::read(path.with_file_name(format!("sharedindex.{name}"))).expect("it is there");
        let index = Index::open(&path, kind).expect("both can be read");
        let both = Index::from_split_bytes(&bytes, &shared, kind).expect("both can be read");
        assert_eq!(entries_of(&index), entries_of(&both));
        assert!(!index.has_link() && index.shared_id().is_none());
        assert!(index.entries().all(|entry| !entry.path().is_empty()));
        assert!(own.entries().any(|entry| entry.path().is_empty()));
        let written = index.write_to_over(&bytes, Options::default()).expect("it can be written").0;
        assert_eq!(entries_of(&Index::from_bytes(&written, kind).expect("it can be read")), entries_of(&index));
        let error = Index::from_split_bytes(&bytes, &written, kind).expect_err("it is another's");
        assert!(matches!(error, Error::RefusedShared { fault: Fault::Digest, .. }), "{error}");
        let error = Index::from_split_bytes(&bytes, b"", kind).expect_err("it is none");
        assert!(matches!(error, Error::RefusedShared { fault: Fault::Header, .. }), "{error}");
    }
}

#[test]
fn a_split_index_is_checked_with_its_shared_one() {
    for (kind, path, bytes) in files("GIX_INDEX_SPLIT") {
        verify_file(&path, kind).expect("both are sound");
        let whole = Index::open(&path, kind).expect("both can be read");
        let id = Index::from_bytes(&bytes, kind).expect("it can be read").shared_id().expect("it links").to_vec();
        let name: String = id.iter().map(|byte| format!("{byte:02x}")).collect();
        let shared = fs::read(path.with_file_name(format!("sharedindex.{name}"))).expect("it is there");
        verify_split(&bytes, &shared, kind).expect("both are sound");
        let (written, _) = whole.write_to_over(&bytes, Options::default()).expect("it can be written");
        verify_split(&written, b"", kind).expect("it links to none");
        let error = verify_split(&bytes, &written, kind).expect_err("it is another's");
        assert!(matches!(error, Error::RefusedShared { fault: Fault::Digest, .. }), "{error}");
        let error = verify_file(path.with_file_name("HEAD"), kind).expect_err("it is no index");
        assert!(matches!(error, Error::Refused { fault: Fault::Digest | Fault::Header, .. }), "{error}");
    }
}

#[test]
fn what_is_opened_under_a_lock_is_kept() {
    let folder = Folder::new("opened");
    let path = folder.at("index");
    for (kind, _, bytes) in files("GIX_INDEX") {
        let index = Index::from_bytes(&bytes, kind).expect("it can be read");
        for version in [VersionChoice::Smallest, VersionChoice::V4] {
            let options = Options { version, ..Options::default() };
            let (before, tree) = index.write_to_over(&bytes, options).expect("it can be written");
            fs::write(&path, &before).expect("it can be made");
            let mut locked = Index::lock(&path).expect("it can be locked");
            assert_eq!(locked.bytes(), None);
            let read = locked.open(kind).expect("it can be read");
            assert_eq!((locked.bytes(), locked.shared_id()), (Some(&before[..]), None));
            assert!(format!("{locked:?}").contains(&format!("bytes: {}", before.len())));
            assert_eq!(locked.commit(&read, Options::default()).expect("it can be written"), tree);
            assert_eq!(fs::read(&path).expect("it is there"), before);
            assert_eq!(Index::open(&path, kind).expect("it can be read"), read);
            // (an index that wasn't opened so has no extension, and its own version)
            let locked = Index::lock(&path).expect("it can be locked");
            if !index.entries().any(|entry| entry.mode() == gix_index_proved::mode::DIR) {
                assert_eq!(locked.commit(&index, options).expect("it can be written"), CachedTree::None);
                assert_eq!(fs::read(&path).expect("it is there"), index.write_to(options).expect("it can be written"));
            }
        }
    }
}

#[test]
fn a_change_under_a_lock_keeps_the_version() {
    let folder = Folder::new("changed");
    let path = folder.at("index");
    for (kind, _, bytes) in files("GIX_INDEX") {
        let index = Index::from_bytes(&bytes, kind).expect("it can be read");
        let options = Options { version: VersionChoice::V4, ..Options::default() };
        fs::write(&path, index.write_to_over(&bytes, options).expect("it can be written").0).expect("it can be made");
        let mut locked = Index::lock(&path).expect("it can be locked");
        let mut read = locked.open_or_default(kind).expect("it can be read");
        assert!(read.remove_entry_at_index(0));
        locked.commit(&read, Options::default()).expect("it can be written");
        let again = Index::open(&path, kind).expect("it can be read");
        assert_eq!((again.version(), entries_of(&again)), (4, entries_of(&index).split_off(1)));
        let mut locked = Index::lock(&path).expect("it can be locked");
        locked.open(kind).expect("it can be read");
        locked.commit(&Index::new(kind), Options::default()).expect("it can be written");
        assert_eq!(Index::open(&path, kind).expect("it can be read").version(), 4);
    }
}

#[test]
fn a_split_index_is_committed_whole() {
    for (kind, path, bytes) in files("GIX_INDEX_SPLIT") {
        let folder = Folder::new("split");
        let own = Index::from_bytes(&bytes, kind).expect("it can be read");
        let id = own.shared_id().expect("it links to a shared index");
        let name = id.iter().map(|byte| format!("{byte:02x}")).collect::<String>();
        let shared = format!("sharedindex.{name}");
        fs::write(folder.at("index"), &bytes).expect("it can be made");
        let mut locked = Index::lock(folder.at("index")).expect("it can be locked");
        let error = locked.open_or_default(kind).expect_err("its shared index isn't there");
        assert!(matches!(&error, Error::Io { path, .. } if *path == folder.at(&shared)), "{error}");
        fs::copy(path.with_file_name(&shared), folder.at(&shared)).expect("it can be made");
        let index = locked.open(kind).expect("both can be read");
        assert_eq!((locked.shared_id(), index.shared_id()), (Some(id), None));
        locked.commit(&index, Options::default()).expect("it can be written");
        fs::remove_file(folder.at(&shared)).expect("it is there");
        assert_eq!(entries_of(&Index::open(folder.at("index"), kind).expect("it is whole")), entries_of(&index));
    }
}

#[test]
fn no_file_is_an_index_without_entries() {
    let folder = Folder::new("none");
    let mut locked = Index::lock(folder.at("index")).expect("it can be locked");
    assert!(matches!(locked.open(Kind::Sha1), Err(Error::Io { .. })));
    let index = locked.open_or_default(Kind::Sha1).expect("nothing is there");
    assert_eq!(index, Index::new(Kind::Sha1));
    assert_eq!(locked.commit(&index, Options::default()).expect("it can be written"), CachedTree::None);
    let written = Index::open_or_default(folder.at("index"), Kind::Sha1).expect("it can be read");
    assert!(written.entries().len() == 0 && written.timestamp().is_some());
    let other = Index::open_or_default(folder.at("other"), Kind::Sha256).expect("nothing is there");
    assert_eq!(other, Index::new(Kind::Sha256));
}
