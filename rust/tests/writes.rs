// SPDX-License-Identifier: MIT OR Apache-2.0
//! Holds what is written of an index against what is read again. `tests/linked` at the top of the repository runs it.
//!
//! GIX_INDEX_SHA1 and GIX_INDEX_SHA256 name files, whose entries are in order. Without them only what is made here is
//! looked at.

use gix_index_proved::write::{Options, VersionChoice};
use gix_index_proved::{Entry, Error, Fault, Index, Kind, Stat, Time, flags, mode};
use std::{env, fs};

/// All that is read of an entry.
type All = (Vec<u8>, Vec<u8>, Stat, u32, u32, u32);

fn all_of(entry: Entry<'_>) -> All {
    (entry.path().to_vec(), entry.id().to_vec(), entry.stat(), entry.mode(), entry.flags(), entry.stage())
}

fn entries_of(index: &Index) -> Vec<All> {
    index.entries().map(all_of).collect()
}

/// An index of these paths, at stage 0, with stat numbers that tell them apart.
fn index_of(kind: Kind, paths: &[&[u8]]) -> Index {
    let mut index = Index::new(kind);
    for (place, path) in paths.iter().enumerate() {
        let number = place as u32 + 1;
        let stat = Stat { mtime: Time { secs: number, nsecs: 2 }, size: number * 7, ..Stat::default() };
        let id = vec![number as u8; kind.len_in_bytes()];
        index.dangerously_push_entry(stat, &id, 0, mode::FILE, path).expect("there is memory");
    }
    index
}

fn each_way() -> impl Iterator<Item = Options> {
    let versions = [VersionChoice::Smallest, VersionChoice::V4];
    let each = |version| [false, true].map(|skip_hash| Options { version, skip_hash, ..Options::default() });
    versions.into_iter().flat_map(each)
}

fn fault_of(error: Error) -> Fault {
    match error {
        Error::Refused { fault, .. } => fault,
        error => panic!("{error}"),
    }
}

fn reads_back(index: &Index) {
    for options in each_way() {
        let bytes = index.write_to(options).expect("it can be written");
        let again = Index::from_bytes(&bytes, index.object_hash()).expect("it can be read");
        assert_eq!(entries_of(&again), entries_of(index), "{options:?}");
        assert_eq!(again.version() == 4, options.version == VersionChoice::V4);
    }
}

#[test]
fn files_read_back() {
    for (kind, name) in [(Kind::Sha1, "GIX_INDEX_SHA1"), (Kind::Sha256, "GIX_INDEX_SHA256")] {
        let Some(path) = env::var_os(name) else { continue };
        let bytes = fs::read(path).expect("the file is there");
        let index = Index::from_bytes(&bytes, kind).expect("it can be read");
        match index.entries().position(|entry| entry.mode() == mode::DIR) {
            None => reads_back(&index),
            Some(place) => {
                assert_eq!(fault_of(index.write_to(Options::default()).unwrap_err()), Fault::Row(place));
            }
        }
    }
}

#[test]
fn made_entries_read_back() {
    for kind in [Kind::Sha1, Kind::Sha256] {
        reads_back(&Index::new(kind));
        let mut index = index_of(kind, &[b"b/c", b"a", b"b"]);
        assert_eq!(fault_of(index.write_to(Options::default()).unwrap_err()), Fault::Order(1));
        index.sort_entries();
        assert!(index.entries().map(|entry| entry.path()).eq([&b"a"[..], b"b", b"b/c"]));
        reads_back(&index);
        let mut entry = index.entry_mut(1).expect("there are three");
        entry.set_flags(flags::EXTENDED | flags::SKIP_WORKTREE);
        entry.set_mode(mode::FILE_EXECUTABLE);
        entry.set_stat(Stat { dev: 9, ..Stat::default() });
        entry.set_id(&vec![0xab; kind.len_in_bytes()]).expect("it is as long as the others");
        assert!(matches!(entry.set_id(&[1; 3]), Err(Error::Id { actual: 3, .. })));
        reads_back(&index);
        let bytes = index.write_to(Options::default()).expect("it can be written");
        assert_eq!(Index::from_bytes(&bytes, kind).expect("it can be read").version(), 3);
        index.remove_entries(|place, path, entry| place == 0 && path == b"a" && entry.stage() == 0);
        assert!(index.remove_entry_at_index(1) && !index.remove_entry_at_index(1));
        assert!(index.entries().map(|entry| entry.path()).eq([&b"b"[..]]));
        reads_back(&index);
    }
}

#[test]
fn unfit_entries_are_refused() {
    let refused = |paths: &[&[u8]]| fault_of(index_of(Kind::Sha1, paths).write_to(Options::default()).unwrap_err());
    assert_eq!(refused(&[b"a", b""]), Fault::Row(1));
    assert_eq!(refused(&[b"a\0"]), Fault::Row(0));
    assert_eq!(refused(&[b"a", b"a"]), Fault::Order(1));
    let mut index = Index::new(Kind::Sha1);
    let pushed = index.dangerously_push_entry(Stat::default(), &[1; 32], 0, mode::FILE, b"a");
    assert!(matches!(pushed, Err(Error::Id { expected: 20, actual: 32 })));
    index.dangerously_push_entry(Stat::default(), &[1; 20], 0, mode::DIR, b"a/").expect("there is memory");
    assert_eq!(fault_of(index.write_to(Options::default()).unwrap_err()), Fault::Row(0));
    for mode in [0, 0o100600, 0o100664, 0o140000, !0] {
        index.entry_mut(0).expect("it is there").set_mode(mode);
        assert_eq!(fault_of(index.write_to(Options::default()).unwrap_err()), Fault::Mode(0));
    }
}

#[test]
fn a_path_is_written_by_way_of_a_lock() {
    let folder = env::temp_dir().join(format!("gix-index-proved-{}", std::process::id()));
    fs::create_dir(&folder).expect("it isn't there");
    let (path, lock) = (folder.join("index"), folder.join("index.lock"));
    let index = index_of(Kind::Sha1, &[b"a", b"b"]);
    index.write(&path, Options::default()).expect("it can be written");
    index.write(&path, Options::default()).expect("it can be written again");
    assert_eq!(entries_of(&Index::open(&path, Kind::Sha1).expect("it can be read")), entries_of(&index));
    assert!(!lock.exists());
    fs::write(&lock, b"another's").expect("it can be made");
    let other = index_of(Kind::Sha1, &[b"c"]);
    let error = other.write(&path, Options::default()).unwrap_err();
    assert!(matches!(&error, Error::Locked { lock: named } if *named == lock), "{error}");
    assert!(lock.exists());
    assert_eq!(entries_of(&Index::open(&path, Kind::Sha1).expect("it can be read")), entries_of(&index));
    fs::remove_file(&lock).expect("it is there");
    fs::remove_dir_all(&folder).expect("it is there");
}
