// SPDX-License-Identifier: MIT OR Apache-2.0
//! Holds changes of an index against what they make of its entries, and what is refused. `tests/linked` at the top of
//! the repository runs it, and holds the same call from C against git.

mod common;

use common::Folder;
use gix_index_proved::write::Options;
use gix_index_proved::{Change, Error, Fault, Index, Kind, Stat, flags, mode, update};
use std::fs;

fn staged(path: &[u8], id: u8, stage: u32) -> Change<'_> {
    let id: &[u8] = if id == 1 { &[1; 20] } else { &[2; 20] };
    Change::Stage { stat: Stat::default(), id, flags: stage << 12, mode: mode::FILE, path }
}

fn changed(index: &[u8], changes: &[Change<'_>]) -> Vec<u8> {
    update(index, None, Kind::Sha1, changes).expect("they can be made")
}

fn empty() -> Vec<u8> {
    Index::new(Kind::Sha1).write_to(Options::default()).expect("it can be written")
}

/// Path, first byte of the id, and stage of each entry.
fn told(index: &[u8]) -> Vec<(Vec<u8>, u8, u32)> {
    let index = Index::from_bytes(index, Kind::Sha1).expect("it can be read");
    index.entries().map(|entry| (entry.path().to_vec(), entry.id()[0], entry.stage())).collect()
}

fn fault_of(index: &[u8], change: Change<'_>) -> Fault {
    let refused = update(index, None, Kind::Sha1, &[staged(b"a", 1, 0), change]);
    let Err(Error::Refused { fault, text }) = refused else { panic!("{refused:?}") };
    assert!(!text.is_empty());
    fault
}

#[test]
fn what_is_staged_takes_the_place_of_others() {
    let index = changed(&empty(), &[staged(b"b", 1, 0), staged(b"a/b", 1, 0), staged(b"c", 1, 2), staged(b"c", 2, 3)]);
    let wanted = [("a/b", 1, 0), ("b", 1, 0), ("c", 1, 2), ("c", 2, 3)];
    assert_eq!(told(&index), wanted.map(|(path, id, stage)| (path.as_bytes().to_vec(), id, stage)));
    let read = Index::from_bytes(&index, Kind::Sha1).expect("it can be read");
    let theirs = read.entry_by_path_and_stage(b"c", 3).expect("it is there");
    let next = changed(&index, &[staged(b"a", 2, 0), Change::Unstage { path: b"b" }, Change::resolve(theirs)]);
    assert_eq!(told(&next), [(b"a".to_vec(), 2, 0), (b"c".to_vec(), 2, 0)]);
    assert!(next.windows(4).any(|it| it == b"REUC"), "the sides that went are recorded");
    let same: Vec<_> = read.entries().map(Change::from).collect();
    assert_eq!(told(&changed(&index, &same)), told(&index));
    assert_eq!(changed(&index, &[]), index);
}

#[test]
fn what_git_refuses_is_refused_by_its_place() {
    let index = empty();
    for path in [&b".git/config"[..], b"a/../b", b"a//b", b"a/", b"."] {
        assert_eq!(fault_of(&index, staged(path, 1, 0)), Fault::Name(1));
    }
    assert_eq!(fault_of(&index, staged(b"", 1, 0)), Fault::Row(1));
    assert_eq!(fault_of(&index, staged(b"a\0b", 1, 0)), Fault::Row(1));
    let Change::Stage { stat, flags, path, .. } = staged(b"b", 1, 0) else { unreachable!() };
    assert_eq!(fault_of(&index, Change::Stage { stat, flags, path, id: &[0; 20], mode: mode::FILE }), Fault::Row(1));
    assert_eq!(fault_of(&index, Change::Stage { stat, flags, path, id: &[1; 20], mode: mode::DIR }), Fault::Row(1));
    assert_eq!(fault_of(&index, Change::Stage { stat, flags, path, id: &[1; 20], mode: 7 }), Fault::Mode(1));
    let longer = Change::Stage { stat, flags, path, id: &[1; 32], mode: mode::FILE };
    assert!(matches!(update(&index, None, Kind::Sha1, &[longer]), Err(Error::Id { expected: 20, actual: 32 })));
    assert_eq!(fault_of(&index[..30], staged(b"b", 1, 0)), Fault::Digest);
    let marked = Change::Stage { stat, flags: flags::REMOVE, path, id: &[1; 20], mode: mode::FILE };
    assert_eq!(told(&changed(&index, &[marked])), [(b"b".to_vec(), 1, 0)]);
}

#[test]
fn changes_are_made_under_a_lock() {
    let folder = Folder::new("changes");
    let (path, lock) = (folder.at("index"), folder.at("index.lock"));
    let commit = |changes: &[Change<'_>]| Index::lock(&path)?.commit_changes(Kind::Sha1, changes, true);
    commit(&[staged(b"a", 1, 0)]).expect("an index is begun");
    commit(&[staged(b"b", 2, 0), Change::Unstage { path: b"a" }]).expect("it is changed");
    assert_eq!(told(&fs::read(&path).expect("it is there")), [(b"b".to_vec(), 2, 0)]);
    assert!(matches!(commit(&[staged(b"..", 1, 0)]), Err(Error::Refused { fault: Fault::Name(0), .. })));
    assert!(!lock.exists());
    assert_eq!(told(&fs::read(&path).expect("it is there")), [(b"b".to_vec(), 2, 0)]);
}
