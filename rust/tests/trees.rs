// SPDX-License-Identifier: MIT OR Apache-2.0
//! Holds the trees that are given of an index against those of git, whose ids stand here. `tests/linked` at the top of
//! the repository runs it, and holds the same call from C against git over each of its repositories.

use gix_index_proved::{Error, Fault, Index, Kind, Stat, flags, mode};
use std::io;

/// The id that git has for an empty file.
const EMPTY: [u8; 20] = *b"\xe6\x9d\xe2\x9b\xb2\xd1\xd6\x43\x4b\x8b\x29\xae\x77\x5a\xd8\xc2\xe4\x8c\x53\x91";

fn index_of(entries: &[(&str, u32)]) -> Index {
    let mut index = Index::new(Kind::Sha1);
    for &(path, flags) in entries {
        index
            .dangerously_push_entry(Stat::default(), &EMPTY, flags, mode::FILE, path.as_bytes())
            .expect("there is memory");
    }
    index
}

fn hex(id: &[u8]) -> String {
    id.iter().map(|byte| format!("{byte:02x}")).collect()
}

/// The id of the root, and all trees.
fn trees_of(entries: &[(&str, u32)]) -> Result<(String, Vec<(String, Vec<u8>)>), Error> {
    let mut trees = Vec::new();
    let root = index_of(entries).write_trees(|id, bytes| {
        trees.push((hex(id), bytes.to_vec()));
        Ok::<(), Error>(())
    })?;
    Ok((hex(&root), trees))
}

fn fault_of(entries: &[(&str, u32)]) -> Fault {
    let refused = trees_of(entries);
    let Err(Error::Refused { fault, text }) = refused else { panic!("{refused:?}") };
    assert!(!text.is_empty());
    fault
}

#[test]
fn trees_are_those_of_git() {
    let (root, trees) = trees_of(&[("a", 0), ("d/b", 0), ("e/later", flags::INTENT_TO_ADD)]).expect("it has trees");
    let inner = [&b"100644 b\0"[..], &EMPTY].concat();
    assert_eq!(trees.len(), 2);
    assert_eq!(trees[0], ("4277b6e69d25e5efa77c455340557b384a4c018a".to_owned(), inner));
    assert_eq!(trees[1].0, "3ba83ecd24ffd3f6143bed4eb8286e0eb037767e");
    assert!(trees[1].1.starts_with(b"100644 a\0"));
    assert_eq!(root, trees[1].0);
    let (root, trees) = trees_of(&[]).expect("it has trees");
    assert_eq!(root, "4b825dc642cb6eb9a060e54bf8d69288fbee4904");
    assert_eq!(trees, [(root, Vec::new())]);
}

#[test]
fn what_has_no_tree_is_refused_by_its_place() {
    assert_eq!(fault_of(&[("a", 0), ("b", 1 << 12)]), Fault::Unmerged(1));
    assert_eq!(fault_of(&[("a", 0), ("a/b", 0)]), Fault::Below(1));
    assert_eq!(fault_of(&[("a", 0), ("b/.git", 0)]), Fault::Name(1));
    assert_eq!(fault_of(&[("b", 0), ("a", 0)]), Fault::Order(1));
}

#[test]
fn an_error_ends_it() {
    let mut calls = 0;
    let ended = index_of(&[("a", 0), ("d/b", 0)]).write_trees(|_, _| {
        calls += 1;
        Err(io::Error::from(io::ErrorKind::StorageFull))
    });
    assert_eq!((ended.expect_err("it is ended").kind(), calls), (io::ErrorKind::StorageFull, 1));
}
