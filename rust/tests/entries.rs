// SPDX-License-Identifier: MIT OR Apache-2.0
//! Holds setters and getters of entries, their order and their removal, and the numbers of faults against constants
//! that are spelled here. `tests/linked` at the top of the repository runs it.

use gix_index_proved::write::Options;
use gix_index_proved::{Error, Fault, Index, Kind, Stat, Time, mode, verify};

const KINDS: [Kind; 2] = [Kind::Sha1, Kind::Sha256];
const PATH: &[u8] = b"d/e.f";
const STAT: Stat = Stat {
    ctime: Time { secs: 0x0101_0102, nsecs: 203 },
    mtime: Time { secs: 0x0304_0304, nsecs: 405 },
    dev: 506,
    ino: 607,
    uid: 708,
    gid: 809,
    size: 910,
};
/// At stage 2, with all flags that a file has.
const FLAGS: u32 = 0x6000_e000;

/// An id whose bytes count up from a number.
fn id_of(kind: Kind, first: u8) -> Vec<u8> {
    (first..).take(kind.len_in_bytes()).collect()
}

/// An index of that one entry as git's document gitformat-index spells it, in version 3, with zeros for a digest.
fn spelled(kind: Kind) -> Vec<u8> {
    let numbers = [0x0101_0102, 203, 0x0304_0304, 405, 506, 607, 0o100755, 708, 809, 910_u32];
    let mut entry: Vec<u8> = numbers.into_iter().flat_map(u32::to_be_bytes).collect();
    entry.extend(id_of(kind, 1));
    // The first word has the length of the path behind its flags; the second has what isn't wanted or is added later.
    entry.extend(b"\xe0\x05\x60\x00d/e.f");
    entry.resize(entry.len() / 8 * 8 + 8, 0);
    [b"DIRC\0\0\0\x03\0\0\0\x01", entry.as_slice(), &vec![0; kind.len_in_bytes()]].concat()
}

fn written(index: &Index) -> Vec<u8> {
    index.write_to(Options { skip_hash: true, ..Options::default() }).expect("it can be written")
}

/// An index of entries, each with an id that counts up from its place.
fn index_of(kind: Kind, entries: &[(&[u8], u32)]) -> Index {
    let mut index = Index::new(kind);
    for (first, (path, stage)) in (1..).zip(entries) {
        let id = id_of(kind, first);
        index.dangerously_push_entry(STAT, &id, stage << 12, mode::FILE, path).expect("there is memory");
    }
    index
}

/// Path, stage and the first byte of the id of each entry.
fn all_of(index: &Index) -> Vec<(&[u8], u32, u8)> {
    index.entries().map(|entry| (entry.path(), entry.stage(), entry.id()[0])).collect()
}

#[test]
fn getters_read_what_is_spelled() {
    for kind in KINDS {
        let index = Index::from_bytes(&spelled(kind), kind).expect("it can be read");
        assert_eq!((index.version(), index.object_hash(), index.entries().len()), (3, kind, 1));
        let entry = index.entry(0).expect("there is one");
        let stat = entry.stat();
        assert_eq!((entry.path(), entry.id()), (PATH, id_of(kind, 1).as_slice()));
        assert_eq!((stat.ctime.secs, stat.ctime.nsecs), (0x0101_0102, 203));
        assert_eq!((stat.mtime.secs, stat.mtime.nsecs), (0x0304_0304, 405));
        assert_eq!((stat.dev, stat.ino, stat.uid, stat.gid, stat.size), (506, 607, 708, 809, 910));
        assert_eq!((entry.mode(), entry.flags(), entry.stage()), (0o100755, FLAGS, 2));
        assert!(index.entry(1).is_none() && index.checksum().is_none());
        let hashed = index.write_to(Options::default()).expect("it can be written");
        let read = Index::from_bytes(&hashed, kind).expect("it can be read");
        assert_eq!(read.checksum(), Some(&hashed[hashed.len() - kind.len_in_bytes()..]));
    }
}

#[test]
fn setters_write_what_is_spelled() {
    for kind in KINDS {
        let mut pushed = Index::new(kind);
        let id = id_of(kind, 1);
        pushed.dangerously_push_entry(STAT, &id, FLAGS, mode::FILE_EXECUTABLE, PATH).expect("there is memory");
        assert_eq!(written(&pushed), spelled(kind));
        let mut set = Index::new(kind);
        let zeros = vec![0; kind.len_in_bytes()];
        set.dangerously_push_entry(Stat::default(), &zeros, 0, mode::FILE, PATH).expect("there is memory");
        let mut entry = set.entry_mut(0).expect("there is one");
        entry.set_stat(STAT);
        entry.set_id(&id).expect("it is as long");
        entry.set_mode(mode::FILE_EXECUTABLE);
        entry.set_flags(FLAGS);
        for len in [0, 4, id.len() - 1, id.len() + 1, 52 - id.len()] {
            let error = entry.set_id(&vec![7; len]).expect_err("it isn't as long");
            let is_told = matches!(error, Error::Id { expected, actual } if expected == id.len() && actual == len);
            assert!(is_told, "{len}: {error}");
        }
        assert!(set.entry_mut(1).is_none());
        assert_eq!(set.entry(0).map(|entry| entry.stage()), Some(2));
        assert_eq!(written(&set), spelled(kind));
    }
}

#[test]
fn entries_are_sorted_by_path_and_stage() {
    for kind in KINDS {
        let falling: [(&[u8], u32); 7] =
            [(b"b", 3), (b"b", 2), (b"b", 1), (b"b/a", 0), (b"a-", 0), (b"a", 3), (b"a", 1)];
        let mut index = index_of(kind, &falling);
        index.sort_entries();
        let sorted: [(&[u8], u32, u8); 7] =
            [(b"a", 1, 7), (b"a", 3, 6), (b"a-", 0, 5), (b"b", 1, 3), (b"b", 2, 2), (b"b", 3, 1), (b"b/a", 0, 4)];
        assert_eq!(all_of(&index), sorted);
        assert_eq!(all_of(&Index::from_bytes(&written(&index), kind).expect("it can be read")), sorted);
    }
}

#[test]
fn entries_in_the_middle_are_removed() {
    let entries: [(&[u8], u32); 6] = [(b"a", 0), (b"bbb", 0), (b"cc", 1), (b"cc", 2), (b"cc", 3), (b"dddd", 0)];
    let mut index = index_of(Kind::Sha1, &entries);
    assert!(index.remove_entry_at_index(1) && !index.remove_entry_at_index(5));
    assert_eq!(all_of(&index), [(&b"a"[..], 0, 1), (b"cc", 1, 3), (b"cc", 2, 4), (b"cc", 3, 5), (b"dddd", 0, 6)]);
    let mut shown = Vec::new();
    index.remove_entries(|place, path, entry| {
        shown.push((place, path.to_vec(), entry.stage()));
        entry.stage() == 2
    });
    let all = [(0, "a", 0), (1, "cc", 1), (2, "cc", 2), (3, "cc", 3), (4, "dddd", 0)];
    assert_eq!(shown, all.map(|(place, path, stage)| (place, path.as_bytes().to_vec(), stage)));
    assert_eq!(all_of(&index), [(&b"a"[..], 0, 1), (b"cc", 1, 3), (b"cc", 3, 5), (b"dddd", 0, 6)]);
    assert_eq!(all_of(&Index::from_bytes(&written(&index), Kind::Sha1).expect("it can be read")), all_of(&index));
}

#[test]
fn a_path_is_found_at_stage_0_or_2() {
    let entries: [(&[u8], u32); 8] =
        [(b"a", 1), (b"a", 2), (b"a", 3), (b"b", 1), (b"b", 3), (b"c", 0), (b"d", 0), (b"d", 2)];
    let index = index_of(Kind::Sha256, &entries);
    let found = |path: &[u8]| index.entry_by_path(path).map(|entry| (entry.stage(), entry.id()[0]));
    assert_eq!(found(b"a"), Some((2, 2)));
    assert_eq!(found(b"b"), None);
    assert_eq!(found(b"c"), Some((0, 6)));
    assert_eq!(found(b"d"), Some((0, 7)));
    assert_eq!(found(b"e"), None);
    let at = |path: &[u8], stage| index.entry_by_path_and_stage(path, stage).map(|entry| entry.id()[0]);
    assert_eq!([at(b"b", 0), at(b"b", 1), at(b"b", 2), at(b"b", 3)], [None, Some(4), None, Some(5)]);
}

/// An index of these pieces between its header and zeros for a digest.
fn pieces(version: u8, count: u8, pieces: &[&[u8]]) -> Vec<u8> {
    [b"DIRC\0\0\0".as_slice(), &[version, 0, 0, 0, count], &pieces.concat(), &[0; 20]].concat()
}

#[test]
fn faults_have_their_names() {
    let entry = &spelled(Kind::Sha1)[12..84];
    let mut changed = spelled(Kind::Sha1);
    *changed.last_mut().expect("it has a trailer") = 1;
    // A path of 40 bytes, of which there are four; and a cached tree that counts nine entries.
    let cut = [&entry[..60], b"\0\x28a/b."].concat();
    let tree = [b"TREE\0\0\0\x19\x009 0\n", id_of(Kind::Sha1, 1).as_slice()].concat();
    let cases = [
        (b"DIRX".to_vec(), Fault::Header),
        (pieces(3, 200, &[entry]), Fault::Header),
        (pieces(5, 1, &[entry]), Fault::Version),
        (pieces(3, 2, &[entry, &cut]), Fault::Entry(1)),
        (pieces(3, 1, &[entry, b"zzzz\0\0\0\0"]), Fault::Extension),
        (pieces(3, 1, &[entry, b"link\0\0\0\x01x"]), Fault::Link),
        (pieces(3, 1, &[entry, b"x"]), Fault::Trailer),
        (changed, Fault::Digest),
        (pieces(3, 2, &[entry, entry]), Fault::Order(1)),
        (pieces(3, 1, &[entry, &tree]), Fault::CachedTree),
    ];
    for (bytes, wanted) in cases {
        let error = verify(&bytes, Kind::Sha1).expect_err("it isn't sound");
        assert!(matches!(&error, Error::Refused { fault, .. } if *fault == wanted), "{wanted:?}: {error:?}");
    }
}
