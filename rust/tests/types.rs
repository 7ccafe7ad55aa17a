// SPDX-License-Identifier: MIT OR Apache-2.0
//! Holds what the public types are beside what they do: shown, compared, and sent to threads. `tests/linked` at the top
//! of the repository runs it.

mod common;

use common::Folder;
use gix_index_proved::write::Options;
use gix_index_proved::{
    Entry, EntryMut, Error, Fault, Index, Kind, Locked, Stat, Time, UnknownKind, flags, mode, write,
};
use std::collections::HashSet;
use std::fmt::{Debug, Display};
use std::fs;
use std::io;
use std::os::unix::fs::{PermissionsExt, symlink};
use std::path::{Path, PathBuf};

/// An index of these paths, all of them of one file.
fn index_of(paths: &[&[u8]]) -> Index {
    let mut index = Index::new(Kind::Sha1);
    for path in paths {
        let stat = Stat { mtime: Time { secs: 7, nsecs: 8 }, size: 9, ..Stat::default() };
        index.dangerously_push_entry(stat, &[0xab; 20], 0x2000, mode::FILE, path).expect("there is memory");
    }
    index
}

#[test]
fn what_is_shown_is_short() {
    let mut index = index_of(&[b"docs/\xff\"", &[b'x'; 5000]]);
    let entry = index.entry(0).expect("there are two");
    let shown = format!("{entry:?}");
    let (path, id) = ("docs/\u{fffd}\\\"", "ab".repeat(20));
    assert_eq!(shown, format!("Entry {{ path: \"{path}\", id: {id}, mode: 100644, flags: 0x2000, stage: 2, .. }}"));
    assert_eq!(format!("{:?}", index.entry_mut(0)), format!("Some(EntryMut({shown}))"));
    assert_eq!(format!("{index:?}"), "Index { kind: Sha1, version: 2, entries: 2, timestamp: None, .. }");
    assert_eq!(Index::from_bytes(b"", Kind::Sha1).unwrap_err().to_string().lines().count(), 1);
}

#[test]
fn what_is_read_is_compared() {
    let (index, mut other) = (index_of(&[b"a", b"b"]), index_of(&[b"0", b"a", b"b"]));
    assert_ne!(index, other);
    assert_eq!(index.entry(0), other.entry(1));
    assert_ne!(index.entry(0), index.entry(1));
    assert_eq!(index.entries().chain(other.entries()).collect::<HashSet<Entry<'_>>>().len(), 3);
    // (where paths lie in memory isn't looked at)
    assert!(other.remove_entry_at_index(0));
    assert_eq!(index, other);
    assert_eq!(index, index.clone());
    other.entry_mut(1).expect("there are two").set_flags(flags::ASSUME_VALID);
    assert_ne!(index, other);
    assert_ne!(Index::new(Kind::Sha1), Index::new(Kind::Sha256));
}

#[test]
fn each_entry_is_lent_to_be_changed() {
    let mut index = index_of(&[b"a", b"b", b"c"]);
    assert_eq!(index.entries_mut().len(), 3);
    for mut entry in index.entries_mut().rev().skip(1) {
        let stat = Stat { size: entry.entry().path()[0].into(), ..entry.entry().stat() };
        entry.set_stat(stat);
        entry.set_flags(0);
    }
    assert!(index.entries().map(|entry| entry.stat().size).eq([97, 98, 9]));
    assert_eq!(index.entry_index_by_path_and_stage(b"b", 0), Some(1));
    assert_eq!(index.entry_index_by_path_and_stage(b"c", 0), None);
    index.entry_mut_by_path_and_stage(b"c", 2).expect("it is there").set_mode(mode::SYMLINK);
    assert_eq!(index.entry(2).map(|entry| entry.mode()), Some(mode::SYMLINK));
    assert!(index.entry_mut_by_path_and_stage(b"d", 2).is_none());
}

#[test]
fn a_file_has_its_stat() {
    let said = std::env::current_exe().and_then(std::fs::symlink_metadata).expect("it is there");
    let stat = Stat::from_fs(&said);
    assert_eq!(stat, Stat::from(&said));
    assert_eq!(u64::from(stat.size), said.len());
    let time = said.modified().expect("it has one").duration_since(std::time::UNIX_EPOCH).expect("it is later");
    assert_eq!((u64::from(stat.mtime.secs), stat.mtime.nsecs), (time.as_secs(), time.subsec_nanos()));
    assert_eq!(std::time::SystemTime::from(stat.mtime), said.modified().expect("it has one"));
}

#[test]
fn what_is_there_has_its_mode() {
    let folder = Folder::new("modes");
    let (file, link) = (folder.at("file"), folder.at("link"));
    fs::write(&file, b"").expect("it can be written");
    symlink("file", &link).expect("it can be made");
    let mode_of = |path: &Path| mode::from_fs(&fs::symlink_metadata(path).expect("it is there"));
    for (bits, wanted) in [(0o644, mode::FILE), (0o755, mode::FILE_EXECUTABLE), (0o655, mode::FILE)] {
        fs::set_permissions(&file, fs::Permissions::from_mode(bits)).expect("it is one's own");
        assert_eq!(mode_of(&file), Some(wanted));
    }
    assert_eq!((mode_of(&link), mode_of(&folder.at(""))), (Some(mode::SYMLINK), Some(mode::COMMIT)));
    assert_eq!(mode_of(Path::new("/dev/null")), None);
}

#[test]
fn kinds_have_texts() {
    for kind in [Kind::Sha1, Kind::Sha256] {
        assert_eq!(kind.to_string().parse(), Ok(kind));
    }
    assert_eq!(format!("{:>8}", Kind::Sha1), "    sha1");
    let wrong: UnknownKind = "SHA1".parse::<Kind>().unwrap_err();
    assert_eq!(wrong.to_string(), "the kind of an index's ids is sha1 or sha256");
    assert!(Kind::Sha1 < Kind::Sha256);
}

#[test]
fn faults_have_texts() {
    let error = index_of(&[b"b", b"a"]).write_to(Options::default()).unwrap_err();
    assert!(matches!(&error, Error::Refused { fault, text } if *text == fault.to_string()), "{error}");
    let error = index_of(&[b"a"]).write_to_over(b"", Options::default()).unwrap_err();
    assert_eq!(error.to_string(), "the index that is written over is refused: the header is at fault");
    assert_eq!(Fault::Entry(3).to_string(), "entry 3 can't be read");
}

#[test]
fn errors_go_on_as_those_of_the_system() {
    let path = PathBuf::from("index");
    let error = io::Error::from(Error::Locked { lock: path.clone() });
    assert_eq!(error.kind(), io::ErrorKind::AlreadyExists);
    assert!(error.to_string().contains("another process writes the index"));
    assert!(error.get_ref().is_some_and(|inner| inner.is::<Error>()));
    assert_eq!(io::Error::from(Error::Memory).kind(), io::ErrorKind::OutOfMemory);
    assert_eq!(io::Error::from(Error::TooLong { path: path.clone() }).kind(), io::ErrorKind::Other);
    let inner = io::Error::from(io::ErrorKind::PermissionDenied);
    assert_eq!(io::Error::from(Error::Io { path, error: inner }).kind(), io::ErrorKind::PermissionDenied);
    let refused = Index::from_bytes(b"none", Kind::Sha1).map_err(io::Error::from).unwrap_err();
    assert_eq!(refused.kind(), io::ErrorKind::InvalidData);
}

/// What is asked of each type when this is compiled.
#[test]
fn types_go_to_threads() {
    fn goes<T: Debug + Send + Sync>() {}
    fn is_value<T: Debug + Send + Sync + Copy + Eq + std::hash::Hash>() {}
    fn is_error<T: Display + std::error::Error + Send + Sync + 'static>() {}
    goes::<Index>();
    goes::<EntryMut<'_>>();
    goes::<Locked>();
    is_value::<Entry<'_>>();
    is_value::<Fault>();
    is_value::<Kind>();
    is_value::<Stat>();
    is_value::<Time>();
    is_value::<write::CachedTree>();
    is_value::<write::Options>();
    is_value::<write::VersionChoice>();
    is_error::<Error>();
    is_error::<UnknownKind>();
}
