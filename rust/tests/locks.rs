// SPDX-License-Identifier: MIT OR Apache-2.0
//! Holds locks on an index against what they keep, and what a commit leaves. `tests/linked` at the top of the
//! repository runs it, and `tests/live` has git work beside them.

mod common;

use common::Folder;
use gix_index_proved::write::Options;
use gix_index_proved::{Error, Index, Kind, Stat, mode};
use std::fs::{self, File};
use std::io::ErrorKind;
use std::os::unix::fs::{MetadataExt, PermissionsExt, symlink};
use std::os::unix::net::UnixListener;
use std::path::Path;
use std::time::{Duration, SystemTime, UNIX_EPOCH};

fn index_of(path: &[u8]) -> Index {
    let mut index = Index::new(Kind::Sha1);
    index.dangerously_push_entry(Stat::default(), &[1; 20], 0, mode::FILE, path).expect("there is memory");
    index
}

/// Writes an index, and gives the file this time.
fn make(path: &Path, index: &Index, time: SystemTime) {
    fs::write(path, index.write_to(Options::default()).expect("it can be written")).expect("it can be made");
    File::options().write(true).open(path).and_then(|file| file.set_modified(time)).expect("it is there");
}

fn paths_at(path: &Path) -> Vec<Vec<u8>> {
    let index = Index::open(path, Kind::Sha1).expect("it can be read");
    index.entries().map(|entry| entry.path().to_vec()).collect()
}

fn time_of(path: &Path) -> SystemTime {
    fs::metadata(path).and_then(|seen| seen.modified()).expect("it is there")
}

fn mode_of(path: &Path) -> u32 {
    fs::metadata(path).expect("it is there").mode() & 0o7777
}

/// Seconds long ago, and some nanoseconds.
fn past(secs: u64) -> SystemTime {
    UNIX_EPOCH + Duration::new(secs, 123_456_789)
}

#[test]
fn a_lock_that_is_dropped_leaves_the_index() {
    let folder = Folder::new("dropped");
    let (path, lock) = (folder.at("index"), folder.at("index.lock"));
    make(&path, &index_of(b"old"), past(1_500_000_000));
    let locked = Index::lock(&path).expect("it can be locked");
    assert_eq!(locked.path(), path);
    let error = Index::lock(&path).expect_err("it is locked");
    assert!(matches!(&error, Error::Locked { lock: named } if *named == lock), "{error}");
    assert!(error.to_string().contains("index.lock is there: another process writes the index, or died"), "{error}");
    let error = index_of(b"new").write(&path, Options::default()).expect_err("it is locked");
    assert!(matches!(error, Error::Locked { .. }) && lock.exists(), "{error}");
    drop(locked);
    assert!(!lock.exists());
    let error = Index::lock(&path).expect("it is free").commit(&index_of(b""), Options::default());
    assert!(matches!(error, Err(Error::Refused { .. })) && !lock.exists());
    assert_eq!(paths_at(&path), [b"old"]);
}

#[test]
fn a_commit_keeps_time_and_permissions() {
    let folder = Folder::new("kept");
    let (path, new) = (folder.at("index"), folder.at("new"));
    make(&path, &index_of(b"old"), past(1_500_000_000));
    fs::set_permissions(&path, fs::Permissions::from_mode(0o604)).expect("it is there");
    let options = Options { sync: true, ..Options::default() };
    Index::lock(&path).and_then(|locked| locked.commit(&index_of(b"made"), options)).expect("it can be written");
    assert_eq!((time_of(&path), paths_at(&path)), (past(1_500_000_000), vec![b"made".to_vec()]));
    assert_eq!(mode_of(&path), 0o604);
    let locked = Index::lock(&new).expect("it can be locked");
    let (read, bytes) = Index::open_with_bytes(&path, Kind::Sha1).expect("it can be read");
    assert_eq!((read.timestamp(), bytes), (Some(past(1_500_000_000)), fs::read(&path).expect("it is there")));
    locked.commit(&read, options).expect("it can be written");
    assert_eq!((time_of(&new), paths_at(&new)), (past(1_500_000_000), vec![b"made".to_vec()]));
    // (a new index has what the umask leaves of reading and writing, as any file)
    File::create(folder.at("any")).expect("it can be made");
    assert_eq!(mode_of(&new), mode_of(&folder.at("any")));
    make(&new, &index_of(b"old"), past(1_400_000_000));
    read.write(&new, Options::default()).expect("it can be written");
    assert_eq!(time_of(&new), past(1_500_000_000));
    assert!(!folder.at("new.lock").exists());
}

#[test]
fn a_time_of_zero_is_not_kept() {
    let folder = Folder::new("zero");
    let (path, start) = (folder.at("index"), SystemTime::now() - Duration::from_secs(60));
    for time in [UNIX_EPOCH, past(0)] {
        make(&path, &index_of(b"old"), time);
        let locked = Index::lock(&path).expect("it can be locked");
        let index = Index::open(locked.path(), Kind::Sha1).expect("it can be read");
        locked.commit(&index, Options::default()).expect("it can be written");
        assert!(time_of(&path) > start);
    }
    assert_eq!(Index::from_bytes(&fs::read(&path).expect("it is there"), Kind::Sha1).unwrap().timestamp(), None);
}

#[test]
fn links_are_followed() {
    let folder = Folder::new("links");
    fs::create_dir(folder.at("inner")).expect("it isn't there");
    symlink("../new", folder.at("inner/1")).expect("it isn't there");
    symlink(folder.at("inner/1"), folder.at("2")).expect("it isn't there");
    for number in 3..=6 {
        symlink((number - 1).to_string(), folder.at(&number.to_string())).expect("it isn't there");
    }
    symlink("loop", folder.at("loop")).expect("it isn't there");
    let error = Index::lock(folder.at("5")).expect_err("nothing is there");
    assert!(matches!(&error, Error::LeadsNowhere { path, .. } if *path == folder.at("5")), "{error}");
    index_of(b"b").write(folder.at("new"), Options::default()).expect("it can be written");
    index_of(b"a").write(folder.at("5"), Options::default()).expect("it can be written");
    assert_eq!(paths_at(&folder.at("new")), [b"a"]);
    assert!(folder.at("5").is_symlink() && folder.at("inner/1").is_symlink());
    for name in ["6", "loop"] {
        let error = Index::lock(folder.at(name)).expect_err("it has more links");
        assert!(matches!(&error, Error::TooManyLinks { path } if *path == folder.at(name)), "{error}");
    }
    let error = Index::lock("").expect_err("it is no path");
    assert!(matches!(&error, Error::Io { error, .. } if error.kind() == ErrorKind::NotFound), "{error}");
}

#[test]
fn what_is_no_file_is_not_replaced() {
    let folder = Folder::new("irregular");
    fs::create_dir(folder.at("directory")).expect("it isn't there");
    let _listener = UnixListener::bind(folder.at("socket")).expect("it isn't there");
    for name in ["directory", "socket"] {
        symlink(name, folder.at("link")).expect("it isn't there");
        for path in [folder.at(name), folder.at("link")] {
            let error = index_of(b"a").write(path, Options::default()).expect_err("it is no file");
            assert!(matches!(&error, Error::NotRegular { path, .. } if *path == folder.at(name)), "{error}");
            assert!(error.to_string().contains(&format!("is a {name}")), "{error}");
            assert!(!folder.at(&format!("{name}.lock")).exists());
        }
        fs::remove_file(folder.at("link")).expect("it is there");
    }
    let error = Index::open(folder.at("directory"), Kind::Sha1).expect_err("it is no file");
    assert!(matches!(&error, Error::Io { error, .. } if error.kind() == ErrorKind::IsADirectory), "{error}");
}
