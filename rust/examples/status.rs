// SPDX-License-Identifier: MIT OR Apache-2.0
//! Says which files of a work tree aren't what its index says, by their stats alone.
//!
//! Usage: status sha1|sha256 FOLDER
//!
//! FOLDER is the top of a work tree, and FOLDER/.git/index its index. For each entry whose file isn't as it was there
//! is a line: a letter, a tab and the path as it is. D: the file is gone. T: it is of another type. M: it changed, or
//! its bit for execution. R: its stat is as it was, but it is no older than the index, so that only its contents can
//! tell. A: it is only meant to be added. U: it is in conflict. Submodules, directories of a sparse index, and entries
//! that are taken for unchanged or are skipped are left alone.
//!
//! The status is 1 where the index can't be read, and 2 for too few words or too many.

use gix_index_proved::{Entry, Index, Stat, StatOptions, flags, mode};
use std::io::Write;
use std::os::unix::ffi::OsStrExt;

/// The letter of an entry of the index, if there is one to print.
fn letter_of(entry: Entry<'_>, index: &Index) -> Option<u8> {
    let options = StatOptions::default();
    let seen = std::fs::symlink_metadata(std::ffi::OsStr::from_bytes(entry.path()));
    match seen.ok().filter(|seen| !seen.is_dir()) {
        _ if entry.stage() != 0 => Some(b'U'),
        _ if entry.flags() & (flags::ASSUME_VALID | flags::SKIP_WORKTREE) != 0 => None,
        _ if matches!(entry.mode(), mode::COMMIT | mode::DIR) => None,
        None => Some(b'D'),
        _ if entry.flags() & flags::INTENT_TO_ADD != 0 => Some(b'A'),
        Some(at) if at.is_symlink() != (entry.mode() == mode::SYMLINK) || mode::from_fs(&at).is_none() => Some(b'T'),
        Some(at) if mode::change_to_match_fs(entry.mode(), &at, true, true) != entry.mode() => Some(b'M'),
        Some(at) if !entry.stat().matches(&Stat::from(&at), options) => Some(b'M'),
        Some(_) => index.timestamp().is_none_or(|time| entry.stat().is_racy(time, options)).then_some(b'R'),
    }
}

fn main() -> Result<(), Box<dyn std::error::Error>> {
    let [kind, folder] = &std::env::args().skip(1).collect::<Vec<_>>()[..] else {
        eprintln!("usage: status sha1|sha256 FOLDER");
        std::process::exit(2);
    };
    std::env::set_current_dir(folder)?;
    let index = Index::open(".git/index", kind.parse()?)?;
    let line_of = |entry| Some([&[letter_of(entry, &index)?, b'\t'], entry.path(), b"\n"].concat());
    let mut lines: Vec<_> = index.entries().filter_map(line_of).collect();
    lines.dedup();
    Ok(std::io::stdout().write_all(&lines.concat())?)
}
