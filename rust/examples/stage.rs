// SPDX-License-Identifier: MIT OR Apache-2.0
//! Stages or unstages a path in place, under the lock of the index, as `git update-index` does.
//!
//! Usage: stage sha1|sha256 INDEX PATH [ID]
//!
//! PATH is one from the top of the work tree, where this is to be run, as git lists it. With ID, which `git hash-object
//! -w PATH` prints, the file there is staged with its mode and stat (or a submodule, at the commit ID); entries in its
//! way are taken out: a conflict, what is below PATH, or a file above it. Without ID, PATH is taken out, and all that
//! is below it; the work tree stays as it is. A path in a directory of a sparse index is refused.
//!
//! The status is 1 where that can't be done, with a line on standard error, and 2 for too few words or too many.

use gix_index_proved::{Change, Index, Stat, mode};

fn main() -> Result<(), Box<dyn std::error::Error>> {
    let words: Vec<_> = std::env::args().skip(1).collect();
    let (true, [kind, file, name, id @ ..]) = (words.len() <= 4, &words[..]) else {
        eprintln!("usage: stage sha1|sha256 INDEX PATH [ID]");
        std::process::exit(2);
    };
    let (mut locked, kind, path) = (Index::lock(file)?, kind.parse()?, name.as_bytes());
    let index = locked.open_or_default(kind)?;
    if index.entries().any(|entry| entry.mode() == mode::DIR && path.starts_with(entry.path())) {
        return Err("the path lies in a directory of a sparse index".into());
    }
    let Some(id) = id.first() else {
        let is_there = |it: &[u8]| it.strip_prefix(path).is_some_and(|rest| matches!(rest, [] | [b'/', ..]));
        let gone = index.entries().map(|entry| entry.path()).filter(|it| is_there(it));
        let changes: Vec<_> = gone.map(|path| Change::Unstage { path }).collect();
        return Ok(locked.commit_changes(kind, &changes, false)?);
    };
    let seen = std::fs::symlink_metadata(name)?;
    let mode = mode::from_fs(&seen).ok_or("no file, link or submodule is there")?;
    let digits = (0..id.len()).step_by(2).map(|at| u8::from_str_radix(id.get(at..at + 2).unwrap_or(""), 16));
    let id = &digits.collect::<Result<Vec<_>, _>>()?;
    let change = Change::Stage { stat: Stat::from(&seen), id, flags: 0, mode, path };
    Ok(locked.commit_changes(kind, &[change], false)?)
}
