// SPDX-License-Identifier: MIT OR Apache-2.0
//! Lists the paths in conflict of an index, or settles them in place, under its lock, by one side of the merge.
//!
//! Usage: resolve sha1|sha256 INDEX [base|ours|theirs [PATH..]]
//!
//! With a side, each PATH in conflict, or else each path that is, is staged as that side has it, or is taken out where
//! the side has none. The file in the work tree stays as it is. A line is printed for each path that is in conflict or
//! was settled. The status is 1 where INDEX can't be locked, read or written, with a line on standard error, and 2 for
//! wrong words.

use gix_index_proved::{Change, Index};
use std::io::Write;

/// The sides by their stages.
const SIDES: [&str; 4] = ["", "base", "ours", "theirs"];

fn main() -> Result<(), Box<dyn std::error::Error>> {
    let words: Vec<_> = std::env::args().skip(1).collect();
    let stage = words.get(2).map_or(Some(0), |side| SIDES.iter().position(|name| name == side));
    let ([kind, file, ..], Some(stage)) = (&words[..], stage) else {
        eprintln!("usage: resolve sha1|sha256 INDEX [base|ours|theirs [PATH..]]");
        std::process::exit(2);
    };
    let (mut locked, kind, stage) = (Index::lock(file)?, kind.parse()?, stage as u32);
    let (index, asked) = (locked.open(kind)?, words.get(3..).unwrap_or_default());
    let is_asked = |path: &[u8]| asked.is_empty() || asked.iter().any(|it| it.as_bytes() == path);
    let conflicts = || index.entries().filter(|entry| entry.stage() != 0 && is_asked(entry.path()));
    let mut paths: Vec<_> = conflicts().map(|entry| entry.path()).collect();
    paths.dedup();
    if stage != 0 {
        let gone = paths.iter().map(|path| Change::Unstage { path });
        let sides = conflicts().filter(|entry| entry.stage() == stage).map(Change::resolve);
        locked.commit_changes(kind, &gone.chain(sides).collect::<Vec<_>>(), false)?;
    }
    Ok(std::io::stdout().write_all(&paths.iter().flat_map(|path| [path, &b"\n"[..]].concat()).collect::<Vec<_>>())?)
}
