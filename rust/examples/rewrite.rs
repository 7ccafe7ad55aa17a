// SPDX-License-Identifier: MIT OR Apache-2.0
//! Writes an index to another file, or over itself, by way of a lock that is made before FILE is read; with its cached
//! tree, where that tells what the entries give, and its mark of a sparse index, but no other extension. A link to a
//! shared index is followed.
//!
//! Usage: rewrite sha1|sha256 FILE OUT [4]
//!
//! The version is 4 where FILE's is or with a last word; else 2, or 3 where the flags ask for it. OUT gets the time of
//! FILE, and keeps its permissions. The status is 1 where FILE can't be read or is no such index, or OUT can't be
//! locked or written, with a line on standard error, and 2 for wrong words.

use gix_index_proved::write::{Options, VersionChoice};
use gix_index_proved::{Index, Kind};
use std::env;
use std::process::ExitCode;

/// Reads the one and writes the other.
fn rewrite(kind: Kind, file: &str, to: &str, version: VersionChoice) -> Result<(), String> {
    let locked = Index::lock(to).map_err(|error| format!("{to}: {error}"))?;
    let (index, bytes) = Index::open_with_bytes(file, kind).map_err(|error| format!("{file}: {error}"))?;
    let options = Options { version, sync: true, ..Options::default() };
    locked.commit_over(&index, &bytes, options).map(|_| ()).map_err(|error| format!("{to}: {error}"))
}

fn main() -> ExitCode {
    let words: Vec<_> = env::args().skip(1).collect();
    let (kind, file, to, version) = match words.iter().map(String::as_str).collect::<Vec<_>>().as_slice() {
        ["sha1", file, to] => (Kind::Sha1, *file, *to, VersionChoice::Kept),
        ["sha256", file, to] => (Kind::Sha256, *file, *to, VersionChoice::Kept),
        ["sha1", file, to, "4"] => (Kind::Sha1, *file, *to, VersionChoice::V4),
        ["sha256", file, to, "4"] => (Kind::Sha256, *file, *to, VersionChoice::V4),
        _ => {
            eprintln!("usage: rewrite sha1|sha256 FILE OUT [4]");
            return ExitCode::from(2);
        }
    };
    match rewrite(kind, file, to, version) {
        Ok(()) => ExitCode::SUCCESS,
        Err(error) => {
            eprintln!("rewrite: {error}");
            ExitCode::FAILURE
        }
    }
}
