// SPDX-License-Identifier: MIT OR Apache-2.0
//! Prints the id that an index has staged at a path, or none.
//!
//! Usage: sample INDEX PATH
//!
//! INDEX is an index of SHA-1. The status is 1 where it can't be read or is no such index, with a line on standard
//! error, and 2 for wrong words.

use gix_index_proved::{Error, Index, Kind};
use std::env;
use std::process::ExitCode;

/// The id that an index has staged at a path, if any.
fn id_at(file: &str, path: &str) -> Result<Option<Vec<u8>>, Error> {
    let index = Index::open(file, Kind::Sha1)?;
    let entry = index.entry_by_path_and_stage(path.as_bytes(), 0);
    Ok(entry.map(|entry| entry.id().to_vec()))
}

fn main() -> ExitCode {
    let words: Vec<_> = env::args().skip(1).collect();
    let [file, path] = words.as_slice() else {
        eprintln!("usage: sample INDEX PATH");
        return ExitCode::from(2);
    };
    match id_at(file, path) {
        Ok(Some(id)) => println!("{}", id.iter().map(|byte| format!("{byte:02x}")).collect::<String>()),
        Ok(None) => println!("none"),
        Err(error) => {
            eprintln!("sample: {error}");
            return ExitCode::FAILURE;
        }
    }
    ExitCode::SUCCESS
}
