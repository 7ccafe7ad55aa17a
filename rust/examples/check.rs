// SPDX-License-Identifier: MIT OR Apache-2.0
//! Checks an index as `index-tool check` does, with its link followed: its entries have to be in order, and its cached
//! tree has to hold together.
//!
//! Usage: check sha1|sha256 FILE
//!
//! It prints ok. The status is 1 where FILE can't be read or doesn't pass, with a line on standard error, and 2 for
//! wrong words.

use gix_index_proved::Kind;
use std::env;
use std::process::ExitCode;

fn main() -> ExitCode {
    let words: Vec<_> = env::args().skip(1).collect();
    let (kind, file) = match words.as_slice() {
        [kind, file] if kind == "sha1" => (Kind::Sha1, file),
        [kind, file] if kind == "sha256" => (Kind::Sha256, file),
        _ => {
            eprintln!("usage: check sha1|sha256 FILE");
            return ExitCode::from(2);
        }
    };
    match gix_index_proved::verify_file(file, kind) {
        Ok(()) => {
            println!("ok");
            ExitCode::SUCCESS
        }
        Err(error) => {
            eprintln!("check: {file}: {error}");
            ExitCode::FAILURE
        }
    }
}
