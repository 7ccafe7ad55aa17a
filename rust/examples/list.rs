// SPDX-License-Identifier: MIT OR Apache-2.0
//! Lists the entries of an index as `git ls-files -s` does, with paths as they are. A link to a shared index is
//! followed.
//!
//! Usage: list sha1|sha256 FILE
//!
//! The status is 1 where FILE can't be read or is no such index, with a line on standard error, and 2 for wrong words.

use gix_index_proved::{Entry, Index, Kind};
use std::env;
use std::io::{self, BufWriter, Write};
use std::process::ExitCode;

fn print_entry(out: &mut impl Write, entry: Entry<'_>) -> io::Result<()> {
    write!(out, "{:06o} ", entry.mode())?;
    for byte in entry.id() {
        write!(out, "{byte:02x}")?;
    }
    write!(out, " {}\t", entry.stage())?;
    out.write_all(entry.path())?;
    out.write_all(b"\n")
}

fn print(index: &Index) -> io::Result<()> {
    let mut out = BufWriter::new(io::stdout().lock());
    for entry in index.entries() {
        print_entry(&mut out, entry)?;
    }
    out.flush()
}

fn main() -> ExitCode {
    let words: Vec<_> = env::args().skip(1).collect();
    let (kind, file) = match words.as_slice() {
        [kind, file] if kind == "sha1" => (Kind::Sha1, file),
        [kind, file] if kind == "sha256" => (Kind::Sha256, file),
        _ => {
            eprintln!("usage: list sha1|sha256 FILE");
            return ExitCode::from(2);
        }
    };
    let index = Index::open(file, kind).map_err(|error| error.to_string());
    match index.and_then(|index| print(&index).map_err(|error| error.to_string())) {
        Ok(()) => ExitCode::SUCCESS,
        Err(error) => {
            eprintln!("list: {file}: {error}");
            ExitCode::FAILURE
        }
    }
}
