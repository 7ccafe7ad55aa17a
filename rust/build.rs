// SPDX-License-Identifier: MIT OR Apache-2.0
//! Finds the static library, `libgix_index.a`. In this order:
//!
//! 1. `GIX_INDEX_LIB`, if it is set, names a folder that has it, such as `PREFIX/lib` after `c/install PREFIX`.
//! 2. `pkg-config` knows an installed `gix_index` with this crate's major version that is no older than the crate. It
//!    does if `PKG_CONFIG_PATH` has `PREFIX/lib/pkgconfig`. `PKG_CONFIG` names another such program.
//! 3. In the repository, `tools/build` proves and builds the two libraries that it is made of, unless they are up to
//!    date. That takes minutes, and a warning says so. Its progress goes to the terminal too, if there is one: cargo
//!    shows it only with `-vv`, or if the build fails.
//!
//! Otherwise the build fails with a message that lists these three.

use std::env;
use std::fs::{self, File};
use std::io::{BufRead, BufReader, Write};
use std::path::{Path, PathBuf};
use std::process::{Command, Stdio};

/// The library as it is installed.
const INSTALLED: [&str; 1] = ["gix_index"];

/// What that is made of.
const BUILT: [&str; 2] = ["index_c", "libc_c"];

/// What to do if there is no library.
const HOW: &str = "have the repository's `c/install PREFIX` put it below a PREFIX, and set PKG_CONFIG_PATH to \
                   PREFIX/lib/pkgconfig, or GIX_INDEX_LIB to PREFIX/lib";

/// What cargo or a caller sets.
const ASKED: [&str; 4] = ["GIX_INDEX_LIB", "PKG_CONFIG", "PKG_CONFIG_PATH", "PKG_CONFIG_LIBDIR"];

fn is_in(folder: &Path) -> bool {
    INSTALLED.iter().all(|name| folder.join(format!("lib{name}.a")).is_file())
}

/// Has cargo link the libraries of these folders, and run this script again if they change.
fn link(folders: &[PathBuf], libraries: &[&str]) {
    for folder in folders {
        println!("cargo::rustc-link-search=native={}", folder.display());
    }
    for name in libraries {
        println!("cargo::rustc-link-lib=static={name}");
        let files = folders.iter().map(|folder| folder.join(format!("lib{name}.a")));
        for file in files.filter(|file| file.is_file()) {
            println!("cargo::rerun-if-changed={}", file.display());
        }
    }
}

/// The words of a line as `pkg-config` prints them: a backslash stands before a byte that is no end of a word.
fn words(line: &str) -> Vec<String> {
    let (mut words, mut chars) = (vec![String::new()], line.trim().chars());
    while let Some(next) = chars.next() {
        match next {
            '\\' => words.last_mut().expect("there is one").extend(chars.next()),
            next if next.is_whitespace() => words.push(String::new()),
            next => words.last_mut().expect("there is one").push(next),
        }
    }
    words
}

/// The folder of the library that is installed, if it has this crate's major version and is no older than the crate.
fn installed() -> Option<PathBuf> {
    if env::var_os("HOST") != env::var_os("TARGET") {
        return None;
    }
    let program = env::var_os("PKG_CONFIG").unwrap_or("pkg-config".into());
    let least = concat!("gix_index >= ", env!("CARGO_PKG_VERSION"));
    let major: u32 = env!("CARGO_PKG_VERSION_MAJOR").parse().expect("cargo sets it");
    let next = format!("gix_index < {}", major + 1);
    // (it leaves folders out where compilers look by themselves)
    let mut command = Command::new(program);
    command.args(["--libs", least, &next]).env("PKG_CONFIG_ALLOW_SYSTEM_LIBS", "1").stdin(Stdio::null());
    let said = command.output().ok().filter(|said| said.status.success())?;
    let words = words(&String::from_utf8(said.stdout).ok()?);
    words.iter().filter_map(|word| word.strip_prefix("-L")).map(PathBuf::from).find(|folder| is_in(folder))
}

/// What a command prints. Where it fails, so does the build.
fn said_by(command: &mut Command) -> String {
    let started = command.stdin(Stdio::null()).stdout(Stdio::piped()).stderr(Stdio::piped()).spawn();
    let mut child = started.unwrap_or_else(|why| panic!("{command:?} doesn't start: {why}"));
    let mut terminal = File::options().write(true).open("/dev/tty").ok();
    let told = BufReader::new(child.stderr.take().expect("it is a pipe"));
    for line in told.lines().map_while(Result::ok) {
        eprintln!("{line}");
        if let Some(out) = &mut terminal {
            let _ = writeln!(out, "{line}");
        }
    }
    let done = child.wait_with_output().expect("it was started");
    assert!(done.status.success(), "{command:?} failed: set GIX_INDEX_LIB to a folder that `c/install` made elsewhere");
    String::from_utf8_lossy(&done.stdout).trim().to_owned()
}

/// Has cargo run this script again after a change of what the library is made of.
fn watch(top: &Path) {
    let crates = fs::read_dir(top.join("crates")).expect("the repository has crates").flatten();
    let parts = crates.flat_map(|each| ["src", "specs", "proofs"].map(|part| each.path().join(part)));
    for place in parts.chain([top.join("crates.txt"), top.join("HANDLES")]).filter(|place| place.exists()) {
        println!("cargo::rerun-if-changed={}", place.display());
    }
}

/// The folders of the library and of what it stands on, where the repository and its toolchain have them.
fn built(top: &Path) -> [PathBuf; 2] {
    let tools = top.join("tools");
    let is_built = Command::new(tools.join("built")).arg("index_c").stdout(Stdio::null()).status();
    if !is_built.is_ok_and(|status| status.success()) {
        println!(
            "cargo::warning=pkg-config knows no gix_index of this version: `tools/build index_c` proved and built the \
             static library, which takes minutes"
        );
    }
    let library = PathBuf::from(said_by(Command::new(tools.join("build")).arg("index_c")));
    let page = PathBuf::from(said_by(Command::new(tools.join("rt")).arg("doc")));
    watch(top);
    let kit = page.parent().expect("the toolchain's first page lies in its folder").join("c");
    [library.parent().expect("it lies in a folder").to_owned(), kit]
}

fn main() {
    for name in ASKED {
        println!("cargo::rerun-if-env-changed={name}");
    }
    let top = PathBuf::from(env::var_os("CARGO_MANIFEST_DIR").expect("cargo sets it")).join("..");
    if let Some(folder) = env::var_os("GIX_INDEX_LIB").map(PathBuf::from) {
        assert!(is_in(&folder), "GIX_INDEX_LIB is {}, which has no libgix_index.a: {HOW}", folder.display());
        link(&[folder], &INSTALLED);
    } else if let Some(folder) = installed() {
        link(&[folder], &INSTALLED);
    } else if top.join("tools").join("build").is_file() {
        link(&built(&top), &BUILT);
    } else {
        panic!("there is no static library gix_index {}: {HOW}", env!("CARGO_PKG_VERSION"));
    }
}
