// SPDX-License-Identifier: MIT OR Apache-2.0
//! What tests share.

use std::fs;
use std::path::PathBuf;

/// A folder of a test's own, which is removed with it.
pub struct Folder(PathBuf);

impl Folder {
    pub fn new(name: &str) -> Folder {
        let path = std::env::temp_dir().join(format!("gix-index-proved-{}-{name}", std::process::id()));
        fs::create_dir(&path).expect("it isn't there");
        Folder(path)
    }

    pub fn at(&self, name: &str) -> PathBuf {
        self.0.join(name)
    }
}

impl Drop for Folder {
    fn drop(&mut self) {
        let _ = fs::remove_dir_all(&self.0);
    }
}
