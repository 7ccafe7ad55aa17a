// SPDX-License-Identifier: MIT OR Apache-2.0
//! The calls of `libgix_index.a`, as `c/gix_index.h` declares them. `test_numbers` compares numbers and fields; only
//! `test_linked` tests the rest.

pub const DONE: u32 = 0;
pub const MEMORY: u32 = 2;
pub const NO_ROOM: u32 = 3;
pub const NONE: u32 = 5;

pub const TREE_KEPT: u32 = 1;
pub const TREE_LEFT_OUT: u32 = 2;

pub const SHA1: u32 = 1;
pub const SHA256: u32 = 2;

pub const FAULT_HEADER: u32 = 1;
pub const FAULT_VERSION: u32 = 2;
pub const FAULT_ENTRY: u32 = 4;
pub const FAULT_EXTENSION: u32 = 5;
pub const FAULT_LINK: u32 = 6;
pub const FAULT_TRAILER: u32 = 7;
pub const FAULT_DIGEST: u32 = 8;
pub const FAULT_ORDER: u32 = 10;
pub const FAULT_CACHED_TREE: u32 = 11;
pub const FAULT_ROW: u32 = 12;
pub const FAULT_COUNT: u32 = 13;
pub const FAULT_LENGTH: u32 = 14;
pub const FAULT_MODE: u32 = 15;
pub const FAULT_NAME: u32 = 16;
pub const FAULT_UNMERGED: u32 = 17;
pub const FAULT_BELOW: u32 = 18;

#[repr(C)]
#[derive(Clone, Copy, Default)]
pub struct Row {
    pub ctime_secs: u32,
    pub ctime_nsecs: u32,
    pub mtime_secs: u32,
    pub mtime_nsecs: u32,
    pub dev: u32,
    pub ino: u32,
    pub uid: u32,
    pub gid: u32,
    pub size: u32,
    pub mode: u32,
    pub flags: u32,
    pub stage: u32,
    pub kind: u32,
    pub id: [u8; 32],
    pub path_start: usize,
    pub path_len: usize,
}

#[repr(C)]
#[derive(Clone, Copy, Default)]
pub struct Summary {
    pub entries: usize,
    pub path_bytes: usize,
    pub text_bytes: usize,
    pub fault_place: usize,
    pub fault: u32,
    pub version: u32,
    pub has_link: u32,
    pub of_shared: u32,
    pub shared_id: [u8; 32],
}

#[repr(C)]
#[derive(Clone, Copy, Default)]
pub struct Places {
    pub start: usize,
    pub end: usize,
}

#[repr(C)]
#[derive(Clone, Copy)]
pub struct Form {
    pub kind: u32,
    pub version: u32,
    pub skip_hash: bool,
}

#[repr(C)]
#[derive(Clone, Copy, Default)]
pub struct Written {
    pub bytes: usize,
    pub fault_place: usize,
    pub fault: u32,
    pub version: u32,
    pub tree: u32,
    pub of_shared: u32,
}

#[repr(C)]
#[derive(Clone, Copy, Default)]
pub struct Tree {
    pub id: [u8; 32],
    pub start: usize,
    pub len: usize,
}

#[repr(C)]
#[derive(Clone, Copy, Default)]
pub struct Given {
    pub trees: usize,
    pub bytes: usize,
    pub fault_place: usize,
    pub fault: u32,
}

#[repr(C)]
#[derive(Clone, Copy)]
pub struct Comparison {
    pub trust_ctime: bool,
    pub check_stat: bool,
    pub use_nsec: bool,
    pub use_stdev: bool,
}

#[repr(C)]
#[derive(Clone, Copy)]
pub struct Seen {
    pub is_file: bool,
    pub is_dir: bool,
    pub is_symlink: bool,
    pub is_executable: bool,
    pub has_symlinks: bool,
    pub executable_bit: bool,
}

unsafe extern "C" {
    pub fn gix_index_read(
        bytes: *const u8,
        bytes_len: usize,
        kind: u32,
        skip_hash: bool,
        rows: *mut Row,
        rows_len: usize,
        paths: *mut u8,
        paths_len: usize,
        text: *mut u8,
        text_len: usize,
        summary: *mut Summary,
    ) -> u32;

    pub fn gix_index_read_split(
        bytes: *const u8,
        bytes_len: usize,
        shared: *const u8,
        shared_len: usize,
        kind: u32,
        skip_hash: bool,
        rows: *mut Row,
        rows_len: usize,
        paths: *mut u8,
        paths_len: usize,
        text: *mut u8,
        text_len: usize,
        summary: *mut Summary,
    ) -> u32;

    pub fn gix_index_find(
        rows: *const Row,
        rows_len: usize,
        paths: *const u8,
        paths_len: usize,
        path: *const u8,
        path_len: usize,
        stage: u32,
    ) -> usize;

    pub fn gix_index_lower_bound(
        rows: *const Row,
        rows_len: usize,
        paths: *const u8,
        paths_len: usize,
        path: *const u8,
        path_len: usize,
        stage: u32,
    ) -> usize;

    pub fn gix_index_matches(row: *const Row, seen: *const Row, comparison: *const Comparison) -> bool;

    pub fn gix_index_is_racy(row: *const Row, secs: i64, nsecs: u32, comparison: *const Comparison) -> bool;

    pub fn gix_index_mode_for(mode: u32, seen: *const Seen) -> u32;

    pub fn gix_index_blob_id(kind: u32, bytes: *const u8, bytes_len: usize, id: *mut [u8; 32]) -> u32;

    pub fn gix_index_check(
        bytes: *const u8,
        bytes_len: usize,
        kind: u32,
        skip_hash: bool,
        text: *mut u8,
        text_len: usize,
        summary: *mut Summary,
    ) -> u32;

    pub fn gix_index_check_split(
        bytes: *const u8,
        bytes_len: usize,
        shared: *const u8,
        shared_len: usize,
        kind: u32,
        skip_hash: bool,
        text: *mut u8,
        text_len: usize,
        summary: *mut Summary,
    ) -> u32;

    pub fn gix_index_find_prefix(
        rows: *const Row,
        rows_len: usize,
        paths: *const u8,
        paths_len: usize,
        prefix: *const u8,
        prefix_len: usize,
        places: *mut Places,
    ) -> u32;

    pub fn gix_index_closest(
        rows: *const Row,
        rows_len: usize,
        paths: *const u8,
        paths_len: usize,
        directory: *const u8,
        directory_len: usize,
    ) -> usize;

    pub fn gix_index_closest_icase(
        rows: *const Row,
        rows_len: usize,
        paths: *const u8,
        paths_len: usize,
        directory: *const u8,
        directory_len: usize,
    ) -> usize;

    pub fn gix_index_write(
        rows: *const Row,
        rows_len: usize,
        paths: *const u8,
        paths_len: usize,
        form: *const Form,
        bytes: *mut u8,
        bytes_len: usize,
        told: *mut Written,
    ) -> u32;

    pub fn gix_index_write_over(
        rows: *const Row,
        rows_len: usize,
        paths: *const u8,
        paths_len: usize,
        index: *const u8,
        index_len: usize,
        form: *const Form,
        bytes: *mut u8,
        bytes_len: usize,
        told: *mut Written,
    ) -> u32;

    pub fn gix_index_update(
        rows: *const Row,
        rows_len: usize,
        paths: *const u8,
        paths_len: usize,
        index: *const u8,
        index_len: usize,
        shared: *const u8,
        shared_len: usize,
        kind: u32,
        bytes: *mut u8,
        bytes_len: usize,
        told: *mut Written,
    ) -> u32;

    pub fn gix_index_trees(
        rows: *const Row,
        rows_len: usize,
        paths: *const u8,
        paths_len: usize,
        kind: u32,
        trees: *mut Tree,
        trees_len: usize,
        bytes: *mut u8,
        bytes_len: usize,
        told: *mut Given,
    ) -> u32;
}
