//! `plain CALL PATHS NAMES`: what plain Rust takes for what `index-times lookup` does, over a file with a path a line.
//!
//! Printed are nanoseconds of processor time, and how many names were found; of a table, how many names it has.
use std::cmp::Ordering;

/// What an entry of an index is in memory: 96 bytes, with the range of its path in one storage.
struct Record {
    path: std::ops::Range<usize>,
    _rest: [u64; 10],
}

/// The nanoseconds that this thread was on a processor, as the system counts them.
fn processor_time() -> u64 {
    let text = std::fs::read_to_string("/proc/self/schedstat").unwrap();
    text.split_whitespace().next().unwrap().parse().unwrap()
}

fn lines(text: &[u8]) -> Vec<&[u8]> {
    text.split(|byte| *byte == b'\n').filter(|line| !line.is_empty()).collect()
}

fn folded(a: &[u8], b: &[u8]) -> Ordering {
    a.iter().map(u8::to_ascii_lowercase).cmp(b.iter().map(u8::to_ascii_lowercase))
}

/// Each path with its place, or each front of it that a slash follows.
fn placed<'a>(paths: &[&'a [u8]], fronts: bool) -> Vec<(&'a [u8], usize)> {
    let mut names = Vec::new();
    for (place, path) in paths.iter().enumerate() {
        if !fronts {
            names.push((*path, place));
            continue;
        }
        for end in (0..path.len()).filter(|end| path[*end] == b'/') {
            names.push((&path[..end], place));
        }
    }
    names
}

/// The names in their order, with case ignored where asked, and how long it took to sort them.
fn sorted<'a>(mut names: Vec<(&'a [u8], usize)>, ignore_case: bool) -> (Vec<(&'a [u8], usize)>, u64) {
    let begin = processor_time();
    if ignore_case {
        names.sort_unstable_by(|a, b| folded(a.0, b.0).then(a.1.cmp(&b.1)));
    } else {
        names.sort_unstable();
    }
    (names, processor_time() - begin)
}

fn timed(names: &[&[u8]], is_there: impl Fn(&[u8]) -> bool) -> (u64, usize) {
    let begin = processor_time();
    let found = names.iter().filter(|name| is_there(name)).count();
    (processor_time() - begin, found)
}

fn in_table(paths: &[&[u8]], names: &[&[u8]], fronts: bool, ignore_case: bool) -> (u64, usize) {
    let mut table = sorted(placed(paths, fronts), ignore_case).0;
    table.dedup_by(|a, b| if ignore_case { a.0.eq_ignore_ascii_case(b.0) } else { a.0 == b.0 });
    if ignore_case {
        timed(names, |name| table.binary_search_by(|row| folded(row.0, name)).is_ok())
    } else {
        timed(names, |name| table.binary_search_by(|row| row.0.cmp(name)).is_ok())
    }
}

/// The four sorts that the table of folded names rests on.
fn sorts(paths: &[&[u8]]) -> (u64, usize) {
    let all = [(false, false), (false, true), (true, false), (true, true)];
    let parts = all.map(|(fronts, ignore_case)| sorted(placed(paths, fronts), ignore_case));
    (parts.iter().map(|part| part.1).sum(), parts.iter().map(|part| part.0.len()).sum())
}

/// A binary search over records as wide as the library's entries.
fn in_records(paths: &[&[u8]], names: &[&[u8]]) -> (u64, usize) {
    let storage = paths.concat();
    let mut end = 0;
    let mut records = Vec::with_capacity(paths.len());
    for path in paths {
        records.push(Record { path: end..end + path.len(), _rest: [0; 10] });
        end += path.len();
    }
    timed(names, |name| records.binary_search_by(|record| storage[record.path.clone()].cmp(name)).is_ok())
}

fn main() {
    let words: Vec<String> = std::env::args().collect();
    let (text, asked) = (std::fs::read(&words[2]).unwrap(), std::fs::read(&words[3]).unwrap());
    let (paths, names) = (lines(&text), lines(&asked));
    let first = |name: &[u8]| paths.get(paths.partition_point(|path| *path < name));
    let begins = |name: &[u8]| first(name).is_some_and(|path| path.starts_with(name));
    let (took, count) = match words[1].as_str() {
        "load" => (0, 0),
        "path" => timed(&names, |name| paths.binary_search(&name).is_ok()),
        "records" => in_records(&paths, &names),
        "range" => timed(&names, |name| {
            let start = paths.partition_point(|path| *path < name);
            paths[start..].partition_point(|path| *path <= name) > 0
        }),
        "prefix" => timed(&names, |name| {
            let start = paths.partition_point(|path| *path < name);
            start < paths[start..].partition_point(|path| path.starts_with(name)) + start
        }),
        "directory" => timed(&names, begins),
        "kept-path" => in_table(&paths, &names, false, false),
        "folded-path" => in_table(&paths, &names, false, true),
        "kept-directory" => in_table(&paths, &names, true, false),
        "folded-directory" => in_table(&paths, &names, true, true),
        _ => sorts(&paths),
    };
    println!("{took} {count}");
}
