//! What several tests use.
#![allow(dead_code)]
pub mod both;
pub mod leaves;

use docket::{Docket, MOST_INPUT, OUTPUT_BYTES};
use std::fs;
use std::path::{Path, PathBuf};

/// A path of the repository.
pub fn repository(path: &str) -> PathBuf {
    Path::new(env!("CARGO_MANIFEST_DIR"))
        .join("../..")
        .join(path)
}

/// The bytes of a committed file.
pub fn read(path: &Path) -> Vec<u8> {
    fs::read(path).unwrap_or_else(|e| panic!("{}: {e}", path.display()))
}

/// Every input of a committed folder, by name.
pub fn inputs(folder: &str) -> Vec<PathBuf> {
    let entries = fs::read_dir(repository(folder)).unwrap_or_else(|e| panic!("{folder}: {e}"));
    let mut paths: Vec<PathBuf> = entries
        .map(|entry| entry.expect("an entry").path())
        .collect();
    paths.retain(|path| path.extension().is_some_and(|end| end == "txt"));
    paths.sort();
    paths
}

/// The folders that hold inputs.
pub const FOLDERS: [&str; 4] = [
    "tests/corpus",
    "tests/specimens",
    "examples",
    "examples/refusals",
];

/// Document 01's example: a problem, a schedule and a tree.
pub fn example() -> Vec<u8> {
    read(&repository("examples/example.txt"))
}

/// The texts of an input: it is cut after each line that begins `end=`.
pub fn texts(input: &[u8]) -> Vec<&[u8]> {
    let (mut texts, mut start, mut at) = (Vec::new(), 0, 0);
    for line in input.split_inclusive(|&byte| byte == b'\n') {
        at += line.len();
        if line.starts_with(b"end=") || at == input.len() {
            texts.push(&input[start..at]);
            start = at;
        }
    }
    texts
}

/// The listing, written over an output of the least size.
pub fn listed(input: &[u8], output: &mut [u8]) -> Vec<u8> {
    let written = docket::listing(input, output).expect("an output of OUTPUT_BYTES bytes");
    output[..written].to_vec()
}

/// An output of the least size.
pub fn output() -> Vec<u8> {
    vec![b'?'; OUTPUT_BYTES]
}

/// The lines of the answers to an input's texts, lodged in turn in one docket, then its report; none of an input that no listing
/// lodges.
pub fn lodged(input: &[u8]) -> Option<Vec<u8>> {
    if input.len() > MOST_INPUT {
        return None;
    }
    let mut docket = Docket::new();
    let mut lines = String::new();
    for text in texts(input) {
        lines += docket.lodge(text).line();
        lines += "\n";
    }
    lines += docket.report().text();
    Some(lines.into_bytes())
}

/// Fails where two texts differ, with the first line in which they do.
pub fn same(got: &[u8], wanted: &[u8]) {
    let line = |text: &[u8], k| {
        text.split(|&byte| byte == b'\n')
            .nth(k)
            .map(|l| String::from_utf8_lossy(l).into_owned())
    };
    if got != wanted {
        let k = (0..)
            .find(|&k| line(got, k) != line(wanted, k))
            .expect("a line that differs");
        panic!(
            "line {}: {:?}, not {:?}",
            k + 1,
            line(got, k),
            line(wanted, k)
        );
    }
}
