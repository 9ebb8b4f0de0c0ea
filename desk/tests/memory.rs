//! A long journal is read in little memory. Alone in its process: the whole process is measured.

mod common;

use common::folder;
use common::journals::{Scribe, SECONDS};
use std::ffi::OsString;
use std::fs::{self, File};
use std::io::{self, BufWriter, Write};
use std::path::Path;

/// So much the process may need more than a reading of a short journal: 12 texts of the greatest length.
const MORE: u64 = 12 * 1024;

/// The most memory that the process had so far, in kilobytes.
fn most_memory() -> Option<u64> {
    let status = fs::read_to_string("/proc/self/status").ok()?;
    let line = status.lines().find(|line| line.starts_with("VmHWM:"))?;
    line.split_whitespace().nth(1)?.parse().ok()
}

/// Runs a command on a journal, and throws away what it prints.
fn run(words: &[&str], journal: &Path) -> u8 {
    let mut all: Vec<OsString> = vec![words[0].into(), journal.into()];
    all.extend(words[1..].iter().map(OsString::from));
    let input = b"kind=problem\nend=problem\n";
    desk::run(&all, Box::new(&input[..]), &mut io::sink(), &mut io::sink())
}

/// Writes a journal of so many refused texts of two lengths, record by record.
fn write(path: &Path, short: usize, long: usize) -> u64 {
    let mut file = BufWriter::new(File::create(path).expect("a file"));
    let mut scribe = Scribe::new(1, docket::rules());
    let (small, large) = (b"kind=?\n".to_vec(), vec![b'x'; docket::MOST_TEXT]);
    for (text, count) in [(small, short), (large, long)] {
        let answer = docket::Docket::new().lodge(&text);
        for _ in 0..count {
            scribe.text(&text, SECONDS);
            scribe.answer(answer.line().strip_prefix("answer=").expect("an answer"));
            file.write_all(&scribe.bytes).expect("written");
            scribe.bytes.clear();
            scribe.starts.clear();
        }
    }
    file.flush().expect("written");
    fs::metadata(path).expect("a file").len()
}

#[test]
fn memory_does_not_grow_with_the_journal() {
    let path = folder("memory").join("J");
    let commands = [&["verify"][..], &["log", "--json"], &["lodge", "-"]];
    write(&path, 10, 2);
    for words in commands {
        assert!(run(words, &path) < 2, "{words:?}");
    }
    let Some(before) = most_memory() else { return };
    let length = write(&path, 50_000, 45);
    assert!(length > 55_000_000, "{length}");
    for words in commands {
        assert!(run(words, &path) < 2, "{words:?}");
        let now = most_memory().expect("a number");
        assert!(now <= before + MORE, "{words:?}: from {before} to {now} kB");
    }
    fs::remove_file(&path).expect("removed");
}
