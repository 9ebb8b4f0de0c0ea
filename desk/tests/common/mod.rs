//! What several tests use.
#![allow(dead_code)]
pub mod journals;
pub mod json;
pub mod memory;
pub mod program;

use std::env;
use std::ffi::OsString;
use std::fs;
use std::io::Cursor;
use std::os::unix::fs::symlink;
use std::path::{Path, PathBuf};
use std::time::{SystemTime, UNIX_EPOCH};

/// A problem of one unit and one period: the unit runs from 20 to 80, 50 is asked for.
pub const PROBLEM: &str = "kind=problem\nperiods=1\nunits=1\ndemand=50\nspare=0\nunit=100,10,0,20,80,1,1,3,80,80,0,0,0,0,50\nend=problem\n";

/// A tree that bounds its schedules by 0.
pub const TREE: &str = "kind=tree\nwriter=9\nprice=0\nreserve=0\nend=tree\n";

/// A schedule of that problem; it costs 100 and 10 for each unit of output.
pub fn schedule(writer: u16, output: u64) -> String {
    format!("kind=schedule\nwriter={writer}\nrun={output}\nend=schedule\n")
}

/// How a command ended that ran to its end.
#[derive(Debug)]
pub struct Ran {
    pub status: u8,
    pub out: Vec<u8>,
    pub notes: Vec<u8>,
}

impl Ran {
    /// What was printed.
    pub fn out(&self) -> &str {
        text(&self.out)
    }

    /// What was said on standard error.
    pub fn notes(&self) -> &str {
        text(&self.notes)
    }

    /// What was printed, as lines.
    pub fn lines(&self) -> Vec<&str> {
        text(&self.out).lines().collect()
    }

    /// The lines that carry an answer.
    pub fn answers(&self) -> Vec<&str> {
        let mut lines = self.lines();
        lines.retain(|line| line.contains(": answer="));
        lines
    }

    /// What went wrong: the status is 2, and standard error has one line of printable ASCII, which is given back.
    pub fn trouble(&self) -> &str {
        assert_eq!(self.status, 2, "{self:?}");
        let note = text(&self.notes);
        let line = note.strip_suffix('\n').unwrap_or_default();
        assert!(line.starts_with("docket: "), "{note:?}");
        assert!(
            line.bytes().all(|byte| (32..=126).contains(&byte)),
            "{note:?}"
        );
        line
    }

    /// The same command, which had no trouble.
    pub fn sound(self, status: u8) -> Ran {
        assert_eq!(self.status, status, "{self:?}");
        assert!(self.notes.is_empty(), "{self:?}");
        self
    }
}

/// Runs a command in this process.
pub fn run<S: Into<OsString> + Clone>(words: &[S], input: &[u8]) -> Ran {
    let words: Vec<OsString> = words.iter().cloned().map(Into::into).collect();
    let (mut out, mut notes) = (Vec::new(), Vec::new());
    let status = desk::run(
        &words,
        Box::new(Cursor::new(input.to_vec())),
        &mut out,
        &mut notes,
    );
    Ran { status, out, notes }
}

/// So many of something.
pub fn counted(number: usize, what: &str) -> String {
    match number {
        1 => format!("1 {what}"),
        _ => format!("{number} {what}s"),
    }
}

/// Bytes that are text.
pub fn text(bytes: &[u8]) -> &str {
    std::str::from_utf8(bytes).unwrap_or_else(|error| panic!("{error}: {bytes:?}"))
}

/// An empty folder of this name for a test's files.
pub fn folder(name: &str) -> PathBuf {
    let path = Path::new(env!("CARGO_TARGET_TMPDIR")).join(name);
    if path.exists() {
        fs::remove_dir_all(&path).expect("an old folder gone");
    }
    fs::create_dir_all(&path).expect("a folder");
    path
}

/// A link that goes with the test that made it: while the repository holds a link, its proofs are not checked.
pub struct Link(PathBuf);

impl Link {
    pub fn new(to: &Path, path: &Path) -> Link {
        symlink(to, path).expect("a link");
        Link(path.to_owned())
    }
}

impl Drop for Link {
    fn drop(&mut self) {
        let _ = fs::remove_file(&self.0);
    }
}

/// A path of the repository.
pub fn repository(path: &str) -> PathBuf {
    Path::new(env!("CARGO_MANIFEST_DIR")).join("..").join(path)
}

/// The inputs of a committed folder, by name.
pub fn inputs(folder: &str) -> Vec<PathBuf> {
    let entries = fs::read_dir(repository(folder)).unwrap_or_else(|e| panic!("{folder}: {e}"));
    let mut paths: Vec<PathBuf> = entries
        .map(|entry| entry.expect("an entry").path())
        .collect();
    paths.retain(|path| path.extension().is_some_and(|end| end == "txt"));
    paths.sort();
    paths
}

/// The texts of an input, each with the line on which it begins: it is cut after each line that begins `end=`.
pub fn texts(input: &[u8]) -> Vec<(u64, &[u8])> {
    let (mut texts, mut start, mut at) = (Vec::new(), 0, 0);
    let (mut first, mut lines) = (1, 0);
    for line in input.split_inclusive(|&byte| byte == b'\n') {
        (at, lines) = (at + line.len(), lines + 1);
        if line.starts_with(b"end=") || at == input.len() {
            texts.push((first, &input[start..at]));
            (start, first) = (at, lines + 1);
        }
    }
    texts
}

/// The seed given, or one of the clock; printed, so that a run can be repeated with SEED.
pub fn seed() -> u64 {
    let seed = match env::var("SEED") {
        Ok(seed) => seed
            .parse()
            .unwrap_or_else(|_| panic!("SEED is a number, not {seed:?}")),
        Err(_) => SystemTime::now()
            .duration_since(UNIX_EPOCH)
            .expect("a clock after 1970")
            .as_secs(),
    };
    println!("seed {seed}");
    seed
}

/// Bytes as they are to be printed: those outside 32 to 126 as `\xNN`.
pub fn escaped(bytes: &[u8]) -> String {
    let one = |&byte: &u8| match byte {
        32..=126 => char::from(byte).to_string(),
        _ => format!("\\x{byte:02x}"),
    };
    bytes.iter().map(one).collect()
}
