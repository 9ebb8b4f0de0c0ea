//! What the tests of the journal share: a writer of the format that knows nothing of the journal's own, commands on a journal, files
//! that show whether they were touched, and random numbers that a seed repeats.

use super::Ran;
use desk::journal::{Reading, Step};
use desk::sha256::{sum, Sum};
use std::ffi::OsString;
use std::fs::{self, File};
use std::os::unix::ffi::{OsStrExt, OsStringExt};
use std::path::Path;
use std::time::{Duration, SystemTime};

/// The commands that only read, with the words behind the journal.
pub const READERS: [(&str, &[&str]); 7] = [
    ("log", &[]),
    ("text", &["1"]),
    ("verify", &[]),
    ("report", &[]),
    ("show", &[]),
    ("draft", &["--price", "10,14"]),
    ("try", &["-"]),
];

/// When the texts of these journals were lodged.
pub const SECONDS: u64 = 1_795_000_000;

/// The texts of document 01's example, and one that is refused.
pub fn texts() -> Vec<Vec<u8>> {
    let example = include_bytes!("../../../examples/example.txt");
    let mut texts = vec![Vec::new()];
    for line in example.split_inclusive(|&byte| byte == b'\n') {
        texts.last_mut().expect("a text").extend_from_slice(line);
        if line.starts_with(b"end=") {
            texts.push(Vec::new());
        }
    }
    let last = texts.last_mut().expect("a text");
    last.extend_from_slice(b"kind=schedule\nwriter=9\nrun=60,80\nrun=0,19\nend=schedule\n");
    texts
}

/// What stands behind `answer=` for each of some texts, in a fresh docket.
pub fn answers(texts: &[Vec<u8>]) -> Vec<String> {
    let mut docket = docket::Docket::new();
    let lodged = texts.iter().map(|text| docket.lodge(text));
    lodged
        .map(|answer| {
            answer
                .line()
                .strip_prefix("answer=")
                .expect("an answer")
                .into()
        })
        .collect()
}

/// Writes journals from the description of their format.
#[derive(Clone)]
pub struct Scribe {
    pub bytes: Vec<u8>,
    /// Where each record begins; the first line is one of them.
    pub starts: Vec<usize>,
    pub check: Sum,
}

impl Scribe {
    pub fn new(format: u64, rules: u64) -> Scribe {
        Scribe::opened(&format!("docket journal {format} rules {rules}"))
    }

    /// A journal with any words in its first line.
    pub fn opened(first: &str) -> Scribe {
        let check = sum(first.as_bytes());
        Scribe {
            bytes: format!("{first} {check}\n").into_bytes(),
            starts: vec![0],
            check,
        }
    }

    /// A line of a record with a right check: any words.
    pub fn line(&mut self, words: &[u8]) {
        let mut summed = format!("{} ", self.check).into_bytes();
        summed.extend_from_slice(words);
        self.check = sum(&summed);
        self.starts.push(self.bytes.len());
        self.bytes.extend_from_slice(words);
        self.bytes
            .extend_from_slice(format!(" {}\n", self.check).as_bytes());
    }

    pub fn text(&mut self, text: &[u8], seconds: u64) {
        self.line(format!("text {} {seconds} {}", text.len(), sum(text)).as_bytes());
        self.bytes.extend_from_slice(text);
        self.bytes.push(b'\n');
    }

    pub fn answer(&mut self, answer: &str) {
        self.line(format!("answer {answer}").as_bytes());
    }

    /// A journal of these texts with the answers that they get.
    pub fn of(texts: &[Vec<u8>]) -> Scribe {
        let mut scribe = Scribe::new(1, docket::rules());
        for (text, answer) in texts.iter().zip(answers(texts)) {
            scribe.text(text, SECONDS);
            scribe.answer(&answer);
        }
        scribe
    }

    /// Where each record ends.
    pub fn ends(&self) -> Vec<usize> {
        let mut ends = self.starts[1..].to_vec();
        ends.push(self.bytes.len());
        ends
    }

    /// The bytes of each record.
    pub fn records(&self) -> Vec<&[u8]> {
        let spans = self.starts.iter().zip(self.ends());
        spans.map(|(&start, end)| &self.bytes[start..end]).collect()
    }

    /// How many of the first records end within so many bytes; the first line is one of them.
    pub fn whole(&self, bytes: usize) -> usize {
        self.ends().iter().filter(|&&end| end <= bytes).count()
    }
}

/// A text with its answer, where one is recorded.
pub type Entry = (Vec<u8>, Option<String>);

/// The texts and answers of a journal that is whole; why it is not, otherwise.
pub fn contents(bytes: &[u8]) -> Result<Vec<Entry>, String> {
    let mut reading = Reading::of(Path::new("J"), bytes).map_err(|trouble| trouble.to_string())?;
    let mut found: Vec<Entry> = Vec::new();
    loop {
        match reading.step().map_err(|trouble| trouble.to_string())? {
            Step::Text { .. } => found.push((reading.records.text().to_vec(), None)),
            Step::Answer(answer) => found.last_mut().expect("a text").1 = Some(answer),
            Step::End => return Ok(found),
            Step::Torn(bytes) => return Err(format!("{bytes} bytes are torn")),
        }
    }
}

/// Runs the program with these words, and this on its standard input.
pub fn docket_with(words: &[&[u8]], input: &[u8]) -> Ran {
    let words: Vec<OsString> = words
        .iter()
        .map(|word| OsString::from_vec(word.to_vec()))
        .collect();
    super::run(&words, input)
}

/// Runs a command on a journal, with more words behind.
pub fn on(command: &str, journal: &Path, more: &[&str]) -> Ran {
    on_with(command, journal, more, b"")
}

/// The same, and this on its standard input.
pub fn on_with(command: &str, journal: &Path, more: &[&str], input: &[u8]) -> Ran {
    let mut words = vec![command.as_bytes(), journal.as_os_str().as_bytes()];
    words.extend(more.iter().map(|word| word.as_bytes()));
    docket_with(&words, input)
}

/// A time long before every test.
fn long_ago() -> SystemTime {
    SystemTime::UNIX_EPOCH + Duration::from_secs(1_000_000_000)
}

/// Makes a file anew, for one that is shortened first is slow, and lets it look old, so that every later write shows.
pub fn put(path: &Path, bytes: &[u8]) {
    let _ = fs::remove_file(path);
    fs::write(path, bytes).expect("a file");
    let file = File::options().append(true).open(path).expect("a file");
    file.set_modified(long_ago()).expect("a time");
}

/// Whether a file is as [`put`] left it.
pub fn is_untouched(path: &Path, bytes: &[u8]) -> bool {
    let time = fs::metadata(path).and_then(|data| data.modified());
    time.expect("a time") == long_ago() && fs::read(path).expect("a file") == bytes
}

/// Random numbers: the same for the same seed.
pub struct Random(u64);

impl Random {
    /// From the environment's SEED, or the clock; it is printed, where a test fails.
    pub fn seeded() -> Random {
        Random::of(super::seed())
    }

    pub fn of(seed: u64) -> Random {
        Random(seed)
    }

    /// Any number: splitmix64.
    pub fn next(&mut self) -> u64 {
        self.0 = self.0.wrapping_add(0x9e37_79b9_7f4a_7c15);
        let z = (self.0 ^ (self.0 >> 30)).wrapping_mul(0xbf58_476d_1ce4_e5b9);
        let z = (z ^ (z >> 27)).wrapping_mul(0x94d0_49bb_1331_11eb);
        z ^ (z >> 31)
    }

    /// A number below this one.
    pub fn below(&mut self, most: usize) -> usize {
        (self.next() % most.max(1) as u64) as usize
    }

    pub fn bytes(&mut self, length: usize) -> Vec<u8> {
        (0..length).map(|_| self.next() as u8).collect()
    }
}
