//! The records of a journal, read one by one.

use super::lines::{begins, First, Opening, Said, MOST_LINE};
use crate::sha256::{sum, Sum};
use std::io::{self, BufRead, BufReader, Read};

/// What comes next in a journal.
#[derive(Debug, PartialEq, Eq)]
pub enum Step {
    /// A text that was lodged at this time: [`Records::text`].
    Text {
        /// Seconds since 1970.
        seconds: u64,
    },
    /// The answer to the text before it.
    Answer(String),
    /// The journal ends here, with a whole record.
    End,
    /// So many bytes follow that are the beginning of a record, and nothing after it.
    Torn(u64),
}

/// Why there is no next record.
#[derive(Debug)]
pub enum Fault {
    /// The file cannot be read.
    Io(io::Error),
    /// The bytes from a place on cannot have been written so.
    Damaged(&'static str),
}

impl From<io::Error> for Fault {
    fn from(error: io::Error) -> Fault {
        Fault::Io(error)
    }
}

/// The records of a journal.
pub struct Records<R> {
    input: BufReader<R>,
    opening: Opening,
    text: Vec<u8>,
    at: u64,
    check: Sum,
    texts: u64,
    answer_due: bool,
}

impl<R: Read> Records<R> {
    /// The records of a journal, after its first line; what that line is, where it is not that of one that is read here.
    pub fn open(input: R) -> io::Result<Result<Records<R>, First>> {
        let mut input = BufReader::with_capacity(65_536, input);
        let line = line(&mut input)?;
        let first = line.strip_suffix(b"\n").map_or(First::None, Opening::of);
        let First::Is(opening) = first else {
            return Ok(Err(first));
        };
        Ok(Ok(Records {
            input,
            opening,
            text: Vec::new(),
            at: line.len() as u64,
            check: opening.check(),
            texts: 0,
            answer_due: false,
        }))
    }

    /// What the first line says.
    pub fn opening(&self) -> Opening {
        self.opening
    }

    /// The last text that was read.
    pub fn text(&self) -> &[u8] {
        &self.text
    }

    /// Where the records end that were read.
    pub fn at(&self) -> u64 {
        self.at
    }

    /// The check of the last record that was read.
    pub fn check(&self) -> Sum {
        self.check
    }

    /// How many texts were read.
    pub fn texts(&self) -> u64 {
        self.texts
    }

    /// Whether the answer of the last text was not read.
    pub fn answer_due(&self) -> bool {
        self.answer_due
    }

    /// The next record.
    pub fn step(&mut self) -> Result<Step, Fault> {
        let line = line(&mut self.input)?;
        let Some(ended) = line.strip_suffix(b"\n") else {
            return self.unended(&line);
        };
        let Some((said, check)) = Said::of(ended) else {
            return Err(Fault::Damaged("no line of a record"));
        };
        let made = said.check(self.check);
        if made.to_string() != check {
            return Err(Fault::Damaged("the check of a record's line fails"));
        }
        let length = line.len() as u64;
        match (said, self.answer_due) {
            (Said::Text { .. }, true) => {
                Err(Fault::Damaged("the answer to the text before is missing"))
            }
            (Said::Answer(_), false) => Err(Fault::Damaged("an answer to no text")),
            (Said::Answer(answer), true) => {
                (self.at, self.check, self.answer_due) = (self.at + length, made, false);
                Ok(Step::Answer(answer))
            }
            (
                Said::Text {
                    length: bytes,
                    seconds,
                    sum,
                },
                false,
            ) => {
                if let Some(torn) = self.take_text(bytes, &sum, length)? {
                    return Ok(torn);
                }
                (self.at, self.check, self.answer_due) =
                    (self.at + length + bytes as u64 + 1, made, true);
                self.texts += 1;
                Ok(Step::Text { seconds })
            }
        }
    }

    /// Reads a text with its byte 10; where the file ends within them, or has zeros from within them on, the torn end.
    fn take_text(&mut self, length: usize, wanted: &str, line: u64) -> Result<Option<Step>, Fault> {
        self.text.clear();
        let all = length as u64 + 1;
        let got = self.input.by_ref().take(all).read_to_end(&mut self.text)? as u64;
        if got < all {
            return Ok(Some(Step::Torn(line + got)));
        }
        match self.text.pop() {
            Some(b'\n') if sum(&self.text).to_string() == wanted => Ok(None),
            Some(0) => match self.zeros()? {
                Some(more) => Ok(Some(Step::Torn(line + got + more))),
                None => Err(Fault::Damaged("the sum of a text fails")),
            },
            _ => Err(Fault::Damaged("the sum of a text fails")),
        }
    }

    /// The end of the journal, where no byte 10 follows in a line's room: whole, or torn with or without zeros behind.
    fn unended(&mut self, line: &[u8]) -> Result<Step, Fault> {
        if line.is_empty() {
            return Ok(Step::End);
        }
        let end = line
            .iter()
            .rposition(|&byte| byte != 0)
            .map_or(0, |at| at + 1);
        if begins(&line[..end], self.answer_due) {
            // a line shorter than its room ends where the file did; what follows by now was written meanwhile
            let more = match line.len() < MOST_LINE {
                true => Some(0),
                false => self.zeros()?,
            };
            if let Some(more) = more {
                return Ok(Step::Torn(line.len() as u64 + more));
            }
        }
        Err(Fault::Damaged("no line of a record"))
    }

    /// How many bytes follow, if all of them are 0: a crash can leave a file longer by bytes that were never written.
    fn zeros(&mut self) -> io::Result<Option<u64>> {
        let mut count = 0;
        loop {
            let room = self.input.fill_buf()?;
            if room.is_empty() {
                return Ok(Some(count));
            }
            if room.iter().any(|&byte| byte != 0) {
                return Ok(None);
            }
            let length = room.len();
            self.input.consume(length);
            count += length as u64;
        }
    }
}

/// The next bytes up to a byte 10 and with it; without it where the file ends, or a line would be too long.
fn line(input: &mut impl BufRead) -> io::Result<Vec<u8>> {
    let mut line = Vec::new();
    input.take(MOST_LINE as u64).read_until(b'\n', &mut line)?;
    Ok(line)
}
