//! A journal that is open for writing.

use super::disk::Disk;
use super::lines::{Opening, Said};
use super::read::{Ended, Reading};
use crate::bench::{said, Bench};
use crate::progress::Progress;
use crate::sha256::{sum, Sum};
use crate::trouble::{Doing, Trouble};
use docket::{Answer, MOST_TEXT};
use std::io::{self, Read};
use std::os::unix::ffi::OsStrExt;
use std::path::Path;

/// A journal that is open for writing.
pub struct Journal<D> {
    disk: D,
    name: Vec<u8>,
    bench: Bench,
    end: u64,
    /// Up to here it is on disk.
    synced: u64,
    check: Sum,
    texts: u64,
    failed: bool,
}

/// What opening a journal mended.
#[derive(Debug, Default, PartialEq, Eq)]
pub struct Mended {
    /// So many bytes of a record that was not written to its end were cut off.
    pub cut: u64,
    /// The last text had no answer recorded: its number, and the answer, which is recorded now.
    pub answered: Option<(u64, String)>,
}

/// A text that is lodged: it is on disk.
pub struct Lodged {
    /// Its number in the journal.
    pub number: u64,
    /// What it got.
    pub answer: Answer,
    /// Why the answer is not recorded, where it is not.
    pub trouble: Option<Trouble>,
}

impl<D: Disk> Journal<D> {
    /// Opens a journal: lodges its texts again, cuts off a torn end, and records an answer that is missing at the end. An
    /// empty file is made a journal.
    pub fn open(
        disk: D,
        path: &Path,
        progress: &mut Progress,
    ) -> Result<(Journal<D>, Mended), Trouble> {
        let name = path.as_os_str().as_bytes().to_vec();
        let read = |error| Trouble::File(name.clone(), Doing::Read, error);
        let opening = Opening::now();
        if let Some(cut) = is_new(&disk, opening).map_err(read)? {
            let journal = Journal::make(disk, name, opening)?;
            let answered = None;
            return Ok((journal, Mended { cut, answered }));
        }
        progress.total = disk.length().map_err(read)?;
        let mut bench = Bench::default();
        let mut reading = Reading::of(path, disk.bytes().map_err(read)?)?;
        let ended = reading.replay(&mut bench, progress)?;
        let (end, check, texts) = (
            reading.records.at(),
            reading.records.check(),
            reading.records.texts(),
        );
        drop(reading);
        let mut journal = Journal {
            disk,
            name,
            bench,
            end,
            synced: 0,
            check,
            texts,
            failed: false,
        };
        let mended = journal.mend(ended)?;
        journal.settle()?;
        Ok((journal, mended))
    }

    /// A journal without texts.
    fn make(disk: D, name: Vec<u8>, opening: Opening) -> Result<Journal<D>, Trouble> {
        let mut journal = Journal {
            disk,
            name,
            bench: Bench::default(),
            end: 0,
            synced: 0,
            check: opening.check(),
            texts: 0,
            failed: false,
        };
        journal
            .disk
            .cut(0)
            .map_err(|error| Trouble::File(journal.name.clone(), Doing::Make, error))?;
        journal.append(format!("{}\n", opening.line()).as_bytes(), true)?;
        journal.settle()?;
        Ok(journal)
    }

    /// Returns when all that was found in the file is on disk, and its name is: whoever wrote it may have been stopped before.
    pub fn settle(&mut self) -> Result<(), Trouble> {
        let settled = self.disk.sync().and_then(|()| self.disk.sync_name());
        settled.map_err(|error| Trouble::File(self.name.clone(), Doing::Settle, error))?;
        self.synced = self.end;
        Ok(())
    }

    /// Cuts off a torn end, and records an answer that is missing at the end.
    fn mend(&mut self, ended: Ended) -> Result<Mended, Trouble> {
        if ended.torn > 0 {
            let cut = self.disk.cut(self.end);
            cut.map_err(|error| Trouble::File(self.name.clone(), Doing::Cut, error))?;
        }
        if let Some(answer) = &ended.unrecorded {
            self.record(answer)?;
        }
        Ok(Mended {
            cut: ended.torn,
            answered: ended.unrecorded.map(|answer| (self.texts, answer)),
        })
    }

    /// Lodges a text at a time: it is on disk before it is judged.
    pub fn lodge(&mut self, text: &[u8], seconds: u64) -> Result<Lodged, Trouble> {
        if text.len() > MOST_TEXT {
            let long = io::Error::other("the text is too long for a record");
            return Err(Trouble::File(self.name.clone(), Doing::Copy, long));
        }
        let record = Said::Text {
            length: text.len(),
            seconds,
            sum: sum(text).to_string(),
        };
        let check = record.check(self.check);
        let mut bytes = record.line(check);
        bytes.extend_from_slice(text);
        bytes.push(b'\n');
        self.append(&bytes, true)?;
        (self.check, self.texts) = (check, self.texts + 1);
        let answer = self.bench.lodge(text);
        let trouble = self
            .record(said(&answer))
            .err()
            .map(|trouble| match trouble {
                Trouble::File(name, _, error) => Trouble::Unrecorded(name, self.texts, error),
                other => other,
            });
        Ok(Lodged {
            number: self.texts,
            answer,
            trouble,
        })
    }

    /// Writes the record of the last text's answer. It is not waited for: the text gets the same answer again.
    fn record(&mut self, answer: &str) -> Result<(), Trouble> {
        let record = Said::Answer(answer.to_string());
        let check = record.check(self.check);
        self.append(&record.line(check), false)?;
        self.check = check;
        Ok(())
    }

    /// Writes all of the bytes, on disk where that is asked, or none of them.
    fn append(&mut self, bytes: &[u8], synced: bool) -> Result<(), Trouble> {
        if self.failed {
            let closed = io::Error::other("an earlier write failed");
            return Err(Trouble::File(self.name.clone(), Doing::Write, closed));
        }
        let (mut written, mut known) = (self.disk.append(bytes), self.end);
        if written.is_ok() && synced {
            (written, known) = (self.disk.sync(), self.synced);
        }
        if let Err(error) = written {
            // after a failed sync nobody knows what is on disk of all that was written since the last one, though it can be
            // read: none of it stays, and nothing more is written by this process
            self.failed = true;
            let undone = self.disk.cut(known);
            let doing = if undone.is_ok() {
                Doing::Write
            } else {
                Doing::Undo
            };
            return Err(Trouble::File(self.name.clone(), doing, error));
        }
        self.end += bytes.len() as u64;
        if synced {
            self.synced = self.end;
        }
        Ok(())
    }

    /// What the texts so far come to.
    pub fn bench(&self) -> &Bench {
        &self.bench
    }

    /// How many texts it has.
    pub fn texts(&self) -> u64 {
        self.texts
    }

    /// The check of its last record.
    pub fn check(&self) -> Sum {
        self.check
    }

    /// The file that it is in.
    pub fn disk(&self) -> &D {
        &self.disk
    }
}

/// How many bytes a file has that is empty, or has no more than the beginning of a journal's first line, with or without zeros
/// after it.
fn is_new(disk: &impl Disk, opening: Opening) -> io::Result<Option<u64>> {
    let first = opening.line();
    let mut bytes = Vec::new();
    disk.bytes()?
        .take(first.len() as u64 + 2)
        .read_to_end(&mut bytes)?;
    let end = bytes
        .iter()
        .rposition(|&byte| byte != 0)
        .map_or(0, |at| at + 1);
    let begun = first.as_bytes().starts_with(&bytes[..end]);
    let new = begun && bytes.len() <= first.len() + 1;
    Ok(new.then_some(bytes.len() as u64))
}
