//! Journals read: without judging, and lodged again.

use super::disk::open_to_read;
use super::lines::First;
use super::records::{Fault, Records, Step};
use crate::bench::{said, Bench};
use crate::progress::Progress;
use crate::trouble::{Doing, Trouble};
use docket::Answer;
use std::fs::File;
use std::io::Read;
use std::os::unix::ffi::OsStrExt;
use std::path::Path;

/// A journal that is read, with its name for troubles.
pub struct Reading<R> {
    name: Vec<u8>,
    /// Its records.
    pub records: Records<R>,
}

/// A journal of any rules, to be read.
pub fn read(path: &Path) -> Result<Reading<File>, Trouble> {
    Reading::of(path, open_to_read(path)?)
}

/// The bench after the texts of a journal; whoever writes to it may go on.
pub fn replayed(path: &Path, progress: &mut Progress) -> Result<Bench, Trouble> {
    let mut bench = Bench::default();
    measured(path, progress)?.replay(&mut bench, progress)?;
    Ok(bench)
}

/// A journal to be read, its length being told to the progress.
fn measured(path: &Path, progress: &mut Progress) -> Result<Reading<File>, Trouble> {
    let file = open_to_read(path)?;
    progress.total = file.metadata().map_or(0, |data| data.len());
    Reading::of(path, file)
}

/// A text of a journal, and the docket's answer to it.
pub struct Answered {
    /// The text.
    pub text: Vec<u8>,
    /// The answer.
    pub answer: Answer,
}

/// The bench after the texts of a journal, and the text of this number; that it has none of that number is trouble.
pub fn replayed_with(
    path: &Path,
    number: u64,
    progress: &mut Progress,
) -> Result<(Bench, Answered), Trouble> {
    let (mut bench, mut found) = (Bench::default(), None);
    let mut reading = measured(path, progress)?;
    reading.replay_each(&mut bench, progress, |nth, text, answer| {
        if nth == number {
            let (text, answer) = (text.to_vec(), answer.clone());
            found = Some(Answered { text, answer });
        }
    })?;
    let (texts, name) = (reading.records.texts(), reading.name);
    let found = found.ok_or(Trouble::NoText(name, number, texts))?;
    Ok((bench, found))
}

/// How a journal ends.
pub struct Ended {
    /// The answer to the last text, where it is not recorded.
    pub unrecorded: Option<String>,
    /// The bytes of a record that was not written to its end.
    pub torn: u64,
}

impl<R: Read> Reading<R> {
    /// A journal that has these bytes.
    pub fn of(path: &Path, bytes: R) -> Result<Reading<R>, Trouble> {
        let name = path.as_os_str().as_bytes().to_vec();
        match Records::open(bytes) {
            Err(error) => Err(Trouble::File(name, Doing::Read, error)),
            Ok(Ok(records)) => Ok(Reading { name, records }),
            Ok(Err(First::Format(format))) => Err(Trouble::Format(name, format)),
            Ok(Err(First::Damaged)) => Err(Trouble::Damaged {
                name,
                at: 0,
                texts: 0,
                why: "the check of the first line fails",
            }),
            Ok(Err(_)) => Err(Trouble::NoJournal(name)),
        }
    }

    /// The next record.
    pub fn step(&mut self) -> Result<Step, Trouble> {
        let name = || self.name.clone();
        self.records.step().map_err(|fault| match fault {
            Fault::Io(error) => Trouble::File(name(), Doing::Read, error),
            Fault::Damaged(why) => Trouble::Damaged {
                name: name(),
                at: self.records.at(),
                texts: self.records.texts(),
                why,
            },
        })
    }

    /// Lodges the texts again; each must get the answer that is recorded.
    pub fn replay(&mut self, bench: &mut Bench, progress: &mut Progress) -> Result<Ended, Trouble> {
        self.replay_each(bench, progress, |_, _, _| {})
    }

    /// The same; each text is seen with its number and its answer.
    fn replay_each(
        &mut self,
        bench: &mut Bench,
        progress: &mut Progress,
        mut see: impl FnMut(u64, &[u8], &Answer),
    ) -> Result<Ended, Trouble> {
        let rules = self.records.opening().rules;
        if rules != docket::rules() {
            return Err(Trouble::Rules(self.name.clone(), rules));
        }
        let mut again = String::new();
        loop {
            match self.step()? {
                Step::Text { .. } => {
                    let (nth, text) = (self.records.texts(), self.records.text());
                    let answer = bench.lodge(text);
                    see(nth, text, &answer);
                    again = said(&answer).to_string();
                    progress.show(self.records.texts(), self.records.at());
                }
                Step::Answer(recorded) if recorded == again => {}
                Step::Answer(recorded) => {
                    return Err(Trouble::Answer {
                        name: self.name.clone(),
                        text: self.records.texts(),
                        recorded,
                        again,
                    })
                }
                Step::End => return Ok(self.ended(again, 0)),
                Step::Torn(bytes) => return Ok(self.ended(again, bytes)),
            }
        }
    }

    fn ended(&self, last: String, torn: u64) -> Ended {
        Ended {
            unrecorded: self.records.answer_due().then_some(last),
            torn,
        }
    }
}
