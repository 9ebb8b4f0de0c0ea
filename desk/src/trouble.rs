//! What went wrong, in one line: what, where, and what to do.

use crate::leaves::Leaves;
use crate::printed::{count, shown};
use std::fmt;
use std::io;
use std::os::unix::ffi::OsStrExt;
use std::path::Path;

/// What was being done with a file.
#[derive(Clone, Copy, Debug, PartialEq, Eq)]
pub enum Doing {
    /// Opening an input.
    Open,
    /// Opening a journal to read it.
    Find,
    /// Opening a journal to write to it.
    Change,
    /// Making it.
    Make,
    /// Locking it.
    Lock,
    /// Reading it.
    Read,
    /// Writing a record to it; it was cut back to what it was.
    Write,
    /// Writing a record to it, and then cutting it back.
    Undo,
    /// Cutting off a torn end.
    Cut,
    /// Making sure that what is in it is on disk, and its name.
    Settle,
    /// Copying to it.
    Copy,
}

/// Why a command could not do what it was asked.
#[derive(Debug)]
pub enum Trouble {
    /// A wrong use of the program, or of a command of this name.
    Usage(String, &'static str),
    /// Something that the system would not do with a file.
    File(Vec<u8>, Doing, io::Error),
    /// A directory, a device, a pipe where a journal is asked for.
    NoFile(Vec<u8>),
    /// An input in which there is nothing to judge.
    NoTexts(Vec<u8>),
    /// A journal as an input.
    Itself(Vec<u8>),
    /// Another process writes to the journal.
    Busy(Vec<u8>),
    /// A file without a journal's first line.
    NoJournal(Vec<u8>),
    /// A journal of another format.
    Format(Vec<u8>, u64),
    /// A journal of other rules.
    Rules(Vec<u8>, u64),
    /// Bytes that cannot have been written so.
    Damaged {
        /// The journal's name.
        name: Vec<u8>,
        /// Where the damaged record begins.
        at: u64,
        /// The texts before it.
        texts: u64,
        /// What is wrong.
        why: &'static str,
    },
    /// An answer that the text does not get again.
    Answer {
        /// The journal's name.
        name: Vec<u8>,
        /// The text's number.
        text: u64,
        /// The answer in the journal.
        recorded: String,
        /// The answer now.
        again: String,
    },
    /// A text was lodged, and the record of its answer could not be written.
    Unrecorded(Vec<u8>, u64, io::Error),
    /// No record has the check that was noted down.
    NoCheck(Vec<u8>),
    /// The journal has fewer texts.
    NoText(Vec<u8>, u64, u64),
    /// No schedule is held.
    NoSchedule(Vec<u8>),
    /// No problem is held.
    NoProblem(Vec<u8>),
    /// A text, by its number, that is no accepted tree, and what it is.
    NoTree(Vec<u8>, u64, String),
    /// A price leaf that a tree has not.
    NoLeaf {
        /// The journal's name.
        name: Vec<u8>,
        /// The number of the tree's text.
        text: u64,
        /// The number of the leaf.
        leaf: u64,
        /// The leaves that the tree has.
        leaves: Leaves,
    },
    /// Standard output takes no more; what the journal has now, if the command lodges.
    Output(io::Error, Option<String>),
}

impl Trouble {
    /// Something that the system would not do with a file.
    pub fn file(path: &Path, doing: Doing, error: io::Error) -> Trouble {
        Trouble::File(path.as_os_str().as_bytes().to_vec(), doing, error)
    }
}

impl Trouble {
    /// A wrong use of the program.
    pub fn usage(why: impl Into<String>) -> Trouble {
        Trouble::Usage(why.into(), "")
    }

    /// The same, where it is a wrong use, of a command.
    pub fn of_command(self, command: &'static str) -> Trouble {
        match self {
            Trouble::Usage(why, _) => Trouble::Usage(why, command),
            other => other,
        }
    }
}

impl fmt::Display for Trouble {
    fn fmt(&self, f: &mut fmt::Formatter) -> fmt::Result {
        match self {
            Trouble::Usage(why, "") => write!(f, "{why}; see docket --help"),
            Trouble::Usage(why, command) => write!(f, "{why}; see docket {command} --help"),
            Trouble::Output(error, None) => {
                write!(f, "standard output: {error}; what was printed is cut off")
            }
            Trouble::Output(error, Some(lodged)) => write!(
                f,
                "standard output: {error}; {lodged}: docket log shows the answers"
            ),
            Trouble::File(name, doing, error) => {
                let advice = advice(*doing, error.kind());
                write!(f, "{}: {}: {error}{advice}", shown(name), tried(*doing))
            }
            Trouble::NoFile(name) => write!(
                f,
                "{}: not a file that keeps bytes; name a file for the journal",
                shown(name)
            ),
            Trouble::NoTexts(name) => write!(
                f,
                "{}: no text in it, so that nothing of it was judged",
                shown(name)
            ),
            Trouble::Itself(name) => write!(
                f,
                "{}: the journal cannot be lodged in itself; docket text takes a text out of it",
                shown(name)
            ),
            Trouble::NoText(name, wanted, texts) => write!(
                f,
                "{}: no text {wanted}: it has {}; docket log lists them",
                shown(name),
                count(*texts, "text")
            ),
            Trouble::NoSchedule(name) => write!(
                f,
                "{}: no schedule is held: none that was lodged was accepted; docket log lists them",
                shown(name)
            ),
            Trouble::NoProblem(name) => write!(
                f,
                "{}: no problem is held: none that was lodged was accepted; docket log lists them",
                shown(name)
            ),
            Trouble::NoTree(name, text, what) => write!(
                f,
                "{}: text {text} is no accepted tree: {what}; docket log lists them",
                shown(name)
            ),
            Trouble::NoLeaf {
                name,
                text,
                leaf,
                leaves,
            } => write!(
                f,
                "{}: text {text} has no price leaf{}",
                shown(name),
                behind(*leaf, *leaves)
            ),
            _ => self.of_journal(f),
        }
    }
}

impl Trouble {
    /// What is wrong with a journal as it stands.
    fn of_journal(&self, f: &mut fmt::Formatter) -> fmt::Result {
        match self {
            Trouble::Busy(name) => write!(f, "{}: another process has it open for writing; wait for it, or say how many seconds: --wait 60", shown(name)),
            Trouble::NoJournal(name) => write!(f, "{}: not a journal, by its first line; docket lodge makes one of a file that is empty or not there; it is named first, then the files", shown(name)),
            Trouble::Format(name, format) => write!(f, "{}: a journal of format {format}, and this program reads format {}: use the program that wrote it", shown(name), crate::journal::FORMAT),
            Trouble::Rules(name, rules) => write!(
                f,
                "{}: its texts were judged by rules {rules}, and this program judges by rules {}: use the program of those rules, or take each text out (docket text) and lodge it in a new journal",
                shown(name),
                docket::rules()
            ),
            Trouble::Damaged { name, at: 0, why, .. } => write!(f, "{}: damaged at byte 0: {why}; nothing was touched: take a copy kept elsewhere", shown(name)),
            Trouble::Damaged { name, at, texts, why } => write!(
                f,
                "{0}: damaged at byte {at}, after {1}: {why}; nothing was touched: take a copy kept elsewhere, or docket salvage {0} NEW for what comes before",
                shown(name),
                count(*texts, "text")
            ),
            Trouble::Answer { name, text, recorded, again } => write!(
                f,
                "{}: text {text} was answered {}, and judged again it gets {again}: another program wrote it, or a hand; use that program, or a copy kept elsewhere",
                shown(name),
                shown(recorded.as_bytes())
            ),
            Trouble::Unrecorded(name, text, error) => write!(
                f,
                "{}: text {text} is lodged and answered, but the answer could not be recorded: {error}; the next lodging records it",
                shown(name)
            ),
            Trouble::NoCheck(name) => write!(
                f,
                "{}: no record has the check that was noted: a text, a time or an answer before it was changed, or some are missing",
                shown(name)
            ),
            other => write!(f, "{other:?}"),
        }
    }
}

/// What is said behind `no price leaf`, of the leaf that is asked for and of those that the tree has.
fn behind(leaf: u64, leaves: Leaves) -> String {
    let of = |number: u64, what: &str| match number {
        1 => format!("1 {what} leaf"),
        _ => format!("{number} {what} leaves"),
    };
    let (price, ramp) = (of(leaves.price, "price"), of(leaves.ramp, "ramp"));
    match (leaves.price, leaves.ramp) {
        (0, 0) => String::new(),
        (0, _) => format!(": it has {ramp}, and a ramp leaf gives no run"),
        (_, 0) => format!(" {leaf}: it has {price}"),
        _ => format!(" {leaf}: it has {price} and {ramp}, and a ramp leaf gives no run"),
    }
}

fn tried(doing: Doing) -> &'static str {
    match doing {
        Doing::Open | Doing::Find => "cannot be opened",
        Doing::Change => "cannot be opened for writing",
        Doing::Make => "cannot be made",
        Doing::Lock => "cannot be locked",
        Doing::Read => "cannot be read",
        Doing::Write | Doing::Undo | Doing::Copy => "cannot be written",
        Doing::Cut => "its torn end cannot be cut off",
        Doing::Settle => "cannot be made sure of on disk",
    }
}

fn advice(doing: Doing, kind: io::ErrorKind) -> &'static str {
    match (doing, kind) {
        (Doing::Open, io::ErrorKind::NotFound) => "; is the name right?",
        (Doing::Find, io::ErrorKind::NotFound) => {
            "; is the name right? docket lodge makes a journal"
        }
        (Doing::Make, io::ErrorKind::AlreadyExists) => "; name a file that is not there yet",
        (Doing::Lock, _) => "; keep it on a disk of this machine",
        (Doing::Write, io::ErrorKind::StorageFull | io::ErrorKind::QuotaExceeded) => {
            "; the last text was not lodged: lodge it again when there is room"
        }
        (Doing::Write, _) => "; the last text was not lodged: lodge it again when that is mended",
        (Doing::Undo, _) => {
            "; whether the last text is in it is not sure: look after the disk, then see docket log"
        }
        (Doing::Settle, _) => "; look after the disk before anything more is lodged",
        _ => "",
    }
}
