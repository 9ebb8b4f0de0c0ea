//! Commands that judge texts: `check`, `lodge`, `try`.

use super::answers::{self, Judged};
use super::sources::Source;
use super::{Call, Command, Status};
use crate::bench::Bench;
use crate::clock;
use crate::journal::{replayed, Journal, Mended, OnDisk};
use crate::pieces::Piece;
use crate::printed::{count, json, object, shown};
use crate::progress::Progress;
use crate::trouble::{Doing, Trouble};
use docket::{Answer, Verdict, MOST_TEXT};
use std::os::unix::ffi::OsStrExt;
use std::path::Path;

pub const CHECK: Command = Command {
    name: "check",
    arguments: "FILE..",
    short: "judge the texts of files, and keep nothing",
    long: "Lodges every text of the files, in turn, in one fresh docket. Prints each answer with its place, why a text was\n\
           refused in words, and then the report. Nothing is kept.",
    options: &["--json"],
    example: "docket check examples/example.txt",
    words: 1..=usize::MAX,
    run: check,
};

pub const LODGE: Command = Command {
    name: "lodge",
    arguments: "J FILE..",
    short: "lodge the texts of files in a journal",
    long: "Lodges every text of the files, in turn, in the journal J, which is made if it is not there. A text is on disk\n\
           before its answer is printed. Prints each text's number in the journal and its answer, then the report, and the\n\
           journal's last check, which stands for all of it: note it down. From - each text is answered as its end line\n\
           comes in. Refused texts are kept too; only one above 1,048,576 bytes is not, and has - for its number.",
    options: &["--json", "--wait"],
    example: "docket lodge monday.docket examples/example.txt",
    words: 2..=usize::MAX,
    run: lodge,
};

pub const TRY: Command = Command {
    name: "try",
    arguments: "J FILE..",
    short: "what lodging them would answer; nothing is recorded",
    long: "Answers every text of the files as lodge would, on a copy of what the journal J holds. Nothing is recorded.",
    options: &["--json"],
    example: "docket try monday.docket examples/example.txt",
    words: 2..=usize::MAX,
    run: try_texts,
};

/// Where texts are lodged.
trait Place {
    /// Lodges a text: its number, where it has one, its answer, and what went wrong after it was lodged.
    fn lodge(&mut self, text: &[u8]) -> Result<(Option<u64>, Answer, Option<Trouble>), Trouble>;
    fn bench(&self) -> &Bench;
    fn texts(&self) -> Option<u64>;
}

impl Place for Bench {
    fn lodge(&mut self, text: &[u8]) -> Result<(Option<u64>, Answer, Option<Trouble>), Trouble> {
        Ok((None, Bench::lodge(self, text), None))
    }

    fn bench(&self) -> &Bench {
        self
    }

    fn texts(&self) -> Option<u64> {
        None
    }
}

impl Place for Journal<OnDisk> {
    fn lodge(&mut self, text: &[u8]) -> Result<(Option<u64>, Answer, Option<Trouble>), Trouble> {
        let lodged = Journal::lodge(self, text, clock::now())?;
        Ok((Some(lodged.number), lodged.answer, lodged.trouble))
    }

    fn bench(&self) -> &Bench {
        Journal::bench(self)
    }

    fn texts(&self) -> Option<u64> {
        Some(Journal::texts(self))
    }
}

fn check(call: &mut Call) -> Result<Status, Trouble> {
    let sources = Source::open(&call.options.words)?;
    let mut bench = Bench::default();
    let status = judge(call, sources, &mut bench)?;
    answers::report(&bench, call.options.json, &mut call.out)?;
    status
}

fn try_texts(call: &mut Call) -> Result<Status, Trouble> {
    let sources = Source::open(&call.options.words[1..])?;
    let mut bench = replayed(call.journal(), &mut progress(call.journal()))?;
    let status = judge(call, sources, &mut bench)?;
    answers::report(&bench, call.options.json, &mut call.out)?;
    status
}

fn lodge(call: &mut Call) -> Result<Status, Trouble> {
    let sources = Source::open(&call.options.words[1..])?;
    let path = call.journal().to_owned();
    let disk = OnDisk::open(&path, call.options.wait)?;
    for source in &sources {
        let itself = source
            .open_file()
            .and_then(|file| disk.is(&file))
            .map_err(|error| Trouble::file(&path, Doing::Read, error))?;
        if itself {
            return Err(Trouble::Itself(source.name.clone()));
        }
    }
    let (mut journal, mended) = Journal::open(disk, &path, &mut progress(&path))?;
    tell(call, &path, &mended);
    let status = judge(call, sources, &mut journal)?;
    answers::report(journal.bench(), call.options.json, &mut call.out)?;
    // what is noted down is on disk
    journal.settle()?;
    print_end(call, &path, journal.texts(), &journal.check().to_string())?;
    status
}

/// Prints how many texts a journal has, and its last check.
pub fn print_end(call: &mut Call, path: &Path, texts: u64, check: &str) -> Result<(), Trouble> {
    let name = path.as_os_str().as_bytes();
    if !call.options.json {
        let texts = count(texts, "text");
        return call
            .out
            .line(&format!("{} has {texts}; check {check}", shown(name)));
    }
    let journal = object(&[
        ("name", json(name)),
        ("texts", texts.to_string()),
        ("check", json(check.as_bytes())),
    ]);
    call.out.line(&object(&[("journal", journal)]))
}

/// Lodges every text of the inputs, and prints what it gets. How the command ends: an input without a text is trouble, since
/// nothing of it was judged, but the others are judged too.
fn judge(
    call: &mut Call,
    sources: Vec<Source>,
    place: &mut impl Place,
) -> Result<Result<Status, Trouble>, Trouble> {
    let mut status = Ok(Status::Accepted);
    for source in sources {
        let name = source.name.clone();
        let read = |error| Trouble::File(name.clone(), Doing::Read, error);
        let mut pieces = source.pieces(&mut call.input);
        let mut none = true;
        while let Some(piece) = pieces.next_text().map_err(read)? {
            none = false;
            let refused = judge_one(call, &name, &piece, place)?;
            status = status.map(|status| if refused { Status::Refused } else { status });
        }
        if none {
            status = status.and(Err(Trouble::NoTexts(name)));
        }
    }
    Ok(status)
}

/// Lodges a text, and prints what it gets; whether it was refused. One that is too long is refused wherever it is lodged, and kept nowhere.
fn judge_one(
    call: &mut Call,
    name: &[u8],
    piece: &Piece,
    place: &mut impl Place,
) -> Result<bool, Trouble> {
    let (number, answer, trouble) = match &piece.text {
        Some(text) => place.lodge(text)?,
        None => (None, Bench::default().lodge(&vec![0; MOST_TEXT + 1]), None),
    };
    let text = piece.text.as_deref().unwrap_or_default();
    let judged = Judged {
        name,
        piece,
        number,
        answer: &answer,
        reason: place.bench().reason(text, &answer),
    };
    if let Some(number) = number {
        let (texts, name) = (count(number, "text"), shown(name));
        call.out.lodged = Some(format!(
            "the journal has {texts} now, up to that of {name}:{}",
            piece.line
        ));
    }
    match call.options.json {
        true => judged.print_json(&mut call.out)?,
        false => judged.print(&mut call.out, place.texts().is_some())?,
    }
    call.out.flush()?;
    match trouble {
        Some(trouble) => Err(trouble),
        None => Ok(matches!(answer.verdict(), Verdict::Refused(_))),
    }
}

fn progress(path: &Path) -> Progress {
    Progress::new(shown(path.as_os_str().as_bytes()))
}

/// Says what opening the journal mended.
fn tell(call: &mut Call, path: &Path, mended: &Mended) {
    let name = shown(path.as_os_str().as_bytes());
    if mended.cut > 0 {
        call.note(&format!(
            "{name}: cut off the last {} bytes, of a record that was not written to its end",
            mended.cut
        ));
    }
    if let Some((text, answer)) = &mended.answered {
        call.note(&format!(
            "{name}: text {text} had been lodged without its answer being recorded: answer={answer}"
        ));
    }
}
