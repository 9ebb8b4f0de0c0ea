//! Why a text was refused, in plain words, and where it shows. The docket's answer is always right: here are only words for it.

mod called;
mod chars;
mod counted;
mod due;
mod given;
mod lines;
mod misplaced;
mod notdue;
mod numeral;
mod ordered;
mod ranged;
mod table;
#[cfg(test)]
mod tests;

use crate::printed;
use docket::Refusal;
use due::{Due, Walk};
use std::ops::Range;
use table::{Often, Role, Shows};

pub use called::brief;
pub use given::{numbers, numbers_of, Node};

/// How many periods and units the problem has that the docket held when a text was lodged.
#[derive(Clone, Copy, Debug, PartialEq, Eq)]
pub struct Plant {
    /// T
    pub periods: usize,
    /// I
    pub units: usize,
}

impl Plant {
    /// The plant of the text of an accepted problem.
    pub fn of(problem: &[u8]) -> Option<Plant> {
        let walk = Walk::to(problem, u64::MAX, None);
        Some(Plant {
            periods: walk.periods?,
            units: walk.units?,
        })
    }
}

/// Why a text was refused, in words.
#[derive(Clone, Debug, PartialEq, Eq)]
pub struct Reason {
    /// The line of the text, counted from 1, that shows it; 0 where none does.
    pub line: u64,
    /// The bytes of that line that a mark is put under (the line without its byte 10); the empty range at the line's end marks
    /// the place after its last byte.
    pub mark: Option<Range<usize>>,
    /// One sentence in printable ASCII, whatever the text's bytes are. It begins with the docket's own number and place.
    pub words: String,
}

/// What of a text shows why it was refused.
struct Found {
    line: u64,
    mark: Option<Range<usize>>,
    /// What is said in place of the number's own sentence.
    words: Option<String>,
}

/// Why a text was refused, in words: any text, any refusal and any plant, whether they belong together or not.
pub fn reason(text: &[u8], refusal: Refusal, held: Option<Plant>) -> Reason {
    let why = table::WHYS.iter().find(|why| why.number == refusal.number);
    let found = match why.map(|why| why.shows) {
        None => shown_line(text, refusal, |_| None),
        Some(Shows::Nothing) => None,
        Some(Shows::Values) => shown_line(text, refusal, |line| Some(lines::behind_key(line))),
        Some(Shows::Output) => output(text, refusal, held),
        Some(shows) => fault(text, refusal, held, shows),
    };
    let (line, mark, said) = match found {
        Some(found) => (found.line, found.mark, found.words),
        None => (0, None, None),
    };
    let sentence = why.map_or(table::UNKNOWN, |why| why.words);
    let said = said.unwrap_or_else(|| sentence.into());
    let words = format!("{}: {said}", place(refusal));
    Reason {
        line,
        mark,
        words: printed::shown(words.as_bytes()),
    }
}

/// The docket's own number and place.
fn place(refusal: Refusal) -> String {
    let mut place = refusal.number.to_string();
    for (before, number, behind) in [
        (" in line ", refusal.line, " of the text"),
        (" for unit ", refusal.unit, ""),
        (" in period ", refusal.period, ""),
    ] {
        if number > 0 {
            place += &format!("{before}{number}{behind}");
        }
    }
    place
}

/// The line of a refusal, and a mark in it.
fn shown_line(
    text: &[u8],
    refusal: Refusal,
    mark: fn(&[u8]) -> Option<Range<usize>>,
) -> Option<Found> {
    let line = lines::line_at(text, refusal.line)?;
    Some(Found {
        line: refusal.line,
        mark: mark(line.bytes),
        words: None,
    })
}

/// What is wrong with the line of a refusal, as its number asks.
fn fault(text: &[u8], refusal: Refusal, held: Option<Plant>, shows: Shows) -> Option<Found> {
    let line = lines::line_at(text, refusal.line)?;
    let walk = Walk::to(text, refusal.line, held);
    let fault = match shows {
        Shows::NotDue => Some(notdue::fault(text, refusal.line, line, &walk)),
        Shows::Count => counted::fault(line.bytes, &walk),
        Shows::Range => ranged::fault(line.bytes, &walk),
        _ => ordered::fault(line.bytes),
    };
    let (mark, words) = match fault {
        Some(fault) => (Some(fault.mark), Some(fault.words)),
        None => (None, None),
    };
    Some(Found {
        line: refusal.line,
        mark,
        words,
    })
}

/// A mistake in a line: the bytes that show it, and what is said of it.
#[derive(Clone, Debug, PartialEq, Eq)]
struct Fault {
    mark: Range<usize>,
    words: String,
}

impl Fault {
    fn new(mark: Range<usize>, words: impl Into<String>) -> Fault {
        Fault {
            mark,
            words: words.into(),
        }
    }
}

/// The line of a refusal's unit and the value of its period there.
fn output(text: &[u8], refusal: Refusal, held: Option<Plant>) -> Option<Found> {
    let mut walk = Walk::new(held);
    for (line, number) in lines::lines(text).zip(1..) {
        if let Due::Line(key, Some((unit, _))) = walk.due() {
            let runs = matches!(key.role, Role::Line(_, Often::EachUnit(_)));
            if runs && u64::try_from(unit) == Ok(refusal.unit) {
                let period = usize::try_from(refusal.period.checked_sub(1)?).ok()?;
                return Some(Found {
                    line: number,
                    mark: lines::values(line.bytes).nth(period),
                    words: None,
                });
            }
        }
        if let Due::Nothing | Due::Unknown = walk.due() {
            return None;
        }
        walk.take(line.bytes);
    }
    None
}

/// Whether a text begins with a first line, of whatever kind.
pub fn begins(text: &[u8]) -> bool {
    lines::lines(text)
        .next()
        .is_some_and(|line| is_first(line.bytes))
}

fn is_first(line: &[u8]) -> bool {
    lines::key_of(line) == Some(table::FIRST.as_bytes())
}

/// The line of a text, counted from 1, on which another text begins within it.
pub fn another(text: &[u8]) -> Option<u64> {
    let mut later = lines::lines(text).zip(1..).skip(1);
    let found = later.find(|(line, _)| is_first(line.bytes));
    found.map(|(_, number)| number)
}

/// The kind of a text as the log shows it: the word behind `kind=` on line 1 if it is 1 to 16 small letters.
pub fn kind(text: &[u8]) -> Option<&str> {
    let line = lines::line_at(text, 1)?.bytes;
    let word = line.strip_prefix(table::FIRST.as_bytes())?;
    let word = word.strip_prefix(b"=")?;
    let small = word.iter().all(u8::is_ascii_lowercase);
    match word.len() {
        1..=16 if small => std::str::from_utf8(word).ok(),
        _ => None,
    }
}

/// The writer that line 2 names, in decimal without leading zeros.
pub fn writer(text: &[u8]) -> Option<u16> {
    let line = lines::line_at(text, 2)?.bytes;
    let word = line.strip_prefix(table::WRITER.as_bytes())?;
    let digits = word.strip_prefix(b"=")?;
    if !digits.iter().all(u8::is_ascii_digit) || digits.starts_with(b"0") {
        return None;
    }
    u16::try_from(lines::number(digits)?).ok()
}
