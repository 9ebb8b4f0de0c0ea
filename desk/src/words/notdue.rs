//! A line that is not the one that is due: what is due, and the usual mistake, if it is one.

use super::called::{brief, called, due_count};
use super::due::{Due, Walk};
use super::lines::{self, behind_key, key_of, Line};
use super::misplaced::{nearest, Around};
use super::numeral::{self, Given};
use super::table::{self, Count, LAST};
use super::{chars, Fault};
use crate::journal::{First, Opening};

const SAVE: &str = "save the text with LF line ends";

/// What is due in the place of a line, and what is wrong with the line.
pub fn fault(text: &[u8], number: u64, line: Line, walk: &Walk) -> Fault {
    if let Due::Nothing = walk.due() {
        return behind_end(line, walk);
    }
    let due = due_here(line, walk);
    let found = ended_early(line, walk)
        .or_else(|| journal(line, number))
        .or_else(|| coded(text, number))
        .or_else(|| returns(line))
        .or_else(|| unended(line, walk))
        .or_else(|| no_line(line))
        .or_else(|| of_key(line.bytes, walk, &Around::of(text, number)))
        .or_else(|| of_value(line.bytes, walk));
    match found {
        Some(fault) => Fault::new(fault.mark, format!("{due} is due; {}", fault.words)),
        None => Fault::new(0..line.bytes.len(), format!("{due} is due here")),
    }
}

/// What is due, in words: of all nodes only that of the line, where it is one.
pub fn due_here(line: Line, walk: &Walk) -> String {
    let key = key_of(line.bytes).and_then(table::find);
    match (walk.due(), key) {
        (Due::Node, Some(key)) if walk.keys().contains(&key.word) => {
            format!("{}=", key.word)
        }
        _ => walk.words(),
    }
}

/// What is said of anything behind the end line.
fn behind_end(line: Line, walk: &Walk) -> Fault {
    let end = format!("{LAST}={}", walk.kind.unwrap_or_default());
    let what = if line.bytes.is_empty() {
        "take this blank line out"
    } else if line.bytes.iter().all(u8::is_ascii_whitespace) {
        "take these spaces out"
    } else if key_of(line.bytes) == Some(table::FIRST.as_bytes()) {
        "lodge the next text by itself"
    } else {
        "take this line out, or lodge what it begins by itself"
    };
    let words = format!("nothing may stand behind {end}; {what}");
    Fault::new(0..line.bytes.len(), words)
}

/// The text has no such line.
fn ended_early(line: Line, walk: &Walk) -> Option<Fault> {
    if line.ended || !line.bytes.is_empty() {
        return None;
    }
    let words = match (walk.due(), walk.left()) {
        (Due::First, _) => "the text is empty".to_string(),
        (Due::End, _) => "the text ends without it".to_string(),
        (_, (0, lines @ 2..)) => format!("the text ends here, {lines} lines too early"),
        (_, (1, _)) => "the text ends here, and 1 tree is missing".to_string(),
        (_, (trees @ 2.., _)) => format!("the text ends here, and {trees} trees are missing"),
        _ => "the text ends here".to_string(),
    };
    Some(Fault::new(0..0, words))
}

/// The text is a journal.
fn journal(line: Line, number: u64) -> Option<Fault> {
    if number != 1 || Opening::of(line.bytes) == First::None {
        return None;
    }
    let words = "this is a journal: docket log and docket text read it";
    Some(Fault::new(0..line.bytes.len(), words))
}

/// The text is in another coding.
fn coded(text: &[u8], number: u64) -> Option<Fault> {
    if number != 1 {
        return None;
    }
    let (mark, what) = chars::coding(text)?;
    Some(Fault::new(mark, format!("{what}: save it as plain ASCII")))
}

/// Byte 13 ends lines.
fn returns(line: Line) -> Option<Fault> {
    let at = line.bytes.iter().position(|&byte| byte == b'\r')?;
    let what = match line.ended && at + 1 == line.bytes.len() {
        true => "byte 13 stands before byte 10 (CR LF line ends)",
        false => "a carriage return (byte 13) stands in the line",
    };
    Some(Fault::new(at..at + 1, format!("{what}: {SAVE}")))
}

/// Byte 10 does not end the last line.
fn unended(line: Line, walk: &Walk) -> Option<Fault> {
    let key = key_of(line.bytes).unwrap_or_default();
    let first = matches!(walk.due(), Due::First) && key != table::FIRST.as_bytes();
    if line.ended || first {
        return None;
    }
    let end = line.bytes.len();
    let whole = matches!(walk.due(), Due::End) && line.bytes == walk.words().as_bytes();
    let words = match whole {
        true => "no newline (byte 10) ends it; add one",
        false => "the text ends in this line, with no newline (byte 10) behind it",
    };
    Some(Fault::new(end..end, words))
}

/// A blank line or a comment.
fn no_line(line: Line) -> Option<Fault> {
    let bytes = line.bytes;
    let what = if bytes.is_empty() {
        "this line is blank: take it out"
    } else if bytes.iter().all(u8::is_ascii_whitespace) {
        "this line has only spaces: take it out"
    } else {
        let start = bytes.trim_ascii_start();
        let signs: [&[u8]; 5] = [b"#", b"//", b";", b"--", b"%"];
        if !signs.iter().any(|sign| start.starts_with(sign)) {
            return None;
        }
        "this line is a comment: texts have none, take it out"
    };
    Some(Fault::new(0..bytes.len(), what))
}

/// The line's key is not due.
fn of_key(line: &[u8], walk: &Walk, around: &Around) -> Option<Fault> {
    let Some(key) = key_of(line) else {
        return Some(without_equals(line, walk));
    };
    let due = walk.keys();
    if due.iter().any(|word| word.as_bytes() == key) {
        return None;
    }
    if due.is_empty() && table::find(key).is_some() {
        return None;
    }
    let all = 0..key.len();
    if key.is_empty() {
        return Some(Fault::new(0..1, "no key stands before '='"));
    }
    if let Some((place, what)) = chars::strange(key) {
        let remedy = chars::remedy(&key[place.clone()]);
        return Some(Fault::new(
            place,
            format!("{what} stands in its key: {remedy}"),
        ));
    }
    if let Some(fault) = spaced(key) {
        return Some(fault);
    }
    let small = key.to_ascii_lowercase();
    if let Some(word) = due.iter().find(|word| word.as_bytes() == small) {
        let words = format!("{} has capitals: write {word}=", brief(key));
        return Some(Fault::new(all, words));
    }
    Some(Fault::new(all, around.misplaced(line, key, walk)))
}

/// Spaces before, inside or behind a key.
fn spaced(key: &[u8]) -> Option<Fault> {
    let at = key.iter().position(|&byte| byte == b' ')?;
    let length = key[at..].iter().take_while(|&&byte| byte == b' ').count();
    let what = match (at, at + length == key.len()) {
        (0, _) => "a space stands before its key: take it out",
        (_, true) => "a space stands before '=': take it out",
        (_, false) => "a space stands in its key",
    };
    Some(Fault::new(at..at + length, what))
}

/// What is said of a line that has no `=`.
fn without_equals(line: &[u8], walk: &Walk) -> Fault {
    if let Some((place, what)) = chars::strange(line) {
        let remedy = chars::remedy(&line[place.clone()]);
        return Fault::new(place, format!("{what} stands in the line: {remedy}"));
    }
    let word = |at: usize| line[..at].trim_ascii().to_ascii_lowercase();
    let at = line.iter().position(|&byte| byte == b':');
    if let Some(at) = at {
        if walk.keys().iter().any(|key| key.as_bytes() == word(at)) {
            return Fault::new(at..at + 1, "':' stands in the place of '='");
        }
    }
    Fault::new(0..line.len(), "this line has no '='")
}

/// The key is due, and what stands behind it is malformed.
fn of_value(line: &[u8], walk: &Walk) -> Option<Fault> {
    match walk.due() {
        Due::First => of_word(line, &table::kinds(), walk),
        Due::End => of_word(line, &[walk.kind?], walk),
        _ => of_numbers(line, walk),
    }
}

/// The first value of the line that is no whole number.
pub fn of_numbers(line: &[u8], walk: &Walk) -> Option<Fault> {
    let key = table::find(key_of(line)?)?;
    let mut before = None;
    for (at, place) in lines::values(line).enumerate() {
        let value = match key.count {
            Count::Named => key.values.get(at),
            _ => key.values.first(),
        };
        let one = at == 0 && due_count(walk, key) == Some(1) && key.count == Count::Named;
        let given = Given {
            line,
            place: place.clone(),
            name: match one {
                true => "its value".into(),
                false => called(walk, key, at),
            },
            minus: value.is_some_and(|value| value.minus()),
            fraction: value.map_or("", |value| value.fraction),
            before,
        };
        if let Some(fault) = numeral::fault(&given) {
            return Some(fault);
        }
        before = Some(place);
    }
    None
}

/// What is wrong with the word in a first or an end line, of which one of these is due.
fn of_word(line: &[u8], due: &[&str], walk: &Walk) -> Option<Fault> {
    let place = behind_key(line);
    let (from, word) = (place.start, &line[place.clone()]);
    if due.iter().any(|due| due.as_bytes() == word) {
        return None;
    }
    if word.is_empty() {
        return Some(Fault::new(place, "nothing stands behind '='"));
    }
    if let Some((strange, what)) = chars::strange(word) {
        let mark = from + strange.start..from + strange.end;
        let behind = standing(&word[..strange.start]);
        let words = format!("{what} stands behind {behind}: take it out");
        return Some(Fault::new(mark, words));
    }
    if let Some(at) = word.iter().position(|&byte| byte == b' ') {
        let length = word[at..].iter().take_while(|&&byte| byte == b' ').count();
        let mark = from + at..from + at + length;
        let behind = standing(&word[..at]);
        let words = format!("a space stands behind {behind}: take it out");
        return Some(Fault::new(mark, words));
    }
    let small = word.to_ascii_lowercase();
    let given = brief(word);
    let words = if due.iter().any(|due| due.as_bytes() == small) {
        format!("{given} has capitals: write {}", brief(&small))
    } else if let (Due::End, true) = (
        walk.due(),
        table::kinds().iter().any(|kind| kind.as_bytes() == word),
    ) {
        format!("{given} stands here, but line 1 says {}", due.join(" or "))
    } else if let Some(near) = nearest(word, due) {
        format!("{given} stands here: did you mean {near}?")
    } else {
        format!("{given} is no kind of text")
    };
    Some(Fault::new(place, words))
}

/// What stands before a byte of a word.
fn standing(before: &[u8]) -> String {
    match before {
        [] => "'='".into(),
        _ => brief(before),
    }
}
