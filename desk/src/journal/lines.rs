//! The lines of a journal.

use crate::sha256::{sum, Sum};
use docket::MOST_TEXT;

/// The number of the format that is written here.
pub const FORMAT: u64 = 1;

/// Longer than every line of a journal.
pub const MOST_LINE: usize = 256;
const MOST_ANSWER: usize = 128;

/// What the first line says.
#[derive(Clone, Copy, Debug, PartialEq, Eq)]
pub struct Opening {
    /// The number of the format.
    pub format: u64,
    /// The number of the rules by which the texts were judged.
    pub rules: u64,
}

/// What a file's first line is.
#[derive(Clone, Copy, Debug, PartialEq, Eq)]
pub enum First {
    /// That of a journal of this format.
    Is(Opening),
    /// That of a journal of another format.
    Format(u64),
    /// That of a journal, changed.
    Damaged,
    /// Not that of a journal.
    None,
}

/// How the first line begins.
const JOURNAL: &str = "docket journal ";

impl Opening {
    /// Of a journal that is made now.
    pub fn now() -> Opening {
        Opening {
            format: FORMAT,
            rules: docket::rules(),
        }
    }

    fn words(self) -> String {
        let Opening { format, rules } = self;
        format!("{JOURNAL}{format} rules {rules}")
    }

    /// The first line, without its byte 10.
    pub fn line(self) -> String {
        format!("{} {}", self.words(), self.check())
    }

    /// The check of the first line.
    pub fn check(self) -> Sum {
        sum(self.words().as_bytes())
    }

    /// What a file's first line is, without its byte 10.
    pub fn of(line: &[u8]) -> First {
        let Some(rest) = line.strip_prefix(JOURNAL.as_bytes()) else {
            return First::None;
        };
        let text = std::str::from_utf8(rest).unwrap_or_default();
        let words: Vec<&str> = text.split(' ').collect();
        let number = |at: usize| words.get(at).and_then(|word| word.parse().ok());
        let (format, rules) = (number(0), number(2));
        match (format, rules) {
            (Some(format), Some(rules)) => {
                let opening = Opening { format, rules };
                match (opening.line().as_bytes() == line, format == FORMAT) {
                    (true, true) => First::Is(opening),
                    (true, false) => First::Format(format),
                    (false, _) => First::Damaged,
                }
            }
            (Some(format), None) if format != FORMAT => First::Format(format),
            _ => First::Damaged,
        }
    }
}

/// What the line of a record says, but for its check.
#[derive(Clone, Debug, PartialEq, Eq)]
pub enum Said {
    Text {
        length: usize,
        seconds: u64,
        sum: String,
    },
    Answer(String),
}

impl Said {
    fn words(&self) -> String {
        match self {
            Said::Text {
                length,
                seconds,
                sum,
            } => format!("text {length} {seconds} {sum}"),
            Said::Answer(answer) => format!("answer {answer}"),
        }
    }

    /// The check of this line after one with a check.
    pub fn check(&self, before: Sum) -> Sum {
        sum(format!("{before} {}", self.words()).as_bytes())
    }

    /// The line with this check, ended.
    pub fn line(&self, check: Sum) -> Vec<u8> {
        format!("{} {check}\n", self.words()).into_bytes()
    }

    /// What a line says, without its byte 10, if it is one of a record, written only as [`line`](Said::line) writes it; and its check.
    pub fn of(line: &[u8]) -> Option<(Said, &str)> {
        let text = std::str::from_utf8(line).ok()?;
        let (words, check) = text.rsplit_once(' ')?;
        let said = match words.split_once(' ')? {
            ("text", rest) => {
                let mut parts = rest.split(' ');
                Said::Text {
                    length: parts.next()?.parse().ok()?,
                    seconds: parts.next()?.parse().ok()?,
                    sum: parts.next()?.to_string(),
                }
            }
            (_, rest) => Said::Answer(rest.to_string()),
        };
        (said.fits() && said.words() == words).then_some((said, check))
    }

    fn fits(&self) -> bool {
        match self {
            Said::Text { length, sum, .. } => *length <= MOST_TEXT && sum.len() == 64,
            Said::Answer(answer) => {
                (1..=MOST_ANSWER).contains(&answer.len())
                    && answer.bytes().all(|byte| byte.is_ascii_graphic())
            }
        }
    }
}

/// What may stand in a line, one part after the other.
enum Part {
    Word(&'static [u8]),
    Digits,
    Hex,
    Answer,
}

const TEXT: [Part; 8] = [
    Part::Word(b"text "),
    Part::Digits,
    Part::Word(b" "),
    Part::Digits,
    Part::Word(b" "),
    Part::Hex,
    Part::Word(b" "),
    Part::Hex,
];
const ANSWER: [Part; 4] = [
    Part::Word(b"answer "),
    Part::Answer,
    Part::Word(b" "),
    Part::Hex,
];

/// Whether some bytes are how the line of a record begins, of an answer or of a text: all of it but its byte 10 at most.
pub fn begins(bytes: &[u8], answer: bool) -> bool {
    let parts = if answer { &ANSWER[..] } else { &TEXT[..] };
    let mut rest = bytes;
    for part in parts {
        if rest.is_empty() {
            return true;
        }
        let Some(length) = taken(part, rest) else {
            return false;
        };
        rest = &rest[length..];
    }
    rest.is_empty()
}

/// How many bytes are the part, whole or as far as they go.
fn taken(part: &Part, bytes: &[u8]) -> Option<usize> {
    let most = |most: usize, good: fn(&u8) -> bool| {
        let length = bytes
            .iter()
            .take(most)
            .take_while(|byte| good(byte))
            .count();
        (length > 0).then_some(length)
    };
    match part {
        Part::Word(word) => {
            let length = word.len().min(bytes.len());
            (bytes[..length] == word[..length]).then_some(length)
        }
        Part::Digits => most(20, u8::is_ascii_digit),
        Part::Answer => most(MOST_ANSWER, u8::is_ascii_graphic),
        Part::Hex => {
            let length = most(64, u8::is_ascii_hexdigit)?;
            (length == 64 || length == bytes.len()).then_some(length)
        }
    }
}

#[cfg(test)]
mod tests {
    use super::{begins, First, Opening, Said};
    use crate::sha256::sum;

    fn lines() -> [(Said, bool); 2] {
        let text = Said::Text {
            length: 55,
            seconds: 1_795_000_000,
            sum: sum(b"a text").to_string(),
        };
        [(text, false), (Said::Answer("held,1980,1,2".into()), true)]
    }

    #[test]
    fn a_line_is_read_back_and_no_other_way_of_writing_it() {
        for (said, _) in lines() {
            let check = said.check(sum(b"before"));
            let line = said.line(check);
            let line = line.strip_suffix(b"\n").expect("an ended line");
            assert_eq!(Said::of(line), Some((said, check.to_string().as_str())));
        }
        let hex = sum(b"").to_string();
        for line in [
            format!("text 055 1 {hex} {hex}"),
            format!("text 1048577 1 {hex} {hex}"),
            format!("text 1 -1 {hex} {hex}"),
            format!("text +1 1 {hex} {hex}"),
            format!("text 1 1 {hex}"),
            format!("text 1 1 {hex} 1 {hex}"),
            format!("note held {hex}"),
            format!("answer  {hex}"),
            format!("answer held held {hex}"),
            format!("answer \x1b[2J {hex}"),
            format!("answer {} {hex}", "x".repeat(129)),
            String::new(),
        ] {
            assert_eq!(Said::of(line.as_bytes()), None, "{line}");
        }
    }

    #[test]
    fn a_line_begins_at_each_of_its_bytes_and_nothing_else_does() {
        for (said, answer) in lines() {
            let line = said.line(sum(b"check"));
            for at in 0..line.len() {
                assert!(begins(&line[..at], answer));
                assert!(at < 1 || !begins(&line[..at], !answer));
            }
            assert!(!begins(&line, answer));
            for at in 0..line.len() {
                let mut changed = line.clone();
                changed[at] = b'\x0b';
                assert!(!begins(&changed, answer));
            }
        }
    }

    #[test]
    fn the_first_line() {
        let opening = Opening {
            format: 1,
            rules: 12,
        };
        let check = sum(b"docket journal 1 rules 12");
        let line = format!("docket journal 1 rules 12 {check}");
        assert_eq!(opening.line(), line);
        assert_eq!(Opening::of(line.as_bytes()), First::Is(opening));
        let other = Opening {
            format: 2,
            ..opening
        };
        assert_eq!(Opening::of(other.line().as_bytes()), First::Format(2));
        assert_eq!(Opening::of(b"docket journal 2"), First::Format(2));
        for (line, first) in [
            (String::new(), First::None),
            ("docket".into(), First::None),
            ("docket journal 1".into(), First::Damaged),
            ("docket journal 1 rules 12".into(), First::Damaged),
            (
                format!("docket journal 01 rules 12 {check}"),
                First::Damaged,
            ),
            (format!("docket journal 1 rules 13 {check}"), First::Damaged),
            (format!("docket journal 3 rules 12 {check}"), First::Damaged),
            (
                format!("docket journal 1 rules 12 {check} "),
                First::Damaged,
            ),
        ] {
            assert_eq!(Opening::of(line.as_bytes()), first, "{line}");
        }
        assert_eq!(Opening::of(b"docket journal \xff"), First::Damaged);
    }
}
