//! What is wrong with a value that is no whole number in decimal.

use super::called::brief;
use super::{chars, table, Fault};
use std::ops::Range;

/// A value that is looked at: its line, its place there, how it is called, and whether it may carry a minus.
pub struct Given<'a> {
    pub line: &'a [u8],
    pub place: Range<usize>,
    pub name: String,
    pub minus: bool,
    /// What is to be done about a fraction.
    pub fraction: &'static str,
    /// The place of the value before it.
    pub before: Option<Range<usize>>,
}

/// A look at a value for one mistake.
type Look = fn(&Given, &[u8]) -> Option<Fault>;

/// The mistakes that are looked for, in turn.
const LOOKS: [Look; 6] = [empty, strange, spaced, signed, zeros, separated];

/// What is wrong with a value, or nothing.
pub fn fault(given: &Given) -> Option<Fault> {
    let value = &given.line[given.place.clone()];
    if whole(value, given.minus) {
        return None;
    }
    let found = LOOKS.iter().find_map(|look| look(given, value));
    Some(found.unwrap_or_else(|| other(given, value)))
}

/// Whether it is a whole number in decimal as texts have them.
fn whole(value: &[u8], minus: bool) -> bool {
    let digits = match value.strip_prefix(b"-") {
        Some(digits) if minus && digits != b"0" => digits,
        _ => value,
    };
    all_digits(digits) && (digits.len() == 1 || digits[0] != b'0')
}

fn all_digits(value: &[u8]) -> bool {
    !value.is_empty() && value.iter().all(u8::is_ascii_digit)
}

impl Given<'_> {
    /// A fault of the whole value.
    fn reads(&self, value: &[u8], what: &str) -> Fault {
        let words = format!("{} reads {}: {what}", self.name, brief(value));
        Fault::new(self.place.clone(), words)
    }

    /// The digits behind the value that look like more of its thousands: values of three digits that begin with 0.
    fn groups(&self) -> Vec<u8> {
        let rest = self.line.get(self.place.end + 1..).unwrap_or_default();
        let values = rest.split(|&byte| byte == b',');
        let groups =
            values.take_while(|value| value.len() == 3 && all_digits(value) && value[0] == b'0');
        groups.flatten().copied().collect()
    }

    /// A fault of some bytes of the value.
    fn within(&self, place: Range<usize>, words: String) -> Fault {
        let from = self.place.start;
        Fault::new(from + place.start..from + place.end, words)
    }
}

fn empty(given: &Given, value: &[u8]) -> Option<Fault> {
    if !value.is_empty() {
        return None;
    }
    let (at, name) = (given.place.start, &given.name);
    let last = at == given.line.len();
    let (mark, why) = match (given.before.is_some(), last) {
        (false, true) => (at..at, "nothing stands behind '='"),
        (false, false) => (at..at + 1, "a comma stands behind '='"),
        (true, true) => (at - 1..at, "a comma ends the line"),
        (true, false) => (at - 1..at + 1, "two commas stand side by side"),
    };
    Some(Fault::new(mark, format!("{why}, so {name} is empty")))
}

fn strange(given: &Given, value: &[u8]) -> Option<Fault> {
    let (place, what) = chars::strange(value)?;
    if value[place.clone()] == *b"\t" {
        return None;
    }
    let remedy = chars::remedy(&value[place.clone()]);
    let words = format!("{what} stands in {}: {remedy}", given.name);
    Some(given.within(place, words))
}

/// A space or a tab.
fn is_space(byte: &u8) -> bool {
    b" \t".contains(byte)
}

fn spaced(given: &Given, value: &[u8]) -> Option<Fault> {
    let at = value.iter().position(is_space)?;
    let length = value[at..].iter().take_while(|byte| is_space(byte)).count();
    let (place, name) = (at..at + length, &given.name);
    let what = match value[at] {
        b' ' => "a space",
        _ => "a tab (byte 9)",
    };
    let words = if at == 0 {
        format!("{what} stands before {name}: take it out")
    } else if place.end == value.len() {
        format!("{what} stands behind {name}: take it out")
    } else {
        format!("{what} stands inside {name}: {}", parted(value))
    };
    Some(given.within(place, words))
}

/// What is to be written for a value with spaces inside: they part thousands, or values.
fn parted(value: &[u8]) -> String {
    let mut parts = value.split(is_space).filter(|part| !part.is_empty());
    let joined: Vec<u8> = value
        .iter()
        .copied()
        .filter(|byte| !is_space(byte))
        .collect();
    let first = parts.next().unwrap_or_default();
    let groups = first.len() <= 3 && !first.starts_with(b"0") && parts.all(|part| part.len() == 3);
    if !all_digits(&joined) {
        "take it out".into()
    } else if groups && joined.len() <= 10 {
        format!("write {}, or commas between values", brief(&joined))
    } else {
        "write commas between values".into()
    }
}

/// The digits as they are to be written, without leading zeros.
fn plain(digits: &[u8]) -> String {
    let kept = digits.iter().position(|&digit| digit != b'0');
    brief(&digits[kept.unwrap_or(digits.len().saturating_sub(1))..])
}

/// That a minus stands where none may.
fn no_minus() -> String {
    format!(
        "only {} may carry a minus",
        table::with_minus().join(" and ")
    )
}

fn signed(given: &Given, value: &[u8]) -> Option<Fault> {
    let digits = match value {
        [b'+' | b'-'] => return Some(given.reads(value, "a sign with no number behind it")),
        [b'+', digits @ ..] if all_digits(digits) => {
            return Some(given.reads(value, &format!("no plus; write {}", plain(digits))));
        }
        [b'-', digits @ ..] => digits,
        _ => return None,
    };
    let what = if !all_digits(digits) {
        return None;
    } else if digits.iter().all(|&digit| digit == b'0') {
        "0 carries no minus".to_string()
    } else if given.minus {
        return None;
    } else {
        no_minus()
    };
    Some(given.reads(value, &what))
}

fn zeros(given: &Given, value: &[u8]) -> Option<Fault> {
    let (minus, digits) = match value {
        [b'-', digits @ ..] => ("-", digits),
        _ => ("", value),
    };
    if !all_digits(digits) {
        return None;
    }
    let mut what = format!("no leading zeros; write {minus}{}", plain(digits));
    if let (3, "", Some(before)) = (digits.len(), minus, &given.before) {
        let before = &given.line[before.clone()];
        if all_digits(before) && before.len() <= 3 && before[0] != b'0' {
            let number = [before, digits, &given.groups()].concat();
            what.push_str(&format!(", or {} if one number is meant", brief(&number)));
        }
    }
    Some(given.reads(value, &what))
}

/// Signs that stand inside or round numbers elsewhere.
fn separated(given: &Given, value: &[u8]) -> Option<Fault> {
    let digits: Vec<u8> = value.iter().copied().filter(u8::is_ascii_digit).collect();
    let written = plain(&digits);
    let sign_at = value
        .iter()
        .position(|byte| b"_'\"`()[]{}<>;|/:&=".contains(byte))?;
    let place = sign_at..sign_at + 1;
    let sign = char::from(value[sign_at]);
    let inside = sign_at > 0
        && value[sign_at - 1].is_ascii_digit()
        && value.last().is_some_and(u8::is_ascii_digit);
    match sign {
        '_' | '\'' if inside => {
            Some(given.reads(value, &format!("nothing parts thousands; write {written}")))
        }
        '"' | '\'' | '`' => Some(given.reads(value, "no quotes round numbers")),
        ';' | '|' | '/' | ':' | '&' => {
            let words = format!("'{sign}' stands in {}: commas part values", given.name);
            Some(given.within(place, words))
        }
        '=' => {
            let words = format!("a second '=' stands in {}: one line to a key", given.name);
            Some(given.within(place, words))
        }
        '_' => None,
        _ => Some(given.reads(value, "no brackets round numbers")),
    }
}

/// What else is written for a whole number.
fn other(given: &Given, value: &[u8]) -> Fault {
    let unsigned = match value {
        [b'-' | b'+', rest @ ..] => rest,
        _ => value,
    };
    let points = value.iter().filter(|&&byte| byte == b'.').count();
    let number = unsigned
        .first()
        .is_some_and(|byte| byte.is_ascii_digit() || *byte == b'.');
    if value.starts_with(b"-") && number && !given.minus {
        return given.reads(value, &no_minus());
    }
    let what = if unsigned.starts_with(b"0x") || unsigned.starts_with(b"0X") {
        "write it in decimal"
    } else if exponent(unsigned) {
        "write the number out, with no exponent"
    } else if points > 1 && all_digits_but(unsigned, b".") {
        "nothing parts thousands; write the digits alone"
    } else if points == 1 && all_digits_but(unsigned, b".") {
        return given.reads(value, &pointed(given, value));
    } else if unsigned.iter().all(u8::is_ascii_alphabetic) {
        "a word, where a whole number is due"
    } else if unsigned[0].is_ascii_digit() && unsigned.iter().all(u8::is_ascii_alphanumeric) {
        "a number alone is due, with no letters"
    } else {
        "that is no whole number in decimal"
    };
    given.reads(value, what)
}

/// What is said of a number with a point.
fn pointed(given: &Given, value: &[u8]) -> String {
    let (minus, unsigned) = match value {
        [b'-', unsigned @ ..] => ("-", unsigned),
        [b'+', unsigned @ ..] => ("", unsigned),
        _ => ("", value),
    };
    let at = unsigned.iter().position(|&byte| byte == b'.');
    let (whole, part) = unsigned.split_at(at.unwrap_or(unsigned.len()));
    let part = part.get(1..).unwrap_or_default();
    let zeros = all_digits(whole) && part.iter().all(|&digit| digit == b'0');
    let groups = all_digits(whole) && whole.len() <= 3 && whole[0] != b'0' && part.len() == 3;
    let thousands = format!(
        "{minus}{} if the point parts thousands",
        brief(&[whole, part].concat())
    );
    let what = match (zeros, groups, given.fraction) {
        (true, true, _) => format!("write {minus}{}, or {thousands}", plain(whole)),
        (true, false, _) => format!("write {minus}{}", plain(whole)),
        (false, true, "") => format!("write {thousands}"),
        (false, true, fraction) => format!("{fraction}, or write {thousands}"),
        (false, false, "") => return "whole numbers only".into(),
        (false, false, fraction) => fraction.into(),
    };
    format!("whole numbers only; {what}")
}

fn all_digits_but(value: &[u8], others: &[u8]) -> bool {
    let fits = |byte: &u8| byte.is_ascii_digit() || others.contains(byte);
    value.iter().all(fits) && value.iter().any(u8::is_ascii_digit)
}

/// Whether it is a number with an exponent.
fn exponent(value: &[u8]) -> bool {
    let Some(at) = value.iter().position(|byte| b"eE".contains(byte)) else {
        return false;
    };
    let (front, power) = (&value[..at], &value[at + 1..]);
    let power = match power {
        [b'-' | b'+', digits @ ..] => digits,
        _ => power,
    };
    all_digits_but(front, b".") && all_digits(power)
}
