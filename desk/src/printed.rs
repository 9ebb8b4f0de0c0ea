//! Bytes of texts and file names as they are printed: nothing that a terminal would obey.

use std::fmt::Write;
use std::ops::Range;

/// A quoted line has at most so many columns.
const WIDTH: usize = 76;
/// So many columns of a long line stand before the mark.
const BEFORE: usize = 40;

/// The bytes, those outside 32 to 126 as `\xNN`.
pub fn shown(bytes: &[u8]) -> String {
    let mut text = String::new();
    for &byte in bytes {
        push(&mut text, byte);
    }
    text
}

fn push(text: &mut String, byte: u8) {
    match byte {
        32..=126 => text.push(char::from(byte)),
        _ => {
            let _ = write!(text, "\\x{byte:02x}");
        }
    }
}

fn columns(byte: u8) -> usize {
    match byte {
        32..=126 => 1,
        _ => 4,
    }
}

/// The line as it is printed, and under it a mark below some of its bytes, or below the place after its last. A long line is
/// shortened round the mark.
pub fn quoted(line: &[u8], mark: Option<Range<usize>>) -> (String, Option<String>) {
    let marked = mark.clone().unwrap_or(0..0);
    let first = marked.start.min(line.len());
    let from = start_of(line, first);
    let mut text = String::new();
    if from > 0 {
        text.push_str("..");
    }
    let (mut carets, mut at) = (0..0, from);
    while at < line.len() && text.len() + columns(line[at]) <= WIDTH {
        if at == first {
            carets = text.len()..text.len();
        }
        push(&mut text, line[at]);
        if (first..marked.end).contains(&at) {
            carets.end = text.len();
        }
        at += 1;
    }
    if first >= at {
        carets = text.len()..text.len();
    }
    if at < line.len() {
        text.push_str("..");
    }
    let under = mark.map(|_| {
        let width = carets.len().max(1);
        format!("{}{}", " ".repeat(carets.start), "^".repeat(width))
    });
    (text, under)
}

/// The first byte of a line that is printed where the mark begins at a byte.
fn start_of(line: &[u8], mark: usize) -> usize {
    let all: usize = line.iter().map(|&byte| columns(byte)).sum();
    if all <= WIDTH {
        return 0;
    }
    let (mut from, mut room) = (mark, BEFORE);
    while from > 0 && columns(line[from - 1]) <= room {
        room -= columns(line[from - 1]);
        from -= 1;
    }
    from
}

/// So many of something, as `1 text` and `3 texts`.
pub fn count(number: u64, what: &str) -> String {
    let end = if number == 1 { "" } else { "s" };
    format!("{number} {what}{end}")
}

/// The bytes as a string of JSON: each byte is the character of its number.
pub fn json(bytes: &[u8]) -> String {
    let mut text = String::from("\"");
    for &byte in bytes {
        match byte {
            b'"' | b'\\' => {
                text.push('\\');
                text.push(char::from(byte));
            }
            b'\n' => text.push_str("\\n"),
            32..=126 => text.push(char::from(byte)),
            _ => {
                let _ = write!(text, "\\u{byte:04x}");
            }
        }
    }
    text.push('"');
    text
}

/// An object of JSON with these fields, whose values are JSON.
pub fn object(fields: &[(&str, String)]) -> String {
    let fields: Vec<String> = fields
        .iter()
        .map(|(name, value)| format!("\"{name}\":{value}"))
        .collect();
    format!("{{{}}}", fields.join(","))
}

/// A list of JSON with these values, which are JSON.
pub fn list(values: impl IntoIterator<Item = impl ToString>) -> String {
    let values: Vec<String> = values.into_iter().map(|value| value.to_string()).collect();
    format!("[{}]", values.join(","))
}

/// The value, or `null` where there is none.
pub fn or_null(value: Option<impl ToString>) -> String {
    value.map_or("null".into(), |value| value.to_string())
}

#[cfg(test)]
mod tests {
    use super::{json, quoted, shown};

    #[test]
    fn no_byte_reaches_a_terminal_that_is_not_printable() {
        let all: Vec<u8> = (0..=255).collect();
        assert!(shown(&all).bytes().all(|byte| (32..=126).contains(&byte)));
        assert!(json(&all).bytes().all(|byte| (32..=126).contains(&byte)));
        assert_eq!(shown(b"a\x1b[2J\xff"), "a\\x1b[2J\\xff");
        assert_eq!(json(b"a\"\\\n\t\xff"), "\"a\\\"\\\\\\n\\u0009\\u00ff\"");
    }

    #[test]
    fn a_mark_stands_under_the_bytes() {
        let (line, under) = quoted(b"run=0,\t20", Some(6..7));
        assert_eq!(line, "run=0,\\x0920");
        assert_eq!(under.as_deref(), Some("      ^^^^"));
        let (line, under) = quoted(b"run=0", Some(5..5));
        assert_eq!((line.as_str(), under.as_deref()), ("run=0", Some("     ^")));
        assert_eq!(quoted(b"", Some(0..0)), (String::new(), Some("^".into())));
        assert_eq!(quoted(b"run=0", None), ("run=0".into(), None));
    }

    #[test]
    fn a_long_line_is_shortened_round_the_mark() {
        for length in [0, 1, 75, 76, 77, 200, 100_000] {
            for byte in [b'x', 0] {
                let mut line = vec![byte; length];
                for at in [0, 1, 39, 40, 41, 76, 150, 199, 99_999] {
                    if at < length {
                        line[at] = b'!';
                        let (text, under) = quoted(&line, Some(at..at + 1));
                        let column = under.expect("a mark").find('^').expect("a mark");
                        assert_eq!(&text[column..column + 1], "!");
                        assert!(text.len() <= 80, "{}", text.len());
                        line[at] = byte;
                    }
                }
            }
        }
    }
}
