//! The lines of a text, and the values of a line.

use std::ops::Range;

/// A line without its byte 10.
#[derive(Clone, Copy, Debug)]
pub struct Line<'a> {
    pub bytes: &'a [u8],
    /// Whether byte 10 ends it; what stands behind the last byte 10 is the last line, and may be empty.
    pub ended: bool,
}

/// The lines of a text, what stands behind its last byte 10 being one.
pub fn lines(text: &[u8]) -> impl Iterator<Item = Line<'_>> {
    let mut left = text.len();
    text.split(|&byte| byte == b'\n').map(move |bytes| {
        let ended = bytes.len() < left;
        left = left.saturating_sub(bytes.len() + 1);
        Line { bytes, ended }
    })
}

/// The line of a number, counted from 1.
pub fn line_at(text: &[u8], number: u64) -> Option<Line<'_>> {
    let before = usize::try_from(number.checked_sub(1)?).ok()?;
    lines(text).nth(before)
}

/// What stands before the first `=` of a line.
pub fn key_of(line: &[u8]) -> Option<&[u8]> {
    let at = line.iter().position(|&byte| byte == b'=')?;
    Some(&line[..at])
}

/// The bytes behind a line's first `=`; all of it where there is none.
pub fn behind_key(line: &[u8]) -> Range<usize> {
    let from = key_of(line).map_or(0, |key| key.len() + 1);
    from..line.len()
}

/// The places of a line's values, which commas part; there is always one, which may be empty.
pub fn values(line: &[u8]) -> impl Iterator<Item = Range<usize>> + '_ {
    let mut from = behind_key(line).start;
    line[from..].split(|&byte| byte == b',').map(move |value| {
        let place = from..from + value.len();
        from = place.end + 1;
        place
    })
}

/// The number that decimal digits have, with a minus or without; the nearest there is if it is too large.
pub fn number(value: &[u8]) -> Option<i64> {
    let (digits, sign) = match value.strip_prefix(b"-") {
        Some(digits) => (digits, -1),
        None => (value, 1),
    };
    if digits.is_empty() {
        return None;
    }
    let mut number = 0_i64;
    for &byte in digits {
        let digit = char::from(byte).to_digit(10)?;
        number = number.saturating_mul(10).saturating_add(digit.into());
    }
    Some(sign * number)
}

#[cfg(test)]
mod tests {
    use super::*;

    #[test]
    fn the_last_line_is_what_stands_behind_the_last_byte_10() {
        let all = |text: &'static [u8]| -> Vec<_> {
            lines(text).map(|line| (line.bytes, line.ended)).collect()
        };
        assert_eq!(all(b""), [(&b""[..], false)]);
        assert_eq!(all(b"a"), [(&b"a"[..], false)]);
        assert_eq!(all(b"a\n"), [(&b"a"[..], true), (b"", false)]);
        assert_eq!(
            all(b"\n\nb"),
            [(&b""[..], true), (b"", true), (b"b", false)]
        );
        assert!(line_at(b"a\n", 0).is_none() && line_at(b"a\n", 3).is_none());
        assert!(line_at(b"a\n", u64::MAX).is_none());
    }

    #[test]
    fn values_have_their_places() {
        let all = |line: &'static [u8]| values(line).collect::<Vec<_>>();
        assert_eq!(all(b"run=0,20"), [4..5, 6..8]);
        assert_eq!(all(b"run="), vec![4..4]);
        assert_eq!(all(b"run=,"), [4..4, 5..5]);
        assert_eq!(all(b"no key"), vec![0..6]);
    }

    #[test]
    fn numbers_of_any_length_are_read() {
        assert_eq!(number(b"-15"), Some(-15));
        assert_eq!(number(b"99999999999999999999999"), Some(i64::MAX));
        assert_eq!(number(b"-99999999999999999999999"), Some(-i64::MAX));
        for value in [&b""[..], b"-", b"+1", b"1.0", b" 1"] {
            assert_eq!(number(value), None);
        }
    }
}
