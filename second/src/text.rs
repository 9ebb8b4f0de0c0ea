//! Lines and numerals (document 01, "Texts").

use crate::refusal::Refusal;

/// Longer texts are refused by 11.
pub const LONGEST_TEXT: usize = 1_048_576;

/// Numerals stop growing here. It lies beyond every range of document 01, so such a value is
/// out of range (13) however long its numeral is.
const BEYOND_EVERY_RANGE: i64 = 1_000_000_000_000;

/// A text and the place where its next line starts.
pub struct Reader<'a> {
    text: &'a [u8],
    next: usize,
    lines_taken: usize,
}

/// One line without its byte 10, and its number counted from 1.
#[derive(Clone, Copy)]
pub struct Line<'a> {
    pub bytes: &'a [u8],
    pub number: usize,
}

impl<'a> Reader<'a> {
    pub fn new(text: &'a [u8]) -> Reader<'a> {
        Reader {
            text,
            next: 0,
            lines_taken: 0,
        }
    }

    /// The next line; 12 at the number it would have if it is missing or not ended by byte 10.
    pub fn take(&mut self) -> Result<Line<'a>, Refusal> {
        let rest = &self.text[self.next..];
        let number = self.lines_taken + 1;
        match rest.iter().position(|&byte| byte == b'\n') {
            None => Err(Refusal::at_line(12, number)),
            Some(length) => {
                self.next += length + 1;
                self.lines_taken = number;
                Ok(Line {
                    bytes: &rest[..length],
                    number,
                })
            }
        }
    }

    /// The number of the line taken last; 0 before the first.
    pub fn line_taken(&self) -> usize {
        self.lines_taken
    }

    /// The last line of a text: these words to the letter, and no byte after them (12).
    pub fn take_end(&mut self, words: &str) -> Result<(), Refusal> {
        let line = self.take()?;
        if line.bytes != words.as_bytes() {
            return Err(line.refuse(12));
        }
        if self.next != self.text.len() {
            return Err(Refusal::at_line(12, line.number + 1));
        }
        Ok(())
    }

    /// A line of `count` values, each from `low` to `high`.
    pub fn take_row(
        &mut self,
        key: &str,
        count: usize,
        low: i64,
        high: i64,
    ) -> Result<Vec<i64>, Refusal> {
        self.take()?.row(key, count, low, high)
    }

    /// A line of one value from `low` to `high`.
    pub fn take_one(&mut self, key: &str, low: i64, high: i64) -> Result<i64, Refusal> {
        Ok(self.take_row(key, 1, low, high)?[0])
    }
}

impl Line<'_> {
    pub fn refuse(&self, number: u32) -> Refusal {
        Refusal::at_line(number, self.number)
    }

    /// Whether the line begins with this key and an equals sign.
    pub fn has_key(&self, key: &str) -> bool {
        self.after_key(key).is_some()
    }

    fn after_key(&self, key: &str) -> Option<&[u8]> {
        self.bytes
            .strip_prefix(key.as_bytes())?
            .strip_prefix(b"=".as_slice())
    }

    /// All values of the line, or 12. Only the value at place `signed` (from 0) may carry a minus.
    pub fn values(&self, key: &str, signed: Option<usize>) -> Result<Vec<i64>, Refusal> {
        let joined = self.after_key(key).ok_or(self.refuse(12))?;
        let mut values = Vec::new();
        for (place, numeral) in joined.split(|&byte| byte == b',').enumerate() {
            let value = read_numeral(numeral, signed == Some(place));
            values.push(value.ok_or(self.refuse(12))?);
        }
        Ok(values)
    }

    /// 14 unless there are `count` values.
    pub fn check_count(&self, values: &[i64], count: usize) -> Result<(), Refusal> {
        if values.len() == count {
            Ok(())
        } else {
            Err(self.refuse(14))
        }
    }

    /// 13 unless the value lies from `low` to `high`.
    pub fn check_range(&self, value: i64, low: i64, high: i64) -> Result<(), Refusal> {
        if low <= value && value <= high {
            Ok(())
        } else {
            Err(self.refuse(13))
        }
    }

    /// `count` values without a minus, each from `low` to `high`: 12, then 14, then 13.
    pub fn row(&self, key: &str, count: usize, low: i64, high: i64) -> Result<Vec<i64>, Refusal> {
        let values = self.values(key, None)?;
        self.check_count(&values, count)?;
        for &value in &values {
            self.check_range(value, low, high)?;
        }
        Ok(values)
    }
}

/// A decimal number without leading zeros, held at `BEYOND_EVERY_RANGE` if it is larger.
/// A minus is read only where it is permitted, and never before 0.
fn read_numeral(numeral: &[u8], minus_permitted: bool) -> Option<i64> {
    match numeral.strip_prefix(b"-") {
        None => read_digits(numeral),
        Some(digits) if minus_permitted && digits != b"0" => Some(-read_digits(digits)?),
        Some(_) => None,
    }
}

fn read_digits(digits: &[u8]) -> Option<i64> {
    if digits.is_empty() || (digits.len() > 1 && digits[0] == b'0') {
        return None;
    }
    let mut value = 0;
    for &digit in digits {
        if !digit.is_ascii_digit() {
            return None;
        }
        value = (value * 10 + i64::from(digit - b'0')).min(BEYOND_EVERY_RANGE);
    }
    Some(value)
}

#[cfg(test)]
mod tests {
    use super::*;

    #[test]
    fn numerals_without_a_minus() {
        for (numeral, value) in [
            ("0", Some(0)),
            ("7", Some(7)),
            ("10", Some(10)),
            ("1000000000", Some(1_000_000_000)),
            ("1000000001", Some(1_000_000_001)),
            ("999999999999", Some(999_999_999_999)),
            ("1000000000001", Some(BEYOND_EVERY_RANGE)),
            ("18446744073709551617", Some(BEYOND_EVERY_RANGE)),
            ("00", None),
            ("01", None),
            ("", None),
            ("-1", None),
            ("-0", None),
            ("+1", None),
            ("1 ", None),
            (" 1", None),
            ("1\r", None),
            ("1.0", None),
            ("1e3", None),
            ("0x1", None),
        ] {
            assert_eq!(read_numeral(numeral.as_bytes(), false), value, "{numeral}");
        }
    }

    #[test]
    fn numerals_where_a_minus_is_permitted() {
        for (numeral, value) in [
            ("-1", Some(-1)),
            ("-1000", Some(-1000)),
            ("5", Some(5)),
            ("0", Some(0)),
            ("-99999999999999999999999999", Some(-BEYOND_EVERY_RANGE)),
            ("-0", None),
            ("-00", None),
            ("-05", None),
            ("-", None),
            ("--5", None),
            ("5-", None),
            ("", None),
        ] {
            assert_eq!(read_numeral(numeral.as_bytes(), true), value, "{numeral}");
        }
    }

    #[test]
    fn a_numeral_of_any_length_is_read() {
        let long = vec![b'9'; 500_000];
        assert_eq!(read_numeral(&long, false), Some(BEYOND_EVERY_RANGE));
    }
}
