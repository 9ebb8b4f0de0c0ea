//! Lines `key=value` of a text.

/// The most values that any line takes.
pub const MOST_VALUES: usize = 48;

/// Every value of more than ten digits reads as this, which is above every range.
const CAP: u64 = 10_000_000_000;

/// A text and the next line's start.
pub struct Lines<'a> {
    pub text: &'a [u8],
    pub at: usize,
    pub line: usize,
    pub values: [u64; MOST_VALUES],
    pub minus: bool,
}

impl<'a> Lines<'a> {
    pub fn new(text: &'a [u8], at: usize, line: usize) -> Lines<'a> {
        Lines {
            text,
            at,
            line,
            values: [0; MOST_VALUES],
            minus: false,
        }
    }

    /// Whether the unread bytes begin with the key.
    #[inline(always)]
    pub fn begins(&self, key: &[u8]) -> bool {
        self.text[self.at..].starts_with(key)
    }

    /// Takes the line if it is this word, which ends with byte 10.
    pub fn take_word(&mut self, word: &[u8]) -> bool {
        if !self.begins(word) {
            return false;
        }
        self.at += word.len();
        self.line += 1;
        true
    }

    /// Whether every byte is read.
    pub fn is_done(&self) -> bool {
        self.at == self.text.len()
    }

    /// Reads the values of the line after its key; the next line's start and the count, or None where a value is malformed
    /// or the line has no end. `signed` is the number of the value that may carry a minus, from 1, or 0.
    #[inline(always)]
    fn scan(&mut self, from: usize, signed: usize) -> Option<(usize, usize)> {
        let text = self.text;
        let mut i = from;
        let mut count = 0;
        self.minus = false;
        loop {
            let mut byte = *text.get(i)?;
            if byte == b'-' && count + 1 == signed {
                self.minus = true;
                i += 1;
                byte = *text.get(i)?;
                if byte == b'0' {
                    return None;
                }
            }
            let begin = i;
            let mut value = byte.wrapping_sub(b'0') as u64;
            if value > 9 {
                return None;
            }
            i += 1;
            byte = *text.get(i)?;
            let mut digit = byte.wrapping_sub(b'0') as u64;
            if digit <= 9 && value == 0 {
                return None;
            }
            while digit <= 9 {
                value = value.wrapping_mul(10).wrapping_add(digit);
                i += 1;
                byte = *text.get(i)?;
                digit = byte.wrapping_sub(b'0') as u64;
            }
            if i - begin > 10 {
                value = CAP;
            }
            if count < MOST_VALUES {
                self.values[count] = value;
            }
            count += 1;
            i += 1;
            match byte {
                b',' => {}
                b'\n' => return Some((i, count)),
                _ => return None,
            }
        }
    }

    /// Takes a line of n values, each from least to most; or the number that refuses it.
    #[inline(always)]
    pub fn take_row(&mut self, key: &[u8], n: usize, least: u64, most: u64) -> Result<(), u64> {
        if !self.begins(key) {
            return Err(12);
        }
        self.take_row_after(key, n, least, most)
    }

    /// Takes such a line, which is known to begin with the key.
    #[inline(always)]
    pub fn take_row_after(
        &mut self,
        key: &[u8],
        n: usize,
        least: u64,
        most: u64,
    ) -> Result<(), u64> {
        let (next, count) = self.scan(self.at + key.len(), 0).ok_or(12u64)?;
        if count != n {
            return Err(14);
        }
        let mut good = true;
        for v in &self.values[..n] {
            good &= least <= *v && *v <= most;
        }
        if !good {
            return Err(13);
        }
        self.at = next;
        self.line += 1;
        Ok(())
    }

    /// Takes a line with a range for each value.
    pub fn take_ranges(
        &mut self,
        key: &[u8],
        signed: usize,
        ranges: &[(u64, u64)],
    ) -> Result<(), u64> {
        if !self.begins(key) {
            return Err(12);
        }
        self.take_ranges_after(key, signed, ranges)
    }

    /// Takes such a line, which is known to begin with the key.
    pub fn take_ranges_after(
        &mut self,
        key: &[u8],
        signed: usize,
        ranges: &[(u64, u64)],
    ) -> Result<(), u64> {
        let (next, count) = self.scan(self.at + key.len(), signed).ok_or(12u64)?;
        if count != ranges.len() {
            return Err(14);
        }
        for (v, range) in self.values.iter().zip(ranges) {
            if *v < range.0 || range.1 < *v {
                return Err(13);
            }
        }
        self.at = next;
        self.line += 1;
        Ok(())
    }
}
