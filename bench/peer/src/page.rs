//! Bytes put one after the other into a lent buffer.

pub struct Page<'a> {
    bytes: &'a mut [u8],
    len: usize,
}

/// The most digits of a number of 64 bits.
const MOST_DIGITS: usize = 20;

impl<'a> Page<'a> {
    pub fn new(bytes: &'a mut [u8]) -> Page<'a> {
        Page { bytes, len: 0 }
    }

    pub fn len(&self) -> usize {
        self.len
    }

    #[inline(always)]
    pub fn put(&mut self, word: &[u8]) {
        let end = self.len + word.len();
        self.bytes[self.len..end].copy_from_slice(word);
        self.len = end;
    }

    pub fn put_number(&mut self, mut v: u64) {
        if v < 10 {
            return self.put(&[b'0' + v as u8]);
        }
        let mut digits = [0; MOST_DIGITS];
        let mut at = MOST_DIGITS;
        while v > 0 {
            at -= 1;
            digits[at] = b'0' + (v % 10) as u8;
            v /= 10;
        }
        self.put(&digits[at..]);
    }

    pub fn put_signed(&mut self, v: i64) {
        if v < 0 {
            self.put(b"-");
        }
        self.put_number(v.unsigned_abs());
    }
}
