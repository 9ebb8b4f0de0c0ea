//! SHA-256, as FIPS 180-4 has it.

use std::fmt;

/// The sum of some bytes; it is printed as 64 hexadecimal digits.
#[derive(Clone, Copy, Debug, PartialEq, Eq)]
pub struct Sum([u8; 32]);

impl fmt::Display for Sum {
    fn fmt(&self, f: &mut fmt::Formatter) -> fmt::Result {
        self.0.iter().try_for_each(|byte| write!(f, "{byte:02x}"))
    }
}

/// The sum of some bytes.
pub fn sum(bytes: &[u8]) -> Sum {
    let mut state = first_state();
    let mut blocks = bytes.chunks_exact(64);
    for block in blocks.by_ref() {
        take(&mut state, block);
    }
    // the last bytes, a bit 1, zeros up to the end of a block, and before it the length in bits
    let rest = blocks.remainder();
    let mut last = [0; 128];
    last[..rest.len()].copy_from_slice(rest);
    last[rest.len()] = 0x80;
    let end = if rest.len() < 56 { 64 } else { 128 };
    let bits = (bytes.len() as u64).wrapping_mul(8);
    last[end - 8..end].copy_from_slice(&bits.to_be_bytes());
    for block in last[..end].chunks_exact(64) {
        take(&mut state, block);
    }
    let mut sum = [0; 32];
    for (part, word) in sum.chunks_exact_mut(4).zip(state) {
        part.copy_from_slice(&word.to_be_bytes());
    }
    Sum(sum)
}

/// One block of 64 bytes.
fn take(state: &mut [u32; 8], block: &[u8]) {
    let mut words = [0_u32; 64];
    for (word, bytes) in words.iter_mut().zip(block.chunks_exact(4)) {
        *word = u32::from_be_bytes([bytes[0], bytes[1], bytes[2], bytes[3]]);
    }
    for t in 16..64 {
        let (x, y) = (words[t - 15], words[t - 2]);
        let small0 = x.rotate_right(7) ^ x.rotate_right(18) ^ (x >> 3);
        let small1 = y.rotate_right(17) ^ y.rotate_right(19) ^ (y >> 10);
        words[t] = small1
            .wrapping_add(words[t - 7])
            .wrapping_add(small0)
            .wrapping_add(words[t - 16]);
    }
    let [mut a, mut b, mut c, mut d, mut e, mut f, mut g, mut h] = *state;
    for (word, key) in words.iter().zip(&KEYS) {
        let large1 = e.rotate_right(6) ^ e.rotate_right(11) ^ e.rotate_right(25);
        let one = h
            .wrapping_add(large1)
            .wrapping_add((e & f) ^ (!e & g))
            .wrapping_add(*key)
            .wrapping_add(*word);
        let large0 = a.rotate_right(2) ^ a.rotate_right(13) ^ a.rotate_right(22);
        let two = large0.wrapping_add((a & b) ^ (a & c) ^ (b & c));
        (h, g, f, e) = (g, f, e, d.wrapping_add(one));
        (d, c, b, a) = (c, b, a, one.wrapping_add(two));
    }
    for (word, new) in state.iter_mut().zip([a, b, c, d, e, f, g, h]) {
        *word = word.wrapping_add(new);
    }
}

/// The first 32 bits of the fractional parts of the square roots of the first eight primes.
fn first_state() -> [u32; 8] {
    const STATE: [u32; 8] = {
        let mut words = [0; 8];
        let mut k = 0;
        while k < 8 {
            words[k] = root(PRIMES[k] << 64, 2);
            k += 1;
        }
        words
    };
    STATE
}

/// The first 32 bits of the fractional parts of the cube roots of the first 64 primes.
const KEYS: [u32; 64] = {
    let mut words = [0; 64];
    let mut k = 0;
    while k < 64 {
        words[k] = root(PRIMES[k] << 96, 3);
        k += 1;
    }
    words
};

const PRIMES: [u128; 64] = {
    let mut primes = [0; 64];
    let (mut k, mut n) = (0, 2);
    while k < 64 {
        let mut d = 2;
        while n % d != 0 {
            d += 1;
        }
        if d == n {
            primes[k] = n;
            k += 1;
        }
        n += 1;
    }
    primes
};

/// The last 32 bits of the largest number whose square, or cube, is at most n; n below 2^108.
const fn root(n: u128, degree: u32) -> u32 {
    let (mut low, mut high) = (0, 1 << 37);
    while low + 1 < high {
        let middle: u128 = (low + high) / 2;
        if middle.pow(degree) <= n {
            low = middle;
        } else {
            high = middle;
        }
    }
    low as u32
}

#[cfg(test)]
mod tests {
    use super::{first_state, sum, KEYS};

    /// The examples of the standard, and two at the ends of a block.
    #[test]
    fn the_standards_examples() {
        let long = b"abcdefghbcdefghicdefghijdefghijkefghijklfghijklmghijklmnhijklmnoijklmnopjklmnopqklmnopqrlmnopqrsmnopqrstnopqrstu";
        for (bytes, wanted) in [
            (
                &b"abc"[..],
                "ba7816bf8f01cfea414140de5dae2223b00361a396177a9cb410ff61f20015ad",
            ),
            (
                b"",
                "e3b0c44298fc1c149afbf4c8996fb92427ae41e4649b934ca495991b7852b855",
            ),
            (
                b"abcdbcdecdefdefgefghfghighijhijkijkljklmklmnlmnomnopnopq",
                "248d6a61d20638b8e5c026930c3e6039a33ce45964ff2167f6ecedd419db06c1",
            ),
            (
                long,
                "cf5b16a778af8380036ce59e7b0492370b249b11e8f07a51afac45037afee9d1",
            ),
            (
                &[0xbd],
                "68325720aabd7c82f30f554b313d0570c95accbb7dc4b5aae11204c08ffe732b",
            ),
            (
                &[0xc9, 0x8c, 0x8e, 0x55],
                "7abc22c0ae5af26ce93dbb94433a0e0b2e119d014f8e7f65bd56c61ccccd9504",
            ),
            (
                &[0; 55],
                "02779466cdec163811d078815c633f21901413081449002f24aa3e80f0b88ef7",
            ),
            (
                &[0; 56],
                "d4817aa5497628e7c77e6b606107042bbba3130888c5f47a375e6179be789fbb",
            ),
            (
                &[0; 57],
                "65a16cb7861335d5ace3c60718b5052e44660726da4cd13bb745381b235a1785",
            ),
            (
                &[0; 64],
                "f5a5fd42d16a20302798ef6ed309979b43003d2320d9f0e8ea9831a92759fb4b",
            ),
        ] {
            assert_eq!(sum(bytes).to_string(), wanted);
        }
        let a = vec![b'a'; 1_000_000];
        assert_eq!(
            sum(&a).to_string(),
            "cdc76e5c9914fb9281a1c7e284d73e67f1809a48a497200e046d39ccc7112cd0"
        );
    }

    #[test]
    fn the_constants_are_the_standards() {
        assert_eq!(
            (first_state()[0], first_state()[7]),
            (0x6a09_e667, 0x5be0_cd19)
        );
        assert_eq!(
            (KEYS[0], KEYS[1], KEYS[63]),
            (0x428a_2f98, 0x7137_4491, 0xc671_78f2)
        );
    }
}
