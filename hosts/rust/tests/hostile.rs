//! Bytes that are no texts: each gets an answer, and it is the second implementation's.
mod common;

use common::both::Both;
use common::{example, read, repository, texts};
use docket::MOST_TEXT;

/// Document 01's example, and the one with a ramp leaf.
fn examples() -> [Vec<u8>; 2] {
    [example(), read(&repository("examples/ramps.txt"))]
}

/// Dockets that hold nothing, a problem, and all that the example has.
fn dockets(texts: &[&[u8]]) -> [Both; 3] {
    [0, 1, texts.len()].map(|count| Both::after(&texts[..count]))
}

/// Fails where the answers to a text differ, with what the text is.
fn same_answer(both: &mut Both, text: &[u8], what: impl Fn() -> String) {
    if let Err(why) = both.lodge(text) {
        panic!("{}: {why}", what());
    }
}

#[test]
fn runs_of_every_byte() {
    for mut both in dockets(&texts(&example())) {
        for byte in 0..=255 {
            for length in [0, 1, 2, 15, 16, 127, 128, 129, 65_537] {
                let text = vec![byte; length];
                same_answer(&mut both, &text, || format!("{length} of byte {byte}"));
            }
        }
    }
}

#[test]
fn runs_of_every_byte_as_long_as_a_text_may_be_and_longer() {
    let mut both = Both::new();
    for byte in 0..=255 {
        for length in [MOST_TEXT, MOST_TEXT + 1] {
            let text = vec![byte; length];
            same_answer(&mut both, &text, || format!("{length} of byte {byte}"));
        }
    }
}

#[test]
fn texts_with_any_one_byte_changed() {
    for example in examples() {
        let texts = texts(&example);
        for (k, text) in texts.iter().enumerate() {
            let before = Both::after(&texts[..k]);
            for at in 0..text.len() {
                let mut changed = text.to_vec();
                for byte in 0..=255 {
                    changed[at] = byte;
                    let what = || format!("text {}, byte {at} changed to {byte}", k + 1);
                    same_answer(&mut before.clone(), &changed, what);
                }
            }
        }
    }
}

#[test]
fn texts_cut_short_or_with_a_byte_more() {
    for example in examples() {
        let texts = texts(&example);
        for (k, text) in texts.iter().enumerate() {
            let before = Both::after(&texts[..k]);
            for at in 0..=text.len() {
                let what = |done: &str| format!("text {} {done} at byte {at}", k + 1);
                same_answer(&mut before.clone(), &text[..at], || what("cut"));
                for byte in [0, b'\n', b'\r', b' ', b',', b'0', b'9', b'-', b'=', 255] {
                    let mut longer = text.to_vec();
                    longer.insert(at, byte);
                    same_answer(&mut before.clone(), &longer, || what("longer"));
                }
            }
        }
    }
}
