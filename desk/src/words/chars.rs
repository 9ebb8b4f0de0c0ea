//! Bytes that no text has, by their names.

/// Characters that stand where plain ones belong, in UTF-8.
#[rustfmt::skip]
const NAMED: &[(&[&str], &str)] = &[
    (&["\u{feff}"], "a byte-order mark"),
    (&["\u{a0}"], "a no-break space"),
    (&["\u{202f}", "\u{2007}", "\u{2009}", "\u{200a}", "\u{2003}", "\u{2002}", "\u{3000}"], "a Unicode space"),
    (&["\u{200b}", "\u{200c}", "\u{200d}", "\u{2060}"], "an invisible character"),
    (&["\u{2212}"], "a Unicode minus"),
    (&["\u{2010}", "\u{2011}", "\u{ad}"], "a Unicode hyphen"),
    (&["\u{2012}", "\u{2013}", "\u{2014}", "\u{2015}"], "a Unicode dash"),
    (&["\u{2018}", "\u{2019}", "\u{201a}", "\u{201c}", "\u{201d}", "\u{201e}", "\u{ab}", "\u{bb}"], "a Unicode quote"),
    (&["\u{ff0c}", "\u{3001}", "\u{60c}"], "a Unicode comma"),
    (&["\u{ff1d}"], "a Unicode equals sign"),
    (&["\u{85}", "\u{2028}", "\u{2029}"], "a Unicode line end"),
];

/// Single bytes that stand where plain ones belong, in Latin-1 and Windows-1252.
const SINGLE: &[(&[u8], &str)] = &[
    (b"\xa0", "a no-break space"),
    (b"\x96\x97\xad", "a dash"),
    (b"\x91\x92\x93\x94\xab\xbb", "a quote"),
];

/// Control bytes with names.
const CONTROL: &[(u8, &str)] = &[
    (0, "NUL"),
    (9, "a tab"),
    (11, "a vertical tab"),
    (12, "a form feed"),
    (13, "a carriage return"),
    (26, "an end-of-file mark"),
    (27, "an escape"),
];

/// The first bytes that are not printable ASCII: where they stand, and what they are.
pub fn strange(bytes: &[u8]) -> Option<(std::ops::Range<usize>, String)> {
    let at = bytes.iter().position(|byte| !(32..=126).contains(byte))?;
    let (length, name) = name(&bytes[at..]);
    Some((at..at + length, name))
}

/// What to do with bytes that are not printable ASCII.
pub fn remedy(bytes: &[u8]) -> &'static str {
    match bytes.is_ascii() {
        true => "take it out",
        false => "write plain ASCII",
    }
}

/// How many bytes the character at the start has, and what it is.
fn name(bytes: &[u8]) -> (usize, String) {
    let first = bytes.first().copied().unwrap_or_default();
    if first < 128 {
        return (1, control(first));
    }
    let Some(character) = first_character(bytes) else {
        let single = SINGLE.iter().find(|(all, _)| all.contains(&first));
        let name = single.map_or("a character that is no ASCII", |(_, name)| name);
        return (1, format!("{name} (byte {first:02X})"));
    };
    let mut buffer = [0; 4];
    let encoded = character.encode_utf8(&mut buffer);
    let named = NAMED.iter().find(|(all, _)| all.contains(&&*encoded));
    let name = match named {
        Some((_, name)) => name,
        None if character.is_numeric() => "a Unicode digit",
        None => "a character that is no ASCII",
    };
    let bytes: Vec<String> = encoded.bytes().map(|byte| format!("{byte:02X}")).collect();
    (bytes.len(), format!("{name} (bytes {})", bytes.join(" ")))
}

fn control(byte: u8) -> String {
    let name = CONTROL.iter().find(|(number, _)| *number == byte);
    match name {
        Some((_, name)) => format!("{name} (byte {byte})"),
        None => format!("a control byte (byte {byte})"),
    }
}

/// The character in UTF-8 at the start, if there is one.
fn first_character(bytes: &[u8]) -> Option<char> {
    let start = &bytes[..bytes.len().min(4)];
    let valid = match std::str::from_utf8(start) {
        Ok(text) => text,
        Err(error) => std::str::from_utf8(&start[..error.valid_up_to()]).ok()?,
    };
    valid.chars().next()
}

/// How a whole text is coded that is not in ASCII: where its first line shows it, and what it is.
pub fn coding(text: &[u8]) -> Option<(std::ops::Range<usize>, &'static str)> {
    if text.starts_with(b"\xff\xfe") || text.starts_with(b"\xfe\xff") {
        return Some((0..2, "the text is in UTF-16"));
    }
    if text.starts_with(b"\xef\xbb\xbf") {
        return Some((0..3, "a byte-order mark (bytes EF BB BF) stands before it"));
    }
    match text {
        [a, 0, b, 0, ..] if *a != 0 && *b != 0 => Some((1..2, "the text is in UTF-16")),
        [0, a, 0, b, ..] if *a != 0 && *b != 0 => Some((0..1, "the text is in UTF-16")),
        _ => None,
    }
}

#[cfg(test)]
mod tests {
    use super::strange;

    #[test]
    fn bytes_have_names() {
        for (bytes, place, name) in [
            (&b"1\xc2\xa0000"[..], 1..3, "a no-break space (bytes C2 A0)"),
            (b"1\xa0000", 1..2, "a no-break space (byte A0)"),
            (b"\xe2\x88\x922", 0..3, "a Unicode minus (bytes E2 88 92)"),
            (b"\xe2\x88", 0..1, "a character that is no ASCII (byte E2)"),
            (b"\xef\xbc\x91", 0..3, "a Unicode digit (bytes EF BC 91)"),
            (b"\xd9\xa1", 0..2, "a Unicode digit (bytes D9 A1)"),
            (b"a\t", 1..2, "a tab (byte 9)"),
            (b"\x07", 0..1, "a control byte (byte 7)"),
            (b"\x7f", 0..1, "a control byte (byte 127)"),
            (
                b"\xf0\x9f\x98\x80",
                0..4,
                "a character that is no ASCII (bytes F0 9F 98 80)",
            ),
        ] {
            assert_eq!(strange(bytes), Some((place, name.to_string())));
        }
        assert_eq!(strange(b"run=0 ,~"), None);
    }
}
