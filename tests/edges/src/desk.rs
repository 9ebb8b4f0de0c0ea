//! What the orders work on, and the orders.

use crate::given::Given;
use crate::show::{answer_shown, report_shown, taken_shown};
use second::capacity_taken;

/// One byte more than a text may have.
const ROOM: usize = 1_048_577;

/// The docket in hand and those that are kept under 1 to 7, the text, and the lines so far.
#[derive(Default)]
pub struct Desk {
    dockets: [Given; 8],
    text: Vec<u8>,
    pub lines: Vec<String>,
}

impl Desk {
    /// Carries out the line, or shows that it is no order.
    pub fn run(&mut self, line: &str) {
        if self.carried_out(line).is_none() {
            self.lines.push(format!("not understood: {line}"));
        }
    }

    fn carried_out(&mut self, line: &str) -> Option<()> {
        let (word, rest) = parted(line);
        match word {
            _ if line.is_empty() || line.starts_with('#') => Some(()),
            "text" if !rest.is_empty() => self.extend(0, bytes_of(rest)),
            "more" if !rest.is_empty() => self.extend(self.text.len(), bytes_of(rest)),
            "fill" => self.fill(rest),
            "cut" => self.cut(number(rest)?),
            "lodge" if !rest.is_empty() => self.lodge(rest),
            "give" if line == word => self.give(),
            "ask" => self.ask(rest),
            "units" => self.units(rest),
            "fresh" if line == word => self.take(Given::default()),
            "keep" => self.keep(kept(rest)?),
            "take" => self.take(self.dockets.get(kept(rest)?)?.clone()),
            "set" => self.take(self.dockets[0].clone().set(rest)?),
            _ => None,
        }
    }

    /// The text is its first `size` bytes, and then these.
    fn extend(&mut self, size: usize, bytes: Vec<u8>) -> Option<()> {
        if size + bytes.len() > ROOM {
            return None;
        }
        self.text.truncate(size);
        self.text.extend(bytes);
        Some(())
    }

    fn fill(&mut self, rest: &str) -> Option<()> {
        let (size, byte) = parted(rest);
        let size = number(size)?;
        let &[byte] = bytes_of(byte).as_slice() else {
            return None;
        };
        if size < self.text.len() || ROOM < size {
            return None;
        }
        self.text.resize(size, byte);
        Some(())
    }

    fn cut(&mut self, size: usize) -> Option<()> {
        if self.text.len() < size {
            return None;
        }
        self.text.truncate(size);
        Some(())
    }

    fn lodge(&mut self, name: &str) -> Option<()> {
        let answer = self.dockets[0].lodge(&self.text);
        let holds = self.dockets[0].shown();
        self.lines
            .push(format!("{name}: {}; {holds}", answer_shown(answer)));
        Some(())
    }

    fn give(&mut self) -> Option<()> {
        self.dockets[0].lodge(&self.text);
        Some(())
    }

    fn ask(&mut self, rest: &str) -> Option<()> {
        let (size, rest) = parted(rest);
        let (place, name) = parted(rest);
        let (size, place) = (number(size)?, number(place)?);
        if 160 < size || name.is_empty() {
            return None;
        }
        self.lines.push(format!(
            "{name}: {}",
            report_shown(self.dockets[0].judged(), size, place)
        ));
        Some(())
    }

    fn units(&mut self, rest: &str) -> Option<()> {
        let (period, rest) = parted(rest);
        let (most, name) = parted(rest);
        let (period, most) = (number(period)?, number(most)?);
        if name.is_empty() {
            return None;
        }
        let fixed: Vec<u8> = self.text.iter().map(status_of).collect();
        let answer = capacity_taken(&self.dockets[0].judged(), period, most, &fixed);
        self.lines.push(format!("{name}: {}", taken_shown(answer)));
        Some(())
    }

    fn keep(&mut self, place: usize) -> Option<()> {
        *self.dockets.get_mut(place)? = self.dockets[0].clone();
        Some(())
    }

    fn take(&mut self, docket: Given) -> Option<()> {
        self.dockets[0] = docket;
        Some(())
    }
}

/// The first word, and what follows it and a space.
pub fn parted(line: &str) -> (&str, &str) {
    line.split_once(' ').unwrap_or((line, ""))
}

/// The number that the word is, without leading zeros or a plus.
pub fn number<N: std::str::FromStr + ToString>(word: &str) -> Option<N> {
    word.parse()
        .ok()
        .filter(|number: &N| number.to_string() == word)
}

/// The number under which a docket is kept, from 1 on.
fn kept(word: &str) -> Option<usize> {
    number(word).filter(|&place| place != 0)
}

/// The bytes that a line gives, byte 10 for each slash.
fn bytes_of(line: &str) -> Vec<u8> {
    line.bytes()
        .map(|byte| if byte == b'/' { 10 } else { byte })
        .collect()
}

/// The status that a byte of the text stands for: 0, 1 and 2 for the digits 0, 1 and 2.
fn status_of(byte: &u8) -> u8 {
    byte.wrapping_sub(48)
}
