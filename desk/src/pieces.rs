//! The texts of an input: it is cut after each line that begins `end=`, and what is left at its end is a text too.

use docket::MOST_TEXT;
use std::io::{self, ErrorKind, Read};
use std::thread::sleep;
use std::time::Duration;

/// A text of an input.
#[derive(Clone, Debug, PartialEq, Eq)]
pub struct Piece {
    /// The line of the input, counted from 1, on which it begins.
    pub line: u64,
    /// Its bytes; `None` where there are more than [`MOST_TEXT`].
    pub text: Option<Vec<u8>>,
}

/// Cuts an input as it comes in: a text is there as soon as its end line is. One that is too long is there as soon as this is
/// known, and what follows is dropped up to its end line.
pub struct Pieces<R> {
    input: R,
    room: Box<[u8]>,
    /// What of the room was read and is not taken yet.
    read: std::ops::Range<usize>,
    text: Vec<u8>,
    /// Where in the text its last line begins; the lines before it.
    last: usize,
    line: u64,
    first: u64,
    dropping: bool,
}

const END: &[u8] = b"end=";
const ROOM: usize = 65_536;

impl<R: Read> Pieces<R> {
    /// The texts of an input from here on.
    pub fn new(input: R) -> Pieces<R> {
        Pieces {
            input,
            room: vec![0; ROOM].into_boxed_slice(),
            read: 0..0,
            text: Vec::new(),
            last: 0,
            line: 1,
            first: 1,
            dropping: false,
        }
    }

    /// The next text, if there is one more. What was read of a text is none where the input fails.
    pub fn next_text(&mut self) -> io::Result<Option<Piece>> {
        loop {
            if self.read.is_empty() {
                let got = patient(|| self.input.read(&mut self.room))?;
                if got == 0 {
                    let rest = !self.dropping && !self.text.is_empty();
                    return Ok(rest.then(|| self.cut()));
                }
                self.read = 0..got;
            }
            if let Some(piece) = self.take_line() {
                return Ok(Some(piece));
            }
        }
    }

    /// Takes what was read of a line; the text that ends with it, or that is now too long.
    fn take_line(&mut self) -> Option<Piece> {
        let read = &self.room[self.read.clone()];
        let (part, whole) = match read.iter().position(|&byte| byte == b'\n') {
            Some(at) => (&read[..=at], true),
            None => (read, false),
        };
        self.read.start += part.len();
        self.text.extend_from_slice(part);
        let ends = whole && self.text[self.last..].starts_with(END);
        if whole {
            self.line += 1;
        }
        if ends && !self.dropping {
            return Some(self.cut());
        }
        let long = !self.dropping && self.text.len() > MOST_TEXT;
        let piece = long.then_some(Piece {
            line: self.first,
            text: None,
        });
        if ends {
            self.dropping = false;
            self.begin();
        } else if whole {
            self.last = self.text.len();
        }
        self.dropping |= long;
        if self.dropping {
            self.shorten();
        }
        piece
    }

    /// The text up to here.
    fn cut(&mut self) -> Piece {
        let line = self.first;
        let text = std::mem::take(&mut self.text);
        self.begin();
        Piece {
            line,
            text: (text.len() <= MOST_TEXT).then_some(text),
        }
    }

    /// The next text begins here.
    fn begin(&mut self) {
        self.text.clear();
        self.last = 0;
        self.first = self.line;
    }

    /// Of a text that is dropped, only how its last line begins is kept.
    fn shorten(&mut self) {
        let last = self.text.len().min(self.last + END.len());
        self.text.copy_within(self.last..last, 0);
        self.text.truncate(last - self.last);
        self.last = 0;
    }
}

/// What a call gives that is made again where it was interrupted, or where nothing can be read or written just now.
pub fn patient<T>(mut call: impl FnMut() -> io::Result<T>) -> io::Result<T> {
    loop {
        match call() {
            Err(e) if e.kind() == ErrorKind::Interrupted => {}
            Err(e) if e.kind() == ErrorKind::WouldBlock => sleep(Duration::from_millis(2)),
            done => return done,
        }
    }
}
