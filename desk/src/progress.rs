//! How far a long reading is, on a terminal.

use std::io::{self, IsTerminal, Write};
use std::time::{Duration, Instant};

/// Shows on standard error, where that is a terminal, how far a reading is that takes over a second.
pub struct Progress {
    /// How many bytes there are to read.
    pub total: u64,
    name: String,
    next: Option<Instant>,
    shown: bool,
}

const EVERY: Duration = Duration::from_millis(200);

impl Progress {
    /// Of the reading of a journal of this name, as it is printed.
    pub fn new(name: String) -> Progress {
        let terminal = io::stderr().is_terminal();
        Progress {
            total: 0,
            name,
            next: terminal.then(|| Instant::now() + Duration::from_secs(1)),
            shown: false,
        }
    }

    /// None that is ever shown.
    pub fn none() -> Progress {
        Progress {
            total: 0,
            name: String::new(),
            next: None,
            shown: false,
        }
    }

    /// So many texts and bytes were read.
    pub fn show(&mut self, texts: u64, bytes: u64) {
        let (now, Some(next)) = (Instant::now(), self.next) else {
            return;
        };
        if now < next {
            return;
        }
        let share = bytes * 100 / self.total.max(1);
        self.print(&format!("{}: {texts} texts read, {share} %", self.name));
        (self.next, self.shown) = (Some(now + EVERY), true);
    }

    fn print(&self, words: &str) {
        // a terminal that is gone is no reason to stop
        let _ = io::stderr().write_all(format!("\r\x1b[K{words}").as_bytes());
    }
}

impl Drop for Progress {
    fn drop(&mut self) {
        if self.shown {
            self.print("");
        }
    }
}
