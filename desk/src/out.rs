//! What a command prints.

use crate::trouble::Trouble;
use std::io::Write;

/// Standard output, by lines that are gathered and then written at once.
pub struct Out<'a> {
    output: &'a mut dyn Write,
    gathered: Vec<u8>,
    /// What a journal has now, for whoever reads that the output failed.
    pub lodged: Option<String>,
}

/// So many bytes are gathered before they are written.
const ROOM: usize = 65_536;

impl Out<'_> {
    /// Prints to an output.
    pub fn new(output: &mut dyn Write) -> Out<'_> {
        Out {
            output,
            gathered: Vec::new(),
            lodged: None,
        }
    }

    /// Prints a line.
    pub fn line(&mut self, line: &str) -> Result<(), Trouble> {
        self.bytes(line.as_bytes())?;
        self.bytes(b"\n")
    }

    /// Prints bytes as they are.
    pub fn bytes(&mut self, bytes: &[u8]) -> Result<(), Trouble> {
        self.gathered.extend_from_slice(bytes);
        if self.gathered.len() >= ROOM {
            self.flush()?;
        }
        Ok(())
    }

    /// Writes what was gathered.
    pub fn flush(&mut self) -> Result<(), Trouble> {
        let written = self.output.write_all(&self.gathered);
        self.gathered.clear();
        let written = written.and_then(|()| self.output.flush());
        written.map_err(|error| Trouble::Output(error, self.lodged.clone()))
    }
}
