//! The listing of a whole input at once.

use crate::sys;
use std::fmt;

/// Texts are lodged from an input of at most so many bytes; a longer one gets the one answer 11.
pub const MOST_INPUT: usize = 65_536;

/// The output must have so many bytes or more: every listing fits.
pub const OUTPUT_BYTES: usize = 1_048_576;

/// Why there is no listing.
#[derive(Clone, Copy, Debug, PartialEq, Eq)]
pub enum Error {
    /// The output has fewer than [`OUTPUT_BYTES`] bytes; they are as they were.
    OutputTooSmall,
}

impl fmt::Display for Error {
    fn fmt(&self, f: &mut fmt::Formatter) -> fmt::Result {
        write!(f, "the output has fewer than {OUTPUT_BYTES} bytes")
    }
}

impl std::error::Error for Error {}

/// How many bytes, from the output's start, are the input's listing: a line for each answer, then the report. The bytes after
/// them are as they were. Nothing is allocated, no state is kept, and threads may call at once.
pub fn listing(input: &[u8], output: &mut [u8]) -> Result<usize, Error> {
    match sys::listing(input, output) {
        sys::TOO_SMALL => Err(Error::OutputTooSmall),
        written => Ok(written),
    }
}

/// The input's listing.
///
/// ```
/// let text = docket::listing_of(b"kind=problem\nperiods=0\n");
/// assert!(text.starts_with(b"answer=refused,13,2,0,0\nkind=report\n"));
/// ```
pub fn listing_of(input: &[u8]) -> Vec<u8> {
    let mut output = vec![0; OUTPUT_BYTES];
    let written = listing(input, &mut output).expect("the output has OUTPUT_BYTES bytes");
    output.truncate(written);
    output.shrink_to_fit();
    output
}
