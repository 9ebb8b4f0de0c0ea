//! The listing program: standard input to standard output (document 01, "The listing program").

use std::io::{self, Read, Write};

use second::listing::{listing, MOST_INPUT};

fn main() -> io::Result<()> {
    let mut input = Vec::new();
    // One byte more than the limit tells whether there is more; a read error ends the input.
    let _ = io::stdin()
        .take(MOST_INPUT as u64 + 1)
        .read_to_end(&mut input);
    io::stdout().write_all(&listing(&input))
}
