//! Lists the texts of standard input as document 01's listing program does.
use std::io::{Read, Write};

fn main() -> std::io::Result<()> {
    let mut input = Vec::new();
    std::io::stdin()
        .lock()
        .take(65_537)
        .read_to_end(&mut input)?;
    let mut output = vec![0; 1_048_576];
    let written = peer::listing::<false>(&input, &mut output);
    std::io::stdout().write_all(&output[..written])
}
