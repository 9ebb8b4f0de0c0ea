//! Lodges each file named, a text to a file, in one docket: prints the line of each answer, then the report.
//!
//!     cargo run --offline --release --manifest-path hosts/rust/Cargo.toml --example lodge_files -- FILE..

use docket::{Docket, MOST_TEXT};
use std::env;
use std::ffi::OsString;
use std::fs::File;
use std::io::{self, Read, Write};
use std::path::Path;
use std::process::ExitCode;

/// The bytes of a file, one more than a text may have at most: enough to have it refused.
fn read(path: &Path) -> io::Result<Vec<u8>> {
    let mut text = Vec::new();
    let most = MOST_TEXT as u64 + 1;
    File::open(path)?.take(most).read_to_end(&mut text)?;
    Ok(text)
}

/// Lodges the files in turn; what went wrong, in a sentence.
fn lodge_files(names: &[OsString]) -> Result<(), String> {
    let mut output = io::stdout().lock();
    let mut docket = Docket::new();
    let unwritten = |why| format!("The answers cannot be written: {why}.");
    for name in names {
        let path = Path::new(name);
        let text =
            read(path).map_err(|why| format!("{} cannot be read: {why}.", path.display()))?;
        writeln!(output, "{}", docket.lodge(&text)).map_err(unwritten)?;
    }
    write!(output, "{}", docket.report()).map_err(unwritten)
}

fn main() -> ExitCode {
    let names: Vec<OsString> = env::args_os().skip(1).collect();
    if names.is_empty() {
        eprintln!("usage: lodge_files FILE..");
        return ExitCode::from(2);
    }
    match lodge_files(&names) {
        Ok(()) => ExitCode::SUCCESS,
        Err(why) => {
            eprintln!("{why}");
            ExitCode::FAILURE
        }
    }
}
