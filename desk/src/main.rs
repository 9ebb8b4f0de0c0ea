//! The program `docket`.

use desk::pieces::patient;
use std::fs::File;
use std::io::{self, Write};
use std::os::fd::AsFd;
use std::process::ExitCode;

/// Standard output as it is: what is written is written at once, or an error says that it is not.
struct Plain(File);

impl Write for Plain {
    fn write(&mut self, bytes: &[u8]) -> io::Result<usize> {
        patient(|| self.0.write(bytes))
    }

    fn flush(&mut self) -> io::Result<()> {
        Ok(())
    }
}

/// A file of its own over one that is open. Unlike the library's own standard input and output it hides no error.
fn plain(open: impl AsFd) -> io::Result<File> {
    Ok(File::from(open.as_fd().try_clone_to_owned()?))
}

fn main() -> ExitCode {
    let words: Vec<_> = std::env::args_os().skip(1).collect();
    match (plain(io::stdin()), plain(io::stdout()), plain(io::stderr())) {
        (Ok(input), Ok(out), Ok(notes)) => {
            let (mut out, mut notes) = (Plain(out), Plain(notes));
            let status = desk::run(&words, Box::new(input), &mut out, &mut notes);
            ExitCode::from(status)
        }
        _ => ExitCode::from(2),
    }
}
