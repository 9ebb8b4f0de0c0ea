//! The program as a process.

use super::Ran;
use std::ffi::OsStr;
use std::io::{Read, Write};
use std::process::{Child, Command, ExitStatus, Stdio};
use std::thread::{self, sleep};
use std::time::{Duration, Instant};

/// A process that takes longer hangs.
pub const DEADLINE: Duration = Duration::from_secs(20);

/// The program with some words; nothing is open yet.
pub fn docket<S: AsRef<OsStr>>(words: &[S]) -> Command {
    let mut command = Command::new(env!("CARGO_BIN_EXE_docket"));
    command.args(words).stdin(Stdio::null());
    command
}

/// How a process ends; it is killed, and the test fails, where it does not.
pub fn ended(child: &mut Child) -> ExitStatus {
    let began = Instant::now();
    loop {
        if let Some(status) = child.try_wait().expect("a child") {
            return status;
        }
        if began.elapsed() > DEADLINE {
            child.kill().expect("a child killed");
            panic!("a process that hangs");
        }
        sleep(Duration::from_millis(1));
    }
}

/// All that is read from something, in a thread of its own.
fn gathered(from: Option<impl Read + Send + 'static>) -> thread::JoinHandle<Vec<u8>> {
    thread::spawn(move || {
        let mut bytes = Vec::new();
        if let Some(mut from) = from {
            from.read_to_end(&mut bytes).expect("what a process says");
        }
        bytes
    })
}

/// Runs a process to its end; what it prints and says, where that is not sent elsewhere.
pub fn finish(mut child: Child) -> Ran {
    let (out, notes) = (gathered(child.stdout.take()), gathered(child.stderr.take()));
    let status = ended(&mut child).code().expect("an exit status");
    Ran {
        status: u8::try_from(status).expect("a status"),
        out: out.join().expect("standard output"),
        notes: notes.join().expect("standard error"),
    }
}

/// Starts a command whose standard error, and all that is not said otherwise, is read by the test.
pub fn start(command: &mut Command) -> Child {
    command.stderr(Stdio::piped()).spawn().expect("a process")
}

/// Runs the program to its end on an input.
pub fn ran<S: AsRef<OsStr>>(words: &[S], input: &[u8]) -> Ran {
    let mut command = docket(words);
    let mut child = start(command.stdin(Stdio::piped()).stdout(Stdio::piped()));
    let mut pipe = child.stdin.take().expect("standard input");
    let input = input.to_vec();
    // a program that reads nothing may end before
    let fed = thread::spawn(move || pipe.write_all(&input).is_ok());
    let ran = finish(child);
    let _ = fed.join();
    ran
}
