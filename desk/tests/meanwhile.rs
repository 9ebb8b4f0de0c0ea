//! Journals that are read while another process writes to them.
mod common;

use common::memory::Memory;
use common::program::{docket, ended, ran, start};
use common::{folder, run, schedule, PROBLEM, TREE};
use desk::journal::{Journal, Records, Step};
use desk::progress::Progress;
use std::ffi::OsStr;
use std::io::{self, Read, Write};
use std::path::Path;
use std::process::Stdio;
use std::thread;
use std::time::{Duration, Instant};

/// A file that ends at a byte when it is first read to there, and has grown when it is read again.
struct Growing<'a> {
    rest: &'a [u8],
    end: usize,
}

impl Read for Growing<'_> {
    fn read(&mut self, room: &mut [u8]) -> io::Result<usize> {
        let size = self.end.min(room.len());
        room[..size].copy_from_slice(&self.rest[..size]);
        (self.rest, self.end) = (&self.rest[size..], self.end - size);
        if size == 0 {
            self.end = self.rest.len();
        }
        Ok(size)
    }
}

/// The records of a journal up to its end, or to what is torn there.
fn records(bytes: impl Read) -> Vec<Step> {
    let mut records = Records::open(bytes).expect("a reader").expect("a journal");
    let mut steps = Vec::new();
    loop {
        match records.step().expect("a sound journal") {
            Step::End | Step::Torn(_) => return steps,
            step => steps.push(step),
        }
    }
}

#[test]
fn a_record_that_is_written_while_it_is_read_is_never_taken_for_damage() {
    let memory = Memory::default();
    let path = Path::new("j");
    let opened = Journal::open(memory.clone(), path, &mut Progress::none());
    let (mut journal, _) = opened.expect("a journal");
    for text in [PROBLEM, &schedule(7, 50), "", "\0\0\n", TREE] {
        journal.lodge(text.as_bytes(), 5).expect("room");
    }
    let bytes = memory.0.borrow().clone();
    let all = records(&bytes[..]);
    let first = bytes
        .iter()
        .position(|&byte| byte == b'\n')
        .expect("a line");
    for end in first + 1..=bytes.len() {
        let rest = &bytes[..];
        let steps = records(Growing { rest, end });
        assert!(all.starts_with(&steps), "ended at {end}");
    }
}

#[test]
fn a_reader_beside_a_writer_finds_a_sound_journal_each_time() {
    let journal = folder("beside").join("j");
    let words = [OsStr::new("lodge"), journal.as_os_str(), OsStr::new("-")];
    ran(&words, PROBLEM.as_bytes()).sound(0);
    let mut command = docket(&words);
    let mut writer = start(command.stdin(Stdio::piped()).stdout(Stdio::null()));
    let mut to = writer.stdin.take().expect("standard input");
    let began = Instant::now();
    let feeding = thread::spawn(move || {
        for k in (0..4_000).cycle() {
            // the records begin at every place of a page
            let tail = "x".repeat(k);
            let text = format!("{}{tail}\nend=\n", schedule(7, 50));
            if began.elapsed() > Duration::from_millis(1_500)
                || to.write_all(text.as_bytes()).is_err()
            {
                return;
            }
        }
    });
    let mut last = 0;
    while !feeding.is_finished() {
        for name in ["verify", "log"] {
            let ran = run(&[OsStr::new(name), journal.as_os_str()], b"");
            assert_eq!(ran.status, 0, "{}", String::from_utf8_lossy(&ran.notes));
            if name == "log" {
                assert!(ran.lines().len() >= last);
                last = ran.lines().len();
            }
        }
    }
    feeding.join().expect("the feeder");
    assert_eq!(ended(&mut writer).code(), Some(1));
    assert!(last > 1);
}
