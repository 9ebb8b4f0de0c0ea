//! How inputs are cut into texts, however they come in.
mod common;

use common::program::{docket, ended};
use common::{folder, run, schedule, seed, text, texts, PROBLEM, TREE};
use desk::pieces::{Piece, Pieces};
use docket::MOST_TEXT;
use second::inputs::random::Random;
use std::fs;
use std::io::{self, Cursor, ErrorKind, Read, Write};
use std::process::Stdio;
use std::thread;

/// The pieces of an input that is all there.
fn reference(input: &[u8]) -> Vec<Piece> {
    let piece = |(line, text): (u64, &[u8])| Piece {
        line,
        text: (text.len() <= MOST_TEXT).then(|| text.to_vec()),
    };
    texts(input).into_iter().map(piece).collect()
}

/// All pieces of a reader, which has none after its last.
fn pieces(reader: impl Read) -> Vec<Piece> {
    let mut pieces = Pieces::new(reader);
    let mut all = Vec::new();
    while let Some(piece) = pieces.next_text().expect("a readable input") {
        all.push(piece);
    }
    assert_eq!(pieces.next_text().expect("the end again"), None);
    all
}

/// An input that comes in parts of random sizes, up to a most, with errors between that mean nothing.
struct Parts<'a> {
    rest: &'a [u8],
    random: Random,
    most: usize,
    /// So many times nothing can be read just now; interrupted reads are not counted.
    blocked: usize,
}

impl Read for Parts<'_> {
    fn read(&mut self, room: &mut [u8]) -> io::Result<usize> {
        if self.most > 1 && self.random.chance(10) {
            return Err(ErrorKind::Interrupted.into());
        }
        if self.blocked > 0 && self.random.chance(10) {
            self.blocked -= 1;
            return Err(ErrorKind::WouldBlock.into());
        }
        let size = self.random.between(1, self.most as i64) as usize;
        let size = size.min(self.rest.len()).min(room.len());
        room[..size].copy_from_slice(&self.rest[..size]);
        self.rest = &self.rest[size..];
        Ok(size)
    }
}

/// Tests that an input is cut alike in every way of coming in.
fn same_in_all_parts(input: &[u8], seed: u64, mosts: &[usize]) {
    let wanted = reference(input);
    assert!(pieces(Cursor::new(input)) == wanted, "whole");
    for &most in mosts {
        let parts = Parts {
            rest: input,
            random: Random::for_input(seed, most as u64),
            most,
            blocked: 3,
        };
        assert!(pieces(parts) == wanted, "seed {seed}, up to {most} bytes");
    }
}

#[test]
fn generated_inputs_are_cut_alike_in_every_chunking() {
    let seed = seed();
    // the deepest trees and the largest plants take long to make
    for index in (0..150).filter(|index| !matches!(index % 50, 7 | 33)) {
        let input = second::inputs::input(seed, index);
        same_in_all_parts(&input, seed, &[1, 2, 7, 100, 5_000, 100_000]);
    }
}

#[test]
fn lines_that_nearly_end_a_text_are_cut_alike_in_every_chunking() {
    let seed = seed();
    let mut random = Random::new(seed);
    let words: [&[u8]; 12] = [
        b"end=", b"end", b"=", b"\n", b"\n", b"e", b" end=", b"END=", b"end=x", b"\r\n", b"\0",
        b"\xff",
    ];
    for _ in 0..400 {
        let mut input = Vec::new();
        for _ in 0..random.below(40) {
            input.extend_from_slice(words[random.below(words.len())]);
        }
        same_in_all_parts(&input, seed, &[1, 2, 5]);
    }
}

/// A text of so many bytes, its end line among them.
fn long_text(bytes: usize, lines: usize) -> Vec<u8> {
    let mut text = vec![b'x'; bytes - 5];
    for k in 1..=lines {
        text[k * (bytes - 5) / lines - 1] = b'\n';
    }
    text.extend_from_slice(b"end=\n");
    text
}

#[test]
fn texts_about_the_limit_are_cut_alike_wherever_the_input_comes_in_parts() {
    let seed = seed();
    for bytes in MOST_TEXT - 1..=MOST_TEXT + 6 {
        for lines in [1, 3, 1_000] {
            let mut input = PROBLEM.as_bytes().to_vec();
            input.extend_from_slice(&long_text(bytes, lines));
            input.extend_from_slice(schedule(7, 50).as_bytes());
            let cut = reference(&input);
            assert_eq!(cut[1].text.is_some(), bytes <= MOST_TEXT);
            same_in_all_parts(&input, seed, &[65_536, 1_048_570]);
        }
    }
}

#[test]
fn an_input_about_the_limit_without_an_end_line_is_one_text() {
    for bytes in MOST_TEXT - 1..=MOST_TEXT + 1 {
        for last in [b'x', b'\n'] {
            let mut input = vec![b'x'; bytes];
            input[bytes - 1] = last;
            let wanted = Piece {
                line: 1,
                text: (bytes <= MOST_TEXT).then(|| input.clone()),
            };
            for at in [0, 1, MOST_TEXT - 1, bytes] {
                assert!(
                    pieces(two_parts(&input, at)) == [wanted.clone()],
                    "{bytes} {at}"
                );
            }
        }
    }
}

/// An input that comes in two parts.
fn two_parts(input: &[u8], at: usize) -> impl Read + '_ {
    input[..at].chain(&input[at..])
}

#[test]
fn an_end_line_over_the_limit_ends_the_text_wherever_it_is_cut() {
    for over in 0..=7 {
        let mut input = long_text(MOST_TEXT + over, 2);
        let end = input.len();
        input.extend_from_slice(TREE.as_bytes());
        let wanted = reference(&input);
        for at in end - 10..=end + 3 {
            assert!(pieces(two_parts(&input, at)) == wanted, "{over} {at}");
        }
        let single: &[u8] = &input[..end - 10];
        let by_one = single.chain(Parts {
            rest: &input[end - 10..],
            random: Random::new(1),
            most: 1,
            blocked: 0,
        });
        assert!(pieces(by_one) == wanted, "{over} by one");
    }
}

#[test]
fn a_text_of_1048576_bytes_is_judged_and_one_of_1048577_is_11_and_kept_nowhere() {
    let folder = folder("limit");
    for (over, numbers, refused) in [(0, ["1", "2", "3"], "12"), (1, ["1", "-", "2"], "11")] {
        let mut input = PROBLEM.as_bytes().to_vec();
        input.extend_from_slice(&long_text(MOST_TEXT + over, 3));
        input.extend_from_slice(schedule(7, 50).as_bytes());
        let journal = folder.join(over.to_string());
        let journal = journal.to_str().expect("a name");
        let ran = run(&["lodge", journal, "-"], &input);
        assert_eq!(ran.status, 1);
        let answers: Vec<&str> = ran.answers();
        let wanted = [
            format!("{} -:1: answer=held", numbers[0]),
            format!("{} -:8: answer=refused,{refused},", numbers[1]),
            format!("{} -:12: answer=held,600", numbers[2]),
        ];
        assert_eq!(answers.len(), wanted.len());
        for (answer, wanted) in answers.iter().zip(&wanted) {
            assert!(answer.starts_with(wanted), "{answer}, not {wanted}");
        }
        let log = run(&["log", journal], b"").sound(0);
        assert_eq!(log.lines().len(), 3 - over);
    }
}

#[test]
fn a_text_that_is_too_long_and_has_no_end_line_is_one_text() {
    for lines in [&b"xxxxxxx\n"[..], b"x", b"\n", b"end\n"] {
        let input = lines.repeat(3 * MOST_TEXT / lines.len());
        let cut = pieces(Cursor::new(&input));
        assert_eq!(
            cut,
            [Piece {
                line: 1,
                text: None
            }]
        );
        let ran = run(&["check", "-"], &input);
        assert_eq!(ran.status, 1);
        assert!(text(&ran.out).starts_with("-:1: answer=refused,11,0,0,0\n"));
        assert_eq!(text(&ran.out).matches("answer=").count(), 1);
    }
}

/// A reader that fails once what it has is read.
struct Failing<'a>(&'a [u8]);

impl Read for Failing<'_> {
    fn read(&mut self, room: &mut [u8]) -> io::Result<usize> {
        match self.0.read(room)? {
            0 => Err(io::Error::other("no more")),
            read => Ok(read),
        }
    }
}

#[test]
fn a_text_is_there_with_its_end_line_and_before_more_is_read() {
    let mut input = [PROBLEM, TREE].concat().into_bytes();
    input.extend_from_slice(b"kind=");
    let mut cut = Pieces::new(Failing(&input));
    for (line, text) in [(1, PROBLEM), (8, TREE)] {
        let piece = cut.next_text().expect("a text").expect("a text");
        assert_eq!(
            (piece.line, piece.text.as_deref()),
            (line, Some(text.as_bytes()))
        );
    }
    assert!(cut.next_text().is_err());
    let long = vec![b'x'; MOST_TEXT + 1];
    let mut cut = Pieces::new(Failing(&long));
    let piece = cut.next_text().expect("a text").expect("a text");
    assert_eq!(
        piece,
        Piece {
            line: 1,
            text: None
        }
    );
}

#[test]
fn no_text_spans_two_files_and_small_files_are_what_they_are() {
    let folder = folder("files");
    let name = |name: &str| folder.join(name).to_str().expect("a name").to_string();
    let (open, next, empty, end) = (name("open"), name("next"), name("empty"), name("end"));
    let unended = schedule(7, 50).trim_end().to_string();
    fs::write(&open, format!("{PROBLEM}{unended}")).expect("a file");
    fs::write(&next, format!("{}kind=tr", schedule(8, 60))).expect("a file");
    fs::write(&empty, "").expect("a file");
    fs::write(&end, "end=\n").expect("a file");
    let ran = run(&["check", &open, &empty, &next, &end], b"");
    let answers: Vec<&str> = ran.answers();
    let wanted = [
        format!("{open}:1: answer=held"),
        format!("{open}:11: answer=refused,12,4,0,0"),
        format!("{next}:1: answer=held,700"),
        format!("{next}:5: answer=refused,12,1,0,0"),
        format!("{end}:1: answer=refused,12,1,0,0"),
    ];
    assert_eq!(answers, wanted);
    assert_eq!(ran.status, 2);
    let note = format!("docket: {empty}: no text in it, so that nothing of it was judged\n");
    assert_eq!(text(&ran.notes), note);
}

/// The most memory that a process had, in bytes.
fn most_memory(process: u32) -> usize {
    let status = fs::read_to_string(format!("/proc/{process}/status")).expect("a process");
    let line = status.lines().find(|line| line.starts_with("VmHWM:"));
    let kilobytes = line.and_then(|line| line.split_whitespace().nth(1));
    let kilobytes: usize = kilobytes.and_then(|k| k.parse().ok()).expect("a number");
    kilobytes * 1024
}

/// The most memory of `check` on 100 MB of some lines without an end line, and what it prints.
fn check_100_mb(lines: &[u8]) -> (usize, Vec<u8>) {
    let mut command = docket(&["check", "-"]);
    command.stdin(Stdio::piped()).stdout(Stdio::piped());
    let mut child = command.spawn().expect("a process");
    let (mut to, mut from) = (
        child.stdin.take().expect("in"),
        child.stdout.take().expect("out"),
    );
    let read = thread::spawn(move || {
        let mut out = Vec::new();
        from.read_to_end(&mut out).expect("its output");
        out
    });
    let block = lines.repeat(1_000_000 / lines.len());
    for _ in 0..100 {
        to.write_all(&block).expect("a reader");
    }
    let most = most_memory(child.id());
    drop(to);
    assert_eq!(ended(&mut child).code(), Some(1));
    (most, read.join().expect("its output"))
}

#[test]
fn memory_stays_small_on_100_megabytes_without_an_end_line() {
    for lines in [&b"x"[..], b"run=0,0,0,0,0,0,0,0\n"] {
        let (most, out) = check_100_mb(lines);
        assert!(most < 24 << 20, "{most} bytes of memory");
        assert!(out.starts_with(b"-:1: answer=refused,11,0,0,0\n"));
    }
}
