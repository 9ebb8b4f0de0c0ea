//! The listing program on bytes (document 01, "The listing program").

use crate::docket::{fresh, lodge, report, Answer, Docket, Figures};
use crate::refusal::Refusal;

/// More input than this is not lodged at all.
pub const MOST_INPUT: usize = 65_536;

/// Long enough for every report: seven lines with five figures.
const REPORT_ROOM: usize = 256;

/// The output for an input: one answer line for each piece, then the report.
pub fn listing(input: &[u8]) -> Vec<u8> {
    let mut docket = fresh();
    let mut output = Vec::new();
    if input.len() > MOST_INPUT {
        push_answer(&mut output, Answer::Refused(Refusal::bare(11)));
    } else {
        for piece in pieces(input) {
            push_answer(&mut output, lodge(&mut docket, piece));
        }
    }
    push_report(&mut output, &docket);
    output
}

/// The input cut after each ended line that begins `end=`; what is left over is the last piece.
pub fn pieces(input: &[u8]) -> Vec<&[u8]> {
    let mut pieces = Vec::new();
    let mut start = 0;
    let mut at = 0;
    for line in input.split_inclusive(|&byte| byte == b'\n') {
        at += line.len();
        if line.starts_with(b"end=") && line.ends_with(b"\n") {
            pieces.push(&input[start..at]);
            start = at;
        }
    }
    if start < input.len() {
        pieces.push(&input[start..]);
    }
    pieces
}

fn push_answer(output: &mut Vec<u8>, answer: Answer) {
    output.extend_from_slice(answer_line(answer).as_bytes());
}

/// The line for one answer, ended by byte 10.
pub fn answer_line(answer: Answer) -> String {
    match answer {
        Answer::Refused(refusal) => format!(
            "answer=refused,{},{},{},{}\n",
            refusal.number, refusal.line, refusal.unit, refusal.period
        ),
        Answer::Held(figures) => format!("answer=held{}\n", figures_after(figures)),
        Answer::Passed(figures) => format!("answer=passed{}\n", figures_after(figures)),
    }
}

fn figures_after(figures: Figures) -> String {
    match figures {
        Figures::Problem => String::new(),
        Figures::Schedule { cost } => format!(",{cost}"),
        Figures::Tree {
            bound,
            splits,
            leaves,
        } => format!(",{bound},{splits},{leaves}"),
    }
}

fn push_report(output: &mut Vec<u8>, docket: &Docket) {
    let mut room = [0; REPORT_ROOM];
    let length = report(docket, &mut room, 0).expect("the room takes any report");
    output.extend_from_slice(&room[..length]);
}
