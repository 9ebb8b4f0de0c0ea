//! A list of texts: cut after each line that begins end=, and lodged in turn in one docket.
use crate::docket::{Answer, Docket};
use crate::page::Page;
use crate::tree::Figures;

/// What stands for the bound never in the numbers of a list's answers.
pub const BOUND_OF_NEVER: i64 = 9_000_000_000_000_000_000;

const MOST_INPUT: usize = 65_536;
const LEAST_OUTPUT: usize = 1_048_576;

/// How many bytes are compared at once.
const PART: usize = 32;

/// The place after the line that starts at `at`.
fn line_end(text: &[u8], at: usize) -> usize {
    let mut i = at;
    for part in text[at..].chunks_exact(PART) {
        let breaks: u8 = part.iter().map(|b| (*b == b'\n') as u8).sum();
        if breaks != 0 {
            break;
        }
        i += PART;
    }
    match text[i..].iter().position(|b| *b == b'\n') {
        Some(n) => i + n + 1,
        None => text.len(),
    }
}

/// The place after the piece that starts at `at`.
pub fn piece_end(text: &[u8], at: usize) -> usize {
    let mut i = at;
    while i < text.len() {
        let next = line_end(text, i);
        if text[i..].starts_with(b"end=") {
            return next;
        }
        i = next;
    }
    i
}

/// Lodges the pieces in turn and answers how many there were; four numbers for each answer, and a tree's bound.
pub fn lodge_list<const ALL: bool>(input: &[u8], out: &mut [u64], bounds: &mut [i64]) -> usize {
    let mut docket = Docket::<ALL>::default();
    let mut at = 0;
    let mut k = 0;
    while at < input.len() {
        let end = piece_end(input, at);
        let answer = docket.lodge(&input[at..end]);
        let numbers = match answer {
            Answer::Refused(r) => [r.number, r.line as u64, r.unit as u64, r.period as u64],
            Answer::TextHeld => [1, 0, 0, 0],
            Answer::ScheduleHeld(cost) => [2, cost, 0, 0],
            Answer::SchedulePassed(cost) => [3, cost, 0, 0],
            Answer::TreeHeld(f) => [4, f.splits, f.leaves, 0],
            Answer::TreePassed(f) => [5, f.splits, f.leaves, 0],
        };
        if let Some(place) = out.get_mut(k * 4..k * 4 + 4) {
            place.copy_from_slice(&numbers);
        }
        if let Answer::TreeHeld(f) | Answer::TreePassed(f) = answer {
            if let Some(place) = bounds.get_mut(k) {
                *place = f.bound.unwrap_or(BOUND_OF_NEVER);
            }
        }
        at = end;
        k += 1;
    }
    k
}

/// The listing of an input, an answer for each piece and the report, at the front of the output: its length, 0 where the output is too
/// small.
pub fn listing<const ALL: bool>(input: &[u8], output: &mut [u8]) -> usize {
    if output.len() < LEAST_OUTPUT {
        return 0;
    }
    let mut docket = Docket::<ALL>::default();
    let mut page = Page::new(output);
    if input.len() > MOST_INPUT {
        page.put(b"answer=refused,11,0,0,0\n");
        return put_report(page, &docket);
    }
    let mut at = 0;
    while at < input.len() {
        let end = piece_end(input, at);
        put_answer(&mut page, docket.lodge(&input[at..end]));
        at = end;
    }
    put_report(page, &docket)
}

fn put_answer(page: &mut Page, answer: Answer) {
    match answer {
        Answer::Refused(r) => {
            page.put(b"answer=refused,");
            page.put_number(r.number);
            page.put(b",");
            page.put_number(r.line as u64);
            page.put(b",");
            page.put_number(r.unit as u64);
            page.put(b",");
            page.put_number(r.period as u64);
        }
        Answer::TextHeld => page.put(b"answer=held"),
        Answer::ScheduleHeld(cost) => {
            page.put(b"answer=held,");
            page.put_number(cost);
        }
        Answer::SchedulePassed(cost) => {
            page.put(b"answer=passed,");
            page.put_number(cost);
        }
        Answer::TreeHeld(figures) => {
            page.put(b"answer=held,");
            put_figures(page, figures);
        }
        Answer::TreePassed(figures) => {
            page.put(b"answer=passed,");
            put_figures(page, figures);
        }
    }
    page.put(b"\n");
}

fn put_figures(page: &mut Page, figures: Figures) {
    put_bound(page, figures.bound);
    page.put(b",");
    page.put_number(figures.splits);
    page.put(b",");
    page.put_number(figures.leaves);
}

fn put_bound(page: &mut Page, bound: Option<i64>) {
    match bound {
        None => page.put(b"never"),
        Some(v) => page.put_signed(v),
    }
}

/// Puts a report and gives how many bytes are put in all.
fn put_report<const ALL: bool>(mut page: Page, docket: &Docket<ALL>) -> usize {
    page.put(b"kind=report\ncost=");
    match docket.cost {
        None => page.put(b"none\ncostwriter=none"),
        Some(held) => {
            page.put_number(held.figure);
            page.put(b"\ncostwriter=");
            page.put_number(held.writer);
        }
    }
    page.put(b"\nbound=");
    match docket.bound {
        None => page.put(b"none\nboundwriter=none"),
        Some(held) => {
            put_bound(&mut page, held.figure);
            page.put(b"\nboundwriter=");
            page.put_number(held.writer);
        }
    }
    page.put(b"\ngap=");
    match (docket.cost, docket.bound.and_then(|held| held.figure)) {
        (Some(held), Some(bound)) => page.put_signed(held.figure as i64 - bound),
        _ => page.put(b"none"),
    }
    page.put(b"\nend=report\n");
    page.len()
}
