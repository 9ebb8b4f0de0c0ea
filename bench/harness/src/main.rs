//! Times the proved docket and its peer on the same inputs: `harness [RUNS] [NAME..]`.
//!
//! An input is a list of texts. One of at most 65,536 bytes is listed: the whole listing, on bytes. The pieces of a longer one, which a
//! listing would refuse, are lodged in turn. Both do so from a fresh docket, in this process, the input being in memory before the clock
//! starts. They take turns, and the best time of each counts. Before that what they write is compared. A question about forced statuses is
//! asked of a docket that holds its problem.
mod cases;
mod entries;
mod forced;
mod inputs;

use cases::{Case, Last};
use entries::{Entry, Room, LISTINGS, LODGINGS};
use std::time::Instant;

/// The time of one run, in milliseconds.
fn time(entry: Entry, input: &[u8], room: &mut Room) -> f64 {
    let start = Instant::now();
    entry(std::hint::black_box(input), room);
    start.elapsed().as_secs_f64() * 1e3
}

fn main() {
    let mut words = std::env::args().skip(1).peekable();
    let runs: usize = words.peek().and_then(|w| w.parse().ok()).unwrap_or(20);
    if words.peek().is_some_and(|w| w.parse::<usize>().is_ok()) {
        words.next();
    }
    let names: Vec<String> = words.collect();
    println!(
        "{:38} {:>9} {:>6} {:7} {:>10} {:>10} {:>6} {:>10} {:>6}",
        "input", "bytes", "texts", "through", "proved ms", "peer ms", "ratio", "all ms", "ratio"
    );
    for case in cases::all() {
        if names.is_empty() || names.iter().any(|n| case.name.contains(n.as_str())) {
            run(&case, runs);
        }
    }
    forced::rows(runs, &names);
}

/// How many answers a listing has.
fn listed(case: &Case, listing: &[u8]) -> usize {
    let text = std::str::from_utf8(listing).unwrap();
    let answers: Vec<&str> = text.lines().filter(|l| l.starts_with("answer=")).collect();
    let last = answers[answers.len() - 1];
    let due = match case.last {
        Last::TreeHeld => "answer=held,".to_string(),
        Last::SchedulePassed => "answer=passed,".to_string(),
        Last::Refused(number) => format!("answer=refused,{number},"),
    };
    assert!(last.starts_with(&due), "{}: the last is {last}", case.name);
    answers.len()
}

/// How many answers there are, four numbers each.
fn lodged(case: &Case, numbers: &[u64]) -> usize {
    let last = &numbers[numbers.len() - 4..];
    let due = match case.last {
        Last::TreeHeld => 4,
        Last::SchedulePassed => 3,
        Last::Refused(number) => number,
    };
    assert!(last[0] == due, "{}: the last is {last:?}", case.name);
    numbers.len() / 4
}

/// Compares what is written and prints the best times of a case.
fn run(case: &Case, runs: usize) {
    let input = case.input.as_bytes();
    let is_listed = input.len() <= inputs::LISTING_LIMIT;
    let entries = if is_listed { LISTINGS } else { LODGINGS };
    let mut room = Room::for_input(input);
    let count = entries[0](input, &mut room);
    for entry in &entries[1..] {
        let mut other = Room::for_input(input);
        let same = entry(input, &mut other) == count && other == room;
        assert!(same, "{}: the answers differ", case.name);
    }
    let texts = if is_listed {
        listed(case, &room.listing[..count])
    } else {
        lodged(case, &room.numbers[..count * 4])
    };
    let mut best = [f64::MAX; 3];
    for _ in 0..runs {
        for (place, entry) in entries.into_iter().enumerate() {
            best[place] = best[place].min(time(entry, input, &mut room));
        }
    }
    println!(
        "{:38} {:>9} {:>6} {:7} {:>10.3} {:>10.3} {:>6.2} {:>10.3} {:>6.2}",
        case.name,
        input.len(),
        texts,
        if is_listed { "list" } else { "lodge" },
        best[0],
        best[1],
        best[0] / best[1],
        best[2],
        best[0] / best[2],
    );
}
