//! Forced statuses: all entries of 32 units in 48 periods, asked of a docket that holds the problem. The proved call and the peer's two walks take turns, after their
//! entries have been compared; beside them stands the peer's walk over all states of each unit, once, for the same leaf's value.
use crate::inputs::{problem, Random, Times, MOST, MOST_STARTS, PERIODS, UNITS, USUAL};
use std::hint::black_box;
use std::time::Instant;

const NUMBERS: usize = 618;
const ROWS: usize = 1_536;
const PLACES: usize = UNITS * PERIODS;
const LINE: usize = 256;
const VALUES: usize = 32;

extern "C" {
    fn docket_fresh(numbers: *mut u64, n: usize, rows: *mut u16, m: usize) -> usize;

    fn docket_lodge(
        numbers: *mut u64,
        n: usize,
        rows: *mut u16,
        m: usize,
        text: *const u8,
        length: usize,
        line: *mut u8,
        room: usize,
        values: *mut u64,
        count: usize,
    ) -> usize;

    fn docket_forced_statuses(
        numbers: *const u64,
        n: usize,
        rows: *const u16,
        m: usize,
        q: *const u64,
        prices: usize,
        s: *const u64,
        reserves: usize,
        fixed: *const u8,
        statuses: usize,
        values: *mut i64,
        room: usize,
        stuck: *mut u8,
        bytes: usize,
    ) -> usize;
}

/// The proved docket's state.
struct Proved {
    numbers: Vec<u64>,
    rows: Vec<u16>,
}

impl Proved {
    fn holding(text: &[u8]) -> Proved {
        let (mut numbers, mut rows) = (vec![0u64; NUMBERS], vec![0u16; ROWS]);
        let (mut line, mut values) = (vec![0u8; LINE], vec![0u64; VALUES]);
        let (n, r) = (numbers.as_mut_ptr(), rows.as_mut_ptr());
        unsafe {
            assert_eq!(docket_fresh(n, NUMBERS, r, ROWS), 0);
            let (l, v) = (line.as_mut_ptr(), values.as_mut_ptr());
            let long = docket_lodge(
                n,
                NUMBERS,
                r,
                ROWS,
                text.as_ptr(),
                text.len(),
                l,
                LINE,
                v,
                VALUES,
            );
            assert!(line[..long].starts_with(b"answer=held"));
        }
        Proved { numbers, rows }
    }

    fn ask(&self, question: &Question, table: &mut Table) {
        let Question { q, s, fixed } = question;
        let answer = unsafe {
            docket_forced_statuses(
                self.numbers.as_ptr(),
                NUMBERS,
                self.rows.as_ptr(),
                ROWS,
                q.as_ptr(),
                q.len(),
                s.as_ptr(),
                s.len(),
                fixed.as_ptr(),
                fixed.len(),
                table.values.as_mut_ptr(),
                table.values.len(),
                table.stuck.as_mut_ptr(),
                table.stuck.len(),
            )
        };
        assert_eq!(answer, 0);
    }
}

struct Question {
    q: Vec<u64>,
    s: Vec<u64>,
    fixed: Vec<u8>,
}

#[derive(PartialEq, Eq)]
struct Table {
    values: Vec<i64>,
    stuck: Vec<u8>,
}

impl Table {
    fn new() -> Table {
        Table {
            values: vec![7; 2 * PLACES],
            stuck: vec![7; 2 * PLACES],
        }
    }
}

/// A question with dear multipliers, one status in `one_in` fixed; none where that is 0.
fn question(r: &mut Random, one_in: u64) -> Question {
    Question {
        q: (0..PERIODS).map(|_| r.within(0, 999_999_999)).collect(),
        s: (0..PERIODS).map(|_| r.within(0, 999_999_999)).collect(),
        fixed: (0..PLACES)
            .map(|_| match one_in {
                0 => 0,
                n if r.within(1, n) == 1 => r.within(1, 2) as u8,
                _ => 0,
            })
            .collect(),
    }
}

/// Milliseconds of one run.
fn time(mut run: impl FnMut()) -> f64 {
    let start = Instant::now();
    run();
    start.elapsed().as_secs_f64() * 1e3
}

/// Compares the entries and prints the best times of a case.
fn run(name: &str, times: Times, off: bool, one_in: u64, runs: usize) {
    let mut r = Random::new();
    let text = problem(&mut r, times, 100_000, 10_000, off);
    let question = question(&mut r, one_in);
    let Question { q, s, fixed } = &question;
    let proved = Proved::holding(text.as_bytes());
    let mut peer = peer::Docket::<true>::default();
    peer.lodge(text.as_bytes());
    let (mut ours, mut theirs) = (Table::new(), Table::new());
    proved.ask(&question, &mut ours);
    peer.forced_statuses(q, s, fixed, &mut theirs.values, &mut theirs.stuck);
    assert!(ours == theirs, "{name}: the entries differ");
    let stuck = ours.stuck.iter().filter(|b| **b == 1).count();
    let mut best = [f64::MAX; 3];
    for _ in 0..runs {
        best[0] = best[0].min(time(|| proved.ask(black_box(&question), &mut ours)));
        best[1] = best[1].min(time(|| {
            peer.forced_statuses(
                black_box(q),
                s,
                fixed,
                &mut theirs.values,
                &mut theirs.stuck,
            )
        }));
        best[2] = best[2].min(time(|| {
            black_box(peer.leaf_value(black_box(q), s, fixed));
        }));
    }
    println!(
        "{name:38} {:>9} {stuck:>6} {:7} {:>10.4} {:>10.4} {:>6.2} {:>10.4} {:>6.2}",
        2 * PLACES,
        "call",
        best[0],
        best[1],
        best[0] / best[1],
        best[2],
        best[0] / best[2],
    );
}

/// Prints a row for each case whose name has one of the names.
pub fn rows(runs: usize, names: &[String]) {
    println!(
        "{:38} {:>9} {:>6} {:7} {:>10} {:>10} {:>6} {:>10} {:>6}",
        "forced statuses",
        "entries",
        "stuck",
        "through",
        "proved ms",
        "peer ms",
        "ratio",
        "all ms",
        "ratio"
    );
    let cases = [
        ("forced, 145 states", MOST, false, 0),
        ("forced, 145 states, off before", MOST, true, 0),
        ("forced, 98 states, TD 1", MOST_STARTS, true, 0),
        ("forced, 15 states", USUAL, false, 0),
        ("forced, 15 states, some fixed", USUAL, true, 200),
    ];
    for (name, times, off, one_in) in cases {
        if names.is_empty() || names.iter().any(|n| name.contains(n.as_str())) {
            run(name, times, off, one_in, runs * 10);
        }
    }
}
