//! Price leaves, put to the archive's call with any bytes for statuses: 10,000 generated small ones against the second implementation
//! and its trying of every row, 200 of the largest size against the second implementation, and those that the call must not
//! answer. SEED repeats the leaves of a printed seed.

use crate::questions::{seed, typed, State, PAINT};
use crate::sys::{self, Drafted};
use crate::{CheapestRuns, Docket, Draft};
use second::inputs::{large_runs_question, runs_question, RunsQuestion};
use second::{cheapest_runs, runs_by_trying, RunsAnswer};
use std::collections::BTreeMap;
use std::iter;
use std::sync::atomic::{AtomicU64, Ordering};
use std::thread;

const SMALL: u64 = 10_000;
const LARGE: u64 = 200;

/// What the call answers, and all that is lent to it for runs, shortfalls and value.
type Written = (usize, Vec<u64>, Vec<u64>, Vec<i64>);

/// How many numbers are lent for runs, shortfalls and value.
type Room = [usize; 3];

fn painted(answer: usize, [runs, shortfalls, value]: Room) -> Written {
    (
        answer,
        vec![PAINT; runs],
        vec![PAINT; shortfalls],
        vec![PAINT as i64; value],
    )
}

/// What the call does with a leaf and so much room, painted before.
fn ask(state: &State, leaf: &RunsQuestion, room: Room) -> Written {
    let (_, mut runs, mut shortfalls, mut value) = painted(0, room);
    let answer = sys::cheapest_runs(
        &state.numbers,
        &state.rows,
        &leaf.q,
        &leaf.s,
        &leaf.fixed,
        Drafted {
            runs: &mut runs,
            shortfalls: &mut shortfalls,
            value: &mut value,
        },
    );
    (answer, runs, shortfalls, value)
}

/// What it must do, by the second implementation's answer, where the room fits the problem.
fn due(answer: &RunsAnswer, room: Room) -> Written {
    match answer {
        RunsAnswer::NoProblem => painted(sys::NO_PROBLEM, room),
        RunsAnswer::Unfit => painted(sys::UNFIT, room),
        RunsAnswer::Stuck(unit) => painted(sys::STUCK + unit, room),
        RunsAnswer::Found { value, rows, short } => {
            (sys::TOLD, rows.concat(), short.clone(), vec![*value])
        }
    }
}

/// The second implementation's answer, in this crate's type.
fn told(answer: &RunsAnswer) -> CheapestRuns {
    match answer.clone() {
        RunsAnswer::NoProblem => CheapestRuns::NoProblem,
        RunsAnswer::Unfit => CheapestRuns::Unfit,
        RunsAnswer::Stuck(unit) => CheapestRuns::Stuck { unit },
        RunsAnswer::Found { value, rows, short } => CheapestRuns::Found(Draft {
            value,
            runs: rows,
            shortfalls: short,
        }),
    }
}

/// What kind of answer it is.
fn kind(answer: &RunsAnswer) -> &'static str {
    match answer {
        RunsAnswer::NoProblem => "no problem",
        RunsAnswer::Unfit => "unfit",
        RunsAnswer::Stuck(1) => "unit 1 is stuck",
        RunsAnswer::Stuck(_) => "another unit is stuck",
        RunsAnswer::Found { short, .. } if short.iter().all(|&short| short == 0) => {
            "runs, nowhere short"
        }
        RunsAnswer::Found { .. } => "runs, short",
    }
}

/// The kind of the answer to a leaf, which is the same in every way to ask, and with one number too many or too few in any part of
/// the room unfit.
fn compared(what: &str, leaf: &RunsQuestion, small: bool) -> &'static str {
    let (state, mut docket) = (State::after(&[&leaf.problem]), Docket::new());
    let (before, mut other) = (state.clone(), second::fresh());
    docket.lodge(&leaf.problem);
    second::lodge(&mut other, &leaf.problem);
    let problem = other.problem().expect("a problem");
    let periods = problem.periods();
    let room = [problem.units.len() * periods, periods, 1];

    let answer = cheapest_runs(&other, &leaf.q, &leaf.s, &leaf.fixed);
    if small {
        let tried = runs_by_trying(&other, &leaf.q, &leaf.s, &leaf.fixed);
        assert_eq!(answer, tried, "{what}, the second implementation");
    }
    assert_eq!(ask(&state, leaf, room), due(&answer, room), "{what}");
    for part in 0..3 {
        for length in [room[part] - 1, room[part] + 1] {
            let mut odd = room;
            odd[part] = length;
            let unfit = painted(sys::UNFIT, odd);
            assert_eq!(ask(&state, leaf, odd), unfit, "{what}, {odd:?}");
        }
    }
    assert_eq!(state, before, "{what}");
    if let Some(fixed) = typed(&leaf.fixed) {
        let given = docket.cheapest_runs(&leaf.q, &leaf.s, &fixed);
        assert_eq!(given, told(&answer), "{what}");
    }
    kind(&answer)
}

/// Compares so many leaves, as many at once as there are processors; how often each kind of answer came.
pub fn compare(
    count: u64,
    kind_of: impl Fn(u64) -> &'static str + Sync,
) -> BTreeMap<&'static str, u64> {
    let next = AtomicU64::new(0);
    let work = || {
        let indices = || Some(next.fetch_add(1, Ordering::Relaxed)).filter(|&index| index < count);
        let kinds = iter::from_fn(indices).map(&kind_of);
        kinds.collect::<Vec<_>>()
    };
    let workers = thread::available_parallelism().map_or(1, |n| n.get());
    let mut kinds = BTreeMap::new();
    thread::scope(|scope| {
        let running: Vec<_> = (0..workers).map(|_| scope.spawn(work)).collect();
        for worker in running {
            for kind in worker.join().expect("a worker") {
                *kinds.entry(kind).or_insert(0) += 1;
            }
        }
    });
    println!("{kinds:#?}");
    kinds
}

#[test]
fn small_leaves_get_the_runs_that_are_found_by_trying_every_row() {
    let seed = seed();
    println!("seed {seed}, {SMALL} small price leaves");
    let kinds = compare(SMALL, |index| {
        let what = format!("seed {seed}, small leaf {index}");
        compared(&what, &runs_question(seed, index), true)
    });
    assert_eq!(kinds.len(), 5, "{kinds:?}");
    assert!(kinds.values().all(|&times| times >= SMALL / 100));
}

#[test]
fn large_leaves_get_the_second_implementations_runs() {
    let seed = seed();
    println!("seed {seed}, {LARGE} large price leaves");
    let kinds = compare(LARGE, |index| {
        let what = format!("seed {seed}, large leaf {index}");
        compared(&what, &large_runs_question(seed, index), false)
    });
    assert!(kinds["runs, short"] >= LARGE / 2, "{kinds:?}");
}

/// Document 01's problem, of two units and two periods.
pub const PROBLEM: &[u8] = b"kind=problem\nperiods=2\nunits=2\ndemand=60,100\nspare=10,10\n\
    unit=100,10,0,20,80,2,2,3,30,30,50,90,1,5,60\nunit=40,14,0,10,50,1,1,-2,50,50,20,60,0,0,0\nend=problem\n";

/// The room that fits it.
const FIT: Room = [4, 2, 1];

/// A leaf of it with these multipliers and statuses.
pub fn leaf(q: &[u64], s: &[u64], fixed: &[u8]) -> RunsQuestion {
    RunsQuestion {
        problem: PROBLEM.to_vec(),
        q: q.to_vec(),
        s: s.to_vec(),
        fixed: fixed.to_vec(),
    }
}

/// The runs at prices 10 and 14 with nothing fixed.
fn found() -> Written {
    (sys::TOLD, vec![20, 80, 0, 0], vec![40, 20], vec![1880])
}

#[test]
fn every_byte_in_every_place_of_the_statuses() {
    let state = State::after(&[PROBLEM]);
    for at in 0..4 {
        for byte in 0..=255 {
            let mut asked = leaf(&[10, 14], &[0, 0], &[0; 4]);
            asked.fixed[at] = byte;
            let due = match (byte, at) {
                (3.., _) => painted(sys::UNFIT, FIT),
                // unit 1 stops for 5, and is off in both periods, or loses 100 in period 1 first
                (1, 0) => (sys::TOLD, vec![0; 4], vec![60, 100], vec![2005]),
                (1, 1) => (sys::TOLD, vec![0; 4], vec![60, 100], vec![2005]),
                // unit 2 goes on for 60 and loses 40 in period 1, and 4 for each 1 of its output
                (2, 2) => (sys::TOLD, vec![20, 80, 10, 0], vec![30, 20], vec![2020]),
                (2, 3) => (sys::TOLD, vec![20, 80, 0, 10], vec![40, 10], vec![1980]),
                _ => found(),
            };
            assert_eq!(ask(&state, &asked, FIT), due, "byte {byte} at {at}");
        }
    }
}

#[test]
fn every_length_but_the_one_that_fits() {
    let state = State::after(&[PROBLEM]);
    let fit = [2, 2, 4, 4, 2, 1];
    for part in 0..6 {
        for length in 0..60 {
            let mut lengths = fit;
            lengths[part] = length;
            let [q, s, fixed, room @ ..] = lengths;
            let mut asked = leaf(&[10, 14], &[0; 2], &[0; 4]);
            asked.q.resize(q, 1);
            asked.s.resize(s, 0);
            asked.fixed.resize(fixed, 0);
            let due = if lengths == fit {
                found()
            } else {
                painted(sys::UNFIT, room)
            };
            assert_eq!(ask(&state, &asked, room), due, "{lengths:?}");
        }
    }
}

#[test]
fn multipliers_at_their_ends() {
    let state = State::after(&[PROBLEM]);
    let most = 1_000_000_000;
    let ends = leaf(&[most; 2], &[most; 2], &[1; 4]);
    let value = 1_000_000_000 * (60 + 100 + 70 + 110) + 5;
    let both_off = (sys::TOLD, vec![0; 4], vec![60, 100], vec![value]);
    assert_eq!(ask(&state, &ends, FIT), both_off);
    for at in 0..4 {
        for above in [most + 1, 1 << 32, 1 << 63, u64::MAX] {
            let mut asked = ends.clone();
            match at {
                0 | 1 => asked.q[at] = above,
                _ => asked.s[at - 2] = above,
            }
            let unfit = painted(sys::UNFIT, FIT);
            assert_eq!(ask(&state, &asked, FIT), unfit, "{above} at {at}");
        }
    }
}

#[test]
fn a_short_state_comes_first_then_no_docket_then_no_problem_then_unfit_then_stuck() {
    let stuck = leaf(&[10, 14], &[0, 0], &[1, 2, 0, 0]);
    let unfit = leaf(&[1 << 40, 14, 7], &[], &[1, 2, 0, 9]);
    let odd = [3, 0, 2];
    for (texts, first, second) in [
        (&[][..], sys::NO_PROBLEM, sys::NO_PROBLEM),
        (&[PROBLEM], sys::STUCK + 1, sys::UNFIT),
    ] {
        let state = State::after(texts);
        assert_eq!(ask(&state, &stuck, FIT), painted(first, FIT));
        assert_eq!(ask(&state, &stuck, odd), painted(second, odd));
        assert_eq!(ask(&state, &unfit, FIT), painted(second, FIT));
        let mut none = state.clone();
        none.numbers[0] += 1;
        let (mut fewer, mut narrower) = (state.clone(), none.clone());
        fewer.numbers.pop();
        narrower.rows.pop();
        let all = [
            (none, usize::MAX - 1),
            (fewer, sys::TOO_SMALL),
            (narrower, sys::TOO_SMALL),
        ];
        for (state, due) in all {
            assert_eq!(ask(&state, &stuck, FIT), painted(due, FIT));
            assert_eq!(ask(&state, &unfit, odd), painted(due, odd));
        }
    }
}
