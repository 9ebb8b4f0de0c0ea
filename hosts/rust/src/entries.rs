//! Price leaves with a status forced, put to the archive's call with any bytes for statuses: 10,000 generated small ones against the
//! second implementation, the first thousand also against its trying of every row, 200 of the largest size against the second
//! implementation, and those that the call must not answer. SEED repeats the leaves of a printed seed.

use crate::leaves::{compare, leaf, PROBLEM};
use crate::questions::{seed, typed, State, PAINT};
use crate::sys;
use crate::{Docket, ForcedStatuses};
use second::inputs::{large_runs_question, runs_question, RunsQuestion};
use second::{forced_by_trying, forced_statuses, ForcedAnswer};

const SMALL: u64 = 10_000;
const TRIED: u64 = 1_000;
const LARGE: u64 = 200;

/// What the call answers, and all that is lent to it for values and marks.
type Written = (usize, Vec<i64>, Vec<u8>);

/// How many numbers are lent for values and marks.
type Room = [usize; 2];

fn painted(answer: usize, [values, stuck]: Room) -> Written {
    (answer, vec![PAINT as i64; values], vec![PAINT as u8; stuck])
}

/// What the call does with a leaf and so much room, painted before.
fn ask(state: &State, leaf: &RunsQuestion, room: Room) -> Written {
    let (_, mut values, mut stuck) = painted(0, room);
    let answer = sys::forced_statuses(
        &state.numbers,
        &state.rows,
        &leaf.q,
        &leaf.s,
        &leaf.fixed,
        &mut values,
        &mut stuck,
    );
    (answer, values, stuck)
}

/// What it must do, by the second implementation's answer, where the room fits the problem.
fn due(answer: &ForcedAnswer, room: Room) -> Written {
    match answer {
        ForcedAnswer::NoProblem => painted(sys::NO_PROBLEM, room),
        ForcedAnswer::Unfit => painted(sys::UNFIT, room),
        ForcedAnswer::Found { values, stuck } => {
            let marks = stuck.iter().map(|&mark| mark as u8);
            (sys::TOLD, values.clone(), marks.collect())
        }
    }
}

/// Fails where the two differ, with the first entry in which they do.
fn same(what: &str, got: &Written, wanted: &Written) {
    assert_eq!(got.0, wanted.0, "{what}");
    assert_eq!((got.1.len(), got.2.len()), (wanted.1.len(), wanted.2.len()));
    let values = got.1.iter().zip(&wanted.1).position(|(a, b)| a != b);
    let marks = got.2.iter().zip(&wanted.2).position(|(a, b)| a != b);
    if let Some(at) = values.or(marks) {
        let entry = |of: &Written| (of.1.get(at).copied(), of.2.get(at).copied());
        panic!(
            "{what}, entry {at}: {:?}, not {:?}",
            entry(got),
            entry(wanted)
        );
    }
}

/// Fails where the typed answer is not the second implementation's, entry by entry.
fn same_typed(
    what: &str,
    got: &ForcedStatuses,
    wanted: &ForcedAnswer,
    [units, periods]: [usize; 2],
) {
    let (table, values, stuck) = match (got, wanted) {
        (ForcedStatuses::Unfit, ForcedAnswer::Unfit) => return,
        (ForcedStatuses::Found(table), ForcedAnswer::Found { values, stuck }) => {
            (table, values, stuck)
        }
        (got, wanted) => panic!("{what}: {got:?}, not {wanted:?}"),
    };
    assert_eq!(table.units.len(), units, "{what}");
    for (unit, row) in table.units.iter().enumerate() {
        assert_eq!(row.len(), periods, "{what}");
        for (period, forced) in row.iter().enumerate() {
            for (on, value) in [forced.off, forced.on].into_iter().enumerate() {
                let at = unit * 2 * periods + 2 * period + on;
                let due = (stuck[at] == 0).then_some(values[at]);
                assert_eq!(value, due, "{what}, unit {unit}, period {period}, {on}");
            }
        }
    }
}

/// What kind of answer it is.
fn kind(answer: &ForcedAnswer, periods: usize) -> &'static str {
    match answer {
        ForcedAnswer::NoProblem => "no problem",
        ForcedAnswer::Unfit => "unfit",
        ForcedAnswer::Found { stuck, .. } if stuck.iter().all(|&mark| mark == 0) => "none is stuck",
        ForcedAnswer::Found { stuck, .. } => {
            let mut units = stuck.chunks(2 * periods);
            match units.any(|unit| unit.iter().all(|&mark| mark == 1)) {
                true => "a unit is stuck",
                false => "some are stuck",
            }
        }
    }
}

/// The kind of the answer to a leaf, which is the same in every way to ask, and with one number too many or too few in any part of
/// the room unfit.
fn compared(what: &str, leaf: &RunsQuestion, tried: bool) -> &'static str {
    let (state, mut docket) = (State::after(&[&leaf.problem]), Docket::new());
    let (before, mut other) = (state.clone(), second::fresh());
    docket.lodge(&leaf.problem);
    second::lodge(&mut other, &leaf.problem);
    let problem = other.problem().expect("a problem");
    let size = [problem.units.len(), problem.periods()];
    let room = [2 * size[0] * size[1]; 2];

    let answer = forced_statuses(&other, &leaf.q, &leaf.s, &leaf.fixed);
    if tried {
        let tried = forced_by_trying(&other, &leaf.q, &leaf.s, &leaf.fixed);
        assert_eq!(answer, tried, "{what}, the second implementation");
    }
    same(what, &ask(&state, leaf, room), &due(&answer, room));
    for part in 0..2 {
        for length in [room[part] - 1, room[part] + 1] {
            let mut odd = room;
            odd[part] = length;
            let unfit = painted(sys::UNFIT, odd);
            same(&format!("{what}, {odd:?}"), &ask(&state, leaf, odd), &unfit);
        }
    }
    assert_eq!(state, before, "{what}");
    if let Some(fixed) = typed(&leaf.fixed) {
        let given = docket.forced_statuses(&leaf.q, &leaf.s, &fixed);
        same_typed(what, &given, &answer, size);
    }
    kind(&answer, size[1])
}

#[test]
fn small_leaves_get_the_second_implementations_entries() {
    let seed = seed();
    println!("seed {seed}, {SMALL} small price leaves with a status forced");
    let kinds = compare(SMALL, |index| {
        let what = format!("seed {seed}, small leaf {index}");
        compared(&what, &runs_question(seed, index), index < TRIED)
    });
    assert_eq!(kinds.len(), 4, "{kinds:?}");
    assert!(kinds.values().all(|&times| times >= SMALL / 100));
}

#[test]
fn large_leaves_get_the_second_implementations_entries() {
    let seed = seed();
    println!("seed {seed}, {LARGE} large price leaves with a status forced");
    let kinds = compare(LARGE, |index| {
        let what = format!("seed {seed}, large leaf {index}");
        compared(&what, &large_runs_question(seed, index), false)
    });
    assert!(kinds["some are stuck"] >= LARGE / 2, "{kinds:?}");
}

/// The room that fits document 01's problem.
const FIT: Room = [8, 8];

/// The entries at prices 10 and 14 with nothing fixed.
fn found() -> Written {
    let values = vec![5, -120, 5, -120, 0, 140, 0, 100];
    (sys::TOLD, values, vec![0; 8])
}

/// What is due where a status of it is fixed.
fn found_fixed(at: usize, byte: u8) -> Written {
    let (values, stuck) = match (at, byte) {
        // unit 1: off in period 1 it is off in both, for its stop
        (0, 1) => ([5, 0, 5, 0, 0, 140, 0, 100], [0, 1, 0, 1, 0, 0, 0, 0]),
        // on there it loses 100 and stops, or gains 220 behind it
        (0, 2) => (
            [0, -120, 105, -120, 0, 140, 0, 100],
            [1, 0, 0, 0, 0, 0, 0, 0],
        ),
        (1, 1) => ([5, 105, 5, 0, 0, 140, 0, 100], [0, 0, 0, 1, 0, 0, 0, 0]),
        (1, 2) => ([0, -120, 0, -120, 0, 140, 0, 100], [1, 0, 1, 0, 0, 0, 0, 0]),
        // unit 2: its start costs 60, and it loses 80 and 40
        (2, 1) => ([5, -120, 5, -120, 0, 0, 0, 100], [0, 0, 0, 0, 0, 1, 0, 0]),
        (2, 2) => (
            [5, -120, 5, -120, 0, 140, 140, 180],
            [0, 0, 0, 0, 1, 0, 0, 0],
        ),
        (3, 1) => ([5, -120, 5, -120, 0, 140, 0, 0], [0, 0, 0, 0, 0, 0, 0, 1]),
        (3, 2) => (
            [5, -120, 5, -120, 100, 180, 0, 100],
            [0, 0, 0, 0, 0, 0, 1, 0],
        ),
        _ => return found(),
    };
    (sys::TOLD, values.to_vec(), stuck.to_vec())
}

#[test]
fn every_byte_in_every_place_of_the_statuses() {
    let state = State::after(&[PROBLEM]);
    for at in 0..4 {
        for byte in 0..=255 {
            let mut asked = leaf(&[10, 14], &[0, 0], &[0; 4]);
            asked.fixed[at] = byte;
            let due = match byte {
                3.. => painted(sys::UNFIT, FIT),
                _ => found_fixed(at, byte),
            };
            assert_eq!(ask(&state, &asked, FIT), due, "byte {byte} at {at}");
        }
    }
}

#[test]
fn every_length_but_the_one_that_fits() {
    let state = State::after(&[PROBLEM]);
    let fit = [2, 2, 4, 8, 8];
    for part in 0..5 {
        for length in 0..60 {
            let mut lengths = fit;
            lengths[part] = length;
            let [q, s, fixed, room @ ..] = lengths;
            let mut asked = leaf(&[10, 14], &[0; 2], &[0; 4]);
            asked.q.resize(q, 1);
            asked.s.resize(s, 0);
            asked.fixed.resize(fixed, 0);
            let due = if lengths == fit {
                found()
            } else {
                painted(sys::UNFIT, room)
            };
            assert_eq!(ask(&state, &asked, room), due, "{lengths:?}");
        }
    }
}

#[test]
fn multipliers_at_their_ends() {
    let state = State::after(&[PROBLEM]);
    let most = 1_000_000_000;
    let ends = leaf(&[most; 2], &[most; 2], &[0; 4]);
    // at its greatest output unit 1 costs 900 a period and unit 2 740, and each is paid for it twice
    let first = 900 - 2 * 80_000_000_000;
    let second = 740 - 2 * 50_000_000_000;
    let values = vec![
        5,
        2 * first,
        first + 5,
        2 * first,
        60 + second,
        60 + 2 * second,
        60 + second,
        60 + 2 * second,
    ];
    let found = (sys::TOLD, values, vec![0; 8]);
    assert_eq!(ask(&state, &ends, FIT), found);
    for at in 0..4 {
        for above in [most + 1, 1 << 32, 1 << 63, u64::MAX] {
            let mut asked = ends.clone();
            match at {
                0 | 1 => asked.q[at] = above,
                _ => asked.s[at - 2] = above,
            }
            let unfit = painted(sys::UNFIT, FIT);
            assert_eq!(ask(&state, &asked, FIT), unfit, "{above} at {at}");
        }
    }
}

#[test]
fn a_short_state_comes_first_then_no_docket_then_no_problem_then_unfit() {
    let stuck = leaf(&[10, 14], &[0, 0], &[1, 2, 0, 0]);
    let unfit = leaf(&[1 << 40, 14, 7], &[], &[1, 2, 0, 9]);
    let odd = [9, 0];
    let first_stuck = (
        sys::TOLD,
        vec![0, 0, 0, 0, 0, 140, 0, 100],
        vec![1, 1, 1, 1, 0, 0, 0, 0],
    );
    let no_problem = painted(sys::NO_PROBLEM, FIT);
    for (texts, first, second) in [
        (&[][..], no_problem, sys::NO_PROBLEM),
        (&[PROBLEM], first_stuck, sys::UNFIT),
    ] {
        let state = State::after(texts);
        assert_eq!(ask(&state, &stuck, FIT), first);
        assert_eq!(ask(&state, &stuck, odd), painted(second, odd));
        assert_eq!(ask(&state, &unfit, FIT), painted(second, FIT));
        let mut none = state.clone();
        none.numbers[0] += 1;
        let (mut fewer, mut narrower) = (state.clone(), none.clone());
        fewer.numbers.pop();
        narrower.rows.pop();
        let all = [
            (none, usize::MAX - 1),
            (fewer, sys::TOO_SMALL),
            (narrower, sys::TOO_SMALL),
        ];
        for (state, due) in all {
            assert_eq!(ask(&state, &stuck, FIT), painted(due, FIT));
            assert_eq!(ask(&state, &unfit, odd), painted(due, odd));
        }
    }
}
