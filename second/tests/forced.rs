//! Least values of units with a status forced: values worked out by hand, and the questions that get
//! none. Small questions from a seed are compared with every row of outputs, longer ones with every run
//! of statuses, and large ones with the cheapest runs.

mod common;

use common::*;
use second::generator::Generator;
use second::inputs::problems::{small_unit, text};
use second::inputs::random::Random;
use second::inputs::{large_runs_question, runs_question, RunsQuestion};
use second::problem::Problem;
use second::runs::Question;
use second::trying::row_value;
use second::{
    cheapest_runs, forced_by_trying, forced_statuses, fresh, lodge, Answer, Docket, ForcedAnswer,
    RunsAnswer,
};

const FREE: u8 = 0;
const OFF: u8 = 1;
const ON: u8 = 2;

/// A unit's value with a status forced; none where it is stuck.
type Entry = Option<i64>;

const STUCK: Entry = None;

/// The entries of a period: off forced and on forced.
fn both(off: i64, on: i64) -> [Entry; 2] {
    [Some(off), Some(on)]
}

/// The answer with these entries of each unit's periods.
fn table(units: &[&[[Entry; 2]]]) -> ForcedAnswer {
    let entries: Vec<Entry> = units.concat().concat();
    ForcedAnswer::Found {
        values: entries.iter().map(|entry| entry.unwrap_or(0)).collect(),
        stuck: entries.iter().map(|entry| entry.is_none() as u64).collect(),
    }
}

/// The answer to a small question, which is the same in both ways.
fn asked(docket: &Docket, q: &[u64], s: &[u64], fixed: &[u8]) -> ForcedAnswer {
    let answer = forced_statuses(docket, q, s, fixed);
    assert_eq!(answer, forced_by_trying(docket, q, s, fixed));
    answer
}

/// The answer for one unit without reserve multipliers and with nothing fixed.
fn one_table(unit: &str, q: &[u64]) -> ForcedAnswer {
    let docket = holding(&one_unit(q.len(), unit));
    asked(&docket, q, &vec![0; q.len()], &vec![FREE; q.len()])
}

/// Unit 1: on in both periods 100 - 220, on in period 1 alone 100 + 5, off in both 5; it may not be on
/// in period 2 alone. Unit 2: a start is 60, period 1 is 80 and period 2 is 40.
#[test]
fn the_example_problem() {
    let docket = holding(PROBLEM);
    let first = [both(5, -120), both(5, -120)];
    let asked = |fixed: [u8; 4]| asked(&docket, &[10, 14], &[0, 0], &fixed);
    assert_eq!(
        asked([FREE; 4]),
        table(&[&first, &[both(0, 140), both(0, 100)]])
    );
    assert_eq!(
        asked([FREE, FREE, FREE, ON]),
        table(&[&first, &[both(100, 180), [STUCK, Some(100)]]])
    );
    assert_eq!(
        asked([FREE, FREE, ON, OFF]),
        table(&[&first, &[[STUCK, Some(140)], [Some(140), STUCK]]])
    );
}

/// The two lists, number by number: each unit's entries together, each period's together, and off
/// before on.
#[test]
fn the_order_of_the_entries() {
    let docket = holding(&at_will(&[5, 2], &[0, 0, 0], &[0, 0, 0]));
    let fixed = [FREE, FREE, FREE, FREE, OFF, FREE];
    let answer = asked(&docket, &[1, 10, 100], &[0; 3], &fixed);
    let first = [-550, -555, -505, -555, -55, -555];
    let second = [-200, -202, -202, 0, -2, -202];
    let expected = ForcedAnswer::Found {
        values: [first, second].concat(),
        stuck: vec![0, 0, 0, 0, 0, 0, 0, 0, 0, 1, 0, 0],
    };
    assert_eq!(answer, expected);
}

/// Two units like the first of document 01, on before and with TD 2.
fn two_alike() -> Docket {
    let first = "unit=100,10,0,20,80,2,2,3,30,30,50,90,1,5,60";
    let second = "unit=40,14,0,10,50,1,1,-2,50,50,20,60,0,0,0";
    assert!(PROBLEM.contains(second));
    holding(&PROBLEM.replace(second, first))
}

/// Off in period 1 and on in period 2 is too short a time off: such a unit has no entry, whichever
/// status is forced, and the other has all of its own.
#[test]
fn a_stuck_unit_among_others() {
    let docket = two_alike();
    let free = [both(5, -120), both(5, -120)];
    let none = [[STUCK; 2]; 2];
    let asked = |fixed: [u8; 4]| asked(&docket, &[10, 14], &[0, 0], &fixed);
    assert_eq!(asked([OFF, ON, FREE, FREE]), table(&[&none, &free]));
    assert_eq!(asked([FREE, FREE, OFF, ON]), table(&[&free, &none]));
    assert_eq!(asked([OFF, ON, OFF, ON]), table(&[&none, &none]));
    // Fixed on in period 2 it has one run, and so it has fixed off in period 1.
    let staying = [[STUCK, Some(-120)]; 2];
    assert_eq!(asked([FREE, ON, FREE, FREE]), table(&[&staying, &free]));
    let leaving = [[Some(5), STUCK]; 2];
    assert_eq!(asked([OFF, FREE, FREE, FREE]), table(&[&leaving, &free]));
}

/// Three periods, TD 3 and one period off before: on in period 3 at the earliest.
#[test]
fn stuck_by_what_was_before() {
    let unit = "0,0,0,1,1,1,3,-1,10,10,0,0,0,0,0";
    let early = [Some(-3), STUCK];
    assert_eq!(
        one_table(unit, &[3, 3, 3]),
        table(&[&[early, early, both(0, -3)]])
    );
    let docket = holding(&one_unit(3, unit));
    let fixed = |fixed: &[u8]| asked(&docket, &[3, 3, 3], &[0; 3], fixed);
    let last_off = [[Some(0), STUCK]; 3];
    assert_eq!(fixed(&[FREE, FREE, OFF]), table(&[&last_off]));
    let last_on = [early, early, [STUCK, Some(-3)]];
    assert_eq!(fixed(&[FREE, FREE, ON]), table(&[&last_on]));
    assert_eq!(fixed(&[FREE, ON, FREE]), table(&[&[[STUCK; 2]; 3]]));
}

/// A start is hot for 2 after one or two periods off, and cold for 5 after more; periods 2 and 3 pay 3
/// each, period 1 nothing.
#[test]
fn hot_and_cold_starts() {
    let entries = |initial: i64| {
        let unit = format!("0,0,0,1,1,1,1,{initial},1,1,2,5,1,0,0");
        one_table(&unit, &[0, 3, 3])
    };
    // Hot in periods 1 and 2.
    let expected = [both(-4, -4), both(0, -4), both(-1, -4)];
    assert_eq!(entries(-1), table(&[&expected]));
    // Hot in period 1 alone.
    let expected = [both(-1, -4), both(0, -4), both(-1, -4)];
    assert_eq!(entries(-2), table(&[&expected]));
    // Cold in all, however long it was off.
    let expected = [both(-1, -1), both(0, -1), both(0, -1)];
    for initial in [-3, -4, -48, -1_000] {
        assert_eq!(entries(initial), table(&[&expected]));
    }
}

/// A period on costs 5 and a stop 7. TU is 3, for the stretch from before period 1 and for a later one.
#[test]
fn time_on_before_and_within() {
    let entries = |initial: i64| {
        let unit = format!("0,5,0,1,1,3,1,{initial},9,9,0,0,0,7,1");
        one_table(&unit, &[0; 4])
    };
    // Off in period 3 at the earliest.
    let kept = [STUCK, Some(17)];
    let expected = [kept, kept, both(17, 20), both(17, 20)];
    assert_eq!(entries(1), table(&[&expected]));
    // Off in period 2 at the earliest; on again in period 3 it is on in period 4.
    let expected = [[STUCK, Some(12)], both(12, 17), both(12, 20), both(12, 17)];
    assert_eq!(entries(2), table(&[&expected]));
    // Off in period 1.
    let expected = [both(7, 12), both(7, 17), both(7, 17), both(7, 12)];
    for initial in [3, 4, 48, 1_000] {
        assert_eq!(entries(initial), table(&[&expected]));
    }
}

#[test]
fn one_period() {
    // 2·3 + 9 - 27 = -12 at the best output.
    let unit = "0,2,1,2,6,1,1,-1,10,10,0,0,0,0,0";
    assert_eq!(one_table(unit, &[9]), table(&[&[both(0, -12)]]));
    let docket = holding(&one_unit(1, unit));
    let fixed = |status: u8| asked(&docket, &[9], &[0], &[status]);
    assert_eq!(fixed(OFF), table(&[&[[Some(0), STUCK]]]));
    assert_eq!(fixed(ON), table(&[&[[STUCK, Some(-12)]]]));
    // The reserve multiplier pays for pU.
    let reserve = asked(&docket, &[9], &[2], &[FREE]);
    assert_eq!(reserve, table(&[&[both(0, -24)]]));
    // TD 2 after one period off, and TU 2 after one period on.
    let off = "0,2,1,2,6,1,2,-1,10,10,0,0,0,0,0";
    assert_eq!(one_table(off, &[9]), table(&[&[[Some(0), STUCK]]]));
    let on = "0,2,1,2,6,2,1,1,10,10,0,0,0,0,2";
    assert_eq!(one_table(on, &[9]), table(&[&[[STUCK, Some(-12)]]]));
}

/// Demand and spare, UR, DR and p0 play no part.
#[test]
fn what_plays_no_part() {
    let unit = "0,1,0,1,9,1,1,1,1,1,0,0,0,0,5";
    let expected = table(&[&[both(-9, -18), both(-18, -17), both(-9, -18)]]);
    assert_eq!(one_table(unit, &[2, 0, 2]), expected);
    let other = "0,1,0,1,9,1,1,1,7,8,0,0,0,0,9";
    assert_eq!(one_table(other, &[2, 0, 2]), expected);
    let asking = one_unit(3, unit).replace("demand=0,0,0", "demand=320000,7,1");
    let asking = asking.replace("spare=0,0,0", "spare=1,320000,5");
    let answer = asked(&holding(&asking), &[2, 0, 2], &[0; 3], &[FREE; 3]);
    assert_eq!(answer, expected);
}

/// A unit of 48 periods with TD 48 and Tcold 48, a hot start of 10, a cold one of 100, and 200 gained in
/// each period on. It goes on at most once.
fn over_48(initial: i64) -> ForcedAnswer {
    let unit = format!("0,0,0,1,1,1,48,{initial},1,1,10,100,48,0,0");
    let docket = holding(&one_unit(48, &unit));
    forced_statuses(&docket, &[200; 48], &[0; 48], &[FREE; 48])
}

#[test]
fn the_longest_times_off() {
    // On in period 48 alone.
    let mut expected = vec![[Some(-190), STUCK]; 47];
    expected.push(both(0, -190));
    assert_eq!(over_48(-1), table(&[&expected]));
    // On from period 1, or up to a period off or from it on: hot in each after 48, cold after 97.
    for (initial, start) in [(-48, 10), (-49, 10), (-97, 100), (-1_000, 100)] {
        let around = |t: i64| start - 200 * t.max(47 - t);
        let expected: Vec<_> = (0..48).map(|t| both(around(t), start - 200 * 48)).collect();
        assert_eq!(over_48(initial), table(&[&expected]), "{initial}");
    }
    // After 96 periods a start is hot in period 1 and cold later.
    let around = |t: i64| match t {
        0 => 100 - 200 * 47,
        _ => (10 - 200 * t).min(100 - 200 * (47 - t)),
    };
    let expected: Vec<_> = (0..48).map(|t| both(around(t), 10 - 200 * 48)).collect();
    assert_eq!(over_48(-96), table(&[&expected]));
}

type Asked = (Vec<u64>, Vec<u64>, Vec<u8>);

/// Questions that do not go with a problem of two units and two periods, each for one reason, and
/// with these statuses where they are not the reason.
fn unfit_questions(fixed: [u8; 4]) -> Vec<Asked> {
    let zeros = || vec![0, 0];
    let mut questions = Vec::new();
    for length in [0, 1, 3, 4, 48] {
        questions.push((vec![0; length], zeros(), fixed.to_vec()));
        questions.push((zeros(), vec![0; length], fixed.to_vec()));
    }
    for length in [0, 1, 2, 3, 5, 8, 32 * 48] {
        let statuses = fixed.into_iter().cycle().take(length);
        questions.push((zeros(), zeros(), statuses.collect()));
    }
    for large in [1_000_000_001, 1 << 32, 1 << 63, u64::MAX] {
        for large in [vec![large, 0], vec![0, large]] {
            questions.push((large.clone(), zeros(), fixed.to_vec()));
            questions.push((zeros(), large, fixed.to_vec()));
        }
    }
    for place in 0..4 {
        for byte in [3, 4, 255] {
            let mut fixed = fixed.to_vec();
            fixed[place] = byte;
            questions.push((zeros(), zeros(), fixed));
        }
    }
    questions
}

#[test]
fn every_way_to_be_unfit() {
    let docket = two_alike();
    // Also where a unit is stuck besides.
    for fixed in [[FREE; 4], [ON; 4], [OFF, ON, OFF, ON]] {
        for (q, s, fixed) in unfit_questions(fixed) {
            let answer = asked(&docket, &q, &s, &fixed);
            assert_eq!(answer, ForcedAnswer::Unfit, "{q:?} {s:?} {fixed:?}");
        }
    }
    // As many multipliers as there should be, but not of each kind.
    let shifted = asked(&docket, &[0], &[0, 0, 0], &[FREE; 4]);
    assert_eq!(shifted, ForcedAnswer::Unfit);
}

/// The largest multipliers are fit: on, a unit is paid for 80 twice in each period, and costs 900.
#[test]
fn the_ends_of_what_is_fit() {
    let docket = two_alike();
    let largest = [1_000_000_000; 2];
    let on = 900 - 1_000_000_000 * 160;
    let free = [both(5, 2 * on), both(on + 5, 2 * on)];
    let answer = forced_statuses(&docket, &largest, &largest, &[FREE; 4]);
    assert_eq!(answer, table(&[&free, &free]));
    let kept = [[STUCK, Some(2 * on)]; 2];
    let answer = forced_statuses(&docket, &largest, &largest, &[ON; 4]);
    assert_eq!(answer, table(&[&kept, &kept]));
}

/// Without a problem every question gets that answer, fit for some problem or for none.
#[test]
fn no_problem_comes_before_unfit() {
    let mut refused = fresh();
    let damaged = PROBLEM.replace("periods=2", "periods=0");
    assert_eq!(lodge(&mut refused, damaged.as_bytes()), at_line(13, 2));
    for docket in [fresh(), refused] {
        let fit = asked(&docket, &[10, 14], &[0, 0], &[FREE; 4]);
        assert_eq!(fit, ForcedAnswer::NoProblem);
        for (q, s, fixed) in unfit_questions([FREE; 4]) {
            assert_eq!(asked(&docket, &q, &s, &fixed), ForcedAnswer::NoProblem);
        }
    }
}

/// What else is held plays no part, a tree with counts and ramp multipliers neither, and texts that
/// are refused or passed change nothing.
#[test]
fn only_the_problem_is_asked() {
    let mut docket = holding(PROBLEM);
    let leaf = "rampprice=10,14 reserve=0,9 up=3 down=4 up=0 down=1";
    let other = tree(4, &format!("count=2,0 short=2 {leaf}"));
    let accepted = under(PROBLEM, &other);
    assert!(!matches!(accepted, Answer::Refused(_)), "{accepted:?}");
    let units: [&[_]; 2] = [
        &[both(5, -120), both(5, -120)],
        &[both(0, 140), both(0, 100)],
    ];
    for text in [SCHEDULE, TREE, TREE, &other, "", PROBLEM] {
        lodge(&mut docket, text.as_bytes());
        let answer = forced_statuses(&docket, &[10, 14], &[0, 0], &[FREE; 4]);
        assert_eq!(answer, table(&units));
    }
}

fn docket_of(question: &RunsQuestion) -> Docket {
    holding(std::str::from_utf8(&question.problem).unwrap())
}

fn walked(docket: &Docket, question: &RunsQuestion) -> ForcedAnswer {
    forced_statuses(docket, &question.q, &question.s, &question.fixed)
}

/// The entries of an answer by unit and period, or `None` if it has none. Its lists are as long as they
/// should be, and beside each stuck entry there is 0.
fn entries(docket: &Docket, answer: &ForcedAnswer) -> Option<Vec<Vec<[Entry; 2]>>> {
    let ForcedAnswer::Found { values, stuck } = answer else {
        return None;
    };
    let problem = docket.problem().unwrap();
    let (units, periods) = (problem.units.len(), problem.periods());
    assert_eq!(
        (values.len(), stuck.len()),
        (2 * units * periods, 2 * units * periods)
    );
    let entry = |place: usize| match (values[place], stuck[place]) {
        (value, 0) => Some(value),
        (0, 1) => STUCK,
        other => panic!("{other:?}"),
    };
    let of = |unit: usize, period: usize| {
        let place = unit * 2 * periods + 2 * period;
        [entry(place), entry(place + 1)]
    };
    let rows = (0..units).map(|unit| (0..periods).map(|period| of(unit, period)).collect());
    Some(rows.collect())
}

#[test]
fn small_questions_against_every_row() {
    let mut compared = 0;
    for index in 0..4_000 {
        let question = runs_question(84, index);
        let docket = docket_of(&question);
        let answer = walked(&docket, &question);
        let tried = forced_by_trying(&docket, &question.q, &question.s, &question.fixed);
        assert_eq!(answer, tried, "{index}");
        let runs = cheapest_runs(&docket, &question.q, &question.s, &question.fixed);
        let unfit = answer == ForcedAnswer::Unfit;
        assert_eq!(unfit, runs == RunsAnswer::Unfit, "{index}");
        compared += usize::from(!unfit);
    }
    assert!(compared > 3_000, "{compared}");
}

/// The lesser of two values, one of them if the other is missing.
fn lesser(entries: [Entry; 2]) -> Entry {
    entries.into_iter().flatten().min()
}

/// A unit's own least value under a question that is fit, from the cheapest runs: those of the other
/// units are freed of what is fixed, so that none but this one can be stuck.
fn least_of_unit(docket: &Docket, question: &RunsQuestion, unit: usize) -> Entry {
    let periods = docket.problem().unwrap().periods();
    let mut fixed = vec![FREE; question.fixed.len()];
    let own = unit * periods..(unit + 1) * periods;
    fixed[own.clone()].copy_from_slice(&question.fixed[own]);
    match cheapest_runs(docket, &question.q, &question.s, &fixed) {
        RunsAnswer::Found { rows, .. } => {
            let row: Vec<i64> = rows[unit].iter().map(|&output| output as i64).collect();
            let read = Question::read(docket, &question.q, &question.s, &fixed);
            let read = read.unwrap_or_else(|answer| panic!("{answer:?}"));
            Some(row_value(&read, unit, &row))
        }
        answer => {
            assert_eq!(answer, RunsAnswer::Stuck(unit + 1));
            STUCK
        }
    }
}

/// In each period the lesser of a unit's two entries is its least value; where a status is fixed, it is
/// that status's entry, and the other is stuck.
fn check_unit(least: Entry, fixed: &[u8], entries: &[[Entry; 2]]) {
    for (&status, &[off, on]) in fixed.iter().zip(entries) {
        assert_eq!(lesser([off, on]), least);
        match status {
            OFF => assert_eq!([off, on], [least, STUCK]),
            ON => assert_eq!([off, on], [STUCK, least]),
            _ => {}
        }
    }
}

#[test]
fn the_lesser_entry_is_the_least_value() {
    let (mut units, mut stuck) = (0, 0);
    for index in 0..2_000 {
        let question = runs_question(85, index);
        let docket = docket_of(&question);
        let Some(rows) = entries(&docket, &walked(&docket, &question)) else {
            continue;
        };
        for (unit, row) in rows.iter().enumerate() {
            let least = least_of_unit(&docket, &question, unit);
            check_unit(
                least,
                question.fixed.chunks(row.len()).nth(unit).unwrap(),
                row,
            );
            units += 1;
            stuck += usize::from(least.is_none());
        }
    }
    assert!(units > 3_000 && stuck > 100, "{stuck} of {units}");
}

#[test]
fn small_questions_bring_every_kind_of_entry() {
    let (mut off, mut on, mut tied, mut off_stuck, mut on_stuck) = (0, 0, 0, 0, 0);
    // Questions with a stuck unit beside one that is not.
    let mut beside = 0;
    for index in 0..2_000 {
        let question = runs_question(86, index);
        let docket = docket_of(&question);
        let Some(rows) = entries(&docket, &walked(&docket, &question)) else {
            continue;
        };
        let none = |row: &Vec<[Entry; 2]>| row.iter().all(|&entries| entries == [STUCK; 2]);
        beside += usize::from(rows.iter().any(none) && !rows.iter().all(none));
        let free = question.fixed.iter().map(|&status| status == FREE);
        for (entries, free) in rows.concat().into_iter().zip(free) {
            match entries {
                _ if !free => {}
                [None, None] => {}
                [None, Some(_)] => off_stuck += 1,
                [Some(_), None] => on_stuck += 1,
                [first, second] if first == second => tied += 1,
                [first, second] if first < second => off += 1,
                _ => on += 1,
            }
        }
    }
    let seen = [off, on, tied, off_stuck, on_stuck, beside];
    assert!(seen.iter().all(|&count| count > 50), "{seen:?}");
}

/// A problem of one or two units and five to nine periods, with a question. Figures are small; some
/// units were in their status for very long.
fn longer_question(index: u64) -> RunsQuestion {
    let random = &mut Random::for_input(87, index);
    let periods = random.between(5, 9) as usize;
    let mut units: Vec<Generator> = (0..random.between(1, 2))
        .map(|_| small_unit(random))
        .collect();
    if random.chance(15) {
        units[0].initial = 1_000 * units[0].initial.signum();
    }
    let places = periods * units.len();
    let percent = random.pick(&[0, 10, 30]);
    let status = |random: &mut Random| match random.chance(percent) {
        true => random.pick(&[OFF, ON]),
        false => FREE,
    };
    RunsQuestion {
        q: (0..periods).map(|_| random.between(0, 40) as u64).collect(),
        s: (0..periods).map(|_| random.pick(&[0, 0, 1, 3])).collect(),
        fixed: (0..places).map(|_| status(random)).collect(),
        problem: text(&Problem {
            demand: vec![0; periods],
            spare: vec![0; periods],
            units,
        })
        .into_bytes(),
    }
}

/// The stretches of a unit's history and run: status and length, the one before period 1 first.
fn stretches(unit: &Generator, run: &[bool]) -> Vec<(bool, i64)> {
    let mut stretches = vec![(unit.initial > 0, unit.initial.abs())];
    for &on in run {
        let last = stretches.len() - 1;
        match stretches[last].0 == on {
            true => stretches[last].1 += 1,
            false => stretches.push((on, 1)),
        }
    }
    stretches
}

/// What the stretches of a run cost where they end, or `None` if one of them is too short. The last is
/// cut by the horizon and does not end.
fn switching_cost(unit: &Generator, run: &[bool]) -> Option<i64> {
    let stretches = stretches(unit, run);
    let mut cost = 0;
    for &(on, length) in &stretches[..stretches.len() - 1] {
        let (least, price) = match on {
            true => (unit.least_up, unit.stop),
            false if length > unit.least_down + unit.hot_periods => {
                (unit.least_down, unit.cold_start)
            }
            false => (unit.least_down, unit.hot_start),
        };
        if length < least {
            return None;
        }
        cost += price;
    }
    Some(cost)
}

/// The least, over the outputs of a period on, of what it costs less what it is paid.
fn cheapest_period(unit: &Generator, price: u64, reserve: u64) -> i64 {
    let outputs = unit.least_output..=unit.most_output;
    let value = |p: i64| {
        let cost = unit.fixed_cost + unit.linear_cost * p + unit.square_cost * p * p;
        cost - price as i64 * p - reserve as i64 * unit.most_output
    };
    outputs.map(value).min().unwrap()
}

/// The value of a run of statuses with its cheapest outputs, or `None` if it is not permitted or does
/// not agree with what is fixed.
fn run_value(unit: &Generator, question: &RunsQuestion, fixed: &[u8], run: &[bool]) -> Entry {
    let mut value = switching_cost(unit, run)?;
    for (period, &on) in run.iter().enumerate() {
        if fixed[period] == if on { OFF } else { ON } {
            return None;
        }
        if on {
            value += cheapest_period(unit, question.q[period], question.s[period]);
        }
    }
    Some(value)
}

/// A unit's entries, from every run of statuses.
fn by_every_run(unit: &Generator, question: &RunsQuestion, fixed: &[u8]) -> Vec<[Entry; 2]> {
    let periods = fixed.len();
    let mut entries = vec![[STUCK; 2]; periods];
    for bits in 0..1_u32 << periods {
        let run: Vec<bool> = (0..periods).map(|period| bits >> period & 1 == 1).collect();
        let value = run_value(unit, question, fixed, &run);
        for (entries, &on) in entries.iter_mut().zip(&run) {
            let entry = &mut entries[usize::from(on)];
            *entry = lesser([*entry, value]);
        }
    }
    entries
}

#[test]
fn longer_questions_against_every_run() {
    let (mut cold, mut stuck) = (0, 0);
    for index in 0..400 {
        let question = longer_question(index);
        let docket = docket_of(&question);
        let problem = docket.problem().unwrap();
        let rows = entries(&docket, &walked(&docket, &question)).unwrap();
        let fixed = question.fixed.chunks(problem.periods());
        for ((unit, fixed), row) in problem.units.iter().zip(fixed).zip(rows) {
            assert_eq!(row, by_every_run(unit, &question, fixed), "{index}");
            stuck += usize::from(row.concat().contains(&STUCK));
            cold += usize::from(unit.least_down + unit.hot_periods < problem.periods() as i64);
        }
    }
    assert!(cold > 200 && stuck > 100, "{cold} {stuck}");
}

/// At the largest size, the entries of some places against the cheapest runs with that status fixed:
/// these are stuck with the entry, or the leaf's value is that much above what it was.
#[test]
fn large_questions_against_the_cheapest_runs() {
    let (mut compared, mut stuck) = (0, 0);
    for index in 0..6 {
        let question = large_runs_question(88, index);
        let docket = docket_of(&question);
        let rows = entries(&docket, &walked(&docket, &question)).unwrap();
        let runs = cheapest_runs(&docket, &question.q, &question.s, &question.fixed);
        let RunsAnswer::Found { value, .. } = runs else {
            continue;
        };
        let random = &mut Random::for_input(88, index);
        for _ in 0..20 {
            let (unit, period) = (random.below(32), random.below(48));
            let least = lesser(rows[unit][period]).unwrap();
            let forced = forced_leaf(&docket, &question, unit, period, random.chance(50));
            let entry = rows[unit][period][usize::from(forced.on)];
            assert_eq!(entry.map(|entry| value - least + entry), forced.value);
            compared += 1;
            stuck += usize::from(entry.is_none());
        }
    }
    assert!(compared >= 60 && stuck > 0, "{stuck} of {compared}");
}

/// A status that was forced, and the leaf's value then, if the unit is not stuck.
struct ForcedLeaf {
    on: bool,
    value: Entry,
}

fn forced_leaf(
    docket: &Docket,
    question: &RunsQuestion,
    unit: usize,
    period: usize,
    on: bool,
) -> ForcedLeaf {
    let mut fixed = question.fixed.clone();
    let status = &mut fixed[unit * 48 + period];
    if *status == if on { OFF } else { ON } {
        return ForcedLeaf { on, value: STUCK };
    }
    *status = if on { ON } else { OFF };
    let value = match cheapest_runs(docket, &question.q, &question.s, &fixed) {
        RunsAnswer::Found { value, .. } => Some(value),
        RunsAnswer::Stuck(stuck) if stuck == unit + 1 => STUCK,
        answer => panic!("{answer:?}"),
    };
    ForcedLeaf { on, value }
}

/// At the largest size: in each period the status of the cheapest run has the unit's least value, and
/// the other status none that is below.
#[test]
fn large_questions_against_the_statuses_of_the_cheapest_runs() {
    let mut units = 0;
    for index in 0..8 {
        let question = large_runs_question(89, index);
        let docket = docket_of(&question);
        let rows = entries(&docket, &walked(&docket, &question)).unwrap();
        let (q, s, fixed) = (&question.q, &question.s, &question.fixed);
        let RunsAnswer::Found { rows: runs, .. } = cheapest_runs(&docket, q, s, fixed) else {
            continue;
        };
        let read = Question::read(&docket, q, s, fixed);
        let read = read.unwrap_or_else(|answer| panic!("{answer:?}"));
        for (unit, run) in runs.iter().enumerate() {
            let run: Vec<i64> = run.iter().map(|&output| output as i64).collect();
            let least = Some(row_value(&read, unit, &run));
            check_unit(least, &fixed[unit * 48..(unit + 1) * 48], &rows[unit]);
            for (&output, entries) in run.iter().zip(&rows[unit]) {
                assert_eq!(entries[usize::from(output > 0)], least);
            }
            units += 1;
        }
    }
    assert!(units >= 3 * 32, "{units}");
}
