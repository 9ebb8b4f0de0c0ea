//! The cheapest runs at a price leaf: values worked out by hand, the questions that have no runs, and
//! what the questions from a seed bring. Small ones are compared with every row of outputs, large ones
//! with the price leaf's value and, status by status, with the least values of single units.

mod common;

use std::collections::BTreeMap;

use common::*;
use second::generator::Generator;
use second::inputs::problems::joined;
use second::inputs::{large_runs_question, runs_question, RunsQuestion};
use second::leaf::Pricing;
use second::minimum::{best_output_value, least_value, Worth};
use second::problem::Problem;
use second::runs::Question;
use second::schedule::cost;
use second::trying::{attaining_rows, row_value};
use second::{cheapest_runs, fresh, lodge, runs_by_trying, Docket, RunsAnswer};

const FREE: u8 = 0;
const OFF: u8 = 1;
const ON: u8 = 2;

fn found(value: i64, rows: &[&[u64]], short: &[u64]) -> RunsAnswer {
    RunsAnswer::Found {
        value,
        rows: rows.iter().map(|row| row.to_vec()).collect(),
        short: short.to_vec(),
    }
}

/// The answer to a small question, which is the same in both ways.
fn asked(docket: &Docket, q: &[u64], s: &[u64], fixed: &[u8]) -> RunsAnswer {
    let answer = cheapest_runs(docket, q, s, fixed);
    assert_eq!(answer, runs_by_trying(docket, q, s, fixed));
    answer
}

/// The answer for one unit without demand and spare, without reserve multipliers and with nothing
/// fixed: the value is that of the run alone.
fn one_run(unit: &str, q: &[u64]) -> RunsAnswer {
    let docket = holding(&one_unit(q.len(), unit));
    asked(&docket, q, &vec![0; q.len()], &vec![FREE; q.len()])
}

/// Unit 1 runs at a loss of 100 in period 1, whatever its output, and at a gain of 320 - 100 in
/// period 2; off would cost 5. Unit 2 gains in no period.
#[test]
fn the_example_problem() {
    let docket = holding(PROBLEM);
    assert_eq!(
        asked(&docket, &[10, 14], &[0, 0], &[FREE; 4]),
        found(1880, &[&[20, 80], &[0, 0]], &[40, 20])
    );
    // On in period 2 it comes from three periods off: 60, and 40 at any output.
    assert_eq!(
        asked(&docket, &[10, 14], &[0, 0], &[FREE, FREE, FREE, ON]),
        found(1980, &[&[20, 80], &[0, 10]], &[40, 10])
    );
    assert_eq!(
        asked(&docket, &[12, 18], &[0, 0], &[FREE; 4]),
        found(1820, &[&[80, 80], &[0, 50]], &[0, 0])
    );
}

#[test]
fn off_where_on_is_worth_as_much() {
    let unit = "0,5,0,2,4,1,1,1,10,10,0,0,0,0,2";
    assert_eq!(
        one_run(unit, &[5, 7, 5]),
        found(-8, &[&[0, 4, 0]], &[0, 0, 0])
    );
    // With a demand of 3 in each period the value is higher by 3·17.
    let docket = holding(&one_unit(3, unit).replace("demand=0,0,0", "demand=3,3,3"));
    assert_eq!(
        asked(&docket, &[5, 7, 5], &[0; 3], &[FREE; 3]),
        found(-8 + 51, &[&[0, 4, 0]], &[3, 0, 3])
    );
    // A start costs 3: on in period 1 saves it.
    let starting = "0,5,0,2,4,1,1,1,10,10,3,3,0,0,2";
    assert_eq!(
        one_run(starting, &[5, 7, 5]),
        found(-8, &[&[2, 4, 0]], &[0, 0, 0])
    );
    // A stop costs 1: on in all periods saves it.
    let stopping = "0,5,0,2,4,1,1,1,10,10,0,0,0,1,2";
    assert_eq!(
        one_run(stopping, &[5, 5, 5]),
        found(0, &[&[2, 2, 2]], &[0, 0, 0])
    );
}

/// 2·3 + 9 - 27 = 2·4 + 16 - 36 = -12.
#[test]
fn the_smaller_of_two_cheapest_outputs() {
    let unit = "0,2,1,2,6,1,1,-1,10,10,0,0,0,0,0";
    let docket = holding(&one_unit(1, unit));
    assert_eq!(asked(&docket, &[9], &[0], &[ON]), found(-12, &[&[3]], &[0]));
}

/// On in period 1 alone and on in period 3 alone gain 5 each; for both it would be off for too short
/// a time.
#[test]
fn off_in_the_first_period_that_differs() {
    let unit = "10,0,0,1,1,1,2,1,10,10,0,0,0,0,1";
    assert_eq!(
        one_run(unit, &[15, 1, 15]),
        found(-5, &[&[0, 0, 1]], &[0, 0, 0])
    );
}

/// A start is hot for 2 after one or two periods off, and cold for 5 after more; periods 2 and 3 pay
/// 3 each, period 1 nothing.
#[test]
fn hot_and_cold_starts() {
    let run = |initial: i64| {
        let unit = format!("0,0,0,1,1,1,1,{initial},1,1,2,5,1,0,0");
        one_run(&unit, &[0, 3, 3])
    };
    // Hot in period 1 and in period 2.
    assert_eq!(run(-1), found(-4, &[&[0, 1, 1]], &[0; 3]));
    // Hot in period 1 alone.
    assert_eq!(run(-2), found(-4, &[&[1, 1, 1]], &[0; 3]));
    // Cold in both, however long it was off.
    for initial in [-3, -4, -48, -1_000] {
        assert_eq!(run(initial), found(-1, &[&[0, 1, 1]], &[0; 3]));
    }
}

/// The reserve multiplier pays for pU, whatever the output: on, and with the least output.
#[test]
fn a_reserve_multiplier_makes_a_unit_run() {
    let docket = holding(&at_will(&[5], &[3], &[9]));
    // -5 + 12.
    assert_eq!(asked(&docket, &[0], &[1], &[FREE]), found(7, &[&[1]], &[2]));
    assert_eq!(asked(&docket, &[0], &[1], &[OFF]), found(12, &[&[0]], &[3]));
    // -5 - 5 + 3 + 12.
    assert_eq!(asked(&docket, &[1], &[1], &[FREE]), found(5, &[&[5]], &[0]));
}

/// Runs ask for no ramp, not even from p0: UR and DR are 1 here, and p0 is 5.
#[test]
fn ramps_are_left_out() {
    let unit = "0,1,0,1,9,1,1,1,1,1,0,0,0,0,5";
    assert_eq!(
        one_run(unit, &[2, 0, 2]),
        found(-18, &[&[9, 0, 9]], &[0; 3])
    );
    let docket = holding(&one_unit(3, unit));
    assert_eq!(
        asked(&docket, &[2, 0, 2], &[0; 3], &[ON; 3]),
        found(-17, &[&[9, 1, 9]], &[0; 3])
    );
}

/// Units of 5 and 2 run at their pU where the price is 1 and are off where it is 0.
#[test]
fn shortfalls() {
    let short = |demand: i64, spare: i64, price: u64| {
        let docket = holding(&at_will(&[5, 2], &[demand], &[spare]));
        match asked(&docket, &[price], &[0], &[FREE; 2]) {
            RunsAnswer::Found { short, .. } => short,
            answer => panic!("{answer:?}"),
        }
    };
    // 7 is above, at and below the demand.
    assert_eq!(short(0, 0, 1), [0]);
    assert_eq!(short(6, 0, 1), [0]);
    assert_eq!(short(7, 0, 1), [0]);
    assert_eq!(short(8, 0, 1), [1]);
    assert_eq!(short(320_000, 0, 1), [319_993]);
    // The spare is not asked for.
    for spare in [1, 2, 320_000] {
        assert_eq!(short(7, spare, 1), [0]);
        assert_eq!(short(8, spare, 1), [1]);
        assert_eq!(short(8, spare, 0), [8]);
    }
    assert_eq!(short(0, 5, 0), [0]);
}

/// What is above D in one period makes up for nothing in another.
#[test]
fn each_period_has_its_own_shortfall() {
    let docket = holding(&at_will(&[5, 2], &[9, 1, 6], &[3, 3, 3]));
    assert_eq!(
        asked(&docket, &[1, 1, 0], &[0; 3], &[FREE; 6]),
        found(-14 + 10, &[&[5, 5, 0], &[2, 2, 0]], &[2, 0, 6])
    );
    let first_off = [OFF, FREE, FREE, FREE, FREE, ON];
    assert_eq!(
        asked(&docket, &[1, 1, 0], &[0; 3], &first_off),
        found(-9 + 10, &[&[0, 5, 0], &[2, 2, 1]], &[7, 0, 5])
    );
}

/// Two units like the first of document 01, on before and with TD 2.
fn two_alike() -> Docket {
    let first = "unit=100,10,0,20,80,2,2,3,30,30,50,90,1,5,60";
    let second = "unit=40,14,0,10,50,1,1,-2,50,50,20,60,0,0,0";
    assert!(PROBLEM.contains(second));
    holding(&PROBLEM.replace(second, first))
}

#[test]
fn the_lowest_stuck_unit() {
    let docket = two_alike();
    // Off in period 1 and on in period 2 is too short a time off.
    let stuck = |fixed: [u8; 4]| cheapest_runs(&docket, &[10, 14], &[0, 0], &fixed);
    assert_eq!(stuck([OFF, ON, FREE, FREE]), RunsAnswer::Stuck(1));
    assert_eq!(stuck([FREE, FREE, OFF, ON]), RunsAnswer::Stuck(2));
    assert_eq!(stuck([OFF, ON, OFF, ON]), RunsAnswer::Stuck(1));
    assert_eq!(stuck([ON, OFF, OFF, ON]), RunsAnswer::Stuck(2));
    let found = asked(&docket, &[10, 14], &[0, 0], &[ON, OFF, OFF, OFF]);
    assert!(matches!(found, RunsAnswer::Found { .. }), "{found:?}");
}

/// Three periods, TD 3 and one period off before: on in period 3 at the earliest.
#[test]
fn stuck_by_what_was_before() {
    let docket = holding(&one_unit(3, "0,0,0,1,1,1,3,-1,1,1,0,0,0,0,0"));
    let fixed = |fixed: &[u8]| asked(&docket, &[9, 9, 9], &[0; 3], fixed);
    assert_eq!(fixed(&[FREE, ON, FREE]), RunsAnswer::Stuck(1));
    assert_eq!(fixed(&[ON, FREE, FREE]), RunsAnswer::Stuck(1));
    assert_eq!(
        fixed(&[FREE, FREE, FREE]),
        found(-9, &[&[0, 0, 1]], &[0; 3])
    );
    assert_eq!(fixed(&[FREE, FREE, OFF]), found(0, &[&[0, 0, 0]], &[0; 3]));
}

type Asked = (Vec<u64>, Vec<u64>, Vec<u8>);

/// Questions that do not go with a problem of two units and two periods, each for one reason, and
/// with these statuses where they are not the reason.
fn unfit_questions(fixed: [u8; 4]) -> Vec<Asked> {
    let zeros = || vec![0, 0];
    let mut questions = Vec::new();
    for length in [0, 1, 3, 4, 48] {
        questions.push((vec![0; length], zeros(), fixed.to_vec()));
        questions.push((zeros(), vec![0; length], fixed.to_vec()));
    }
    for length in [0, 1, 2, 3, 5, 8, 32 * 48] {
        let statuses = fixed.into_iter().cycle().take(length);
        questions.push((zeros(), zeros(), statuses.collect()));
    }
    for large in [1_000_000_001, 1 << 32, 1 << 63, u64::MAX] {
        for large in [vec![large, 0], vec![0, large]] {
            questions.push((large.clone(), zeros(), fixed.to_vec()));
            questions.push((zeros(), large, fixed.to_vec()));
        }
    }
    for place in 0..4 {
        for byte in [3, 4, 255] {
            let mut fixed = fixed.to_vec();
            fixed[place] = byte;
            questions.push((zeros(), zeros(), fixed));
        }
    }
    questions
}

#[test]
fn every_way_to_be_unfit() {
    let docket = two_alike();
    // Also where a unit is stuck besides.
    for fixed in [[FREE; 4], [ON; 4], [OFF, ON, OFF, ON]] {
        for (q, s, fixed) in unfit_questions(fixed) {
            let answer = asked(&docket, &q, &s, &fixed);
            assert_eq!(answer, RunsAnswer::Unfit, "{q:?} {s:?} {fixed:?}");
        }
    }
    // As many multipliers as there should be, but not of each kind.
    let shifted = asked(&docket, &[0], &[0, 0, 0], &[FREE; 4]);
    assert_eq!(shifted, RunsAnswer::Unfit);
}

/// The largest multipliers and the highest byte are fit. Each unit, on in both periods, gives 80 and
/// costs 100 + 800 in each; D is 160 in all, and D + R is 180.
#[test]
fn the_ends_of_what_is_fit() {
    let docket = two_alike();
    let largest = [1_000_000_000; 2];
    let value = 4 * 900 + 1_000_000_000 * (160 - 4 * 80 + 180 - 4 * 80);
    let runs: [&[u64]; 2] = [&[80, 80], &[80, 80]];
    for fixed in [[ON; 4], [FREE; 4]] {
        let answer = cheapest_runs(&docket, &largest, &largest, &fixed);
        assert_eq!(answer, found(value, &runs, &[0, 0]));
    }
}

/// Without a problem every question gets that answer, fit for some problem or for none.
#[test]
fn no_problem_comes_before_unfit() {
    let mut refused = fresh();
    let damaged = PROBLEM.replace("periods=2", "periods=0");
    assert_eq!(lodge(&mut refused, damaged.as_bytes()), at_line(13, 2));
    for docket in [fresh(), refused] {
        let fit = asked(&docket, &[10, 14], &[0, 0], &[FREE; 4]);
        assert_eq!(fit, RunsAnswer::NoProblem);
        for (q, s, fixed) in unfit_questions([FREE; 4]) {
            assert_eq!(asked(&docket, &q, &s, &fixed), RunsAnswer::NoProblem);
        }
    }
}

/// What else is held plays no part, and texts that are refused or passed change nothing.
#[test]
fn only_the_problem_is_asked() {
    let mut docket = holding(PROBLEM);
    let expected = found(1880, &[&[20, 80], &[0, 0]], &[40, 20]);
    for text in [SCHEDULE, TREE, TREE, "", PROBLEM] {
        lodge(&mut docket, text.as_bytes());
        let answer = cheapest_runs(&docket, &[10, 14], &[0, 0], &[FREE; 4]);
        assert_eq!(answer, expected);
    }
}

fn docket_of(question: &RunsQuestion) -> Docket {
    holding(std::str::from_utf8(&question.problem).unwrap())
}

fn walked(docket: &Docket, question: &RunsQuestion) -> RunsAnswer {
    cheapest_runs(docket, &question.q, &question.s, &question.fixed)
}

fn tried(docket: &Docket, question: &RunsQuestion) -> RunsAnswer {
    runs_by_trying(docket, &question.q, &question.s, &question.fixed)
}

/// For each unit of a question that is fit, all rows with the least value.
fn all_attaining(docket: &Docket, question: &RunsQuestion) -> Vec<Vec<Vec<i64>>> {
    let read = Question::read(docket, &question.q, &question.s, &question.fixed);
    let read = read.unwrap_or_else(|answer| panic!("{answer:?}"));
    let units = 0..read.problem.units.len();
    units.map(|unit| attaining_rows(&read, unit)).collect()
}

/// The statuses that the bytes of a question fix, by unit and period.
fn fixed_by(problem: &Problem, bytes: &[u8]) -> Vec<Vec<Option<bool>>> {
    let mut fixed = vec![vec![None; problem.periods()]; problem.units.len()];
    for (place, &byte) in bytes.iter().enumerate() {
        let (unit, period) = (place / problem.periods(), place % problem.periods());
        fixed[unit][period] = match byte {
            FREE => None,
            byte => Some(byte == ON),
        };
    }
    fixed
}

fn signed(numbers: &[u64]) -> Vec<i64> {
    numbers.iter().map(|&number| number as i64).collect()
}

/// What the price leaf of a question is worth, or `None` if a unit is stuck.
fn leaf_value(docket: &Docket, question: &RunsQuestion) -> Option<i64> {
    let problem = docket.problem().unwrap();
    let fixed = fixed_by(problem, &question.fixed);
    Pricing::of(problem).value(&fixed, &signed(&question.q), &signed(&question.s))
}

#[test]
fn small_questions_against_every_row() {
    let mut compared = 0;
    for index in 0..4_000 {
        let question = runs_question(80, index);
        let docket = docket_of(&question);
        let answer = walked(&docket, &question);
        assert_eq!(answer, tried(&docket, &question), "{index}");
        match answer {
            RunsAnswer::NoProblem => panic!("{index}"),
            RunsAnswer::Unfit => {}
            RunsAnswer::Stuck(_) => assert_eq!(leaf_value(&docket, &question), None, "{index}"),
            RunsAnswer::Found { value, .. } => {
                assert_eq!(leaf_value(&docket, &question), Some(value), "{index}");
                compared += 1;
            }
        }
    }
    assert!(compared > 2_000, "{compared}");
}

/// The row is the first of the rows with the least value by the outputs of one period after the
/// other, and the first by the statuses of all periods with the outputs after these.
#[test]
fn both_ways_to_compare_rows() {
    let mut several = 0;
    for index in 0..2_000 {
        let question = runs_question(81, index);
        let docket = docket_of(&question);
        let RunsAnswer::Found { rows, .. } = walked(&docket, &question) else {
            continue;
        };
        for (row, attaining) in rows.iter().zip(all_attaining(&docket, &question)) {
            let by_period = attaining.iter().min().unwrap();
            let statuses = |row: &&Vec<i64>| -> Vec<bool> { row.iter().map(|&p| p > 0).collect() };
            let statuses_first = attaining.iter().min_by_key(|row| (statuses(row), *row));
            assert_eq!(&signed(row), by_period, "{index}");
            assert_eq!(Some(by_period), statuses_first, "{index}");
            several += usize::from(attaining.len() > 1);
        }
    }
    assert!(several > 500, "{several}");
}

/// A lone price leaf in a tree is worth what is told with nothing fixed.
#[test]
fn small_questions_against_trees() {
    let mut compared = 0;
    for index in 0..2_000 {
        let question = runs_question(82, index);
        let free = question.fixed.iter().all(|&status| status == FREE);
        let mut docket = docket_of(&question);
        if let (true, RunsAnswer::Found { value, .. }) = (free, walked(&docket, &question)) {
            let (prices, reserves) = (signed(&question.q), signed(&question.s));
            let leaf = format!("price={} reserve={}", joined(&prices), joined(&reserves));
            let answer = lodge(&mut docket, tree(1, &leaf).as_bytes());
            assert_eq!(answer, held_tree(value, 0, 1), "{index}");
            compared += 1;
        }
    }
    assert!(compared > 500, "{compared}");
}

#[test]
fn small_questions_bring_every_answer() {
    let (mut found, mut tied, mut unfit, mut stuck) = (0, 0, 0, 0);
    // Where there are runs: a period that does not fall short, one that does, and a fixed status.
    let (mut reached, mut missed, mut fixed) = (0, 0, 0);
    for index in 0..2_000 {
        let question = runs_question(1, index);
        assert_eq!(question, runs_question(1, index));
        let docket = docket_of(&question);
        match walked(&docket, &question) {
            RunsAnswer::NoProblem => panic!("{index}"),
            RunsAnswer::Unfit => unfit += 1,
            RunsAnswer::Stuck(_) => stuck += 1,
            RunsAnswer::Found { short, .. } => {
                found += 1;
                let attaining = all_attaining(&docket, &question);
                tied += usize::from(attaining.iter().any(|rows| rows.len() > 1));
                reached += usize::from(short.contains(&0));
                missed += usize::from(short.iter().any(|&short| short > 0));
                fixed += usize::from(question.fixed.iter().any(|&status| status != FREE));
            }
        }
    }
    assert!((100..400).contains(&unfit), "{unfit}");
    assert!(stuck > 100, "{stuck}");
    assert!(found > 1_000 && tied * 10 > found, "{tied} of {found}");
    assert!(reached > 300 && missed > 300 && fixed > 300);
    assert_ne!(runs_question(1, 0), runs_question(2, 0));
}

/// In how many ways a question does not go with its problem, each by its name.
fn faults(question: &RunsQuestion) -> Vec<&'static str> {
    let docket = docket_of(question);
    let problem = docket.problem().unwrap();
    let statuses = problem.units.len() * problem.periods();
    let too_large = |multipliers: &[u64]| multipliers.iter().any(|&m| m > 1_000_000_000);
    let faults = [
        ("length of q", question.q.len() != problem.periods()),
        ("length of s", question.s.len() != problem.periods()),
        ("length of fixed", question.fixed.len() != statuses),
        ("multiplier of q", too_large(&question.q)),
        ("multiplier of s", too_large(&question.s)),
        ("byte", question.fixed.iter().any(|&byte| byte > ON)),
    ];
    let faults = faults.into_iter().filter(|&(_, is_there)| is_there);
    faults.map(|(name, _)| name).collect()
}

#[test]
fn small_questions_bring_every_way_to_be_unfit() {
    let mut seen: BTreeMap<&str, usize> = BTreeMap::new();
    for index in 0..2_000 {
        let question = runs_question(1, index);
        let faults = faults(&question);
        let unfit = walked(&docket_of(&question), &question) == RunsAnswer::Unfit;
        assert_eq!(unfit, faults.len() == 1, "{index}: {faults:?}");
        for fault in faults {
            *seen.entry(fault).or_default() += 1;
        }
    }
    assert_eq!(seen.len(), 6, "{seen:?}");
    assert!(seen.values().all(|&count| count > 8), "{seen:?}");
}

/// A large question that has runs, with what it is asked of.
struct Large {
    docket: Docket,
    question: RunsQuestion,
    value: i64,
    rows: Vec<Vec<i64>>,
}

impl Large {
    fn new(seed: u64, index: u64) -> Option<Large> {
        let question = large_runs_question(seed, index);
        let docket = docket_of(&question);
        match walked(&docket, &question) {
            RunsAnswer::Found { value, rows, .. } => Some(Large {
                docket,
                question,
                value,
                rows: rows.iter().map(|row| signed(row)).collect(),
            }),
            RunsAnswer::Stuck(_) => None,
            answer => panic!("{answer:?}"),
        }
    }

    fn problem(&self) -> &Problem {
        self.docket.problem().unwrap()
    }

    /// What an output is worth to a unit in a period (both from 0), on.
    fn on_value(&self, unit: &Generator, period: usize, output: i64) -> i64 {
        let (price, reserve) = (self.question.q[period], self.question.s[period]);
        let paid = price as i64 * output + reserve as i64 * unit.most_output;
        unit.running_cost(output) - paid
    }

    fn worths(&self, unit: &Generator) -> Vec<Worth> {
        let mut worths = Vec::new();
        for (&price, &reserve) in self.question.q.iter().zip(&self.question.s) {
            let on = best_output_value(unit, price as i64) - reserve as i64 * unit.most_output;
            worths.push(Worth { off: 0, on });
        }
        worths
    }

    /// The rows are worth the leaf's value: their cost, and what the multipliers charge for what is
    /// missing.
    fn check_value(&self) {
        let problem = self.problem();
        let mut value = cost(problem, &self.rows);
        for period in 0..problem.periods() {
            let mut output = 0;
            let mut capacity = 0;
            for (unit, row) in problem.units.iter().zip(&self.rows) {
                output += row[period];
                capacity += if row[period] > 0 { unit.most_output } else { 0 };
            }
            value += self.question.q[period] as i64 * (problem.demand[period] - output);
            value += self.question.s[period] as i64 * (problem.capacity_needed(period) - capacity);
        }
        assert_eq!(value, self.value);
    }

    /// Every output of a row is within its limits and the smallest of the cheapest. Tells how many
    /// have another as cheap.
    fn check_outputs(&self, unit: usize) -> usize {
        let generator = &self.problem().units[unit];
        let mut tied = 0;
        for (period, &output) in self.rows[unit].iter().enumerate() {
            if output == 0 {
                continue;
            }
            let value = |other: i64| self.on_value(generator, period, other);
            let (least, most) = (generator.least_output, generator.most_output);
            assert!((least..=most).contains(&output));
            assert!((least..output).all(|other| value(other) > value(output)));
            assert!((output..=most).all(|other| value(other) >= value(output)));
            tied += usize::from((output + 1..=most).any(|other| value(other) == value(output)));
        }
        tied
    }

    /// With a row's statuses fixed up to a period its least value remains; with off in a period where
    /// the row is on, after the same statuses, there is no such value. Tells for how many periods off
    /// there is one with on.
    fn check_statuses(&self, unit: usize) -> usize {
        let problem = self.problem();
        let generator = &problem.units[unit];
        let worths = self.worths(generator);
        let mut fixed = fixed_by(problem, &self.question.fixed)[unit].clone();
        let least = least_value(generator, &fixed, &worths);
        let mut tied = 0;
        for (period, &output) in self.rows[unit].iter().enumerate() {
            let on = output > 0;
            if let Some(status) = fixed[period] {
                assert_eq!(status, on);
                continue;
            }
            fixed[period] = Some(!on);
            let same = least_value(generator, &fixed, &worths) == least;
            assert!(!(on && same), "on in {period} though off is as good");
            tied += usize::from(same);
            fixed[period] = Some(on);
            assert_eq!(least_value(generator, &fixed, &worths), least);
        }
        tied
    }
}

#[test]
fn large_questions_against_the_leaf_and_single_units() {
    let mut compared = 0;
    for index in 0..24 {
        let question = large_runs_question(83, index);
        let value = leaf_value(&docket_of(&question), &question);
        let Some(large) = Large::new(83, index) else {
            assert_eq!(value, None, "{index}");
            continue;
        };
        assert_eq!(value, Some(large.value), "{index}");
        large.check_value();
        for unit in 0..large.rows.len() {
            large.check_outputs(unit);
            large.check_statuses(unit);
        }
        compared += 1;
    }
    assert!(compared > 16, "{compared}");
}

/// Units that run and units that do not, equal outputs and equal statuses, and few stuck units.
#[test]
fn large_questions_are_mixed() {
    let mut stuck = 0;
    for index in 0..40 {
        assert_eq!(large_runs_question(1, index), large_runs_question(1, index));
        let Some(large) = Large::new(1, index) else {
            stuck += 1;
            continue;
        };
        assert_eq!((large.rows.len(), large.rows[0].len()), (32, 48));
        if index % 4 == 3 {
            continue;
        }
        let idle = large.rows.iter().filter(|row| row.iter().all(|&p| p == 0));
        let idle = idle.count();
        assert!((1..32).contains(&idle), "{index}: {idle}");
        let outputs: usize = (0..32).map(|unit| large.check_outputs(unit)).sum();
        let statuses: usize = (0..32).map(|unit| large.check_statuses(unit)).sum();
        assert!(outputs > 0, "{index}");
        assert!(statuses > 0, "{index}");
    }
    assert!((1..10).contains(&stuck), "{stuck}");
}

/// Both ways give a row's value as the cost less what the multipliers pay: on in both periods for
/// 100 + 10·20 and 100 + 10·80, less 10·20 + 3·80 and 14·80.
#[test]
fn the_value_of_a_row() {
    let docket = holding(PROBLEM);
    let question = Question::read(&docket, &[10, 14], &[3, 0], &[FREE; 4]);
    let question = question.unwrap_or_else(|answer| panic!("{answer:?}"));
    assert_eq!(row_value(&question, 0, &[20, 80]), 300 + 900 - 440 - 1_120);
    // Off in both periods: the stop alone.
    assert_eq!(row_value(&question, 0, &[0, 0]), 5);
}
