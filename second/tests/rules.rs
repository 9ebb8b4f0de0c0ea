//! Schedules of small problems, and every schedule of tiny ones, against the rules put in another
//! way, number and place too.

mod common;

use common::{held_problem, refused};
use second::generator::Generator;
use second::inputs::problems::{planted, small_unit, text, with_initial_output};
use second::inputs::random::Random;
use second::inputs::schedules;
use second::problem::Problem;
use second::{fresh, lodge, Answer, Docket, Figures};

/// Statuses of a unit from long before period 1 on; period 1 has the returned place.
fn history(unit: &Generator, row: &[i64]) -> (Vec<bool>, usize) {
    let before = unit.initial.unsigned_abs() as usize;
    let mut statuses = vec![unit.initial > 0; before];
    statuses.extend(row.iter().map(|&output| output > 0));
    (statuses, before)
}

/// Length of the stretch that ends just before this place.
fn length_before(statuses: &[bool], place: usize) -> usize {
    let status = statuses[place - 1];
    statuses[..place]
        .iter()
        .rev()
        .take_while(|&&other| other == status)
        .count()
}

fn breaches(problem: &Problem, rows: &[Vec<i64>]) -> Vec<(u32, usize, usize)> {
    let mut breaches = Vec::new();
    for period in 0..problem.periods() {
        let output: i64 = rows.iter().map(|row| row[period]).sum();
        if output < problem.demand[period] {
            breaches.push((22, period + 1, 0));
        }
        let mut missing = problem.demand[period] + problem.spare[period];
        for (index, (unit, row)) in problem.units.iter().zip(rows).enumerate() {
            let now = row[period];
            if now > 0 {
                missing -= unit.most_output;
                if !(unit.least_output..=unit.most_output).contains(&now) {
                    breaches.push((21, period + 1, index + 1));
                }
            }
            let (statuses, first) = history(unit, row);
            let place = first + period;
            let spent = length_before(&statuses, place) as i64;
            match (statuses[place - 1], statuses[place]) {
                (true, false) if spent < unit.least_up => {
                    breaches.push((24, period + 1, index + 1))
                }
                (false, true) if spent < unit.least_down => {
                    breaches.push((24, period + 1, index + 1))
                }
                (true, true) => {
                    let yesterday = [unit.initial_output];
                    let rise = now - yesterday.iter().chain(row).nth(period).unwrap();
                    if rise > unit.most_rise || rise < -unit.most_fall {
                        breaches.push((25, period + 1, index + 1));
                    }
                }
                _ => {}
            }
        }
        if missing > 0 {
            breaches.push((23, period + 1, 0));
        }
    }
    breaches
}

fn cost(problem: &Problem, rows: &[Vec<i64>]) -> i64 {
    let mut cost = 0;
    for (unit, row) in problem.units.iter().zip(rows) {
        let (statuses, first) = history(unit, row);
        for place in first..statuses.len() {
            let output = row[place - first];
            let off = length_before(&statuses, place) as i64;
            cost += match (statuses[place - 1], statuses[place]) {
                (true, false) => unit.stop,
                (false, true) if off > unit.least_down + unit.hot_periods => unit.cold_start,
                (false, true) => unit.hot_start,
                _ => 0,
            };
            if statuses[place] {
                cost += unit.fixed_cost + output * (unit.linear_cost + output * unit.square_cost);
            }
        }
    }
    cost
}

/// How often schedules were accepted (0) or refused by a number, and by 25 in period 1.
#[derive(Debug, Default)]
struct Seen {
    numbers: [usize; 26],
    first_ramps: usize,
}

impl Seen {
    /// Lodges rows in a docket that holds the problem, and compares the answer with the rules.
    fn compare(&mut self, docket: &Docket, problem: &Problem, rows: &[Vec<i64>]) {
        let mut docket = docket.clone();
        let answer = lodge(&mut docket, schedules::text(1, rows).as_bytes());
        match breaches(problem, rows).into_iter().min() {
            None => {
                let cost = cost(problem, rows);
                assert_eq!(answer, Answer::Held(Figures::Schedule { cost }), "{rows:?}");
                assert_eq!(docket.held_cost().unwrap().rows, rows);
                self.numbers[0] += 1;
            }
            Some((number, period, unit)) => {
                assert_eq!(answer, refused(number, 0, unit, period), "{rows:?}");
                self.numbers[number as usize] += 1;
                self.first_ramps += usize::from((number, period) == (25, 1));
            }
        }
    }

    fn each_came(&self, least: usize) {
        for kind in [0, 21, 22, 23, 24, 25] {
            assert!(self.numbers[kind] > least, "{self:?}");
        }
        assert!(self.first_ramps > least, "{self:?}");
        assert!(self.numbers[25] - self.first_ramps > least, "{self:?}");
    }
}

fn holding(problem: &Problem) -> Docket {
    let mut docket = fresh();
    assert_eq!(lodge(&mut docket, text(problem).as_bytes()), held_problem());
    docket
}

#[test]
fn schedules_are_accepted_exactly_when_they_meet_the_rules() {
    let mut random = Random::new(5);
    let mut seen = Seen::default();
    for _ in 0..3_000 {
        let (periods, units) = (random.between(1, 8) as usize, random.between(1, 4) as usize);
        let made = planted(&mut random, periods, units);
        let problem = &made.problem;
        for _ in 0..4 {
            let mut rows = match made.schedules.first() {
                Some(rows) if random.chance(80) => rows.clone(),
                _ => schedules::planted_rows(&mut random, &problem.units, periods),
            };
            for _ in 0..random.below(3) {
                schedules::spoil(&mut random, problem, &mut rows);
            }
            seen.compare(&holding(problem), problem, &rows);
        }
    }
    seen.each_came(100);
}

/// A unit with few outputs and short ramps.
fn tiny_unit(random: &mut Random) -> Generator {
    let mut unit = small_unit(random);
    unit.least_output = random.between(1, 2);
    unit.most_output = unit.least_output + random.between(0, 3);
    unit.most_rise = random.between(1, 3);
    unit.most_fall = random.between(1, 3);
    with_initial_output(random, unit)
}

/// All lists of this many outputs, each from 0 to one above pU.
fn all_rows(unit: &Generator, periods: usize) -> Vec<Vec<i64>> {
    let outputs: Vec<i64> = (0..=unit.most_output + 1).collect();
    let mut rows = vec![Vec::new()];
    for _ in 0..periods {
        rows = rows
            .iter()
            .flat_map(|row| outputs.iter().map(|&output| [&row[..], &[output]].concat()))
            .collect();
    }
    rows
}

#[test]
fn every_schedule_of_tiny_problems_is_judged_by_the_rules() {
    let mut random = Random::new(6);
    let mut seen = Seen::default();
    for _ in 0..120 {
        let (periods, units) = random.pick(&[(1, 1), (2, 1), (3, 1), (1, 2), (2, 2)]);
        let problem = Problem {
            demand: (0..periods).map(|_| random.between(0, 3)).collect(),
            spare: (0..periods).map(|_| random.between(0, 2)).collect(),
            units: (0..units).map(|_| tiny_unit(&mut random)).collect(),
        };
        let docket = holding(&problem);
        for first in all_rows(&problem.units[0], periods) {
            if units == 1 {
                seen.compare(&docket, &problem, &[first]);
                continue;
            }
            for second in all_rows(&problem.units[1], periods) {
                seen.compare(&docket, &problem, &[first.clone(), second]);
            }
        }
    }
    seen.each_came(100);
}
