//! Problems, most of them planted: schedules are made first, and demand and spare after them, so
//! that the schedules meet the rules, often with nothing left over.

use crate::generator::Generator;
use crate::inputs::random::Random;
use crate::inputs::schedules::planted_rows;
use crate::problem::Problem;

/// A problem and schedules that meet its rules (none if it was made impossible).
pub struct Planted {
    pub problem: Problem,
    pub schedules: Vec<Vec<Vec<i64>>>,
}

/// How large a problem's figures are.
#[derive(Clone, Copy, PartialEq)]
pub enum Figures {
    Small,
    Usual,
    Edges,
}

/// Periods and units of a problem.
pub fn size(random: &mut Random) -> (usize, usize) {
    match random.below(1000) {
        0..=11 => (48, 32),
        12..=17 => (48, 1),
        18..=23 => (1, 32),
        24..=260 => (
            random.between(6, 18) as usize,
            random.between(4, 9) as usize,
        ),
        261..=280 => (
            random.between(20, 40) as usize,
            random.between(8, 20) as usize,
        ),
        _ => (random.between(1, 6) as usize, random.between(1, 3) as usize),
    }
}

pub fn planted(random: &mut Random, periods: usize, count: usize) -> Planted {
    let figures = random.pick(&[
        Figures::Small,
        Figures::Small,
        Figures::Small,
        Figures::Usual,
        Figures::Edges,
    ]);
    let mut units: Vec<Generator> = (0..count).map(|_| unit(random, figures)).collect();
    if count > 1 && random.chance(25) {
        units[1] = units[0].clone();
    }
    let schedules: Vec<_> = (0..random.between(1, 3))
        .map(|_| planted_rows(random, &units, periods))
        .collect();
    let slack = random.pick(&[0, 0, 0, 1, 5]);
    let mut problem = Problem {
        demand: vec![0; periods],
        spare: vec![0; periods],
        units,
    };
    for period in 0..periods {
        problem.demand[period] = met_demand(random, &schedules, period, slack);
        problem.spare[period] = met_spare(random, &problem, &schedules, period);
    }
    let mut planted = Planted { problem, schedules };
    if random.chance(14) {
        make_impossible(random, &mut planted);
    }
    planted
}

/// A demand that every planted schedule meets.
fn met_demand(random: &mut Random, schedules: &[Vec<Vec<i64>>], period: usize, slack: i64) -> i64 {
    let sums = schedules
        .iter()
        .map(|rows| rows.iter().map(|row| row[period]).sum::<i64>());
    let least = sums.min().unwrap_or(0);
    (least - random.between(0, slack)).max(0)
}

/// A spare that every planted schedule has, given the demand.
fn met_spare(
    random: &mut Random,
    problem: &Problem,
    schedules: &[Vec<Vec<i64>>],
    period: usize,
) -> i64 {
    let capacities = schedules
        .iter()
        .map(|rows| capacity_on(problem, rows, period));
    let most = capacities.min().unwrap_or(0) - problem.demand[period];
    match random.below(3) {
        0 => most,
        1 => random.between(0, most),
        _ => most.min(random.between(0, 3)),
    }
}

fn capacity_on(problem: &Problem, rows: &[Vec<i64>], period: usize) -> i64 {
    let units = problem.units.iter().zip(rows);
    units
        .filter(|(_, row)| row[period] > 0)
        .map(|(unit, _)| unit.most_output)
        .sum()
}

/// Raises what one period needs beyond what can be had there: beyond all units together, or
/// beyond all but one that cannot be on yet.
fn make_impossible(random: &mut Random, planted: &mut Planted) {
    planted.schedules.clear();
    let problem = &mut planted.problem;
    let period = random.below(problem.periods());
    let mut needed: i64 = problem.units.iter().map(|unit| unit.most_output).sum();
    let absent = random.below(problem.units.len());
    let unit = &mut problem.units[absent];
    if random.chance(70) {
        unit.least_down = (period as i64 + random.between(2, 4)).min(48);
        unit.initial = -random.between(1, 2).min(unit.least_down - 1).max(1);
        unit.initial_output = 0;
        needed -= unit.most_output;
    }
    problem.spare[period] = (needed + 1 - problem.demand[period]).clamp(0, 320_000);
}

/// A generator with figures of this size.
pub fn unit(random: &mut Random, figures: Figures) -> Generator {
    match figures {
        Figures::Small => small_unit(random),
        Figures::Usual => usual_unit(random),
        Figures::Edges => edge_unit(random),
    }
}

/// The generator with a p0 that goes with its Tini, pL and pU.
pub fn with_initial_output(random: &mut Random, unit: Generator) -> Generator {
    let initial_output = match unit.initially_on() {
        true => random.edgy(unit.least_output, unit.most_output),
        false => 0,
    };
    Generator {
        initial_output,
        ..unit
    }
}

pub fn small_unit(random: &mut Random) -> Generator {
    let least_output = random.between(1, 6);
    let hot_start = random.between(0, 30);
    let unit = Generator {
        fixed_cost: random.between(0, 30),
        linear_cost: random.between(0, 12),
        square_cost: random.pick(&[0, 0, 1, 2, 3]),
        least_output,
        most_output: least_output + random.pick(&[0, 1, 3, 5, 8]),
        least_up: random.between(1, 4),
        least_down: random.between(1, 4),
        initial: signed(random, 6),
        most_fall: random.between(1, 8),
        most_rise: random.between(1, 8),
        hot_start,
        cold_start: hot_start + random.between(0, 30),
        hot_periods: random.between(0, 3),
        stop: random.between(0, 10),
        initial_output: 0,
    };
    with_initial_output(random, unit)
}

fn usual_unit(random: &mut Random) -> Generator {
    let least_output = random.between(10, 150);
    let most_output = least_output + random.between(0, 400);
    let hot_start = random.between(0, 50_000_000);
    let ramp = random.pick(&[20, 50, 200, 10_000]);
    let unit = Generator {
        fixed_cost: random.between(0, 100_000_000),
        linear_cost: random.between(0, 3_000_000),
        square_cost: random.pick(&[0, 1, 48, 211, 712, 3_001]),
        least_output,
        most_output,
        least_up: random.between(1, 8),
        least_down: random.between(1, 8),
        initial: signed(random, 10),
        most_fall: ramp,
        most_rise: random.pick(&[ramp, 30]),
        hot_start,
        cold_start: hot_start * 2,
        hot_periods: random.between(0, 5),
        stop: random.pick(&[0, 1_000, 9_000_000]),
        initial_output: 0,
    };
    with_initial_output(random, unit)
}

/// Every value at or near an end of its range, more often than not.
fn edge_unit(random: &mut Random) -> Generator {
    let outputs = [random.edgy(1, 10_000), random.edgy(1, 10_000)];
    let starts = [random.edgy(0, 1_000_000_000), random.edgy(0, 1_000_000_000)];
    let same = random.chance(25);
    let unit = Generator {
        fixed_cost: random.edgy(0, 1_000_000_000),
        linear_cost: random.edgy(0, 10_000_000),
        square_cost: random.edgy(0, 10_000),
        least_output: outputs[0].min(outputs[1]),
        most_output: if same {
            outputs[0].min(outputs[1])
        } else {
            outputs[0].max(outputs[1])
        },
        least_up: random.edgy(1, 48),
        least_down: random.edgy(1, 48),
        initial: edgy_initial(random),
        most_fall: random.edgy(1, 10_000),
        most_rise: random.edgy(1, 10_000),
        hot_start: starts[0].min(starts[1]),
        cold_start: starts[0].max(starts[1]),
        hot_periods: random.edgy(0, 48),
        stop: random.edgy(0, 1_000_000_000),
        initial_output: 0,
    };
    with_initial_output(random, unit)
}

fn edgy_initial(random: &mut Random) -> i64 {
    let most = random.pick(&[1, 2, 47, 48, 49, 95, 96, 97, 1_000]);
    let periods = random.pick(&[most, most, 1]);
    random.pick(&[periods, -periods])
}

fn signed(random: &mut Random, most: i64) -> i64 {
    let periods = random.between(1, most);
    random.pick(&[periods, -periods])
}

/// The text of a problem.
pub fn text(problem: &Problem) -> String {
    let mut lines = vec![
        "kind=problem".to_string(),
        format!("periods={}", problem.periods()),
        format!("units={}", problem.units.len()),
        format!("demand={}", joined(&problem.demand)),
        format!("spare={}", joined(&problem.spare)),
    ];
    lines.extend(problem.units.iter().map(unit_line));
    lines.push("end=problem\n".to_string());
    lines.join("\n")
}

fn unit_line(unit: &Generator) -> String {
    let values = [
        unit.fixed_cost,
        unit.linear_cost,
        unit.square_cost,
        unit.least_output,
        unit.most_output,
        unit.least_up,
        unit.least_down,
        unit.initial,
        unit.most_fall,
        unit.most_rise,
        unit.hot_start,
        unit.cold_start,
        unit.hot_periods,
        unit.stop,
        unit.initial_output,
    ];
    format!("unit={}", joined(&values))
}

/// Values joined by commas.
pub fn joined(values: &[i64]) -> String {
    let numerals: Vec<String> = values.iter().map(i64::to_string).collect();
    numerals.join(",")
}
