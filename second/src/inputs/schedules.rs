//! Schedules: ones that meet the rules, cheaper ones made from them, and ones that miss by little.

use crate::generator::Generator;
use crate::inputs::problems::joined;
use crate::inputs::random::Random;
use crate::problem::Problem;
use crate::schedule::check_rules;

type Rows = Vec<Vec<i64>>;

/// For each unit a run that obeys its up and down times, with outputs inside its limits and ramps,
/// the ramp from p0 among them.
pub fn planted_rows(random: &mut Random, units: &[Generator], periods: usize) -> Rows {
    let liveliness = random.pick(&[10, 40, 80]);
    units
        .iter()
        .map(|unit| planted_row(random, unit, periods, liveliness))
        .collect()
}

fn planted_row(
    random: &mut Random,
    unit: &Generator,
    periods: usize,
    liveliness: usize,
) -> Vec<i64> {
    let mut on = unit.initially_on();
    let mut spent = unit.initially_spent();
    let mut row: Vec<i64> = Vec::new();
    for _ in 0..periods {
        if unit.may_leave(on, spent) && random.chance(liveliness) {
            on = !on;
            spent = 0;
        }
        spent += 1;
        let before = row.last().copied().unwrap_or(unit.initial_output);
        row.push(if on {
            next_output(random, unit, before)
        } else {
            0
        });
    }
    row
}

/// An output that the ramp allows after `before` (0 for a unit that was off).
fn next_output(random: &mut Random, unit: &Generator, before: i64) -> i64 {
    let (mut low, mut high) = (unit.least_output, unit.most_output);
    if before > 0 {
        low = low.max(before - unit.most_fall);
        high = high.min(before + unit.most_rise);
    }
    random.edgy(low, high)
}

/// Lowers outputs, unit by unit, as far as the rules allow one at a time.
pub fn trimmed(random: &mut Random, problem: &Problem, rows: &Rows) -> Rows {
    let mut rows = rows.clone();
    for _ in 0..12 {
        let unit = random.below(rows.len());
        let period = random.below(problem.periods());
        let kept = rows[unit][period];
        let surplus = column(&rows, period) - problem.demand[period];
        let lowered = kept - surplus.max(0);
        rows[unit][period] = match random.below(4) {
            0 => 0,
            _ => lowered.max(problem.units[unit].least_output).min(kept),
        };
        if check_rules(problem, &rows).is_err() {
            rows[unit][period] = kept;
        }
    }
    rows
}

fn column(rows: &Rows, period: usize) -> i64 {
    rows.iter().map(|row| row[period]).sum()
}

/// Changes a schedule by a little, most often so that some rule is just broken.
pub fn spoil(random: &mut Random, problem: &Problem, rows: &mut Rows) {
    let unit = random.below(rows.len());
    let period = random.below(problem.periods());
    let generator = &problem.units[unit];
    let row = &mut rows[unit];
    match random.below(24) {
        0 => row[period] = generator.least_output - 1,
        1 => row[period] = (generator.most_output + 1).min(10_000),
        2 => row[period] = (row[period] - 1).max(0),
        3 => row[period] = (row[period] + 1).min(10_000),
        4 => row[period] = 0,
        5 => row[period] = generator.least_output,
        6..=7 => start_too_soon(random, generator, row),
        8 => row[period..].fill(0),
        9..=15 => break_ramp(random, generator, row),
        _ => break_first_ramp(random, problem, rows),
    }
}

/// Puts the first output of a unit that stays on one beyond what the ramp from p0 reaches.
fn break_first_ramp(random: &mut Random, problem: &Problem, rows: &mut Rows) {
    let mut beyond = Vec::new();
    for (unit, generator) in problem.units.iter().enumerate() {
        let before = generator.initial_output;
        let rise = before + generator.most_rise + 1;
        let fall = before - generator.most_fall - 1;
        let stays_on = before > 0 && rows[unit][0] > 0;
        if stays_on && rise <= generator.most_output {
            beyond.push((unit, rise));
        }
        if stays_on && fall >= generator.least_output {
            beyond.push((unit, fall));
        }
    }
    if !beyond.is_empty() {
        let (unit, output) = random.pick(&beyond);
        rows[unit][0] = output;
    }
}

/// Raises one of two outputs of a unit that stays on so that the other is out of reach by one.
fn break_ramp(random: &mut Random, unit: &Generator, row: &mut [i64]) {
    let start = random.below(row.len());
    for step in 0..row.len() {
        let period = (start + step) % row.len();
        if period == 0 || row[period - 1] == 0 || row[period] == 0 {
            continue;
        }
        let rise = row[period - 1] + unit.most_rise + 1;
        let fall = row[period] + unit.most_fall + 1;
        if rise <= unit.most_output && random.chance(50) {
            row[period] = rise;
            return;
        }
        if fall <= unit.most_output {
            row[period - 1] = fall;
            return;
        }
    }
}

/// Puts the unit on, at its least output, one period before a start or in a random period off.
fn start_too_soon(random: &mut Random, unit: &Generator, row: &mut [i64]) {
    let starts: Vec<usize> = (1..row.len())
        .filter(|&period| row[period] > 0 && row[period - 1] == 0)
        .collect();
    let period = match starts.is_empty() {
        true => random.below(row.len()),
        false => random.pick(&starts) - 1,
    };
    row[period] = unit.least_output;
}

/// The text of a schedule.
pub fn text(writer: i64, rows: &[Vec<i64>]) -> String {
    let mut lines = vec!["kind=schedule".to_string(), format!("writer={writer}")];
    lines.extend(rows.iter().map(|row| format!("run={}", joined(row))));
    lines.push("end=schedule\n".to_string());
    lines.join("\n")
}
