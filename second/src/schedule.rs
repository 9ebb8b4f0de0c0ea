//! Schedules: reading, the rules and the cost (document 01, "Rules for a schedule"; for the ramp of
//! period 1 the change request "Yesterday's last output").
//!
//! Units and periods count from 0 here and from 1 in refusals.

use crate::generator::Generator;
use crate::problem::Problem;
use crate::refusal::Refusal;
use crate::text::Reader;

/// The largest writer of a schedule or tree; the smallest is 1.
pub const MOST_WRITER: i64 = 65_535;
const MOST_OUTPUT: i64 = 10_000;

/// A schedule as its text gives it: one row of outputs for each unit.
pub struct Schedule {
    pub writer: i64,
    pub rows: Vec<Vec<i64>>,
}

/// Reads the lines after `kind=schedule`.
pub fn read(problem: &Problem, reader: &mut Reader) -> Result<Schedule, Refusal> {
    let writer = reader.take_one("writer", 1, MOST_WRITER)?;
    let mut rows = Vec::new();
    for _ in &problem.units {
        rows.push(reader.take_row("run", problem.periods(), 0, MOST_OUTPUT)?);
    }
    reader.take_end("end=schedule")?;
    Ok(Schedule { writer, rows })
}

/// The rules by rising number ("Order").
pub fn check_rules(problem: &Problem, rows: &[Vec<i64>]) -> Result<(), Refusal> {
    check_rows(21, problem, rows, breaks_limits)?;
    check_periods(22, problem, rows, falls_short_of_demand)?;
    check_periods(23, problem, rows, falls_short_of_spare)?;
    check_rows(24, problem, rows, breaks_up_or_down_time)?;
    check_rows(25, problem, rows, breaks_ramp)
}

/// A rule on one unit's row: its first breach by lowest period, then by lowest unit.
fn check_rows(
    number: u32,
    problem: &Problem,
    rows: &[Vec<i64>],
    broken: fn(&Generator, &[i64], usize) -> bool,
) -> Result<(), Refusal> {
    for period in 0..problem.periods() {
        for (unit, row) in rows.iter().enumerate() {
            if broken(&problem.units[unit], row, period) {
                return Err(Refusal::at_output(number, unit + 1, period + 1));
            }
        }
    }
    Ok(())
}

/// A rule on all units of a period: its first breach by lowest period.
fn check_periods(
    number: u32,
    problem: &Problem,
    rows: &[Vec<i64>],
    broken: fn(&Problem, &[Vec<i64>], usize) -> bool,
) -> Result<(), Refusal> {
    match (0..problem.periods()).find(|&period| broken(problem, rows, period)) {
        Some(period) => Err(Refusal::at_period(number, period + 1)),
        None => Ok(()),
    }
}

/// A unit is on exactly when it puts something out.
pub fn is_on(output: i64) -> bool {
    output > 0
}

/// (4): on, but below pL or above pU.
fn breaks_limits(unit: &Generator, row: &[i64], period: usize) -> bool {
    let output = row[period];
    is_on(output) && (output < unit.least_output || output > unit.most_output)
}

/// (2): the outputs sum to less than D.
fn falls_short_of_demand(problem: &Problem, rows: &[Vec<i64>], period: usize) -> bool {
    let sum: i64 = rows.iter().map(|row| row[period]).sum();
    sum < problem.demand[period]
}

/// (3): the pU of units that are on sum to less than D + R.
fn falls_short_of_spare(problem: &Problem, rows: &[Vec<i64>], period: usize) -> bool {
    let mut capacity = 0;
    for (unit, row) in problem.units.iter().zip(rows) {
        if is_on(row[period]) {
            capacity += unit.most_output;
        }
    }
    capacity < problem.capacity_needed(period)
}

/// (5) to (10): the status of this period is a change that comes too soon.
pub fn breaks_up_or_down_time(unit: &Generator, row: &[i64], period: usize) -> bool {
    let (on, spent) = stretch_before(unit, row, period);
    is_on(row[period]) != on && !unit.may_leave(on, spent)
}

/// (11), (12): on just before this period and in it, with too large a rise or fall between. A unit
/// that goes on or off is free.
fn breaks_ramp(unit: &Generator, row: &[i64], period: usize) -> bool {
    let (before, now) = (output_before(unit, row, period), row[period]);
    is_on(before) && is_on(now) && (now - before > unit.most_rise || before - now > unit.most_fall)
}

/// The output just before a period: p0 before period 1, which 15 has made 0 for a unit that was off
/// and above 0 for one that was on.
fn output_before(unit: &Generator, row: &[i64], period: usize) -> i64 {
    match period {
        0 => unit.initial_output,
        _ => row[period - 1],
    }
}

/// Status just before a period, and the periods spent in it up to there, those before period 1
/// among them.
fn stretch_before(unit: &Generator, row: &[i64], period: usize) -> (bool, i64) {
    let mut on = unit.initially_on();
    let mut spent = unit.initially_spent();
    for &output in &row[..period] {
        if is_on(output) == on {
            spent += 1;
        } else {
            on = !on;
            spent = 1;
        }
    }
    (on, spent)
}

/// (1) for all units.
pub fn cost(problem: &Problem, rows: &[Vec<i64>]) -> i64 {
    let units = problem.units.iter().zip(rows);
    units.map(|(unit, row)| row_cost(unit, row)).sum()
}

/// (1) for one unit: its periods on, its starts and its stops.
pub fn row_cost(unit: &Generator, row: &[i64]) -> i64 {
    let mut cost = 0;
    for (period, &output) in row.iter().enumerate() {
        let (on, spent) = stretch_before(unit, row, period);
        if is_on(output) != on {
            cost += unit.leaving_cost(on, spent);
        }
        if is_on(output) {
            cost += unit.running_cost(output);
        }
    }
    cost
}
