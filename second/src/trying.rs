//! The cheapest runs of a small price leaf, and its units' least values with a status forced, found by
//! trying every row of outputs (document 02, [7] and [5]; decided points 127, 128 and 135).
//!
//! A row is judged and its cost taken by the rules for a schedule. The number of rows grows with the
//! power of the periods, so that this is for few periods and few outputs.

use crate::docket::Docket;
use crate::forced::{self, ForcedAnswer};
use crate::generator::Generator;
use crate::runs::{Question, RunsAnswer};
use crate::schedule::{breaks_up_or_down_time, cost, is_on, row_cost};

/// What `cheapest_runs` answers: for each unit the first of the rows with the least value.
pub fn runs_by_trying(docket: &Docket, q: &[u64], s: &[u64], fixed: &[u8]) -> RunsAnswer {
    let question = match Question::read(docket, q, s, fixed) {
        Ok(question) => question,
        Err(answer) => return answer,
    };
    let mut rows = Vec::new();
    for unit in 0..question.problem.units.len() {
        match attaining_rows(&question, unit).into_iter().next() {
            Some(row) => rows.push(row),
            None => return RunsAnswer::Stuck(unit + 1),
        }
    }
    RunsAnswer::Found {
        value: value_at(&question, &rows),
        short: short_of_demand(&question, &rows),
        rows: rows.iter().map(|row| whole(row)).collect(),
    }
}

/// What `forced_statuses` answers: each entry is the least value of the rows that have its status in
/// its period.
pub fn forced_by_trying(docket: &Docket, q: &[u64], s: &[u64], fixed: &[u8]) -> ForcedAnswer {
    let question = match forced::read(docket, q, s, fixed) {
        Ok(question) => question,
        Err(answer) => return answer,
    };
    let units = 0..question.problem.units.len();
    let entries = units.flat_map(|unit| forced_entries(&question, unit));
    ForcedAnswer::found(entries)
}

/// A unit's entries: for each period off and on, `None` where no row has that status there.
fn forced_entries(question: &Question, unit: usize) -> Vec<Option<i64>> {
    let periods = question.problem.periods();
    let mut least: Vec<Option<i64>> = vec![None; 2 * periods];
    for row in all_rows(&question.problem.units[unit], periods) {
        if !is_permitted(question, unit, &row) {
            continue;
        }
        let value = row_value(question, unit, &row);
        for (period, &output) in row.iter().enumerate() {
            let entry = &mut least[2 * period + usize::from(is_on(output))];
            *entry = Some(entry.map_or(value, |least| least.min(value)));
        }
    }
    least
}

/// All rows of a unit (from 0) that have the least value, in the order in which they are tried; none
/// if the unit is stuck.
pub fn attaining_rows(question: &Question, unit: usize) -> Vec<Vec<i64>> {
    let generator = &question.problem.units[unit];
    let mut least = None;
    let mut attaining = Vec::new();
    for row in all_rows(generator, question.problem.periods()) {
        if !is_permitted(question, unit, &row) {
            continue;
        }
        let value = row_value(question, unit, &row);
        if least.is_none_or(|least| value < least) {
            least = Some(value);
            attaining.clear();
        }
        if least == Some(value) {
            attaining.push(row);
        }
    }
    attaining
}

/// Every row of outputs, those that differ in an early period further apart than those that differ
/// in a late one: off first, then pL and up to pU.
fn all_rows(unit: &Generator, periods: usize) -> Vec<Vec<i64>> {
    let mut rows = vec![Vec::new()];
    for _ in 0..periods {
        let mut longer = Vec::new();
        for row in &rows {
            longer.push([&row[..], &[0]].concat());
            for output in unit.least_output..=unit.most_output {
                longer.push([&row[..], &[output]].concat());
            }
        }
        rows = longer;
    }
    rows
}

/// Whether a row obeys (5) to (10) and agrees with the fixed statuses.
fn is_permitted(question: &Question, unit: usize, row: &[i64]) -> bool {
    let generator = &question.problem.units[unit];
    (0..row.len()).all(|period| {
        let status = question.fixed[unit][period];
        status.is_none_or(|on| on == is_on(row[period]))
            && !breaks_up_or_down_time(generator, row, period)
    })
}

/// The cost of a unit's row minus, for each period on, q·p + s·pU.
pub fn row_value(question: &Question, unit: usize, row: &[i64]) -> i64 {
    let generator = &question.problem.units[unit];
    let mut value = row_cost(generator, row);
    for (period, &output) in row.iter().enumerate() {
        if is_on(output) {
            value -= question.prices[period] * output;
            value -= question.reserves[period] * generator.most_output;
        }
    }
    value
}

/// What the rows are worth together at the leaf: their cost, and for each period what the
/// multipliers charge for output missing of D and for capacity missing of D + R.
fn value_at(question: &Question, rows: &[Vec<i64>]) -> i64 {
    let problem = question.problem;
    let mut value = cost(problem, rows);
    for period in 0..problem.periods() {
        let mut missing_output = problem.demand[period];
        let mut missing_capacity = problem.capacity_needed(period);
        for (unit, row) in problem.units.iter().zip(rows) {
            if is_on(row[period]) {
                missing_output -= row[period];
                missing_capacity -= unit.most_output;
            }
        }
        value += question.prices[period] * missing_output;
        value += question.reserves[period] * missing_capacity;
    }
    value
}

/// For each period D less the rows' outputs, or 0 if these reach it.
fn short_of_demand(question: &Question, rows: &[Vec<i64>]) -> Vec<u64> {
    let mut missing = question.problem.demand.clone();
    for row in rows {
        for (missing, output) in missing.iter_mut().zip(row) {
            *missing = (*missing - output).max(0);
        }
    }
    whole(&missing)
}

/// Numbers that are 0 or above, as such.
fn whole(numbers: &[i64]) -> Vec<u64> {
    numbers.iter().map(|number| number.unsigned_abs()).collect()
}
