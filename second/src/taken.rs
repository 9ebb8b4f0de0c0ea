//! How many units the capacity sum of `short` takes before it is enough (document 02, [2]; decided
//! points 96 to 99).
//!
//! In a question the period counts from 1 and the statuses are bytes: 0 free, 1 fixed off, 2 fixed
//! on, T of them for the first unit, then T for the next.

use crate::docket::Docket;
use crate::problem::Problem;

const FIXED_OFF: u8 = 1;
const FIXED_ON: u8 = 2;

/// What the sum for one period comes to.
#[derive(Clone, Copy, Debug, PartialEq, Eq)]
pub struct Taken {
    /// Whether `short` holds.
    pub short: bool,
    /// How many units the sum took.
    pub units: usize,
}

/// The answer to a question about the sum.
#[derive(Clone, Copy, Debug, PartialEq, Eq)]
pub enum TakenAnswer {
    /// The docket holds no problem.
    NoProblem,
    /// The question does not go with the held problem.
    Unfit,
    Taken(Taken),
}

/// Whether `short` holds in a period under these statuses, and how many units its sum takes; `most`
/// is 0 without an upper count, else one more than the count.
pub fn capacity_taken(docket: &Docket, period: usize, most: usize, fixed: &[u8]) -> TakenAnswer {
    let Some(problem) = docket.problem() else {
        return TakenAnswer::NoProblem;
    };
    if !is_fit(problem, period, most, fixed) {
        return TakenAnswer::Unfit;
    }
    let open = open_by_number(problem, period - 1, fixed);
    let summed = match most {
        0 => open,
        _ => largest_first(open, most - 1),
    };
    TakenAnswer::Taken(taken(&summed, problem.capacity_needed(period - 1)))
}

/// Whether a question goes with the problem: its period, its count, and its statuses by number and
/// by byte.
fn is_fit(problem: &Problem, period: usize, most: usize, fixed: &[u8]) -> bool {
    let (periods, units) = (problem.periods(), problem.units.len());
    (1..=periods).contains(&period)
        && most <= units
        && fixed.len() == units * periods
        && fixed.iter().all(|&status| status <= FIXED_ON)
}

/// The pU of the units not fixed off in a period (from 0), by unit number.
fn open_by_number(problem: &Problem, period: usize, fixed: &[u8]) -> Vec<i64> {
    let mut open = Vec::new();
    for (unit, statuses) in problem.units.iter().zip(fixed.chunks(problem.periods())) {
        if statuses[period] != FIXED_OFF {
            open.push(unit.most_output);
        }
    }
    open
}

/// The largest pU of a list, as many as the count says, in falling order and equal ones in the
/// list's order.
fn largest_first(mut open: Vec<i64>, count: usize) -> Vec<i64> {
    open.sort_by(|one, other| other.cmp(one));
    open.truncate(count);
    open
}

/// What a sum over this list comes to: the fewest from its front that give what is needed, or all
/// of them, which is `short` if even these give less.
fn taken(summed: &[i64], needed: i64) -> Taken {
    let sum_of = |count: usize| summed[..count].iter().sum::<i64>();
    let enough = (0..=summed.len()).find(|&count| sum_of(count) >= needed);
    Taken {
        short: sum_of(summed.len()) < needed,
        units: enough.unwrap_or(summed.len()),
    }
}
