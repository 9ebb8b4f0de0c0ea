//! When a leaf holds and what a price or ramp leaf is worth (document 01, "Rules for a leaf"; for
//! counts and ramps document 02, [1] and [6]).
//!
//! Units and periods count from 0 here.

use std::collections::HashMap;

use crate::above::{Above, Statuses};
use crate::minimum::{best_output_value, is_stuck, least_value, Worth};
use crate::problem::Problem;
use crate::ramp::RampLeaf;

/// The most pU that can be on in a period: that of all units not fixed off, free ones among them, or,
/// where an upper count stands, of the largest of them, as many as it says.
pub fn open_capacity(problem: &Problem, above: &Above, period: usize) -> i64 {
    let mut capacities = Vec::new();
    for (unit, statuses) in problem.units.iter().zip(&above.fixed) {
        if statuses[period] != Some(false) {
            capacities.push(unit.most_output);
        }
    }
    capacities.sort();
    capacities.reverse();
    let most = above.counts[period].upper.unwrap_or(capacities.len());
    capacities.iter().take(most).sum()
}

/// Whether `short` holds for a period.
pub fn short_holds(problem: &Problem, above: &Above, period: usize) -> bool {
    open_capacity(problem, above, period) < problem.capacity_needed(period)
}

/// Whether `crowd` holds for a period, by either of its clauses.
pub fn crowd_holds(above: &Above, period: usize) -> bool {
    too_many_on(above, period) || too_few_left(above, period)
}

/// More units are fixed on in a period than the upper count that stands for it.
pub fn too_many_on(above: &Above, period: usize) -> bool {
    let upper = above.counts[period].upper;
    upper.is_some_and(|upper| above.fixed_on(period) > upper)
}

/// Fewer units are not fixed off in a period than the lower count that stands for it.
pub fn too_few_left(above: &Above, period: usize) -> bool {
    let lower = above.counts[period].lower;
    lower.is_some_and(|lower| above.not_fixed_off(period) < lower)
}

/// Whether `stuck` holds for a unit. Counts play no part.
pub fn stuck_holds(problem: &Problem, fixed: &Statuses, unit: usize) -> bool {
    is_stuck(&problem.units[unit], &fixed[unit])
}

/// Values of price leaves of one problem. Best output values found on the way are kept.
pub struct Pricing<'a> {
    problem: &'a Problem,
    /// By unit and price multiplier.
    best_outputs: HashMap<(usize, i64), i64>,
}

impl<'a> Pricing<'a> {
    pub fn of(problem: &'a Problem) -> Pricing<'a> {
        Pricing {
            problem,
            best_outputs: HashMap::new(),
        }
    }

    /// The value of a price leaf, or `None` if some unit is stuck: the least values of all units
    /// and, over periods, q·D + s·(D + R). Counts play no part.
    pub fn value(&mut self, fixed: &Statuses, prices: &[i64], reserves: &[i64]) -> Option<i64> {
        let problem = self.problem;
        let units = least_values(problem, fixed, |unit| self.worths(unit, prices, reserves))?;
        Some(units + needs_value(problem, prices, reserves))
    }

    /// For each period, nothing if the unit is off, and if it is on the least of running cost minus
    /// q·p + s·pU.
    pub fn worths(&mut self, unit: usize, prices: &[i64], reserves: &[i64]) -> Vec<Worth> {
        let generator = &self.problem.units[unit];
        let mut worths = Vec::new();
        for (&price, reserve) in prices.iter().zip(reserves) {
            let best = self.best_outputs.entry((unit, price));
            let best = *best.or_insert_with(|| best_output_value(generator, price));
            let on = best - reserve * generator.most_output;
            worths.push(Worth { off: 0, on });
        }
        worths
    }
}

/// The value of a ramp leaf, or `None` if some unit is stuck: that of a price leaf, but with what
/// the ramps add to each unit's cost. Counts and p0 play no part.
pub fn ramp_value(problem: &Problem, fixed: &Statuses, leaf: &RampLeaf) -> Option<i64> {
    let worths = |unit: usize| leaf.worths(unit, &problem.units[unit]);
    let units = least_values(problem, fixed, worths)?;
    Some(units + needs_value(problem, &leaf.prices, &leaf.reserves))
}

/// The least values of all units, given what the periods are worth to each; `None` if one is stuck.
fn least_values(
    problem: &Problem,
    fixed: &Statuses,
    mut worths: impl FnMut(usize) -> Vec<Worth>,
) -> Option<i64> {
    let mut sum = 0;
    for (unit, generator) in problem.units.iter().enumerate() {
        sum += least_value(generator, &fixed[unit], &worths(unit))?;
    }
    Some(sum)
}

/// Over periods, q·D + s·(D + R).
fn needs_value(problem: &Problem, prices: &[i64], reserves: &[i64]) -> i64 {
    let mut value = 0;
    for (period, (price, reserve)) in prices.iter().zip(reserves).enumerate() {
        value += price * problem.demand[period];
        value += reserve * problem.capacity_needed(period);
    }
    value
}
