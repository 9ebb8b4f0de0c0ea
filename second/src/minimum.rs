//! The least value of one unit under multipliers (document 01, "Rules for a leaf").
//!
//! A run of statuses is a way through the periods. What can still happen from a period on depends
//! only on the status before it and on where that stretch began, so the least value from there on
//! is looked for once and kept.

use crate::generator::Generator;

/// Statuses that splits have fixed for one unit, by period from 0.
pub type Fixed = [Option<bool>];

/// What one period is worth to a unit in either status, on with the best output.
#[derive(Clone, Copy, Debug, Default, PartialEq, Eq)]
pub struct Worth {
    pub off: i64,
    pub on: i64,
}

/// The least, over all outputs from pL to pU, of a period's running cost minus what the price
/// multiplier pays for the output. Each output is tried.
pub fn best_output_value(unit: &Generator, price: i64) -> i64 {
    let outputs = unit.least_output..=unit.most_output;
    outputs
        .map(|output| unit.running_cost(output) - price * output)
        .min()
        .expect("15 has refused pL above pU")
}

/// The least sum, over the runs that obey (5) to (10) and agree with the fixed statuses, of starts,
/// stops and what the periods are worth. `None` if there is no such run: the unit is stuck.
pub fn least_value(unit: &Generator, fixed: &Fixed, worths: &[Worth]) -> Option<i64> {
    let mut search = Search {
        unit,
        fixed,
        worths,
        known: vec![None; (fixed.len() + 1) * (fixed.len() + 1) * 2],
    };
    search.from(0, unit.initially_on(), None)
}

/// Whether the fixed statuses leave the unit without a permitted run.
pub fn is_stuck(unit: &Generator, fixed: &Fixed) -> bool {
    least_value(unit, fixed, &vec![Worth::default(); fixed.len()]).is_none()
}

struct Search<'a> {
    unit: &'a Generator,
    fixed: &'a Fixed,
    worths: &'a [Worth],
    known: Vec<Option<Option<i64>>>,
}

impl Search<'_> {
    /// The least value of the periods from `period` on. Before it the unit's status was `on`, since
    /// the period `since` or, if that is `None`, since before period 1.
    fn from(&mut self, period: usize, on: bool, since: Option<usize>) -> Option<i64> {
        if period == self.fixed.len() {
            return Some(0);
        }
        let place = self.place(period, on, since);
        if let Some(answer) = self.known[place] {
            return answer;
        }
        let staying = self.staying(period, on, since);
        let leaving = self.leaving(period, on, since);
        let answer = match (staying, leaving) {
            (Some(one), Some(other)) => Some(one.min(other)),
            (one, other) => one.or(other),
        };
        self.known[place] = Some(answer);
        answer
    }

    fn staying(&mut self, period: usize, on: bool, since: Option<usize>) -> Option<i64> {
        let now = self.value_of(period, on)?;
        Some(now + self.from(period + 1, on, since)?)
    }

    fn leaving(&mut self, period: usize, on: bool, since: Option<usize>) -> Option<i64> {
        let spent = self.spent(period, since);
        if !self.unit.may_leave(on, spent) {
            return None;
        }
        let now = self.value_of(period, !on)? + self.unit.leaving_cost(on, spent);
        Some(now + self.from(period + 1, !on, Some(period))?)
    }

    /// What one period in this status is worth, or `None` if the other status is fixed there.
    fn value_of(&self, period: usize, on: bool) -> Option<i64> {
        match self.fixed[period] {
            Some(status) if status != on => None,
            _ if on => Some(self.worths[period].on),
            _ => Some(self.worths[period].off),
        }
    }

    /// Periods spent in the status that the unit has before `period`.
    fn spent(&self, period: usize, since: Option<usize>) -> i64 {
        match since {
            None => self.unit.initially_spent() + period as i64,
            Some(began) => (period - began) as i64,
        }
    }

    fn place(&self, period: usize, on: bool, since: Option<usize>) -> usize {
        let stretches = self.fixed.len() + 1;
        let stretch = since.map_or(0, |began| began + 1);
        (period * stretches + stretch) * 2 + usize::from(on)
    }
}
