//! What the split lines above a node say of the schedules under it: statuses (document 01, "Rules for
//! a leaf") and counts of units on (document 02, [1]).
//!
//! Units and periods count from 0 here.

use std::ops::Range;

use crate::problem::Problem;

/// Statuses that splits have fixed, by unit and period.
pub type Statuses = [Vec<Option<bool>>];

/// The counts that stand for one period: how many units are on at most and at least.
#[derive(Clone, Copy, Debug, Default, PartialEq, Eq)]
pub struct Counts {
    pub upper: Option<usize>,
    pub lower: Option<usize>,
}

impl Counts {
    /// The counts under the first tree of a count line: at most K.
    pub fn at_most(self, most: usize) -> Counts {
        Counts {
            upper: Some(most),
            ..self
        }
    }

    /// The counts under the second tree of a count line: at least K + 1.
    pub fn above(self, most: usize) -> Counts {
        Counts {
            lower: Some(most + 1),
            ..self
        }
    }

    /// The K of a further count line that 37 does not refuse, for a problem of this many units: not
    /// below the lower count, and below the upper one.
    pub fn permitted(self, units: usize) -> Range<usize> {
        self.lower.unwrap_or(0)..self.upper.unwrap_or(units)
    }
}

/// All that the split lines above a node say.
#[derive(Clone, Debug, PartialEq, Eq)]
pub struct Above {
    pub fixed: Vec<Vec<Option<bool>>>,
    /// By period.
    pub counts: Vec<Counts>,
}

impl Above {
    /// Above the root: nothing.
    pub fn root(problem: &Problem) -> Above {
        Above {
            fixed: vec![vec![None; problem.periods()]; problem.units.len()],
            counts: vec![Counts::default(); problem.periods()],
        }
    }

    /// How many units are fixed on in a period.
    pub fn fixed_on(&self, period: usize) -> usize {
        let statuses = self.fixed.iter().map(|statuses| statuses[period]);
        statuses.filter(|&status| status == Some(true)).count()
    }

    /// How many units are not fixed off in a period, free ones among them.
    pub fn not_fixed_off(&self, period: usize) -> usize {
        let statuses = self.fixed.iter().map(|statuses| statuses[period]);
        statuses.filter(|&status| status != Some(false)).count()
    }
}
