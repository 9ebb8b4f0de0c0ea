//! Questions about the runs behind the value of a price leaf.

use crate::sys;

/// The answer of [`Docket::cheapest_runs`](crate::Docket::cheapest_runs).
#[derive(Clone, Debug, PartialEq, Eq, Hash)]
#[non_exhaustive]
pub enum CheapestRuns {
    /// The docket knows no problem.
    NoProblem,
    /// The question does not fit the problem.
    Unfit,
    /// What is fixed leaves a unit no run.
    Stuck {
        /// The lowest such unit, counted from 1.
        unit: usize,
    },
    /// The cheapest runs.
    Found(Draft),
}

/// The cheapest run of each unit at a price leaf, by itself: a draft of a schedule, in which demand, spare and ramps may be
/// missed.
#[derive(Clone, Debug, PartialEq, Eq, Hash)]
#[non_exhaustive]
pub struct Draft {
    /// The leaf's value.
    pub value: i64,
    /// For each unit its outputs, one for each period; 0 is off.
    pub runs: Vec<Vec<u64>>,
    /// For each period how far the outputs together fall short of the demand; 0 where they do not.
    pub shortfalls: Vec<u64>,
}

impl CheapestRuns {
    /// What a call on a docket's own slices answers, and writes. It finds runs where there are as many shortfalls as periods.
    pub(crate) fn of(
        answer: usize,
        value: i64,
        runs: &[u64],
        shortfalls: Vec<u64>,
    ) -> CheapestRuns {
        match answer {
            sys::TOLD => CheapestRuns::Found(Draft {
                value,
                runs: rows(runs, shortfalls.len()),
                shortfalls,
            }),
            sys::NO_PROBLEM => CheapestRuns::NoProblem,
            sys::UNFIT => CheapestRuns::Unfit,
            _ => {
                let unit = answer.saturating_sub(sys::STUCK);
                debug_assert!((1..=32).contains(&unit), "an answer of a docket");
                CheapestRuns::Stuck { unit }
            }
        }
    }
}

/// The runs of the units, each of so many periods.
fn rows(runs: &[u64], periods: usize) -> Vec<Vec<u64>> {
    let units = runs.chunks(periods.max(1));
    units.map(<[u64]>::to_vec).collect()
}
