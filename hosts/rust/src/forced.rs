//! Questions about what the units are worth at a price leaf with a status forced.

use crate::sys;

/// The answer of [`Docket::forced_statuses`](crate::Docket::forced_statuses).
#[derive(Clone, Debug, PartialEq, Eq, Hash)]
#[non_exhaustive]
pub enum ForcedStatuses {
    /// The docket knows no problem.
    NoProblem,
    /// The question does not fit the problem.
    Unfit,
    /// What the units are worth.
    Found(ForcedTable),
}

/// What each unit is worth at a price leaf, by itself, with its status in a period forced.
#[derive(Clone, Debug, PartialEq, Eq, Hash)]
#[non_exhaustive]
pub struct ForcedTable {
    /// For each unit, for each period, the two values: those of unit u in period t, both counted from 0, at `units[u][t]`.
    pub units: Vec<Vec<Forced>>,
}

/// What a unit is worth with its status in one period forced: the least of its runs that have this status there. None where the
/// unit is stuck: what is fixed leaves it no such run.
#[derive(Clone, Copy, Debug, PartialEq, Eq, Hash)]
#[non_exhaustive]
pub struct Forced {
    /// With the unit off.
    pub off: Option<i64>,
    /// With the unit on.
    pub on: Option<i64>,
}

impl ForcedStatuses {
    /// What a call on a docket's own slices answers, and writes: two numbers in each slice for each unit and period.
    pub(crate) fn of(
        answer: usize,
        values: &[i64],
        stuck: &[u8],
        periods: usize,
    ) -> ForcedStatuses {
        match answer {
            sys::TOLD => ForcedStatuses::Found(ForcedTable {
                units: rows(values, stuck, periods),
            }),
            sys::NO_PROBLEM => ForcedStatuses::NoProblem,
            _ => {
                debug_assert_eq!(answer, sys::UNFIT, "an answer of a docket");
                ForcedStatuses::Unfit
            }
        }
    }
}

/// The entries of the units, each of so many periods.
fn rows(values: &[i64], stuck: &[u8], periods: usize) -> Vec<Vec<Forced>> {
    let entry = |at: usize| (stuck[at] == 0).then_some(values[at]);
    let forced = |at: usize| Forced {
        off: entry(at),
        on: entry(at + 1),
    };
    let all: Vec<Forced> = (0..values.len()).step_by(2).map(forced).collect();
    all.chunks(periods.max(1)).map(<[Forced]>::to_vec).collect()
}
