//! Each unit's least value at a price leaf with one status forced besides those that are fixed, for
//! every period and either status (document 02, [5]; decided points 134 to 137).
//!
//! Every entry is looked for by itself: the status is fixed, and the unit's least value is taken.
//!
//! Units and periods count from 0 here.

use crate::docket::Docket;
use crate::leaf::Pricing;
use crate::minimum::{least_value, Fixed};
use crate::runs::{Question, RunsAnswer};

/// The answer to a question about forced statuses. A unit's entries follow one another by period,
/// off forced before on forced, and those of the first unit come first: 2·I·T in all.
#[derive(Clone, Debug, PartialEq, Eq)]
pub enum ForcedAnswer {
    /// The docket holds no problem.
    NoProblem,
    /// The question does not go with the held problem.
    Unfit,
    Found {
        /// By entry: the unit's least value, 0 where there is none.
        values: Vec<i64>,
        /// By entry: 1 where there is no such value, else 0.
        stuck: Vec<u64>,
    },
}

impl ForcedAnswer {
    /// The answer with these entries, `None` standing for stuck.
    pub fn found(entries: impl IntoIterator<Item = Option<i64>>) -> ForcedAnswer {
        let mut values = Vec::new();
        let mut stuck = Vec::new();
        for entry in entries {
            values.push(entry.unwrap_or(0));
            stuck.push(u64::from(entry.is_none()));
        }
        ForcedAnswer::Found { values, stuck }
    }
}

/// The least values of all units at a price leaf with these multipliers and fixed statuses, with each
/// status forced in turn. A unit's value has no part of what the leaf charges for D and R.
///
/// Statuses are bytes as in `cheapest_runs`.
pub fn forced_statuses(docket: &Docket, q: &[u64], s: &[u64], fixed: &[u8]) -> ForcedAnswer {
    let question = match read(docket, q, s, fixed) {
        Ok(question) => question,
        Err(answer) => return answer,
    };
    let mut pricing = Pricing::of(question.problem);
    let mut entries = Vec::new();
    for (unit, generator) in question.problem.units.iter().enumerate() {
        let worths = pricing.worths(unit, &question.prices, &question.reserves);
        for period in 0..question.problem.periods() {
            for on in [false, true] {
                let forced = with_forced(&question.fixed[unit], period, on);
                entries.push(forced.and_then(|fixed| least_value(generator, &fixed, &worths)));
            }
        }
    }
    ForcedAnswer::found(entries)
}

/// The question, or the answer where there is no problem or it does not go with it. Of stuck units
/// its reader knows nothing yet.
pub fn read<'a>(
    docket: &'a Docket,
    q: &[u64],
    s: &[u64],
    fixed: &[u8],
) -> Result<Question<'a>, ForcedAnswer> {
    Question::read(docket, q, s, fixed).map_err(|answer| match answer {
        RunsAnswer::NoProblem => ForcedAnswer::NoProblem,
        _ => ForcedAnswer::Unfit,
    })
}

/// The fixed statuses of a unit with one more, or `None` if the other status is fixed there.
fn with_forced(fixed: &Fixed, period: usize, on: bool) -> Option<Vec<Option<bool>>> {
    if fixed[period] == Some(!on) {
        return None;
    }
    let mut forced = fixed.to_vec();
    forced[period] = Some(on);
    Some(forced)
}
