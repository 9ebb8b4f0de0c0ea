//! The unit commitment docket for Rust: safe functions over the proved archive `libdocket_host.a`.
//!
//! A [`Docket`] stays open: it takes texts one by one, and it tells at any time what it holds. [`listing`] and
//! [`listing_of`] lodge a whole input at once. What either answers is fixed for every input by contracts that are proved
//! (`crates/docket_host`); texts, answers and refusals are explained in the repository's `README.md`.
//!
//! ```
//! use docket::{Docket, Figures, Verdict};
//!
//! let mut docket = Docket::new();
//! let problem = b"kind=problem\nperiods=2\nunits=1\ndemand=60,70\nspare=5,5\n\
//!                 unit=100,10,0,20,80,2,2,3,30,30,50,90,1,5,60\nend=problem\n";
//! assert_eq!(docket.lodge(problem).line(), "answer=held");
//! match docket.lodge(b"kind=schedule\nwriter=7\nrun=60,70\nend=schedule\n").verdict() {
//!     Verdict::Held(Figures::Schedule { cost, .. }) => println!("the cheapest so far: {cost}"),
//!     Verdict::Refused(why) => println!("refused by {}: unit {}, period {}", why.number, why.unit, why.period),
//!     verdict => println!("{verdict}"),
//! }
//! assert_eq!(docket.report().cost(), Some(1500));
//! assert_eq!(docket.outputs(), [60, 70]);
//! ```
#![deny(missing_docs, unsafe_code)]

mod answer;
mod bound;
mod docket;
#[cfg(test)]
mod entries;
mod forced;
#[cfg(test)]
mod leaves;
mod listing;
#[cfg(test)]
mod questions;
mod report;
mod runs;
#[cfg(test)]
mod states;
#[allow(unsafe_code)]
mod sys;
mod taken;

pub use answer::{Answer, Figures, Refusal, Verdict};
pub use bound::Bound;
pub use docket::{rules, Docket, MOST_TEXT};
pub use forced::{Forced, ForcedStatuses, ForcedTable};
pub use listing::{listing, listing_of, Error, MOST_INPUT, OUTPUT_BYTES};
pub use report::Report;
pub use runs::{CheapestRuns, Draft};
pub use taken::{Fixed, UnitsTaken};

/// Stack enough for a call: a tree of the greatest depth uses less than 400,000 bytes of it, measured. A thread of the standard
/// library has twice as much, unless its builder says otherwise; on one with less the process ends at the stack's guard page.
pub const STACK_BYTES: usize = 1_048_576;
