//! The docket of document 01 in plain Rust, tuned for speed: the proved docket is timed against it.
//!
//! It does the same work as the proved crates: it reads the same lines, tries the same best whole output for each unit and
//! period, and walks back over the same states. Everything else is free: flat arrays, no allocation after the docket is
//! made, statuses and counts set and taken back in arrays, and a large number for a value that is not there.

mod docket;
mod forced;
mod judge;
mod least;
mod lines;
mod listing;
mod page;
mod period;
mod problem;
mod ramp;
mod tree;

pub use docket::{Answer, Docket};
pub use listing::{listing, lodge_list, piece_end, BOUND_OF_NEVER};

/// The number and the place of a refusal, with 0 for what is not meant.
#[derive(Clone, Copy, Debug, PartialEq, Eq)]
pub struct Refusal {
    pub number: u64,
    pub line: usize,
    pub unit: usize,
    pub period: usize,
}

impl Refusal {
    pub fn at_line(number: u64, line: usize) -> Refusal {
        Refusal {
            number,
            line,
            unit: 0,
            period: 0,
        }
    }

    pub fn at_place(number: u64, unit: usize, period: usize) -> Refusal {
        Refusal {
            number,
            line: 0,
            unit,
            period,
        }
    }
}
