//! A second unit commitment docket, written from document 01, the change requests and the decided
//! points alone so that another one can be compared with it. It is plain rather than quick.
//!
//! - `text`: lines and numerals; `refusal`: numbers and places
//! - `generator`, `problem`: what a problem text gives
//! - `schedule`: the rules for a schedule and its cost
//! - `minimum`: the least value of one unit under multipliers
//! - `ramp`: what multipliers on the ramps add to a unit's cost
//! - `above`: what the split lines above a node say
//! - `leaf`: when a leaf holds and what it is worth
//! - `taken`: how many units the sum for `short` takes
//! - `runs`: the cheapest runs at a price leaf; `forced`: least values there with a status forced;
//!   `trying`: both by trying every row
//! - `tree`: nodes and the bound
//! - `docket`: what is held, and the report
//! - `listing`: the listing program on bytes
//! - `inputs`: inputs of the listing program and questions at a price leaf from a seed, to compare with

pub mod above;
pub mod docket;
pub mod forced;
pub mod generator;
pub mod inputs;
pub mod leaf;
pub mod listing;
pub mod minimum;
pub mod problem;
pub mod ramp;
pub mod refusal;
pub mod runs;
pub mod schedule;
pub mod taken;
pub mod text;
pub mod tree;
pub mod trying;

pub use docket::{fresh, lodge, report, Answer, Docket, Figures, HeldBound, HeldCost};
pub use forced::{forced_statuses, ForcedAnswer};
pub use listing::listing;
pub use refusal::Refusal;
pub use runs::{cheapest_runs, RunsAnswer};
pub use taken::{capacity_taken, Taken, TakenAnswer};
pub use tree::Bound;
pub use trying::{forced_by_trying, runs_by_trying};
