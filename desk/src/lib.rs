//! The desk: commands over the unit commitment docket, and the journal that keeps its texts.
//!
//! [`run`] is the program; the rest is there for the program and its tests. `README.md` beside it says what the commands do.
#![deny(missing_docs, unsafe_code)]

mod asked;
pub mod bench;
pub mod clock;
mod commands;
mod help;
pub mod journal;
pub mod leaves;
mod options;
mod out;
pub mod pieces;
pub mod printed;
pub mod progress;
pub mod sha256;
pub mod trouble;
pub mod words;

pub use commands::run;
