//! What a tree shows.

use std::fmt;

/// The bound that a tree gives on the cost of every schedule that meets the rules. `Never` is above every number.
#[derive(Clone, Copy, Debug, PartialEq, Eq, PartialOrd, Ord, Hash)]
pub enum Bound {
    /// No schedule that meets the rules costs less than this number, which may be negative.
    Number(i64),
    /// No schedule meets the rules.
    Never,
}

/// The number, or `never`.
impl fmt::Display for Bound {
    fn fmt(&self, f: &mut fmt::Formatter) -> fmt::Result {
        match self {
            Bound::Number(number) => number.fmt(f),
            Bound::Never => f.pad("never"),
        }
    }
}
