//! What a lodged text gets.

use crate::bound::Bound;
use crate::sys;
use std::fmt;

/// The answer to a lodged text: a [`Verdict`] for programs, and the same as a line.
///
/// ```
/// use docket::{Docket, Verdict};
///
/// let answer = Docket::new().lodge(b"kind=problem\nperiods=0\n");
/// assert_eq!(answer.line(), "answer=refused,13,2,0,0");
/// let Verdict::Refused(refusal) = answer.verdict() else {
///     panic!("0 periods are out of range");
/// };
/// assert_eq!((refusal.number, refusal.line), (13, 2));
/// ```
#[derive(Clone, Debug, PartialEq, Eq, Hash)]
#[non_exhaustive]
pub struct Answer {
    verdict: Verdict,
    line: String,
}

/// Whether a text was accepted, and with what.
#[derive(Clone, Copy, Debug, PartialEq, Eq, Hash)]
#[non_exhaustive]
pub enum Verdict {
    /// Accepted, and the docket now holds it.
    Held(Figures),
    /// Accepted, but what the docket holds is as good or better, and stays.
    Passed(Figures),
    /// Refused; the docket is as it was.
    Refused(Refusal),
}

/// What an accepted text is, with its figures.
#[derive(Clone, Copy, Debug, PartialEq, Eq, Hash)]
#[non_exhaustive]
pub enum Figures {
    /// A problem.
    Problem,
    /// A schedule.
    #[non_exhaustive]
    Schedule {
        /// What it costs.
        cost: u64,
    },
    /// A tree.
    #[non_exhaustive]
    Tree {
        /// Its bound.
        bound: Bound,
        /// How many splits it has.
        splits: u64,
        /// How many leaves it has.
        leaves: u64,
    },
}

/// Why a text was refused, and where; what does not apply is 0. The repository's `README.md` has the table of the numbers.
#[derive(Clone, Copy, Debug, PartialEq, Eq, Hash)]
#[non_exhaustive]
pub struct Refusal {
    /// The number of the refusal.
    pub number: u64,
    /// The line of the text, counted from 1.
    pub line: u64,
    /// The unit, counted from 1.
    pub unit: u64,
    /// The period, counted from 1.
    pub period: u64,
}

impl Answer {
    /// The answer with these numbers and this line, ended by byte 10.
    pub(crate) fn of(values: &[u64; sys::VALUES], line: &[u8]) -> Answer {
        let verdict = Verdict::of(values);
        let line = String::from_utf8_lossy(line.strip_suffix(b"\n").unwrap_or(line)).into_owned();
        debug_assert_eq!(line, format!("answer={verdict}"));
        Answer { verdict, line }
    }

    /// Whether the text was accepted, and with what.
    pub fn verdict(&self) -> Verdict {
        self.verdict
    }

    /// The line of the answer, without the byte 10 that ends it in a listing.
    pub fn line(&self) -> &str {
        &self.line
    }
}

impl Verdict {
    fn of(values: &[u64; sys::VALUES]) -> Verdict {
        match values[0] {
            sys::HELD => Verdict::Held(Figures::of(values)),
            sys::PASSED => Verdict::Passed(Figures::of(values)),
            _ => Verdict::Refused(Refusal::of(values)),
        }
    }
}

impl Figures {
    fn of(values: &[u64; sys::VALUES]) -> Figures {
        let [_, figure, size, splits, leaves, ..] = *values;
        let bound = match figure {
            sys::A_COST => return Figures::Schedule { cost: size },
            sys::A_BOUND => Bound::Number(0_i64.saturating_add_unsigned(size)),
            sys::A_BOUND_BELOW_0 => Bound::Number(0_i64.saturating_sub_unsigned(size)),
            sys::NEVER => Bound::Never,
            _ => return Figures::Problem,
        };
        Figures::Tree {
            bound,
            splits,
            leaves,
        }
    }
}

impl Refusal {
    fn of(values: &[u64; sys::VALUES]) -> Refusal {
        let [_, _, number, line, unit, period, ..] = *values;
        Refusal {
            number,
            line,
            unit,
            period,
        }
    }
}

/// The line.
impl fmt::Display for Answer {
    fn fmt(&self, f: &mut fmt::Formatter) -> fmt::Result {
        f.pad(&self.line)
    }
}

/// What stands in the line after `answer=`.
impl fmt::Display for Verdict {
    fn fmt(&self, f: &mut fmt::Formatter) -> fmt::Result {
        let (word, figures) = match self {
            Verdict::Held(figures) => ("held", figures),
            Verdict::Passed(figures) => ("passed", figures),
            Verdict::Refused(refusal) => return write!(f, "refused,{refusal}"),
        };
        match figures {
            Figures::Problem => write!(f, "{word}"),
            _ => write!(f, "{word},{figures}"),
        }
    }
}

/// The figures joined by commas: none of a problem, the cost of a schedule, bound, splits and leaves of a tree.
impl fmt::Display for Figures {
    fn fmt(&self, f: &mut fmt::Formatter) -> fmt::Result {
        match self {
            Figures::Problem => Ok(()),
            Figures::Schedule { cost } => write!(f, "{cost}"),
            Figures::Tree {
                bound,
                splits,
                leaves,
            } => write!(f, "{bound},{splits},{leaves}"),
        }
    }
}

/// Number, line, unit and period, joined by commas.
impl fmt::Display for Refusal {
    fn fmt(&self, f: &mut fmt::Formatter) -> fmt::Result {
        let Refusal {
            number,
            line,
            unit,
            period,
        } = self;
        write!(f, "{number},{line},{unit},{period}")
    }
}
