//! Questions about the units that `short` takes.

use crate::sys;

/// What a question fixes of a unit in a period.
#[derive(Clone, Copy, Debug, Default, PartialEq, Eq, Hash)]
#[repr(u8)]
pub enum Fixed {
    /// The unit may be off or on.
    #[default]
    Free = 0,
    /// The unit is off.
    Off = 1,
    /// The unit is on.
    On = 2,
}

/// The answer of [`Docket::units_taken`](crate::Docket::units_taken).
#[derive(Clone, Copy, Debug, PartialEq, Eq, Hash)]
#[non_exhaustive]
pub enum UnitsTaken {
    /// The docket knows no problem.
    NoProblem,
    /// The question does not fit the problem.
    Unfit,
    /// What `short` comes to.
    Taken {
        /// Whether `short` holds: all units that it may take do not reach what is needed.
        short: bool,
        /// How many units it took.
        units: usize,
    },
}

impl UnitsTaken {
    /// What a call on a docket's own slices answers, and tells in numbers.
    pub(crate) fn of(answer: usize, [short, units]: [u64; sys::TAKEN]) -> UnitsTaken {
        match answer {
            sys::TOLD => UnitsTaken::Taken {
                short: short == 1,
                units: units as usize,
            },
            sys::NO_PROBLEM => UnitsTaken::NoProblem,
            _ => {
                debug_assert_eq!(answer, sys::UNFIT, "an answer of a docket");
                UnitsTaken::Unfit
            }
        }
    }
}
