//! Refusals: a number and a place (document 01, "Numbers that come from the text" and "... from the docket"; 36 and
//! 37 are in document 02, [1]).

/// Why a text or a report was refused. What does not apply to a number is 0.
#[derive(Clone, Copy, Debug, PartialEq, Eq)]
pub struct Refusal {
    pub number: u32,
    pub line: usize,
    pub unit: usize,
    pub period: usize,
}

impl Refusal {
    /// 41, 42 and 43, and 11, whose line is 0.
    pub fn bare(number: u32) -> Refusal {
        Refusal {
            number,
            line: 0,
            unit: 0,
            period: 0,
        }
    }

    /// 12 to 15 and 31 to 37: the line, counted from 1.
    pub fn at_line(number: u32, line: usize) -> Refusal {
        Refusal {
            line,
            ..Refusal::bare(number)
        }
    }

    /// 21, 24 and 25: unit and period, each counted from 1.
    pub fn at_output(number: u32, unit: usize, period: usize) -> Refusal {
        Refusal {
            unit,
            period,
            ..Refusal::bare(number)
        }
    }

    /// 22 and 23: a period only.
    pub fn at_period(number: u32, period: usize) -> Refusal {
        Refusal::at_output(number, 0, period)
    }
}
