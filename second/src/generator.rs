//! One generator of a problem: its figures, when it may switch, and what that and running cost
//! (document 01, "Texts" and "Rules for a schedule"; for p0 the change request "Yesterday's last
//! output").

use crate::refusal::Refusal;
use crate::text::Line;

/// The fifteen values of a `unit=` line, in its order.
#[derive(Clone, Debug, PartialEq, Eq)]
pub struct Generator {
    /// Cost of a period on, whatever the output (a).
    pub fixed_cost: i64,
    /// Cost of each unit of output (b).
    pub linear_cost: i64,
    /// Cost of each squared unit of output (c).
    pub square_cost: i64,
    /// Least output while on (pL).
    pub least_output: i64,
    /// Largest output while on (pU).
    pub most_output: i64,
    /// Periods it must have been on before it goes off (TU).
    pub least_up: i64,
    /// Periods it must have been off before it goes on (TD).
    pub least_down: i64,
    /// Periods on before period 1, or, below 0, periods off (Tini).
    pub initial: i64,
    /// Largest fall of the output between two periods on (DR).
    pub most_fall: i64,
    /// Largest rise of the output between two periods on (UR).
    pub most_rise: i64,
    /// Cost of a hot start (Hsc).
    pub hot_start: i64,
    /// Cost of a cold start (Csc).
    pub cold_start: i64,
    /// Periods off beyond TD for which a start is still hot (Tcold).
    pub hot_periods: i64,
    /// Cost of a stop (Dc).
    pub stop: i64,
    /// Output just before period 1, 0 if it was off (p0).
    pub initial_output: i64,
}

const MOST_MONEY: i64 = 1_000_000_000;

/// Ranges of the fifteen values ("Ranges"; that of p0 is in "Yesterday's last output"). That Tini
/// is not 0 is looked at apart.
const RANGES: [(i64, i64); 15] = [
    (0, MOST_MONEY),
    (0, 10_000_000),
    (0, 10_000),
    (1, 10_000),
    (1, 10_000),
    (1, 48),
    (1, 48),
    (-1_000, 1_000),
    (1, 10_000),
    (1, 10_000),
    (0, MOST_MONEY),
    (0, MOST_MONEY),
    (0, 48),
    (0, MOST_MONEY),
    (0, 10_000),
];

/// Place of Tini among the values, from 0: the one value that may carry a minus.
const TINI: usize = 7;

impl Generator {
    /// Reads a `unit=` line: 12, 14, 13, 15 in this order.
    pub fn read(line: Line) -> Result<Generator, Refusal> {
        let values = line.values("unit", Some(TINI))?;
        line.check_count(&values, RANGES.len())?;
        for (&value, &(low, high)) in values.iter().zip(&RANGES) {
            line.check_range(value, low, high)?;
        }
        if values[TINI] == 0 {
            return Err(line.refuse(13));
        }
        let generator = Generator::from_values(&values);
        if generator.least_output > generator.most_output
            || generator.hot_start > generator.cold_start
            || !generator.initial_output_fits()
        {
            return Err(line.refuse(15));
        }
        Ok(generator)
    }

    fn from_values(values: &[i64]) -> Generator {
        Generator {
            fixed_cost: values[0],
            linear_cost: values[1],
            square_cost: values[2],
            least_output: values[3],
            most_output: values[4],
            least_up: values[5],
            least_down: values[6],
            initial: values[TINI],
            most_fall: values[8],
            most_rise: values[9],
            hot_start: values[10],
            cold_start: values[11],
            hot_periods: values[12],
            stop: values[13],
            initial_output: values[14],
        }
    }

    /// Whether p0 goes with Tini: within pL to pU for a unit that was on, 0 for one that was off.
    fn initial_output_fits(&self) -> bool {
        if self.initially_on() {
            self.least_output <= self.initial_output && self.initial_output <= self.most_output
        } else {
            self.initial_output == 0
        }
    }

    /// Whether it is on just before period 1.
    pub fn initially_on(&self) -> bool {
        self.initial > 0
    }

    /// Periods it has spent in its first status before period 1.
    pub fn initially_spent(&self) -> i64 {
        self.initial.abs()
    }

    /// (5) to (10): whether it may leave a status after this many periods in it.
    pub fn may_leave(&self, on: bool, spent: i64) -> bool {
        spent >= if on { self.least_up } else { self.least_down }
    }

    /// What leaving a status after this many periods costs: a stop (18), (19), or a start
    /// (13) to (16), which is hot up to and with TD + Tcold periods off.
    pub fn leaving_cost(&self, on: bool, spent: i64) -> i64 {
        if on {
            self.stop
        } else if spent <= self.least_down + self.hot_periods {
            self.hot_start
        } else {
            self.cold_start
        }
    }

    /// The part of (1) for one period on with this output.
    pub fn running_cost(&self, output: i64) -> i64 {
        self.fixed_cost + self.linear_cost * output + self.square_cost * output * output
    }
}
