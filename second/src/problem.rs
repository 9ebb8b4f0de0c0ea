//! The problem a docket holds (document 01, "Texts", first item).

use crate::generator::Generator;
use crate::refusal::Refusal;
use crate::text::Reader;

pub const MOST_PERIODS: i64 = 48;
pub const MOST_UNITS: i64 = 32;
const MOST_DEMAND: i64 = 320_000;

/// Demand and spare of each period, and the generators.
#[derive(Clone, Debug, PartialEq, Eq)]
pub struct Problem {
    pub demand: Vec<i64>,
    pub spare: Vec<i64>,
    pub units: Vec<Generator>,
}

impl Problem {
    /// Reads the lines after `kind=problem`.
    pub fn read(reader: &mut Reader) -> Result<Problem, Refusal> {
        let periods = reader.take_one("periods", 1, MOST_PERIODS)? as usize;
        let count = reader.take_one("units", 1, MOST_UNITS)?;
        let demand = reader.take_row("demand", periods, 0, MOST_DEMAND)?;
        let spare = reader.take_row("spare", periods, 0, MOST_DEMAND)?;
        let mut units = Vec::new();
        for _ in 0..count {
            units.push(Generator::read(reader.take()?)?);
        }
        reader.take_end("end=problem")?;
        Ok(Problem {
            demand,
            spare,
            units,
        })
    }

    /// T.
    pub fn periods(&self) -> usize {
        self.demand.len()
    }

    /// D + R of a period (from 0).
    pub fn capacity_needed(&self, period: usize) -> i64 {
        self.demand[period] + self.spare[period]
    }
}
