//! A problem and its text.
use crate::lines::Lines;
use crate::Refusal;

pub const MOST_PERIODS: usize = 48;
pub const MOST_UNITS: usize = 32;

#[derive(Clone, Copy, Default)]
pub struct Unit {
    pub a: u64,
    pub b: u64,
    pub c: u64,
    pub low: u64,
    pub high: u64,
    pub up: usize,
    pub down: usize,
    pub on: bool,
    pub since: usize,
    pub ramp_down: u64,
    pub ramp_up: u64,
    pub hot: u64,
    pub cold: u64,
    pub cold_after: usize,
    pub stop: u64,
    pub midnight: u64,
}

impl Unit {
    /// Whether the numbers are ordered: low and high, hot and cold, and the output at midnight by the status then.
    fn is_ordered(&self) -> bool {
        let (least, most) = if self.on {
            (self.low, self.high)
        } else {
            (0, 0)
        };
        self.low <= self.high
            && self.hot <= self.cold
            && least <= self.midnight
            && self.midnight <= most
    }
}

pub struct Problem {
    pub periods: usize,
    pub units: usize,
    pub demand: [u64; MOST_PERIODS],
    pub spare: [u64; MOST_PERIODS],
    pub fleet: [Unit; MOST_UNITS],
}

const COST: (u64, u64) = (0, 1_000_000_000);
const OUTPUT: (u64, u64) = (1, 10_000);
const TIME: (u64, u64) = (1, 48);
const MOST_LOAD: u64 = 320_000;

const UNIT_LINE: [(u64, u64); 15] = [
    COST,
    (0, 10_000_000),
    (0, 10_000),
    OUTPUT,
    OUTPUT,
    TIME,
    TIME,
    (1, 1_000),
    OUTPUT,
    OUTPUT,
    COST,
    COST,
    (0, 48),
    COST,
    (0, 10_000),
];

impl Problem {
    pub fn blank() -> Problem {
        Problem {
            periods: 0,
            units: 0,
            demand: [0; MOST_PERIODS],
            spare: [0; MOST_PERIODS],
            fleet: [Unit::default(); MOST_UNITS],
        }
    }

    /// Reads the problem of a text whose first line is kind=problem.
    pub fn read(&mut self, text: &[u8], from: usize) -> Result<(), Refusal> {
        let mut lines = Lines::new(text, from, 2);
        self.read_lines(&mut lines)
            .map_err(|number| Refusal::at_line(number, lines.line))
    }

    fn read_lines(&mut self, lines: &mut Lines) -> Result<(), u64> {
        lines.take_row(b"periods=", 1, 1, MOST_PERIODS as u64)?;
        self.periods = lines.values[0] as usize;
        lines.take_row(b"units=", 1, 1, MOST_UNITS as u64)?;
        self.units = lines.values[0] as usize;
        lines.take_row(b"demand=", self.periods, 0, MOST_LOAD)?;
        self.demand = lines.values;
        lines.take_row(b"spare=", self.periods, 0, MOST_LOAD)?;
        self.spare = lines.values;
        for u in 0..self.units {
            lines.take_ranges(b"unit=", 8, &UNIT_LINE)?;
            let unit = unit_of(&lines.values, lines.minus);
            if !unit.is_ordered() {
                lines.line -= 1;
                return Err(15);
            }
            self.fleet[u] = unit;
        }
        if !lines.take_word(b"end=problem\n") || !lines.is_done() {
            return Err(12);
        }
        Ok(())
    }
}

fn unit_of(v: &[u64; 48], minus: bool) -> Unit {
    Unit {
        a: v[0],
        b: v[1],
        c: v[2],
        low: v[3],
        high: v[4],
        up: v[5] as usize,
        down: v[6] as usize,
        on: !minus,
        since: v[7] as usize,
        ramp_down: v[8],
        ramp_up: v[9],
        hot: v[10],
        cold: v[11],
        cold_after: v[12] as usize,
        stop: v[13],
        midnight: v[14],
    }
}
