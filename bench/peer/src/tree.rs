//! A tree's text, judged line by line.
use crate::least::{is_stuck, leaf_value, OFF, ON};
use crate::lines::Lines;
use crate::period::{is_crowd, sum_in_order, Orders};
use crate::problem::{Problem, MOST_PERIODS, MOST_UNITS};
use crate::ramp::{RampLeaf, Steps};
use crate::Refusal;

const MOST_DEPTH: usize = 63;
const MOST_PRICE: u64 = 1_000_000_000;
pub const MOST_WRITER: u64 = 65_535;

/// The smallest value of the price and ramp leaves, None for never; and the counts.
#[derive(Clone, Copy, Debug, PartialEq, Eq)]
pub struct Figures {
    pub writer: u64,
    pub bound: Option<i64>,
    pub splits: u64,
    pub leaves: u64,
}

/// The orders in which a short leaf takes the units, and what stands above the next node: the statuses by unit and period, and the upper
/// and the lower count of each period, all units and 0 where there is none.
struct Reader<'a, const ALL: bool> {
    problem: &'a Problem,
    orders: Orders,
    lines: Lines<'a>,
    fixed: [u8; MOST_UNITS * MOST_PERIODS],
    upper: [usize; MOST_PERIODS],
    lower: [usize; MOST_PERIODS],
    figures: Figures,
}

/// Reads the tree of a text whose first line is kind=tree.
pub fn read<const ALL: bool>(
    problem: &Problem,
    text: &[u8],
    from: usize,
) -> Result<Figures, Refusal> {
    let mut reader = Reader::<ALL> {
        problem,
        orders: Orders::new(problem),
        lines: Lines::new(text, from, 2),
        fixed: [0; MOST_UNITS * MOST_PERIODS],
        upper: [problem.units; MOST_PERIODS],
        lower: [0; MOST_PERIODS],
        figures: Figures {
            writer: 0,
            bound: None,
            splits: 0,
            leaves: 0,
        },
    };
    match reader.read_lines() {
        Ok(()) => Ok(reader.figures),
        Err(number) => Err(Refusal::at_line(number, reader.lines.line)),
    }
}

impl<const ALL: bool> Reader<'_, ALL> {
    fn read_lines(&mut self) -> Result<(), u64> {
        self.lines.take_row(b"writer=", 1, 1, MOST_WRITER)?;
        self.figures.writer = self.lines.values[0];
        self.read_node(0)?;
        if !self.lines.take_word(b"end=tree\n") || !self.lines.is_done() {
            return Err(12);
        }
        Ok(())
    }

    fn read_node(&mut self, depth: usize) -> Result<(), u64> {
        if self.lines.begins(b"split=") {
            return self.read_split(depth);
        }
        if self.lines.begins(b"short=") {
            self.read_short()?;
        } else if self.lines.begins(b"stuck=") {
            self.read_stuck()?;
        } else if self.lines.begins(b"crowd=") {
            self.read_crowd()?;
        } else if self.lines.begins(b"count=") {
            return self.read_count(depth);
        } else if self.lines.begins(b"rampprice=") {
            self.read_ramp()?;
        } else {
            self.read_price()?;
        }
        self.figures.leaves += 1;
        Ok(())
    }

    /// Refuses at the line that was taken last.
    fn refuse_last(&mut self, number: u64) -> Result<(), u64> {
        self.lines.line -= 1;
        Err(number)
    }

    /// Takes a line of one number from 1 to `most`, known to begin with the key, and counts it from 0.
    #[inline(always)]
    fn take_one(&mut self, key: &[u8], most: usize) -> Result<usize, u64> {
        self.lines.take_row_after(key, 1, 1, most as u64)?;
        Ok(self.lines.values[0] as usize - 1)
    }

    #[inline(always)]
    fn read_short(&mut self) -> Result<(), u64> {
        let t = self.take_one(b"short=", self.problem.periods)?;
        let upper = self.upper[t];
        let sum = sum_in_order(self.problem, &self.orders, t, &self.fixed, upper);
        debug_assert!(sum.taken <= upper);
        if !sum.short {
            return self.refuse_last(33);
        }
        Ok(())
    }

    #[inline(always)]
    fn read_stuck(&mut self) -> Result<(), u64> {
        let n = self.problem.periods;
        let u = self.take_one(b"stuck=", self.problem.units)?;
        if !is_stuck::<ALL>(&self.problem.fleet[u], &self.fixed[u * n..u * n + n]) {
            return self.refuse_last(34);
        }
        Ok(())
    }

    #[inline(always)]
    fn read_crowd(&mut self) -> Result<(), u64> {
        let t = self.take_one(b"crowd=", self.problem.periods)?;
        if !is_crowd(self.problem, t, &self.fixed, self.upper[t], self.lower[t]) {
            return self.refuse_last(36);
        }
        Ok(())
    }

    fn read_price(&mut self) -> Result<(), u64> {
        let n = self.problem.periods;
        self.lines.take_row(b"price=", n, 0, MOST_PRICE)?;
        let q = self.lines.values;
        self.lines.take_row(b"reserve=", n, 0, MOST_PRICE)?;
        let value = leaf_value::<ALL>(self.problem, &q, &self.lines.values, &self.fixed);
        self.take_value(value)
    }

    /// Lowers the bound to the value of a leaf whose last line was taken last; None where a unit is stuck.
    #[inline(always)]
    fn take_value(&mut self, value: Option<i64>) -> Result<(), u64> {
        match value {
            None => self.refuse_last(35),
            Some(value) => {
                let bound = self.figures.bound.unwrap_or(i64::MAX);
                self.figures.bound = Some(bound.min(value));
                Ok(())
            }
        }
    }

    /// A stuck unit ends the sum, and not the reading.
    #[inline(never)]
    fn read_ramp(&mut self) -> Result<(), u64> {
        let (n, steps) = (self.problem.periods, self.problem.periods - 1);
        self.lines.take_row_after(b"rampprice=", n, 0, MOST_PRICE)?;
        let q = self.lines.values;
        self.lines.take_row(b"reserve=", n, 0, MOST_PRICE)?;
        let mut leaf = RampLeaf::new(self.problem, &q, &self.lines.values);
        let mut multipliers = Steps::default();
        for u in 0..self.problem.units {
            if steps > 0 {
                self.lines.take_row(b"up=", steps, 0, MOST_PRICE)?;
                multipliers.up.put(&self.lines.values[..steps]);
                self.lines.take_row(b"down=", steps, 0, MOST_PRICE)?;
                multipliers.down.put(&self.lines.values[..steps]);
            }
            leaf.add::<ALL>(u, &multipliers, &self.fixed[u * n..u * n + n]);
        }
        self.take_value(leaf.value)
    }

    fn read_split(&mut self, depth: usize) -> Result<(), u64> {
        let (units, periods) = (self.problem.units, self.problem.periods);
        self.lines
            .take_ranges_after(b"split=", 0, &[(1, units as u64), (1, periods as u64)])?;
        let place =
            (self.lines.values[0] as usize - 1) * periods + self.lines.values[1] as usize - 1;
        if self.fixed[place] != 0 {
            return self.refuse_last(31);
        }
        if depth > MOST_DEPTH {
            return self.refuse_last(32);
        }
        self.figures.splits += 1;
        self.fixed[place] = OFF;
        self.read_node(depth + 1)?;
        self.fixed[place] = ON;
        self.read_node(depth + 1)?;
        self.fixed[place] = 0;
        Ok(())
    }

    fn read_count(&mut self, depth: usize) -> Result<(), u64> {
        let (units, periods) = (self.problem.units as u64, self.problem.periods as u64);
        self.lines
            .take_ranges_after(b"count=", 0, &[(1, periods), (0, units - 1)])?;
        let t = self.lines.values[0] as usize - 1;
        let count = self.lines.values[1] as usize;
        let (upper, lower) = (self.upper[t], self.lower[t]);
        if depth > MOST_DEPTH {
            return self.refuse_last(32);
        }
        if count < lower || upper <= count {
            return self.refuse_last(37);
        }
        self.figures.splits += 1;
        self.upper[t] = count;
        self.read_node(depth + 1)?;
        self.upper[t] = upper;
        self.lower[t] = count + 1;
        self.read_node(depth + 1)?;
        self.lower[t] = lower;
        Ok(())
    }
}
