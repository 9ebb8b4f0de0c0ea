//! Trees: reading, leaves and the bound (document 01, "Texts" and "Rules for a leaf"; document 02,
//! [1] and [6]).

use std::fmt;

use crate::above::Above;
use crate::leaf::{crowd_holds, ramp_value, short_holds, stuck_holds, Pricing};
use crate::problem::Problem;
use crate::ramp::{RampLeaf, RampPrices};
use crate::refusal::Refusal;
use crate::schedule::MOST_WRITER;
use crate::text::{Line, Reader};

/// A split or count at a larger depth is refused by 32. The root has depth 0.
const DEEPEST_SPLIT: usize = 63;
/// The largest multiplier; the smallest is 0.
pub const MOST_MULTIPLIER: i64 = 1_000_000_000;

/// What a tree shows: that no schedule costs less than a number, or that there is none at all.
/// `Never` comes last and so lies above every number.
#[derive(Clone, Copy, Debug, PartialEq, Eq, PartialOrd, Ord)]
pub enum Bound {
    Number(i64),
    Never,
}

impl fmt::Display for Bound {
    fn fmt(&self, to: &mut fmt::Formatter) -> fmt::Result {
        match self {
            Bound::Number(number) => write!(to, "{number}"),
            Bound::Never => write!(to, "never"),
        }
    }
}

/// An accepted tree: its bound, and its split lines (count lines among them) and leaves counted.
#[derive(Clone, Copy, Debug, PartialEq, Eq)]
pub struct Tree {
    pub writer: i64,
    pub bound: Bound,
    pub splits: usize,
    pub leaves: usize,
}

/// Reads the lines after `kind=tree`, judging each node as it comes.
pub fn read(problem: &Problem, reader: &mut Reader) -> Result<Tree, Refusal> {
    let writer = reader.take_one("writer", 1, MOST_WRITER)?;
    let mut walk = Walk {
        problem,
        above: Above::root(problem),
        pricing: Pricing::of(problem),
        tree: Tree {
            writer,
            bound: Bound::Never,
            splits: 0,
            leaves: 0,
        },
    };
    walk.read_node(reader, 0)?;
    reader.take_end("end=tree")?;
    Ok(walk.tree)
}

/// The reading of one tree.
struct Walk<'a> {
    problem: &'a Problem,
    /// What the split lines above the node being read say.
    above: Above,
    pricing: Pricing<'a>,
    /// The bound and the counts of what has been read.
    tree: Tree,
}

impl Walk<'_> {
    fn read_node(&mut self, reader: &mut Reader, depth: usize) -> Result<(), Refusal> {
        let line = reader.take()?;
        if line.has_key("split") {
            self.read_split(reader, line, depth)
        } else if line.has_key("count") {
            self.read_count(reader, line, depth)
        } else if line.has_key("short") {
            self.read_short(line)
        } else if line.has_key("stuck") {
            self.read_stuck(line)
        } else if line.has_key("crowd") {
            self.read_crowd(line)
        } else if line.has_key("price") {
            self.read_price(reader, line)
        } else if line.has_key("rampprice") {
            self.read_ramp_leaf(reader, line)
        } else {
            Err(line.refuse(12))
        }
    }

    /// `split=U,P`: 12, 14, 13, 31, 32, then the tree with U off in P and the one with U on.
    fn read_split(&mut self, reader: &mut Reader, line: Line, depth: usize) -> Result<(), Refusal> {
        let values = line.values("split", None)?;
        line.check_count(&values, 2)?;
        let unit = self.unit_named(line, values[0])?;
        let period = self.period_named(line, values[1])?;
        if self.above.fixed[unit][period].is_some() {
            return Err(line.refuse(31));
        }
        if depth > DEEPEST_SPLIT {
            return Err(line.refuse(32));
        }
        self.tree.splits += 1;
        for status in [false, true] {
            self.above.fixed[unit][period] = Some(status);
            self.read_node(reader, depth + 1)?;
        }
        self.above.fixed[unit][period] = None;
        Ok(())
    }

    /// `count=P,K`: 12, 14, 13, 32, 37, then the tree with at most K units on in P and the one with
    /// at least K + 1.
    fn read_count(&mut self, reader: &mut Reader, line: Line, depth: usize) -> Result<(), Refusal> {
        let units = self.problem.units.len();
        let values = line.values("count", None)?;
        line.check_count(&values, 2)?;
        let period = self.period_named(line, values[0])?;
        line.check_range(values[1], 0, units as i64 - 1)?;
        let most = values[1] as usize;
        if depth > DEEPEST_SPLIT {
            return Err(line.refuse(32));
        }
        let before = self.above.counts[period];
        if !before.permitted(units).contains(&most) {
            return Err(line.refuse(37));
        }
        self.tree.splits += 1;
        for counts in [before.at_most(most), before.above(most)] {
            self.above.counts[period] = counts;
            self.read_node(reader, depth + 1)?;
        }
        self.above.counts[period] = before;
        Ok(())
    }

    /// `short=P`: the units that may be on together in P cannot give D + R (else 33).
    fn read_short(&mut self, line: Line) -> Result<(), Refusal> {
        let values = line.values("short", None)?;
        line.check_count(&values, 1)?;
        let period = self.period_named(line, values[0])?;
        if !short_holds(self.problem, &self.above, period) {
            return Err(line.refuse(33));
        }
        self.tree.leaves += 1;
        Ok(())
    }

    /// `stuck=U`: the fixed statuses leave U no run (else 34).
    fn read_stuck(&mut self, line: Line) -> Result<(), Refusal> {
        let values = line.values("stuck", None)?;
        line.check_count(&values, 1)?;
        let unit = self.unit_named(line, values[0])?;
        if !stuck_holds(self.problem, &self.above.fixed, unit) {
            return Err(line.refuse(34));
        }
        self.tree.leaves += 1;
        Ok(())
    }

    /// `crowd=P`: the statuses fixed in P and the counts that stand for it exclude each other (else 36).
    fn read_crowd(&mut self, line: Line) -> Result<(), Refusal> {
        let values = line.values("crowd", None)?;
        line.check_count(&values, 1)?;
        let period = self.period_named(line, values[0])?;
        if !crowd_holds(&self.above, period) {
            return Err(line.refuse(36));
        }
        self.tree.leaves += 1;
        Ok(())
    }

    /// `price=` and the `reserve=` line after it; 35 stands at the latter.
    fn read_price(&mut self, reader: &mut Reader, line: Line) -> Result<(), Refusal> {
        let periods = self.problem.periods();
        let prices = line.row("price", periods, 0, MOST_MULTIPLIER)?;
        let line = reader.take()?;
        let reserves = line.row("reserve", periods, 0, MOST_MULTIPLIER)?;
        let value = self.pricing.value(&self.above.fixed, &prices, &reserves);
        self.add_value(value.ok_or(line.refuse(35))?);
        Ok(())
    }

    /// `rampprice=`, the `reserve=` line after it and the lines of the units; 35 stands at the last
    /// of all these.
    fn read_ramp_leaf(&mut self, reader: &mut Reader, line: Line) -> Result<(), Refusal> {
        let periods = self.problem.periods();
        let leaf = RampLeaf {
            prices: line.row("rampprice", periods, 0, MOST_MULTIPLIER)?,
            reserves: reader.take_row("reserve", periods, 0, MOST_MULTIPLIER)?,
            ramps: self.read_ramps(reader)?,
        };
        let value = ramp_value(self.problem, &self.above.fixed, &leaf);
        self.add_value(value.ok_or(Refusal::at_line(35, reader.line_taken()))?);
        Ok(())
    }

    /// For each unit in turn its `up=` and its `down=` line, with a multiplier for each period but
    /// the first. With one period there are no such lines.
    fn read_ramps(&self, reader: &mut Reader) -> Result<Vec<RampPrices>, Refusal> {
        let steps = self.problem.periods() - 1;
        let mut row = |key: &str| match steps {
            0 => Ok(Vec::new()),
            _ => reader.take_row(key, steps, 0, MOST_MULTIPLIER),
        };
        let mut ramps = Vec::new();
        for _ in &self.problem.units {
            let up = row("up")?;
            let down = row("down")?;
            ramps.push(RampPrices { up, down });
        }
        Ok(ramps)
    }

    /// One more leaf, with this value.
    fn add_value(&mut self, value: i64) {
        self.tree.bound = self.tree.bound.min(Bound::Number(value));
        self.tree.leaves += 1;
    }

    /// The unit (from 0) that a number from 1 to I names, else 13.
    fn unit_named(&self, line: Line, number: i64) -> Result<usize, Refusal> {
        line.check_range(number, 1, self.problem.units.len() as i64)?;
        Ok(number as usize - 1)
    }

    /// The period (from 0) that a number from 1 to T names, else 13.
    fn period_named(&self, line: Line, number: i64) -> Result<usize, Refusal> {
        line.check_range(number, 1, self.problem.periods() as i64)?;
        Ok(number as usize - 1)
    }
}
