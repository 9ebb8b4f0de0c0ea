//! Which kinds of answers trees with ramp leaves bring.

use crate::above::Above;
use crate::leaf::{stuck_holds, Pricing};
use crate::problem::Problem;
use crate::ramp::RampLeaf;

/// What is due after some lines of a tree.
#[derive(Clone, Copy, Debug, PartialEq, Eq)]
pub enum Due {
    /// A node's first line.
    Node,
    /// The reserve line of a price leaf.
    PriceReserve,
    /// The reserve line of a ramp leaf.
    RampReserve,
    Up,
    Down,
    /// The tree's last line.
    End,
}

/// A line that was refused.
pub struct Refused<'a> {
    pub number: &'a str,
    pub line: &'a str,
    /// Whether it is there and ended.
    pub is_whole: bool,
    pub due: Due,
    pub problem: &'a Problem,
    pub above: &'a Above,
}

impl Refused<'_> {
    /// The kind of a refusal at a line of a ramp leaf; `None` elsewhere.
    pub fn kind(&self) -> Option<String> {
        let line = self.ramp_line()?;
        match self.number {
            "12" | "13" | "14" => Some(format!("{} at {line}", self.number)),
            "35" if self.due == Due::Down => Some("35 at a last down line".to_string()),
            "35" => Some(format!("35 at {line}")),
            _ => None,
        }
    }

    /// Which line of a ramp leaf it is. A first line is one only by its key.
    fn ramp_line(&self) -> Option<&'static str> {
        match self.due {
            Due::Node if self.line.starts_with("rampprice=") => Some("a rampprice line"),
            Due::RampReserve => Some("a ramp leaf's reserve line"),
            Due::Up => Some("an up line"),
            Due::Down => Some("a down line"),
            _ => None,
        }
    }

    /// What else there is to say of the refusal.
    pub fn further_kinds(&self) -> Vec<String> {
        let mut kinds = Vec::new();
        let in_form = ["12", "13", "14"].contains(&self.number);
        if in_form && self.ramp_line().is_some() && self.has_stuck_unit() {
            kinds.push(format!("{} before 35", self.number));
        }
        if self.number == "12" && self.is_exchanged() {
            kinds.push("12 with up and down exchanged".to_string());
        }
        if self.number == "12" && self.is_of_one_period() {
            kinds.push("12 at a ramp of one period".to_string());
        }
        if self.number == "12" && self.breaks_off() {
            kinds.push("12 where a ramp leaf breaks off".to_string());
        }
        kinds
    }

    fn has_stuck_unit(&self) -> bool {
        let mut units = 0..self.problem.units.len();
        units.any(|unit| stuck_holds(self.problem, &self.above.fixed, unit))
    }

    /// A down line where an up line is due, or the other way round.
    fn is_exchanged(&self) -> bool {
        match self.due {
            Due::Up => self.line.starts_with("down="),
            Due::Down => self.line.starts_with("up="),
            _ => false,
        }
    }

    /// An up or down line though there is one period.
    fn is_of_one_period(&self) -> bool {
        let is_ramp = self.line.starts_with("up=") || self.line.starts_with("down=");
        self.problem.periods() == 1 && is_ramp && [Due::Node, Due::End].contains(&self.due)
    }

    /// The tree or its text ends inside a ramp leaf, or another text begins there.
    fn breaks_off(&self) -> bool {
        let goes_on =
            self.is_whole && !self.line.starts_with("end=") && !self.line.starts_with("kind=");
        [Due::RampReserve, Due::Up, Due::Down].contains(&self.due) && !goes_on
    }
}

/// The leaves with a value that an accepted tree has.
#[derive(Default)]
pub struct Valued {
    /// Of price leaves.
    pub prices: Vec<i64>,
    /// Of ramp leaves.
    pub ramps: Vec<i64>,
}

impl Valued {
    /// Which kind of leaf gives the bound, where both are there and differ.
    pub fn bound_kind(&self) -> Option<&'static str> {
        let (price, ramp) = (self.prices.iter().min()?, self.ramps.iter().min()?);
        if ramp < price {
            Some("bound of a ramp leaf beside a price leaf")
        } else if price < ramp {
            Some("bound of a price leaf beside a ramp leaf")
        } else {
            None
        }
    }
}

/// What there is to say of an accepted ramp leaf with this value.
pub fn leaf_kinds(
    problem: &Problem,
    above: &Above,
    leaf: &RampLeaf,
    value: i64,
) -> Vec<&'static str> {
    let mut kinds = vec!["tree with a ramp leaf"];
    let periods = problem.periods();
    let rows = leaf.ramps.iter().flat_map(|ramps| [&ramps.up, &ramps.down]);
    let multipliers: Vec<i64> = rows.flatten().copied().collect();
    let mut push = |holds: bool, kind| {
        if holds {
            kinds.push(kind);
        }
    };
    push(is_split(above), "ramp leaf under a split");
    push(is_counted(above), "ramp leaf under a count");
    push(periods == 1, "ramp leaf of one period");
    push(periods == 48, "ramp leaf of 48 periods");
    push(problem.units.len() == 32, "ramp leaf of 32 units");
    let all_0 = multipliers.iter().all(|&multiplier| multiplier == 0);
    push(periods > 1 && all_0, "ramp leaf with all ramps 0");
    let has_most = multipliers.contains(&1_000_000_000);
    push(has_most, "ramp leaf with a largest multiplier");
    let plain = Pricing::of(problem).value(&above.fixed, &leaf.prices, &leaf.reserves);
    push(Some(value) > plain, "ramp leaf above its price leaf");
    push(Some(value) < plain, "ramp leaf below its price leaf");
    kinds
}

fn is_split(above: &Above) -> bool {
    above.fixed.iter().flatten().any(Option::is_some)
}

fn is_counted(above: &Above) -> bool {
    let mut counts = above.counts.iter();
    counts.any(|counts| counts.upper.is_some() || counts.lower.is_some())
}
