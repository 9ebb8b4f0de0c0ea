//! Trees: grown with split lines that may stand and leaves that hold, or now and then with ones of
//! which some don't.

use crate::above::Above;
use crate::inputs::kinds::capacity_on_first;
use crate::inputs::problems::joined;
use crate::inputs::ramps;
use crate::inputs::random::Random;
use crate::leaf::{crowd_holds, open_capacity, short_holds, stuck_holds, Pricing};
use crate::problem::Problem;

/// How a tree is grown.
#[derive(Clone, Copy, PartialEq)]
enum Growth {
    /// A few random splits.
    Bushy,
    /// Splits where capacity is tightest, in search of `never`.
    Hunting,
    /// One long branch.
    Chain,
}

/// What may be wrong in a tree, now and then.
#[derive(Clone, Copy, PartialEq)]
enum Fault {
    None,
    /// A split on a fixed status.
    Split,
    /// A count whose K is below the lower count.
    LowCount,
    /// A count whose K is not below the upper count.
    HighCount,
    /// A count whose K is not below I.
    WideCount,
    /// A leaf that doesn't hold.
    Leaf,
    /// A `short` that doesn't hold under an upper count, or a `crowd` that misses by one.
    CountedLeaf,
    /// A `short` that would hold under an upper count if units fixed on came first.
    OnFirst,
    /// A ramp leaf with a stuck unit.
    StuckRamp,
}

impl Fault {
    /// Whether it comes only under split lines.
    fn needs_forks(self) -> bool {
        self != Fault::None && self != Fault::Leaf
    }
}

/// In a hundred places for it, how often a fault comes.
const FAULT_PERCENT: usize = 25;

/// A split line, units and periods from 0.
#[derive(Clone, Copy)]
enum Fork {
    /// The unit and the period.
    Split(usize, usize),
    /// The period and K.
    Count(usize, usize),
}

/// What a tree is to be like.
struct Plan {
    growth: Growth,
    splits_left: usize,
    /// In a hundred split lines, how many are counts, as long as there are both.
    count_percent: usize,
    /// In a hundred leaves with prices, how many are ramp leaves.
    ramp_percent: usize,
    /// How many ramp leaves may still come.
    ramps_left: usize,
    fault: Fault,
}

struct Grower<'a> {
    random: &'a mut Random,
    problem: &'a Problem,
    above: Above,
    lines: Vec<String>,
    depth: usize,
    plan: Plan,
}

/// A split line from this depth on is too deep.
const TOO_DEEP: usize = 64;

/// The text of a tree on this problem.
pub fn text(random: &mut Random, problem: &Problem, writer: i64) -> String {
    let plan = any_plan(random, problem);
    grown(random, problem, writer, plan)
}

/// The text of a tree with one branch of this many splits, if there are as many places, so many in
/// a hundred of them counts.
pub fn chain_text(
    random: &mut Random,
    problem: &Problem,
    writer: i64,
    splits: usize,
    count_percent: usize,
) -> String {
    let plan = Plan {
        growth: Growth::Chain,
        splits_left: splits,
        count_percent,
        ramp_percent: random.pick(&[0, 5]),
        ramps_left: most_ramps(problem),
        fault: Fault::None,
    };
    grown(random, problem, writer, plan)
}

/// The text of a tree in which ramp leaves take the place of most or all price leaves.
pub fn ramp_text(random: &mut Random, problem: &Problem, writer: i64) -> String {
    let fault = match random.chance(40) {
        true => Fault::StuckRamp,
        false => Fault::None,
    };
    let splits = match fault {
        Fault::None => random.pick(&[0, 0, 1, 2, 3]),
        _ => random.pick(&[2, 3, 4]),
    };
    let plan = Plan {
        growth: Growth::Bushy,
        splits_left: splits,
        count_percent: random.pick(&[0, 0, 30, 50]),
        ramp_percent: random.pick(&[50, 100]),
        ramps_left: most_ramps(problem),
        fault,
    };
    grown(random, problem, writer, plan)
}

/// How many ramp leaves a tree may have without growing too long.
fn most_ramps(problem: &Problem) -> usize {
    (600 / (problem.units.len() * problem.periods())).max(1)
}

fn any_plan(random: &mut Random, problem: &Problem) -> Plan {
    let roomy = problem.units.len() * problem.periods() > 64;
    let growth = match random.below(12) {
        0..=5 => Growth::Bushy,
        6..=8 => Growth::Hunting,
        9 | 10 if !roomy => Growth::Bushy,
        _ => Growth::Chain,
    };
    let splits = match growth {
        Growth::Bushy => random.pick(&[0, 0, 1, 2, 4, 9]),
        Growth::Hunting => random.pick(&[4, 12, 30]),
        Growth::Chain if roomy => random.pick(&[20, 63, 64, 65, 65, 65, 66]),
        Growth::Chain => random.below(12),
    };
    let fault = any_fault(random);
    let splits_left = match fault.needs_forks() {
        true => splits.max(4),
        false => splits,
    };
    let count_percent = match fault {
        Fault::None | Fault::Split | Fault::Leaf => random.pick(&[0, 0, 30, 50, 100]),
        _ => 50,
    };
    Plan {
        growth,
        splits_left,
        count_percent,
        ramp_percent: random.pick(&[0, 0, 30, 100]),
        ramps_left: most_ramps(problem),
        fault,
    }
}

/// None, more often than not.
fn any_fault(random: &mut Random) -> Fault {
    match random.below(51) {
        0..=1 => Fault::Split,
        2..=5 => Fault::LowCount,
        6..=7 => Fault::HighCount,
        8..=9 => Fault::WideCount,
        10..=18 => Fault::Leaf,
        19..=21 => Fault::CountedLeaf,
        22..=27 => Fault::OnFirst,
        _ => Fault::None,
    }
}

fn grown(random: &mut Random, problem: &Problem, writer: i64, plan: Plan) -> String {
    let mut grower = Grower {
        random,
        problem,
        above: Above::root(problem),
        lines: vec!["kind=tree".to_string(), format!("writer={writer}")],
        depth: 0,
        plan,
    };
    grower.node();
    grower.lines.push("end=tree\n".to_string());
    grower.lines.join("\n")
}

impl Grower<'_> {
    fn node(&mut self) {
        match self.next_fork() {
            Some(Fork::Split(unit, period)) => self.split(unit, period),
            Some(Fork::Count(period, most)) => self.count(period, most),
            None => self.leaf(),
        }
    }

    /// How to split next, if at all.
    fn next_fork(&mut self) -> Option<Fork> {
        let settled = self.plan.growth == Growth::Hunting && self.holding_leaf().is_some();
        if self.plan.splits_left == 0 || settled {
            return None;
        }
        let goes_on = self.plan.fault.needs_forks() && self.depth < 2;
        if self.plan.growth == Growth::Bushy && !goes_on && self.random.chance(30) {
            return None;
        }
        if let Some(fork) = self.wrong_fork() {
            return Some(fork);
        }
        match self.random.chance(self.plan.count_percent) {
            true => self.next_count().or_else(|| self.next_split()),
            false => self.next_split(),
        }
    }

    fn next_split(&mut self) -> Option<Fork> {
        match self.plan.growth {
            _ if self.plan.fault == Fault::OnFirst => self.smallest_split(),
            Growth::Hunting => self.tightest_split(),
            _ => self.any_split(false),
        }
    }

    fn split(&mut self, unit: usize, period: usize) {
        self.lines
            .push(format!("split={},{}", unit + 1, period + 1));
        let before = self.above.fixed[unit][period];
        let branch = self.random.below(4) == 0;
        self.plan.splits_left -= 1;
        for status in [false, true] {
            self.above.fixed[unit][period] = Some(status);
            self.side(status == branch);
        }
        self.above.fixed[unit][period] = before;
    }

    fn count(&mut self, period: usize, most: usize) {
        self.lines.push(format!("count={},{most}", period + 1));
        let before = self.above.counts[period];
        let sides = [before.at_most(most), before.above(most)];
        let widths = sides.map(|counts| counts.permitted(self.problem.units.len()).len());
        self.plan.splits_left -= 1;
        // A chain goes on where more counts can follow.
        let branch = usize::from(widths[1] >= widths[0]);
        for (side, counts) in sides.into_iter().enumerate() {
            self.above.counts[period] = counts;
            self.side(side == branch);
        }
        self.above.counts[period] = before;
    }

    /// One of the two trees of a split line. In a chain only one of them grows on.
    fn side(&mut self, branch: bool) {
        self.depth += 1;
        if branch || self.plan.growth != Growth::Chain {
            self.node();
        } else {
            self.leaf();
        }
        self.depth -= 1;
    }

    /// A place whose status is fixed, or one whose status isn't; where counts stand, more often in
    /// their periods.
    fn any_split(&mut self, fixed: bool) -> Option<Fork> {
        let mut places = Vec::new();
        let mut counted = Vec::new();
        for (unit, statuses) in self.above.fixed.iter().enumerate() {
            for (period, status) in statuses.iter().enumerate() {
                if status.is_some() == fixed {
                    places.push((unit, period));
                    if self.is_counted(period) {
                        counted.push((unit, period));
                    }
                }
            }
        }
        if !counted.is_empty() && self.random.chance(60) {
            places = counted;
        }
        match places.is_empty() {
            true => None,
            false => {
                let (unit, period) = self.random.pick(&places);
                Some(Fork::Split(unit, period))
            }
        }
    }

    /// The largest free unit in the free period with the least capacity to spare.
    fn tightest_split(&mut self) -> Option<Fork> {
        let mut best = None;
        for period in 0..self.problem.periods() {
            for (unit, generator) in self.problem.units.iter().enumerate() {
                if self.above.fixed[unit][period].is_none() {
                    let key = (self.margin(period), -generator.most_output, unit, period);
                    best = Some(best.map_or(key, |held: (i64, i64, usize, usize)| held.min(key)));
                }
            }
        }
        best.map(|(_, _, unit, period)| Fork::Split(unit, period))
    }

    /// The smallest free unit in a period for which an upper count stands, or any free unit.
    fn smallest_split(&mut self) -> Option<Fork> {
        let mut best = None;
        for period in 0..self.problem.periods() {
            for (unit, generator) in self.problem.units.iter().enumerate() {
                let is_free = self.above.fixed[unit][period].is_none();
                if is_free && self.above.counts[period].upper.is_some() {
                    let key = (generator.most_output, unit, period);
                    best = Some(best.map_or(key, |held: (i64, usize, usize)| held.min(key)));
                }
            }
        }
        match best {
            Some((_, unit, period)) => Some(Fork::Split(unit, period)),
            None => self.any_split(false),
        }
    }

    /// A count that narrows those that stand, if there is one, of the tightest period where hunting.
    /// One too deep may also be a count that does not narrow them.
    fn next_count(&mut self) -> Option<Fork> {
        let units = self.problem.units.len();
        if self.depth >= TOO_DEEP && self.random.chance(30) {
            let period = self.random.below(self.problem.periods());
            return Some(Fork::Count(period, self.random.below(units)));
        }
        let permitted = |period: usize| self.above.counts[period].permitted(units);
        let periods: Vec<usize> = (0..self.problem.periods())
            .filter(|&period| !permitted(period).is_empty())
            .collect();
        let tightest = periods.iter().min_by_key(|&&period| self.margin(period));
        let period = match self.plan.growth {
            Growth::Hunting => *tightest?,
            _ if periods.is_empty() => return None,
            _ => self.random.pick(&periods),
        };
        Some(Fork::Count(period, self.next_most(period)))
    }

    /// A K that a count of this period may have: in a chain an end of what 37 permits, else often the
    /// largest that is too small for what the period needs or the next one.
    fn next_most(&mut self, period: usize) -> usize {
        let permitted = self.above.counts[period].permitted(self.problem.units.len());
        let (least, most) = (permitted.start, permitted.end - 1);
        let too_small = self.most_too_small(period);
        let enough = if self.plan.fault == Fault::OnFirst {
            90
        } else {
            40
        };
        match self.plan.growth {
            Growth::Chain => self.random.pick(&[least, most]),
            Growth::Hunting if permitted.contains(&too_small) && enough < 90 => too_small,
            _ if permitted.contains(&(too_small + 1)) && self.random.chance(enough) => {
                too_small + 1
            }
            _ => self.random.edgy(least as i64, most as i64) as usize,
        }
    }

    /// The largest K with which the units that may be on in a period are too few for what it needs.
    fn most_too_small(&self, period: usize) -> usize {
        let mut above = self.above.clone();
        let largest = (0..self.problem.units.len()).rev().find(|&most| {
            above.counts[period].upper = Some(most);
            short_holds(self.problem, &above, period)
        });
        largest.unwrap_or(0)
    }

    /// A split or count that is refused, if the tree's fault is one and there is a place for it.
    fn wrong_fork(&mut self) -> Option<Fork> {
        if self.plan.fault == Fault::None || !self.random.chance(FAULT_PERCENT) {
            return None;
        }
        match self.plan.fault {
            Fault::Split => self.any_split(true),
            Fault::LowCount | Fault::HighCount => self.wrong_count(),
            Fault::WideCount => Some(self.wide_count()),
            _ => None,
        }
    }

    /// A count whose K is the next beyond the lower or the upper count that stands for its period.
    fn wrong_count(&mut self) -> Option<Fork> {
        let mut wrong = Vec::new();
        for (period, counts) in self.above.counts.iter().enumerate() {
            let most = match self.plan.fault {
                Fault::LowCount => counts.lower.map(|lower| lower - 1),
                _ => counts.upper,
            };
            wrong.extend(most.map(|most| Fork::Count(period, most)));
        }
        match wrong.is_empty() {
            true => None,
            false => Some(self.random.pick(&wrong)),
        }
    }

    /// A count whose K is the least that is out of range, or the next one.
    fn wide_count(&mut self) -> Fork {
        let units = self.problem.units.len();
        let period = self.likely_period();
        Fork::Count(period, self.random.pick(&[units, units, units + 1]))
    }

    fn is_counted(&self, period: usize) -> bool {
        let counts = self.above.counts[period];
        counts.upper.is_some() || counts.lower.is_some()
    }

    /// A period, most often one for which a count stands.
    fn likely_period(&mut self) -> usize {
        let counted: Vec<usize> = (0..self.problem.periods())
            .filter(|&period| self.is_counted(period))
            .collect();
        match counted.is_empty() || self.random.chance(20) {
            true => self.random.below(self.problem.periods()),
            false => self.random.pick(&counted),
        }
    }

    /// The most pU that can be on in a period, minus what the period needs.
    fn margin(&self, period: usize) -> i64 {
        open_capacity(self.problem, &self.above, period) - self.problem.capacity_needed(period)
    }

    fn stuck_units(&self) -> Vec<usize> {
        (0..self.problem.units.len())
            .filter(|&unit| stuck_holds(self.problem, &self.above.fixed, unit))
            .collect()
    }

    fn periods_where(&self, holds: impl Fn(usize) -> bool) -> Vec<usize> {
        (0..self.problem.periods())
            .filter(|&period| holds(period))
            .collect()
    }

    /// The line of a `short`, `stuck` or `crowd` that holds, if any does.
    fn holding_leaf(&mut self) -> Option<String> {
        let short = self.periods_where(|period| short_holds(self.problem, &self.above, period));
        let crowd = self.periods_where(|period| crowd_holds(&self.above, period));
        let kinds = [
            ("short", short),
            ("stuck", self.stuck_units()),
            ("crowd", crowd),
        ];
        let holding: Vec<_> = kinds.iter().filter(|(_, of)| !of.is_empty()).collect();
        if holding.is_empty() {
            return None;
        }
        let (key, of) = self.random.pick(&holding);
        Some(format!("{key}={}", self.random.pick(of) + 1))
    }

    fn leaf(&mut self) {
        if self.plan.fault == Fault::Leaf && self.random.chance(FAULT_PERCENT) {
            self.any_leaf();
            return;
        }
        let missing = match self.plan.fault {
            Fault::CountedLeaf if self.random.chance(50) => self.missing_leaves(),
            Fault::OnFirst => self.shorts_if_on_came_first(),
            _ => Vec::new(),
        };
        if !missing.is_empty() {
            let at = self.random.below(missing.len());
            self.lines.push(missing[at].clone());
            return;
        }
        let stuck = !self.stuck_units().is_empty();
        match self.holding_leaf() {
            _ if stuck && self.plan.fault == Fault::StuckRamp => self.ramp_leaf(),
            _ if stuck && self.plan.fault == Fault::Leaf && self.random.chance(50) => {
                self.price_leaf()
            }
            Some(line) if stuck || self.random.chance(75) => self.lines.push(line),
            _ => self.valued_leaf(),
        }
    }

    /// The leaves that counts make almost hold: `short` where an upper count leaves units out, and
    /// `crowd` where as many units are on, or left, as may be.
    fn missing_leaves(&self) -> Vec<String> {
        let mut lines = Vec::new();
        for period in 0..self.problem.periods() {
            let counts = self.above.counts[period];
            let on = self.above.fixed_on(period);
            let left = self.above.not_fixed_off(period);
            let is_short = short_holds(self.problem, &self.above, period);
            if counts.upper.is_some_and(|upper| upper < left) && !is_short {
                lines.push(format!("short={}", period + 1));
            }
            let is_crowded = crowd_holds(&self.above, period);
            if (counts.upper == Some(on) || counts.lower == Some(left)) && !is_crowded {
                lines.push(format!("crowd={}", period + 1));
            }
        }
        lines
    }

    /// The `short` leaves that don't hold but would if the sum took units fixed on first.
    fn shorts_if_on_came_first(&self) -> Vec<String> {
        let periods = self.periods_where(|period| {
            let needed = self.problem.capacity_needed(period);
            capacity_on_first(self.problem, &self.above, period) < needed
                && !short_holds(self.problem, &self.above, period)
        });
        periods
            .iter()
            .map(|period| format!("short={}", period + 1))
            .collect()
    }

    /// A leaf whether it holds or not.
    fn any_leaf(&mut self) {
        let period = self.likely_period() + 1;
        let unit = self.random.below(self.problem.units.len()) + 1;
        match self.random.below(4) {
            0 => self.lines.push(format!("short={period}")),
            1 => self.lines.push(format!("stuck={unit}")),
            2 => self.lines.push(format!("crowd={period}")),
            _ => self.valued_leaf(),
        }
    }

    /// A price leaf or a ramp leaf.
    fn valued_leaf(&mut self) {
        if self.plan.ramps_left > 0 && self.random.chance(self.plan.ramp_percent) {
            self.plan.ramps_left -= 1;
            self.ramp_leaf();
        } else {
            self.price_leaf();
        }
    }

    fn price_leaf(&mut self) {
        let (prices, reserves) = self.multipliers();
        self.lines.push(format!("price={}", joined(&prices)));
        self.lines.push(format!("reserve={}", joined(&reserves)));
    }

    fn ramp_leaf(&mut self) {
        let (prices, reserves) = self.multipliers();
        let fixed = &self.above.fixed;
        let leaf = ramps::leaf(self.random, self.problem, fixed, prices, reserves);
        self.lines.extend(ramps::lines(&leaf));
    }

    /// For each period a price and a reserve multiplier.
    fn multipliers(&mut self) -> (Vec<i64>, Vec<i64>) {
        let style = self.random.below(14);
        let steady = self.price(style);
        let varied = self.random.chance(80);
        let mut prices = Vec::new();
        let mut reserves = Vec::new();
        for _ in 0..self.problem.periods() {
            prices.push(if varied { self.price(style) } else { steady });
            reserves.push(self.reserve(style));
        }
        if style > 6 {
            self.tune(&mut prices, &mut reserves);
        }
        (prices, reserves)
    }

    /// Tries other multipliers, one at a time, and keeps those that raise the leaf's value.
    fn tune(&mut self, prices: &mut [i64], reserves: &mut [i64]) {
        let widest = self.problem.units.iter().map(|unit| unit.most_output).max();
        if widest > Some(600) || self.problem.periods() * self.problem.units.len() > 200 {
            return;
        }
        let mut pricing = Pricing::of(self.problem);
        let mut best = pricing.value(&self.above.fixed, prices, reserves);
        for step in 0..8 * prices.len() {
            let period = step % prices.len();
            let kept = (prices[period], reserves[period]);
            match self.random.below(4) {
                0 => reserves[period] = self.reserve(3),
                _ => prices[period] = self.marginal_price(),
            }
            let value = pricing.value(&self.above.fixed, prices, reserves);
            if value > best {
                best = value;
            } else {
                (prices[period], reserves[period]) = kept;
            }
        }
    }

    /// A price multiplier: an end of the range, any number, or, most often, about what one more
    /// unit of output costs somewhere between pL and pU.
    fn price(&mut self, style: usize) -> i64 {
        match style {
            0 => self.random.edgy(0, 1_000_000_000),
            1 => self.random.pick(&[0, 1_000_000_000]),
            2 => self.random.between(0, 40),
            _ => self.marginal_price(),
        }
    }

    fn marginal_price(&mut self) -> i64 {
        let units = &self.problem.units;
        let unit = &units[self.random.below(units.len())];
        let output = self.random.edgy(unit.least_output, unit.most_output);
        let around = 2 * output + self.random.between(-1, 1);
        let marginal = unit.linear_cost + unit.square_cost * around;
        let share = if self.random.chance(40) {
            unit.fixed_cost / unit.most_output
        } else {
            0
        };
        (marginal + share + self.random.between(-1, 1)).clamp(0, 1_000_000_000)
    }

    fn reserve(&mut self, style: usize) -> i64 {
        match (style, self.random.below(3)) {
            (0, _) => self.random.edgy(0, 1_000_000_000),
            (1, _) => self.random.pick(&[0, 1_000_000_000]),
            (_, 0) => self.random.between(0, 5),
            (3, _) => {
                let units = &self.problem.units;
                let unit = &units[self.random.below(units.len())];
                unit.fixed_cost / unit.most_output
            }
            _ => 0,
        }
    }
}
