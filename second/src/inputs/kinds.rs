//! Which kinds of answers an input brings, so that they can be counted.

use crate::above::Above;
use crate::inputs::ramp_kinds::{leaf_kinds, Due, Refused, Valued};
use crate::leaf::{ramp_value, short_holds, too_few_left, too_many_on, Pricing};
use crate::listing::pieces;
use crate::problem::Problem;
use crate::ramp::{RampLeaf, RampPrices};
use crate::text::Reader;

/// The kinds of all answers to an input, in the order of its texts. An answer may be of several.
pub fn kinds(input: &[u8], output: &[u8]) -> Vec<String> {
    let output = String::from_utf8_lossy(output);
    let answers = output
        .lines()
        .filter_map(|line| line.strip_prefix("answer="));
    let mut problem = None;
    let mut kinds = Vec::new();
    for (piece, answer) in pieces(input).into_iter().zip(answers) {
        let words: Vec<&str> = answer.split(',').collect();
        if answer == "held" {
            problem = read_problem(piece);
        }
        match words[0] {
            "refused" => push_refused(&mut kinds, problem.as_ref(), piece, &words),
            _ => push_accepted(&mut kinds, problem.as_ref(), piece, &words),
        }
    }
    kinds
}

fn read_problem(text: &[u8]) -> Option<Problem> {
    let mut reader = Reader::new(text);
    reader.take().ok()?;
    Problem::read(&mut reader).ok()
}

fn push_refused(kinds: &mut Vec<String>, problem: Option<&Problem>, text: &[u8], words: &[&str]) {
    let place = Place {
        problem,
        text,
        line: words[2].parse().unwrap_or(0),
    };
    let ramp_kinds = place.ramp_kinds(words[1]);
    let (kind, further) = ramp_kinds.unwrap_or((None, Vec::new()));
    let kind = kind.unwrap_or_else(|| refusal_kind(&place, words).to_string());
    kinds.push(format!("refused {kind}"));
    kinds.extend(further.iter().map(|kind| format!("refused {kind}")));
}

/// The number of a refusal, and for some of them what is refused.
fn refusal_kind<'a>(place: &Place, words: &[&'a str]) -> &'a str {
    match (words[1], words[4]) {
        ("13", _) if place.is_at("count=") => "13 at a count",
        ("25", "1") => "25 in period 1",
        ("25", _) => "25 later",
        ("32", _) if place.is_at("count=") => "32 at a count",
        ("32", _) => "32 at a split",
        ("33", _) if place.leaves_units_on_out() => "33 with units on left out",
        ("33", _) if place.leaves_units_out() => "33 under a count",
        ("36", _) if place.misses_by_one() => "36 by one",
        ("37", _) if place.is_too_low() => "37 too low",
        ("37", _) => "37 too high",
        (number, _) => number,
    }
}

/// What `short` would sum if, under an upper count, it took units fixed on first. It does not.
pub fn capacity_on_first(problem: &Problem, above: &Above, period: usize) -> i64 {
    let mut units = Vec::new();
    for (unit, statuses) in problem.units.iter().zip(&above.fixed) {
        if statuses[period] != Some(false) {
            units.push((statuses[period] == Some(true), unit.most_output));
        }
    }
    units.sort();
    units.reverse();
    let most = above.counts[period].upper.unwrap_or(units.len());
    units.iter().take(most).map(|(_, most)| most).sum()
}

/// The line of a text that was refused.
struct Place<'a> {
    problem: Option<&'a Problem>,
    text: &'a [u8],
    /// From 1; 0 if no line was refused.
    line: usize,
}

impl Place<'_> {
    fn line(&self) -> String {
        let letters = String::from_utf8_lossy(self.text);
        let line = letters.split('\n').nth(self.line.wrapping_sub(1));
        line.unwrap_or("").to_string()
    }

    fn is_at(&self, start: &str) -> bool {
        self.line().starts_with(start)
    }

    /// A way through the lines before this one, which is one of a tree.
    fn walked(&self) -> Option<Walk<'_>> {
        let mut walk = Walk::of(self.problem?, self.text, self.line - 1);
        if walk.node().is_some() {
            walk.due = Due::End;
        }
        Some(walk)
    }

    /// What stands above the line, which is one of a tree, and the line's values.
    fn above(&self) -> Option<(Above, Vec<usize>)> {
        Some((self.walked()?.above, values(&self.line())))
    }

    /// The kind of a refusal at a line of a ramp leaf, and what else there is to say of a refusal that
    /// has to do with one. `None` if the line is not one of a tree's nodes.
    fn ramp_kinds(&self, number: &str) -> Option<(Option<String>, Vec<String>)> {
        if !self.text.starts_with(b"kind=tree\n") || self.line < 3 {
            return None;
        }
        let walk = self.walked()?;
        let ended = self.text.iter().filter(|&&byte| byte == b'\n').count();
        let refused = Refused {
            number,
            line: &self.line(),
            is_whole: ended >= self.line,
            due: walk.due,
            problem: walk.problem,
            above: &walk.above,
        };
        Some((refused.kind(), refused.further_kinds()))
    }

    /// For 33: whether an upper count leaves out some of the units that are not fixed off.
    fn leaves_units_out(&self) -> bool {
        self.above().is_some_and(|(above, values)| {
            let period = values[0] - 1;
            let upper = above.counts[period].upper;
            upper.is_some_and(|upper| upper < above.not_fixed_off(period))
        })
    }

    /// For 33: whether `short` would hold if units fixed on came first under its upper count.
    fn leaves_units_on_out(&self) -> bool {
        self.problem.is_some_and(|problem| {
            self.above().is_some_and(|(above, values)| {
                let period = values[0] - 1;
                let needed = problem.capacity_needed(period);
                capacity_on_first(problem, &above, period) < needed
            })
        })
    }

    /// For 36: whether as many units are fixed on as may be, or as many left as must be.
    fn misses_by_one(&self) -> bool {
        self.above().is_some_and(|(above, values)| {
            let period = values[0] - 1;
            let counts = above.counts[period];
            counts.upper == Some(above.fixed_on(period))
                || counts.lower == Some(above.not_fixed_off(period))
        })
    }

    /// For 37: whether K is below the lower count.
    fn is_too_low(&self) -> bool {
        self.above().is_some_and(|(above, values)| {
            let lower = above.counts[values[0] - 1].lower;
            lower.is_some_and(|lower| values[1] < lower)
        })
    }
}

fn push_accepted(kinds: &mut Vec<String>, problem: Option<&Problem>, text: &[u8], words: &[&str]) {
    let kind = ["problem", "schedule", "", "tree"][words.len() - 1];
    kinds.push(format!("{} {kind}", words[0]));
    if kind != "tree" {
        return;
    }
    if words[1] == "never" {
        kinds.push("bound never".to_string());
    }
    if words[1].starts_with('-') {
        kinds.push("bound negative".to_string());
    }
    if let Some(problem) = problem {
        let mut walk = Walk::of(problem, text, usize::MAX);
        if String::from_utf8_lossy(text).contains("rampprice=") {
            walk.valued = Some(Valued::default());
        }
        walk.node();
        walk.seen
            .extend(walk.valued.and_then(|valued| valued.bound_kind()));
        walk.seen.sort();
        walk.seen.dedup();
        kinds.extend(walk.seen.iter().map(|kind| kind.to_string()));
    }
}

/// A way through the nodes of a tree whose lines have been found right.
struct Walk<'a> {
    problem: &'a Problem,
    /// The lines that are left, the next one last.
    left: Vec<String>,
    above: Above,
    /// What is due where the lines come to their end.
    due: Due,
    /// What was met of count lines, of leaves that need them and of ramp leaves.
    seen: Vec<&'static str>,
    /// The values of leaves, where they are asked for.
    valued: Option<Valued>,
}

impl Walk<'_> {
    /// Through the nodes of this tree's text that stand in its first `count` lines.
    fn of<'a>(problem: &'a Problem, text: &[u8], count: usize) -> Walk<'a> {
        let letters = String::from_utf8_lossy(text);
        let nodes = letters.lines().take(count).skip(2);
        let mut left: Vec<String> = nodes.map(str::to_string).collect();
        left.reverse();
        Walk {
            problem,
            left,
            above: Above::root(problem),
            due: Due::Node,
            seen: Vec::new(),
            valued: None,
        }
    }

    /// The next line, which is this one of a leaf.
    fn take(&mut self, due: Due) -> Option<String> {
        self.due = due;
        self.left.pop()
    }

    /// The next node with all that is under it. `None` once the lines have come to their end; what
    /// stands above the line after them is then in `above`.
    fn node(&mut self) -> Option<()> {
        let line = self.take(Due::Node)?;
        let key = line.split('=').next()?;
        match key {
            "split" => self.split(&values(&line)),
            "count" => self.count(&values(&line)),
            "short" => self.short(values(&line)[0] - 1),
            "crowd" => self.crowd(values(&line)[0] - 1),
            "price" => self.price(&line),
            "rampprice" => self.ramp(&line),
            _ => Some(()),
        }
    }

    fn price(&mut self, line: &str) -> Option<()> {
        let (prices, reserves) = (numbers(line), numbers(&self.take(Due::PriceReserve)?));
        if let Some(valued) = &mut self.valued {
            let mut pricing = Pricing::of(self.problem);
            let value = pricing.value(&self.above.fixed, &prices, &reserves);
            valued.prices.extend(value);
        }
        Some(())
    }

    fn ramp(&mut self, line: &str) -> Option<()> {
        let leaf = RampLeaf {
            prices: numbers(line),
            reserves: numbers(&self.take(Due::RampReserve)?),
            ramps: self.ramps()?,
        };
        if let Some(valued) = &mut self.valued {
            let value = ramp_value(self.problem, &self.above.fixed, &leaf)?;
            valued.ramps.push(value);
            let kinds = leaf_kinds(self.problem, &self.above, &leaf, value);
            self.seen.extend(kinds);
        }
        Some(())
    }

    /// The up and down lines of a ramp leaf.
    fn ramps(&mut self) -> Option<Vec<RampPrices>> {
        let mut ramps = Vec::new();
        for _ in &self.problem.units {
            let (mut up, mut down) = (Vec::new(), Vec::new());
            if self.problem.periods() > 1 {
                up = numbers(&self.take(Due::Up)?);
                down = numbers(&self.take(Due::Down)?);
            }
            ramps.push(RampPrices { up, down });
        }
        Some(ramps)
    }

    fn split(&mut self, values: &[usize]) -> Option<()> {
        let (unit, period) = (values[0] - 1, values[1] - 1);
        for status in [false, true] {
            self.above.fixed[unit][period] = Some(status);
            self.node()?;
        }
        self.above.fixed[unit][period] = None;
        Some(())
    }

    fn count(&mut self, values: &[usize]) -> Option<()> {
        self.seen.push("tree with a count");
        let (period, most) = (values[0] - 1, values[1]);
        let before = self.above.counts[period];
        for counts in [before.at_most(most), before.above(most)] {
            self.above.counts[period] = counts;
            self.node()?;
        }
        self.above.counts[period] = before;
        Some(())
    }

    fn short(&mut self, period: usize) -> Option<()> {
        let mut uncounted = Above::root(self.problem);
        uncounted.fixed.clone_from(&self.above.fixed);
        if !short_holds(self.problem, &uncounted, period) {
            self.seen.push("short by a count");
        }
        Some(())
    }

    fn crowd(&mut self, period: usize) -> Option<()> {
        if too_many_on(&self.above, period) {
            self.seen.push("crowd of too many on");
        }
        if too_few_left(&self.above, period) {
            self.seen.push("crowd of too few left");
        }
        Some(())
    }
}

/// The values of a line that has been found right.
fn values(line: &str) -> Vec<usize> {
    numbers(line).iter().map(|&value| value as usize).collect()
}

fn numbers(line: &str) -> Vec<i64> {
    let joined = line.split_once('=').map_or("", |(_, joined)| joined);
    joined
        .split(',')
        .map(|numeral| numeral.parse().expect("a line found right"))
        .collect()
}
