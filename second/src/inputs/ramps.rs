//! Ramp leaves: multipliers for the ramps, the leaf's lines, and damage to one of these.

use std::ops::Range;

use crate::above::Statuses;
use crate::generator::Generator;
use crate::inputs::problems::joined;
use crate::inputs::random::Random;
use crate::leaf::ramp_value;
use crate::problem::Problem;
use crate::ramp::{RampLeaf, RampPrices};

const MOST_MULTIPLIER: i64 = 1_000_000_000;

/// How the multipliers of a leaf's ramps are chosen.
#[derive(Clone, Copy, PartialEq)]
enum Style {
    /// All 0.
    None,
    /// 0 and the largest.
    Ends,
    /// Any of the range, often at an end of it.
    Edgy,
    /// Up to 5.
    Small,
    /// About what output costs.
    Costly,
    /// Those that raise the leaf's value.
    Tuned,
}

const STYLES: [Style; 8] = [
    Style::None,
    Style::Ends,
    Style::Edgy,
    Style::Small,
    Style::Small,
    Style::Costly,
    Style::Tuned,
    Style::Tuned,
];

/// A leaf with these multipliers for its periods and others for the ramps of each unit.
pub fn leaf(
    random: &mut Random,
    problem: &Problem,
    fixed: &Statuses,
    prices: Vec<i64>,
    reserves: Vec<i64>,
) -> RampLeaf {
    let style = match random.pick(&STYLES) {
        Style::Tuned if !is_tunable(problem) => Style::Costly,
        style => style,
    };
    let steps = problem.periods() - 1;
    let units = problem.units.iter();
    let mut leaf = RampLeaf {
        prices,
        reserves,
        ramps: units
            .map(|unit| RampPrices {
                up: row(random, unit, style, steps),
                down: row(random, unit, style, steps),
            })
            .collect(),
    };
    if style == Style::Tuned {
        tune(random, problem, fixed, &mut leaf);
    }
    leaf
}

/// The multipliers of one line. Now and then all are 0.
fn row(random: &mut Random, unit: &Generator, style: Style, steps: usize) -> Vec<i64> {
    let style = if random.chance(15) {
        Style::None
    } else {
        style
    };
    (0..steps)
        .map(|_| multiplier(random, unit, style))
        .collect()
}

fn multiplier(random: &mut Random, unit: &Generator, style: Style) -> i64 {
    match style {
        Style::None | Style::Tuned => 0,
        Style::Ends => random.pick(&[0, MOST_MULTIPLIER]),
        Style::Edgy => random.edgy(0, MOST_MULTIPLIER),
        Style::Small => random.between(0, 5),
        Style::Costly => {
            let most = unit.linear_cost + unit.square_cost * unit.most_output;
            random.between(0, most.clamp(1, MOST_MULTIPLIER))
        }
    }
}

/// Whether it is small enough to try many multipliers, and has ramps.
fn is_tunable(problem: &Problem) -> bool {
    let periods = problem.periods() as i64;
    let units = problem.units.iter();
    let outputs: i64 = units.map(|unit| unit.most_output).sum();
    periods > 1 && periods * outputs < 2_000
}

/// Tries other multipliers for the ramps, one at a time, and keeps those that raise the leaf's value.
fn tune(random: &mut Random, problem: &Problem, fixed: &Statuses, leaf: &mut RampLeaf) {
    let steps = problem.periods() - 1;
    let mut best = ramp_value(problem, fixed, leaf);
    for _ in 0..6 * steps * problem.units.len() {
        let unit = random.below(problem.units.len());
        let kept = leaf.ramps[unit].clone();
        let style = random.pick(&[Style::Small, Style::Costly]);
        let value = multiplier(random, &problem.units[unit], style);
        let ramps = &mut leaf.ramps[unit];
        let step = random.below(steps);
        match random.chance(50) {
            true => ramps.up[step] = value,
            false => ramps.down[step] = value,
        }
        let value = ramp_value(problem, fixed, leaf);
        if value > best {
            best = value;
        } else {
            leaf.ramps[unit] = kept;
        }
    }
}

/// The lines of a leaf.
pub fn lines(leaf: &RampLeaf) -> Vec<String> {
    let mut lines = vec![
        format!("rampprice={}", joined(&leaf.prices)),
        format!("reserve={}", joined(&leaf.reserves)),
    ];
    for ramps in leaf.ramps.iter().filter(|ramps| !ramps.up.is_empty()) {
        lines.push(format!("up={}", joined(&ramps.up)));
        lines.push(format!("down={}", joined(&ramps.down)));
    }
    lines
}

/// The text of a tree with one line of one of its ramp leaves damaged, of the one whose last line is
/// this if there is one; as it is if it has no ramp leaf.
pub fn damaged(random: &mut Random, text: &str, last: Option<usize>) -> Vec<u8> {
    let mut lines: Vec<String> = text.lines().map(str::to_string).collect();
    let leaves = leaves_of(&lines);
    if leaves.is_empty() {
        return text.as_bytes().to_vec();
    }
    let any = &leaves[random.below(leaves.len())];
    let named = leaves.iter().find(|leaf| Some(leaf.end) == last);
    let leaf = named.unwrap_or(any).clone();
    let at = line_of(random, &leaf);
    match random.below(13) {
        0..=4 => lines[at] = with_wrong_numeral(random, &lines[at]),
        5..=7 => lines[at] = with_wrong_count(random, &lines[at]),
        8..=10 if leaf.len() == 2 => {
            let line = random.pick(&["up=0", "down=0"]);
            lines.insert(leaf.end, line.to_string());
        }
        8 => return broken_off(random, &lines, at),
        _ => move_line(random, &mut lines, at),
    }
    (lines.join("\n") + "\n").into_bytes()
}

/// Where the ramp leaves among these lines begin and end.
fn leaves_of(lines: &[String]) -> Vec<Range<usize>> {
    let starts = (0..lines.len()).filter(|&at| lines[at].starts_with("rampprice="));
    starts
        .map(|start| {
            let mut end = start + 2;
            while lines[end].starts_with("up=") || lines[end].starts_with("down=") {
                end += 1;
            }
            start..end
        })
        .collect()
}

/// A line of a leaf: its first, its second, its last, or any of its up lines or of its down lines.
fn line_of(random: &mut Random, leaf: &Range<usize>) -> usize {
    let units = (leaf.len() - 2) / 2;
    match (random.below(6), units) {
        (0, _) | (2 | 3, 0) => leaf.start,
        (1, _) | (_, 0) => leaf.start + 1,
        (2 | 3, _) => leaf.start + 2 + 2 * random.below(units),
        (4, _) => leaf.start + 3 + 2 * random.below(units),
        _ => leaf.end - 1,
    }
}

/// One value of the line out of range, or, less often, malformed.
fn with_wrong_numeral(random: &mut Random, line: &str) -> String {
    let (key, mut values) = key_and_values(line);
    let place = random.below(values.len());
    let wrong = random.pick(&[
        "1000000001",
        "1000000001",
        "18446744073709551616",
        "4294967296000000000",
        "-1",
        "00",
        "",
    ]);
    values[place] = wrong.to_string();
    format!("{key}={}", values.join(","))
}

/// A value too many, or one too few if there are two. Now and then it is out of range besides.
fn with_wrong_count(random: &mut Random, line: &str) -> String {
    let (key, mut values) = key_and_values(line);
    let place = random.below(values.len());
    match values.len() > 1 && random.chance(50) {
        true => {
            values.remove(place);
        }
        false => values.insert(place, random.pick(&["0", "1", "1000000001"]).to_string()),
    }
    format!("{key}={}", values.join(","))
}

fn key_and_values(line: &str) -> (&str, Vec<String>) {
    let (key, joined) = line.split_once('=').expect("a line before any damage");
    (key, joined.split(',').map(str::to_string).collect())
}

/// The line away, doubled, exchanged with the next one, or with another key.
fn move_line(random: &mut Random, lines: &mut Vec<String>, at: usize) {
    match random.below(5) {
        0 => {
            lines.remove(at);
        }
        1 => lines.insert(at, lines[at].clone()),
        2 | 3 => lines.swap(at, at + 1),
        _ => {
            let (_, values) = key_and_values(&lines[at]);
            let key = random.pick(&["price", "rampprice", "reserve", "up", "down", "Up", "run"]);
            lines[at] = format!("{key}={}", values.join(","));
        }
    }
}

/// The lines before this one, and no more of it than its front.
fn broken_off(random: &mut Random, lines: &[String], at: usize) -> Vec<u8> {
    let mut text = lines[..at].join("\n") + "\n";
    if random.chance(50) {
        text += &lines[at][..random.below(lines[at].len())];
    }
    text.into_bytes()
}
