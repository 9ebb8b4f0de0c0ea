//! Inputs of the listing program, made from a seed: valid, nearly valid and damaged; and questions
//! about the cheapest runs, which serve for forced statuses too.

pub mod damage;
pub mod kinds;
pub mod problems;
pub mod ramp_kinds;
pub mod ramps;
pub mod random;
pub mod runs;
pub mod schedules;
pub mod trees;

use crate::listing::MOST_INPUT;
use crate::problem::Problem;
use crate::text::Reader;
use crate::tree::read as read_tree;
use problems::Planted;
use random::Random;
pub use runs::{large_runs_question, runs_question, RunsQuestion};

/// The input with this index of a seed.
pub fn input(seed: u64, index: u64) -> Vec<u8> {
    let mut random = Random::for_input(seed, index);
    if index % 50 == 7 {
        return deep_input(&mut random);
    }
    if index % 5 == 3 {
        return ramp_input(&mut random, index);
    }
    match random.below(400) {
        0 => Vec::new(),
        1 => filled_up(&mut random, MOST_INPUT),
        2 => filled_up(&mut random, MOST_INPUT + 1),
        3 => filled_up(&mut random, MOST_INPUT + 2_000),
        _ => usual_input(&mut random),
    }
}

/// A problem and trees that go as deep as they may, or one split or count deeper.
fn deep_input(random: &mut Random) -> Vec<u8> {
    let periods = random.between(7, 20) as usize;
    let planted = problems::planted(random, periods, 10);
    let mut input = problems::text(&planted.problem).into_bytes();
    for (splits, counts) in [(64, 50), (65, 100), (65, 0), (63, 50), (65, 50), (64, 100)] {
        let writer = writer(random);
        let tree = trees::chain_text(random, &planted.problem, writer, splits, counts);
        push(&mut input, tree.as_bytes());
    }
    input
}

/// A problem and trees with ramp leaves, many of them damaged, and now and then another text. Some
/// problems have one period, some the most periods, some the most units, and a few both of these.
fn ramp_input(random: &mut Random, index: u64) -> Vec<u8> {
    let few = random.between(1, 3) as usize;
    let (periods, units) = match index % 250 {
        33 => (48, 32),
        83 | 133 => (48, few),
        183 | 233 => (few, 32),
        _ if index % 20 == 3 => (1, few),
        _ => (random.pick(&[1, 2, 2, 3, 4, 6, 9]), few),
    };
    let planted = problems::planted(random, periods, units);
    let problem_text = problems::text(&planted.problem);
    let mut input = problem_text.clone().into_bytes();
    for _ in 0..random.between(10, 16) {
        let text = match random.chance(20) {
            true => later_text(random, &planted, &problem_text),
            false => ramp_tree(random, &planted),
        };
        push(&mut input, &text);
    }
    input
}

/// A tree with ramp leaves, as often as not damaged in one of them, which is the one that 35 would
/// refuse if there is such a leaf.
fn ramp_tree(random: &mut Random, planted: &Planted) -> Vec<u8> {
    let writer = writer(random);
    let text = trees::ramp_text(random, &planted.problem, writer);
    match random.chance(50) {
        true => ramps::damaged(random, &text, refused_line(&planted.problem, &text)),
        false => text.into_bytes(),
    }
}

/// The line at which a tree's text is refused, if it is.
fn refused_line(problem: &Problem, text: &str) -> Option<usize> {
    let mut reader = Reader::new(text.as_bytes());
    reader.take().ok()?;
    let refusal = read_tree(problem, &mut reader).err()?;
    Some(refusal.line)
}

/// A usual input with a last piece that brings it to this length.
fn filled_up(random: &mut Random, length: usize) -> Vec<u8> {
    let mut input = usual_input(random);
    input.truncate(length);
    let filler = random.pick(b"0\n9=");
    input.resize(length, filler);
    input
}

fn usual_input(random: &mut Random) -> Vec<u8> {
    let (periods, units) = problems::size(random);
    let planted = problems::planted(random, periods, units);
    let problem_text = problems::text(&planted.problem);
    let mut input = Vec::new();
    push(&mut input, &before_the_problem(random, &planted));
    push(&mut input, problem_text.as_bytes());
    let count = match periods * units {
        0..=18 => random.between(2, 12),
        19..=400 => random.between(1, 6),
        _ => random.between(1, 3),
    };
    let mut earlier = Vec::new();
    for _ in 0..count {
        let text = match earlier.is_empty() || random.chance(90) {
            true => later_text(random, &planted, &problem_text),
            false => from_another_writer(random, &earlier),
        };
        push(&mut input, &text);
        earlier.push(text);
    }
    if random.chance(5) {
        let cut = random.below(8);
        input.truncate(input.len().saturating_sub(cut));
    }
    input
}

/// Appends a text unless the input would grow beyond what the program reads.
fn push(input: &mut Vec<u8>, text: &[u8]) {
    if input.len() + text.len() <= MOST_INPUT {
        input.extend_from_slice(text);
    }
}

/// Mostly nothing; else a text that comes too soon, or a problem that is refused.
fn before_the_problem(random: &mut Random, planted: &Planted) -> Vec<u8> {
    let text = problems::text(&planted.problem);
    match random.below(10) {
        0 => damage::crossed_limits(random, &text),
        1 | 2 => damage::damaged(random, &text),
        3 => schedule(random, planted),
        4 => tree(random, planted),
        5 => damage::wrong_initial_output(random, &text),
        _ => Vec::new(),
    }
}

/// A schedule, a tree, a second problem or mere noise, each now and then damaged.
fn later_text(random: &mut Random, planted: &Planted, problem_text: &str) -> Vec<u8> {
    let text = match random.below(40) {
        0 => problem_text.as_bytes().to_vec(),
        1 => damage::noise(random),
        2..=20 => schedule(random, planted),
        _ => tree(random, planted),
    };
    match (random.chance(15), String::from_utf8(text.clone())) {
        (true, Ok(letters)) if !letters.is_empty() => damage::damaged(random, &letters),
        _ => text,
    }
}

/// One of the earlier texts again, its second line naming another writer.
fn from_another_writer(random: &mut Random, earlier: &[Vec<u8>]) -> Vec<u8> {
    let text = &earlier[random.below(earlier.len())];
    let mut lines: Vec<&[u8]> = text.split(|&byte| byte == b'\n').collect();
    let line = format!("writer={}", writer(random));
    if lines.len() > 2 {
        lines[1] = line.as_bytes();
    }
    lines.join(&b'\n')
}

fn writer(random: &mut Random) -> i64 {
    match random.below(8) {
        0 => random.edgy(1, 65_535),
        _ => random.between(1, 9),
    }
}

fn schedule(random: &mut Random, planted: &Planted) -> Vec<u8> {
    let problem = &planted.problem;
    let mut rows = match planted.schedules.is_empty() {
        true => schedules::planted_rows(random, &problem.units, problem.periods()),
        false => planted.schedules[random.below(planted.schedules.len())].clone(),
    };
    match random.below(8) {
        0..=1 => rows = schedules::trimmed(random, problem, &rows),
        2..=4 => schedules::spoil(random, problem, &mut rows),
        5 if rows.len() > 1 => rows.swap(0, 1),
        _ => {}
    }
    schedules::text(writer(random), &rows).into_bytes()
}

fn tree(random: &mut Random, planted: &Planted) -> Vec<u8> {
    let writer = writer(random);
    trees::text(random, &planted.problem, writer).into_bytes()
}
