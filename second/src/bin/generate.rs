//! Makes inputs of the listing program from a seed, answers them and counts the kinds of answers.
//!
//! `generate SEED COUNT DIR` writes NNNNN.txt and NNNNN.out; `generate SEED COUNT` only counts.

use std::collections::BTreeMap;
use std::path::Path;
use std::process::ExitCode;
use std::{env, fs, io};

use second::inputs::kinds::kinds;
use second::{inputs, listing};

/// From this many inputs on, every kind of answer must come.
const ENOUGH_INPUTS: u64 = 500;
const LEAST_OF_EACH: u64 = 5;

const REFUSALS: [&str; 45] = [
    "12",
    "12 at a rampprice line",
    "12 at a ramp leaf's reserve line",
    "12 at an up line",
    "12 at a down line",
    "12 with up and down exchanged",
    "12 at a ramp of one period",
    "12 where a ramp leaf breaks off",
    "12 before 35",
    "13",
    "13 at a count",
    "13 at a rampprice line",
    "13 at a ramp leaf's reserve line",
    "13 at an up line",
    "13 at a down line",
    "13 before 35",
    "14",
    "14 at a rampprice line",
    "14 at a ramp leaf's reserve line",
    "14 at an up line",
    "14 at a down line",
    "14 before 35",
    "15",
    "21",
    "22",
    "23",
    "24",
    "25 in period 1",
    "25 later",
    "31",
    "32 at a split",
    "32 at a count",
    "33",
    "33 under a count",
    "33 with units on left out",
    "34",
    "35",
    "35 at a last down line",
    "35 at a ramp leaf's reserve line",
    "36",
    "36 by one",
    "37 too low",
    "37 too high",
    "41",
    "42",
];

const ACCEPTED: [&str; 23] = [
    "held problem",
    "held schedule",
    "held tree",
    "passed schedule",
    "passed tree",
    "bound never",
    "bound negative",
    "tree with a count",
    "short by a count",
    "crowd of too many on",
    "crowd of too few left",
    "tree with a ramp leaf",
    "ramp leaf under a split",
    "ramp leaf under a count",
    "ramp leaf of one period",
    "ramp leaf of 48 periods",
    "ramp leaf of 32 units",
    "ramp leaf with all ramps 0",
    "ramp leaf with a largest multiplier",
    "ramp leaf above its price leaf",
    "ramp leaf below its price leaf",
    "bound of a ramp leaf beside a price leaf",
    "bound of a price leaf beside a ramp leaf",
];

/// How often each kind of answer came.
#[derive(Default)]
struct Table(BTreeMap<String, u64>);

impl Table {
    fn add(&mut self, kind: &str) {
        *self.0.entry(kind.to_string()).or_default() += 1;
    }

    fn of(&self, kind: &str) -> u64 {
        self.0.get(kind).copied().unwrap_or(0)
    }

    /// The kinds that came too seldom.
    fn lacking(&self) -> Vec<String> {
        let refusals = REFUSALS.iter().map(|number| format!("refused {number}"));
        let accepted = ACCEPTED.iter().map(|kind| kind.to_string());
        refusals
            .chain(accepted)
            .filter(|kind| self.of(kind) < LEAST_OF_EACH)
            .collect()
    }

    fn print(&self) {
        for (kind, count) in &self.0 {
            println!("{count:8} {kind}");
        }
    }
}

fn main() -> ExitCode {
    let words: Vec<String> = env::args().skip(1).collect();
    let Some((seed, count, directory)) = understood(&words) else {
        eprintln!("generate SEED COUNT [DIR]");
        return ExitCode::from(2);
    };
    match run(seed, count, directory) {
        Ok(table) => judged(&table, count),
        Err(error) => {
            eprintln!("generate: {error}");
            ExitCode::from(2)
        }
    }
}

fn understood(words: &[String]) -> Option<(u64, u64, Option<&Path>)> {
    match words {
        [seed, count] => Some((seed.parse().ok()?, count.parse().ok()?, None)),
        [seed, count, directory] => Some((
            seed.parse().ok()?,
            count.parse().ok()?,
            Some(Path::new(directory)),
        )),
        _ => None,
    }
}

/// Makes and answers all inputs, and writes them if a directory is given.
fn run(seed: u64, count: u64, directory: Option<&Path>) -> io::Result<Table> {
    let mut table = Table::default();
    if let Some(directory) = directory {
        fs::create_dir_all(directory)?;
    }
    for index in 0..count {
        let input = inputs::input(seed, index);
        let output = listing(&input);
        for kind in kinds(&input, &output) {
            table.add(&kind);
        }
        if let Some(directory) = directory {
            fs::write(directory.join(format!("{index:05}.txt")), &input)?;
            fs::write(directory.join(format!("{index:05}.out")), &output)?;
        }
    }
    Ok(table)
}

fn judged(table: &Table, count: u64) -> ExitCode {
    table.print();
    let lacking = table.lacking();
    if count < ENOUGH_INPUTS || lacking.is_empty() {
        return ExitCode::SUCCESS;
    }
    eprintln!("fewer than {LEAST_OF_EACH} times: {}", lacking.join("; "));
    ExitCode::FAILURE
}
