//! Drafts at the price leaves of generated trees: each is what the second implementation finds with the statuses that another reader
//! of trees has, and the least of their values is the tree's bound. SEED repeats the inputs of a printed seed.
mod common;

use common::journals::{on, Scribe};
use common::json::Json;
use common::{folder, seed, texts};
use docket::{Bound, Docket, Figures, Verdict};
use second::RunsAnswer;
use std::fs;
use std::path::Path;

/// So many inputs are made; of each so many leaves of a tree are asked for at most.
const INPUTS: u64 = 400;
const LEAVES: usize = 6;

/// A price leaf: its multipliers, and a byte for each status, 0 free, 1 off, 2 on.
#[derive(Clone, Debug)]
struct Leaf {
    prices: Vec<u64>,
    reserves: Vec<u64>,
    fixed: Vec<u8>,
}

/// What was read of a tree.
#[derive(Default)]
struct Read {
    leaves: Vec<Leaf>,
    ramps: u64,
}

/// The numbers behind a key.
fn numbers(line: &str, key: &str) -> Option<Vec<u64>> {
    let values = line.strip_prefix(key)?.strip_prefix('=')?;
    let values = values.split(',');
    Some(
        values
            .map(|value| value.parse().expect("a number"))
            .collect(),
    )
}

/// Reads one tree from the lines, with the statuses fixed above it.
fn read<'a>(
    lines: &mut impl Iterator<Item = &'a str>,
    periods: usize,
    fixed: &[u8],
    all: &mut Read,
) {
    let line = lines.next().expect("a node");
    if let Some(place) = numbers(line, "split") {
        let at = (place[0] as usize - 1) * periods + place[1] as usize - 1;
        for status in [1, 2] {
            let mut below = fixed.to_vec();
            below[at] = status;
            read(lines, periods, &below, all);
        }
    } else if line.starts_with("count=") {
        read(lines, periods, fixed, all);
        read(lines, periods, fixed, all);
    } else if let Some(prices) = numbers(line, "price") {
        let reserves = numbers(lines.next().expect("a line"), "reserve");
        all.leaves.push(Leaf {
            prices,
            reserves: reserves.expect("a reserve line"),
            fixed: fixed.to_vec(),
        });
    } else if line.starts_with("rampprice=") {
        let units = fixed.len() / periods;
        let more = if periods == 1 { 1 } else { 1 + 2 * units };
        for _ in 0..more {
            lines.next().expect("a line");
        }
        all.ramps += 1;
    }
}

/// The leaves of an accepted tree.
fn leaves(text: &str, periods: usize, units: usize) -> Read {
    let mut all = Read::default();
    let mut lines = text.lines().skip(2);
    read(&mut lines, periods, &vec![0; periods * units], &mut all);
    assert_eq!(lines.next(), Some("end=tree"));
    all
}

/// The lists of numbers of a field.
fn list(object: &Json, name: &str) -> Vec<String> {
    let Json::List(items) = object.get(name) else {
        panic!("no list {name} in {object:?}");
    };
    let word = |item: &Json| match item {
        Json::List(items) => items
            .iter()
            .map(|item| item.word(""))
            .collect::<Vec<_>>()
            .join(","),
        other => other.word(""),
    };
    items.iter().map(word).collect()
}

fn words(numbers: &[u64]) -> Vec<String> {
    numbers.iter().map(u64::to_string).collect()
}

/// The places of a status, as `U,P`.
fn places(leaf: &Leaf, status: u8) -> Vec<String> {
    let periods = leaf.prices.len();
    let all = (0..leaf.fixed.len()).filter(|&at| leaf.fixed[at] == status);
    all.map(|at| format!("{},{}", at / periods + 1, at % periods + 1))
        .collect()
}

/// The words that give a leaf.
fn given(leaf: &Leaf) -> Vec<String> {
    let mut given = vec![
        format!("--price={}", words(&leaf.prices).join(",")),
        format!("--reserve={}", words(&leaf.reserves).join(",")),
    ];
    for (option, status) in [("--off", 1), ("--on", 2)] {
        let places = places(leaf, status).into_iter();
        given.extend(places.map(|place| format!("{option}={place}")));
    }
    given
}

/// A draft at a leaf of a tree, and at the same prices and statuses given by words; its value.
fn drafted(path: &Path, tree: usize, nth: usize, leaf: &Leaf, second: &second::Docket) -> i64 {
    let (tree, nth) = (tree.to_string(), nth.to_string());
    let ran = on("draft", path, &["--tree", &tree, "--leaf", &nth, "--json"]).sound(0);
    let object = Json::of(ran.out().trim_end()).expect("an object");
    let found = second::cheapest_runs(second, &leaf.prices, &leaf.reserves, &leaf.fixed);
    let RunsAnswer::Found { value, rows, short } = found else {
        panic!("{found:?}");
    };
    assert_eq!(object.get("value").word(""), value.to_string());
    let rows: Vec<String> = rows.iter().map(|row| words(row).join(",")).collect();
    assert_eq!(list(&object, "runs"), rows);
    assert_eq!(list(&object, "short"), words(&short));
    assert_eq!(list(&object, "prices"), words(&leaf.prices));
    assert_eq!(list(&object, "reserves"), words(&leaf.reserves));
    assert_eq!(list(&object, "off"), places(leaf, 1));
    assert_eq!(list(&object, "on"), places(leaf, 2));
    assert_eq!(
        (object.get("tree").word(""), object.get("leaf").word("")),
        (tree, nth)
    );
    let given = given(leaf);
    let given: Vec<&str> = given.iter().map(String::as_str).collect();
    let lines = rows.iter().map(|row| format!("run={row}\n"));
    let lines: String = lines.collect();
    let wanted = format!("value={value}\n{lines}short={}\n", words(&short).join(","));
    assert_eq!(on("draft", path, &given).sound(0).out(), wanted);
    value
}

/// How many leaves of the trees of an input were asked for.
fn drafts(input: &[u8], path: &Path) -> usize {
    let texts = texts(input);
    let (mut docket, mut second) = (Docket::new(), second::fresh());
    let (mut plant, mut trees) = (None, Vec::new());
    for (k, (_, text)) in texts.iter().enumerate() {
        second::lodge(&mut second, text);
        match docket.lodge(text).verdict() {
            Verdict::Held(Figures::Problem) => {
                plant = second.problem().map(|p| (p.periods(), p.units.len()));
            }
            Verdict::Held(Figures::Tree { bound, .. })
            | Verdict::Passed(Figures::Tree { bound, .. }) => {
                trees.push((k + 1, common::text(text), bound));
            }
            _ => {}
        }
    }
    let Some((periods, units)) = plant else {
        return 0;
    };
    let kept: Vec<Vec<u8>> = texts.iter().map(|text| text.1.to_vec()).collect();
    fs::write(path, Scribe::of(&kept).bytes).expect("a file");
    let mut asked = 0;
    for (number, text, bound) in trees {
        let all = leaves(text, periods, units);
        asked += of_tree(path, number, &all, bound, &second);
    }
    fs::remove_file(path).expect("a file gone");
    asked
}

/// How many leaves of a tree were asked for; the bound is the least of all.
fn of_tree(path: &Path, number: usize, all: &Read, bound: Bound, second: &second::Docket) -> usize {
    let some = all.leaves.iter().take(LEAVES).enumerate();
    let values = some.map(|(at, leaf)| drafted(path, number, at + 1, leaf, second));
    let least = values.min();
    if all.ramps == 0 && all.leaves.len() <= LEAVES {
        assert_eq!(least.map_or(Bound::Never, Bound::Number), bound);
    }
    let (text, none) = (number.to_string(), (all.leaves.len() + 1).to_string());
    let said = on("draft", path, &["--tree", &text, "--leaf", &none]);
    let wanted = match all.leaves.len() {
        0 => format!("text {text} has no price leaf"),
        _ => format!("text {text} has no price leaf {none}: it has "),
    };
    assert!(said.trouble().contains(&wanted), "{said:?}");
    assert_eq!(
        said.trouble().contains("gives no run"),
        all.ramps > 0,
        "{said:?}"
    );
    all.leaves.len().min(LEAVES)
}

#[test]
fn drafts_at_the_leaves_of_generated_trees() {
    let (path, seed) = (folder("draft-generated").join("j"), seed());
    let slow = |index: &u64| !matches!(index % 50, 7 | 33);
    let asked: usize = (0..INPUTS)
        .filter(slow)
        .map(|index| drafts(&second::inputs::input(seed, index), &path))
        .sum();
    println!("{asked} leaves");
    assert!(asked >= 100, "{asked}");
}

/// The largest plants: 32 units and 48 periods, with statuses fixed.
#[test]
fn drafts_in_the_largest_plants() {
    let (path, seed) = (folder("draft-large").join("j"), seed());
    for index in 0..8 {
        let asked = second::inputs::large_runs_question(seed, index);
        fs::write(
            &path,
            Scribe::of(std::slice::from_ref(&asked.problem)).bytes,
        )
        .expect("a file");
        let leaf = Leaf {
            prices: asked.q.clone(),
            reserves: asked.s.clone(),
            fixed: asked.fixed.clone(),
        };
        let mut docket = second::fresh();
        second::lodge(&mut docket, &asked.problem);
        let given = given(&leaf);
        let given: Vec<&str> = given.iter().map(String::as_str).collect();
        let ran = on("draft", &path, &given);
        match second::cheapest_runs(&docket, &asked.q, &asked.s, &asked.fixed) {
            RunsAnswer::Found { value, short, .. } => {
                let lines = ran.lines();
                assert_eq!((ran.status, lines.len()), (0, 34), "{ran:?}");
                assert_eq!(lines[0], format!("value={value}"));
                assert_eq!(lines[33], format!("short={}", words(&short).join(",")));
            }
            RunsAnswer::Stuck(unit) => {
                assert_eq!(ran.status, 1);
                assert_eq!(ran.lines()[0], format!("stuck={unit}"));
            }
            other => panic!("{other:?}"),
        }
    }
}
