//! Texts of as many bytes as one may have, and of one more.
mod common;

use common::both::Both;
use docket::{Figures, Verdict, MOST_TEXT};
use std::iter;

const PERIODS: usize = 48;

/// All leaves have this depth.
const DEPTH: usize = 11;

const LEAVES: usize = 1 << DEPTH;

/// The bytes of a price leaf whose multipliers have one digit each.
const SHORTEST_LEAF: usize = "price=\nreserve=\n".len() + 2 * (2 * PERIODS - 1);

/// Two units that may be on or off in any of 48 periods.
fn problem() -> String {
    let row = |value: &str| vec![value; PERIODS].join(",");
    format!(
        "kind=problem\nperiods={PERIODS}\nunits=2\ndemand={}\nspare={}\n{}{}end=problem\n",
        row("50"),
        row("5"),
        "unit=100,10,1,20,80,1,1,3,30,30,50,90,1,5,50\n",
        "unit=40,14,0,10,50,1,1,-2,50,50,20,60,0,0,0\n",
    )
}

/// So many multipliers that they have this many digits more than one each, at most eight more each.
fn multipliers(mut more: usize) -> String {
    let numerals = iter::repeat_with(|| {
        let digits = more.min(8);
        more -= digits;
        "123456789"[8 - digits..].to_string()
    });
    numerals.take(PERIODS).collect::<Vec<_>>().join(",")
}

/// A price leaf of so many bytes.
fn leaf(length: usize) -> String {
    let more = length - SHORTEST_LEAF;
    let leaf = format!(
        "price={}\nreserve={}\n",
        multipliers(more / 2),
        multipliers(more - more / 2)
    );
    assert_eq!(leaf.len(), length);
    leaf
}

/// The nodes of a tree from a depth on, with leaves of these lengths in turn.
fn nodes(depth: usize, lengths: &mut dyn Iterator<Item = usize>) -> String {
    if depth == DEPTH {
        return leaf(lengths.next().expect("a length for each leaf"));
    }
    let split = format!("split={},{}\n", 1 + depth % 2, 1 + 4 * depth);
    split + &nodes(depth + 1, lengths) + &nodes(depth + 1, lengths)
}

/// A tree with leaves of these lengths in turn.
fn tree(lengths: &mut dyn Iterator<Item = usize>) -> String {
    format!("kind=tree\nwriter=9\n{}end=tree\n", nodes(0, lengths))
}

/// A tree of so many bytes.
fn tree_of_length(length: usize) -> String {
    let shortest = tree(&mut iter::repeat(SHORTEST_LEAF)).len();
    let more = length - shortest;
    let tree = tree(&mut (0..LEAVES).map(|k| SHORTEST_LEAF + (more + k) / LEAVES));
    assert_eq!(tree.len(), length);
    tree
}

/// The refusal of a text by both implementations.
fn refusal(both: &mut Both, text: &str) -> String {
    match both.lodge(text.as_bytes()) {
        Ok(Verdict::Refused(refusal)) => refusal.to_string(),
        other => panic!("{other:?}"),
    }
}

#[test]
fn a_tree_of_1048576_bytes_is_accepted_and_one_of_1048577_refused() {
    let mut both = Both::after(&[problem().as_bytes()]);
    let longest = tree_of_length(MOST_TEXT);
    match both.lodge(longest.as_bytes()) {
        Ok(Verdict::Held(Figures::Tree { splits, leaves, .. })) => {
            assert_eq!((splits, leaves), (LEAVES as u64 - 1, LEAVES as u64));
        }
        other => panic!("{other:?}"),
    }
    for longer in [tree_of_length(MOST_TEXT + 1), longest + "\n"] {
        assert_eq!(refusal(&mut both, &longer), "11,0,0,0");
    }
}

#[test]
fn a_numeral_may_be_as_long_as_a_text() {
    let mut both = Both::new();
    let before = "kind=problem\nperiods=";
    let digits = "9".repeat(MOST_TEXT - before.len() - 1);
    assert_eq!(
        refusal(&mut both, &format!("{before}{digits}\n")),
        "13,2,0,0"
    );
    assert_eq!(
        refusal(&mut both, &format!("{before}{digits}9\n")),
        "11,0,0,0"
    );
}
