//! The listing example and the specimens of document 01, marked and unmarked.

mod common;

use common::*;
use second::{listing, lodge};

const EXAMPLE_OUTPUT: &str = "answer=held
answer=held,1980
answer=held,1980,1,2
kind=report
cost=1980
costwriter=7
bound=1980
boundwriter=3
gap=0
end=report
";

fn listed(input: &str) -> String {
    String::from_utf8(listing(input.as_bytes())).unwrap()
}

#[test]
fn listing_example() {
    let input = format!("{PROBLEM}{SCHEDULE}{TREE}");
    assert_eq!(listed(&input), EXAMPLE_OUTPUT);
}

#[test]
fn empty_text() {
    assert_eq!(alone(""), at_line(12, 1));
    assert_eq!(under(PROBLEM, ""), at_line(12, 1));
}

#[test]
fn tree_in_a_fresh_docket() {
    assert_eq!(alone(TREE), refused(42, 0, 0, 0));
}

#[test]
fn costs_1980() {
    assert_eq!(runs("60,80", "0,20"), held_schedule(1980));
}

#[test]
fn costs_2060() {
    assert_eq!(runs("50,80", "10,20"), held_schedule(2060));
}

#[test]
fn rises_too_fast() {
    assert_eq!(runs("49,80", "11,20"), refused(25, 0, 1, 2));
}

#[test]
fn too_little_output() {
    assert_eq!(runs("59,80", "0,20"), refused(22, 0, 0, 1));
}

#[test]
fn below_its_least_output() {
    assert_eq!(runs("60,80", "0,9"), refused(21, 0, 2, 2));
}

#[test]
fn tree_of_the_example() {
    assert_eq!(under(PROBLEM, TREE), held_tree(1980, 1, 2));
}

#[test]
fn lone_price_leaf() {
    let leaf = tree(5, "price=10,14 reserve=0,2");
    assert_eq!(under(PROBLEM, &leaf), held_tree(1940, 0, 1));
    let mut docket = holding(PROBLEM);
    lodge(&mut docket, TREE.as_bytes());
    let before = docket.clone();
    assert_eq!(lodge(&mut docket, leaf.as_bytes()), passed_tree(1940, 0, 1));
    assert_eq!(docket, before);
}

#[test]
fn lone_short() {
    assert_eq!(nodes("short=2"), at_line(33, 3));
}

/// A start costs 50 hot and 90 cold; TD 1 and Tcold 1 make the start hot up to two periods off.
#[test]
fn hot_start_and_cold_start() {
    for (initial, first_on, start) in [
        (-1, 1, 50),
        (-2, 1, 50),
        (-3, 1, 90),
        (-1, 2, 50),
        (-1, 3, 90),
        (-2, 2, 90),
        (-1000, 1, 90),
    ] {
        let problem = one_unit(3, &format!("0,0,0,1,1,1,1,{initial},1,1,50,90,1,0,0"));
        let outputs: Vec<&str> = (1..=3)
            .map(|period| if period < first_on { "0" } else { "1" })
            .collect();
        let answer = under(&problem, &schedule(1, &[&outputs.join(",")]));
        assert_eq!(answer, held_schedule(start), "{initial} {first_on}");
    }
}

/// The same after a stop inside the horizon.
#[test]
fn hot_start_and_cold_start_after_a_stop() {
    let problem = one_unit(5, "0,0,0,1,1,1,1,4,1,1,50,90,1,7,1");
    for (run, cost) in [
        ("1,0,1,1,1", 57),
        ("1,0,0,1,1", 57),
        ("1,0,0,0,1", 97),
        ("0,0,0,1,1", 97),
        ("0,1,0,1,0", 50 + 50 + 3 * 7),
    ] {
        let answer = under(&problem, &schedule(1, &[run]));
        assert_eq!(answer, held_schedule(cost), "{run}");
    }
}

#[test]
fn first_on_in_period_2_is_too_soon_and_in_3_is_not() {
    let problem = one_unit(3, "0,0,0,1,1,1,3,-1,1,1,0,0,0,0,0");
    assert_eq!(
        under(&problem, &schedule(1, &["0,1,1"])),
        refused(24, 0, 1, 2)
    );
    assert_eq!(under(&problem, &schedule(1, &["0,0,1"])), held_schedule(0));
    assert_eq!(
        under(&problem, &schedule(1, &["1,1,1"])),
        refused(24, 0, 1, 1)
    );
}
