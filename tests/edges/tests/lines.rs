//! The second implementation prints the lines that the proved program prints, of the same orders.

use std::collections::BTreeSet;

const ORDERS: &str = include_str!("../../../crates/edges/stdin");

const PROVED: &str = include_str!("../../../crates/edges/stdout");

#[test]
fn the_lines_are_those_of_the_proved_program() {
    let proved: Vec<&str> = PROVED.lines().collect();
    let second = edges::lines(ORDERS);
    for (theirs, ours) in proved.iter().zip(&second) {
        assert_eq!(theirs, ours);
    }
    assert_eq!(proved.len(), second.len());
}

/// The lines of the file of orders up to the comment above those that are no orders, and these.
fn orders() -> (Vec<&'static str>, Vec<&'static str>) {
    let mut orders: Vec<&str> = ORDERS.lines().collect();
    let end = orders
        .iter()
        .position(|line| line.starts_with("# Lines that are no orders"));
    let others = orders.split_off(end.expect("a comment above the lines that are no orders"));
    (orders, others[1..].to_vec())
}

/// 251 at least: cases may be added, and none may be lost or stand twice.
#[test]
fn each_case_has_a_line_and_a_name_of_its_own() {
    let cases: Vec<&str> = PROVED
        .lines()
        .filter(|line| !line.starts_with("not understood: "))
        .collect();
    let names: BTreeSet<&str> = cases
        .iter()
        .filter_map(|line| line.split(": ").next())
        .collect();
    let asked = orders().0.into_iter().filter(|line| {
        ["lodge ", "ask ", "units "]
            .iter()
            .any(|order| line.starts_with(order))
    });
    assert!(cases.len() >= 251);
    assert_eq!(cases.len(), names.len());
    assert_eq!(cases.len(), asked.count());
}

#[test]
fn the_last_lines_are_no_orders() {
    let shown = PROVED
        .lines()
        .filter_map(|line| line.strip_prefix("not understood: "));
    assert_eq!(shown.collect::<Vec<_>>(), orders().1);
    assert!(orders().1.len() >= 12);
}

#[test]
fn a_line_that_is_no_order_shows() {
    let texts = ["text", "cut 1", "cut 0 0", "fill 3 xy", "fill 1048578 /"];
    let dockets = [
        "lodge",
        "lodges x",
        "fresh docket",
        "give 1",
        "keep 0",
        "keep 8",
        "take",
        "take 1 2",
        "ask 161 0 x",
        "units 1 0",
        "units 1 -1 x",
        "units 18446744073709551616 0 x",
    ];
    let fields = [
        "set known 2",
        "set outputs 65536",
        "set cost 1",
        "set bound 9223372036854775808 1",
    ];
    for line in texts.iter().chain(&dockets).chain(&fields) {
        assert_eq!(edges::lines(line), [format!("not understood: {line}")]);
    }
    assert_eq!(edges::lines("# lodge x\n\n"), [""; 0]);
}
