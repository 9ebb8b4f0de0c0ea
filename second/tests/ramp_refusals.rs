//! Refusals at the lines of a ramp leaf: each number at each line, the order of lines and numbers, and
//! 35 at the last line alone.

mod common;

use common::*;
use second::inputs::problems::joined;
use second::{lodge, Answer};

/// Two units and three periods; unit 1 may not go on again after one period off.
const THREE: &str = "kind=problem
periods=3
units=2
demand=0,0,0
spare=0,0,0
unit=100,10,0,20,80,2,2,3,30,30,50,90,1,5,60
unit=40,14,0,10,50,2,2,-2,50,50,20,60,0,0,0
end=problem
";

/// A ramp leaf on that problem.
const LEAF: [&str; 6] = [
    "rampprice=1,2,3",
    "reserve=4,5,6",
    "up=1,2",
    "down=3,4",
    "up=5,6",
    "down=7,8",
];

/// What may stand before the leaf; under the second and third lines unit 1, or unit 2, is stuck.
const ABOVE: [&str; 3] = [
    "",
    "split=1,1 split=1,2 price=0,0,0 reserve=0,0,0",
    "split=2,1 price=0,0,0 reserve=0,0,0 split=2,2",
];

/// What has to follow it.
const BELOW: [&str; 3] = ["", "price=0,0,0 reserve=0,0,0", "price=0,0,0 reserve=0,0,0"];

/// The answer to a tree with these lines in the place of the leaf, and the number of the first.
fn placed(at: usize, leaf: &[String]) -> (Answer, usize) {
    let text = tree(
        1,
        &format!("{} {} {}", ABOVE[at], leaf.join(" "), BELOW[at]),
    );
    let first = 3 + ABOVE[at].split_whitespace().count();
    (under(THREE, &text), first)
}

fn whole_leaf() -> Vec<String> {
    LEAF.map(str::to_string).to_vec()
}

fn with_line(at: usize, line: &str) -> Vec<String> {
    let mut leaf = whole_leaf();
    leaf[at] = line.to_string();
    leaf
}

/// A line with its first or its last value replaced.
fn with_value(line: &str, last: bool, value: &str) -> String {
    let (key, values) = line.split_once('=').unwrap();
    let mut values: Vec<&str> = values.split(',').collect();
    let place = if last { values.len() - 1 } else { 0 };
    values[place] = value;
    format!("{key}={}", values.join(","))
}

#[test]
fn a_whole_leaf_is_held_or_35_at_its_last_line() {
    assert!(matches!(placed(0, &whole_leaf()).0, Answer::Held(_)));
    for above in [1, 2] {
        let (answer, first) = placed(above, &whole_leaf());
        assert_eq!(answer, at_line(35, first + 5));
    }
}

/// At each line, whether a unit is stuck or not.
#[test]
fn each_line_goes_by_12_14_13() {
    for above in 0..3 {
        for (at, line) in LEAF.iter().enumerate() {
            let gets = |line: &str, number: u32| {
                let (answer, first) = placed(above, &with_line(at, line));
                assert_eq!(answer, at_line(number, first + at), "{line}");
            };
            let key = line.split_once('=').unwrap().0;
            let huge = "9".repeat(400);
            for last in [false, true] {
                for numeral in ["", "-1", "-0", "-", "00", "01", "+1", "1.", "x", "0x1"] {
                    gets(&with_value(line, last, numeral), 12);
                }
                for numeral in ["1000000001", "18446744073709551616", &huge] {
                    gets(&with_value(line, last, numeral), 13);
                }
            }
            gets(&format!("{line},0"), 14);
            gets(line.rsplit_once(',').unwrap().0, 14);
            gets(&format!("{key}=0"), 14);
            gets(&format!("{key}="), 12);
            gets(key, 12);
            // Two faults of one line.
            gets(&format!("{line},1000000001"), 14);
            gets(&format!("{key}=1000000001"), 14);
            gets(&format!("{key}=1000000001,01,1"), 12);
            gets(&format!("{line},"), 12);
            gets(
                &with_value(&with_value(line, false, "00"), true, "1000000001"),
                12,
            );
        }
    }
}

#[test]
fn multipliers_go_from_0_to_the_largest() {
    for (at, line) in LEAF.iter().enumerate() {
        for value in ["0", "1000000000"] {
            for last in [false, true] {
                let (answer, _) = placed(0, &with_line(at, &with_value(line, last, value)));
                assert!(matches!(answer, Answer::Held(_)), "{line} {value}");
            }
        }
    }
}

#[test]
fn other_keys_are_12() {
    let keys = [
        "price",
        "rampprice",
        "Rampprice",
        "ramp",
        "reserve",
        "Reserve",
        "up",
        "Up",
        "ups",
        "upp",
        "down",
        "Down",
        "downs",
        "short",
        "run",
        "end",
        "",
    ];
    for (at, line) in LEAF.iter().enumerate() {
        let (right, values) = line.split_once('=').unwrap();
        for key in keys {
            // A price line in the first place makes another leaf.
            if key == right || (at == 0 && key == "price") {
                continue;
            }
            // A short line in the first place is due, but has one value.
            let number = if at == 0 && key == "short" { 14 } else { 12 };
            let (answer, first) = placed(0, &with_line(at, &format!("{key}={values}")));
            assert_eq!(answer, at_line(number, first + at), "{key} {line}");
        }
        let spaced = format!("kind=tree\nwriter=1\n{}\nend=tree\n", LEAF.join("\n"));
        for wrong in [format!(" {line}"), format!("{line} "), format!("{line}\r")] {
            let text = spaced.replace(&format!("\n{line}\n"), &format!("\n{wrong}\n"));
            assert_eq!(under(THREE, &text), at_line(12, 3 + at), "{wrong:?}");
        }
    }
}

/// After the lines of a price leaf, of which there are two, no ramp line is due.
#[test]
fn a_price_line_in_the_place_of_the_first_leaves_ramp_lines_over() {
    let (answer, first) = placed(0, &with_line(0, "price=1,2,3"));
    assert_eq!(answer, at_line(12, first + 2));
}

#[test]
fn a_missing_line_is_12_at_its_number() {
    for above in 0..3 {
        for at in 0..6 {
            let mut leaf = whole_leaf();
            leaf.remove(at);
            let (answer, first) = placed(above, &leaf);
            assert_eq!(answer, at_line(12, first + at), "{leaf:?}");
        }
        // Both lines of a unit: the next unit's lines take their place.
        for at in [2, 4] {
            let mut leaf = whole_leaf();
            leaf.drain(at..at + 2);
            let (answer, first) = placed(above, &leaf);
            assert_eq!(answer, at_line(12, first + 4), "{leaf:?}");
        }
    }
}

#[test]
fn a_doubled_line_is_12_after_it() {
    for above in 0..3 {
        for at in 0..6 {
            let mut leaf = whole_leaf();
            leaf.insert(at, leaf[at].clone());
            let (answer, first) = placed(above, &leaf);
            // The last line ends the leaf, where 35 comes first.
            let number = if above > 0 && at == 5 { 35 } else { 12 };
            let line = first + if number == 35 { 5 } else { at + 1 };
            assert_eq!(answer, at_line(number, line), "{leaf:?}");
        }
    }
}

#[test]
fn exchanged_lines_are_12_at_the_first_of_them() {
    for above in 0..3 {
        for at in 0..6 {
            for other in at + 1..6 {
                let mut leaf = whole_leaf();
                leaf.swap(at, other);
                let (answer, first) = placed(above, &leaf);
                let same_key = other - at == 2 && at >= 2;
                if same_key && above == 0 {
                    assert!(matches!(answer, Answer::Held(_)), "{leaf:?}");
                } else if same_key {
                    assert_eq!(answer, at_line(35, first + 5));
                } else {
                    assert_eq!(answer, at_line(12, first + at), "{leaf:?}");
                }
            }
        }
    }
}

/// A fault of each number at each of two lines: the earlier line's comes, and 35 never before one.
#[test]
fn a_fault_of_an_earlier_line_comes_first() {
    let faults = |line: &str| {
        [
            (12, format!("{line},00")),
            (14, format!("{line},1")),
            (13, with_value(line, true, "1000000001")),
        ]
    };
    for above in 0..3 {
        for (at, line) in LEAF.iter().enumerate() {
            for later in at + 1..6 {
                for (number, wrong) in faults(line) {
                    for (_, also) in faults(LEAF[later]) {
                        let mut leaf = with_line(at, &wrong);
                        leaf[later] = also;
                        let (answer, first) = placed(above, &leaf);
                        assert_eq!(answer, at_line(number, first + at), "{leaf:?}");
                    }
                }
            }
        }
    }
}

/// 35 comes before a fault of what follows the leaf.
#[test]
fn a_stuck_unit_comes_before_later_nodes() {
    for above in [1, 2] {
        for later in ["price=0", "short=9", "nonsense", "end=tree", "up=1,2"] {
            let text = tree(1, &format!("{} {} {later}", ABOVE[above], LEAF.join(" ")));
            let line = 3 + ABOVE[above].split_whitespace().count() + 5;
            assert_eq!(under(THREE, &text), at_line(35, line));
        }
    }
}

#[test]
fn every_cut_inside_a_leaf_is_12_at_the_line_it_stops_in() {
    for (above, lines) in ABOVE.iter().enumerate() {
        let start = tree(1, lines).replace("end=tree\n", "");
        let leaf = LEAF.join("\n") + "\n";
        for length in 0..leaf.len() {
            let cut = format!("{start}{}", &leaf[..length]);
            let line = cut.matches('\n').count() + 1;
            assert_eq!(under(THREE, &cut), at_line(12, line), "{cut:?}");
        }
        // All of it, and nothing after it: the next line is missing, or a unit is stuck.
        let text = format!("{start}{leaf}");
        let lines = text.matches('\n').count();
        let answer = match above {
            0 => at_line(12, lines + 1),
            _ => at_line(35, lines),
        };
        assert_eq!(under(THREE, &text), answer);
    }
}

/// An unended line is 12 whatever else is wrong with it.
#[test]
fn an_unended_line_is_12() {
    for (at, line) in LEAF.iter().enumerate() {
        let key = line.split_once('=').unwrap().0;
        for values in ["0,0,0,0", "1000000001,1", "1000000001,1,1"] {
            let text = format!("kind=tree\nwriter=1\n{}\n", LEAF[..at].join("\n"));
            let text = text.replace("\n\n", "\n");
            let answer = under(THREE, &format!("{text}{key}={values}"));
            assert_eq!(answer, at_line(12, 3 + at));
        }
    }
}

/// One period: the leaf has two lines, and 35 stands at the second.
#[test]
fn with_one_period_there_are_no_ramp_lines() {
    let problem = one_unit(1, "0,0,0,1,4,1,2,-1,1,1,0,0,0,0,0");
    let at = |nodes: &str| under(&problem, &tree(1, nodes));
    assert_eq!(at("rampprice=0 reserve=0"), held_tree(0, 0, 1));
    for line in ["up=0", "down=0", "up=", "down=", "up", "reserve=0"] {
        let answer = at(&format!("rampprice=0 reserve=0 {line}"));
        assert_eq!(answer, at_line(12, 5), "{line}");
        let split = format!("split=1,1 rampprice=0 reserve=0 {line} stuck=1");
        assert_eq!(at(&split), at_line(12, 6), "{line}");
    }
    assert_eq!(
        at("split=1,1 rampprice=0 reserve=0 stuck=1"),
        held_tree(0, 1, 2)
    );
    // On in period 1 the unit is stuck.
    let first = "split=1,1 rampprice=0 reserve=0";
    for (leaf, number, line) in [
        ("rampprice=0 reserve=0", 35, 7),
        ("rampprice=0 reserve=0 up=0 down=0", 35, 7),
        ("rampprice=0 reserve=1000000001", 13, 7),
        ("rampprice=0 reserve=0,0", 14, 7),
        ("rampprice=0 reserve=00", 12, 7),
        ("rampprice=0", 12, 7),
        ("rampprice=0 up=0", 12, 7),
        ("rampprice=0,0 reserve=0", 14, 6),
        ("rampprice=1000000001 reserve=0", 13, 6),
    ] {
        let answer = at(&format!("{first} {leaf}"));
        assert_eq!(answer, at_line(number, line), "{leaf}");
    }
    let unended = "kind=tree\nwriter=1\nrampprice=0\nreserve=0";
    assert_eq!(under(&problem, unended), at_line(12, 4));
}

/// The most lines: 2 and, for each of 32 units, 2.
#[test]
fn the_last_of_66_lines_is_the_place_of_35() {
    let units = "unit=0,0,0,1,4,1,1,-1,1,1,0,0,0,0,0\n".repeat(31);
    let late = "unit=0,0,0,1,4,1,48,-1,1,1,0,0,0,0,0\n";
    let zeros = joined(&[0; 48]);
    let problem = format!(
        "kind=problem\nperiods=48\nunits=32\ndemand={zeros}\nspare={zeros}\n{units}{late}end=problem\n"
    );
    let ramps = format!(" up={0} down={0}", joined(&[1; 47]));
    let leaf = format!("rampprice={zeros} reserve={zeros}{}", ramps.repeat(32));
    let text = tree(1, &format!("split=32,48 {leaf} {leaf}"));
    // Unit 32 may go on in period 48, and not in 47.
    let off = -4 * 2 * 47 * 32;
    assert_eq!(under(&problem, &text), held_tree(off, 1, 2));
    let text = tree(1, &format!("split=32,47 {leaf} {leaf}"));
    assert_eq!(under(&problem, &text), at_line(35, 3 + 66 + 66));
    let short = tree(1, &format!("split=32,47 {leaf} {leaf},0"));
    assert_eq!(under(&problem, &short), at_line(14, 3 + 66 + 66));
}

/// A refused tree leaves the docket alone, and so does a passed one.
#[test]
fn the_docket_stays_as_it_was() {
    let mut docket = holding(THREE);
    lodge(&mut docket, tree(9, &LEAF.join(" ")).as_bytes());
    let before = docket.clone();
    assert!(before.held_bound().is_some());
    for at in 0..6 {
        let leaf = with_line(at, "up=1000000001").join(" ");
        lodge(&mut docket, tree(1, &leaf).as_bytes());
        assert_eq!(docket, before);
    }
    let again = lodge(&mut docket, tree(1, &LEAF.join(" ")).as_bytes());
    assert!(matches!(again, Answer::Passed(_)));
    assert_eq!(docket, before);
}
