//! Each refusal number, its place, and the order of refusals.

mod common;

use common::*;
use second::{fresh, lodge};

/// The example problem with one line (from 1) replaced.
fn with_line(number: usize, line: &str) -> String {
    let mut lines: Vec<&str> = PROBLEM.lines().collect();
    lines[number - 1] = line;
    lines.join("\n") + "\n"
}

/// The example's first unit line with the values at some places (from 1) replaced.
fn with_unit_values(changes: &[(usize, &str)]) -> String {
    let line = PROBLEM.lines().nth(5).unwrap();
    let mut values: Vec<&str> = line["unit=".len()..].split(',').collect();
    for &(place, value) in changes {
        values[place - 1] = value;
    }
    with_line(6, &format!("unit={}", values.join(",")))
}

/// The same with one value replaced.
fn with_unit_value(place: usize, value: &str) -> String {
    with_unit_values(&[(place, value)])
}

#[test]
fn a_text_of_one_byte_too_many_is_11() {
    let mut long = PROBLEM.as_bytes().to_vec();
    long.resize(1_048_577, b'\n');
    let mut docket = fresh();
    assert_eq!(lodge(&mut docket, &long), refused(11, 0, 0, 0));
    assert_eq!(docket, fresh());
    let mut docket = holding(PROBLEM);
    assert_eq!(lodge(&mut docket, &long), refused(11, 0, 0, 0));
    assert_eq!(
        lodge(&mut docket, &vec![0; 2_000_000]),
        refused(11, 0, 0, 0)
    );
    assert_eq!(docket, holding(PROBLEM));
}

#[test]
fn a_text_of_exactly_the_limit_is_judged_by_its_lines() {
    let mut long = PROBLEM.as_bytes().to_vec();
    long.resize(1_048_576, b'\n');
    assert_eq!(lodge(&mut fresh(), &long), at_line(12, 9));
    assert_eq!(lodge(&mut holding(PROBLEM), &long), refused(41, 0, 0, 0));
    let mut numeral = b"kind=problem\nperiods=".to_vec();
    numeral.resize(1_048_575, b'9');
    numeral.push(b'\n');
    assert_eq!(lodge(&mut fresh(), &numeral), at_line(13, 2));
    assert_eq!(lodge(&mut fresh(), &vec![b'x'; 1_048_576]), at_line(12, 1));
}

#[test]
fn wrong_keys_are_12() {
    for (number, line) in [
        (1, "kind=problems"),
        (1, "Kind=problem"),
        (1, "kind=problem "),
        (2, "period=2"),
        (2, "periods 2"),
        (2, ""),
        (3, "unit=2"),
        (4, "demands=60,100"),
        (5, "demand=10,10"),
        (6, "units=100,10,0,20,80,2,2,3,30,30,50,90,1,5,60"),
        (8, "end=tree"),
        (8, "end=problem "),
        (8, "end="),
    ] {
        assert_eq!(
            alone(&with_line(number, line)),
            at_line(12, number),
            "{line}"
        );
    }
}

#[test]
fn malformed_numerals_are_12() {
    for numeral in [
        "", "-", "-0", "-1", "00", "01", "+1", " 1", "1 ", "1.", "0x1", "1e1", "\r", "1\r", "--1",
    ] {
        assert_eq!(
            alone(&with_line(2, &format!("periods={numeral}"))),
            at_line(12, 2)
        );
        assert_eq!(
            alone(&with_line(4, &format!("demand=60,{numeral}"))),
            at_line(12, 4)
        );
        assert_eq!(
            alone(&with_line(5, &format!("spare={numeral},1"))),
            at_line(12, 5)
        );
    }
    assert_eq!(alone(&with_line(2, "periods=2,")), at_line(12, 2));
    assert_eq!(alone(&with_line(2, "periods=,2")), at_line(12, 2));
    assert_eq!(alone(&with_line(4, "demand=60,,100")), at_line(12, 4));
}

#[test]
fn every_cut_of_a_problem_is_12_at_the_line_it_stops_in() {
    for length in 0..PROBLEM.len() {
        let cut = &PROBLEM[..length];
        let line = cut.matches('\n').count() + 1;
        assert_eq!(alone(cut), at_line(12, line), "{cut:?}");
    }
}

#[test]
fn every_cut_of_a_schedule_or_tree_is_12_at_the_line_it_stops_in() {
    for text in [SCHEDULE, TREE] {
        for length in 0..text.len() {
            let cut = &text[..length];
            let line = cut.matches('\n').count() + 1;
            assert_eq!(under(PROBLEM, cut), at_line(12, line), "{cut:?}");
        }
    }
}

#[test]
fn bytes_after_the_end_line_are_12() {
    for after in ["\n", "x", "\0", "end=problem\n", PROBLEM] {
        assert_eq!(alone(&format!("{PROBLEM}{after}")), at_line(12, 9));
        assert_eq!(
            under(PROBLEM, &format!("{SCHEDULE}{after}")),
            at_line(12, 6)
        );
        assert_eq!(under(PROBLEM, &format!("{TREE}{after}")), at_line(12, 8));
    }
}

#[test]
fn too_few_or_too_many_lines_are_12() {
    assert_eq!(under(PROBLEM, &schedule(1, &["60,80"])), at_line(12, 4));
    assert_eq!(
        under(PROBLEM, &schedule(1, &["60,80", "0,20", "0,0"])),
        at_line(12, 5)
    );
    assert_eq!(alone(&with_line(3, "units=1")), at_line(12, 7));
    assert_eq!(alone(&with_line(3, "units=3")), at_line(12, 8));
}

#[test]
fn wrong_counts_are_14() {
    for (number, line) in [
        (2, "periods=2,2"),
        (3, "units=2,2"),
        (4, "demand=60"),
        (4, "demand=60,100,100"),
        (5, "spare=10"),
        (6, "unit=1"),
        (6, "unit=100,10,0,20,80,2,2,3,30,30,50,90,1"),
        (6, "unit=100,10,0,20,80,2,2,3,30,30,50,90,1,5"),
        (6, "unit=100,10,0,20,80,2,2,3,30,30,50,90,1,5,60,60"),
        (7, "unit=40,14,0,10,50,1,1,-2,50,50,20,60,0,0"),
        (7, "unit=40,14,0,10,50,1,1,-2,50,50,20,60,0,0,0,0"),
    ] {
        assert_eq!(
            alone(&with_line(number, line)),
            at_line(14, number),
            "{line}"
        );
    }
    assert_eq!(runs("60", "0,20"), at_line(14, 3));
    assert_eq!(runs("60,80", "0,20,0"), at_line(14, 4));
    assert_eq!(
        under(PROBLEM, "kind=schedule\nwriter=1,1\n"),
        at_line(14, 2)
    );
    for node in [
        "split=1",
        "split=1,1,1",
        "short=1,1",
        "stuck=1,1",
        "price=1",
    ] {
        assert_eq!(nodes(node), at_line(14, 3), "{node}");
    }
    assert_eq!(nodes("price=1,1 reserve=1"), at_line(14, 4));
    assert_eq!(nodes("price=1,1 reserve=1,1,1"), at_line(14, 4));
}

#[test]
fn ranges_of_periods_units_demand_and_spare() {
    for (number, good, bad) in [
        (2, vec![], vec!["periods=0", "periods=49"]),
        (3, vec![], vec!["units=0", "units=33"]),
        (
            4,
            vec!["demand=0,0", "demand=320000,0"],
            vec!["demand=0,320001"],
        ),
        (5, vec!["spare=0,320000"], vec!["spare=320001,0"]),
    ] {
        for line in good {
            assert_eq!(alone(&with_line(number, line)), held_problem(), "{line}");
        }
        for line in bad {
            assert_eq!(
                alone(&with_line(number, line)),
                at_line(13, number),
                "{line}"
            );
        }
    }
    // T of 1 and 48 and I of 32 are in range: the next fault is that of a later line.
    assert_eq!(alone(&with_line(2, "periods=1")), at_line(14, 4));
    assert_eq!(alone(&with_line(2, "periods=48")), at_line(14, 4));
    assert_eq!(alone(&with_line(3, "units=32")), at_line(12, 8));
}

#[test]
fn ranges_of_a_unit_line() {
    let money = "1000000000";
    for (place, low, high) in [
        (1, "0", money),
        (2, "0", "10000000"),
        (3, "0", "10000"),
        (4, "1", "60"),
        (5, "60", "10000"),
        (6, "1", "48"),
        (7, "1", "48"),
        (8, "1", "1000"),
        (9, "1", "10000"),
        (10, "1", "10000"),
        (11, "0", "90"),
        (12, "50", money),
        (13, "0", "48"),
        (14, "0", money),
        (15, "20", "80"),
    ] {
        for value in [low, high] {
            assert_eq!(
                alone(&with_unit_value(place, value)),
                held_problem(),
                "{place} {value}"
            );
        }
    }
    // Ends of pL, pU and Tini that go with another p0 than the example's.
    for changes in [
        [(4, "80"), (15, "80")],
        [(5, "20"), (15, "20")],
        [(5, "10000"), (15, "10000")],
        [(8, "-1000"), (15, "0")],
        [(8, "-1"), (15, "0")],
    ] {
        let answer = alone(&with_unit_values(&changes));
        assert_eq!(answer, held_problem(), "{changes:?}");
    }
    for (place, above) in [
        (1, "1000000001"),
        (2, "10000001"),
        (3, "10001"),
        (4, "0"),
        (4, "10001"),
        (5, "0"),
        (5, "10001"),
        (6, "0"),
        (6, "49"),
        (7, "0"),
        (7, "49"),
        (8, "0"),
        (8, "1001"),
        (8, "-1001"),
        (9, "0"),
        (9, "10001"),
        (10, "0"),
        (10, "10001"),
        (11, "1000000001"),
        (12, "1000000001"),
        (13, "49"),
        (14, "1000000001"),
        (15, "10001"),
    ] {
        assert_eq!(
            alone(&with_unit_value(place, above)),
            at_line(13, 6),
            "{place} {above}"
        );
    }
}

#[test]
fn a_numeral_too_large_for_any_number_is_13() {
    for length in [10, 19, 20, 39, 40, 1_000, 100_000] {
        let huge = "9".repeat(length);
        for place in 1..=15 {
            assert_eq!(alone(&with_unit_value(place, &huge)), at_line(13, 6));
        }
        assert_eq!(
            alone(&with_unit_value(8, &format!("-{huge}"))),
            at_line(13, 6)
        );
        assert_eq!(
            alone(&with_line(2, &format!("periods={huge}"))),
            at_line(13, 2)
        );
    }
    // 2 to the power 64 and 1 more, and 2 to the power 128 and 1 more, would be 1 if they wrapped.
    for wrapping in [
        "18446744073709551617",
        "340282366920938463463374607431768211457",
    ] {
        assert_eq!(
            alone(&with_line(2, &format!("periods={wrapping}"))),
            at_line(13, 2)
        );
    }
}

#[test]
fn ranges_of_writers_outputs_and_multipliers() {
    for writer in [1, 65_535] {
        assert_eq!(
            under(PROBLEM, &schedule(writer, &["60,80", "0,20"])),
            held_schedule(1980)
        );
        assert_eq!(
            under(PROBLEM, &tree(writer, "price=0,0 reserve=0,0")),
            held_tree(5, 0, 1)
        );
    }
    for writer in [0, 65_536] {
        assert_eq!(
            under(PROBLEM, &schedule(writer, &["60,80", "0,20"])),
            at_line(13, 2)
        );
        assert_eq!(under(PROBLEM, &tree(writer, "short=1")), at_line(13, 2));
    }
    assert_eq!(runs("10000,80", "0,20"), refused(21, 0, 1, 1));
    assert_eq!(runs("10001,80", "0,20"), at_line(13, 3));
    assert_eq!(nodes("price=1000000001,0 reserve=0,0"), at_line(13, 3));
    assert_eq!(nodes("price=0,0 reserve=0,1000000001"), at_line(13, 4));
    for node in ["split=0,1", "split=3,1", "split=1,0", "split=1,3"] {
        assert_eq!(nodes(node), at_line(13, 3), "{node}");
    }
    for node in ["short=0", "short=3", "stuck=0", "stuck=3"] {
        assert_eq!(nodes(node), at_line(13, 3), "{node}");
    }
}

#[test]
fn crossed_limits_are_15() {
    // The unit was off, so that p0 has nothing to do with its limits.
    let off = |place, value| alone(&with_unit_values(&[(8, "-3"), (15, "0"), (place, value)]));
    assert_eq!(off(4, "81"), at_line(15, 6));
    assert_eq!(off(5, "19"), at_line(15, 6));
    assert_eq!(off(4, "80"), held_problem());
    assert_eq!(off(5, "20"), held_problem());
    assert_eq!(alone(&with_unit_value(11, "91")), at_line(15, 6));
    assert_eq!(alone(&with_unit_value(12, "49")), at_line(15, 6));
    assert_eq!(alone(&with_unit_value(11, "90")), held_problem());
}

#[test]
fn an_initial_output_against_its_rule_is_15() {
    for (initial, output, answer) in [
        ("3", "19", at_line(15, 6)),
        ("3", "20", held_problem()),
        ("3", "21", held_problem()),
        ("3", "79", held_problem()),
        ("3", "80", held_problem()),
        ("3", "81", at_line(15, 6)),
        ("3", "0", at_line(15, 6)),
        ("3", "1", at_line(15, 6)),
        ("3", "10000", at_line(15, 6)),
        ("1", "0", at_line(15, 6)),
        ("1000", "0", at_line(15, 6)),
        ("-3", "0", held_problem()),
        ("-3", "1", at_line(15, 6)),
        ("-1", "1", at_line(15, 6)),
        ("-1000", "1", at_line(15, 6)),
        ("-3", "20", at_line(15, 6)),
        ("-3", "60", at_line(15, 6)),
        ("-3", "80", at_line(15, 6)),
        ("-3", "10000", at_line(15, 6)),
    ] {
        let text = with_unit_values(&[(8, initial), (15, output)]);
        assert_eq!(alone(&text), answer, "{initial} {output}");
    }
    // It stands at the line of the unit.
    let second = with_line(7, "unit=40,14,0,10,50,1,1,-2,50,50,20,60,0,0,1");
    assert_eq!(alone(&second), at_line(15, 7));
}

#[test]
fn one_line_goes_by_12_14_13_15() {
    // Crossed limits (15) and then, one by one, a worse fault of the same line.
    for (line, number) in [
        ("unit=1,1,1,9,8,1,1,-1,1,1,0,0,0,0,0", 15),
        ("unit=1,1,1,9,8,1,1,0,1,1,0,0,0,0,0", 13),
        ("unit=1,1,1,9,8,1,1,0,1,1,0,0,0,0", 14),
        ("unit=1,1,1,9,8,1,1,0,1,1,0,0,0,00", 12),
        ("unit=1000000001,1,1,9,8,1,1,0,1,1,0,0,0,0,0,-0", 12),
        ("unit=1000000001,1,1,9,8,1,1,0,1,1,0,0,0,0,0,0", 14),
        ("unit=1,1,1,1,8,1,1,1,1,1,5,4,0,1000000001,1", 13),
        // The same with p0 at fault, first by Tini.
        ("unit=1,1,1,5,8,1,1,-1,1,1,0,0,0,0,5", 15),
        ("unit=1,1,1,5,8,1,1,-1,1,1,0,0,0,0,10001", 13),
        ("unit=1,1,1,5,8,1,1,-1,1,1,0,0,0,0,10001,0", 14),
        ("unit=1,1,1,5,8,1,1,-1,1,1,0,0,0,0,10001,", 12),
        // A line in range but for Tini, whose p0 would fit no Tini.
        ("unit=1,1,1,5,8,1,1,0,1,1,0,0,0,0,9", 13),
    ] {
        assert_eq!(alone(&with_line(6, line)), at_line(number, 6), "{line}");
    }
    assert_eq!(nodes("split=9"), at_line(14, 3));
    assert_eq!(nodes("split=9,01"), at_line(12, 3));
    assert_eq!(nodes("short=9,9"), at_line(14, 3));
    assert_eq!(nodes("price=1000000001"), at_line(14, 3));
}

#[test]
fn an_earlier_line_comes_before_a_later_one() {
    let text = with_unit_value(4, "81").replace("unit=40,14", "unit=40,-14");
    assert_eq!(alone(&text), at_line(15, 6));
    assert_eq!(
        under(PROBLEM, "kind=schedule\nwriter=0\nrun=-0\n"),
        at_line(13, 2)
    );
    // A schedule's rules wait for all of its lines, a tree's leaves don't.
    assert_eq!(
        under(PROBLEM, "kind=schedule\nwriter=1\nrun=1,1\nrun=1,1\nend=\n"),
        at_line(12, 5)
    );
    assert_eq!(nodes("split=1,1 short=2 nonsense"), at_line(33, 4));
    assert_eq!(nodes("short=2 short=2"), at_line(33, 3));
}

#[test]
fn rule_21_names_the_lowest_period_then_the_lowest_unit() {
    assert_eq!(runs("19,80", "0,20"), refused(21, 0, 1, 1));
    assert_eq!(runs("81,80", "0,20"), refused(21, 0, 1, 1));
    assert_eq!(runs("60,81", "51,20"), refused(21, 0, 2, 1));
    assert_eq!(runs("1,80", "9,20"), refused(21, 0, 1, 1));
    assert_eq!(runs("20,20", "50,51"), refused(21, 0, 2, 2));
}

#[test]
fn rules_22_and_23_name_a_period() {
    assert_eq!(runs("60,79", "0,20"), refused(22, 0, 0, 2));
    assert_eq!(runs("0,0", "0,0"), refused(22, 0, 0, 1));
    // 80 of capacity where 60 + 21 is needed; exactly 60 + 20 suffices.
    let more = PROBLEM.replace("spare=10,10", "spare=21,10");
    assert_eq!(under(&more, SCHEDULE), refused(23, 0, 0, 1));
    let enough = PROBLEM.replace("spare=10,10", "spare=20,30");
    assert_eq!(under(&enough, SCHEDULE), held_schedule(1980));
    let more = PROBLEM.replace("spare=10,10", "spare=20,31");
    assert_eq!(under(&more, SCHEDULE), refused(23, 0, 0, 2));
}

#[test]
fn rule_24_names_the_first_period_not_permitted() {
    let none = PROBLEM
        .replace("demand=60,100", "demand=0,0")
        .replace("spare=10,10", "spare=0,0");
    // Tini 3 and TU 2: off in period 1 is fine, on again in 2 breaks TD 2.
    assert_eq!(
        under(&none, &schedule(1, &["0,0", "0,0"])),
        held_schedule(5)
    );
    assert_eq!(
        under(&none, &schedule(1, &["0,20", "0,0"])),
        refused(24, 0, 1, 2)
    );
    // With Tini 1 it may not go off in period 1, but may in period 2.
    let young = none.replace("2,2,3,30,30", "2,2,1,30,30");
    assert_eq!(
        under(&young, &schedule(1, &["0,0", "0,0"])),
        refused(24, 0, 1, 1)
    );
    // From a p0 of 60 it may fall to 30.
    assert_eq!(
        under(&young, &schedule(1, &["30,0", "0,0"])),
        held_schedule(405)
    );
}

#[test]
fn rule_24_names_the_lowest_unit_of_the_lowest_period() {
    let unit = "unit=0,0,0,1,1,2,2,1,1,1,0,0,0,0,1\n";
    let late = "unit=0,0,0,1,1,2,2,5,1,1,0,0,0,0,1\n";
    let head = "kind=problem\nperiods=3\nunits=3\ndemand=0,0,0\nspare=0,0,0\n";
    let problem = format!("{head}{late}{unit}{unit}end=problem\n");
    // Unit 1 goes off and on again in period 2; units 2 and 3 go off in period 1.
    assert_eq!(
        under(&problem, &schedule(1, &["0,1,1", "0,0,0", "0,0,0"])),
        refused(24, 0, 2, 1)
    );
    assert_eq!(
        under(&problem, &schedule(1, &["0,1,1", "1,1,1", "0,0,0"])),
        refused(24, 0, 3, 1)
    );
    assert_eq!(
        under(&problem, &schedule(1, &["0,1,1", "1,0,1", "1,1,1"])),
        refused(24, 0, 1, 2)
    );
}

#[test]
fn rule_25_names_the_later_period() {
    let unit = "0,0,0,10,90,1,1,-1,20,30,0,0,0,0,0";
    let problem = one_unit(4, unit);
    for (run, answer) in [
        ("10,40,70,90", held_schedule(0)),
        ("10,41,70,90", refused(25, 0, 1, 2)),
        ("90,70,50,30", held_schedule(0)),
        ("90,70,49,30", refused(25, 0, 1, 3)),
        ("90,0,90,70", held_schedule(0)),
        ("0,90,70,0", held_schedule(0)),
        ("0,90,0,90", held_schedule(0)),
        ("90,70,50,29", refused(25, 0, 1, 4)),
    ] {
        assert_eq!(under(&problem, &schedule(1, &[run])), answer, "{run}");
    }
}

/// (11) and (12) from p0 to the first output, DR being 20 and UR 30.
#[test]
fn rule_25_names_period_1_for_a_ramp_from_the_initial_output() {
    let problem = one_unit(3, "0,0,0,10,90,1,1,1,20,30,0,0,0,0,50");
    for (run, answer) in [
        ("50,50,50", held_schedule(0)),
        ("80,80,80", held_schedule(0)),
        ("81,81,81", refused(25, 0, 1, 1)),
        ("90,90,90", refused(25, 0, 1, 1)),
        ("30,30,30", held_schedule(0)),
        ("29,29,29", refused(25, 0, 1, 1)),
        ("10,10,10", refused(25, 0, 1, 1)),
        // Period 1 comes before the others.
        ("81,60,81", refused(25, 0, 1, 1)),
        ("80,59,80", refused(25, 0, 1, 2)),
        ("80,60,91", refused(21, 0, 1, 3)),
        // Off in period 1: neither there nor when it goes on again.
        ("0,0,0", held_schedule(0)),
        ("0,90,70", held_schedule(0)),
        ("0,10,40", held_schedule(0)),
    ] {
        assert_eq!(under(&problem, &schedule(1, &[run])), answer, "{run}");
    }
}

/// In period 1 the lowest unit is named, and period 1 before a lower unit of period 2.
#[test]
fn rule_25_names_the_lowest_unit_of_the_lowest_period() {
    let unit = "unit=0,0,0,1,100,1,1,4,10,10,0,0,0,0,50\n";
    let off = "unit=0,0,0,1,100,1,1,-4,10,10,0,0,0,0,0\n";
    let head = "kind=problem\nperiods=2\nunits=3\ndemand=0,0\nspare=0,0\n";
    let problem = format!("{head}{off}{unit}{unit}end=problem\n");
    for (rows, answer) in [
        (["100,90", "60,70", "40,30"], held_schedule(0)),
        (["100,90", "61,70", "39,30"], refused(25, 0, 2, 1)),
        (["100,90", "39,30", "61,70"], refused(25, 0, 2, 1)),
        (["100,90", "60,70", "39,30"], refused(25, 0, 3, 1)),
        (["100,89", "60,70", "39,30"], refused(25, 0, 3, 1)),
        (["100,89", "60,71", "40,30"], refused(25, 0, 1, 2)),
        (["100,90", "0,0", "61,70"], refused(25, 0, 3, 1)),
    ] {
        assert_eq!(under(&problem, &schedule(1, &rows)), answer, "{rows:?}");
    }
}

#[test]
fn a_schedule_goes_by_its_lowest_number() {
    // 21 in period 2 comes before 22 in period 1, 22 before 23, 23 before 24, 24 before 25.
    assert_eq!(runs("59,81", "0,20"), refused(21, 0, 1, 2));
    let tight = PROBLEM.replace("spare=10,10", "spare=30,10");
    assert_eq!(
        under(&tight, &schedule(1, &["60,79", "0,20"])),
        refused(22, 0, 0, 2)
    );
    let slow = tight.replace("1,1,-2", "1,4,-2");
    assert_eq!(
        under(&slow, &schedule(1, &["60,80", "0,20"])),
        refused(23, 0, 0, 1)
    );
    let slow = PROBLEM.replace("1,1,-2", "1,4,-2");
    assert_eq!(
        under(&slow, &schedule(1, &["60,80", "0,20"])),
        refused(24, 0, 2, 2)
    );
    assert_eq!(
        under(&slow, &schedule(1, &["49,80", "11,20"])),
        refused(24, 0, 2, 1)
    );
    // 24 in period 2 before 25 in period 1, from a p0 of 20; 23 before it too.
    let low = PROBLEM.replace("1,5,60", "1,5,20");
    assert_eq!(
        under(&low, &schedule(1, &["60,80", "0,20"])),
        refused(25, 0, 1, 1)
    );
    let low = slow.replace("1,5,60", "1,5,20");
    assert_eq!(
        under(&low, &schedule(1, &["60,80", "0,20"])),
        refused(24, 0, 2, 2)
    );
    let low = tight.replace("1,5,60", "1,5,20");
    assert_eq!(
        under(&low, &schedule(1, &["60,80", "0,20"])),
        refused(23, 0, 0, 1)
    );
}

#[test]
fn split_on_a_fixed_status_is_31() {
    assert_eq!(nodes("split=1,1 split=1,1"), at_line(31, 4));
    assert_eq!(
        nodes("split=1,1 price=0,0 reserve=0,0 split=1,1"),
        at_line(31, 6)
    );
    assert_eq!(nodes("split=1,1 split=2,1 split=1,1"), at_line(31, 5));
}

/// Statuses fixed under the first tree of a split are free again under the second.
#[test]
fn a_status_is_fixed_only_below_its_split() {
    let leaf = "price=0,0 reserve=0,0";
    let tree = format!("split=1,1 split=2,1 {leaf} {leaf} split=2,1 {leaf} {leaf}");
    // Off, off: 5, the stop in period 1; the rest is not lower than the least cost over all runs.
    assert_eq!(nodes(&tree), held_tree(5, 3, 4));
}

#[test]
fn a_split_at_depth_64_is_32() {
    let problem = one_unit(48, "0,0,0,1,1,1,1,1,1,1,0,0,0,0,1")
        .replace("units=1", "units=2")
        .replace("end=", "unit=0,0,0,1,1,1,1,1,1,1,0,0,0,0,1\nend=");
    let zeros = vec!["0"; 48].join(",");
    let leaf = format!("price={zeros} reserve={zeros} ");
    let chain = |splits: usize| -> String {
        (0..splits)
            .map(|depth| format!("split={},{} ", depth / 48 + 1, depth % 48 + 1))
            .collect()
    };
    let answer = under(&problem, &tree(1, &(chain(64) + &leaf.repeat(65))));
    assert_eq!(answer, held_tree(0, 64, 65));
    let answer = under(&problem, &tree(1, &(chain(65) + &leaf.repeat(66))));
    assert_eq!(answer, at_line(32, 2 + 65));
    // On the second side the depth is counted alike.
    let right: String = (0..64)
        .map(|depth| format!("split={},{} {leaf}", depth / 48 + 1, depth % 48 + 1))
        .collect();
    assert_eq!(
        under(&problem, &tree(1, &(right.clone() + &leaf))),
        held_tree(0, 64, 65)
    );
    let deeper = format!("{right}split=2,17 {leaf}{leaf}");
    assert_eq!(
        under(&problem, &tree(1, &deeper)),
        at_line(32, 2 + 64 * 3 + 1)
    );
    // A split on a fixed status at depth 64 is 31 first.
    let deeper = format!("{right}split=1,1 {leaf}{leaf}");
    assert_eq!(
        under(&problem, &tree(1, &deeper)),
        at_line(31, 2 + 64 * 3 + 1)
    );
}

#[test]
fn short_counts_free_units_and_holds_only_below() {
    // Period 2 needs 110; both units give 130, the first alone 80, the second alone 50.
    assert_eq!(nodes("split=2,2 short=2 short=2"), at_line(33, 5));
    assert_eq!(nodes("split=1,1 short=1 short=1"), at_line(33, 5));
    assert_eq!(nodes("split=2,1 short=1"), at_line(33, 4));
    assert_eq!(nodes("split=2,1 short=2"), at_line(33, 4));
    // 80 where 80 is needed is not short.
    let equal = PROBLEM.replace("spare=10,10", "spare=20,10");
    assert_eq!(under(&equal, &tree(1, "split=2,1 short=1")), at_line(33, 4));
    let above = PROBLEM.replace("spare=10,10", "spare=21,10");
    let leaf = "price=0,0 reserve=0,0";
    assert_eq!(
        under(&above, &tree(1, &format!("split=2,1 short=1 {leaf}"))),
        held_tree(40 + 140 + 60 + 5, 1, 2)
    );
}

#[test]
fn stuck_holds_only_without_a_run() {
    assert_eq!(nodes("stuck=1"), at_line(34, 3));
    // Unit 1 off in 1 and on in 2 breaks TD 2.
    let leaf = "price=0,0 reserve=0,0";
    assert_eq!(
        nodes(&format!("split=1,1 split=1,2 {leaf} stuck=1 {leaf}")),
        held_tree(5, 2, 3)
    );
    assert_eq!(
        nodes(&format!("split=1,1 split=1,2 {leaf} stuck=2 {leaf}")),
        at_line(34, 7)
    );
}

#[test]
fn a_price_leaf_with_a_stuck_unit_is_35_at_its_reserve_line() {
    assert_eq!(
        nodes("split=1,1 split=1,2 short=1 price=0,0 reserve=0,0"),
        at_line(35, 7)
    );
    // The price line's own faults come first, and the reserve line's.
    assert_eq!(
        nodes("split=1,1 split=1,2 short=1 price=0 reserve=0,0"),
        at_line(14, 6)
    );
    assert_eq!(
        nodes("split=1,1 split=1,2 short=1 price=0,0 reserve=0,1000000001"),
        at_line(13, 7)
    );
    assert_eq!(
        nodes("split=1,1 split=1,2 short=1 price=0,0 reserve=0"),
        at_line(14, 7)
    );
    assert_eq!(
        nodes("split=1,1 split=1,2 short=1 price=0,0 end=tree"),
        at_line(12, 7)
    );
}

#[test]
fn a_crowd_that_does_not_hold_is_36() {
    assert_eq!(nodes("crowd=2"), at_line(36, 3));
    // One unit may be on in 2 and one is fixed on there; both fixed on are too many.
    assert_eq!(nodes("count=2,1 split=1,2 short=2 crowd=2"), at_line(36, 6));
    let leaf = "price=0,0 reserve=0,0";
    assert_eq!(
        nodes(&format!(
            "count=2,1 split=1,2 short=2 split=2,2 short=2 crowd=2 {leaf}"
        )),
        held_tree(5, 3, 4)
    );
    // Both must be on in 2 and one is left; with one fixed on there are still two. Unit 1 on in 2
    // has to be on in 1 too: 600.
    assert_eq!(
        nodes(&format!("count=2,1 short=2 split=1,2 crowd=2 {leaf}")),
        held_tree(600, 2, 3)
    );
    assert_eq!(
        nodes("count=2,1 short=2 split=1,2 crowd=2 crowd=2"),
        at_line(36, 7)
    );
}

#[test]
fn a_count_outside_those_that_stand_is_37() {
    assert_eq!(nodes("count=2,1 count=2,1"), at_line(37, 4));
    assert_eq!(nodes("count=2,0 count=2,0"), at_line(37, 4));
    assert_eq!(nodes("count=2,0 count=2,1"), at_line(37, 4));
    assert_eq!(nodes("count=2,0 short=2 count=2,0"), at_line(37, 5));
    let leaf = "price=0,0 reserve=0,0";
    assert_eq!(
        nodes(&format!("count=2,1 count=2,0 short=2 short=2 {leaf}")),
        held_tree(5, 2, 3)
    );
    assert_eq!(
        nodes(&format!("count=2,0 short=2 count=2,1 short=2 {leaf}")),
        held_tree(5, 2, 3)
    );
}

#[test]
fn a_second_problem_is_41() {
    assert_eq!(under(PROBLEM, PROBLEM), refused(41, 0, 0, 0));
    assert_eq!(under(PROBLEM, "kind=problem\n"), refused(41, 0, 0, 0));
}

#[test]
fn another_text_without_a_problem_is_42() {
    for text in [SCHEDULE, TREE, "kind=tree\n", "kind=schedule\nwriter=-0"] {
        assert_eq!(alone(text), refused(42, 0, 0, 0));
    }
}

#[test]
fn the_first_line_comes_before_41_and_42() {
    for text in [
        "kind=problem",
        "kind=tree",
        "kind=schedule",
        "kind=report\n",
        "\n",
        "kind=\n",
    ] {
        assert_eq!(alone(text), at_line(12, 1));
        assert_eq!(under(PROBLEM, text), at_line(12, 1));
    }
}
