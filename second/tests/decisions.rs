//! The points that documents 01 and 02 leave open, by the numbers of the decisions.

mod common;

use common::*;
use second::{fresh, listing, lodge, report, Bound, Refusal};

fn listed(input: &str) -> String {
    String::from_utf8(listing(input.as_bytes())).unwrap()
}

const EMPTY_REPORT: &str = "kind=report
cost=none
costwriter=none
bound=none
boundwriter=none
gap=none
end=report
";

/// A problem that no schedule meets: 5 is needed, the one unit gives 4.
fn impossible() -> String {
    one_unit(1, "0,0,0,1,4,1,1,-1,1,1,0,0,0,0,0").replace("spare=0", "spare=5")
}

#[test]
fn decision_1_the_first_line_alone_decides_the_kind() {
    assert_eq!(
        under(PROBLEM, "kind=problem\nnonsense"),
        refused(41, 0, 0, 0)
    );
    assert_eq!(alone("kind=tree\nnonsense"), refused(42, 0, 0, 0));
    assert_eq!(alone("kind=schedule\n"), refused(42, 0, 0, 0));
    for first in [
        "kind=Problem\n",
        "kind=problem\r\n",
        " kind=problem\n",
        "kind=problem",
        "kind=tree",
    ] {
        assert_eq!(alone(first), at_line(12, 1));
        assert_eq!(under(PROBLEM, first), at_line(12, 1));
    }
}

#[test]
fn decision_2_where_a_minus_may_stand() {
    let unit = |values: &str| alone(&one_unit(1, values));
    assert_eq!(unit("0,0,0,1,1,1,1,-1,1,1,0,0,0,0,0"), held_problem());
    assert_eq!(unit("0,0,0,1,1,1,1,0,1,1,0,0,0,0,0"), at_line(13, 6));
    for tini in ["-0", "-", "-05", "--1", "- 1", "-+1"] {
        let answer = unit(&format!("0,0,0,1,1,1,1,{tini},1,1,0,0,0,0,0"));
        assert_eq!(answer, at_line(12, 6), "{tini}");
    }
    let huge = "9".repeat(60);
    for tini in [huge.clone(), format!("-{huge}")] {
        let answer = unit(&format!("0,0,0,1,1,1,1,{tini},1,1,0,0,0,0,0"));
        assert_eq!(answer, at_line(13, 6));
    }
    // The eighth value, however many there are; no other one.
    assert_eq!(unit("1,1,1,1,1,1,1,-1"), at_line(14, 6));
    assert_eq!(unit("1,1,1,1,1,1,1,-1,1"), at_line(14, 6));
    assert_eq!(unit("1,1,1,1,1,1,-1,1"), at_line(12, 6));
    assert_eq!(unit("-1"), at_line(12, 6));
    for count in [14, 15, 16] {
        for place in (0..count).filter(|&place| place != 7) {
            let mut values = vec!["1"; count];
            values[place] = "-1";
            assert_eq!(unit(&values.join(",")), at_line(12, 6), "{count} {place}");
        }
    }
    let eight = one_unit(8, "0,0,0,1,1,1,1,-1,1,1,0,0,0,0,0");
    let run = "0,0,0,0,0,0,0,-1";
    assert_eq!(under(&eight, &schedule(1, &[run])), at_line(12, 3));
    assert_eq!(
        under(&eight, &tree(1, &format!("price={run}"))),
        at_line(12, 3)
    );
}

#[test]
fn decision_3_missing_unended_and_left_over() {
    assert_eq!(alone("kind=problem\n"), at_line(12, 2));
    assert_eq!(alone("kind=problem\nperiods=99"), at_line(12, 2));
    assert_eq!(alone("kind=problem\nperiods=1,1"), at_line(12, 2));
    assert_eq!(alone(PROBLEM.trim_end()), at_line(12, 8));
    assert_eq!(alone(&format!("{PROBLEM}\n")), at_line(12, 9));
    assert_eq!(alone(&PROBLEM.replace('\n', "\r\n")), at_line(12, 1));
    assert_eq!(alone(&PROBLEM.replace("=2\n", "=2\r\n")), at_line(12, 2));
    assert_eq!(
        alone(&PROBLEM.replace("end=problem\n", "end=problem\r\n")),
        at_line(12, 8)
    );
}

#[test]
fn decision_4_one_line_is_judged_whole() {
    assert_eq!(
        alone(&PROBLEM.replace("demand=60,100", "demand=320001,0100")),
        at_line(12, 4)
    );
    assert_eq!(
        alone(&PROBLEM.replace("demand=60,100", "demand=320001,1,1")),
        at_line(14, 4)
    );
    assert_eq!(
        alone(&PROBLEM.replace("demand=60,100", "demand=320001,1")),
        at_line(13, 4)
    );
}

#[test]
fn decision_5_31_comes_before_32() {
    let problem = one_unit(48, "0,0,0,1,1,1,1,1,1,1,0,0,0,0,1")
        .replace("units=1", "units=2")
        .replace("end=", "unit=0,0,0,1,1,1,1,1,1,1,0,0,0,0,1\nend=");
    let mut chain = String::new();
    for depth in 0..64 {
        chain += &format!("split={},{} ", depth / 48 + 1, depth % 48 + 1);
    }
    let fixed = format!("{chain}split=2,16");
    assert_eq!(under(&problem, &tree(1, &fixed)), at_line(31, 67));
    let free = format!("{chain}split=2,17");
    assert_eq!(under(&problem, &tree(1, &free)), at_line(32, 67));
    let out_of_range = format!("{chain}split=3,16");
    assert_eq!(under(&problem, &tree(1, &out_of_range)), at_line(13, 67));
}

#[test]
fn decision_6_leaves() {
    assert_eq!(nodes("short=03"), at_line(12, 3));
    assert_eq!(nodes("short=3,3"), at_line(14, 3));
    assert_eq!(nodes("short=3"), at_line(13, 3));
    assert_eq!(nodes("short=1"), at_line(33, 3));
    assert_eq!(nodes("stuck=03"), at_line(12, 3));
    assert_eq!(nodes("stuck=3,3"), at_line(14, 3));
    assert_eq!(nodes("stuck=3"), at_line(13, 3));
    assert_eq!(nodes("stuck=1"), at_line(34, 3));
    assert_eq!(nodes("price=1,1000000001 short=1"), at_line(13, 3));
    assert_eq!(nodes("price=1,1 price=1,1"), at_line(12, 4));
    assert_eq!(nodes("reserve=1,1 price=1,1"), at_line(12, 3));
    for node in ["split=0,1", "split=1,0", "short=0", "stuck=0"] {
        assert_eq!(nodes(node), at_line(13, 3), "{node}");
    }
}

#[test]
fn decision_7_only_a_node_line_where_a_node_is_due() {
    assert_eq!(nodes(""), at_line(12, 3));
    assert_eq!(nodes("split=1,1"), at_line(12, 4));
    assert_eq!(nodes("split=1,1 price=1,1 reserve=0,0"), at_line(12, 6));
    assert_eq!(
        nodes("price=1,1 reserve=0,0 price=1,1 reserve=0,0"),
        at_line(12, 5)
    );
    assert_eq!(nodes("price=1,1 reserve=0,0 short=1"), at_line(12, 5));
    assert_eq!(nodes("run=1,1"), at_line(12, 3));
    assert_eq!(
        under(
            PROBLEM,
            &tree(1, "price=1,1 reserve=0,0").replace("end=tree", "end=problem")
        ),
        at_line(12, 5)
    );
}

#[test]
fn decision_8_counts_of_values() {
    assert_eq!(under(PROBLEM, "kind=schedule\nwriter=\n"), at_line(12, 2));
    assert_eq!(nodes("split=1,"), at_line(12, 3));
    assert_eq!(nodes("split="), at_line(12, 3));
    assert_eq!(nodes("price="), at_line(12, 3));
    assert_eq!(nodes("split"), at_line(12, 3));
    for count in (1..=20).filter(|&count| count != 15) {
        let values = vec!["1"; count].join(",");
        assert_eq!(alone(&one_unit(1, &values)), at_line(14, 6), "{count}");
    }
    assert_eq!(alone(&one_unit(1, &["1"; 15].join(","))), held_problem());
    assert_eq!(
        alone(&PROBLEM.replace("end=problem", "end=problem,")),
        at_line(12, 8)
    );
}

#[test]
fn decision_9_the_period_of_a_breach() {
    assert_eq!(runs("60,80", "0,51"), refused(21, 0, 2, 2));
    assert_eq!(runs("59,80", "0,20"), refused(22, 0, 0, 1));
    assert_eq!(runs("40,80", "20,20"), refused(25, 0, 1, 2));
    assert_eq!(runs("29,59", "50,50"), refused(25, 0, 1, 1));
    let needy = PROBLEM.replace("spare=10,10", "spare=21,10");
    assert_eq!(under(&needy, SCHEDULE), refused(23, 0, 0, 1));
}

#[test]
fn decision_10_counts_of_a_tree() {
    assert_eq!(nodes("price=0,0 reserve=0,0"), held_tree(5, 0, 1));
    // Unit 1 must be on in both periods, 600, and unit 2 makes a cold start in period 2, 240.
    assert_eq!(
        nodes("split=2,2 short=2 split=1,2 short=2 price=0,0 reserve=0,0"),
        held_tree(840, 2, 3)
    );
}

#[test]
fn decision_11_refusal_43() {
    let docket = fresh();
    let length = EMPTY_REPORT.len();
    let refusal = Err(Refusal {
        number: 43,
        line: 0,
        unit: 0,
        period: 0,
    });
    for (room, at) in [
        (0, 0),
        (0, 1),
        (length - 1, 0),
        (length, 1),
        (length, length),
        (length, length + 1),
        (length + 9, 10),
        (length + 9, length + 9),
        (length + 9, usize::MAX),
        (10, 5),
    ] {
        let mut buffer = vec![7; room];
        assert_eq!(report(&docket, &mut buffer, at), refusal, "{room} {at}");
        assert_eq!(buffer, vec![7; room]);
    }
    for (room, at) in [
        (length, 0),
        (length + 9, 9),
        (length + 9, 4),
        (length + 9, 0),
    ] {
        let mut buffer = vec![7; room];
        assert_eq!(report(&docket, &mut buffer, at), Ok(length));
        assert_eq!(&buffer[at..at + length], EMPTY_REPORT.as_bytes());
        assert!(buffer[..at].iter().all(|&byte| byte == 7));
        assert!(buffer[at + length..].iter().all(|&byte| byte == 7));
    }
}

#[test]
fn decision_12_never_and_a_minus_are_printed() {
    let never = impossible() + &tree(8, "split=1,1 short=1 short=1") + &tree(9, "short=1");
    assert_eq!(
        listed(&never),
        "answer=held\nanswer=held,never,1,2\nanswer=passed,never,0,1\nkind=report\ncost=none\n\
         costwriter=none\nbound=never\nboundwriter=8\ngap=none\nend=report\n"
    );
    // One unit, pU 30, and a reserve multiplier of 1 without need: -30.
    let minus = one_unit(1, "0,0,0,30,30,1,1,-1,1,1,0,0,0,0,0") + &tree(2, "price=0 reserve=1");
    assert_eq!(
        listed(&minus),
        "answer=held\nanswer=held,-30,0,1\nkind=report\ncost=none\n\
         costwriter=none\nbound=-30\nboundwriter=2\ngap=none\nend=report\n"
    );
}

#[test]
fn decision_12_never_is_above_every_number() {
    let mut docket = holding(&impossible());
    let number = tree(1, "price=1000000000 reserve=1000000000");
    // 10^9 · 5 + (0 - 10^9 · 4 - 10^9 · 4): the unit is on at 4.
    assert_eq!(
        lodge(&mut docket, number.as_bytes()),
        held_tree(-3_000_000_000, 0, 1)
    );
    assert_eq!(
        lodge(&mut docket, tree(2, "short=1").as_bytes()),
        held_never(0, 1)
    );
    assert_eq!(
        lodge(&mut docket, number.as_bytes()),
        passed_tree(-3_000_000_000, 0, 1)
    );
    let held = docket.held_bound().unwrap();
    assert_eq!((held.bound, held.writer), (Bound::Never, 2));
}

#[test]
fn decision_13_how_the_listing_cuts() {
    assert_eq!(listed(""), EMPTY_REPORT);
    // Any line that begins `end=` ends a piece.
    assert_eq!(
        listed("end=\nend=anything at all\n\nend=x\n"),
        format!("{}{EMPTY_REPORT}", "answer=refused,12,1,0,0\n".repeat(3))
    );
    // An unended rest is the last piece, also one that begins `end=`.
    assert_eq!(
        listed(&format!("{PROBLEM}end=problem")),
        format!("answer=held\nanswer=refused,12,1,0,0\n{EMPTY_REPORT}")
    );
    assert_eq!(
        listed(PROBLEM.trim_end()),
        format!("answer=refused,12,8,0,0\n{EMPTY_REPORT}")
    );
    // Only at the line's start.
    assert_eq!(
        listed("kind=tree\n end=tree\nxend=\n"),
        format!("answer=refused,42,0,0,0\n{EMPTY_REPORT}")
    );
    assert_eq!(
        listed("\n"),
        format!("answer=refused,12,1,0,0\n{EMPTY_REPORT}")
    );
}

#[test]
fn decision_13_more_than_the_program_reads() {
    let mut input = PROBLEM.as_bytes().to_vec();
    input.resize(65_536, b'\n');
    let judged = format!("answer=held\nanswer=refused,12,1,0,0\n{EMPTY_REPORT}");
    assert_eq!(listing(&input), judged.as_bytes());
    let too_long = format!("answer=refused,11,0,0,0\n{EMPTY_REPORT}");
    for length in [65_537, 65_538, 1_048_577] {
        input.resize(length, b'\n');
        assert_eq!(listing(&input), too_long.as_bytes());
    }
}

#[test]
fn decision_14_the_most_pieces_an_input_has() {
    let input = "end=\n".repeat(13_107) + "x";
    assert_eq!(input.len(), 65_536);
    let output = listed(&input);
    assert_eq!(output.matches("answer=refused,12,1,0,0\n").count(), 13_108);
    assert!(output.ends_with(EMPTY_REPORT));
    assert!(output.len() <= 1_048_576);
}

/// One unit with these pL, pU, Tini and p0, whose other figures are 0 or 1.
fn with_p0(limits: &str, initial: &str, p0: &str) -> String {
    one_unit(1, &format!("0,0,0,{limits},1,1,{initial},1,1,0,0,0,0,{p0}"))
}

#[test]
fn decision_65_range_and_place_of_p0() {
    // 0 and 10,000 are in range, 10,001 is not, whatever pL, pU and Tini say of it.
    assert_eq!(alone(&with_p0("1,10000", "1", "10000")), held_problem());
    assert_eq!(alone(&with_p0("10000,10000", "1", "10000")), held_problem());
    assert_eq!(alone(&with_p0("1,10000", "1", "10001")), at_line(13, 6));
    assert_eq!(alone(&with_p0("1,9999", "1", "10000")), at_line(15, 6));
    assert_eq!(alone(&with_p0("1,9999", "1", "10001")), at_line(13, 6));
    assert_eq!(alone(&with_p0("1,10000", "-1", "0")), held_problem());
    assert_eq!(alone(&with_p0("1,10000", "-1", "10000")), at_line(15, 6));
    assert_eq!(alone(&with_p0("1,10000", "-1", "10001")), at_line(13, 6));
    assert_eq!(alone(&with_p0("9,8", "1", "10001")), at_line(13, 6));
    // Both limits are allowed; for pL above pU no p0 of a unit that was on fits.
    for (p0, answer) in [
        ("6", at_line(15, 6)),
        ("7", held_problem()),
        ("8", held_problem()),
        ("9", held_problem()),
        ("10", at_line(15, 6)),
    ] {
        assert_eq!(alone(&with_p0("7,9", "5", p0)), answer, "{p0}");
        assert_eq!(alone(&with_p0("9,7", "5", p0)), at_line(15, 6), "{p0}");
    }
}

#[test]
fn decision_65_a_malformed_p0_is_12() {
    for p0 in ["-1", "-0", "-", "-50", "00", "01", "050", "", " 50", "50 "] {
        for initial in ["3", "-3"] {
            let text = with_p0("1,90", initial, p0);
            assert_eq!(alone(&text), at_line(12, 6), "{initial} {p0:?}");
        }
    }
}

#[test]
fn decision_65_fourteen_or_sixteen_values_are_14_first() {
    let unit = |values: &str| alone(&one_unit(1, values));
    // Nothing else wrong; one value out of range; p0 and Tini at odds; both.
    for (fourteen, p0) in [
        ("0,0,0,1,90,1,1,3,1,1,0,0,0,0", "50"),
        ("0,0,0,1,90,1,1,3,1,1,0,0,49,0", "50"),
        ("0,0,0,1,90,1,1,3,1,1,0,0,0,0", "10001"),
        ("0,0,0,1,90,1,1,3,1,1,0,0,0,0", "91"),
        ("0,0,0,1,90,1,1,-3,1,1,0,0,0,0", "1"),
        ("0,0,0,90,1,1,1,-3,1,1,1,0,0,0", "10001"),
    ] {
        assert_eq!(unit(fourteen), at_line(14, 6), "{fourteen}");
        for sixteenth in ["0", "50", "10001"] {
            let sixteen = format!("{fourteen},{p0},{sixteenth}");
            assert_eq!(unit(&sixteen), at_line(14, 6), "{sixteen}");
        }
    }
    assert_eq!(unit("0,0,0,1,90,1,1,3,1,1,0,0,0,0,50"), held_problem());
    // 12 of the last value comes first.
    assert_eq!(unit("0,0,0,1,90,1,1,3,1,1,0,0,0,00"), at_line(12, 6));
    assert_eq!(unit("0,0,0,1,90,1,1,3,1,1,0,0,0,0,50,"), at_line(12, 6));
}

/// The answer to a run of one unit with pL 10, pU 90, DR 20, UR 30 and these Tini and p0.
fn ramped(initial: &str, p0: i64, run: &str) -> second::Answer {
    let periods = run.split(',').count();
    let unit = format!("0,0,0,10,90,1,1,{initial},20,30,0,0,0,0,{p0}");
    under(&one_unit(periods, &unit), &schedule(1, &[run]))
}

#[test]
fn decision_66_the_ramp_of_period_1() {
    for p0 in 10..=90 {
        for output in 10..=90 {
            let answer = if p0 - 20 <= output && output <= p0 + 30 {
                held_schedule(0)
            } else {
                refused(25, 0, 1, 1)
            };
            // With T = 1 there is this ramp and no other.
            let one = ramped("1", p0, &output.to_string());
            assert_eq!(one, answer, "{p0} {output}");
            let two = ramped("1000", p0, &format!("{output},{output}"));
            assert_eq!(two, answer, "{p0} {output}");
        }
        // Off in period 1 there is none, nor when the unit goes on after that.
        for run in ["0", "0,0", "0,10", "0,90"] {
            assert_eq!(ramped("1", p0, run), held_schedule(0), "{p0} {run}");
        }
    }
    // A unit that was off begins anywhere.
    for output in 10..=90 {
        let answer = ramped("-1", 0, &output.to_string());
        assert_eq!(answer, held_schedule(0), "{output}");
    }
}

#[test]
fn decision_66_a_unit_off_before_begins_at_its_most_output() {
    let off = one_unit(2, "0,0,0,1,10000,1,1,-1,1,1,0,0,0,0,0");
    let on = one_unit(2, "0,0,0,1,10000,1,1,1,1,1,0,0,0,0,1");
    let run = schedule(1, &["10000,10000"]);
    assert_eq!(under(&off, &run), held_schedule(0));
    assert_eq!(under(&on, &run), refused(25, 0, 1, 1));
    assert_eq!(under(&on, &schedule(1, &["2,3"])), held_schedule(0));
    assert_eq!(under(&on, &schedule(1, &["2,4"])), refused(25, 0, 1, 2));
    // The widest step that p0 can make, up and down, and one that a ramp of 9,998 stops.
    let widest = "0,0,0,1,10000,1,1,1,9999,9999,0,0,0,0";
    for (p0, output) in [(1, "10000"), (10_000, "1")] {
        let free = one_unit(1, &format!("{widest},{p0}"));
        assert_eq!(under(&free, &schedule(1, &[output])), held_schedule(0));
        let bound = free.replace("9999", "9998");
        let answer = under(&bound, &schedule(1, &[output]));
        assert_eq!(answer, refused(25, 0, 1, 1));
    }
}

#[test]
fn decision_67_costs_do_not_read_p0() {
    // Going off costs Dc, 7, and staying on a + b·p + c·p·p, from whatever p0.
    for p0 in 10..=90 {
        let unit = format!("5,3,2,10,90,1,1,4,90,90,50,90,1,7,{p0}");
        let problem = one_unit(3, &unit);
        for (run, cost) in [
            ("0,0,0", 7),
            ("20,20,0", 2 * (5 + 60 + 800) + 7),
            ("0,20,20", 7 + 50 + 2 * (5 + 60 + 800)),
        ] {
            let answer = under(&problem, &schedule(1, &[run]));
            assert_eq!(answer, held_schedule(cost), "{p0} {run}");
        }
    }
}

#[test]
fn decision_67_a_tree_gets_the_same_answer_whatever_p0_is() {
    for p0 in [20, 21, 47, 79, 80] {
        let problem = PROBLEM.replace("1,5,60", &format!("1,5,{p0}"));
        for (nodes, answer) in [
            (
                "split=2,2 short=2 price=10,14 reserve=0,0",
                held_tree(1980, 1, 2),
            ),
            ("price=10,14 reserve=0,2", held_tree(1940, 0, 1)),
            ("price=0,0 reserve=0,0", held_tree(5, 0, 1)),
            ("short=2", at_line(33, 3)),
            ("stuck=1", at_line(34, 3)),
            (
                "split=1,1 split=1,2 price=0,0 reserve=0,0 stuck=1 price=0,0 reserve=0,0",
                held_tree(5, 2, 3),
            ),
            (
                "split=1,1 split=1,2 short=1 price=0,0 reserve=0,0",
                at_line(35, 7),
            ),
        ] {
            assert_eq!(under(&problem, &tree(1, nodes)), answer, "{p0} {nodes}");
        }
    }
}

/// The bound of a lone price leaf, where the ramp from p0 lets no schedule reach it.
#[test]
fn decision_67_a_price_leaf_leaves_the_ramp_from_p0_out() {
    let problem = one_unit(1, "0,1,0,1,90,1,2,1,5,5,0,0,0,1000,50");
    let mut docket = holding(&problem);
    // On at 1 without a price: 1. The least that the ramp allows is 45.
    let leaf = tree(2, "price=0 reserve=0");
    assert_eq!(lodge(&mut docket, leaf.as_bytes()), held_tree(1, 0, 1));
    let low = schedule(3, &["1"]);
    assert_eq!(lodge(&mut docket, low.as_bytes()), refused(25, 0, 1, 1));
    let least = schedule(4, &["45"]);
    assert_eq!(lodge(&mut docket, least.as_bytes()), held_schedule(45));
}

/// A problem of one period with units of these pU that may be on or off at will, and this need.
fn of_capacities(capacities: &[i64], needed: i64) -> String {
    at_will(capacities, &[0], &[needed])
}

/// The answer to a tree on such a problem.
fn at_capacities(capacities: &[i64], needed: i64, nodes: &str) -> second::Answer {
    under(&of_capacities(capacities, needed), &tree(1, nodes))
}

const LEAF: &str = "price=0 reserve=0";

#[test]
fn decision_87_the_order_of_numbers_on_a_count_line() {
    for line in [
        "count",
        "count=",
        "count=1",
        "count=1,",
        "count=,1",
        "count=01,0",
        "count=1,00",
        "count=1,-1",
        "count=1,-0",
        "count=1,+0",
        "count=1,x",
        "Count=1,0",
        "counts=1,0",
        "count=9,01,1",
    ] {
        let number = if line == "count=1" { 14 } else { 12 };
        assert_eq!(nodes(line), at_line(number, 3), "{line}");
    }
    assert_eq!(
        under(PROBLEM, "kind=tree\nwriter=1\ncount=1,0"),
        at_line(12, 3)
    );
    assert_eq!(nodes("count=9"), at_line(14, 3));
    assert_eq!(nodes("count=9,9,9"), at_line(14, 3));
    assert_eq!(nodes("count=1,0,0"), at_line(14, 3));
    for line in [
        "count=0,0",
        "count=3,0",
        "count=1,2",
        "count=1,3",
        "count=3,2",
    ] {
        assert_eq!(nodes(line), at_line(13, 3), "{line}");
    }
    let huge = "9".repeat(60);
    assert_eq!(nodes(&format!("count=1,{huge}")), at_line(13, 3));
    assert_eq!(nodes(&format!("count={huge},1")), at_line(13, 3));
    // 12, 14 and 13 come before 37: under the first tree of count=1,0 every count of 1 is 37.
    assert_eq!(nodes("count=1,0 count=1,00"), at_line(12, 4));
    assert_eq!(nodes("count=1,0 count=1"), at_line(14, 4));
    assert_eq!(nodes("count=1,0 count=1,2"), at_line(13, 4));
    assert_eq!(nodes("count=1,0 count=1,1"), at_line(37, 4));
    assert_eq!(nodes("count=1,0 count=1,0"), at_line(37, 4));
    // After a count line two trees are due.
    assert_eq!(nodes("count=1,0"), at_line(12, 4));
    assert_eq!(nodes("count=1,0 short=1"), at_line(12, 5));
    assert_eq!(
        nodes("count=1,0 short=1 price=0,0 reserve=0,0 short=1"),
        at_line(12, 7)
    );
}

#[test]
fn decision_87_the_period_comes_first_and_k_is_the_number_itself() {
    // Two periods, four units: K may be 3 where P may not.
    let problem = one_unit(2, "0,0,0,1,1,1,1,-1,1,1,0,0,0,0,0")
        .replace("units=1", "units=4")
        .replace(
            "end=",
            &("unit=0,0,0,1,1,1,1,-1,1,1,0,0,0,0,0\n".repeat(3) + "end="),
        );
    let leaf = "price=0,0 reserve=0,0";
    for (line, answer) in [
        ("count=2,3", held_tree(0, 1, 2)),
        ("count=2,0", held_tree(0, 1, 2)),
        ("count=3,2", at_line(13, 3)),
        ("count=0,2", at_line(13, 3)),
        ("count=2,4", at_line(13, 3)),
    ] {
        let text = tree(1, &format!("{line} {leaf} {leaf}"));
        assert_eq!(under(&problem, &text), answer, "{line}");
    }
    // With one unit K is 0.
    assert_eq!(
        at_capacities(&[5], 0, &format!("count=1,0 {LEAF} {LEAF}")),
        held_tree(0, 1, 2)
    );
    assert_eq!(at_capacities(&[5], 0, "count=1,1"), at_line(13, 3));
}

#[test]
fn decision_87_the_order_of_numbers_on_a_crowd_line() {
    for line in [
        "crowd",
        "crowd=",
        "crowd=01",
        "crowd=-1",
        "crowd=9,",
        "crowd=9,01",
        "Crowd=1",
        "crowds=1",
    ] {
        assert_eq!(nodes(line), at_line(12, 3), "{line}");
    }
    assert_eq!(
        under(PROBLEM, "kind=tree\nwriter=1\ncrowd=1"),
        at_line(12, 3)
    );
    assert_eq!(nodes("crowd=9,9"), at_line(14, 3));
    assert_eq!(nodes("crowd=1,1"), at_line(14, 3));
    assert_eq!(nodes("crowd=0"), at_line(13, 3));
    assert_eq!(nodes("crowd=3"), at_line(13, 3));
    assert_eq!(nodes("crowd=1"), at_line(36, 3));
    assert_eq!(nodes("crowd=2"), at_line(36, 3));
    // The line that 36 carries is its own, and nothing follows a crowd as a part of it.
    assert_eq!(nodes("count=1,0 short=1 split=1,1 short=2"), at_line(33, 6));
    assert_eq!(nodes("count=1,0 short=1 split=1,1 crowd=1"), at_line(36, 6));
}

/// K = I is out of range whatever stands for the period, also too deep.
#[test]
fn decision_87_a_k_of_the_number_of_units_is_never_37() {
    let three = |nodes: &str| at_capacities(&[80, 50, 30], 1, nodes);
    assert_eq!(three("count=1,3"), at_line(13, 3));
    assert_eq!(three("count=1,2 count=1,3"), at_line(13, 4));
    assert_eq!(three("count=1,0 count=1,3"), at_line(13, 4));
    assert_eq!(
        three(&format!("count=1,2 {LEAF} count=1,3")),
        at_line(13, 6)
    );
    assert_eq!(
        three(&format!("count=1,2 {LEAF} count=1,2")),
        at_line(37, 6)
    );
}

/// A problem of 48 periods and three units that may be on or off at will, without any need.
fn wide() -> String {
    let unit = "0,0,0,1,1,1,1,-1,1,1,0,0,0,0,0";
    one_unit(48, unit)
        .replace("units=1", "units=3")
        .replace("end=", &format!("unit={unit}\nunit={unit}\nend="))
}

/// So many count lines, each the second tree of the one before, and their first trees.
fn counts_on_the_right(lines: usize, leaf: &str) -> String {
    (0..lines)
        .map(|depth| format!("count={},{} {leaf} ", depth / 3 + 1, depth % 3))
        .collect()
}

#[test]
fn decision_87_depth_and_numbers_of_a_line_too_deep() {
    let zeros = vec!["0"; 48].join(",");
    let leaf = format!("price={zeros} reserve={zeros}");
    let right = |lines| counts_on_the_right(lines, &leaf);
    let answer = |nodes: String| under(&wide(), &tree(1, &nodes));
    assert_eq!(answer(format!("{}{leaf}", right(64))), held_tree(0, 64, 65));
    assert_eq!(answer(format!("{}{leaf}", right(63))), held_tree(0, 63, 64));
    let last = 2 + 64 * 3 + 1;
    for (line, number) in [
        // Period 21 has all its counts, 22 has that of K = 0 and 23 has none.
        ("count=23,0", 32),
        ("count=22,1", 32),
        ("count=22,0", 32),
        ("count=21,2", 32),
        ("count=21,3", 13),
        ("count=49,0", 13),
        ("count=21", 14),
        ("count=21,02", 12),
        ("split=1,21", 32),
        ("crowd=21", 36),
        ("short=21", 33),
    ] {
        let nodes = format!("{}{line} {leaf} {leaf}", right(64));
        assert_eq!(answer(nodes), at_line(number, last), "{line}");
    }
    // At depth 63 such a count is 37, or may stand.
    let before = 2 + 63 * 3 + 1;
    for line in ["count=21,2", "count=21,0", "count=1,2"] {
        let nodes = format!("{}{line} {leaf} {leaf}", right(63));
        assert_eq!(answer(nodes), at_line(37, before), "{line}");
    }
    let nodes = format!("{}count=22,2 {leaf} {leaf}", right(63));
    assert_eq!(answer(nodes), held_tree(0, 64, 65));
    // Splits and counts make one depth together.
    let mixed: String = (0..64)
        .map(|depth| match depth % 2 {
            0 => format!("count={},1 {leaf} ", depth / 2 + 1),
            _ => format!("split=1,{} {leaf} ", depth / 2 + 1),
        })
        .collect();
    assert_eq!(answer(format!("{mixed}{leaf}")), held_tree(0, 64, 65));
    for line in ["count=40,1", "split=1,40"] {
        let nodes = format!("{mixed}{line} {leaf} {leaf}");
        assert_eq!(answer(nodes), at_line(32, last), "{line}");
    }
    // 31 still comes before 32 under counts.
    let nodes = format!("{mixed}split=1,1 {leaf} {leaf}");
    assert_eq!(answer(nodes), at_line(31, last));
    // On the first side the depth is counted alike.
    let left: String = (0..64)
        .map(|depth| format!("count={},{} ", depth / 3 + 1, 2 - depth % 3))
        .collect();
    let leaves = vec![leaf.as_str(); 66].join(" ");
    assert_eq!(
        answer(format!("{left}{}", &leaves[leaf.len() + 1..])),
        held_tree(0, 64, 65)
    );
    assert_eq!(
        answer(format!("{left}count=40,0 {leaves}")),
        at_line(32, 67)
    );
}

/// 31 is about statuses: a count never gets it, and 37 never meets a split.
#[test]
fn decision_87_statuses_do_not_refuse_counts_nor_counts_splits() {
    let three = |nodes: &str| at_capacities(&[80, 50, 30], 1, nodes);
    // All statuses of the period are fixed, and a count may still stand.
    let all = "split=1,1 split=2,1 split=3,1";
    assert_eq!(
        three(&format!("{all} count=1,1 count=1,0 count=1,0")),
        at_line(37, 8)
    );
    // The counts are closed, and every split may still stand.
    let closed = format!("count=1,0 {all} short=1 short=1 short=1");
    assert_eq!(three(&format!("{closed} split=1,1")), at_line(31, 10));
    assert_eq!(
        three(&format!("{closed} split=3,1 short=1 short=1 {LEAF}")),
        held_tree(0, 5, 6)
    );
}

/// Every K of four units, after every two counts before it on one path.
#[test]
fn decision_88_what_37_permits() {
    let capacities = [1, 1, 1, 1];
    for first in 0..4 {
        for first_tree in [true, false] {
            // The second tree comes after a leaf of two lines.
            let (skip, lines) = if first_tree {
                (String::new(), 0)
            } else {
                (format!("{LEAF} "), 2)
            };
            let (low, high) = if first_tree {
                (0, first)
            } else {
                (first + 1, 4)
            };
            for second in 0..4 {
                let head = format!("count=1,{first} {skip}count=1,{second}");
                let line = 4 + lines;
                let refused = second < low || second >= high;
                let answer = at_capacities(&capacities, 0, &head);
                let number = if refused {
                    at_line(37, line)
                } else {
                    at_line(12, line + 1)
                };
                assert_eq!(answer, number, "{head}");
                if refused {
                    continue;
                }
                for third in 0..4 {
                    // Under the first tree of the second count its upper count is `second` and the
                    // lower one stays; under its second tree it is the other way round.
                    for (skip, lines, low, high) in [
                        (String::new(), 0, low, second),
                        (format!("{LEAF} "), 2, second + 1, high),
                    ] {
                        let line = line + 1 + lines;
                        let nodes = format!("{head} {skip}count=1,{third}");
                        let refused = third < low || third >= high;
                        let number = if refused {
                            at_line(37, line)
                        } else {
                            at_line(12, line + 1)
                        };
                        assert_eq!(at_capacities(&capacities, 0, &nodes), number, "{nodes}");
                    }
                }
            }
        }
    }
}

#[test]
fn decision_88_equal_counts_leave_no_room() {
    let five = [1; 5];
    // Lower 3, upper 3, in both orders.
    let down = format!("count=1,2 {LEAF} count=1,3");
    let up = format!("count=1,3 count=1,2 {LEAF}");
    for most in 0..5 {
        let answer = at_capacities(&five, 0, &format!("{down} count=1,{most}"));
        assert_eq!(answer, at_line(37, 7), "{most}");
        let answer = at_capacities(&five, 0, &format!("{up} count=1,{most}"));
        assert_eq!(answer, at_line(37, 7), "{most}");
    }
    // At least all of them, or none.
    for most in 0..5 {
        let all = at_capacities(&five, 0, &format!("count=1,4 {LEAF} count=1,{most}"));
        assert_eq!(all, at_line(37, 6), "{most}");
        let none = at_capacities(&five, 0, &format!("count=1,0 count=1,{most}"));
        assert_eq!(none, at_line(37, 4), "{most}");
    }
}

#[test]
fn decision_88_periods_do_not_touch_each_other() {
    // Under the first tree of count=1,0 period 2 is free of counts, for 37, short and crowd.
    let leaf = "price=0,0 reserve=0,0";
    let below = format!("count=2,1 {leaf} count=2,0");
    assert_eq!(nodes(&format!("count=1,0 {below}")), at_line(37, 7));
    assert_eq!(
        nodes(&format!("count=1,0 count=2,0 count=1,0 {leaf}")),
        at_line(37, 5)
    );
    assert_eq!(nodes("count=1,0 short=2"), at_line(33, 4));
    assert_eq!(
        nodes(&format!("count=1,0 short=1 {leaf}")),
        held_tree(5, 1, 2)
    );
    assert_eq!(nodes("count=1,0 split=1,2 short=2 crowd=2"), at_line(36, 6));
    assert_eq!(nodes("count=1,0 split=1,1 short=1 crowd=2"), at_line(36, 6));
    // A status of another period does not count in a crowd.
    assert_eq!(nodes("count=1,0 split=1,2 short=1 crowd=1"), at_line(36, 6));
}

/// After the second tree of a count, and after its first, the counts are those above it again.
#[test]
fn decision_88_a_count_stands_only_below_its_line() {
    let three = |nodes: &str| at_capacities(&[80, 50, 30], 131, nodes);
    // Under the first tree at most 2: 130. Under the second no upper count: 160.
    assert_eq!(three("count=1,2 short=1 short=1"), at_line(33, 5));
    // The second tree of the split has no count.
    let counted = "count=1,2 short=1 split=2,1 short=1 price=0 reserve=0";
    assert_eq!(
        three(&format!("split=1,1 {counted} short=1")),
        at_line(33, 10)
    );
    assert_eq!(
        three(&format!("split=1,1 {counted} crowd=1")),
        at_line(36, 10)
    );
    assert_eq!(
        three(&format!("split=1,1 {counted} {counted}")),
        held_tree(0, 5, 6)
    );
    // Upper 1 under upper 2 is 2 again under the other tree, which has lower 2 as well.
    let nested = "count=1,2 count=1,1 short=1 split=1,1 short=1 short=1";
    assert_eq!(
        three(&format!("{nested} price=0 reserve=0")),
        held_tree(0, 3, 4)
    );
}

#[test]
fn decision_88_the_newer_count_replaces_the_older_and_the_other_stays() {
    // Needs 81, so that one unit is not enough, and 131 two.
    let short_at = |needed, nodes: &str| at_capacities(&[80, 50, 30], needed, nodes);
    // Upper 2, then upper 1.
    assert_eq!(
        short_at(81, "count=1,2 count=1,1 short=1 short=1"),
        at_line(33, 6)
    );
    assert_eq!(
        short_at(131, "count=1,2 count=1,1 short=1 short=1 short=1"),
        at_line(33, 7)
    );
    // Lower 1, then lower 2: one unit not fixed off is too few only for the newer.
    let crowded = "split=1,1 split=2,1 crowd=1";
    let older = format!("count=1,0 {LEAF} {crowded}");
    assert_eq!(short_at(0, &older), at_line(36, 8));
    let newer = format!("count=1,0 {LEAF} count=1,1 {LEAF} {crowded} {LEAF} {LEAF}");
    assert_eq!(short_at(0, &newer), held_tree(0, 4, 5));
    // Lower 2 stays under upper 2, and upper 2 under lower 2.
    let both = format!("count=1,1 {LEAF} count=1,2 {crowded} short=1 split=2,1 short=1 split=3,1");
    let both = format!("{both} short=1 crowd=1 {LEAF}");
    assert_eq!(short_at(131, &both), held_tree(0, 6, 7));
    let both = format!("count=1,2 count=1,1 {LEAF} {crowded} short=1 split=2,1 short=1 split=3,1");
    let both = format!("{both} short=1 crowd=1 {LEAF}");
    assert_eq!(short_at(131, &both), held_tree(0, 6, 7));
}

#[test]
fn decision_89_short_sums_the_largest() {
    // By count: 0, 80, 130, 160.
    for (most, sum) in [(0, 0), (1, 80), (2, 130)] {
        let nodes = format!("count=1,{most} short=1 {LEAF}");
        let at = |needed| at_capacities(&[30, 80, 50], needed, &nodes);
        assert_eq!(at(sum + 1), held_tree(0, 1, 2), "{most}");
        assert_eq!(at(sum), at_line(33, 4), "{most}");
    }
    // Without a count, and under a lower one, all of them.
    let lower = format!("count=1,1 {LEAF} short=1");
    assert_eq!(
        at_capacities(&[30, 80, 50], 161, &lower),
        held_tree(0, 1, 2)
    );
    assert_eq!(at_capacities(&[30, 80, 50], 160, &lower), at_line(33, 6));
    assert_eq!(
        at_capacities(&[30, 80, 50], 161, "short=1"),
        held_never(0, 1)
    );
    assert_eq!(at_capacities(&[30, 80, 50], 160, "short=1"), at_line(33, 3));
}

#[test]
fn decision_89_units_fixed_on_have_no_precedence() {
    let nodes = format!("count=1,2 split=3,1 {LEAF} short=1 {LEAF}");
    assert_eq!(
        at_capacities(&[80, 50, 30], 131, &nodes),
        held_tree(0, 2, 3)
    );
    for needed in [130, 111, 110] {
        let answer = at_capacities(&[80, 50, 30], needed, &nodes);
        assert_eq!(answer, at_line(33, 7), "{needed}");
    }
    // Units fixed off are left out: 80 off leaves 50 and 30, or 50 alone.
    for (most, sum) in [(2, 80), (1, 50), (0, 0)] {
        let nodes = format!("count=1,{most} split=1,1 short=1 {LEAF} {LEAF}");
        let at = |needed| at_capacities(&[80, 50, 30], needed, &nodes);
        assert_eq!(at(sum + 1), held_tree(0, 2, 3), "{most}");
        assert_eq!(at(sum), at_line(33, 5), "{most}");
    }
}

#[test]
fn decision_89_equal_capacities_and_more_than_there_are() {
    for (most, sum) in [(0, 0), (1, 40), (2, 80), (3, 110)] {
        let nodes = format!("count=1,{most} short=1 {LEAF}");
        let at = |needed| at_capacities(&[40, 30, 40, 30], needed, &nodes);
        assert_eq!(at(sum + 1), held_tree(0, 1, 2), "{most}");
        assert_eq!(at(sum), at_line(33, 4), "{most}");
    }
    // K at and above the number of units not fixed off, which are 40 and 30: all are summed.
    for most in [2, 3] {
        let nodes = format!("count=1,{most} split=1,1 split=2,1 short=1 {LEAF} {LEAF} {LEAF}");
        let at = |needed| at_capacities(&[40, 30, 40, 30], needed, &nodes);
        assert_eq!(at(71), held_tree(0, 3, 4), "{most}");
        assert_eq!(at(70), at_line(33, 6), "{most}");
    }
    // All fixed off: nothing is left.
    let off = format!("count=1,1 split=1,1 split=2,1 short=1 {LEAF} {LEAF} {LEAF}");
    assert_eq!(at_capacities(&[40, 30], 1, &off), held_tree(0, 3, 4));
    assert_eq!(at_capacities(&[40, 30], 0, &off), at_line(33, 6));
}

/// D and R are both needed, and K = 0 leaves nothing.
#[test]
fn decision_89_no_unit_at_all() {
    let nodes = tree(1, &format!("count=1,0 short=1 {LEAF}"));
    for (demand, spare, holds) in [(0, 0, false), (0, 1, true), (1, 0, true), (1, 1, true)] {
        let problem =
            of_capacities(&[5, 5], spare).replace("demand=0", &format!("demand={demand}"));
        let answer = if holds {
            held_tree(0, 1, 2)
        } else {
            at_line(33, 4)
        };
        assert_eq!(under(&problem, &nodes), answer, "{demand} {spare}");
    }
}

/// The most units and the largest capacities.
#[test]
fn decision_89_the_largest_sum() {
    let capacities = [10_000; 32];
    let nodes = format!("count=1,31 short=1 {LEAF}");
    assert_eq!(
        at_capacities(&capacities, 310_001, &nodes),
        held_tree(0, 1, 2)
    );
    assert_eq!(at_capacities(&capacities, 310_000, &nodes), at_line(33, 4));
}

/// Three units: so many fixed on and so many fixed off, under each upper and each lower count.
#[test]
fn decision_90_crowd_is_strict_both_ways() {
    for on in 0..=3 {
        for off in 0..=3 - on {
            for most in 0..3 {
                for upper in [true, false] {
                    let mut nodes = format!("count=1,{most} ");
                    let mut after = String::new();
                    if !upper {
                        nodes += &format!("{LEAF} ");
                    } else {
                        after = format!("{LEAF} ");
                    }
                    for unit in 1..=on {
                        nodes += &format!("split={unit},1 {LEAF} ");
                    }
                    for unit in on + 1..=on + off {
                        nodes += &format!("split={unit},1 ");
                        after = format!("{LEAF} {after}");
                    }
                    let line = 2 + nodes.split_whitespace().count() + 1;
                    let answer = at_capacities(&[1; 3], 0, &format!("{nodes}crowd=1 {after}"));
                    let holds = if upper { on > most } else { 3 - off < most + 1 };
                    let expected = match holds {
                        true => held_tree(0, 1 + on + off, 2 + on + off),
                        false => at_line(36, line),
                    };
                    assert_eq!(answer, expected, "{nodes}");
                }
            }
        }
    }
}

#[test]
fn decision_90_each_clause_needs_its_own_count() {
    let three = |nodes: &str| at_capacities(&[1; 3], 1, nodes);
    // All fixed on, and only a lower count; all fixed off, and only an upper one.
    let all_on = format!("split=1,1 {LEAF} split=2,1 {LEAF} split=3,1 {LEAF} crowd=1");
    assert_eq!(
        three(&format!("count=1,0 {LEAF} {all_on}")),
        at_line(36, 15)
    );
    assert_eq!(
        three(&format!("count=1,2 {LEAF} {all_on}")),
        at_line(36, 15)
    );
    let all_off = "split=1,1 split=2,1 split=3,1 crowd=1";
    assert_eq!(three(&format!("count=1,0 {all_off}")), at_line(36, 7));
    assert_eq!(three(&format!("count=1,2 {all_off}")), at_line(36, 7));
    // Without any count, whatever is fixed.
    assert_eq!(three(&all_on), at_line(36, 12));
    assert_eq!(three(all_off), at_line(36, 6));
    assert_eq!(three("crowd=1"), at_line(36, 3));
    // With both, either clause is enough: lower 1, upper 2.
    let both = format!("count=1,0 {LEAF} count=1,2");
    let tail = format!("{LEAF} {LEAF} {LEAF} {LEAF}");
    assert_eq!(
        three(&format!("{both} {all_off} {tail}")),
        held_tree(0, 5, 6)
    );
    assert_eq!(
        three(&format!("{both} {all_on} {LEAF}")),
        held_tree(0, 5, 6)
    );
}

/// A crowd is a leaf without a value, as `short` and `stuck` are.
#[test]
fn decision_90_a_tree_of_crowds_is_never() {
    // One unit: on under at most 0, off under at least 1; the other two are short and stuck.
    let problem = one_unit(1, "0,0,0,1,4,1,2,-1,1,1,0,0,0,0,0").replace("spare=0", "spare=1");
    let nodes = "count=1,0 split=1,1 short=1 crowd=1 split=1,1 crowd=1 stuck=1";
    assert_eq!(under(&problem, &tree(1, nodes)), held_never(3, 4));
}

#[test]
fn decision_91_price_leaves_take_no_notice_of_counts() {
    let leaf = "price=10,14 reserve=0,2";
    assert_eq!(nodes(leaf), held_tree(1940, 0, 1));
    for most in 0..2 {
        for period in 1..=2 {
            let nodes = nodes(&format!("count={period},{most} {leaf} {leaf}"));
            assert_eq!(nodes, held_tree(1940, 1, 2), "{period} {most}");
        }
    }
    // Unit 2 on in 2 under at most 0, where crowd and short hold, is worth what it is without.
    let on = "price=10,14 reserve=0,0";
    assert_eq!(
        nodes(&format!("split=2,2 short=2 {on}")),
        held_tree(1980, 1, 2)
    );
    let counted = format!("split=2,2 short=2 count=2,0 {on} {on}");
    assert_eq!(nodes(&counted), held_tree(1980, 2, 3));
    let excluded = "split=2,2 short=2 count=2,0 crowd=2";
    assert_eq!(nodes(&format!("{excluded} {on}")), held_tree(1980, 2, 3));
}

#[test]
fn decision_91_stuck_and_35_take_no_notice_of_counts() {
    // Unit 1 may not go off yet: under at most 0 on in period 1 it has no run, yet is not stuck.
    let bound_to = PROBLEM.replace("80,2,2,3", "80,4,2,3");
    let text = tree(1, "count=1,0 stuck=1");
    assert_eq!(under(&bound_to, &text), at_line(34, 4));
    let text = tree(1, "split=1,1 stuck=1 price=0,0 reserve=0,0");
    // On in period 1, 300, and off in 2, 5.
    assert_eq!(under(&bound_to, &text), held_tree(305, 1, 2));
    // Off in 1 and on in 2 it is, counts or none.
    let leaf = "price=0,0 reserve=0,0";
    let stuck = format!("split=1,1 split=1,2 {leaf} stuck=1 {leaf}");
    assert_eq!(
        nodes(&format!("count=2,0 {stuck} {leaf}")),
        held_tree(5, 3, 4)
    );
    assert_eq!(
        nodes(&format!("count=2,0 {leaf} {stuck}")),
        held_tree(5, 3, 4)
    );
    let priced = format!("split=1,1 split=1,2 {leaf} {leaf}");
    assert_eq!(nodes(&format!("count=2,0 {priced}")), at_line(35, 9));
}

#[test]
fn decision_10_count_lines_are_splits() {
    let leaf = "price=10,14 reserve=0,0";
    assert_eq!(
        nodes(&format!("count=2,1 short=2 {leaf}")),
        held_tree(1880, 1, 2)
    );
    assert_eq!(
        nodes(&format!("count=2,1 short=2 split=2,2 crowd=2 {leaf}")),
        held_tree(1980, 2, 3)
    );
}

#[test]
fn decision_105_the_lines_of_a_ramp_leaf() {
    let leaf = [
        "rampprice=10,14",
        "reserve=0,2",
        "up=3",
        "down=0",
        "up=1",
        "down=2",
    ];
    assert_eq!(nodes(&leaf.join(" ")), held_tree(1700, 0, 1));
    // T values, then T - 1 of them; each line by 12, 14, 13.
    for (at, values) in [2, 2, 1, 1, 1, 1].into_iter().enumerate() {
        let key = leaf[at].split_once('=').unwrap().0;
        for (value, right) in [("00", 12), ("1000000001", 13), ("1000000000", 0)] {
            for count in 1..4 {
                let mut lines = leaf.map(str::to_string);
                lines[at] = format!("{key}={}", vec![value; count].join(","));
                let expected = match (right, count == values) {
                    (12, _) => at_line(12, 3 + at),
                    (_, false) => at_line(14, 3 + at),
                    (0, true) => continue,
                    (number, true) => at_line(number, 3 + at),
                };
                assert_eq!(nodes(&lines.join(" ")), expected, "{lines:?}");
            }
        }
    }
    // Unit 1 comes first; a unit's up line comes before its down line.
    let other_unit = "rampprice=10,14 reserve=0,2 up=1 down=2 up=3 down=0";
    assert_ne!(nodes(other_unit), held_tree(1700, 0, 1));
    let exchanged = "rampprice=10,14 reserve=0,2 down=0 up=3 up=1 down=2";
    assert_eq!(nodes(exchanged), at_line(12, 5));
    let by_key = "rampprice=10,14 reserve=0,2 up=3 up=1 down=0 down=2";
    assert_eq!(nodes(by_key), at_line(12, 6));
}

#[test]
fn decision_105_one_period() {
    // On at 4: 4·4 + 2·4·4 - 20·4 - 2·4 = -40; D and R bring 20·3 + 2·(3 + 1).
    let problem = one_unit(1, "0,4,2,1,4,1,1,-1,1,1,0,0,0,0,0")
        .replace("demand=0", "demand=3")
        .replace("spare=0", "spare=1");
    let at = |nodes: &str| under(&problem, &tree(1, nodes));
    assert_eq!(at("rampprice=20 reserve=2"), held_tree(28, 0, 1));
    assert_eq!(at("price=20 reserve=2"), held_tree(28, 0, 1));
    for ramps in ["up=0", "down=0", "up=0 down=0", "up=", "down="] {
        let nodes = format!("rampprice=20 reserve=2 {ramps}");
        assert_eq!(at(&nodes), at_line(12, 5), "{ramps}");
        let nodes = format!("split=1,1 rampprice=20 reserve=2 {ramps} short=1");
        assert_eq!(at(&nodes), at_line(12, 6), "{ramps}");
    }
    let two = "split=1,1 rampprice=20 reserve=2 rampprice=20 reserve=2";
    // Off is worth 0 and on -40.
    assert_eq!(at(two), held_tree(28, 1, 2));
}

/// A problem of one unit that costs nothing and may be on or off at will, with DR 2 and UR 1.
fn ramp_unit(periods: usize, limits: &str) -> String {
    let spare = vec!["320000"; periods].join(",");
    let zeros = vec!["0"; periods].join(",");
    one_unit(periods, &format!("0,0,0,{limits},1,1,-1,2,1,0,0,0,0,0"))
        .replace(&format!("spare={zeros}"), &format!("spare={spare}"))
}

/// The value of a leaf with these ramp lines under these statuses. All other leaves of its tree have
/// a value far above it, for the spare.
fn with_statuses(problem: &str, statuses: &[bool], ramps: &str) -> second::Answer {
    let zeros = vec!["0"; statuses.len()].join(",");
    let most = vec!["1000000000"; statuses.len()].join(",");
    let mut nodes = format!("rampprice={zeros} reserve={zeros} {ramps}");
    for (period, &on) in statuses.iter().enumerate().rev() {
        let other = format!("price={zeros} reserve={most}");
        nodes = match on {
            true => format!("split=1,{} {other} {nodes}", period + 1),
            false => format!("split=1,{} {nodes} {other}", period + 1),
        };
    }
    under(problem, &tree(1, &nodes))
}

/// With outputs p in period 1 and r in 2, each 3 to 7.
#[test]
fn decision_106_what_each_status_adds() {
    let problem = ramp_unit(2, "3,7");
    for (statuses, ramps, value) in [
        // -7·up - 7·down.
        ([false, false], "up=5 down=2", -49),
        ([false, false], "up=0 down=2", -14),
        ([false, false], "up=5 down=0", -35),
        // up·(r - 7) + down·(-r).
        ([false, true], "up=5 down=2", -35 + 3 * 3),
        ([false, true], "up=2 down=5", -14 - 3 * 7),
        ([false, true], "up=1 down=0", 3 - 7),
        ([false, true], "up=0 down=1", -7),
        // up·(0 - p - 1) + down·(p - 2 - 7).
        ([true, false], "up=5 down=2", -23 - 3 * 7),
        ([true, false], "up=2 down=5", -47 + 3 * 3),
        ([true, false], "up=1 down=0", -7 - 1),
        ([true, false], "up=0 down=1", 3 - 2 - 7),
        // up·(r - p - 1) + down·(p - 2 - r).
        ([true, true], "up=5 down=2", -9 + 3 * 3 - 3 * 7),
        ([true, true], "up=2 down=5", -12 - 3 * 7 + 3 * 3),
        ([true, true], "up=1 down=0", 3 - 7 - 1),
        ([true, true], "up=0 down=1", 3 - 2 - 7),
        ([true, true], "up=1 down=1", -3),
    ] {
        let answer = with_statuses(&problem, &statuses, ramps);
        assert_eq!(answer, held_tree(value, 2, 3), "{statuses:?} {ramps}");
    }
}

/// One output, 7, so that only the statuses count. The first values belong to period 2.
#[test]
fn decision_106_which_period_a_value_belongs_to() {
    let problem = ramp_unit(3, "7,7");
    let ramps = "up=10,1 down=100,1000";
    for (statuses, value) in [
        ([false, false, false], -7 * (10 + 100) - 7 * (1 + 1000)),
        ([false, false, true], -7 * (10 + 100) - 7 * 1000),
        ([false, true, false], -7 * 100 - 8 - 2 * 1000),
        ([false, true, true], -7 * 100 - 1 - 2 * 1000),
        ([true, false, false], -8 * 10 - 2 * 100 - 7 * (1 + 1000)),
        ([true, false, true], -8 * 10 - 2 * 100 - 7 * 1000),
        ([true, true, false], -10 - 2 * 100 - 8 - 2 * 1000),
        ([true, true, true], -10 - 2 * 100 - 1 - 2 * 1000),
    ] {
        let answer = with_statuses(&problem, &statuses, ramps);
        assert_eq!(answer, held_tree(value, 3, 4), "{statuses:?}");
    }
}

/// The unit has to stay on, UR is 1, and period 2 pays 100: at 3 and 7 a price leaf is worth -690.
/// The rise from 3 to 7 is 3 too much and is no cheaper by the leaf than one from 6 to 7, which
/// keeps the ramp and costs 13.
#[test]
fn decision_107_rows_that_break_ramps_count_and_pay() {
    let problem = one_unit(2, "0,1,0,3,7,48,1,1,2,1,0,0,0,0,6");
    let at = |nodes: &str| under(&problem, &tree(1, nodes));
    assert_eq!(at("price=0,100 reserve=0,0"), held_tree(-690, 0, 1));
    let ramped = |up: i64| at(&format!("rampprice=0,100 reserve=0,0 up={up} down=0"));
    assert_eq!(ramped(0), held_tree(-690, 0, 1));
    assert_eq!(ramped(1), held_tree(-690 + 3, 0, 1));
    assert_eq!(ramped(1), held_tree(6 + 7 - 700, 0, 1));
    // Beyond it 7 and 7 is best, for which the difference is -1.
    assert_eq!(ramped(2), held_tree(7 + 7 - 700 - 2, 0, 1));
    assert_eq!(ramped(50), held_tree(7 + 7 - 700 - 50, 0, 1));
}

#[test]
fn decision_107_a_ramp_leaf_in_the_bound() {
    let ramp = "rampprice=10,14 reserve=0,2 up=3 down=0 up=1 down=2";
    let low = "price=0,0 reserve=0,0";
    let high = "price=10,14 reserve=0,2";
    for (leaves, bound) in [
        ([ramp, ramp], 1700),
        ([ramp, high], 1700),
        ([high, ramp], 1700),
        ([ramp, low], 5),
        ([low, ramp], 5),
    ] {
        // A count, so that the leaves are worth what they are alone.
        let answer = nodes(&format!("count=1,0 {} {}", leaves[0], leaves[1]));
        assert_eq!(answer, held_tree(bound, 1, 2), "{leaves:?}");
    }
    // With `short` beside it the bound is its value; only with neither kind it is `never`. Unit 2 on
    // in 2: off and on is -100, on and on -110.
    assert_eq!(
        nodes(&format!("split=2,2 short=2 {ramp}")),
        held_tree(2220 - 370 - 110, 1, 2)
    );
    assert_eq!(under(&impossible(), &tree(1, "short=1")), held_never(0, 1));
}

#[test]
fn decision_107_counts_and_p0_play_no_part() {
    let ramp = "rampprice=10,14 reserve=0,2 up=3 down=0 up=1 down=2";
    for most in 0..2 {
        for period in 1..=2 {
            let counted = format!("count={period},{most} {ramp} {ramp}");
            assert_eq!(nodes(&counted), held_tree(1700, 1, 2));
        }
    }
    for p0 in [20, 21, 79, 80] {
        let problem = PROBLEM.replace("90,1,5,60", &format!("90,1,5,{p0}"));
        assert_eq!(under(&problem, &tree(1, ramp)), held_tree(1700, 0, 1));
    }
}

#[test]
fn decision_108_35_is_the_last_test_of_the_last_line() {
    // Off in 1 and on in 2 unit 1 is stuck.
    let above = "split=1,1 split=1,2 short=1";
    let zeros = "rampprice=0,0 reserve=0,0 up=0 down=0 up=0 down=0";
    let mixed = "rampprice=10,14 reserve=0,2 up=3 down=0 up=1 down=2";
    let most = zeros.replace('0', "1000000000");
    for leaf in [zeros, mixed, &most] {
        assert_eq!(nodes(&format!("{above} {leaf}")), at_line(35, 11), "{leaf}");
    }
    for (last, number) in [("00", 12), ("", 12), ("0,0", 14), ("1000000001", 13)] {
        let leaf = format!("rampprice=0,0 reserve=0,0 up=0 down=0 up=0 down={last}");
        assert_eq!(nodes(&format!("{above} {leaf}")), at_line(number, 11));
    }
    for (at, line) in zeros.split(' ').enumerate() {
        let leaf = zeros.replacen(line, &format!("{line},0"), 1);
        let (unit_2, line) = (at >= 4, 6 + at);
        // The lines of the two units are alike; the first of two alike is the one changed.
        let line = if unit_2 { line - 2 } else { line };
        assert_eq!(nodes(&format!("{above} {leaf}")), at_line(14, line));
    }
    // One period: the reserve line is the last.
    let problem = one_unit(1, "0,0,0,1,4,1,2,-1,1,1,0,0,0,0,0");
    let leaf = "rampprice=7 reserve=7";
    let text = tree(1, &format!("split=1,1 {leaf} {leaf}"));
    assert_eq!(under(&problem, &text), at_line(35, 7));
    let text = tree(1, &format!("split=1,1 {leaf} stuck=1"));
    assert_eq!(under(&problem, &text), held_tree(0, 1, 2));
}
