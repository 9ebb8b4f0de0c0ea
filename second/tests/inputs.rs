//! That the generator brings what it is there for: p0 at its limits, ramps from it just kept and
//! just broken, and unit lines in which it is wrong; count lines as deep as they may stand and one
//! deeper, at the ends of what K may be and one beyond; ramp leaves of all sizes, and damage to each of
//! their lines.

mod common;

use std::collections::BTreeMap;

use common::*;
use second::inputs::kinds::kinds;
use second::inputs::random::Random;
use second::inputs::{damage, input, problems, ramps, schedules, trees};
use second::problem::Problem;
use second::{fresh, listing, lodge, Answer, Figures};

/// The values of the one unit line that differs, and its number.
fn changed_line(before: &str, after: &str) -> (usize, Vec<i64>) {
    let mut pairs = before.lines().zip(after.lines()).enumerate();
    let (at, (_, line)) = pairs.find(|(_, (one, other))| one != other).unwrap();
    let values = line["unit=".len()..].split(',');
    (at + 1, values.map(|value| value.parse().unwrap()).collect())
}

/// What is wrong with p0 in a line of these values, and the number that it gets.
fn fault(values: &[i64]) -> (&'static str, u32) {
    if values.len() != 15 {
        let fewer = values.len() == 14;
        return (if fewer { "fourteen" } else { "sixteen" }, 14);
    }
    let (least, most, initial, p0) = (values[3], values[4], values[7], values[14]);
    match p0 {
        10_001 => ("10,001", 13),
        0 => ("0 though on", 15),
        _ if initial < 0 => ("above 0 though off", 15),
        _ if p0 == least - 1 => ("one below pL", 15),
        _ if p0 == most + 1 => ("one above pU", 15),
        _ => panic!("nothing wrong with {values:?}"),
    }
}

#[test]
fn a_wrong_initial_output_is_each_of_seven_faults() {
    let mut random = Random::new(30);
    let mut seen: BTreeMap<&str, usize> = BTreeMap::new();
    for _ in 0..2_000 {
        let problem = problems::planted(&mut random, 2, 2).problem;
        let text = problems::text(&problem);
        let wrong = String::from_utf8(damage::wrong_initial_output(&mut random, &text)).unwrap();
        let (line, values) = changed_line(&text, &wrong);
        let (fault, number) = fault(&values);
        assert_eq!(alone(&wrong), at_line(number, line), "{wrong}");
        *seen.entry(fault).or_default() += 1;
    }
    assert_eq!(seen.len(), 7, "{seen:?}");
    assert!(seen.values().all(|&count| count > 50), "{seen:?}");
}

#[test]
fn planted_first_outputs_keep_the_ramp_from_the_initial_output() {
    let mut random = Random::new(31);
    let (mut at_limits, mut highest, mut lowest) = (0, 0, 0);
    for _ in 0..2_000 {
        let made = problems::planted(&mut random, 2, 3);
        let text = problems::text(&made.problem);
        for rows in &made.schedules {
            let mut docket = fresh();
            assert_eq!(lodge(&mut docket, text.as_bytes()), held_problem());
            lodge(&mut docket, schedules::text(1, rows).as_bytes());
            assert!(docket.held_cost().is_some(), "{text}{rows:?}");
            for (unit, row) in made.problem.units.iter().zip(rows) {
                let (p0, now) = (unit.initial_output, row[0]);
                if p0 == 0 || now == 0 {
                    continue;
                }
                at_limits += usize::from(p0 == unit.least_output || p0 == unit.most_output);
                // The ramp alone keeps the output from going further.
                highest += usize::from(now == p0 + unit.most_rise && now < unit.most_output);
                lowest += usize::from(now == p0 - unit.most_fall && now > unit.least_output);
            }
        }
    }
    assert!(
        at_limits > 500 && highest > 100 && lowest > 100,
        "{at_limits} {highest} {lowest}"
    );
}

#[test]
fn spoiled_schedules_miss_the_ramp_from_the_initial_output_by_one() {
    let mut random = Random::new(32);
    let (mut rises, mut falls) = (0, 0);
    for _ in 0..4_000 {
        let made = problems::planted(&mut random, 2, 3);
        let Some(rows) = made.schedules.first() else {
            continue;
        };
        let mut spoiled = rows.clone();
        schedules::spoil(&mut random, &made.problem, &mut spoiled);
        let problem = problems::text(&made.problem);
        let answer = under(&problem, &schedules::text(1, &spoiled));
        for (index, unit) in made.problem.units.iter().enumerate() {
            if answer == refused(25, 0, index + 1, 1) {
                let step = spoiled[index][0] - unit.initial_output;
                rises += usize::from(step == unit.most_rise + 1);
                falls += usize::from(-step == unit.most_fall + 1);
            }
        }
    }
    assert!(rises > 40 && falls > 20, "{rises} {falls}");
}

/// The keys of a chain's split lines, from the root on.
fn chain_keys(tree: &str) -> Vec<&str> {
    let keys = tree.lines().filter_map(|line| line.split('=').next());
    keys.filter(|&key| key == "split" || key == "count")
        .collect()
}

#[test]
fn chains_of_counts_alone_and_of_both_go_as_deep_as_they_may() {
    let mut random = Random::new(33);
    // For depths 62, 63 and 64: counts and splits met there.
    let mut met = [[0; 2]; 3];
    for round in 0..40 {
        let periods = random.between(7, 12) as usize;
        let problem = problems::planted(&mut random, periods, 10).problem;
        let count_percent = [100, 50][round % 2];
        for splits in [63, 64, 65] {
            let tree = trees::chain_text(&mut random, &problem, 1, splits, count_percent);
            let keys = chain_keys(&tree);
            assert_eq!(keys.len(), splits);
            let counts = keys.iter().filter(|&&key| key == "count").count();
            assert!(count_percent < 100 || counts == splits, "{tree}");
            for depth in 62..splits {
                met[depth - 62][usize::from(keys[depth] == "count")] += 1;
            }
            match under(&problems::text(&problem), &tree) {
                Answer::Held(Figures::Tree { splits: read, .. }) => assert_eq!(read, splits),
                Answer::Refused(refusal) => assert_eq!((refusal.number, splits), (32, 65)),
                answer => panic!("{answer:?}"),
            }
        }
    }
    assert!(met.iter().flatten().all(|&times| times > 5), "{met:?}");
}

/// Where the K of the last count line lies, among those that the problem has units for.
fn k_place(problem: &Problem, tree: &str) -> &'static str {
    let line = tree.lines().rfind(|line| line.starts_with("count="));
    let most: usize = line.unwrap().split(',').nth(1).unwrap().parse().unwrap();
    let units = problem.units.len();
    match most {
        0 => "0",
        _ if most + 1 == units => "I - 1",
        _ if most == units => "I",
        _ if most > units => "above I",
        _ => "between",
    }
}

#[test]
fn counts_have_a_k_at_the_ends_of_its_range_and_beyond() {
    let mut random = Random::new(34);
    let mut seen: BTreeMap<&str, usize> = BTreeMap::new();
    for _ in 0..3_000 {
        let problem = problems::planted(&mut random, 3, 4).problem;
        let tree = trees::text(&mut random, &problem, 1);
        if tree.contains("count=") {
            *seen.entry(k_place(&problem, &tree)).or_default() += 1;
        }
    }
    assert_eq!(seen.len(), 5, "{seen:?}");
    assert!(seen.values().all(|&count| count > 5), "{seen:?}");
}

#[test]
fn count_and_crowd_lines_are_damaged_as_others_are() {
    let mut random = Random::new(35);
    let problem = PROBLEM.to_string();
    let tree = tree(
        1,
        "count=2,1 short=2 split=2,2 crowd=2 price=10,14 reserve=0,0",
    );
    assert_eq!(under(&problem, &tree), held_tree(1980, 2, 3));
    let mut seen: BTreeMap<(u32, usize), usize> = BTreeMap::new();
    for _ in 0..3_000 {
        let damaged = damage::damaged(&mut random, &tree);
        let mut docket = holding(&problem);
        if let Answer::Refused(refusal) = lodge(&mut docket, &damaged) {
            *seen.entry((refusal.number, refusal.line)).or_default() += 1;
        }
    }
    // The count line is line 3 and the crowd line 6.
    for place in [
        (12, 3),
        (13, 3),
        (14, 3),
        (12, 6),
        (13, 6),
        (14, 6),
        (36, 6),
    ] {
        assert!(
            seen.get(&place).is_some_and(|&times| times > 5),
            "{place:?}"
        );
    }
}

/// Document 01's problem; the leaf's lines are 3 to 8.
const RAMP_LEAF: &str = "rampprice=10,14 reserve=0,2 up=3 down=0 up=1 down=2";

#[test]
fn each_line_of_a_ramp_leaf_is_damaged_in_each_way() {
    let mut random = Random::new(36);
    let tree = tree(1, RAMP_LEAF);
    let mut seen: BTreeMap<(u32, usize), usize> = BTreeMap::new();
    for round in 0..8_000 {
        let damaged = match round % 2 {
            0 => damage::damaged(&mut random, &tree),
            _ => ramps::damaged(&mut random, &tree, None),
        };
        let mut docket = holding(PROBLEM);
        if let Answer::Refused(refusal) = lodge(&mut docket, &damaged) {
            *seen.entry((refusal.number, refusal.line)).or_default() += 1;
        }
    }
    for line in 3..=8 {
        for number in [12, 13, 14] {
            let times = seen.get(&(number, line)).copied().unwrap_or(0);
            assert!(times > 20, "{number} at {line}: {times}");
        }
    }
}

/// Damage that names a leaf by its last line stays within that leaf, or shows just after it.
#[test]
fn damage_to_a_named_ramp_leaf_shows_there() {
    let mut random = Random::new(37);
    let nodes = format!("count=1,0 {RAMP_LEAF} {RAMP_LEAF}");
    let tree = tree(1, &nodes);
    for (last, lines) in [(9, 4..=10), (15, 10..=16)] {
        for _ in 0..500 {
            let damaged = ramps::damaged(&mut random, &tree, Some(last));
            let mut docket = holding(PROBLEM);
            if let Answer::Refused(refusal) = lodge(&mut docket, &damaged) {
                assert!(lines.contains(&refusal.line), "{refusal:?}");
            }
        }
    }
    let plain = "kind=tree\nwriter=1\nshort=1\nend=tree\n";
    assert_eq!(ramps::damaged(&mut random, plain, None), plain.as_bytes());
}

#[test]
fn ramp_leaves_come_with_one_and_48_periods_and_32_units() {
    let mut sizes: BTreeMap<(usize, usize), usize> = BTreeMap::new();
    let (mut small, mut all) = (0, 0);
    for index in (3..1_000).step_by(5) {
        let bytes = input(38, index);
        small += usize::from(bytes.len() <= 20_000);
        all += 1;
        let text = String::from_utf8_lossy(&bytes);
        let line = |key: &str| text.lines().find_map(|line| line.strip_prefix(key));
        let size = ["periods=", "units="].map(|key| line(key).unwrap().parse().unwrap());
        let leaves = text.matches("rampprice=").count();
        *sizes.entry((size[0], size[1])).or_default() += leaves;
    }
    let leaves = |periods: usize, units: usize| {
        let of_size = sizes.iter().filter(|(&size, _)| {
            (periods == 0 || size.0 == periods) && (units == 0 || size.1 == units)
        });
        of_size.map(|(_, leaves)| leaves).sum::<usize>()
    };
    assert!(leaves(1, 0) > 100 && leaves(48, 0) > 50, "{sizes:?}");
    assert!(leaves(0, 32) > 50 && leaves(48, 32) > 5, "{sizes:?}");
    assert!(small * 10 > all * 9, "only {small} of {all} are small");
}

/// That the answer to a tree with these nodes is of this kind, among others.
fn brings(problem: &str, nodes: &str, kind: &str) {
    let input = format!("{problem}{}", tree(1, nodes));
    let kinds = kinds(input.as_bytes(), &listing(input.as_bytes()));
    assert!(kinds.iter().any(|one| one == kind), "{kind}: {kinds:?}");
}

#[test]
fn kinds_of_accepted_ramp_leaves() {
    let beside = |prices: &str| format!("count=1,0 {RAMP_LEAF} {prices}");
    let all_0 = "rampprice=0,0 reserve=0,0 up=0 down=0 up=0 down=0";
    brings(PROBLEM, RAMP_LEAF, "tree with a ramp leaf");
    brings(PROBLEM, RAMP_LEAF, "ramp leaf below its price leaf");
    brings(PROBLEM, all_0, "ramp leaf with all ramps 0");
    let nodes = beside("price=10,14 reserve=0,2");
    brings(PROBLEM, &nodes, "bound of a ramp leaf beside a price leaf");
    brings(PROBLEM, &nodes, "ramp leaf under a count");
    let nodes = beside("price=0,0 reserve=0,0");
    brings(PROBLEM, &nodes, "bound of a price leaf beside a ramp leaf");
    let nodes = format!("split=2,2 short=2 {RAMP_LEAF}");
    brings(PROBLEM, &nodes, "ramp leaf under a split");
    let nodes = RAMP_LEAF.replace("up=3", "up=1000000000");
    brings(PROBLEM, &nodes, "ramp leaf with a largest multiplier");
    let problem = one_unit(2, "0,1,0,3,7,48,1,1,2,1,0,0,0,0,6");
    let nodes = "rampprice=0,100 reserve=0,0 up=1 down=0";
    brings(&problem, nodes, "ramp leaf above its price leaf");
}

#[test]
fn kinds_of_refused_ramp_leaves() {
    let reserve_line = "refused 13 at a ramp leaf's reserve line";
    for (part, with, kind) in [
        ("up=3", "up=00", "refused 12 at an up line"),
        ("down=2", "down=2,2", "refused 14 at a down line"),
        ("reserve=0", "reserve=1000000001", reserve_line),
        ("10,14", "10", "refused 14 at a rampprice line"),
        (
            "up=3 down=0",
            "down=0 up=3",
            "refused 12 with up and down exchanged",
        ),
        (" down=2", "", "refused 12 where a ramp leaf breaks off"),
    ] {
        brings(PROBLEM, &RAMP_LEAF.replace(part, with), kind);
    }
    let stuck = format!("split=1,1 split=1,2 short=1 {RAMP_LEAF}");
    brings(PROBLEM, &stuck, "refused 35 at a last down line");
    for (last, kind) in [
        ("down=00", "refused 12 before 35"),
        ("down=1000000001", "refused 13 before 35"),
        ("down=0,0", "refused 14 before 35"),
    ] {
        brings(PROBLEM, &stuck.replace("down=2", last), kind);
    }
    let priced = "split=1,1 split=1,2 short=1 price=0,0 reserve=0,0";
    brings(PROBLEM, priced, "refused 35");
}

#[test]
fn kinds_of_ramp_leaves_of_one_period() {
    let problem = one_unit(1, "0,0,0,1,4,1,2,-1,1,1,0,0,0,0,0");
    let leaf = "rampprice=0 reserve=0";
    brings(&problem, leaf, "ramp leaf of one period");
    let nodes = format!("{leaf} up=0");
    brings(&problem, &nodes, "refused 12 at a ramp of one period");
    let nodes = format!("split=1,1 {leaf} {leaf}");
    brings(&problem, &nodes, "refused 35 at a ramp leaf's reserve line");
}
