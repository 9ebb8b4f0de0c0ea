//! What the docket holds after lists of texts, and that refused and passed texts leave it alone.

mod common;

use common::*;
use second::inputs::problems::{planted, text, with_initial_output};
use second::inputs::random::Random;
use second::inputs::{input, schedules, trees};
use second::{fresh, lodge, report, Answer, Bound, Docket, Figures};

fn reported(docket: &Docket) -> String {
    let mut buffer = [0; 256];
    let length = report(docket, &mut buffer, 0).unwrap();
    String::from_utf8(buffer[..length].to_vec()).unwrap()
}

#[test]
fn a_fresh_docket_holds_nothing() {
    let docket = fresh();
    assert!(docket.problem().is_none());
    assert!(docket.held_cost().is_none());
    assert!(docket.held_bound().is_none());
}

#[test]
fn a_problem_is_held_as_its_text_gives_it() {
    let docket = holding(PROBLEM);
    let problem = docket.problem().unwrap();
    assert_eq!(second::inputs::problems::text(problem), PROBLEM);
    assert_eq!(problem.demand, [60, 100]);
    assert_eq!(problem.spare, [10, 10]);
    let unit = &problem.units[1];
    assert_eq!(
        (unit.fixed_cost, unit.linear_cost, unit.square_cost),
        (40, 14, 0)
    );
    assert_eq!((unit.least_output, unit.most_output), (10, 50));
    assert_eq!((unit.least_up, unit.least_down, unit.initial), (1, 1, -2));
    assert_eq!((unit.most_fall, unit.most_rise), (50, 50));
    assert_eq!(
        (unit.hot_start, unit.cold_start, unit.hot_periods, unit.stop),
        (20, 60, 0, 0)
    );
    assert_eq!(unit.initial_output, 0);
    let first = &problem.units[0];
    assert_eq!((first.least_up, first.least_down, first.initial), (2, 2, 3));
    assert_eq!(
        (
            first.hot_start,
            first.cold_start,
            first.hot_periods,
            first.stop
        ),
        (50, 90, 1, 5)
    );
    assert_eq!(first.initial_output, 60);
}

/// DR stands before UR in a unit line.
#[test]
fn falls_are_limited_by_the_ninth_value_and_rises_by_the_tenth() {
    let problem = one_unit(2, "0,0,0,1,100,1,1,-1,5,50,0,0,0,0,0");
    assert_eq!(under(&problem, &schedule(1, &["1,51"])), held_schedule(0));
    assert_eq!(
        under(&problem, &schedule(1, &["1,52"])),
        refused(25, 0, 1, 2)
    );
    assert_eq!(under(&problem, &schedule(1, &["51,46"])), held_schedule(0));
    assert_eq!(
        under(&problem, &schedule(1, &["51,45"])),
        refused(25, 0, 1, 2)
    );
}

#[test]
fn the_cheapest_schedule_and_the_first_of_its_cost_are_held() {
    let mut docket = holding(PROBLEM);
    for (writer, first, second, answer) in [
        (4, "50,80", "10,20", held_schedule(2060)),
        (5, "50,80", "10,20", passed_schedule(2060)),
        (6, "60,80", "0,20", held_schedule(1980)),
        (7, "60,80", "0,20", passed_schedule(1980)),
        (8, "50,80", "10,20", passed_schedule(2060)),
    ] {
        let text = schedule(writer, &[first, second]);
        assert_eq!(lodge(&mut docket, text.as_bytes()), answer);
    }
    let held = docket.held_cost().unwrap();
    assert_eq!((held.cost, held.writer), (1980, 6));
    assert_eq!(held.rows, [[60, 80], [0, 20]]);
}

/// Two like units: their rows exchanged cost the same, and the first rows stay.
#[test]
fn other_rows_of_the_same_cost_are_passed() {
    let problem = one_unit(1, "0,1,0,1,5,1,1,-1,1,1,0,0,0,0,0")
        .replace("units=1", "units=2")
        .replace("end=", "unit=0,1,0,1,5,1,1,-1,1,1,0,0,0,0,0\nend=");
    let mut docket = holding(&problem);
    lodge(&mut docket, schedule(1, &["2", "3"]).as_bytes());
    let before = docket.clone();
    assert_eq!(
        lodge(&mut docket, schedule(2, &["3", "2"]).as_bytes()),
        passed_schedule(5)
    );
    assert_eq!(docket, before);
}

#[test]
fn the_highest_bound_and_its_first_writer_are_held() {
    let mut docket = holding(PROBLEM);
    for (writer, nodes, answer) in [
        (4, "price=0,0 reserve=0,0", held_tree(5, 0, 1)),
        (5, "price=10,14 reserve=0,2", held_tree(1940, 0, 1)),
        (6, "price=10,14 reserve=0,2", passed_tree(1940, 0, 1)),
        (
            7,
            "split=2,2 short=2 price=10,14 reserve=0,0",
            held_tree(1980, 1, 2),
        ),
        (8, "price=0,0 reserve=0,0", passed_tree(5, 0, 1)),
    ] {
        assert_eq!(lodge(&mut docket, tree(writer, nodes).as_bytes()), answer);
    }
    let held = docket.held_bound().unwrap();
    assert_eq!((held.bound, held.writer), (Bound::Number(1980), 7));
}

/// The tree's value is that of its smallest price leaf, wherever it stands.
#[test]
fn the_smallest_price_leaf_gives_the_bound() {
    let low = "price=0,0 reserve=0,0";
    let high = "price=10,14 reserve=0,0";
    let (Answer::Held(one), Answer::Held(other)) = (
        nodes(&format!("split=2,2 {low} {high}")),
        nodes(&format!("split=2,2 {high} {low}")),
    ) else {
        panic!("refused");
    };
    // Low leaf off in 2: 5; on in 2 (start after 3 off, cold): 60 + 40 + 140 + 5.
    let bound = |figures| match figures {
        Figures::Tree { bound, .. } => bound,
        _ => panic!("no tree"),
    };
    assert_eq!(bound(one), Bound::Number(5));
    assert_eq!(bound(other), Bound::Number(245));
}

#[test]
fn the_report_shows_what_is_held() {
    let mut docket = holding(PROBLEM);
    lodge(&mut docket, schedule(9, &["50,80", "10,20"]).as_bytes());
    assert_eq!(
        reported(&docket),
        "kind=report\ncost=2060\ncostwriter=9\nbound=none\nboundwriter=none\ngap=none\nend=report\n"
    );
    lodge(
        &mut docket,
        tree(65_535, "price=0,0 reserve=1,0").as_bytes(),
    );
    // Unit 1 is cheapest off at once, 5, unit 2 off, 0, since on it would be 60 + 180 - 50; the
    // period gives 70.
    assert_eq!(
        reported(&docket),
        "kind=report\ncost=2060\ncostwriter=9\nbound=75\nboundwriter=65535\ngap=1985\nend=report\n"
    );
    let before = docket.clone();
    reported(&docket);
    assert_eq!(docket, before);
}

#[test]
fn a_negative_bound_makes_the_gap_larger_than_the_cost() {
    let mut docket = holding(&one_unit(1, "0,0,0,30,30,1,1,-1,1,1,4,4,0,0,0"));
    lodge(&mut docket, tree(3, "price=0 reserve=1").as_bytes());
    lodge(&mut docket, schedule(4, &["30"]).as_bytes());
    assert_eq!(
        reported(&docket),
        "kind=report\ncost=4\ncostwriter=4\nbound=-26\nboundwriter=3\ngap=30\nend=report\n"
    );
}

/// s·R belongs to a leaf's value, s·pU only to a unit that is on.
#[test]
fn reserve_multipliers_pay_for_demand_and_spare() {
    let problem = one_unit(1, "0,0,0,1,7,1,1,-1,1,1,1000,1000,0,0,0")
        .replace("demand=0", "demand=3")
        .replace("spare=0", "spare=4");
    assert_eq!(
        under(&problem, &tree(1, "price=0 reserve=10")),
        held_tree(70, 0, 1)
    );
    assert_eq!(
        under(&problem, &tree(1, "price=5 reserve=10")),
        held_tree(85, 0, 1)
    );
    let on = "split=1,1 price=0 reserve=0 price=5 reserve=10";
    // Off: 0. On: 1000 - 35 - 70 + 85 = 980.
    assert_eq!(under(&problem, &tree(1, on)), held_tree(0, 1, 2));
    let on = "split=1,1 short=1 price=5 reserve=10";
    assert_eq!(under(&problem, &tree(1, on)), held_tree(980, 1, 2));
}

/// The largest figures everywhere: every sum still fits.
#[test]
fn the_largest_figures_fit() {
    let money = 1_000_000_000;
    let unit =
        format!("{money},10000000,10000,10000,10000,1,1,-1000,1,1,{money},{money},48,{money},0");
    let most = vec!["320000"; 48].join(",");
    let mut problem = format!("kind=problem\nperiods=48\nunits=32\ndemand={most}\nspare={most}\n");
    for _ in 0..32 {
        problem += &format!("unit={unit}\n");
    }
    problem += "end=problem\n";
    let multipliers = vec!["1000000000"; 48].join(",");
    let leaf = tree(1, &format!("price={multipliers} reserve={multipliers}"));
    let on = 1_000_000_000 + 100_000_000_000 + 1_000_000_000_000 - 2 * 10_000_000_000_000_i64;
    let units = 32 * (1_000_000_000 + 48 * on);
    let periods = 48 * (320_000 + 640_000) * 1_000_000_000_i64;
    assert_eq!(under(&problem, &leaf), held_tree(units + periods, 0, 1));
    let plain = problem.replace(
        &format!("spare={most}"),
        &format!("spare={}", vec!["0"; 48].join(",")),
    );
    let row = vec!["10000"; 48].join(",");
    let rows = vec![row.as_str(); 32];
    let running = 1_000_000_000 + 100_000_000_000 + 1_000_000_000_000_i64;
    assert_eq!(
        under(&plain, &schedule(1, &rows)),
        held_schedule(32 * (1_000_000_000 + 48 * running))
    );
}

/// Over many lists: refused and passed texts change nothing, held ones just what they should, and
/// no held bound lies above a held cost.
#[test]
fn lists_of_texts_keep_the_docket_in_order() {
    for index in 0..600 {
        let bytes = input(77, index);
        let mut docket = fresh();
        for piece in cut(&bytes) {
            let before = docket.clone();
            let answer = lodge(&mut docket, piece);
            match answer {
                Answer::Refused(_) | Answer::Passed(_) => assert_eq!(docket, before),
                Answer::Held(Figures::Problem) => {
                    assert!(before.problem().is_none() && docket.problem().is_some());
                }
                Answer::Held(Figures::Schedule { cost }) => {
                    assert!(before.held_cost().is_none_or(|held| held.cost > cost));
                    assert_eq!(docket.held_cost().unwrap().cost, cost);
                    assert_eq!(docket.held_bound(), before.held_bound());
                }
                Answer::Held(Figures::Tree { bound, .. }) => {
                    assert!(before.held_bound().is_none_or(|held| held.bound < bound));
                    assert_eq!(docket.held_bound().unwrap().bound, bound);
                    assert_eq!(docket.held_cost(), before.held_cost());
                }
            }
        }
        if let (Some(cost), Some(bound)) = (docket.held_cost(), docket.held_bound()) {
            assert!(bound.bound <= Bound::Number(cost.cost), "input {index}");
        }
    }
}

/// Trees and the rows that are accepted get the same figures whatever p0 is.
#[test]
fn no_figure_depends_on_the_initial_outputs() {
    let mut random = Random::new(78);
    let (mut accepted, mut refused) = (0, 0);
    for _ in 0..300 {
        let mut made = planted(&mut random, 4, 3);
        let first = holding(&text(&made.problem));
        let before = made.problem.clone();
        for unit in &mut made.problem.units {
            *unit = with_initial_output(&mut random, unit.clone());
        }
        let other = holding(&text(&made.problem));
        if made.problem == before {
            continue;
        }
        for _ in 0..10 {
            let tree = trees::text(&mut random, &before, 1);
            let answer = lodge(&mut first.clone(), tree.as_bytes());
            assert_eq!(lodge(&mut other.clone(), tree.as_bytes()), answer, "{tree}");
            match answer {
                Answer::Refused(_) => refused += 1,
                _ => accepted += 1,
            }
        }
        for rows in &made.schedules {
            let schedule = schedules::text(1, rows);
            let answer = lodge(&mut first.clone(), schedule.as_bytes());
            match lodge(&mut other.clone(), schedule.as_bytes()) {
                Answer::Refused(refusal) => {
                    assert_eq!((refusal.number, refusal.period), (25, 1));
                }
                again => assert_eq!(again, answer),
            }
        }
    }
    assert!(accepted > 1_000 && refused > 30, "{accepted} {refused}");
}

/// Texts cut at random places, ends of lines or not.
fn cut(bytes: &[u8]) -> Vec<&[u8]> {
    let mut random = Random::new(bytes.len() as u64);
    let mut pieces = Vec::new();
    let mut start = 0;
    let mut line_start = 0;
    for at in 0..bytes.len() {
        if bytes[at] != b'\n' {
            continue;
        }
        if bytes[line_start..].starts_with(b"end=") || random.chance(2) {
            pieces.push(&bytes[start..=at]);
            start = at + 1;
        }
        line_start = at + 1;
    }
    pieces.push(&bytes[start..]);
    pieces
}
