//! What the units are worth at a price leaf with a status forced: values worked out by hand, and questions that do not fit.
mod common;

use common::both::Both;
use common::leaves::{knowing, knowing_example, unfit_questions};
use common::{example, texts};
use docket::{CheapestRuns, Docket, Fixed, ForcedStatuses};
use std::thread;

use Fixed::{Free, Off, On};

/// For each period what a unit is worth off and on; none where it is stuck.
type Row = [(Option<i64>, Option<i64>)];

/// Fails where other values are found than these.
fn finds(answer: ForcedStatuses, units: &[&Row]) {
    let ForcedStatuses::Found(table) = answer else {
        panic!("{answer:?}");
    };
    let rows = table.units.iter();
    let rows = rows.map(|row| row.iter().map(|forced| (forced.off, forced.on)).collect());
    let rows: Vec<Vec<_>> = rows.collect();
    assert_eq!(rows, units);
}

/// Fails where a unit alone, at no reserve, is worth something else.
fn finds_alone(unit: &str, prices: &[u64], fixed: &[Fixed], row: &Row) {
    // demand and spare have no part in it
    for demand in [0, 3] {
        let docket = knowing(unit, prices.len(), demand);
        let reserves = vec![0; prices.len()];
        finds(docket.forced_statuses(prices, &reserves, fixed), &[row]);
    }
}

/// The values of both statuses, and of one where the unit is stuck with the other.
fn both(off: i64, on: i64) -> (Option<i64>, Option<i64>) {
    (Some(off), Some(on))
}

fn only_off(off: i64) -> (Option<i64>, Option<i64>) {
    (Some(off), None)
}

fn only_on(on: i64) -> (Option<i64>, Option<i64>) {
    (None, Some(on))
}

const STUCK: (Option<i64>, Option<i64>) = (None, None);

#[test]
fn the_example() {
    let docket = knowing_example();
    let ask = |fixed: [Fixed; 4]| docket.forced_statuses(&[10, 14], &[0, 0], &fixed);
    // unit 1 loses 100 in period 1, gains 220 in period 2 and stops for 5; off in period 1 it is off in both
    let first = [both(5, -120), both(5, -120)];
    // unit 2 starts for 60, and loses 80 and 40
    let second = [both(0, 140), both(0, 100)];
    finds(ask([Free; 4]), &[&first, &second]);
    let answer = ask([Free, Free, Free, On]);
    finds(answer, &[&first, &[both(100, 180), only_on(100)]]);
    let answer = ask([Free, Off, Free, Free]);
    finds(answer, &[&[both(5, 105), only_off(5)], &second]);
    let answer = ask([Off, Free, Free, Free]);
    finds(answer, &[&[only_off(5), only_off(5)], &second]);
    // what is fixed already is forced once more
    let answer = ask([On, On, Off, Off]);
    let fixed = [only_on(-120), only_on(-120)];
    finds(answer, &[&fixed, &[only_off(0), only_off(0)]]);
}

#[test]
fn a_stuck_unit_is_told_beside_the_others() {
    let docket = knowing_example();
    // its TD is 2: off in period 1 it cannot be on in period 2
    let answer = docket.forced_statuses(&[10, 14], &[0, 0], &[Off, On, Free, Free]);
    finds(answer, &[&[STUCK; 2], &[both(0, 140), both(0, 100)]]);
    let unit = "unit=100,10,0,20,80,2,2,3,30,30,50,90,1,5,60\n".repeat(2);
    let text = format!(
        "kind=problem\nperiods=2\nunits=2\ndemand=60,100\nspare=10,10\n{unit}end=problem\n"
    );
    let mut docket = Docket::new();
    docket.lodge(text.as_bytes());
    let ask = |fixed: [Fixed; 4]| docket.forced_statuses(&[10, 14], &[0, 0], &fixed);
    let free = [both(5, -120), both(5, -120)];
    finds(ask([Free, Free, Off, On]), &[&free, &[STUCK; 2]]);
    finds(ask([Off, On, Off, On]), &[&[STUCK; 2], &[STUCK; 2]]);
}

#[test]
fn a_reserve_pays_for_the_greatest_output_at_any_output() {
    let docket = knowing_example();
    // in period 1: 100 - 240 for unit 1, and 80 - 150 for unit 2
    let answer = docket.forced_statuses(&[10, 14], &[3, 0], &[Free; 4]);
    let first = [both(5, -360), both(-135, -360)];
    finds(answer, &[&first, &[both(0, -10), both(-10, 30)]]);
}

#[test]
fn starts_and_stops_count() {
    // 8 gained in period 2 alone: starts and stops are free, or a start costs 3
    let unit = "0,5,0,2,4,1,1,1,10,10,0,0,0,0,2";
    let row = [both(-8, -8), both(0, -8), both(-8, -8)];
    finds_alone(unit, &[5, 7, 5], &[Free; 3], &row);
    let unit = "0,5,0,2,4,1,1,1,10,10,3,3,0,0,2";
    let row = [both(-5, -8), both(0, -8), both(-8, -8)];
    finds_alone(unit, &[5, 7, 5], &[Free; 3], &row);
    // nothing gained, and 1 for a stop
    let unit = "0,5,0,2,4,1,1,1,10,10,0,0,0,1,2";
    finds_alone(unit, &[5, 5, 5], &[Free; 3], &[both(1, 0); 3]);
    // 8 gained in period 3; a hot start for 1 after one period off, a cold one for 10 after two
    let unit = "0,5,0,2,4,1,1,1,10,10,1,10,0,0,2";
    let row = [both(-7, -8), both(-7, -8), both(0, -8)];
    finds_alone(unit, &[5, 5, 7], &[Free; 3], &row);
    let row = [only_off(0), only_off(0), both(0, 2)];
    finds_alone(unit, &[5, 5, 7], &[Off, Off, Free], &row);
}

#[test]
fn up_and_down_times_are_kept() {
    // 5 gained in period 1 or in period 3, 9 lost in period 2; one period off is too short a time
    let unit = "10,0,0,1,1,1,2,1,10,10,0,0,0,0,1";
    let ask = |fixed: [Fixed; 3], row: &Row| finds_alone(unit, &[15, 1, 15], &fixed, row);
    ask([Free; 3], &[both(-5, -5), both(-5, -1), both(-5, -5)]);
    ask([On, Free, Free], &[only_on(-5), both(-5, -1), both(-5, -1)]);
    // nothing is fixed in period 3, and yet it can only be off
    ask([On, Off, Free], &[only_on(-5), only_off(-5), only_off(-5)]);
    ask([On, Off, On], &[STUCK; 3]);
}

#[test]
fn the_cheapest_output_counts() {
    // 2 * 3 + 9 - 27
    let unit = "0,2,1,2,6,1,1,-1,10,10,0,0,0,0,0";
    finds_alone(unit, &[9], &[Free], &[both(0, -12)]);
    finds_alone(unit, &[9], &[On], &[only_on(-12)]);
}

#[test]
fn questions_that_do_not_fit() {
    let docket = knowing_example();
    for (prices, reserves, fixed) in unfit_questions() {
        let answer = docket.forced_statuses(&prices, &reserves, &fixed);
        let lengths = (prices.len(), reserves.len(), fixed.len());
        assert_eq!(answer, ForcedStatuses::Unfit, "{lengths:?}");
    }
    let answer = docket.forced_statuses(&[10, 14], &[0, 0], &[Off; 4]);
    finds(answer, &[&[only_off(5); 2], &[only_off(0); 2]]);
}

#[test]
fn no_problem_comes_first() {
    let mut docket = Docket::new();
    for text in [&b""[..], b"kind=problem\n", b"kind=tree\n"] {
        docket.lodge(text);
        for (prices, reserves, fixed) in unfit_questions() {
            let answer = docket.forced_statuses(&prices, &reserves, &fixed);
            assert_eq!(answer, ForcedStatuses::NoProblem);
        }
        let answer = docket.forced_statuses(&[10, 14], &[0, 0], &[Free; 4]);
        assert_eq!(answer, ForcedStatuses::NoProblem);
    }
}

#[test]
fn the_largest_problem_at_the_largest_multipliers() {
    // 32 units of which each output costs nothing, in 48 periods
    let units = "unit=0,0,0,1,10000,1,1,-1,1,1,0,0,0,0,0\n".repeat(32);
    let row = ["320000"; 48].join(",");
    let text = format!(
        "kind=problem\nperiods=48\nunits=32\ndemand={row}\nspare={row}\n{units}end=problem\n"
    );
    let mut docket = Docket::new();
    assert_eq!(docket.lodge(text.as_bytes()).line(), "answer=held");
    let most = [1_000_000_000; 48];
    let mut fixed = vec![Free; 1_536];
    let each = -20_000_000_000_000;
    let full = [both(47 * each, 48 * each); 48];
    let answer = docket.forced_statuses(&most, &most, &fixed);
    finds(answer, &[&full[..]; 32]);
    // the last unit off in the last period
    fixed[1_535] = Off;
    let mut last = [both(46 * each, 47 * each); 48];
    last[47] = only_off(47 * each);
    let mut rows = [&full[..]; 32];
    rows[31] = &last;
    finds(docket.forced_statuses(&most, &most, &fixed), &rows);
}

#[test]
fn a_question_changes_nothing_and_what_is_held_changes_no_answer() {
    let example = example();
    Both::asked_between(&texts(&example), |docket: &Docket| {
        let answer = docket.forced_statuses(&[12, 18], &[0, 0], &[Free; 4]);
        let first = [both(5, -600), both(-55, -600)];
        let second = [both(-100, -40), both(0, -100)];
        finds(answer, &[&first, &second]);
        let answer = docket.forced_statuses(&[12, 18], &[0, 0], &[Off, On, Free, Free]);
        finds(answer, &[&[STUCK; 2], &second]);
        let answer = docket.forced_statuses(&[12, 18], &[0], &[Free; 4]);
        assert_eq!(answer, ForcedStatuses::Unfit);
    });
}

/// What a status costs is what the leaf's value rises by where a split fixes it.
#[test]
fn the_value_of_a_leaf_rises_by_what_a_status_costs() {
    let mut docket = knowing_example();
    let value = |fixed: [Fixed; 4]| match docket.cheapest_runs(&[10, 14], &[0, 0], &fixed) {
        CheapestRuns::Found(draft) => draft.value,
        other => panic!("{other:?}"),
    };
    // unit 2 on in period 2 is worth 100, and off nothing
    assert_eq!(value([Free; 4]), 1_880);
    assert_eq!(value([Free, Free, Free, Off]), 1_880);
    assert_eq!(value([Free, Free, Free, On]), 1_880 + 100);
    let answer = docket.forced_statuses(&[10, 14], &[0, 0], &[Free; 4]);
    let first = [both(5, -120), both(5, -120)];
    finds(answer, &[&first, &[both(0, 140), both(0, 100)]]);
    let tree = b"kind=tree\nwriter=3\nsplit=2,2\nshort=2\nprice=10,14\nreserve=0,0\nend=tree\n";
    assert_eq!(docket.lodge(tree).line(), "answer=held,1980,1,2");
}

#[test]
fn threads_ask_one_docket_at_once() {
    let docket = knowing_example();
    thread::scope(|scope| {
        for first in 0..8 {
            let docket = &docket;
            scope.spawn(move || {
                let free = [both(0, 140), both(0, 100)];
                for k in first..first + 300 {
                    let ask =
                        |fixed: [Fixed; 4]| docket.forced_statuses(&[10, 14], &[0, 0], &fixed);
                    match k % 3 {
                        0 => finds(ask([Free; 4]), &[&[both(5, -120); 2], &free]),
                        1 => finds(ask([Off; 4]), &[&[only_off(5); 2], &[only_off(0); 2]]),
                        _ => finds(ask([Off, On, Free, Free]), &[&[STUCK; 2], &free]),
                    }
                }
            });
        }
    });
}
