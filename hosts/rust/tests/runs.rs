//! The cheapest runs at a price leaf: values worked out by hand, and questions that do not fit.
mod common;

use common::both::Both;
use common::leaves::{knowing, knowing_example, unfit_questions};
use common::{example, texts};
use docket::{CheapestRuns, Docket, Fixed};
use std::thread;

use Fixed::{Free, Off, On};

/// Fails where other runs are found than these, with this value and these shortfalls.
fn finds(answer: CheapestRuns, value: i64, runs: &[&[u64]], shortfalls: &[u64]) {
    let CheapestRuns::Found(draft) = answer else {
        panic!("{answer:?}");
    };
    assert_eq!(draft.value, value);
    assert_eq!(draft.runs, runs);
    assert_eq!(draft.shortfalls, shortfalls);
}

/// Fails where a unit alone, with nothing fixed and no demand, has another run than this, or is worth something else.
fn runs_alone(unit: &str, prices: &[u64], worth: i64, run: &[u64]) {
    let docket = knowing(unit, prices.len(), 0);
    let (reserves, free) = (vec![0; prices.len()], vec![Free; prices.len()]);
    let answer = docket.cheapest_runs(prices, &reserves, &free);
    finds(answer, worth, &[run], &reserves);
}

#[test]
fn the_example() {
    let docket = knowing_example();
    let ask = |prices: [u64; 2], fixed: [Fixed; 4]| docket.cheapest_runs(&prices, &[0, 0], &fixed);
    // unit 1 loses 100 in period 1 at any output, and gains 220 in period 2; unit 2 gains in none
    let answer = ask([10, 14], [Free; 4]);
    finds(answer, 1_880, &[&[20, 80], &[0, 0]], &[40, 20]);
    // it goes on for 60, and loses 40 at any output
    let answer = ask([10, 14], [Free, Free, Free, On]);
    finds(answer, 1_980, &[&[20, 80], &[0, 10]], &[40, 10]);
    let answer = ask([12, 18], [Free; 4]);
    finds(answer, 1_820, &[&[80, 80], &[0, 50]], &[0, 0]);
    // unit 1 stops for 5
    let answer = ask([10, 14], [Off; 4]);
    finds(answer, 2_005, &[&[0, 0], &[0, 0]], &[60, 100]);
}

#[test]
fn a_reserve_pays_for_the_greatest_output_at_any_output() {
    let docket = knowing_example();
    // in period 1: 300 - 200 - 240 for unit 1, and 60 + 180 - 100 - 150 for unit 2
    let answer = docket.cheapest_runs(&[10, 14], &[3, 0], &[Free; 4]);
    let value = -140 - 220 - 10 + 600 + 1_400 + 3 * 70;
    finds(answer, value, &[&[20, 80], &[10, 0]], &[30, 20]);
}

#[test]
fn off_where_on_is_worth_as_much() {
    runs_alone(
        "0,5,0,2,4,1,1,1,10,10,0,0,0,0,2",
        &[5, 7, 5],
        -8,
        &[0, 4, 0],
    );
    // a start for 3, or a stop for 1, is saved
    runs_alone(
        "0,5,0,2,4,1,1,1,10,10,3,3,0,0,2",
        &[5, 7, 5],
        -8,
        &[2, 4, 0],
    );
    runs_alone("0,5,0,2,4,1,1,1,10,10,0,0,0,1,2", &[5, 5, 5], 0, &[2, 2, 2]);
}

#[test]
fn demand_and_spare_are_in_the_value() {
    let docket = knowing("0,5,0,2,4,1,1,1,10,10,0,0,0,0,2", 3, 3);
    let answer = docket.cheapest_runs(&[5, 7, 5], &[0; 3], &[Free; 3]);
    finds(answer, 3 * 17 - 8, &[&[0, 4, 0]], &[3, 0, 3]);
    let answer = docket.cheapest_runs(&[5, 7, 5], &[0, 0, 2], &[Free, Free, Off]);
    finds(answer, 3 * 17 + 2 * 4 - 8, &[&[0, 4, 0]], &[3, 0, 3]);
}

#[test]
fn the_smaller_of_two_cheapest_outputs() {
    // 2 * 3 + 9 - 27 = 2 * 4 + 16 - 36
    let docket = knowing("0,2,1,2,6,1,1,-1,10,10,0,0,0,0,0", 1, 0);
    let answer = docket.cheapest_runs(&[9], &[0], &[On]);
    finds(answer, -12, &[&[3]], &[0]);
}

#[test]
fn off_in_the_first_period_that_differs() {
    // on in period 1 alone or in period 3 alone gains 5; for both it is off for too short a time
    let unit = "10,0,0,1,1,1,2,1,10,10,0,0,0,0,1";
    runs_alone(unit, &[15, 1, 15], -5, &[0, 0, 1]);
    let docket = knowing(unit, 3, 0);
    let answer = docket.cheapest_runs(&[15, 1, 15], &[0; 3], &[On, Free, Free]);
    finds(answer, -5, &[&[1, 0, 0]], &[0; 3]);
    let answer = docket.cheapest_runs(&[15, 1, 15], &[0; 3], &[On, Off, On]);
    assert_eq!(answer, CheapestRuns::Stuck { unit: 1 });
}

#[test]
fn the_lowest_unit_that_is_stuck() {
    // both with TD 2: off in period 1 they cannot be on in period 2
    let unit = "unit=100,10,0,20,80,2,2,3,30,30,50,90,1,5,60\n".repeat(2);
    let text = format!(
        "kind=problem\nperiods=2\nunits=2\ndemand=60,100\nspare=10,10\n{unit}end=problem\n"
    );
    let mut docket = Docket::new();
    docket.lodge(text.as_bytes());
    let ask = |fixed: [Fixed; 4]| docket.cheapest_runs(&[10, 14], &[0, 0], &fixed);
    let stuck = |unit| CheapestRuns::Stuck { unit };
    assert_eq!(ask([Off, On, Free, Free]), stuck(1));
    assert_eq!(ask([Free, Free, Off, On]), stuck(2));
    assert_eq!(ask([Off, On, Off, On]), stuck(1));
    // unit 1 stays on, and unit 2 stops
    let answer = ask([On, On, Off, Off]);
    finds(
        answer,
        100 - 220 + 5 + 2_000,
        &[&[20, 80], &[0, 0]],
        &[40, 20],
    );
}

#[test]
fn questions_that_do_not_fit() {
    let docket = knowing_example();
    for (prices, reserves, fixed) in unfit_questions() {
        let answer = docket.cheapest_runs(&prices, &reserves, &fixed);
        let lengths = (prices.len(), reserves.len(), fixed.len());
        assert_eq!(answer, CheapestRuns::Unfit, "{lengths:?}");
    }
    let answer = docket.cheapest_runs(&[10, 14], &[0, 0], &[Free; 4]);
    finds(answer, 1_880, &[&[20, 80], &[0, 0]], &[40, 20]);
}

#[test]
fn no_problem_comes_first() {
    let mut docket = Docket::new();
    for text in [&b""[..], b"kind=problem\n", b"kind=tree\n"] {
        docket.lodge(text);
        for (prices, reserves, fixed) in unfit_questions() {
            let answer = docket.cheapest_runs(&prices, &reserves, &fixed);
            assert_eq!(answer, CheapestRuns::NoProblem);
        }
        let answer = docket.cheapest_runs(&[10, 14], &[0, 0], &[Free; 4]);
        assert_eq!(answer, CheapestRuns::NoProblem);
    }
}

#[test]
fn the_largest_problem_at_the_largest_multipliers() {
    // 32 units of which each output costs nothing, in 48 periods
    let units = "unit=0,0,0,1,10000,1,1,-1,1,1,0,0,0,0,0\n".repeat(32);
    let row = ["320000"; 48].join(",");
    let text = format!(
        "kind=problem\nperiods=48\nunits=32\ndemand={row}\nspare={row}\n{units}end=problem\n"
    );
    let mut docket = Docket::new();
    assert_eq!(docket.lodge(text.as_bytes()).line(), "answer=held");
    let most = [1_000_000_000; 48];
    let mut fixed = vec![Free; 1_536];
    let each = 1_000_000_000 * (320_000 + 640_000) - 32 * 2 * 1_000_000_000 * 10_000;
    let full = [10_000; 48];
    let answer = docket.cheapest_runs(&most, &most, &fixed);
    finds(answer, 48 * each, &[&full[..]; 32], &[0; 48]);
    // the last unit off in the last period
    fixed[1_535] = Off;
    let mut last = full;
    last[47] = 0;
    let mut runs = [&full[..]; 32];
    runs[31] = &last;
    let mut short = [0; 48];
    short[47] = 10_000;
    let answer = docket.cheapest_runs(&most, &most, &fixed);
    finds(answer, 48 * each + 20_000_000_000_000, &runs, &short);
}

#[test]
fn a_question_changes_nothing_and_what_is_held_changes_no_answer() {
    let example = example();
    Both::asked_between(&texts(&example), |docket: &Docket| {
        let answer = docket.cheapest_runs(&[12, 18], &[0, 0], &[Free; 4]);
        finds(answer, 1_820, &[&[80, 80], &[0, 50]], &[0, 0]);
        let answer = docket.cheapest_runs(&[12, 18], &[0, 0], &[Off, On, Free, Free]);
        assert_eq!(answer, CheapestRuns::Stuck { unit: 1 });
    });
}

/// The value that a leaf's runs are found with is the bound of a tree that has the leaf under the splits that fix its statuses.
#[test]
fn the_value_is_that_of_a_tree() {
    let mut docket = knowing_example();
    let answer = docket.cheapest_runs(&[10, 14], &[0, 0], &[Free, Free, Free, On]);
    finds(answer, 1_980, &[&[20, 80], &[0, 10]], &[40, 10]);
    let tree = b"kind=tree\nwriter=3\nsplit=2,2\nshort=2\nprice=10,14\nreserve=0,0\nend=tree\n";
    assert_eq!(docket.lodge(tree).line(), "answer=held,1980,1,2");
}

#[test]
fn threads_ask_one_docket_at_once() {
    let docket = knowing_example();
    thread::scope(|scope| {
        for first in 0..8 {
            let docket = &docket;
            scope.spawn(move || {
                for k in first..first + 300 {
                    let ask = |fixed: [Fixed; 4]| docket.cheapest_runs(&[10, 14], &[0, 0], &fixed);
                    match k % 3 {
                        0 => finds(ask([Free; 4]), 1_880, &[&[20, 80], &[0, 0]], &[40, 20]),
                        1 => finds(ask([Off; 4]), 2_005, &[&[0, 0], &[0, 0]], &[60, 100]),
                        _ => {
                            let stuck = ask([Off, On, Free, Free]);
                            assert_eq!(stuck, CheapestRuns::Stuck { unit: 1 });
                        }
                    }
                }
            });
        }
    });
}
