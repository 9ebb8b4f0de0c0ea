//! A docket as a value: what it begins with, its clones, what it shows of itself.
mod common;

use common::both::Both;
use common::{example, texts};
use docket::{Bound, CheapestRuns, Docket, Fixed, ForcedStatuses, UnitsTaken, Verdict};
use std::thread;

/// Other texts for the problem of the example: a dearer schedule, a tree with a lower bound, a schedule against the rules.
const DEARER: &[u8] = b"kind=schedule\nwriter=8\nrun=50,80\nrun=10,20\nend=schedule\n";
const LOWER: &[u8] = b"kind=tree\nwriter=4\nprice=10,14\nreserve=0,2\nend=tree\n";
const STEEP: &[u8] = b"kind=schedule\nwriter=8\nrun=49,80\nrun=11,20\nend=schedule\n";

/// A ramp leaf for it; and one below splits that leave unit 1, whose TD is 2, no run: off in period 1 and on in 2.
const RAMP: &[u8] =
    b"kind=tree\nwriter=5\nrampprice=10,14\nreserve=0,2\nup=3\ndown=0\nup=1\ndown=2\nend=tree\n";
const STUCK_RAMP: &[u8] =
    b"kind=tree\nwriter=5\nsplit=1,1\nsplit=1,2\nshort=2\nrampprice=10,14\nreserve=0,0\nup=0\ndown=0\nup=0\ndown=0\nend=tree\n";

/// Lodges a text for which the two implementations answer the same, and this.
fn lodge(both: &mut Both, text: &[u8], line: &str) {
    match both.lodge(text) {
        Ok(verdict) => assert_eq!(format!("answer={verdict}"), line),
        Err(why) => panic!("{why}"),
    }
}

/// What the figures of a docket's report are.
fn figures(docket: &Docket) -> (Option<u64>, Option<u16>, Option<Bound>, Option<u16>) {
    let report = docket.report();
    (
        report.cost(),
        report.cost_writer(),
        report.bound(),
        report.bound_writer(),
    )
}

#[test]
fn a_docket_begins_with_nothing() {
    for docket in [Docket::new(), Docket::default()] {
        assert_eq!(figures(&docket), (None, None, None, None));
        assert_eq!(docket.report().gap(), None);
        assert!(docket.outputs().is_empty());
        let answer = docket.units_taken(1, None, &[]);
        assert_eq!(answer, UnitsTaken::NoProblem);
        let answer = docket.cheapest_runs(&[], &[], &[]);
        assert_eq!(answer, CheapestRuns::NoProblem);
        let answer = docket.forced_statuses(&[], &[], &[]);
        assert_eq!(answer, ForcedStatuses::NoProblem);
    }
    assert_eq!(docket::rules(), 4);
}

#[test]
fn a_clone_goes_its_own_way() {
    let example = example();
    let [problem, schedule, tree] = texts(&example)[..] else {
        panic!("the example has three texts");
    };
    let mut first = Both::after(&[problem, DEARER]);
    let mut clone = first.clone();
    lodge(&mut clone, schedule, "answer=held,1980");
    assert_eq!(clone.docket.outputs(), [60, 80, 0, 20]);
    assert_eq!(first.docket.outputs(), [50, 80, 10, 20]);
    assert_eq!(figures(&first.docket), (Some(2060), Some(8), None, None));
    lodge(&mut first, tree, "answer=held,1980,1,2");
    assert_eq!(figures(&clone.docket), (Some(1980), Some(7), None, None));
    lodge(&mut clone, LOWER, "answer=held,1940,0,1");
    lodge(&mut first, LOWER, "answer=passed,1940,0,1");
    drop(clone);
    let held = (Some(2060), Some(8), Some(Bound::Number(1980)), Some(3));
    assert_eq!(figures(&first.docket), held);
    lodge(&mut first, schedule, "answer=held,1980");
}

#[test]
fn what_is_passed_or_refused_changes_nothing() {
    let example = example();
    let mut both = Both::after(&texts(&example));
    let (report, outputs) = (both.docket.report(), both.docket.outputs());
    lodge(&mut both, DEARER, "answer=passed,2060");
    lodge(&mut both, LOWER, "answer=passed,1940,0,1");
    lodge(&mut both, STEEP, "answer=refused,25,0,1,2");
    lodge(&mut both, b"", "answer=refused,12,1,0,0");
    assert_eq!(both.docket.report(), report);
    assert_eq!(both.docket.outputs(), outputs);
}

#[test]
fn a_ramp_leaf_gives_a_bound_or_is_refused_at_its_last_line() {
    let mut both = Both::after(&texts(&example())[..1]);
    lodge(&mut both, STUCK_RAMP, "answer=refused,35,11,0,0");
    // -370 and -150 for the units, and 10 * 60 + 14 * 100 + 2 * 110
    lodge(&mut both, RAMP, "answer=held,1700,0,1");
    let held = (None, None, Some(Bound::Number(1700)), Some(5));
    assert_eq!(figures(&both.docket), held);
    lodge(&mut both, LOWER, "answer=held,1940,0,1");
    lodge(&mut both, RAMP, "answer=passed,1700,0,1");
}

#[test]
fn a_docket_goes_to_another_thread_and_is_asked_by_several_at_once() {
    let lodging = thread::spawn(|| Both::after(&texts(&example())).docket);
    let docket = lodging.join().expect("a docket");
    let held = (Some(1980), Some(7), Some(Bound::Number(1980)), Some(3));
    let (short, units) = (false, 2);
    let taken = UnitsTaken::Taken { short, units };
    thread::scope(|scope| {
        for _ in 0..8 {
            scope.spawn(|| {
                for _ in 0..1_000 {
                    assert_eq!(figures(&docket), held);
                    assert_eq!(docket.outputs(), [60, 80, 0, 20]);
                    assert_eq!(docket.units_taken(2, None, &[Fixed::Free; 4]), taken);
                }
            });
        }
    });
}

#[test]
fn a_docket_shows_what_it_holds() {
    let both = Both::after(&texts(&example()));
    let shown = format!("{:?}", both.docket);
    assert_eq!(
        shown,
        "Docket { cost: Some(1980), cost_writer: Some(7), bound: Some(Number(1980)), bound_writer: Some(3), .. }"
    );
}

#[test]
fn an_answer_shows_its_line() {
    let answer = Docket::new().lodge(b"kind=tree\n");
    assert_eq!(answer.to_string(), "answer=refused,42,0,0,0");
    assert_eq!(answer.line(), answer.to_string());
    assert_eq!(answer, answer.clone());
    let Verdict::Refused(refusal) = answer.verdict() else {
        panic!("{answer}");
    };
    assert_eq!(refusal.to_string(), "42,0,0,0");
}
