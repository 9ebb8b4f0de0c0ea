//! How many units `short` takes: values worked out by hand, and questions that do not fit.
mod common;

use common::both::Both;
use common::{example, texts};
use docket::{Docket, Fixed, UnitsTaken};
use std::thread;

use Fixed::{Free, Off, On};

/// A docket that knows a problem of one period with units of these pU, that may be on or off at will, and this need.
fn knowing(capacities: &[u64], needed: u64) -> Docket {
    let count = capacities.len();
    let unit = |most: &u64| format!("unit=0,0,0,1,{most},1,1,-1,1,1,0,0,0,0,0\n");
    let units: String = capacities.iter().map(unit).collect();
    let (demand, spare) = (needed - needed / 3, needed / 3);
    let text = format!(
        "kind=problem\nperiods=1\nunits={count}\ndemand={demand}\nspare={spare}\n{units}end=problem\n"
    );
    let mut docket = Docket::new();
    assert_eq!(docket.lodge(text.as_bytes()).line(), "answer=held");
    docket
}

/// So many units taken, and `short` holds or not.
fn taken(units: usize, short: bool) -> UnitsTaken {
    UnitsTaken::Taken { short, units }
}

#[test]
fn falling_capacities() {
    let docket = knowing(&[80, 50, 30], 120);
    let free = [Free; 3];
    assert_eq!(docket.units_taken(1, None, &free), taken(2, false));
    assert_eq!(docket.units_taken(1, Some(2), &free), taken(2, false));
    assert_eq!(docket.units_taken(1, Some(1), &free), taken(1, true));
    let first_off = [Off, Free, Free];
    assert_eq!(docket.units_taken(1, None, &first_off), taken(2, true));
    assert_eq!(docket.units_taken(1, None, &[On; 3]), taken(2, false));
}

#[test]
fn rising_capacities() {
    let free = [Free; 3];
    for (needed, by_number, largest_first) in [(100, 3, 2), (80, 2, 1), (0, 0, 0)] {
        let docket = knowing(&[30, 50, 80], needed);
        assert_eq!(docket.units_taken(1, None, &free), taken(by_number, false));
        let counted = docket.units_taken(1, Some(2), &free);
        assert_eq!(counted, taken(largest_first, false));
    }
}

#[test]
fn no_units_to_take() {
    let docket = knowing(&[80, 50, 30], 1);
    for most in [None, Some(0), Some(1), Some(2)] {
        assert_eq!(docket.units_taken(1, most, &[Off; 3]), taken(0, true));
    }
    for fixed in [[Free; 3], [On; 3]] {
        assert_eq!(docket.units_taken(1, Some(0), &fixed), taken(0, true));
    }
}

#[test]
fn more_units_fixed_on_than_the_count_are_a_question_as_any_other() {
    let docket = knowing(&[80, 50, 30], 120);
    assert_eq!(docket.units_taken(1, Some(1), &[On; 3]), taken(1, true));
    let docket = knowing(&[80, 50, 30], 80);
    assert_eq!(docket.units_taken(1, Some(1), &[On; 3]), taken(1, false));
}

/// Every way in which a question can be put that does not fit a problem of one period and three units.
fn unfit_questions() -> Vec<(usize, Option<usize>, Vec<Fixed>)> {
    let free = vec![Free; 3];
    let far = [4, 255, 256, 65_536, 1 << 32, usize::MAX - 1, usize::MAX];
    let periods = far.iter().map(|&period| (period, None, free.clone()));
    let counts = far.iter().map(|&count| (1, Some(count), free.clone()));
    let lengths = [0, 1, 2, 4, 6, 1_536, 65_539].map(|length| (1, None, vec![Free; length]));
    let near = [(0, None, free.clone()), (2, None, free.clone())];
    let mut all: Vec<_> = periods.chain(counts).chain(lengths).chain(near).collect();
    all.push((1, Some(3), free));
    all.push((usize::MAX, Some(usize::MAX), Vec::new()));
    all
}

#[test]
fn questions_that_do_not_fit() {
    let docket = knowing(&[80, 50, 30], 120);
    for (period, most, fixed) in unfit_questions() {
        let answer = docket.units_taken(period, most, &fixed);
        let length = fixed.len();
        assert_eq!(answer, UnitsTaken::Unfit, "{period} {most:?} {length}");
    }
    assert_eq!(docket.units_taken(1, Some(2), &[Free; 3]), taken(2, false));
}

#[test]
fn no_problem_comes_first() {
    let mut docket = Docket::new();
    for text in [&b""[..], b"kind=problem\n", b"kind=tree\n"] {
        docket.lodge(text);
        for (period, most, fixed) in unfit_questions() {
            let answer = docket.units_taken(period, most, &fixed);
            assert_eq!(answer, UnitsTaken::NoProblem);
        }
        let answer = docket.units_taken(1, None, &[Free; 3]);
        assert_eq!(answer, UnitsTaken::NoProblem);
    }
}

#[test]
fn every_status_of_the_example_has_its_place() {
    // units of pU 80 and 50, which need 70 and 110
    let both = Both::after(&texts(&example())[..1]);
    let ask = |period, fixed: [Fixed; 4]| both.docket.units_taken(period, None, &fixed);
    assert_eq!(ask(1, [Free; 4]), taken(1, false));
    assert_eq!(ask(2, [Free; 4]), taken(2, false));
    for at in 0..4 {
        let mut fixed = [Free; 4];
        fixed[at] = Off;
        let first = if at == 0 { (1, true) } else { (1, false) };
        assert_eq!(ask(1, fixed), taken(first.0, first.1), "{at}");
        let second = if at % 2 == 1 { (1, true) } else { (2, false) };
        assert_eq!(ask(2, fixed), taken(second.0, second.1), "{at}");
    }
}

#[test]
fn a_question_changes_nothing_and_what_is_held_changes_no_answer() {
    let example = example();
    Both::asked_between(&texts(&example), |docket: &Docket| {
        let all =
            [1, 2, 3].map(|period| docket.units_taken(period, Some(1), &[Free, On, Free, Off]));
        assert_eq!(all, [taken(1, false), taken(1, true), UnitsTaken::Unfit]);
    });
}

#[test]
fn threads_ask_one_docket_at_once() {
    let docket = knowing(&[30, 50, 80], 100);
    thread::scope(|scope| {
        for first in 0..8 {
            let docket = &docket;
            scope.spawn(move || {
                for k in first..first + 10_000 {
                    let (most, due) = match k % 4 {
                        0 => (None, taken(3, false)),
                        1 => (Some(2), taken(2, false)),
                        2 => (Some(1), taken(1, true)),
                        _ => (Some(3), UnitsTaken::Unfit),
                    };
                    assert_eq!(docket.units_taken(1, most, &[Free; 3]), due);
                }
            });
        }
    });
}

#[test]
fn a_status_is_free_unless_it_is_said() {
    assert_eq!(Fixed::default(), Free);
    assert_eq!([Free, Off, On].map(|fixed| fixed as u8), [0, 1, 2]);
    assert_eq!(
        format!("{:?}", taken(2, true)),
        "Taken { short: true, units: 2 }"
    );
}
