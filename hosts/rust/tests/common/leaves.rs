//! Dockets to ask about price leaves, and questions about them that do not fit.

use super::both::Both;
use super::{example, texts};
use docket::{Docket, Fixed};

use Fixed::{Free, Off, On};

/// A docket that knows a problem of one unit with this demand, and a spare of 1, in each of so many periods.
pub fn knowing(unit: &str, periods: usize, demand: u64) -> Docket {
    let row = |number: u64| vec![number.to_string(); periods].join(",");
    let (demand, spare) = (row(demand), row(1));
    let text = format!(
        "kind=problem\nperiods={periods}\nunits=1\ndemand={demand}\nspare={spare}\nunit={unit}\nend=problem\n"
    );
    let mut docket = Docket::new();
    assert_eq!(docket.lodge(text.as_bytes()).line(), "answer=held");
    docket
}

/// A docket that knows document 01's problem.
pub fn knowing_example() -> Docket {
    Both::after(&texts(&example())[..1]).docket
}

/// Every way in which a question can be put that does not fit a problem of two periods and two units.
pub fn unfit_questions() -> Vec<(Vec<u64>, Vec<u64>, Vec<Fixed>)> {
    let (q, s, free) = (vec![10, 14], vec![0, 0], vec![Free; 4]);
    let mut all = Vec::new();
    for length in [0, 1, 3, 4, 48, 49, 1_536, 1_537, 70_000] {
        all.push((vec![1; length], s.clone(), free.clone()));
        all.push((q.clone(), vec![1; length], free.clone()));
        all.push((vec![1; length], vec![1; length], free.clone()));
        all.push((vec![1; length], vec![1; length], vec![Free; 2 * length]));
    }
    for length in [0, 1, 2, 3, 5, 6, 8, 1_536, 1_537, 65_540] {
        all.push((q.clone(), s.clone(), vec![On; length]));
    }
    for above in [1_000_000_001, 1 << 32, (1 << 32) + 10, 1 << 63, u64::MAX] {
        for at in 0..2 {
            let (mut prices, mut reserves) = (q.clone(), s.clone());
            prices[at] = above;
            reserves[at] = above;
            all.push((prices, s.clone(), free.clone()));
            all.push((q.clone(), reserves, vec![Off, On, Free, Free]));
        }
    }
    all
}
