//! Texts and short ways of asking that several tests share.
#![allow(dead_code)]

use second::inputs::problems::joined;
use second::{fresh, lodge, Answer, Bound, Docket, Figures, Refusal};

/// The problem of document 01's listing example, its units having 60 and 0 for p0.
pub const PROBLEM: &str = "kind=problem
periods=2
units=2
demand=60,100
spare=10,10
unit=100,10,0,20,80,2,2,3,30,30,50,90,1,5,60
unit=40,14,0,10,50,1,1,-2,50,50,20,60,0,0,0
end=problem
";

/// The schedule of that example.
pub const SCHEDULE: &str = "kind=schedule\nwriter=7\nrun=60,80\nrun=0,20\nend=schedule\n";

/// The tree of that example.
pub const TREE: &str = "kind=tree
writer=3
split=2,2
short=2
price=10,14
reserve=0,0
end=tree
";

pub fn refused(number: u32, line: usize, unit: usize, period: usize) -> Answer {
    Answer::Refused(Refusal {
        number,
        line,
        unit,
        period,
    })
}

pub fn at_line(number: u32, line: usize) -> Answer {
    refused(number, line, 0, 0)
}

pub fn held_problem() -> Answer {
    Answer::Held(Figures::Problem)
}

pub fn held_schedule(cost: i64) -> Answer {
    Answer::Held(Figures::Schedule { cost })
}

pub fn passed_schedule(cost: i64) -> Answer {
    Answer::Passed(Figures::Schedule { cost })
}

pub fn held_tree(bound: i64, splits: usize, leaves: usize) -> Answer {
    Answer::Held(number_tree(bound, splits, leaves))
}

pub fn passed_tree(bound: i64, splits: usize, leaves: usize) -> Answer {
    Answer::Passed(number_tree(bound, splits, leaves))
}

fn number_tree(bound: i64, splits: usize, leaves: usize) -> Figures {
    Figures::Tree {
        bound: Bound::Number(bound),
        splits,
        leaves,
    }
}

pub fn held_never(splits: usize, leaves: usize) -> Answer {
    Answer::Held(Figures::Tree {
        bound: Bound::Never,
        splits,
        leaves,
    })
}

/// A docket that holds this problem.
pub fn holding(problem: &str) -> Docket {
    let mut docket = fresh();
    assert_eq!(lodge(&mut docket, problem.as_bytes()), held_problem());
    docket
}

/// The answer to a text in a docket that holds this problem and nothing else.
pub fn under(problem: &str, text: &str) -> Answer {
    let mut docket = holding(problem);
    let before = docket.clone();
    let answer = lodge(&mut docket, text.as_bytes());
    if let Answer::Refused(_) = answer {
        assert_eq!(docket, before, "refused, yet the docket changed");
    }
    answer
}

/// The answer to a text in a fresh docket.
pub fn alone(text: &str) -> Answer {
    let mut docket = fresh();
    let answer = lodge(&mut docket, text.as_bytes());
    if let Answer::Refused(_) = answer {
        assert_eq!(docket, fresh(), "refused, yet the docket changed");
    }
    answer
}

pub fn schedule(writer: i64, runs: &[&str]) -> String {
    let runs: String = runs.iter().map(|run| format!("run={run}\n")).collect();
    format!("kind=schedule\nwriter={writer}\n{runs}end=schedule\n")
}

/// A tree from its node lines, joined by spaces.
pub fn tree(writer: i64, nodes: &str) -> String {
    let nodes: String = nodes
        .split_whitespace()
        .map(|node| format!("{node}\n"))
        .collect();
    format!("kind=tree\nwriter={writer}\n{nodes}end=tree\n")
}

/// The answer to a schedule with these runs on document 01's example problem.
pub fn runs(first: &str, second: &str) -> Answer {
    under(PROBLEM, &schedule(1, &[first, second]))
}

/// The answer to a tree with these nodes on document 01's example problem.
pub fn nodes(nodes: &str) -> Answer {
    under(PROBLEM, &tree(1, nodes))
}

/// A problem of one unit, without demand and spare.
pub fn one_unit(periods: usize, unit: &str) -> String {
    let zeros = vec!["0"; periods].join(",");
    format!(
        "kind=problem\nperiods={periods}\nunits=1\ndemand={zeros}\nspare={zeros}\nunit={unit}\nend=problem\n"
    )
}

/// A problem with units of these pU that may be on or off at will, and this demand and spare.
pub fn at_will(capacities: &[i64], demand: &[i64], spare: &[i64]) -> String {
    let units: String = capacities
        .iter()
        .map(|most| format!("unit=0,0,0,1,{most},1,1,-1,1,1,0,0,0,0,0\n"))
        .collect();
    let (periods, count) = (demand.len(), capacities.len());
    let (demand, spare) = (joined(demand), joined(spare));
    format!(
        "kind=problem\nperiods={periods}\nunits={count}\ndemand={demand}\nspare={spare}\n{units}end=problem\n"
    )
}
