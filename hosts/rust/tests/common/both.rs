//! A docket beside one of the second implementation.

use docket::{Bound, Docket, Figures, Report, Verdict};
use second::listing::answer_line;
use std::fmt::Debug;

/// Two dockets in which the same texts were lodged, and which answered the same and hold the same.
#[derive(Clone)]
pub struct Both {
    pub docket: Docket,
    second: second::Docket,
}

/// A report's cost, bound and gap, the first two with their writers.
type Shown = (
    Option<(i64, i64)>,
    Option<(second::Bound, i64)>,
    Option<i64>,
);

impl Both {
    pub fn new() -> Both {
        Both {
            docket: Docket::new(),
            second: second::fresh(),
        }
    }

    /// The dockets after some texts.
    pub fn after(texts: &[&[u8]]) -> Both {
        let mut both = Both::new();
        for text in texts {
            both.lodge(text).unwrap_or_else(|why| panic!("{why}"));
        }
        both
    }

    /// Asks after each of some texts, the first of which is lodged already, and once more of a copy: questions that change nothing.
    pub fn asked_between(texts: &[&[u8]], questions: impl Fn(&Docket)) {
        let mut both = Both::after(&texts[..1]);
        for text in &texts[1..] {
            questions(&both.docket);
            both.hold_the_same().unwrap_or_else(|why| panic!("{why}"));
            both.lodge(text).unwrap_or_else(|why| panic!("{why}"));
        }
        questions(&both.docket);
        questions(&both.docket.clone());
        both.hold_the_same().unwrap_or_else(|why| panic!("{why}"));
    }

    /// The verdict on a text lodged in both; in what they differ, where they do.
    pub fn lodge(&mut self, text: &[u8]) -> Result<Verdict, String> {
        let answer = self.docket.lodge(text);
        let wanted = second::lodge(&mut self.second, text);
        equal("line", answer.line(), answer_line(wanted).trim_end())?;
        equal("answer", in_seconds_words(answer.verdict()), wanted)?;
        self.hold_the_same()?;
        Ok(answer.verdict())
    }

    /// In what the dockets differ that they hold, where they do.
    pub fn hold_the_same(&self) -> Result<(), String> {
        let report = self.docket.report();
        let mut room = [0; 256];
        let length = second::report(&self.second, &mut room, 0).expect("room for a report");
        equal("report", report.text().as_bytes(), &room[..length])?;
        equal("figures", shown(&report), self.wanted())?;
        let outputs: Vec<i64> = self.docket.outputs().into_iter().map(i64::from).collect();
        let held = self.second.held_cost();
        let rows = held.map_or_else(Vec::new, |held| held.rows.concat());
        equal("outputs", outputs, rows)
    }

    /// What the report is to show.
    fn wanted(&self) -> Shown {
        let cost = self.second.held_cost().map(|held| (held.cost, held.writer));
        let bound = self
            .second
            .held_bound()
            .map(|held| (held.bound, held.writer));
        let gap = match (cost, bound) {
            (Some((cost, _)), Some((second::Bound::Number(bound), _))) => Some(cost - bound),
            _ => None,
        };
        (cost, bound, gap)
    }
}

/// What a report shows.
fn shown(report: &Report) -> Shown {
    let cost = report.cost().map(signed);
    let bound = report.bound().map(seconds_bound);
    (
        cost.zip(report.cost_writer().map(i64::from)),
        bound.zip(report.bound_writer().map(i64::from)),
        report.gap(),
    )
}

fn seconds_bound(bound: Bound) -> second::Bound {
    match bound {
        Bound::Number(number) => second::Bound::Number(number),
        Bound::Never => second::Bound::Never,
    }
}

/// A verdict, in the second implementation's type.
fn in_seconds_words(verdict: Verdict) -> second::Answer {
    match verdict {
        Verdict::Held(figures) => second::Answer::Held(seconds_figures(figures)),
        Verdict::Passed(figures) => second::Answer::Passed(seconds_figures(figures)),
        Verdict::Refused(refusal) => second::Answer::Refused(second::Refusal {
            number: u32::try_from(refusal.number).expect("a refusal's number"),
            line: count(refusal.line),
            unit: count(refusal.unit),
            period: count(refusal.period),
        }),
        other => panic!("the second implementation has no {other:?}"),
    }
}

fn seconds_figures(figures: Figures) -> second::Figures {
    match figures {
        Figures::Problem => second::Figures::Problem,
        Figures::Schedule { cost, .. } => second::Figures::Schedule { cost: signed(cost) },
        Figures::Tree {
            bound,
            splits,
            leaves,
            ..
        } => second::Figures::Tree {
            bound: seconds_bound(bound),
            splits: count(splits),
            leaves: count(leaves),
        },
        other => panic!("the second implementation has no {other:?}"),
    }
}

fn signed(number: u64) -> i64 {
    i64::try_from(number).expect("a number below 2^63")
}

fn count(number: u64) -> usize {
    usize::try_from(number).expect("a count")
}

/// Tells where two values differ.
fn equal<T: PartialEq + Debug>(what: &str, got: T, wanted: T) -> Result<(), String> {
    if got == wanted {
        return Ok(());
    }
    Err(format!("{what}: {got:?}, not {wanted:?}"))
}
