//! A docket, and what is known of its problem: what texts are judged by.

use crate::leaves::PriceLeaf;
use crate::words::{reason, Plant, Reason};
use docket::{Answer, CheapestRuns, Docket, Figures, Report, Verdict};

/// A docket with the size of its problem.
#[derive(Clone, Default)]
pub struct Bench {
    docket: Docket,
    plant: Option<Plant>,
}

impl Bench {
    /// Lodges a text.
    pub fn lodge(&mut self, text: &[u8]) -> Answer {
        let answer = self.docket.lodge(text);
        if answer.verdict() == Verdict::Held(Figures::Problem) {
            self.plant = Plant::of(text);
        }
        answer
    }

    /// Why a text was refused, in words, where it was.
    pub fn reason(&self, text: &[u8], answer: &Answer) -> Option<Reason> {
        match answer.verdict() {
            Verdict::Refused(refusal) => Some(reason(text, refusal, self.plant)),
            _ => None,
        }
    }

    /// What the docket holds.
    pub fn report(&self) -> Report {
        self.docket.report()
    }

    /// The held schedule as a text.
    pub fn schedule(&self) -> Option<String> {
        let writer = self.report().cost_writer()?;
        let outputs = self.docket.outputs();
        let rows = outputs.chunks(self.plant?.periods.max(1));
        Some(schedule(writer, &runs(rows)))
    }

    /// The size of the problem that is held.
    pub fn plant(&self) -> Option<Plant> {
        self.plant
    }

    /// The cheapest runs at a price leaf.
    pub fn cheapest_runs(&self, leaf: &PriceLeaf) -> CheapestRuns {
        self.docket
            .cheapest_runs(&leaf.prices, &leaf.reserves, &leaf.fixed)
    }
}

/// The text of a schedule, with the lines of its runs.
pub fn schedule(writer: u16, runs: &str) -> String {
    format!("kind=schedule\nwriter={writer}\n{runs}end=schedule\n")
}

/// The lines of a schedule's runs, one for each unit's outputs.
pub fn runs<N: ToString>(rows: impl Iterator<Item = impl AsRef<[N]>>) -> String {
    rows.map(|row| format!("run={}\n", commas(row.as_ref())))
        .collect()
}

/// Numbers with commas between them, as texts have them.
pub fn commas<N: ToString>(numbers: &[N]) -> String {
    let numbers: Vec<String> = numbers.iter().map(N::to_string).collect();
    numbers.join(",")
}

/// What stands behind `answer=` in the line of an answer.
pub fn said(answer: &Answer) -> &str {
    let line = answer.line();
    line.strip_prefix("answer=").unwrap_or(line)
}

/// The gap in hundredths of a per cent of the cost, rounded up; none where there is no gap, or the cost is 0.
pub fn gap_share(report: &Report) -> Option<u128> {
    let gap = u128::try_from(report.gap()?).ok()?;
    let cost = u128::from(report.cost()?);
    (cost > 0).then(|| (gap * 10_000).div_ceil(cost))
}

/// Hundredths as they are printed.
pub fn hundredths(share: u128) -> String {
    format!("{}.{:02}", share / 100, share % 100)
}
