//! What a line shows.

use second::{report, Answer, Docket, Figures, Refusal, TakenAnswer};
use std::fmt;

/// What a docket holds: of the rows the first five outputs, with zeros after the last.
#[derive(Clone)]
pub struct Shown {
    pub known: bool,
    pub periods: usize,
    pub units: usize,
    pub cost: Option<String>,
    pub bound: Option<String>,
    pub outputs: [i64; 5],
}

impl Shown {
    pub fn of(docket: &Docket) -> Shown {
        let mut outputs = [0; 5];
        let rows = docket
            .held_cost()
            .map_or_else(Vec::new, |held| held.rows.concat());
        for (output, shown) in rows.into_iter().zip(&mut outputs) {
            *shown = output;
        }
        Shown {
            known: docket.problem().is_some(),
            periods: docket.problem().map_or(0, |problem| problem.demand.len()),
            units: docket.problem().map_or(0, |problem| problem.units.len()),
            cost: docket
                .held_cost()
                .map(|held| format!("{},{}", held.cost, held.writer)),
            bound: docket
                .held_bound()
                .map(|held| format!("{},{}", held.bound, held.writer)),
            outputs,
        }
    }
}

impl fmt::Display for Shown {
    fn fmt(&self, f: &mut fmt::Formatter) -> fmt::Result {
        let none = || "none".to_string();
        let problem = if self.known {
            format!("{},{}", self.periods, self.units)
        } else {
            none()
        };
        let cost = self.cost.clone().unwrap_or_else(none);
        let bound = self.bound.clone().unwrap_or_else(none);
        let rows = self.outputs.map(|output| output.to_string()).join(",");
        write!(f, "problem={problem} cost={cost} bound={bound} rows={rows}")
    }
}

/// The answer to a report at a place in a buffer of `size` letters, and the buffer.
pub fn report_shown(docket: Docket, size: usize, place: usize) -> String {
    let mut buffer: Vec<u8> = (0..size).map(letter).collect();
    let answer = match report(&docket, &mut buffer, place) {
        Ok(length) => length.to_string(),
        Err(refusal) => refusal_shown(refusal),
    };
    let bytes: String = buffer
        .iter()
        .map(|&byte| if byte == 10 { '/' } else { byte as char })
        .collect();
    format!("{answer} [{bytes}]")
}

fn letter(place: usize) -> u8 {
    b'a' + (place % 26) as u8
}

fn refusal_shown(refusal: Refusal) -> String {
    let Refusal {
        number,
        line,
        unit,
        period,
    } = refusal;
    format!("refused,{number},{line},{unit},{period}")
}

/// The answer to a text.
pub fn answer_shown(answer: Answer) -> String {
    match answer {
        Answer::Refused(refusal) => refusal_shown(refusal),
        Answer::Held(figures) => format!("held{}", figures_shown(figures)),
        Answer::Passed(figures) => format!("passed{}", figures_shown(figures)),
    }
}

fn figures_shown(figures: Figures) -> String {
    match figures {
        Figures::Problem => String::new(),
        Figures::Schedule { cost } => format!(",{cost}"),
        Figures::Tree {
            bound,
            splits,
            leaves,
        } => format!(",{bound},{splits},{leaves}"),
    }
}

/// The answer to a question about units.
pub fn taken_shown(answer: TakenAnswer) -> String {
    match answer {
        TakenAnswer::NoProblem => "no problem".to_string(),
        TakenAnswer::Unfit => "unfit".to_string(),
        TakenAnswer::Taken(taken) if taken.short => format!("short,{}", taken.units),
        TakenAnswer::Taken(taken) => format!("enough,{}", taken.units),
    }
}
