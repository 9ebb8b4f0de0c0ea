//! The docket: a problem, and under it no more than one schedule and one bound.
use crate::forced;
use crate::judge::{self, Rows};
use crate::least;
use crate::problem::{Problem, MOST_PERIODS, MOST_UNITS};
use crate::tree::{self, Figures};
use crate::Refusal;

const MOST_BYTES: usize = 1_048_576;

#[derive(Clone, Copy, Debug, PartialEq, Eq)]
pub enum Answer {
    Refused(Refusal),
    TextHeld,
    ScheduleHeld(u64),
    SchedulePassed(u64),
    TreeHeld(Figures),
    TreePassed(Figures),
}

/// A held figure and its writer; the bound None is never.
#[derive(Clone, Copy)]
pub struct Held<T> {
    pub figure: T,
    pub writer: u64,
}

/// With ALL a walk goes over all states of a unit, however many, and not only over those that can be reached.
pub struct Docket<const ALL: bool = false> {
    known: bool,
    problem: Problem,
    pub cost: Option<Held<u64>>,
    pub bound: Option<Held<Option<i64>>>,
    rows: Rows,
    spare_rows: Rows,
}

impl<const ALL: bool> Default for Docket<ALL> {
    fn default() -> Docket<ALL> {
        Docket {
            known: false,
            problem: Problem::blank(),
            cost: None,
            bound: None,
            rows: [0; MOST_UNITS * MOST_PERIODS],
            spare_rows: [0; MOST_UNITS * MOST_PERIODS],
        }
    }
}

impl<const ALL: bool> Docket<ALL> {
    /// Lodges a text.
    pub fn lodge(&mut self, text: &[u8]) -> Answer {
        if text.len() > MOST_BYTES {
            return refused(11, 0);
        }
        let answer = if text.starts_with(b"kind=problem\n") {
            self.lodge_problem(text, 13)
        } else if text.starts_with(b"kind=schedule\n") {
            self.lodge_schedule(text, 14)
        } else if text.starts_with(b"kind=tree\n") {
            self.lodge_tree(text, 10)
        } else {
            return refused(12, 1);
        };
        answer.unwrap_or_else(Answer::Refused)
    }

    fn lodge_problem(&mut self, text: &[u8], from: usize) -> Result<Answer, Refusal> {
        if self.known {
            return Err(Refusal::at_line(41, 0));
        }
        self.problem.read(text, from)?;
        self.known = true;
        Ok(Answer::TextHeld)
    }

    fn lodge_schedule(&mut self, text: &[u8], from: usize) -> Result<Answer, Refusal> {
        if !self.known {
            return Err(Refusal::at_line(42, 0));
        }
        let priced = judge::read(&self.problem, text, from, &mut self.spare_rows)?;
        if self.cost.is_some_and(|held| held.figure <= priced.cost) {
            return Ok(Answer::SchedulePassed(priced.cost));
        }
        self.cost = Some(Held {
            figure: priced.cost,
            writer: priced.writer,
        });
        std::mem::swap(&mut self.rows, &mut self.spare_rows);
        Ok(Answer::ScheduleHeld(priced.cost))
    }

    fn lodge_tree(&mut self, text: &[u8], from: usize) -> Result<Answer, Refusal> {
        if !self.known {
            return Err(Refusal::at_line(42, 0));
        }
        let figures = tree::read::<ALL>(&self.problem, text, from)?;
        let higher = match (self.bound.map(|held| held.figure), figures.bound) {
            (None, _) => true,
            (Some(None), _) => false,
            (Some(Some(_)), None) => true,
            (Some(Some(held)), Some(bound)) => held < bound,
        };
        if !higher {
            return Ok(Answer::TreePassed(figures));
        }
        self.bound = Some(Held {
            figure: figures.bound,
            writer: figures.writer,
        });
        Ok(Answer::TreeHeld(figures))
    }

    /// The value of a price leaf under the held problem, or None where a unit is stuck.
    pub fn leaf_value(&self, q: &[u64], s: &[u64], fixed: &[u8]) -> Option<i64> {
        least::leaf_value::<ALL>(&self.problem, q, s, fixed)
    }

    /// Each unit's least value with each status forced, and which of them are not there.
    pub fn forced_statuses(
        &self,
        q: &[u64],
        s: &[u64],
        fixed: &[u8],
        values: &mut [i64],
        stuck: &mut [u8],
    ) {
        forced::forced_statuses(&self.problem, q, s, fixed, values, stuck)
    }

    /// The rows of the held schedule.
    pub fn rows(&self) -> &Rows {
        &self.rows
    }
}

fn refused(number: u64, line: usize) -> Answer {
    Answer::Refused(Refusal::at_line(number, line))
}
