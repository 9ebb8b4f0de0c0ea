//! The docket and its report (document 01, "The docket and its report").

use crate::problem::Problem;
use crate::refusal::Refusal;
use crate::schedule;
use crate::text::{Reader, LONGEST_TEXT};
use crate::tree::{self, Bound, Tree};

/// One problem, at most one schedule and at most one bound.
#[derive(Clone, Debug, PartialEq, Eq)]
pub struct Docket {
    problem: Option<Problem>,
    cost: Option<HeldCost>,
    bound: Option<HeldBound>,
}

/// The cheapest accepted schedule so far, the first of its cost.
#[derive(Clone, Debug, PartialEq, Eq)]
pub struct HeldCost {
    pub cost: i64,
    pub writer: i64,
    pub rows: Vec<Vec<i64>>,
}

/// The highest bound of an accepted tree so far, and the first writer who gave it.
#[derive(Clone, Copy, Debug, PartialEq, Eq)]
pub struct HeldBound {
    pub bound: Bound,
    pub writer: i64,
}

/// What a lodged text gets.
#[derive(Clone, Copy, Debug, PartialEq, Eq)]
pub enum Answer {
    Refused(Refusal),
    /// Accepted, and the docket now holds it.
    Held(Figures),
    /// Accepted, but what is held is as good.
    Passed(Figures),
}

/// The figures of an accepted text.
#[derive(Clone, Copy, Debug, PartialEq, Eq)]
pub enum Figures {
    Problem,
    Schedule {
        cost: i64,
    },
    Tree {
        bound: Bound,
        splits: usize,
        leaves: usize,
    },
}

/// A docket that holds nothing.
pub fn fresh() -> Docket {
    Docket {
        problem: None,
        cost: None,
        bound: None,
    }
}

/// Lodges a text. A refused or passed one leaves the docket as it is.
pub fn lodge(docket: &mut Docket, text: &[u8]) -> Answer {
    docket.judge_and_keep(text).unwrap_or_else(Answer::Refused)
}

/// Writes the report into the buffer from `at` on and tells its length, or refuses by 43.
pub fn report(docket: &Docket, buffer: &mut [u8], at: usize) -> Result<usize, Refusal> {
    let lines = docket.report_lines();
    let room = buffer.get_mut(at..).ok_or(Refusal::bare(43))?;
    let part = room.get_mut(..lines.len()).ok_or(Refusal::bare(43))?;
    part.copy_from_slice(lines.as_bytes());
    Ok(lines.len())
}

impl Docket {
    pub fn problem(&self) -> Option<&Problem> {
        self.problem.as_ref()
    }

    pub fn held_cost(&self) -> Option<&HeldCost> {
        self.cost.as_ref()
    }

    pub fn held_bound(&self) -> Option<HeldBound> {
        self.bound
    }

    /// The order of refusals: 11, 12 for the first line, 41 and 42, then the other lines.
    fn judge_and_keep(&mut self, text: &[u8]) -> Result<Answer, Refusal> {
        if text.len() > LONGEST_TEXT {
            return Err(Refusal::bare(11));
        }
        let mut reader = Reader::new(text);
        let first = reader.take()?;
        match (first.bytes, &self.problem) {
            (b"kind=problem", None) => {
                self.problem = Some(Problem::read(&mut reader)?);
                Ok(Answer::Held(Figures::Problem))
            }
            (b"kind=problem", Some(_)) => Err(Refusal::bare(41)),
            (b"kind=schedule" | b"kind=tree", None) => Err(Refusal::bare(42)),
            (b"kind=schedule", Some(problem)) => {
                let schedule = schedule::read(problem, &mut reader)?;
                schedule::check_rules(problem, &schedule.rows)?;
                let cost = schedule::cost(problem, &schedule.rows);
                Ok(self.keep_schedule(HeldCost {
                    cost,
                    writer: schedule.writer,
                    rows: schedule.rows,
                }))
            }
            (b"kind=tree", Some(problem)) => {
                let tree = tree::read(problem, &mut reader)?;
                Ok(self.keep_tree(tree))
            }
            _ => Err(first.refuse(12)),
        }
    }

    /// Holds an accepted schedule if none is held or it costs less.
    fn keep_schedule(&mut self, accepted: HeldCost) -> Answer {
        let figures = Figures::Schedule {
            cost: accepted.cost,
        };
        match &self.cost {
            Some(held) if held.cost <= accepted.cost => Answer::Passed(figures),
            _ => {
                self.cost = Some(accepted);
                Answer::Held(figures)
            }
        }
    }

    /// Holds an accepted tree's bound if none is held or it is higher.
    fn keep_tree(&mut self, accepted: Tree) -> Answer {
        let figures = Figures::Tree {
            bound: accepted.bound,
            splits: accepted.splits,
            leaves: accepted.leaves,
        };
        match &self.bound {
            Some(held) if held.bound >= accepted.bound => Answer::Passed(figures),
            _ => {
                self.bound = Some(HeldBound {
                    bound: accepted.bound,
                    writer: accepted.writer,
                });
                Answer::Held(figures)
            }
        }
    }

    /// Cost minus bound, if both are numbers.
    fn gap(&self) -> Option<i64> {
        match (&self.cost, &self.bound) {
            (
                Some(held),
                Some(HeldBound {
                    bound: Bound::Number(bound),
                    ..
                }),
            ) => Some(held.cost - bound),
            _ => None,
        }
    }

    /// The seven lines of the report ("The listing program", last paragraph).
    fn report_lines(&self) -> String {
        let cost = self.cost.as_ref();
        let bound = self.bound.as_ref();
        format!(
            "kind=report\ncost={}\ncostwriter={}\nbound={}\nboundwriter={}\ngap={}\nend=report\n",
            or_none(cost.map(|held| held.cost)),
            or_none(cost.map(|held| held.writer)),
            or_none(bound.map(|held| held.bound)),
            or_none(bound.map(|held| held.writer)),
            or_none(self.gap()),
        )
    }
}

/// A value in decimal, or `none` where it is missing.
fn or_none<T: ToString>(value: Option<T>) -> String {
    value.map_or("none".to_string(), |value| value.to_string())
}
