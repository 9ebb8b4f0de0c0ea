//! The cheapest run of each unit at a price leaf, and how far these runs fall short of demand
//! (document 02, [7]; decided points 126 to 129).
//!
//! A unit is walked through twice. Backward, for every status that may lie behind a period and the
//! time spent in it, the least value from there on is written down; forward, one status after the
//! other is taken by what was written.
//!
//! Units and periods count from 0 here; a stuck unit is told from 1.

use std::collections::HashMap;

use crate::docket::Docket;
use crate::generator::Generator;
use crate::minimum::Fixed;
use crate::problem::Problem;
use crate::tree::MOST_MULTIPLIER;

const FREE: u8 = 0;
const FIXED_ON: u8 = 2;

/// The answer to a question about the runs.
#[derive(Clone, Debug, PartialEq, Eq)]
pub enum RunsAnswer {
    /// The docket holds no problem.
    NoProblem,
    /// The question does not go with the held problem.
    Unfit,
    /// The lowest unit, from 1, to which the fixed statuses leave no run.
    Stuck(usize),
    Found {
        /// The price leaf's value.
        value: i64,
        /// By unit and period, 0 for off.
        rows: Vec<Vec<u64>>,
        /// By period: D less what the rows put out together, or 0.
        short: Vec<u64>,
    },
}

/// The runs behind the value of a price leaf with these multipliers and fixed statuses: for each unit
/// the cheapest, of equal ones the one that is off first, and then the one with the smallest outputs.
///
/// Statuses are bytes: 0 free, 1 fixed off, 2 fixed on, T of them for the first unit, then T for the
/// next.
pub fn cheapest_runs(docket: &Docket, q: &[u64], s: &[u64], fixed: &[u8]) -> RunsAnswer {
    let question = match Question::read(docket, q, s, fixed) {
        Ok(question) => question,
        Err(answer) => return answer,
    };
    let mut value = question.needs_value();
    let mut rows = Vec::new();
    for unit in 0..question.problem.units.len() {
        let Some(run) = cheapest_run(&question, unit) else {
            return RunsAnswer::Stuck(unit + 1);
        };
        value += run.value;
        rows.push(run.outputs);
    }
    let short = shortfalls(question.problem, &rows);
    RunsAnswer::Found { value, rows, short }
}

/// A question that goes with the held problem.
pub struct Question<'a> {
    pub problem: &'a Problem,
    /// By period.
    pub prices: Vec<i64>,
    /// By period.
    pub reserves: Vec<i64>,
    /// By unit and period.
    pub fixed: Vec<Vec<Option<bool>>>,
}

impl Question<'_> {
    /// The question, or the answer where there is no problem or it does not go with it.
    pub fn read<'a>(
        docket: &'a Docket,
        q: &[u64],
        s: &[u64],
        fixed: &[u8],
    ) -> Result<Question<'a>, RunsAnswer> {
        let problem = docket.problem().ok_or(RunsAnswer::NoProblem)?;
        if !is_fit(problem, q, s, fixed) {
            return Err(RunsAnswer::Unfit);
        }
        Ok(Question {
            problem,
            prices: q.iter().map(|&price| price as i64).collect(),
            reserves: s.iter().map(|&reserve| reserve as i64).collect(),
            fixed: statuses(fixed, problem.periods()),
        })
    }

    /// Over periods, q·D + s·(D + R).
    fn needs_value(&self) -> i64 {
        let mut value = 0;
        for period in 0..self.problem.periods() {
            value += self.prices[period] * self.problem.demand[period];
            value += self.reserves[period] * self.problem.capacity_needed(period);
        }
        value
    }
}

/// Whether a question goes with the problem: its multipliers and its statuses, by number and one by
/// one.
fn is_fit(problem: &Problem, q: &[u64], s: &[u64], fixed: &[u8]) -> bool {
    let (periods, units) = (problem.periods(), problem.units.len());
    let in_range = |&multiplier: &u64| multiplier <= MOST_MULTIPLIER as u64;
    q.len() == periods
        && s.len() == periods
        && fixed.len() == units * periods
        && q.iter().all(in_range)
        && s.iter().all(in_range)
        && fixed.iter().all(|&status| status <= FIXED_ON)
}

/// The statuses that bytes fix, by unit and period.
fn statuses(fixed: &[u8], periods: usize) -> Vec<Vec<Option<bool>>> {
    let status = |&byte: &u8| (byte != FREE).then_some(byte == FIXED_ON);
    let rows = fixed.chunks(periods);
    rows.map(|row| row.iter().map(status).collect()).collect()
}

/// For each period how far the rows are below D.
fn shortfalls(problem: &Problem, rows: &[Vec<u64>]) -> Vec<u64> {
    let mut short = Vec::new();
    for (period, &demand) in problem.demand.iter().enumerate() {
        let output: u64 = rows.iter().map(|row| row[period]).sum();
        short.push((demand as u64).saturating_sub(output));
    }
    short
}

/// A unit's cheapest run and its value.
struct Run {
    value: i64,
    outputs: Vec<u64>,
}

/// The cheapest run of a unit, or `None` if it is stuck.
fn cheapest_run(question: &Question, unit: usize) -> Option<Run> {
    let generator = &question.problem.units[unit];
    let periods = 0..question.problem.periods();
    let on = periods
        .map(|period| {
            cheapest_on(
                generator,
                question.prices[period],
                question.reserves[period],
            )
        })
        .collect();
    let mut walk = Walk {
        unit: generator,
        fixed: &question.fixed[unit],
        on,
        ahead: Vec::new(),
    };
    walk.backward();
    walk.forward()
}

/// A period on: the smallest of the cheapest outputs, and what it is worth.
struct On {
    output: i64,
    value: i64,
}

/// Every output from pL to pU is tried, and another is taken only if it is cheaper.
fn cheapest_on(unit: &Generator, price: i64, reserve: i64) -> On {
    let value_of = |output: i64| {
        let paid = price * output + reserve * unit.most_output;
        unit.running_cost(output) - paid
    };
    let mut best = On {
        output: unit.least_output,
        value: value_of(unit.least_output),
    };
    for output in unit.least_output + 1..=unit.most_output {
        let value = value_of(output);
        if value < best.value {
            best = On { output, value };
        }
    }
    best
}

/// What lies behind a unit before a period: its status and the periods spent in it. More than TU on,
/// or more than TD + Tcold + 1 off, make no difference and are not counted.
#[derive(Clone, Copy, Debug, PartialEq, Eq, Hash)]
struct Behind {
    on: bool,
    spent: i64,
}

impl Behind {
    fn counted(unit: &Generator, on: bool, spent: i64) -> Behind {
        let spent = spent.min(Behind::most_spent(unit, on));
        Behind { on, spent }
    }

    fn most_spent(unit: &Generator, on: bool) -> i64 {
        match on {
            true => unit.least_up,
            false => unit.least_down + unit.hot_periods + 1,
        }
    }

    /// Before period 1.
    fn at_first(unit: &Generator) -> Behind {
        Behind::counted(unit, unit.initially_on(), unit.initially_spent())
    }

    /// After one more period, with this status.
    fn after(self, unit: &Generator, on: bool) -> Behind {
        let spent = if on == self.on { self.spent + 1 } else { 1 };
        Behind::counted(unit, on, spent)
    }

    /// All that can lie behind a unit.
    fn all(unit: &Generator) -> Vec<Behind> {
        let mut all = Vec::new();
        for on in [false, true] {
            for spent in 1..=Behind::most_spent(unit, on) {
                all.push(Behind { on, spent });
            }
        }
        all
    }
}

/// The walk through one unit's periods.
struct Walk<'a> {
    unit: &'a Generator,
    fixed: &'a Fixed,
    /// By period.
    on: Vec<On>,
    /// The least value from a period on, by period and by what lies behind the unit; where no
    /// permitted run leads on there is none. The last stands for the end of the horizon.
    ahead: Vec<HashMap<Behind, i64>>,
}

impl Walk<'_> {
    fn backward(&mut self) {
        let all = Behind::all(self.unit);
        let periods = self.fixed.len();
        self.ahead = vec![HashMap::new(); periods + 1];
        self.ahead[periods] = all.iter().map(|&behind| (behind, 0)).collect();
        for period in (0..periods).rev() {
            for &behind in &all {
                let ways = [false, true].map(|on| self.taking(period, behind, on));
                if let Some(least) = ways.into_iter().flatten().min() {
                    self.ahead[period].insert(behind, least);
                }
            }
        }
    }

    /// The run with the least value, off in each period in which this is no worse.
    fn forward(&self) -> Option<Run> {
        let mut behind = Behind::at_first(self.unit);
        let value = *self.ahead[0].get(&behind)?;
        let mut outputs = Vec::new();
        for (period, at_best) in self.on.iter().enumerate() {
            let on = self.goes_on(period, behind);
            outputs.push(if on { at_best.output as u64 } else { 0 });
            behind = behind.after(self.unit, on);
        }
        Some(Run { value, outputs })
    }

    /// Whether on is the one way or the cheaper one.
    fn goes_on(&self, period: usize, behind: Behind) -> bool {
        let off = self.taking(period, behind, false);
        let on = self.taking(period, behind, true);
        match (off, on) {
            (Some(off), Some(on)) => on < off,
            (off, _) => off.is_none(),
        }
    }

    /// The least value from a period on with this status in it, or `None` if the status or all that
    /// could follow is not permitted. What follows must be known.
    fn taking(&self, period: usize, behind: Behind, on: bool) -> Option<i64> {
        let switches = on != behind.on;
        if self.fixed[period] == Some(!on) {
            return None;
        }
        if switches && !self.unit.may_leave(behind.on, behind.spent) {
            return None;
        }
        let mut value = *self.ahead[period + 1].get(&behind.after(self.unit, on))?;
        if switches {
            value += self.unit.leaving_cost(behind.on, behind.spent);
        }
        if on {
            value += self.on[period].value;
        }
        Some(value)
    }
}
