//! A schedule's text: its rows, the first rule that it breaks, or its cost.
use crate::lines::Lines;
use crate::problem::{Problem, Unit, MOST_PERIODS, MOST_UNITS};
use crate::tree::MOST_WRITER;
use crate::Refusal;

const MOST_OUTPUT: u64 = 10_000;

pub type Rows = [u16; MOST_UNITS * MOST_PERIODS];

pub struct Priced {
    pub writer: u64,
    pub cost: u64,
}

/// Reads and judges the schedule of a text whose first line is kind=schedule; the rows are left in `rows`.
pub fn read(
    problem: &Problem,
    text: &[u8],
    from: usize,
    rows: &mut Rows,
) -> Result<Priced, Refusal> {
    let mut lines = Lines::new(text, from, 2);
    let writer = read_lines(problem, &mut lines, rows)
        .map_err(|number| Refusal::at_line(number, lines.line))?;
    let cost = judge(problem, rows)?;
    Ok(Priced { writer, cost })
}

fn read_lines(problem: &Problem, lines: &mut Lines, rows: &mut Rows) -> Result<u64, u64> {
    lines.take_row(b"writer=", 1, 1, MOST_WRITER)?;
    let writer = lines.values[0];
    let n = problem.periods;
    for u in 0..problem.units {
        lines.take_row(b"run=", n, 0, MOST_OUTPUT)?;
        for t in 0..n {
            rows[u * n + t] = lines.values[t] as u16;
        }
    }
    if !lines.take_word(b"end=schedule\n") || !lines.is_done() {
        return Err(12);
    }
    Ok(writer)
}

/// The first breach of each rule by a unit, by its period; NEVER where there is none.
const NEVER: usize = usize::MAX;

struct Breaches {
    limits: usize,
    times: usize,
    ramps: usize,
}

/// The cost of a unit's row, and its first breaches. Adds its outputs and its capacity to the periods' sums.
fn judge_row(
    g: &Unit,
    row: &[u16],
    outputs: &mut [u64],
    capacities: &mut [u64],
) -> (u64, Breaches) {
    let mut found = Breaches {
        limits: NEVER,
        times: NEVER,
        ramps: NEVER,
    };
    let mut cost = 0;
    let mut was_on = g.on;
    let mut spent = g.since;
    let mut before = g.midnight;
    for t in 0..row.len() {
        let p = row[t] as u64;
        let on = p != 0;
        outputs[t] += p;
        if on {
            capacities[t] += g.high;
            cost += g.a + p * (g.b + g.c * p);
            if (p < g.low || g.high < p) && found.limits == NEVER {
                found.limits = t;
            }
            if before != 0
                && (before + g.ramp_up < p || p + g.ramp_down < before)
                && found.ramps == NEVER
            {
                found.ramps = t;
            }
        }
        if on == was_on {
            spent += 1;
        } else {
            let need = if was_on { g.up } else { g.down };
            if spent < need && found.times == NEVER {
                found.times = t;
            }
            cost += if was_on {
                g.stop
            } else if spent <= g.down + g.cold_after {
                g.hot
            } else {
                g.cold
            };
            spent = 1;
        }
        was_on = on;
        before = p;
    }
    (cost, found)
}

/// The lowest rule broken at its lowest period and then its lowest unit, or the cost.
fn judge(problem: &Problem, rows: &Rows) -> Result<u64, Refusal> {
    let n = problem.periods;
    let mut outputs = [0u64; MOST_PERIODS];
    let mut capacities = [0u64; MOST_PERIODS];
    let mut cost = 0;
    let (mut limits, mut times, mut ramps) = ((NEVER, 0), (NEVER, 0), (NEVER, 0));
    for u in 0..problem.units {
        let row = &rows[u * n..u * n + n];
        let (row_cost, found) = judge_row(
            &problem.fleet[u],
            row,
            &mut outputs[..n],
            &mut capacities[..n],
        );
        cost += row_cost;
        limits = limits.min((found.limits, u));
        times = times.min((found.times, u));
        ramps = ramps.min((found.ramps, u));
    }
    if limits.0 != NEVER {
        return Err(Refusal::at_place(21, limits.1 + 1, limits.0 + 1));
    }
    for t in 0..n {
        if outputs[t] < problem.demand[t] {
            return Err(Refusal::at_place(22, 0, t + 1));
        }
    }
    for t in 0..n {
        if capacities[t] < problem.demand[t] + problem.spare[t] {
            return Err(Refusal::at_place(23, 0, t + 1));
        }
    }
    if times.0 != NEVER {
        return Err(Refusal::at_place(24, times.1 + 1, times.0 + 1));
    }
    if ramps.0 != NEVER {
        return Err(Refusal::at_place(25, ramps.1 + 1, ramps.0 + 1));
    }
    Ok(cost)
}
