//! The value of a ramp leaf: a price leaf's, with multipliers on the ramps of each unit.
//!
//! For each output of a period a unit pays b, the up multiplier of the step into the period and the down multiplier of the step out of it, and
//! is paid the price, the up multiplier of the step out of it and the down multiplier of the step into it. The rest of (11) and (12) hangs on
//! the statuses alone, and is spread over the periods so that no period costs less than 0.
use crate::least::{least_on, walk_value, AT_LEAST_NONE};
use crate::problem::{Problem, MOST_PERIODS};

/// The multipliers of one unit, by the period into which a step leads; 0 before the first step and after the last.
#[derive(Default)]
pub struct Steps {
    pub up: Padded,
    pub down: Padded,
}

pub struct Padded([u64; MOST_PERIODS + 1]);

impl Default for Padded {
    fn default() -> Padded {
        Padded([0; MOST_PERIODS + 1])
    }
}

impl Padded {
    /// Takes the multipliers of all steps, of which there are as many in every line.
    #[inline(always)]
    pub fn put(&mut self, multipliers: &[u64]) {
        self.0[1..=multipliers.len()].copy_from_slice(multipliers);
    }
}

/// The prices of a leaf, and its value so far: None once a unit is stuck.
pub struct RampLeaf<'a> {
    problem: &'a Problem,
    q: [u64; MOST_PERIODS],
    both: [u64; MOST_PERIODS],
    sum_both: u64,
    pub value: Option<i64>,
}

impl<'a> RampLeaf<'a> {
    /// The leaf before its first unit.
    pub fn new(
        problem: &'a Problem,
        q: &[u64; MOST_PERIODS],
        s: &[u64; MOST_PERIODS],
    ) -> RampLeaf<'a> {
        let mut both = [0; MOST_PERIODS];
        let mut sum_both = 0;
        let mut value = 0;
        for t in 0..problem.periods {
            both[t] = q[t] + s[t];
            sum_both += both[t];
            value +=
                (q[t] * problem.demand[t] + s[t] * (problem.demand[t] + problem.spare[t])) as i64;
        }
        RampLeaf {
            problem,
            q: *q,
            both,
            sum_both,
            value: Some(value),
        }
    }

    /// Adds the least value of unit u, unless a unit was stuck.
    #[inline(always)]
    pub fn add<const ALL: bool>(&mut self, u: usize, steps: &Steps, fixed: &[u8]) {
        let Some(value) = self.value else {
            return;
        };
        let g = &self.problem.fleet[u];
        let n = fixed.len();
        let (q, both) = (&self.q[..n], &self.both[..n]);
        let (up, down) = (&steps.up.0[..n + 1], &steps.down.0[..n + 1]);
        let mut on = [0i64; MOST_PERIODS];
        let mut off = [0i64; MOST_PERIODS];
        let (mut ups, mut downs) = (0, 0);
        for t in 0..n {
            let (next_up, next_down) = (up[t + 1], down[t + 1]);
            let paid = q[t] + next_up + down[t];
            on[t] = least_on(g, g.b + up[t] + next_down, paid) as i64;
            off[t] = (both[t] * g.high + next_up * g.ramp_up + next_down * g.ramp_down) as i64;
            ups += next_up;
            downs += next_down;
        }
        let v = walk_value::<ALL>(g, &on, &off, fixed);
        self.value = if v >= AT_LEAST_NONE {
            None
        } else {
            let spread =
                (self.sum_both + ups + downs) * g.high + ups * g.ramp_up + downs * g.ramp_down;
            Some(value + v - spread as i64)
        };
    }
}
