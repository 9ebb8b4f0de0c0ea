//! What multipliers on the ramps add to a unit's cost (document 02, [6]; decided points 105 to 107).
//!
//! Periods count from 0 here. Step 0 leads from the first period to the second, and the first value
//! of an `up=` or `down=` line belongs to it.

use crate::generator::Generator;
use crate::minimum::Worth;

/// The multipliers of a ramp leaf.
#[derive(Clone, Debug, PartialEq, Eq)]
pub struct RampLeaf {
    /// By period.
    pub prices: Vec<i64>,
    /// By period.
    pub reserves: Vec<i64>,
    /// By unit.
    pub ramps: Vec<RampPrices>,
}

/// The multipliers of one unit's ramps, by step: as many as periods, less one.
#[derive(Clone, Debug, PartialEq, Eq)]
pub struct RampPrices {
    /// For (12).
    pub up: Vec<i64>,
    /// For (11).
    pub down: Vec<i64>,
}

/// A unit in one period: its output p, and u, which is 1 for on and 0 for off.
#[derive(Clone, Copy, Debug, PartialEq, Eq)]
pub struct State {
    pub output: i64,
    pub on: i64,
}

impl State {
    pub const OFF: State = State { output: 0, on: 0 };

    pub fn on_at(output: i64) -> State {
        State { output, on: 1 }
    }
}

/// The left side of (12) less its right side.
pub fn beyond_rise(unit: &Generator, before: State, now: State) -> i64 {
    let left = now.output;
    let right = before.output + unit.most_rise * before.on + unit.most_output * (1 - before.on);
    left - right
}

/// The left side of (11) less its right side.
pub fn beyond_fall(unit: &Generator, before: State, now: State) -> i64 {
    let left = before.output - unit.most_fall * before.on - unit.most_output * (1 - now.on);
    let right = now.output;
    left - right
}

impl RampPrices {
    /// What is added for one step between two states.
    pub fn added(&self, unit: &Generator, step: usize, before: State, now: State) -> i64 {
        self.up[step] * beyond_rise(unit, before, now)
            + self.down[step] * beyond_fall(unit, before, now)
    }

    /// The share of one period in what is added over a row of states.
    ///
    /// Nowhere in (11) and (12) is anything of the state before multiplied by anything of the state
    /// now. What a step from x to y adds is so a number that neither changes, and what each of them
    /// adds to it alone: added(x, y) = added(OFF, y) + (added(x, OFF) - added(OFF, OFF)).
    ///
    /// The first summand goes to the period of y, the second to the period of x. A period has the
    /// first from the step that leads to it and the second from the step that leads away, as far as
    /// there are such steps; over all periods the shares sum to what all steps add.
    fn share(&self, unit: &Generator, period: usize, state: State) -> i64 {
        let mut share = 0;
        if period > 0 {
            share += self.added(unit, period - 1, State::OFF, state);
        }
        if period < self.up.len() {
            share += self.added(unit, period, state, State::OFF);
            share -= self.added(unit, period, State::OFF, State::OFF);
        }
        share
    }
}

impl RampLeaf {
    /// What each period is worth to a unit, its share of what the ramps add among it.
    pub fn worths(&self, unit: usize, generator: &Generator) -> Vec<Worth> {
        let ramps = &self.ramps[unit];
        let periods = 0..self.prices.len();
        periods
            .map(|period| Worth {
                off: ramps.share(generator, period, State::OFF),
                on: self.best_on(generator, ramps, period),
            })
            .collect()
    }

    /// The least worth of a period on. Each output from pL to pU is tried.
    fn best_on(&self, generator: &Generator, ramps: &RampPrices, period: usize) -> i64 {
        let (price, reserve) = (self.prices[period], self.reserves[period]);
        let paid = |output| price * output + reserve * generator.most_output;
        let outputs = generator.least_output..=generator.most_output;
        outputs
            .map(|output| {
                let share = ramps.share(generator, period, State::on_at(output));
                generator.running_cost(output) - paid(output) + share
            })
            .min()
            .expect("15 has refused pL above pU")
    }
}
