//! A unit's least value with the status of each period forced: one walk back with its values kept, one forward, and the two joined.
//!
//! As in the proved walks, the table forward is of the runs that have changed their status, which before period t have been in it for t
//! periods at most, and the run that has not is followed alone. A value that is not there is a large number, as elsewhere in the peer.
use crate::least::{least_on, AT_LEAST_NONE, MOST_DOWN, MOST_UP, NONE, OFF, ON};
use crate::problem::{Problem, Unit, MOST_PERIODS};

/// A value for each state.
#[derive(Clone, Copy)]
struct States {
    up: [i64; MOST_UP],
    down: [i64; MOST_DOWN],
}

const NO_STATES: States = States {
    up: [NONE; MOST_UP],
    down: [NONE; MOST_DOWN],
};

/// What a period costs by its status, and what is fixed in it.
#[derive(Clone, Copy)]
struct Period {
    on: i64,
    off: i64,
    mark: u8,
}

/// The values of one status before a period from those after it: states before `need` only keep, later ones may leave.
#[inline(always)]
fn chain_back(after: &[i64], before: &mut [i64], need: usize, early: i64, last: i64, keep: i64) {
    let end = after.len() - 1;
    let before = &mut before[..after.len()];
    let need = need.min(end + 1) - 1;
    for i in 0..need {
        before[i] = after[i + 1] + keep;
    }
    for i in need..end {
        before[i] = (after[i + 1] + keep).min(early);
    }
    before[end] = (after[end] + keep).min(last);
}

/// The same where the status is not allowed in the period: only leaving is left.
#[inline(always)]
fn leave_back(before: &mut [i64], need: usize, early: i64, last: i64) {
    let end = before.len() - 1;
    let need = need.min(end + 1) - 1;
    before[..need].fill(NONE);
    before[need..end].fill(early);
    before[end] = last;
}

/// The values before a period from those after it.
#[inline(always)]
fn back(g: &Unit, p: Period, after: &States, before: &mut States) {
    let (ups, downs) = (g.up, g.down + g.cold_after + 1);
    let (up, down) = (&after.up[..ups], &after.down[..downs]);
    let leaving = down[0] + p.off + g.stop as i64;
    let starting = up[0] + p.on + g.hot as i64;
    let starting_cold = up[0] + p.on + g.cold as i64;
    match p.mark {
        OFF => {
            leave_back(&mut before.up[..ups], ups, leaving, leaving);
            chain_back(down, &mut before.down, g.down, NONE, NONE, p.off);
        }
        ON => {
            chain_back(up, &mut before.up, ups, NONE, NONE, p.on);
            leave_back(&mut before.down[..downs], g.down, starting, starting_cold);
        }
        _ => {
            chain_back(up, &mut before.up, ups, leaving, leaving, p.on);
            chain_back(
                down,
                &mut before.down,
                g.down,
                starting,
                starting_cold,
                p.off,
            );
        }
    }
}

/// The states of one status, of which so many have been reached, after a period: each one place on, the last two together.
#[inline(always)]
fn shift(states: &mut [i64], reached: usize, entered: i64, keep: i64) {
    let end = states.len() - 1;
    let last = states[end] + keep;
    for i in (0..reached.min(end)).rev() {
        states[i + 1] = states[i] + keep;
    }
    states[0] = entered;
    states[end] = states[end].min(last);
}

/// The same where the status is not allowed in the period: none is left.
#[inline(always)]
fn clear(states: &mut [i64], reached: usize) {
    let front = (reached + 1).min(states.len());
    states[..front].fill(NONE);
}

/// The least of states.
#[inline(always)]
fn least(states: &[i64]) -> i64 {
    states.iter().fold(NONE, |least, v| least.min(*v))
}

/// The run that has not changed its status: its value.
#[inline(always)]
fn leave_own(g: &Unit, own: i64, k: usize) -> i64 {
    if g.on {
        if k < g.up {
            NONE
        } else {
            own + g.stop as i64
        }
    } else if k < g.down {
        NONE
    } else if k <= g.down + g.cold_after {
        own + g.hot as i64
    } else {
        own + g.cold as i64
    }
}

/// The states and the run that has not changed its status, after period t.
#[inline(always)]
fn forward(g: &Unit, p: Period, t: usize, states: &mut States, own: &mut i64) {
    let (ups, downs) = (g.up, g.down + g.cold_after + 1);
    let (up, down) = (&mut states.up[..ups], &mut states.down[..downs]);
    let end = downs - 1;
    let to = t.min(end);
    let hot = if g.down <= to {
        least(&down[g.down - 1..to])
    } else {
        NONE
    };
    let mut started = (hot + g.hot as i64).min(down[end] + g.cold as i64);
    let mut stopped = up[ups - 1] + g.stop as i64;
    let leaving = leave_own(g, *own, g.since + t);
    if g.on {
        stopped = stopped.min(leaving);
    } else {
        started = started.min(leaving);
    }
    if p.mark == OFF {
        clear(up, t);
    } else {
        shift(up, t, started + p.on, p.on);
    }
    if p.mark == ON {
        clear(down, t);
    } else {
        shift(down, t, stopped + p.off, p.off);
    }
    *own = match (g.on, p.mark) {
        (true, OFF) | (false, ON) => NONE,
        (true, _) => *own + p.on,
        (false, _) => *own + p.off,
    };
}

/// The least sum of the first states and what is kept for them.
#[inline(always)]
fn join(states: &[i64], kept: &[i64]) -> i64 {
    states
        .iter()
        .zip(kept)
        .fold(NONE, |least, (x, y)| least.min(x + y))
}

/// The two entries of the period before period t of the table.
#[inline(always)]
fn entries(g: &Unit, t: usize, states: &States, own: i64, kept: &States) -> [i64; 2] {
    let (ups, downs) = (g.up, g.down + g.cold_after + 1);
    let (a, b) = (t.min(ups), t.min(downs));
    let mut on = join(&states.up[..a], &kept.up[..a]);
    let mut off = join(&states.down[..b], &kept.down[..b]);
    let k = g.since + t;
    if g.on {
        on = on.min(own + kept.up[k.min(ups) - 1]);
    } else {
        off = off.min(own + kept.down[k.min(downs) - 1]);
    }
    [off, on]
}

/// The entries of one unit.
fn unit_forced(
    g: &Unit,
    periods: &[Period],
    kept: &mut [States; MOST_PERIODS + 1],
    values: &mut [i64],
    stuck: &mut [u8],
    added: i64,
) {
    let n = periods.len();
    kept[n] = States {
        up: [0; MOST_UP],
        down: [0; MOST_DOWN],
    };
    for t in (0..n).rev() {
        let (before, after) = kept.split_at_mut(t + 1);
        back(g, periods[t], &after[0], &mut before[t]);
    }
    let mut states = NO_STATES;
    let mut own = 0;
    for (t, p) in periods.iter().enumerate() {
        forward(g, *p, t, &mut states, &mut own);
        let both = entries(g, t + 1, &states, own, &kept[t + 1]);
        for (d, v) in both.into_iter().enumerate() {
            let none = v >= AT_LEAST_NONE;
            values[2 * t + d] = if none { 0 } else { v - added };
            stuck[2 * t + d] = none as u8;
        }
    }
}

/// All units' entries, unit u's from u·2·T on, period by period, off forced before on forced.
pub fn forced_statuses(
    problem: &Problem,
    q: &[u64],
    s: &[u64],
    fixed: &[u8],
    values: &mut [i64],
    stuck: &mut [u8],
) {
    let n = problem.periods;
    let mut kept = [NO_STATES; MOST_PERIODS + 1];
    let mut periods = [Period {
        on: 0,
        off: 0,
        mark: 0,
    }; MOST_PERIODS];
    for u in 0..problem.units {
        let g = &problem.fleet[u];
        let mut added = 0;
        for t in 0..n {
            periods[t] = Period {
                on: least_on(g, g.b, q[t]) as i64,
                off: ((q[t] + s[t]) * g.high) as i64,
                mark: fixed[u * n + t],
            };
            added += periods[t].off;
        }
        let part = 2 * u * n..2 * (u + 1) * n;
        unit_forced(
            g,
            &periods[..n],
            &mut kept,
            &mut values[part.clone()],
            &mut stuck[part],
            added,
        );
    }
}
