//! The leaves that look at runs: one unit's least value by a walk back over its states, the value of a price leaf, and stuck.
//!
//! The states are those of the proved walk: on for 1 to TU periods and more, off for 1 to TD + Tcold + 1 periods and more. A
//! value that is not there is a number so large that sums with it stay above every value that is.
use crate::problem::{Problem, Unit, MOST_PERIODS};

pub const MOST_UP: usize = 48;
pub const MOST_DOWN: usize = 97;

/// What stands for a value that is not there, and the least number that means so.
pub const NONE: i64 = 1 << 61;
pub const AT_LEAST_NONE: i64 = 1 << 60;

pub const OFF: u8 = 1;
pub const ON: u8 = 2;

/// The least of what a period on costs, over the whole outputs from pL to pU, where each output costs b and is paid q, with q·pU added.
#[inline(always)]
pub fn least_on(g: &Unit, b: u64, q: u64) -> u64 {
    let c = g.c;
    let p = if q <= b + c * (2 * g.low + 1) {
        g.low
    } else if c == 0 {
        g.high
    } else {
        let p = (q - b - c + (2 * c - 1)) / (2 * c);
        p.min(g.high)
    };
    g.a + p * (b + c * p) + q * (g.high - p)
}

/// The values of one status one period back: states before `need` only keep, later ones may leave.
#[inline(always)]
fn chain(states: &mut [i64], need: usize, early: i64, last: i64, cost: i64) {
    let end = states.len() - 1;
    let need = need.min(end + 1) - 1;
    for i in 0..need {
        states[i] = states[i + 1] + cost;
    }
    for i in need..end {
        states[i] = (states[i + 1] + cost).min(early);
    }
    states[end] = (states[end] + cost).min(last);
}

/// The values of a status that is not allowed in the period: only leaving is left.
#[inline(always)]
fn leave(states: &mut [i64], need: usize, early: i64, last: i64) {
    let end = states.len() - 1;
    let need = need.min(end + 1) - 1;
    states[..need].fill(NONE);
    states[need..end].fill(early);
    states[end] = last;
}

/// The walk from the last period to the first, where a period costs on[t] or off[t].
///
/// Before period t a unit that has changed its status has been in it for t periods at most: only so many states are taken back,
/// and the one that no change has led to is followed alone, as in the proved walk. With ALL every state is taken back instead.
#[inline(always)]
fn walk<const ALL: bool>(g: &Unit, on: &[i64], off: &[i64], fixed: &[u8]) -> i64 {
    let n = fixed.len();
    let (on, off) = (&on[..n], &off[..n]);
    let (ups, downs) = (g.up, g.down + g.cold_after + 1);
    let mut up_table = [0i64; MOST_UP];
    let mut down_table = [0i64; MOST_DOWN];
    let (stop, hot, cold) = (g.stop as i64, g.hot as i64, g.cold as i64);
    let mut own = 0i64;
    for t in (0..n).rev() {
        let (a, b) = if ALL {
            (ups, downs)
        } else {
            (ups.min(t + 1), downs.min(t + 1))
        };
        let up = &mut up_table[..a];
        let down = &mut down_table[..b];
        let (first_on, first_off) = (up[0], down[0]);
        let (c_on, c_off) = (on[t], off[t]);
        let mut leaving = first_off + c_off + stop;
        let mut starting = first_on + c_on + hot;
        let mut starting_cold = first_on + c_on + cold;
        let (mut keep_on, mut keep_off) = (own + c_on, own + c_off);
        match fixed[t] {
            OFF => {
                leave(up, g.up, leaving, leaving);
                chain(down, g.down, NONE, NONE, c_off);
                (starting, starting_cold, keep_on) = (NONE, NONE, NONE);
            }
            ON => {
                chain(up, g.up, NONE, NONE, c_on);
                leave(down, g.down, starting, starting_cold);
                (leaving, keep_off) = (NONE, NONE);
            }
            _ => {
                chain(up, g.up, leaving, leaving, c_on);
                chain(down, g.down, starting, starting_cold, c_off);
            }
        }
        if !ALL {
            let k = g.since + t;
            own = if g.on {
                keep_on.min(if k < g.up { NONE } else { leaving })
            } else if k < g.down {
                keep_off
            } else {
                keep_off.min(if k <= g.down + g.cold_after {
                    starting
                } else {
                    starting_cold
                })
            };
        }
    }
    if !ALL {
        own
    } else if g.on {
        up_table[g.since.min(ups) - 1]
    } else {
        down_table[g.since.min(downs) - 1]
    }
}

/// Up to so many states a walk over all of them is quicker.
const FEW_STATES: usize = 24;

/// The walk over all states where they are few, or else over those that can be reached, as the proved walk is; with ALL over all.
#[inline(always)]
pub fn walk_value<const ALL: bool>(g: &Unit, on: &[i64], off: &[i64], fixed: &[u8]) -> i64 {
    if ALL || g.up + g.down + g.cold_after < FEW_STATES {
        walk::<true>(g, on, off, fixed)
    } else {
        walk::<false>(g, on, off, fixed)
    }
}

/// Whether no run of the unit agrees with the fixed statuses.
pub fn is_stuck<const ALL: bool>(g: &Unit, fixed: &[u8]) -> bool {
    let zeros = [0i64; MOST_PERIODS];
    walk_value::<ALL>(g, &zeros, &zeros, fixed) >= AT_LEAST_NONE
}

/// The value of a price leaf, or None where a unit is stuck.
pub fn leaf_value<const ALL: bool>(
    problem: &Problem,
    q: &[u64],
    s: &[u64],
    fixed: &[u8],
) -> Option<i64> {
    let n = problem.periods;
    let (q, s) = (&q[..n], &s[..n]);
    let mut both = [0u64; MOST_PERIODS];
    let mut sum_both = 0;
    let mut total = 0i64;
    for t in 0..n {
        both[t] = q[t] + s[t];
        sum_both += both[t];
        total += (q[t] * problem.demand[t] + s[t] * (problem.demand[t] + problem.spare[t])) as i64;
    }
    let mut on = [0i64; MOST_PERIODS];
    let mut off = [0i64; MOST_PERIODS];
    for u in 0..problem.units {
        let g = &problem.fleet[u];
        for t in 0..n {
            on[t] = least_on(g, g.b, q[t]) as i64;
            off[t] = (both[t] * g.high) as i64;
        }
        let v = walk_value::<ALL>(g, &on, &off, &fixed[u * n..u * n + n]);
        if v >= AT_LEAST_NONE {
            return None;
        }
        total += v - (sum_both * g.high) as i64;
    }
    Some(total)
}
