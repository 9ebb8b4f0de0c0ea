//! The leaves that look at one period: short and crowd.
//!
//! At most `upper` units are on in the period and at least `lower`. Where no such count stands, `upper` is the number of all units,
//! which no count reaches, and `lower` is 0.
use crate::least::{OFF, ON};
use crate::problem::{Problem, MOST_PERIODS, MOST_UNITS};

/// A unit's pU, and where its statuses begin.
#[derive(Clone, Copy, Default)]
struct Place {
    high: u32,
    row: u32,
}

/// The units in the two orders in which they are taken.
pub struct Orders {
    by_number: [Place; MOST_UNITS],
    largest: [Place; MOST_UNITS],
}

impl Orders {
    /// The orders of a problem's units: by number; and the largest pU first, of equal ones the lower number.
    pub fn new(problem: &Problem) -> Orders {
        let mut by_number = [Place::default(); MOST_UNITS];
        for u in 0..problem.units {
            by_number[u] = Place {
                high: problem.fleet[u].high as u32,
                row: (u * problem.periods) as u32,
            };
        }
        let mut largest = by_number;
        largest[..problem.units].sort_unstable_by_key(|p| (u32::MAX - p.high, p.row));
        Orders { by_number, largest }
    }
}

/// Whether the units that may be on are short of demand and spare, and how many units the sum took.
#[derive(Clone, Copy)]
pub struct Sum {
    pub short: bool,
    pub taken: usize,
}

/// The sum of the first of these units that are not fixed off in period t, `upper` at most and no more than reach `need`. A product leaves
/// out a unit fixed off: no branch hangs on its status.
#[inline(always)]
fn take<const COUNTED: bool>(
    places: &[Place],
    t: usize,
    fixed: &[u8; MOST_UNITS * MOST_PERIODS],
    upper: u32,
    need: u32,
) -> Sum {
    let (mut sum, mut taken) = (0, 0);
    for place in places {
        if sum >= need || (COUNTED && taken == upper) {
            break;
        }
        let free = (fixed[place.row as usize + t] & OFF) as u32 ^ 1;
        sum += place.high * free;
        taken += free;
    }
    Sum {
        short: sum < need,
        taken: taken as usize,
    }
}

/// The sum for period t, which ends as soon as it reaches demand and spare: by number, or the largest first where an upper count stands.
#[inline(always)]
pub fn sum_in_order(
    problem: &Problem,
    orders: &Orders,
    t: usize,
    fixed: &[u8; MOST_UNITS * MOST_PERIODS],
    upper: usize,
) -> Sum {
    let units = problem.units;
    let need = (problem.demand[t] + problem.spare[t]) as u32;
    if upper == units {
        take::<false>(&orders.by_number[..units], t, fixed, upper as u32, need)
    } else {
        take::<true>(&orders.largest[..units], t, fixed, upper as u32, need)
    }
}

/// Whether more units are fixed on in period t than `upper`, or fewer are not fixed off than `lower`.
pub fn is_crowd(problem: &Problem, t: usize, fixed: &[u8], upper: usize, lower: usize) -> bool {
    let n = problem.periods;
    let (mut on, mut not_off) = (0, 0);
    for u in 0..problem.units {
        let mark = fixed[u * n + t];
        on += (mark == ON) as usize;
        not_off += (mark != OFF) as usize;
    }
    upper < on || not_off < lower
}
