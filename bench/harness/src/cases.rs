//! The cases: each is a list of texts and its last answer.
use crate::inputs::*;

pub struct Case {
    pub name: &'static str,
    pub input: String,
    pub last: Last,
}

pub enum Last {
    TreeHeld,
    SchedulePassed,
    Refused(u64),
}

/// Nothing around a balanced tree.
const ALONE: Around = Around {
    before: "",
    after: "",
};

/// The demand and the spare of every period.
#[derive(Clone, Copy)]
struct Loads {
    demand: u64,
    spare: u64,
}

/// More than any 32 units give.
const BEYOND: Loads = Loads {
    demand: 320_000,
    spare: 320_000,
};

/// More than any 31 of the 32 units give, and less than all of them: their pU are all different, neither rising nor falling by number, and
/// sum to 143,447, and the smallest is 1,642, so that the largest 31 sum to 141,805.
const ONLY_ALL: Loads = Loads {
    demand: 140_000,
    spare: 3_000,
};

/// Leaves of one line, the lines around their tree, and the loads under which all of them hold.
struct Leaves {
    loads: Loads,
    around: Around,
    leaf: &'static str,
}

/// Unit 1 is on in period 1.
const UNIT_ON: Around = Around {
    before: "split=1,1\nshort=1\n",
    after: "",
};

const STUCK: Leaves = Leaves {
    loads: BEYOND,
    around: UNIT_ON,
    leaf: "stuck=1\n",
};

const SHORT: Leaves = Leaves {
    loads: BEYOND,
    around: UNIT_ON,
    leaf: "short=1\n",
};

/// At most 31 of the 32 units are on in period 2, in which no status is split; all of them together are short.
const SHORT_COUNTED: Leaves = Leaves {
    loads: BEYOND,
    around: Around {
        before: "count=2,31\n",
        after: "short=2\n",
    },
    leaf: "short=2\n",
};

/// The same, but all of them together reach demand and spare, so that the largest 31 have to be found, and each leaf takes all of these: no
/// upper count lets a leaf take more. Where all 32 units have to be on, none can be off, and unit 1 is stuck.
const SHORT_LARGEST: Leaves = Leaves {
    loads: ONLY_ALL,
    around: Around {
        before: "count=2,31\n",
        after: "split=1,2\ncrowd=2\nstuck=1\n",
    },
    leaf: "short=2\n",
};

/// Unit 1 is on in period 1, and no unit may be.
const CROWD: Leaves = Leaves {
    loads: BEYOND,
    around: Around {
        before: "split=1,1\nshort=1\ncount=1,0\n",
        after: "short=1\n",
    },
    leaf: "crowd=1\n",
};

/// The afternoon peak: 32 units, 48 periods and 60 price leaves, with dear multipliers.
fn peak(name: &'static str, times: Times, off: bool) -> Case {
    let mut r = Random::new();
    let problem = problem(&mut r, times, 100_000, 10_000, off);
    let tree = tree(ALONE, 60, &mut || price_leaf(&mut r, 0, 999_999_999));
    Case {
        name,
        input: problem + &tree,
        last: Last::TreeHeld,
    }
}

/// The bytes that are left to a tree after the problem: a whole text's, or what a listing's input has room for.
fn left(limit: usize, problem: &str) -> usize {
    if limit > LISTING_LIMIT {
        limit
    } else {
        limit - problem.len()
    }
}

/// A tree that fills its room with such leaves, their multipliers of one digit, under units that were off before period 1.
fn leaves(
    name: &'static str,
    limit: usize,
    times: Times,
    leaf: fn(&mut Random, u64, u64) -> String,
) -> Case {
    let mut r = Random::new();
    let problem = problem(&mut r, times, 100_000, 10_000, true);
    let tree = largest_tree(ALONE, left(limit, &problem), || leaf(&mut r, 0, 9));
    Case {
        name,
        input: problem + &tree,
        last: Last::TreeHeld,
    }
}

/// Price leaves: the most walks for a byte.
fn prices(name: &'static str, limit: usize, times: Times) -> Case {
    leaves(name, limit, times, price_leaf)
}

fn ramps(name: &'static str, limit: usize, times: Times) -> Case {
    leaves(name, limit, times, ramp_leaf)
}

/// A tree that fills its room with leaves of one line; unit 1 is stuck where it is on in period 1 or 2.
fn lines(name: &'static str, limit: usize, leaves: &Leaves) -> Case {
    let mut r = Random::new();
    let Loads { demand, spare } = leaves.loads;
    let problem = with_first_unit_stuck(problem(&mut r, MOST, demand, spare, false));
    let room = left(limit, &problem);
    let tree = largest_tree(leaves.around, room, || leaves.leaf.to_string());
    Case {
        name,
        input: problem + &tree,
        last: Last::TreeHeld,
    }
}

/// So many schedules of 32 rows of 48 outputs, all accepted: a unit is off for 12 periods of 48.
fn schedules(name: &'static str, many: usize) -> Case {
    let mut r = Random::new();
    let problem = problem(&mut r, USUAL, 1_000, 100, false);
    let one = schedule(|u, t| {
        if (t / 12 + u) % 4 == 0 {
            0
        } else {
            1_000 + (u * t % 2) as u64
        }
    });
    Case {
        name,
        input: problem + &one.repeat(many),
        last: Last::SchedulePassed,
    }
}

/// The same texts as those of a case, with the last end line damaged.
fn damaged(name: &'static str, case: Case) -> Case {
    let input = case.input.strip_suffix("end=tree\n").unwrap().to_string() + "end=trees\n";
    Case {
        name,
        input,
        last: Last::Refused(12),
    }
}

/// A tree's text that is one numeral.
fn numeral(name: &'static str) -> Case {
    let mut r = Random::new();
    let problem = problem(&mut r, MOST, 100_000, 10_000, false);
    let room = TEXT_LIMIT - "kind=tree\nwriter=\n".len();
    let tree = format!("kind=tree\nwriter={}\n", "1".repeat(room));
    Case {
        name,
        input: problem + &tree,
        last: Last::Refused(13),
    }
}

/// The shortest pieces, each refused.
fn pieces(name: &'static str) -> Case {
    Case {
        name,
        input: "end=\n".repeat(LISTING_LIMIT / 5),
        last: Last::Refused(12),
    }
}

pub fn all() -> Vec<Case> {
    vec![
        peak("peak, 3 states", FEWEST, false),
        peak("peak, 15 states", USUAL, false),
        peak("peak, 145 states", MOST, false),
        peak("peak, 145 states, off before", MOST, true),
        peak("peak, 98 states, TD 1", MOST_STARTS, true),
        prices("65,536: price leaves", LISTING_LIMIT, MOST),
        prices("65,536: the same, TD 1", LISTING_LIMIT, MOST_STARTS),
        ramps("65,536: ramp leaves", LISTING_LIMIT, MOST),
        lines("65,536: stuck leaves", LISTING_LIMIT, &STUCK),
        lines("65,536: short leaves", LISTING_LIMIT, &SHORT),
        lines(
            "65,536: short leaves under a count",
            LISTING_LIMIT,
            &SHORT_COUNTED,
        ),
        lines(
            "65,536: short leaves, largest first",
            LISTING_LIMIT,
            &SHORT_LARGEST,
        ),
        lines("65,536: crowd leaves", LISTING_LIMIT, &CROWD),
        pieces("65,536: nothing but end="),
        schedules("nine schedules of 32 x 48", 9),
        prices("1,048,576: price leaves", TEXT_LIMIT, MOST),
        prices("1,048,576: the same, TD 1", TEXT_LIMIT, MOST_STARTS),
        ramps("1,048,576: ramp leaves", TEXT_LIMIT, MOST),
        lines("1,048,576: stuck leaves", TEXT_LIMIT, &STUCK),
        lines("1,048,576: short leaves", TEXT_LIMIT, &SHORT),
        lines(
            "1,048,576: short leaves under a count",
            TEXT_LIMIT,
            &SHORT_COUNTED,
        ),
        lines(
            "1,048,576: short leaves, largest first",
            TEXT_LIMIT,
            &SHORT_LARGEST,
        ),
        lines("1,048,576: crowd leaves", TEXT_LIMIT, &CROWD),
        damaged(
            "1,048,576: TD 1, damaged end",
            prices("", TEXT_LIMIT - 1, MOST_STARTS),
        ),
        numeral("1,048,576: one numeral"),
        schedules("ten schedules of 32 x 48", 10),
    ]
}
