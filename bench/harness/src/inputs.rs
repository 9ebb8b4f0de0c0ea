//! The inputs: a problem of 32 units and 48 periods, and after it the texts that are timed.

/// Numbers that look random and are the same in every run (xorshift).
pub struct Random(u64);

impl Random {
    pub fn new() -> Random {
        Random(88_172_645_463_325_252)
    }

    pub fn within(&mut self, least: u64, most: u64) -> u64 {
        self.0 ^= self.0 << 13;
        self.0 ^= self.0 >> 7;
        self.0 ^= self.0 << 17;
        least + self.0 % (most - least + 1)
    }
}

pub const PERIODS: usize = 48;
pub const UNITS: usize = 32;
pub const LISTING_LIMIT: usize = 65_536;
pub const TEXT_LIMIT: usize = 1_048_576;

/// What decides how many states a unit has: TU on, TD + Tcold + 1 off.
#[derive(Clone, Copy)]
pub struct Times {
    pub up: u64,
    pub down: u64,
    pub cold_after: u64,
}

/// Three states, the fewest; fifteen; and 145, the most.
pub const FEWEST: Times = Times {
    up: 1,
    down: 1,
    cold_after: 0,
};
pub const USUAL: Times = Times {
    up: 5,
    down: 5,
    cold_after: 4,
};
pub const MOST: Times = Times {
    up: 48,
    down: 48,
    cold_after: 48,
};

/// The most states off from which a unit may start: the walk chooses in each of them.
pub const MOST_STARTS: Times = Times {
    up: 48,
    down: 1,
    cold_after: 48,
};

/// Joins values by commas.
pub fn row(key: &str, values: impl Iterator<Item = u64>) -> String {
    let values: Vec<String> = values.map(|v| v.to_string()).collect();
    format!("{key}={}\n", values.join(","))
}

/// A problem with the loads given, whose units have been on, or off where `off` says so, for 100 periods and more; on, they gave
/// 1,000 at midnight.
pub fn problem(r: &mut Random, times: Times, demand: u64, spare: u64, off: bool) -> String {
    let mut text = format!("kind=problem\nperiods={PERIODS}\nunits={UNITS}\n");
    text += &row("demand", (0..PERIODS).map(|_| demand));
    text += &row("spare", (0..PERIODS).map(|_| spare));
    for _ in 0..UNITS {
        let low = r.within(1, 1_000);
        let high = low + r.within(1_000, 8_000);
        let (a, b, c) = (
            r.within(0, 1_000_000_000),
            r.within(0, 10_000_000),
            r.within(1, 10_000),
        );
        let Times {
            up,
            down,
            cold_after,
        } = times;
        let (sign, midnight) = if off { ("-", 0) } else { ("", 1_000) };
        let since = r.within(100, 1_000);
        let (hot, stop) = (r.within(0, 1_000_000), r.within(0, 1_000_000_000));
        text += &format!("unit={a},{b},{c},{low},{high},{up},{down},{sign}{since},10000,10000,{hot},1000000000,{cold_after},{stop},{midnight}\n");
    }
    text + "end=problem\n"
}

/// The same problem with its first unit off for one period only, so that under TD 48 it cannot be on in period 1.
pub fn with_first_unit_stuck(problem: String) -> String {
    let at = problem.find("unit=").unwrap();
    let end = at + problem[at..].find('\n').unwrap();
    let mut values: Vec<&str> = problem[at..end].split(',').collect();
    values[7] = "-1";
    values[14] = "0";
    format!("{}{}{}", &problem[..at], values.join(","), &problem[end..])
}

/// A balanced tree of `leaves` leaves over the places from `place` on; each leaf is what `leaf` gives.
fn grow(text: &mut String, place: usize, leaves: usize, leaf: &mut dyn FnMut() -> String) {
    if leaves == 1 {
        *text += &leaf();
        return;
    }
    *text += &format!("split={},{}\n", place % UNITS + 1, place / UNITS + 1);
    grow(text, place + 1, leaves / 2, leaf);
    grow(text, place + 1, leaves - leaves / 2, leaf);
}

/// The node lines of a tree's text before its balanced tree and after it.
#[derive(Clone, Copy)]
pub struct Around {
    pub before: &'static str,
    pub after: &'static str,
}

/// A tree's text of so many leaves with these lines around them, with splits on the places from 1 on.
pub fn tree(around: Around, leaves: usize, leaf: &mut dyn FnMut() -> String) -> String {
    let mut text = format!("kind=tree\nwriter=1\n{}", around.before);
    grow(&mut text, 1, leaves, leaf);
    text + around.after + "end=tree\n"
}

/// The largest such tree of at most `room` bytes.
pub fn largest_tree(around: Around, room: usize, mut leaf: impl FnMut() -> String) -> String {
    let bytes = leaf().len();
    let mut leaves = room / bytes + 1;
    loop {
        let text = tree(around, leaves, &mut leaf);
        if text.len() <= room {
            return text;
        }
        leaves -= 1 + (text.len() - room) / (bytes + 12);
    }
}

/// A price leaf with multipliers from least to most.
pub fn price_leaf(r: &mut Random, least: u64, most: u64) -> String {
    let q: Vec<u64> = (0..PERIODS).map(|_| r.within(least, most)).collect();
    let s: Vec<u64> = (0..PERIODS).map(|_| r.within(least, most)).collect();
    row("price", q.into_iter()) + &row("reserve", s.into_iter())
}

/// A ramp leaf with multipliers from least to most.
pub fn ramp_leaf(r: &mut Random, least: u64, most: u64) -> String {
    let mut line = |key, values| row(key, (0..values).map(|_| r.within(least, most)));
    let mut text = line("rampprice", PERIODS) + &line("reserve", PERIODS);
    for _ in 0..UNITS {
        text += &line("up", PERIODS - 1);
        text += &line("down", PERIODS - 1);
    }
    text
}

/// A schedule's text with the same output in every period, all units on.
pub fn schedule(output: impl Fn(usize, usize) -> u64) -> String {
    let mut text = "kind=schedule\nwriter=1\n".to_string();
    for u in 0..UNITS {
        text += &row("run", (0..PERIODS).map(|t| output(u, t)));
    }
    text + "end=schedule\n"
}
