//! The lines of texts and the numbers of refusals: the one place where kinds, keys, ranges, counts and numbers stand. A new
//! line is one row of `KEYS`, a new refusal one row of `WHYS`.

use Count::{LaterPeriods, Named, Periods};
use Often::{EachUnit, Once};
use Role::{Behind, Line, Node};

/// The key of a text's first line, behind which its kind stands.
pub const FIRST: &str = "kind";
/// The key of a text's last line, behind which its kind stands again.
pub const LAST: &str = "end";
/// The key of the line that tells T, how many periods a problem has.
pub const PERIODS: &str = "periods";
/// The key of the line that tells I, how many units a problem has.
pub const UNITS: &str = "units";
/// The key of the line that names a text's writer.
pub const WRITER: &str = "writer";

/// How many values a line has.
#[derive(Clone, Copy, Debug, PartialEq, Eq)]
pub enum Count {
    /// As many as it has names.
    Named,
    /// T, one for each period, all of one name.
    Periods,
    /// T - 1, one for each period but the first, all of one name. Where T is 1 there is no such line.
    LaterPeriods,
}

/// The upper end of a range.
#[derive(Clone, Copy, Debug, PartialEq, Eq)]
pub enum Most {
    Is(i64),
    Periods,
    Units,
    UnitsLess1,
}

/// A value's name and range. It may carry a minus where the range begins below 0.
#[derive(Debug)]
pub struct Value {
    pub name: &'static str,
    pub least: i64,
    pub most: Most,
    /// The number inside the range that is left out.
    pub without: Option<i64>,
    /// What is to be done about a number that is not whole.
    pub fraction: &'static str,
}

/// How often a line stands in its place.
#[derive(Clone, Copy, Debug, PartialEq, Eq)]
pub enum Often {
    Once,
    /// Once for each unit, counted by this word. Neighbours in the table take turns: all of unit 1, then all of unit 2.
    EachUnit(&'static str),
}

/// Where a line stands. Lines of a text, and lines behind a node, stand in the order of the table.
#[derive(Clone, Copy, Debug)]
pub enum Role {
    /// In texts of these kinds.
    Line(&'static [&'static str], Often),
    /// A node of the tree in texts of these kinds, with so many trees below it. The tree stands behind all lines of its text.
    Node(&'static [&'static str], usize),
    /// Behind these nodes.
    Behind(&'static [&'static str], Often),
}

/// A line: its key, its values and its place.
#[derive(Debug)]
pub struct Key {
    pub word: &'static str,
    pub count: Count,
    pub values: &'static [Value],
    pub role: Role,
}

const COST: i64 = 1_000_000_000;
const LOAD: i64 = 320_000;
const OUTPUT: i64 = 10_000;

const fn v(name: &'static str, least: i64, most: i64) -> Value {
    up_to(name, least, Most::Is(most))
}

const fn up_to(name: &'static str, least: i64, most: Most) -> Value {
    Value {
        name,
        least,
        most,
        without: None,
        fraction: "",
    }
}

/// A cost.
const fn cost(name: &'static str, most: i64) -> Value {
    Value {
        fraction: "choose a smaller unit of money (README, 'The scale of costs')",
        ..v(name, 0, most)
    }
}

/// An output or a load.
const fn power(name: &'static str, least: i64, most: i64) -> Value {
    Value {
        fraction: "take tenths throughout (README, 'The scale of costs')",
        ..v(name, least, most)
    }
}

/// A multiplier.
const fn price(name: &'static str) -> Value {
    Value {
        fraction: "round it: the bound stays a bound",
        ..v(name, 0, COST)
    }
}

const fn key(word: &'static str, count: Count, values: &'static [Value], role: Role) -> Key {
    Key {
        word,
        count,
        values,
        role,
    }
}

const PROBLEM: &[&str] = &["problem"];
const SCHEDULE: &[&str] = &["schedule"];
const TREE: &[&str] = &["tree"];

/// All lines but the first and the last of a text.
#[rustfmt::skip]
pub const KEYS: &[Key] = &[
    key(PERIODS, Named, &[v("T", 1, 48)], Line(PROBLEM, Once)),
    key(UNITS, Named, &[v("I", 1, 32)], Line(PROBLEM, Once)),
    key("demand", Periods, &[power("demand", 0, LOAD)], Line(PROBLEM, Once)),
    key("spare", Periods, &[power("spare", 0, LOAD)], Line(PROBLEM, Once)),
    key("unit", Named, UNIT, Line(PROBLEM, EachUnit("line"))),
    key(WRITER, Named, &[v("W", 1, 65_535)], Line(&["schedule", "tree"], Once)),
    key("run", Periods, &[power("output", 0, OUTPUT)], Line(SCHEDULE, EachUnit("unit"))),
    key("split", Named, &[up_to("U", 1, Most::Units), up_to("P", 1, Most::Periods)], Node(TREE, 2)),
    key("count", Named, &[up_to("P", 1, Most::Periods), up_to("K", 0, Most::UnitsLess1)], Node(TREE, 2)),
    key("short", Named, &[up_to("P", 1, Most::Periods)], Node(TREE, 0)),
    key("crowd", Named, &[up_to("P", 1, Most::Periods)], Node(TREE, 0)),
    key("stuck", Named, &[up_to("U", 1, Most::Units)], Node(TREE, 0)),
    key("price", Periods, &[price("price")], Node(TREE, 0)),
    key("rampprice", Periods, &[price("price")], Node(TREE, 0)),
    key("reserve", Periods, &[price("reserve price")], Behind(&["price", "rampprice"], Once)),
    key("up", LaterPeriods, &[price("up price")], Behind(&["rampprice"], EachUnit("unit"))),
    key("down", LaterPeriods, &[price("down price")], Behind(&["rampprice"], EachUnit("unit"))),
];

const UNIT: &[Value] = &[
    cost("a", COST),
    cost("b", 10_000_000),
    cost("c", 10_000),
    power("pL", 1, OUTPUT),
    power("pU", 1, OUTPUT),
    v("TU", 1, 48),
    v("TD", 1, 48),
    Value {
        name: "Tini",
        least: -1_000,
        most: Most::Is(1_000),
        without: Some(0),
        fraction: "",
    },
    power("DR", 1, OUTPUT),
    power("UR", 1, OUTPUT),
    cost("Hsc", COST),
    cost("Csc", COST),
    v("Tcold", 0, 48),
    cost("Dc", COST),
    power("p0", 0, OUTPUT),
];

/// The number that a line has under a name.
pub type Numbers<'a> = &'a dyn Fn(&str) -> i64;

/// What the values of one line owe each other.
pub struct Order {
    /// The key of the line.
    pub key: &'static str,
    /// The names of the first and the last value that are marked.
    pub marked: (&'static str, &'static str),
    /// Whether it is kept.
    pub kept: fn(Numbers) -> bool,
    /// What is said where it is not; a name in braces stands for its number.
    pub words: &'static str,
}

/// What the values of a line owe each other, in turn.
pub const ORDERS: &[Order] = &[
    Order {
        key: "unit",
        marked: ("pL", "pU"),
        kept: |of| of("pL") <= of("pU"),
        words: "pL is {pL} and pU is {pU}; pL must be at most pU",
    },
    Order {
        key: "unit",
        marked: ("Hsc", "Csc"),
        kept: |of| of("Hsc") <= of("Csc"),
        words: "Hsc is {Hsc} and Csc is {Csc}; Hsc must be at most Csc",
    },
    Order {
        key: "unit",
        marked: ("p0", "p0"),
        kept: |of| of("Tini") <= 0 || (of("pL") <= of("p0") && of("p0") <= of("pU")),
        words: "p0 is {p0}, but Tini is {Tini}, so the unit is on at midnight: p0 must be from pL {pL} to pU {pU}",
    },
    Order {
        key: "unit",
        marked: ("p0", "p0"),
        kept: |of| of("Tini") >= 0 || of("p0") == 0,
        words: "p0 is {p0}, but Tini is {Tini}, so the unit is off at midnight: p0 must be 0",
    },
];

/// What of the text shows why it was refused.
#[derive(Clone, Copy, Debug, PartialEq, Eq)]
pub enum Shows {
    /// Nothing of it.
    Nothing,
    /// The line of the refusal, which is not the one that is due.
    NotDue,
    /// The line of the refusal, by how many values it has.
    Count,
    /// The line of the refusal, by the first of its values that is out of range.
    Range,
    /// The line of the refusal, by the first of `ORDERS` that it does not keep.
    Order,
    /// All values in the line of the refusal.
    Values,
    /// The value of the refusal's period in the line of its unit.
    Output,
}

/// A number of a refusal, what shows it, and why, in a sentence: for `NotDue` to `Order` said where the text shows nothing.
#[derive(Debug)]
pub struct Why {
    pub number: u64,
    pub shows: Shows,
    pub words: &'static str,
}

const fn why(number: u64, shows: Shows, words: &'static str) -> Why {
    Why {
        number,
        shows,
        words,
    }
}

/// The numbers of refusals.
#[rustfmt::skip]
pub const WHYS: &[Why] = &[
    why(11, Shows::Nothing, "the text has more than 1,048,576 bytes; make it shorter; all up to the next line that begins end= is passed over with it"),
    why(12, Shows::NotDue, "another line is due here; see README, 'Texts'"),
    why(13, Shows::Range, "a value is out of its range; see README, 'Texts'"),
    why(14, Shows::Count, "the line has too few or too many values; see README, 'Texts'"),
    why(15, Shows::Order, "two values of the line do not fit each other; see README, 'Texts'"),
    why(21, Shows::Output, "the output of a unit that is on must be from its pL to its pU, (4); write 0 where it is off"),
    why(22, Shows::Nothing, "the outputs add up to less than the demand, (2)"),
    why(23, Shows::Nothing, "the pU of the units that are on add up to less than demand plus spare, (3)"),
    why(24, Shows::Output, "the unit goes on or off too soon: least periods on TU and off TD, (5) to (10)"),
    why(25, Shows::Output, "the output rises by more than UR or falls by more than DR since the period before, or since p0, (11) and (12)"),
    why(31, Shows::Values, "a split above fixes this unit in this period already; split on another, or leave this split out"),
    why(32, Shows::Values, "no split or count may stand deeper than 63, the root being at 0; write a leaf here"),
    why(33, Shows::Values, "short does not hold: the units that may be on reach demand plus spare; split further, or write another leaf"),
    why(34, Shows::Values, "stuck does not hold: the unit has a permitted run under the splits above; split further, or write another leaf"),
    why(35, Shows::Values, "a unit has no permitted run under the splits above; write stuck=U in this leaf's place"),
    why(36, Shows::Values, "crowd does not hold: no count stands above, or those above agree with the statuses fixed in this period; write another leaf"),
    why(37, Shows::Values, "K must not be below the period's lower count, and must be below its upper count, as the counts above set them"),
    why(41, Shows::Nothing, "a problem is held already; lodge another one in a docket of its own"),
    why(42, Shows::Nothing, "no problem is held yet; lodge the problem first"),
    why(43, Shows::Nothing, "the report does not fit; lend it more bytes"),
];

/// What is said of a number that has no row.
pub const UNKNOWN: &str = "see README, 'Refusals', for this number";

/// The row of a key.
pub fn find(word: &[u8]) -> Option<&'static Key> {
    KEYS.iter().find(|key| key.word.as_bytes() == word)
}

/// The kinds of texts, in the order of the table.
pub fn kinds() -> Vec<&'static str> {
    let mut all = Vec::new();
    for key in KEYS {
        if let Role::Line(of, _) | Role::Node(of, _) = key.role {
            all.extend_from_slice(of);
        }
    }
    let mut kinds = Vec::new();
    for kind in all {
        if !kinds.contains(&kind) {
            kinds.push(kind);
        }
    }
    kinds
}

impl Value {
    /// Whether it may carry a minus.
    pub fn minus(&self) -> bool {
        self.least < 0
    }
}

/// The names of the values that may carry a minus.
pub fn with_minus() -> Vec<&'static str> {
    let values = KEYS.iter().flat_map(|key| key.values);
    values.filter(|v| v.minus()).map(|v| v.name).collect()
}

#[cfg(test)]
mod tests {
    use super::*;

    #[test]
    fn each_key_and_each_number_has_one_row() {
        for (at, key) in KEYS.iter().enumerate() {
            assert!(KEYS[..at].iter().all(|other| other.word != key.word));
            assert!(key.count == Count::Named || key.values.len() == 1);
        }
        for (at, why) in WHYS.iter().enumerate() {
            assert!(WHYS[..at].iter().all(|other| other.number < why.number));
        }
        assert_eq!(kinds()[..2], ["problem", "schedule"]);
        assert!(with_minus().contains(&"Tini"));
    }

    #[test]
    fn what_is_named_in_the_table_stands_in_it() {
        for key in KEYS {
            if let Role::Behind(nodes, _) = key.role {
                for node in nodes {
                    let node = find(node.as_bytes()).expect("a row");
                    assert!(matches!(node.role, Role::Node(..)));
                }
            }
        }
        for order in ORDERS {
            let row = find(order.key.as_bytes()).expect("a row");
            for name in [order.marked.0, order.marked.1] {
                assert!(row.values.iter().any(|value| value.name == name));
            }
        }
        for word in [PERIODS, UNITS, WRITER] {
            assert!(find(word.as_bytes()).is_some());
        }
    }
}
