//! Values that are given apart from a text, by the row of the line that has such values.

use super::called::{brief, called};
use super::due::Walk;
use super::table::{self, Role};
use super::{counted, lines, notdue, ranged, Plant};

/// The numbers of values that are written as a line of this key has them, or what is wrong with them, in words. Where no plant
/// is given, what hangs on its size is left open.
pub fn numbers(key: &str, values: &str, held: Option<Plant>) -> Result<Vec<u64>, String> {
    let (line, walk) = (format!("{key}={values}"), Walk::new(held));
    let line = line.as_bytes();
    let fault = empty(line, &walk)
        .or_else(|| below_0(line, &walk))
        .or_else(|| notdue::of_numbers(line, &walk).map(|fault| fault.words))
        .or_else(|| counted::fault(line, &walk).map(|fault| fault.words))
        .or_else(|| ranged::fault(line, &walk).map(|fault| fault.words));
    match fault {
        Some(words) => Err(words),
        None => Ok(numbers_of(line)),
    }
}

/// The first value that is empty.
fn empty(line: &[u8], walk: &Walk) -> Option<String> {
    let key = table::find(lines::key_of(line)?)?;
    let at = lines::values(line).position(|place| place.is_empty())?;
    Some(format!("{} is empty", called(walk, key, at)))
}

/// The first value that is a number with a minus; none may have one.
fn below_0(line: &[u8], walk: &Walk) -> Option<String> {
    let key = table::find(lines::key_of(line)?)?;
    let below = |value: &[u8]| lines::number(value).is_some_and(|number| number < 0);
    let (at, place) = lines::values(line)
        .enumerate()
        .find(|(_, place)| below(&line[place.clone()]))?;
    let (name, value) = (called(walk, key, at), brief(&line[place]));
    Some(format!("{name} reads {value}: it cannot be below 0"))
}

/// The numbers of a line whose values are such.
pub fn numbers_of(line: &[u8]) -> Vec<u64> {
    let numbers = lines::values(line).filter_map(|place| lines::number(&line[place]));
    numbers
        .filter_map(|number| number.try_into().ok())
        .collect()
}

/// A node of a tree: its key, its values as numbers, and how many trees stand below it.
pub struct Node {
    /// The key.
    pub key: &'static str,
    /// The numbers of its line.
    pub numbers: Vec<u64>,
    /// The trees below it.
    pub below: usize,
}

impl Node {
    /// The node that a line of an accepted tree begins; none where the line belongs to a node before it, or to no tree.
    pub fn of(line: &[u8]) -> Option<Node> {
        let key = table::find(lines::key_of(line)?)?;
        match key.role {
            Role::Node(_, below) => Some(Node {
                key: key.word,
                numbers: numbers_of(line),
                below,
            }),
            _ => None,
        }
    }
}

#[cfg(test)]
mod tests {
    use super::*;

    const PLANT: Option<Plant> = Some(Plant {
        periods: 2,
        units: 3,
    });

    #[test]
    fn values_are_read_as_a_line_has_them() {
        assert_eq!(
            numbers("price", "0,1000000000", PLANT),
            Ok(vec![0, 1_000_000_000])
        );
        assert_eq!(numbers("price", "1,2,3", None), Ok(vec![1, 2, 3]));
        assert_eq!(numbers("split", "3,2", PLANT), Ok(vec![3, 2]));
        assert_eq!(numbers("split", "9,0", None), Ok(vec![9, 0]));
    }

    #[rustfmt::skip]
    const WRONG: [(&str, &str, &str); 13] = [
        ("price", "", "the price of period 1 is empty"),
        ("price", "10,", "the price of period 2 is empty"),
        ("reserve", ",10", "the reserve price of period 1 is empty"),
        ("price", "10,014", "the price of period 2 reads 014: no leading zeros; write 14, or 10014 if one number is meant"),
        ("price", "10,+14", "the price of period 2 reads +14: no plus; write 14"),
        ("price", "10,-14", "the price of period 2 reads -14: it cannot be below 0"),
        ("price", "10, 14", "a space stands before the price of period 2: take it out"),
        ("price", "10\n14", "a control byte (byte 10) stands in the price of period 1: take it out"),
        ("price", "10,999999999999999999999", "the price of period 2 is 999999999999999999999; 0 to 1,000,000,000 is its range"),
        ("price", "10", "1 value stands here and 2 are due, one for each period: period 2 is missing"),
        ("price", "10,14,18", "3 values stand here and 2 are due, one for each period: the last, 18, is too many"),
        ("split", "4,2", "U is 4; 1 to 3 (I, the units) is its range"),
        ("split", "2", "1 value stands here and 2 are due, U and P: P is missing"),
    ];

    #[test]
    fn what_is_wrong_is_said() {
        for (key, values, words) in WRONG {
            assert_eq!(numbers(key, values, PLANT), Err(words.into()), "{values:?}");
        }
    }

    #[test]
    fn nodes_are_told_from_other_lines() {
        let below = |line: &[u8]| Node::of(line).map(|node| (node.key, node.numbers, node.below));
        assert_eq!(below(b"split=2,1"), Some(("split", vec![2, 1], 2)));
        assert_eq!(below(b"count=2,0"), Some(("count", vec![2, 0], 2)));
        assert_eq!(below(b"price=10,14"), Some(("price", vec![10, 14], 0)));
        for line in [
            "kind=tree",
            "writer=3",
            "reserve=0,0",
            "up=0",
            "down=0",
            "end=tree",
            "",
            "=",
        ] {
            assert_eq!(below(line.as_bytes()), None, "{line}");
        }
    }
}
