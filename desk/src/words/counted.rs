//! A line with too few or too many values.

use super::called::{brief, called, due_count};
use super::due::Walk;
use super::table::{self, Count, Key};
use super::{lines, ranged, Fault};
use std::ops::Range;

/// How many values the line has, how many are due, and which are missing or too many.
pub fn fault(line: &[u8], walk: &Walk) -> Option<Fault> {
    let key = table::find(lines::key_of(line)?)?;
    let due = due_count(walk, key)?;
    let given = lines::values(line).count();
    let (place, which) = match given < due {
        true => (line.len()..line.len(), missing(walk, key, given, due)),
        false => too_many(line, given, due, walk)?,
    };
    let have = match given {
        1 => "1 value stands here".to_string(),
        _ => format!("{given} values stand here"),
    };
    let verb = if due == 1 { "is" } else { "are" };
    let words = format!("{have} and {due} {verb} due, {}: {which}", cause(key));
    Some(Fault::new(place, words))
}

/// Why so many values are due.
fn cause(key: &Key) -> String {
    match (key.count, key.values) {
        (Count::Periods, _) => "one for each period".into(),
        (Count::LaterPeriods, _) => "one for each period but the first".into(),
        (Count::Named, [first, _, .., last]) => format!("{} to {}", first.name, last.name),
        (Count::Named, values) => {
            let names: Vec<&str> = values.iter().map(|value| value.name).collect();
            names.join(" and ")
        }
    }
}

/// The values that are missing behind the last.
fn missing(walk: &Walk, key: &Key, given: usize, due: usize) -> String {
    let first_period = match key.count {
        Count::Named => {
            let (first, last) = (called(walk, key, given), called(walk, key, due - 1));
            return match due - given {
                1 => format!("{first} is missing"),
                _ => format!("{first} to {last} are missing"),
            };
        }
        Count::Periods => 1,
        Count::LaterPeriods => 2,
    };
    let (first, last) = (given + first_period, (due - 1).saturating_add(first_period));
    match due - given {
        1 => format!("period {first} is missing"),
        _ => format!("periods {first} to {last} are missing"),
    }
}

/// The values behind the last that is due.
fn too_many(line: &[u8], given: usize, due: usize, walk: &Walk) -> Option<(Range<usize>, String)> {
    let first = lines::values(line).nth(due)?;
    let place = first.start..line.len();
    let one = parted(line).filter(|number| ranged::within(line, number, walk));
    if let (1, Some(number)) = (due, one) {
        return Some((place, format!("write {number}, with no comma inside it")));
    }
    let which = match given - due {
        1 => format!("the last, {}, is too many", brief(&line[first])),
        many => format!("the last {many} are too many"),
    };
    let which = match thousands(line, due) {
        true => format!("{which} (is a comma inside a number?)"),
        false => which,
    };
    Some((place, which))
}

/// The number of a line whose commas part its thousands.
fn parted(line: &[u8]) -> Option<String> {
    const MOST: usize = 4;
    let places = lines::values(line).take(MOST + 1);
    let values: Vec<&[u8]> = places.map(|place| &line[place]).collect();
    let (first, others) = values.split_first()?;
    let threes = others.iter().all(|value| value.len() == 3) && others.len() < MOST;
    let begins = (1..=3).contains(&first.len()) && *first != b"0";
    (threes && begins).then(|| brief(&values.concat()))
}

/// Whether one of the values that are due looks like the thousands of a number, and the next like the rest of it.
fn thousands(line: &[u8], due: usize) -> bool {
    let key = lines::key_of(line).and_then(table::find);
    let named = key.is_some_and(|key| key.count == Count::Named);
    let places = lines::values(line).take(due);
    let lengths: Vec<usize> = places.map(|place| place.len()).collect();
    named && lengths.windows(2).any(|two| two[0] <= 3 && two[1] == 3)
}
