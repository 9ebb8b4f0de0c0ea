//! A value out of its range.

use super::called::{brief, called};
use super::due::Walk;
use super::table::{self, Count, Most, Value};
use super::{lines, Fault};

/// The first value of the line that is out of its range.
pub fn fault(line: &[u8], walk: &Walk) -> Option<Fault> {
    let key = table::find(lines::key_of(line)?)?;
    for (at, place) in lines::values(line).enumerate() {
        let value = match key.count {
            Count::Named => key.values.get(at)?,
            _ => key.values.first()?,
        };
        let number = lines::number(&line[place.clone()])?;
        let most = most(value, walk)?;
        if number < value.least || number > most || value.without == Some(number) {
            let name = called(walk, key, at);
            let given = brief(&line[place.clone()]);
            let words = format!("{name} is {given}; {} is its range", range(value, most));
            return Some(Fault::new(place, words));
        }
    }
    None
}

/// Whether a number is in the range of a line's first value.
pub fn within(line: &[u8], number: &str, walk: &Walk) -> bool {
    let key = lines::key_of(line).and_then(table::find);
    let value = key.and_then(|key| key.values.first());
    let most = value.and_then(|value| most(value, walk));
    match (value, most, lines::number(number.as_bytes())) {
        (Some(value), Some(most), Some(number)) => (value.least..=most).contains(&number),
        _ => false,
    }
}

/// The upper end of a value's range.
fn most(value: &Value, walk: &Walk) -> Option<i64> {
    let most = match value.most {
        Most::Is(most) => return Some(most),
        Most::Periods => walk.periods?,
        Most::Units => walk.units?,
        Most::UnitsLess1 => walk.units?.saturating_sub(1),
    };
    i64::try_from(most).ok()
}

/// A range, with what it comes from.
fn range(value: &Value, most: i64) -> String {
    let range = format!("{} to {}", grouped(value.least), grouped(most));
    match (value.without, value.most) {
        (Some(without), _) => format!("{range} without {without}"),
        (None, Most::Is(_)) => range,
        (None, Most::Periods) => format!("{range} (T, the periods)"),
        (None, Most::Units) => format!("{range} (I, the units)"),
        (None, Most::UnitsLess1) => format!("{range} (I - 1, one less than the units)"),
    }
}

/// The number with a comma between thousands.
pub fn grouped(number: i64) -> String {
    let digits = number.unsigned_abs().to_string();
    let mut text = String::new();
    for (at, digit) in digits.chars().enumerate() {
        if at > 0 && (digits.len() - at).is_multiple_of(3) {
            text.push(',');
        }
        text.push(digit);
    }
    match number < 0 {
        true => format!("-{text}"),
        false => text,
    }
}

#[cfg(test)]
mod tests {
    use super::grouped;

    #[test]
    fn thousands_are_parted() {
        for (number, text) in [
            (0, "0"),
            (999, "999"),
            (-1_000, "-1,000"),
            (1_000_000_000, "1,000,000,000"),
            (i64::MIN, "-9,223,372,036,854,775,808"),
        ] {
            assert_eq!(grouped(number), text);
        }
    }
}
