//! How values are called and shown.

use super::due::Walk;
use super::table::{Count, Key};
use crate::printed;

/// The bytes as they are printed, the middle of a long row of them left out.
pub fn brief(bytes: &[u8]) -> String {
    const MOST: usize = 24;
    if bytes.len() <= MOST {
        return printed::shown(bytes);
    }
    let (start, end) = (&bytes[..MOST / 2], &bytes[bytes.len() - 4..]);
    format!("{}..{}", printed::shown(start), printed::shown(end))
}

/// How a value is called: by its name, or by its period.
pub fn called(walk: &Walk, key: &Key, at: usize) -> String {
    let name = key.values.first().map_or("value", |value| value.name);
    let (first, count) = match key.count {
        Count::Named => {
            let value = key.values.get(at);
            return value.map_or(format!("value {}", at + 1), |value| value.name.into());
        }
        Count::Periods => (1, walk.periods),
        Count::LaterPeriods => (2, walk.periods.map(|all| all.saturating_sub(1))),
    };
    match count {
        Some(count) if at >= count => format!("value {}", at + 1),
        _ => format!("the {name} of period {}", at + first),
    }
}

/// How many values the line has, where it is known.
pub fn due_count(walk: &Walk, key: &Key) -> Option<usize> {
    match key.count {
        Count::Named => Some(key.values.len()),
        Count::Periods => walk.periods,
        Count::LaterPeriods => walk.periods.map(|all| all.saturating_sub(1)),
    }
}
