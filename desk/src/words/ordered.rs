//! Values of one line that do not fit each other.

use super::table::{self, Key, Order, ORDERS};
use super::{lines, Fault};
use std::ops::Range;

/// The first order that the line does not keep.
pub fn fault(line: &[u8]) -> Option<Fault> {
    let key = table::find(lines::key_of(line)?)?;
    let places: Vec<Range<usize>> = lines::values(line).take(key.values.len()).collect();
    if places.len() < key.values.len() {
        return None;
    }
    let mut numbers = Vec::new();
    for place in &places {
        numbers.push(lines::number(&line[place.clone()])?);
    }
    let number = |name: &str| place_of(key, name).map_or(0, |at| numbers[at]);
    let orders = ORDERS.iter().filter(|order| order.key == key.word);
    let broken = orders.into_iter().find(|order| !(order.kept)(&number))?;
    let first = places.get(place_of(key, broken.marked.0)?)?;
    let last = places.get(place_of(key, broken.marked.1)?)?;
    let words = filled(broken, key, &number);
    Some(Fault::new(first.start..last.end.max(first.start), words))
}

fn place_of(key: &Key, name: &str) -> Option<usize> {
    key.values.iter().position(|value| value.name == name)
}

/// The words of an order, with numbers for names in braces.
fn filled(order: &Order, key: &Key, number: table::Numbers) -> String {
    let mut words = order.words.to_string();
    for value in key.values {
        let name = format!("{{{}}}", value.name);
        words = words.replace(&name, &number(value.name).to_string());
    }
    words
}
