//! A line whose key is well written but not due.

use super::called::brief;
use super::due::{either, Due, Walk};
use super::lines::{behind_key, key_of, line_at};
use super::table::{self, Count, Key, Often, Role, FIRST, LAST};

/// The keys of the lines before and after a line.
pub struct Around<'a> {
    before: Option<&'a [u8]>,
    after: Option<&'a [u8]>,
}

impl<'a> Around<'a> {
    /// The lines around the line of this number.
    pub fn of(text: &'a [u8], number: u64) -> Around<'a> {
        let key = |number| line_at(text, number).and_then(|line| key_of(line.bytes));
        Around {
            before: number.checked_sub(1).and_then(key),
            after: number.checked_add(1).and_then(key),
        }
    }

    /// What is said of a line with this key, which is not due.
    pub fn misplaced(&self, line: &[u8], key: &[u8], walk: &Walk) -> String {
        let due = walk.keys();
        let near = nearest(key, &due);
        let stands = format!("{}= stands here", brief(key));
        let known = table::find(key);
        if key == LAST.as_bytes() && !matches!(walk.due(), Due::First) {
            return early_end(line, walk);
        }
        if known.is_none() && key != FIRST.as_bytes() && key != LAST.as_bytes() {
            return match near {
                Some(near) => format!("{stands}: did you mean {near}=?"),
                None => format!("{stands}, which is no key of any text"),
            };
        }
        if let Due::First = walk.due() {
            return format!("{stands}: did an {LAST}= line before it come too early?");
        }
        if key == FIRST.as_bytes() {
            return format!("{stands}: another text begins before this one has ended");
        }
        if let Some(near) = near.filter(|near| distance(key, near.as_bytes()) == 1) {
            return format!("{stands}: did you mean {near}=?");
        }
        match self.hint(key, walk).or_else(|| elsewhere(key, walk)) {
            Some(hint) => format!("{stands}{hint}"),
            None => stands,
        }
    }

    /// Whether the line that is due is missing, or exchanged with this one, or this one stands twice.
    fn hint(&self, key: &[u8], walk: &Walk) -> Option<String> {
        let row = table::find(key)?;
        let again = self.before == Some(key) && !matches!(row.role, Role::Node(..));
        let Due::Line(due, _) = walk.due() else {
            return again.then(|| twice(row, walk));
        };
        let mut next = walk.clone();
        next.pass();
        let comes = next.keys().iter().any(|word| word.as_bytes() == key);
        let follows = self.after == Some(due.word.as_bytes());
        let missing = format!("{}= is missing before it", due.word);
        match (self.before == Some(key), comes, follows) {
            (true, false, _) => Some(" a second time".into()),
            (true, true, true) => Some(format!(" a second time, or {missing}")),
            (false, true, true) if in_turn(due) => {
                Some(format!(": {missing}, or the two lines are exchanged"))
            }
            (false, true, true) => Some(": the two lines are exchanged".into()),
            (_, true, false) => Some(format!(": {missing}")),
            (false, false, _) => None,
        }
    }
}

/// Whether lines of this key and another take turns, unit by unit: their neighbours do not tell which of them is missing.
fn in_turn(key: &Key) -> bool {
    matches!(key.role, Role::Behind(_, Often::EachUnit(_)))
}

/// What is said of a line that stands once too often.
fn twice(row: &Key, walk: &Walk) -> String {
    let (Role::Line(_, often) | Role::Behind(_, often)) = row.role else {
        return String::new();
    };
    match (often, walk.units) {
        (Often::EachUnit(_), Some(units)) => {
            format!(": one more than the units, which are {units}")
        }
        _ => " a second time".into(),
    }
}

/// What is said of an end line that comes before its turn.
fn early_end(line: &[u8], walk: &Walk) -> String {
    let stands = format!("{LAST}={} stands here", brief(&line[behind_key(line)]));
    match walk.left() {
        (0, 0 | 1) => stands,
        (0, 2) => format!("{stands}, 1 line too early"),
        (0, lines) => format!("{stands}, {} lines too early", lines - 1),
        (1, _) => format!("{stands}, and 1 tree is missing"),
        (trees, _) => format!("{stands}, and {trees} trees are missing"),
    }
}

/// Where a line of this key belongs, if not in this text or not here.
fn elsewhere(key: &[u8], walk: &Walk) -> Option<String> {
    let kind = walk.kind?;
    match table::find(key)?.role {
        Role::Line(of, _) | Role::Node(of, _) if !of.contains(&kind) => {
            let of: Vec<String> = of.iter().map(|kind| format!("a {kind}")).collect();
            Some(format!(": it is a line of {}", either(&of)))
        }
        Role::Node(..) if matches!(walk.due(), Due::End) => Some(": the tree is whole".into()),
        Role::Behind(nodes, _) if walk.node().is_some_and(|node| nodes.contains(&node)) => {
            let row = table::find(key)?;
            match walk.periods {
                Some(1) if row.count == Count::LaterPeriods => {
                    Some(": with one period there is no such line".into())
                }
                _ => Some(twice(row, walk)),
            }
        }
        Role::Behind(nodes, _) if matches!(walk.due(), Due::Node | Due::End) => {
            let nodes: Vec<String> = nodes.iter().map(|node| format!("{node}=")).collect();
            Some(format!(": it belongs behind {}", either(&nodes)))
        }
        _ => None,
    }
}

/// The word of these that is nearest, if it is near.
pub fn nearest<'a>(word: &[u8], words: &[&'a str]) -> Option<&'a str> {
    let word = word.to_ascii_lowercase();
    let far = |other: &&&str| distance(&word, other.as_bytes());
    let near = words.iter().min_by_key(far)?;
    (far(&near) <= (near.len() / 2).min(2)).then_some(*near)
}

/// How many letters are to be put in, taken out, changed or exchanged with their neighbour to get from one word to the other;
/// more than any word's for a word that is too long.
fn distance(from: &[u8], to: &[u8]) -> usize {
    const LONGEST: usize = 32;
    if from.len() > LONGEST || to.len() > LONGEST {
        return usize::MAX;
    }
    let mut rows = vec![(0..=to.len()).collect::<Vec<usize>>()];
    for i in 1..=from.len() {
        let mut row = vec![i];
        for j in 1..=to.len() {
            let changed = usize::from(from[i - 1] != to[j - 1]);
            let mut least = (rows[i - 1][j] + 1)
                .min(row[j - 1] + 1)
                .min(rows[i - 1][j - 1] + changed);
            if i > 1 && j > 1 && from[i - 1] == to[j - 2] && from[i - 2] == to[j - 1] {
                least = least.min(rows[i - 2][j - 2] + 1);
            }
            row.push(least);
        }
        rows.push(row);
    }
    rows[from.len()][to.len()]
}

#[cfg(test)]
mod tests {
    use super::{distance, nearest};

    #[test]
    fn near_words_are_found() {
        assert_eq!(distance(b"uint", b"unit"), 1);
        assert_eq!(distance(b"demnd", b"demand"), 1);
        assert_eq!(distance(b"", b"run"), 3);
        assert_eq!(distance(&[b'x'; 33], b"run"), usize::MAX);
        assert_eq!(nearest(b"spilt", &["split", "count"]), Some("split"));
        assert_eq!(nearest(b"ab", &["up"]), None);
        assert_eq!(nearest(b"x", &[]), None);
    }
}
