//! Which line is due, found by following the lines of a text before it.

use super::lines::{self, behind_key, key_of};
use super::table::{self, Count, Key, Often, Role, FIRST, KEYS, LAST};
use super::Plant;

/// What is due at a line.
#[derive(Clone, Copy, Debug)]
pub enum Due {
    /// The first line of a text.
    First,
    /// A line of this key, the nth of so many units' where it stands once for each.
    Line(&'static Key, Option<(usize, usize)>),
    /// A node of a tree.
    Node,
    /// The end line.
    End,
    /// Nothing: the text has ended.
    Nothing,
    /// It cannot be told.
    Unknown,
}

/// Lines that are due one after the other.
#[derive(Clone, Debug)]
enum Item {
    /// Lines of these keys in turn, so many times round, `at` of them taken in this round.
    Lines {
        keys: Vec<&'static Key>,
        often: Often,
        round: usize,
        at: usize,
    },
    /// So many trees.
    Trees(usize),
    /// The end line.
    End,
}

/// A text that was followed up to a line.
#[derive(Clone, Debug)]
pub struct Walk {
    /// The kind that its first line names.
    pub kind: Option<&'static str>,
    pub periods: Option<usize>,
    pub units: Option<usize>,
    /// The node whose following lines are due, and its line.
    node: Option<(&'static str, u64)>,
    /// What is still due, the next last.
    agenda: Vec<Item>,
    line: u64,
    lost: bool,
}

impl Walk {
    /// The text followed up to the line of this number, which is not read.
    pub fn to(text: &[u8], number: u64, held: Option<Plant>) -> Walk {
        let mut walk = Walk::new(held);
        let before = usize::try_from(number.saturating_sub(1)).unwrap_or(usize::MAX);
        for line in lines::lines(text).take(before) {
            if walk.lost {
                break;
            }
            walk.take(line.bytes);
        }
        walk
    }

    /// A text of which nothing was read.
    pub fn new(held: Option<Plant>) -> Walk {
        Walk {
            kind: None,
            periods: held.map(|plant| plant.periods),
            units: held.map(|plant| plant.units),
            node: None,
            agenda: Vec::new(),
            line: 0,
            lost: false,
        }
    }

    /// What is due now.
    pub fn due(&self) -> Due {
        if self.lost {
            return Due::Unknown;
        }
        match self.agenda.last() {
            None if self.kind.is_none() => Due::First,
            None => Due::Nothing,
            Some(Item::End) => Due::End,
            Some(Item::Trees(_)) => Due::Node,
            Some(Item::Lines {
                keys,
                often,
                round,
                at,
            }) => match (often, self.units) {
                (Often::Once, _) => Due::Line(keys[*at], None),
                (Often::EachUnit(_), Some(units)) => Due::Line(keys[*at], Some((round + 1, units))),
                (Often::EachUnit(_), None) => Due::Unknown,
            },
        }
    }

    /// Takes the next line, as the docket took it.
    pub fn take(&mut self, line: &[u8]) {
        self.line += 1;
        let key = key_of(line).unwrap_or_default();
        let word = &line[behind_key(line)];
        match self.due() {
            Due::First => self.begin(key, word),
            Due::Line(due, _) if due.word.as_bytes() == key => {
                self.measure(due, line);
                self.pass();
            }
            Due::Node => self.open(key),
            Due::End if key == LAST.as_bytes() && self.is_kind(word) => self.pass(),
            _ => self.lost = true,
        }
    }

    fn is_kind(&self, word: &[u8]) -> bool {
        self.kind.is_some_and(|kind| kind.as_bytes() == word)
    }

    /// Takes the first line.
    fn begin(&mut self, key: &[u8], word: &[u8]) {
        let kinds = table::kinds();
        let kind = kinds.into_iter().find(|kind| kind.as_bytes() == word);
        if key != FIRST.as_bytes() || kind.is_none() {
            self.lost = true;
            return;
        }
        self.kind = kind;
        self.agenda = kind.map(agenda_of).unwrap_or_default();
        self.settle();
    }

    /// Keeps T and I from the lines that tell them.
    fn measure(&mut self, key: &Key, line: &[u8]) {
        let number = lines::number(&line[behind_key(line)]);
        let size = number.and_then(|number| usize::try_from(number).ok());
        match key.word {
            table::PERIODS => self.periods = size,
            table::UNITS => self.units = size,
            _ => {}
        }
    }

    /// Takes a node's line.
    fn open(&mut self, word: &[u8]) {
        let kind = self.kind.unwrap_or_default();
        let node = nodes(kind).find(|key| key.word.as_bytes() == word);
        let Some((key, Role::Node(_, below))) = node.map(|key| (key, key.role)) else {
            self.lost = true;
            return;
        };
        if let Some(Item::Trees(trees)) = self.agenda.last_mut() {
            *trees = trees.saturating_sub(1).saturating_add(below);
        }
        self.node = Some((key.word, self.line));
        let behind = KEYS.iter().filter_map(|line| match line.role {
            Role::Behind(of, often) if of.contains(&key.word) => Some((line, often)),
            _ => None,
        });
        let mut items = rounds(behind);
        items.reverse();
        self.agenda.append(&mut items);
        self.settle();
    }

    /// Takes the line that is due, or the end line, whatever it says.
    pub fn pass(&mut self) {
        match self.agenda.last_mut() {
            Some(Item::Lines {
                keys, round, at, ..
            }) => {
                *at += 1;
                if *at == keys.len() {
                    (*round, *at) = (*round + 1, 0);
                }
            }
            _ => {
                self.agenda.pop();
            }
        }
        self.settle();
    }

    /// Drops what is no longer due.
    fn settle(&mut self) {
        let no_later = self.periods == Some(1);
        let units = self.units;
        while let Some(item) = self.agenda.last_mut() {
            let over = match item {
                Item::End => false,
                Item::Trees(trees) => *trees == 0,
                Item::Lines {
                    keys, often, round, ..
                } => {
                    if no_later && *round == 0 {
                        keys.retain(|key| key.count != Count::LaterPeriods);
                    }
                    let rounds = match often {
                        Often::Once => Some(1),
                        Often::EachUnit(_) => units,
                    };
                    keys.is_empty() || rounds.is_some_and(|rounds| *round >= rounds)
                }
            };
            if !over {
                break;
            }
            self.agenda.pop();
        }
    }

    /// The key of the node that was read last.
    pub fn node(&self) -> Option<&'static str> {
        self.node.map(|(node, _)| node)
    }

    /// The keys one of which the due line has.
    pub fn keys(&self) -> Vec<&'static str> {
        match self.due() {
            Due::First => vec![FIRST],
            Due::Line(key, _) => vec![key.word],
            Due::Node => nodes(self.kind.unwrap_or_default())
                .map(|key| key.word)
                .collect(),
            Due::End => vec![LAST],
            Due::Nothing | Due::Unknown => Vec::new(),
        }
    }

    /// How many trees are due, and how many lines besides, the end line among them.
    pub fn left(&self) -> (usize, usize) {
        let (mut trees, mut lines) = (0, 0_usize);
        for item in &self.agenda {
            match item {
                Item::Trees(due) => trees = *due,
                Item::End => lines = lines.saturating_add(1),
                Item::Lines {
                    keys,
                    often,
                    round,
                    at,
                } => {
                    let rounds = match often {
                        Often::Once => 1,
                        Often::EachUnit(_) => self.units.unwrap_or(1),
                    };
                    let all = rounds.saturating_sub(*round).saturating_mul(keys.len());
                    lines = lines.saturating_add(all.saturating_sub(*at));
                }
            }
        }
        (trees, lines)
    }

    /// What is due, in words.
    pub fn words(&self) -> String {
        match self.due() {
            Due::First => either(&pairs(FIRST, &table::kinds())),
            Due::Line(key, nth) => self.line_words(key, nth),
            Due::Node => format!("a line of the tree ({})", either(&pairs("", &self.keys()))),
            Due::End => format!("{LAST}={}", self.kind.unwrap_or_default()),
            Due::Nothing => "nothing".into(),
            Due::Unknown => "another line".into(),
        }
    }

    fn line_words(&self, key: &Key, nth: Option<(usize, usize)>) -> String {
        let mut places = Vec::new();
        if let (
            Role::Line(_, Often::EachUnit(word)) | Role::Behind(_, Often::EachUnit(word)),
            Some((nth, of)),
        ) = (key.role, nth)
        {
            places.push(format!("{word} {nth} of {of}"));
        }
        if let (Role::Behind(..), Some((node, line))) = (key.role, self.node) {
            places.push(format!("of {node}= in line {line}"));
        }
        match places.is_empty() {
            true => format!("{}=", key.word),
            false => format!("{}= ({})", key.word, places.join(", ")),
        }
    }
}

/// All that is due behind the first line of a text of this kind, the next last.
fn agenda_of(kind: &'static str) -> Vec<Item> {
    let lines = KEYS.iter().filter_map(|key| match key.role {
        Role::Line(of, often) if of.contains(&kind) => Some((key, often)),
        _ => None,
    });
    let mut items = rounds(lines);
    if nodes(kind).next().is_some() {
        items.push(Item::Trees(1));
    }
    items.push(Item::End);
    items.reverse();
    items
}

/// The lines as they are due in turn: those that stand once, and neighbours that stand once for each unit together.
fn rounds(lines: impl Iterator<Item = (&'static Key, Often)>) -> Vec<Item> {
    let mut items: Vec<Item> = Vec::new();
    for (key, often) in lines {
        match items.last_mut() {
            Some(Item::Lines {
                keys, often: last, ..
            }) if often != Often::Once && *last == often => {
                keys.push(key);
            }
            _ => items.push(Item::Lines {
                keys: vec![key],
                often,
                round: 0,
                at: 0,
            }),
        }
    }
    items
}

/// The nodes of a tree in a text of this kind.
fn nodes(kind: &str) -> impl Iterator<Item = &'static Key> + '_ {
    KEYS.iter()
        .filter(move |key| matches!(key.role, Role::Node(of, _) if of.contains(&kind)))
}

/// `key=word` for each word; `word=` where no key is given.
fn pairs(key: &str, words: &[&str]) -> Vec<String> {
    let pair = |word: &&str| match key {
        "" => format!("{word}="),
        _ => format!("{key}={word}"),
    };
    words.iter().map(pair).collect()
}

/// The words joined by commas, and by `or` before the last.
pub fn either(words: &[String]) -> String {
    match words {
        [] => String::new(),
        [word] => word.clone(),
        [first @ .., last] => format!("{} or {last}", first.join(", ")),
    }
}
