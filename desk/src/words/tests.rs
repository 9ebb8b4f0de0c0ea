//! What is said to be due, against the docket: a line of that key in the place of the refused one is not refused by 12.

use super::called::due_count;
use super::due::{Due, Walk};
use super::lines::{line_at, lines};
use super::notdue::{self, due_here};
use super::table::{self, Count, Key, Most, Shows};
use super::{counted, ordered, ranged};
use super::{kind, reason, writer, Plant};
use docket::{Docket, Refusal, Verdict};
use std::path::Path;

/// The inputs of these folders of the repository.
fn inputs(folders: &[&str]) -> Vec<Vec<u8>> {
    let root = Path::new(env!("CARGO_MANIFEST_DIR")).join("..");
    let mut files = Vec::new();
    for folder in folders {
        for entry in std::fs::read_dir(root.join(folder)).expect("a folder") {
            let path = entry.expect("a file").path();
            if path.extension().is_some_and(|end| end == "txt") {
                files.push(path);
            }
        }
    }
    files.sort();
    let read = |path| std::fs::read(path).expect("a file");
    files.iter().map(read).collect()
}

/// The texts of an input, cut after each line that begins `end=`.
fn texts(input: &[u8]) -> Vec<&[u8]> {
    let (mut texts, mut from, mut at) = (Vec::new(), 0, 0);
    for line in input.split_inclusive(|&byte| byte == b'\n') {
        at += line.len();
        if line.starts_with(b"end=") && line.ends_with(b"\n") {
            texts.push(&input[from..at]);
            from = at;
        }
    }
    if from < input.len() {
        texts.push(&input[from..]);
    }
    texts
}

/// A well-formed line of a key.
fn line_of(key: &Key, walk: &Walk) -> String {
    let count = due_count(walk, key).expect("a count");
    let value = |at: usize| match key.count {
        Count::Named => key.values[at].least.to_string(),
        _ => key.values[0].least.to_string(),
    };
    let values: Vec<String> = (0..count).map(value).collect();
    format!("{}={}", key.word, values.join(","))
}

/// Well-formed lines of what is due; none where nothing is.
fn due_lines(walk: &Walk) -> Vec<String> {
    match walk.due() {
        Due::First => table::kinds().iter().map(|k| format!("kind={k}")).collect(),
        Due::Line(key, _) => vec![line_of(key, walk)],
        Due::Node => {
            let row = |word: &&str| table::find(word.as_bytes()).expect("a row");
            let keys = walk.keys();
            keys.iter().map(|word| line_of(row(word), walk)).collect()
        }
        Due::End => vec![format!("end={}", walk.kind.expect("a kind"))],
        Due::Nothing => Vec::new(),
        Due::Unknown => panic!("what is due is not known"),
    }
}

/// The text with another line in the place of one, or without that and all behind it.
fn replaced(text: &[u8], number: u64, line: Option<&str>) -> Vec<u8> {
    let mut new = Vec::new();
    for (old, at) in lines(text).zip(1..) {
        match line {
            None if at >= number => break,
            Some(line) if at == number => new.extend_from_slice(line.as_bytes()),
            _ => new.extend_from_slice(old.bytes),
        }
        if old.ended || at == number {
            new.push(b'\n');
        }
    }
    new
}

/// What is said of a text that 12 refuses at a line, tried with the docket.
fn consistent(docket: &Docket, text: &[u8], refusal: Refusal, held: Option<Plant>) {
    let walk = Walk::to(text, refusal.line, held);
    let said = reason(text, refusal, held).words;
    let due = match walk.due() {
        Due::Nothing => format!(
            "nothing may stand behind end={}",
            kind(text).expect("a kind")
        ),
        _ => format!(
            "{} is due",
            due_here(line_at(text, refusal.line).expect("a line"), &walk)
        ),
    };
    assert!(said.contains(&due), "{said}");
    let lines = due_lines(&walk);
    let mut tried: Vec<Vec<u8>> = lines
        .iter()
        .map(|line| replaced(text, refusal.line, Some(line)))
        .collect();
    if lines.is_empty() {
        tried.push(replaced(text, refusal.line, None));
    }
    for text in tried {
        if let Verdict::Refused(again) = docket.clone().lodge(&text).verdict() {
            let moved = again.line > refusal.line || again.line == 0;
            let other = again.number != 12 && again.line == refusal.line;
            assert!(moved || other, "{said}\n{again}\n{}", text.escape_ascii());
        }
    }
}

/// The refusals of an input: each with its docket before, its text and the plant held.
fn refused(input: &[u8], mut each: impl FnMut(&Docket, &[u8], Refusal, Option<Plant>)) {
    let (mut docket, mut held) = (Docket::new(), None);
    for text in texts(input) {
        let before = docket.clone();
        match docket.lodge(text).verdict() {
            Verdict::Refused(refusal) => each(&before, text, refusal, held),
            _ if kind(text) == Some("problem") => held = Plant::of(text),
            _ => {}
        }
    }
}

#[test]
fn what_is_due_is_due_in_the_corpus() {
    let mut seen = 0;
    for input in inputs(&["tests/corpus", "examples/refusals"]) {
        refused(&input, |docket, text, refusal, held| {
            if refusal.number == 12 {
                consistent(docket, text, refusal, held);
                seen += 1;
            }
        });
    }
    assert!(seen > 400, "{seen}");
}

#[test]
fn what_is_due_is_due_in_texts_with_lines_taken_out_and_doubled() {
    let mut seen = 0;
    for input in inputs(&["examples", "tests/specimens"]) {
        let count = lines(&input).count().min(80);
        for at in 0..count {
            for times in [0, 2] {
                let all = input.split_inclusive(|&byte| byte == b'\n').enumerate();
                let changed: Vec<u8> = all
                    .flat_map(|(n, line)| line.repeat(if n == at { times } else { 1 }))
                    .collect();
                refused(&changed, |docket, text, refusal, held| {
                    if refusal.number == 12 {
                        consistent(docket, text, refusal, held);
                        seen += 1;
                    }
                });
            }
        }
    }
    assert!(seen > 100, "{seen}");
}

#[test]
fn each_refusal_of_the_corpus_has_a_reason_of_its_own() {
    for input in inputs(&["tests/corpus", "examples/refusals"]) {
        refused(&input, |_, text, refusal, held| {
            let reason = reason(text, refusal, held);
            let why = table::WHYS.iter().find(|why| why.number == refusal.number);
            let why = why.expect("a row");
            let found = matches!(
                why.shows,
                Shows::NotDue | Shows::Count | Shows::Range | Shows::Order
            );
            if found {
                assert!(!reason.words.contains("see README"), "{reason:?}");
                assert!(reason.mark.is_some(), "{reason:?}");
            }
            assert!(reason.words.len() <= 200, "{reason:?}");
        });
    }
}

#[test]
fn nothing_is_found_in_accepted_texts() {
    for input in inputs(&["tests/corpus", "examples"]) {
        let (mut docket, mut held) = (Docket::new(), None);
        for text in texts(&input) {
            if let Verdict::Refused(_) = docket.lodge(text).verdict() {
                continue;
            }
            let mut walk = Walk::new(held);
            for (line, number) in lines(text).zip(1..).filter(|(line, _)| line.ended) {
                let bytes = line.bytes;
                assert_eq!(
                    counted::fault(bytes, &walk),
                    None,
                    "{}",
                    bytes.escape_ascii()
                );
                assert_eq!(
                    ranged::fault(bytes, &walk),
                    None,
                    "{}",
                    bytes.escape_ascii()
                );
                assert_eq!(ordered::fault(bytes), None, "{}", bytes.escape_ascii());
                let due = notdue::fault(text, number, line, &walk).words;
                assert!(due.ends_with(" is due here"), "{due}");
                walk.take(bytes);
            }
            assert!(matches!(walk.due(), Due::Nothing));
            held = held.or(Plant::of(text));
        }
    }
}

#[test]
fn the_table_has_the_numbers_of_the_readme() {
    let readme = Path::new(env!("CARGO_MANIFEST_DIR")).join("../README.md");
    let readme = std::fs::read_to_string(readme).expect("a file");
    let (_, refusals) = readme.split_once("## Refusals").expect("a heading");
    let cells = refusals.lines().filter_map(|line| line.strip_prefix("| "));
    let mut numbers: Vec<u64> = cells
        .filter_map(|line| line.split(' ').next()?.parse().ok())
        .collect();
    numbers.sort();
    let rows: Vec<u64> = table::WHYS.iter().map(|why| why.number).collect();
    assert_eq!(rows, numbers);
}

#[test]
fn the_ranges_of_the_table_are_the_dockets() {
    let unit = "unit=0,0,0,1,1,1,1,-1,1,1,0,0,0,0,0\n";
    let problem = format!(
        "kind=problem\nperiods=2\nunits=2\ndemand=0,0\nspare=0,0\n{unit}{unit}end=problem\n"
    );
    let plant = Plant::of(problem.as_bytes()).expect("a plant");
    let mut open = Docket::new();
    open.lodge(problem.as_bytes());
    for key in table::KEYS {
        let (first, mut lines) = begun(key, plant);
        let docket = if first { &Docket::new() } else { &open };
        let last = lines.pop().expect("a line");
        for (at, value) in key.values.iter().enumerate() {
            for (number, fits) in edges(value, plant) {
                let mut values: Vec<String> = last.split(',').map(String::from).collect();
                let name = if at == 0 {
                    format!("{}=", key.word)
                } else {
                    String::new()
                };
                values[at] = format!("{name}{number}");
                let text = format!("{}\n{}\n", lines.join("\n"), values.join(","));
                let answer = docket.clone().lodge(text.as_bytes()).verdict();
                let line = lines.len() as u64 + 1;
                let out =
                    matches!(answer, Verdict::Refused(why) if (why.number, why.line) == (13, line));
                assert_eq!(!out, fits, "{text}");
            }
        }
    }
}

/// Numbers at the ends of a value's range and beyond them, and whether they are in it.
fn edges(value: &table::Value, plant: Plant) -> Vec<(i64, bool)> {
    let most = match value.most {
        Most::Is(most) => most,
        Most::Periods => plant.periods as i64,
        Most::Units => plant.units as i64,
        Most::UnitsLess1 => plant.units as i64 - 1,
    };
    let mut edges = vec![(value.least, true), (most, true), (most + 1, false)];
    if value.least != 0 {
        edges.push((value.least - 1, false));
    }
    if let Some(without) = value.without {
        edges.push((without, false));
    }
    edges
}

/// The lines of a text up to the first of this key, and whether it is a problem, lodged while none is held.
fn begun(key: &Key, plant: Plant) -> (bool, Vec<String>) {
    for kind in table::kinds() {
        let first = kind == "problem";
        let held = Some(plant).filter(|_| !first);
        for node in table::KEYS {
            if let Some(lines) = lines_to(key, kind, node, held) {
                return (first, lines);
            }
        }
    }
    panic!("no text has a line {}=", key.word);
}

/// The lines of a text of this kind up to the first of this key, with this node where one is due.
fn lines_to(key: &Key, kind: &str, node: &'static Key, held: Option<Plant>) -> Option<Vec<String>> {
    let mut walk = Walk::new(held);
    let mut lines = vec![format!("{}={kind}", table::FIRST)];
    walk.take(lines[0].as_bytes());
    while lines.len() < 20 {
        let due = match walk.due() {
            Due::Line(due, _) => due,
            Due::Node if walk.keys().contains(&node.word) => node,
            _ => return None,
        };
        // so that there are two periods and two units
        let line = line_of(due, &walk).replace("=1", "=2");
        walk.take(line.as_bytes());
        lines.push(line);
        if due.word == key.word {
            return Some(lines);
        }
    }
    None
}

#[test]
fn plants_are_read_from_problems() {
    let plant = Plant::of(b"kind=problem\nperiods=2\nunits=3\ndemand=1,2\n");
    assert_eq!(
        plant,
        Some(Plant {
            periods: 2,
            units: 3
        })
    );
    for text in [
        &b""[..],
        b"kind=schedule\nwriter=7\nrun=1\n",
        b"kind=problem\nperiods=2\n",
        b"\xff",
    ] {
        assert_eq!(Plant::of(text), None);
    }
}

#[test]
fn kinds_are_words_in_small_letters() {
    for (text, word) in [
        (&b"kind=problem\n"[..], Some("problem")),
        (b"kind=tree", Some("tree")),
        (b"kind=abcdefghijklmnop\n", Some("abcdefghijklmnop")),
        (b"kind=abcdefghijklmnopq\n", None),
        (b"kind=\n", None),
        (b"kind=Tree\n", None),
        (b"kind=tree \n", None),
        (b"kind=tree\r\n", None),
        (b"Kind=tree\n", None),
        (b"\nkind=tree\n", None),
        (b"", None),
    ] {
        assert_eq!(kind(text), word, "{}", text.escape_ascii());
    }
}

#[test]
fn writers_are_numbers_in_their_range() {
    for (line, number) in [
        ("writer=1\n", Some(1)),
        ("writer=65535\n", Some(65_535)),
        ("writer=7", Some(7)),
        ("writer=0\n", None),
        ("writer=65536\n", None),
        ("writer=99999999999999999999999999\n", None),
        ("writer=07\n", None),
        ("writer=-7\n", None),
        ("writer=7,8\n", None),
        ("writer=\n", None),
        ("Writer=7\n", None),
        ("run=7\n", None),
    ] {
        let text = format!("kind=tree\n{line}");
        assert_eq!(writer(text.as_bytes()), number, "{line}");
    }
    assert_eq!(writer(b"writer=7\n"), None);
}
