//! Generated inputs: what `check` prints of them, and what a journal keeps of them. SEED repeats the inputs of a printed seed.
mod common;

use common::memory::Memory;
use common::{folder, run, seed, text, texts};
use desk::journal::{Journal, Lodged};
use desk::progress::Progress;
use docket::{listing_of, Docket, MOST_INPUT};
use second::inputs::random::Random;
use std::fs;
use std::path::Path;
use std::sync::atomic::{AtomicU64, Ordering};
use std::thread;

/// So many inputs are checked: for each that is made, it and four that are made of it.
const CHECKED: u64 = 10_000;
const EACH: u64 = 5;
/// So many are kept in a journal.
const KEPT: u64 = 500;

/// The input with this index of a seed. Of those that take long to make, the deepest trees and the largest plants, only the
/// first are taken.
fn input(seed: u64, index: u64) -> Vec<u8> {
    let slow = index >= 100 && matches!(index % 50, 7 | 33);
    second::inputs::input(seed, if slow { index + 1_000_001 } else { index })
}

/// The input, or one that is made of it: its texts in another order, some of its lines, a byte changed, its beginning.
fn varied(mut input: Vec<u8>, random: &mut Random, way: u64) -> Vec<u8> {
    match way {
        0 => {}
        1 => {
            let mut all = texts(&input);
            for k in (1..all.len()).rev() {
                all.swap(k, random.below(k + 1));
            }
            return all.into_iter().flat_map(|text| text.1.to_vec()).collect();
        }
        2 => {
            let lines = input.split_inclusive(|&byte| byte == b'\n');
            let some: Vec<&[u8]> = lines.filter(|_| !random.chance(2)).collect();
            return some.concat();
        }
        3 => {
            let at = random.below(input.len());
            if let Some(byte) = input.get_mut(at) {
                *byte = random.pick(b"\n\n\n=0,e9\xff\r");
            }
        }
        _ => input.truncate(random.below(input.len() + 1)),
    }
    input
}

/// The answers to an input's texts and its report, as the listing has them; of one that is too long for a listing, as one
/// docket answers.
fn listed(input: &[u8]) -> String {
    if input.len() <= MOST_INPUT {
        return text(&listing_of(input)).to_string();
    }
    let mut docket = Docket::new();
    let mut lines = String::new();
    for (_, text) in texts(input) {
        lines += &format!("{}\n", docket.lodge(text));
    }
    lines + docket.report().text()
}

/// The same out of what `check` printed; each accepted text must stand at its line.
fn checked(input: &[u8], printed: &str) -> Result<String, String> {
    let mut begins = texts(input).into_iter().map(|text| text.0);
    let mut lines = String::new();
    for line in printed.lines() {
        let Some((place, answer)) = line.strip_prefix("-:").and_then(|l| l.split_once(": ")) else {
            let said = line.starts_with("    ") || line.starts_with("The gap is ");
            if !said {
                lines += &format!("{line}\n");
            }
            continue;
        };
        let begin = begins.next().ok_or("more answers than texts")?;
        let place: u64 = place.parse().map_err(|_| format!("place {place}"))?;
        let refused = answer.starts_with("answer=refused");
        if place < begin || (place > begin && !refused) {
            return Err(format!("{line}: the text begins at {begin}"));
        }
        lines += &format!("{answer}\n");
    }
    Ok(lines)
}

/// In what `check` differs from the listing on an input, where it does.
fn check(input: &[u8]) -> Result<(), String> {
    let ran = run(&["check", "-"], input);
    let wanted = listed(input);
    let got = checked(input, text(&ran.out))?;
    if got != wanted {
        return Err(format!("{got}\nnot\n{wanted}"));
    }
    let status = match input.is_empty() {
        // nothing was judged
        true => 2,
        false => u8::from(wanted.contains("answer=refused")),
    };
    match ran.status == status {
        true => Ok(()),
        false => Err(format!("status {}, not {status}", ran.status)),
    }
}

/// What two threads find wrong with so many inputs.
fn all(seed: u64, count: u64, good: impl Fn(u64) -> Result<(), String> + Sync) {
    let next = AtomicU64::new(0);
    let work = || {
        let mut wrong = Vec::new();
        loop {
            let index = next.fetch_add(1, Ordering::Relaxed);
            if index >= count {
                return wrong;
            }
            if let Err(why) = good(index) {
                wrong.push(format!("input {index}: {why}"));
            }
        }
    };
    let wrong: Vec<String> = thread::scope(|scope| {
        let workers = [scope.spawn(work), scope.spawn(work)];
        workers
            .into_iter()
            .flat_map(|worker| worker.join().expect("a worker"))
            .collect()
    });
    assert!(wrong.is_empty(), "seed {seed}: {wrong:#?}");
}

#[test]
fn check_answers_generated_inputs_as_the_listing_does() {
    let seed = seed();
    all(seed, CHECKED / EACH, |index| {
        let (input, mut random) = (input(seed, index), Random::for_input(!seed, index));
        (0..EACH).try_for_each(|way| {
            check(&varied(input.clone(), &mut random, way)).map_err(|why| format!("{way}: {why}"))
        })
    });
}

/// Opens a journal in memory, lodges a text in it, and leaves it.
fn lodge(memory: &Memory, text: &[u8], seconds: u64) -> Result<Lodged, String> {
    let path = Path::new("kept");
    let opened = Journal::open(memory.clone(), path, &mut Progress::none());
    let (mut journal, mended) = opened.map_err(|trouble| trouble.to_string())?;
    if mended != Default::default() {
        return Err(format!("mended: {mended:?}"));
    }
    let lodged = journal.lodge(text, seconds);
    lodged.map_err(|trouble| trouble.to_string())
}

fn equal<T: PartialEq + std::fmt::Debug>(what: &str, got: T, wanted: T) -> Result<(), String> {
    match got == wanted {
        true => Ok(()),
        false => Err(format!("{what}: {got:?}, not {wanted:?}")),
    }
}

/// Whether a line answers a schedule that is held: its cost alone.
fn is_held_schedule(line: &str) -> bool {
    line.strip_prefix("answer=held,")
        .is_some_and(|figures| !figures.contains(','))
}

/// In what a journal that is opened for each text of an input differs from the listing, where it does.
fn keep(input: &[u8], path: &Path) -> Result<(), String> {
    let memory = Memory::default();
    let wanted = listed(input);
    let (mut answers, mut held) = (String::new(), None);
    let texts = texts(input);
    for (k, (_, text)) in texts.iter().enumerate() {
        let lodged = lodge(&memory, text, k as u64 + 1_000)?;
        equal("number", lodged.number, k as u64 + 1)?;
        let line = lodged.answer.line();
        answers += &format!("{line}\n");
        if is_held_schedule(line) {
            held = Some((text.to_vec(), line.to_string()));
        }
    }
    if texts.is_empty() {
        Journal::open(memory.clone(), path, &mut Progress::none()).map_err(|t| t.to_string())?;
    }
    fs::write(path, &*memory.0.borrow()).map_err(|error| error.to_string())?;
    let report = run(&["report", text(path.as_os_str().as_encoded_bytes())], b"");
    let report = text(&report.out).split("The gap").next();
    equal("all", answers.clone() + report.unwrap_or_default(), wanted)?;
    log(path, &answers, &texts)?;
    show(path, held, &memory)
}

/// In what the log differs from the texts and their answers, where it does.
fn log(path: &Path, answers: &str, texts: &[(u64, &[u8])]) -> Result<(), String> {
    let log = run(&["log", text(path.as_os_str().as_encoded_bytes())], b"");
    let lines = log.lines();
    equal("lines of the log", lines.len(), texts.len())?;
    for (k, (line, answer)) in lines.iter().zip(answers.lines()).enumerate() {
        let words: Vec<&str> = line.split(' ').collect();
        let seconds = k + 1_000;
        let time = format!("1970-01-01T00:{}:{:02}Z", seconds / 60, seconds % 60);
        equal("words", words.len(), 6)?;
        equal("number", words[0].parse(), Ok(k + 1))?;
        equal("time", words[1], time.as_str())?;
        equal("bytes", words[4].parse(), Ok(texts[k].1.len()))?;
        equal("answer", format!("answer={}", words[5]).as_str(), answer)?;
    }
    Ok(())
}

/// In what `show` differs from the held schedule, where it does; lodged again it must be passed at the same cost.
fn show(path: &Path, held: Option<(Vec<u8>, String)>, memory: &Memory) -> Result<(), String> {
    let shown = run(&["show", text(path.as_os_str().as_encoded_bytes())], b"");
    let Some((held, line)) = held else {
        shown.trouble();
        return equal("shown", shown.out, Vec::new());
    };
    equal("shown", text(&shown.out), text(&held))?;
    let again = lodge(memory, &shown.out, 0)?;
    equal(
        "again",
        again.answer.line(),
        &line.replace("held", "passed"),
    )
}

#[test]
fn a_journal_that_is_opened_for_every_text_answers_as_the_listing_does() {
    let (folder, seed) = (folder("generated"), seed());
    all(seed, KEPT, |index| {
        let path = folder.join(index.to_string());
        let kept = keep(&input(seed, index), &path);
        fs::remove_file(&path).map_err(|error| error.to_string())?;
        kept
    });
}
