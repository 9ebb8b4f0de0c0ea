//! Journals and texts that nobody would write: no panic, nothing printed that a terminal obeys, and the bytes come back.

mod common;

use common::journals::{
    contents, docket_with, is_untouched, on, on_with, put, texts, Random, Scribe, SECONDS,
};
use common::json::Json;
use common::{folder, Ran};
use desk::journal::{Journal, OnDisk};
use desk::progress::Progress;
use std::ffi::OsStr;
use std::fs;
use std::os::unix::ffi::OsStrExt;
use std::path::{Path, PathBuf};
use std::time::Duration;

/// The commands that only read, with the words behind the journal.
const READERS: [(&str, &[&str]); 15] = [
    ("verify", &[]),
    ("verify", &["--json"]),
    ("log", &[]),
    ("log", &["--json"]),
    ("log", &["--writer", "7", "--since", "2026-11-01"]),
    ("text", &["1", "--json"]),
    ("text", &["2", "--json"]),
    ("report", &[]),
    ("report", &["--json"]),
    ("show", &[]),
    ("show", &["--json"]),
    ("draft", &["--price", "10,14"]),
    ("draft", &["--tree", "3", "--json"]),
    ("try", &["-"]),
    ("try", &["-", "--json"]),
];

/// What is lodged or tried in every journal.
const HOSTILE: &[u8] =
    b"\x1b[2Jkind=problem\x07\xff\0\r\nanswer held 00\nend=problem\x1b]0;x\x07\n\
    kind=\xc2\x9b\nwriter=\"\\\nend=";

/// What a command prints: only bytes 32 to 126 and 10; lines of JSON where they were asked for; one line of trouble at most.
fn check_printed(ran: &Ran, json: bool, how: &str) {
    let printable = |byte: &u8| (32..=126).contains(byte) || *byte == b'\n';
    assert!(ran.out.iter().all(printable), "{how}: {:?}", ran.out());
    assert!(ran.notes.iter().all(printable), "{how}: {:?}", ran.notes());
    assert!(ran.status <= 2, "{how}");
    for bytes in [&ran.out, &ran.notes] {
        assert!(bytes.is_empty() || bytes.ends_with(b"\n"), "{how}");
    }
    let notes = ran.notes();
    assert!(
        notes.lines().all(|line| line.starts_with("docket: ")),
        "{how}: {notes}"
    );
    assert!(ran.status != 2 || !notes.is_empty(), "{how}");
    if json {
        for line in ran.out().lines() {
            assert!(Json::of(line).is_ok(), "{how}: {line}");
        }
    }
}

/// Every reading command on a journal that has these bytes.
fn check_readers(path: &Path, bytes: &[u8], how: &str) {
    put(path, bytes);
    for (command, more) in READERS {
        let ran = on_with(command, path, more, HOSTILE);
        check_printed(
            &ran,
            more.contains(&"--json"),
            &format!("{how}: {command} {more:?}"),
        );
    }
    let text = on("text", path, &["1"]);
    assert!(text.status != 2 || text.out.is_empty());
    assert!(is_untouched(path, bytes), "{how}");
}

/// Lodging in a journal that has these bytes: it is refused and untouched, or its whole records stay and one more text is in.
fn check_lodging(path: &Path, bytes: &[u8], how: &str) {
    let verified = on("verify", path, &["--json"]);
    let ran = on_with("lodge", path, &["-", "--json"], HOSTILE);
    check_printed(&ran, true, &format!("{how}: lodge"));
    let after = fs::read(path).expect("a file");
    if ran.status == 2 {
        return assert!(is_untouched(path, bytes), "{how}: {}", ran.notes());
    }
    let found = contents(&after).expect("a sound journal");
    assert!(found.iter().all(|(_, answer)| answer.is_some()), "{how}");
    let whole = number(verified.out(), "bytes").unwrap_or(0);
    assert!(after.starts_with(&bytes[..whole]), "{how}");
    let texts = number(verified.out(), "texts").unwrap_or(0);
    assert_eq!(found.len(), texts + 2, "{how}");
}

/// The number behind a name in what `verify` says in JSON.
fn number(line: &str, name: &str) -> Option<usize> {
    let object = Json::of(line.trim_end()).ok()?;
    object.get("journal").get(name).word("").parse().ok()
}

/// One random change.
fn mutate(bytes: &mut Vec<u8>, random: &mut Random) {
    let at = random.below(bytes.len() + 1);
    let end = (at + random.below(80)).min(bytes.len());
    match random.below(9) {
        0 => bytes.truncate(at),
        1 => drop(bytes.drain(at..end)),
        2 => bytes[at..end].fill(0),
        3 => bytes.resize(bytes.len() + random.below(300), 0),
        4 => {
            let part = bytes[at..end].to_vec();
            let to = random.below(bytes.len() + 1);
            bytes.splice(to..to, part);
        }
        5 => {
            let part = random.bytes(end - at);
            bytes.splice(at..end, part);
        }
        6 if at < bytes.len() => bytes[at] = b"\0\n\x1b 09afz\xff"[random.below(10)],
        _ if at < bytes.len() => bytes[at] ^= 1 << random.below(8),
        _ => {}
    }
}

#[test]
fn journals_that_were_changed_at_random() {
    let mut random = Random::seeded();
    let path = folder("fuzz-changed").join("J");
    let journal = Scribe::of(&texts()).bytes;
    for round in 0..1500 {
        let mut bytes = journal.clone();
        for _ in 0..=random.below(4) {
            mutate(&mut bytes, &mut random);
        }
        let how = format!("round {round}");
        check_readers(&path, &bytes, &how);
        check_lodging(&path, &bytes, &how);
    }
}

#[test]
fn files_of_random_bytes_are_no_journals() {
    let mut random = Random::seeded();
    let path = folder("fuzz-bytes").join("J");
    for round in 0..300 {
        let length = random.below(700);
        let mut bytes = random.bytes(length);
        if round % 2 == 0 {
            bytes.splice(0..0, b"docket journal 1 rules 4\n".iter().copied());
        }
        check_readers(&path, &bytes, "random bytes");
        check_lodging(&path, &bytes, "random bytes");
    }
}

#[test]
fn lines_of_random_words_with_a_right_chain() {
    let mut random = Random::seeded();
    let path = folder("fuzz-chain").join("J");
    let words: [&[u8]; 16] = [
        b"text",
        b"answer",
        b" ",
        b" ",
        b"0",
        b"5",
        b"1048576",
        b"18446744073709551615",
        b"-1",
        b"held",
        b"held,",
        b"\x1b[2J",
        b"\xff",
        b"\0",
        b"refused,1,1,0,0",
        b"0000000000000000000000000000000000000000000000000000000000000000",
    ];
    for round in 0..700 {
        let mut scribe = Scribe::new(1, docket::rules());
        for _ in 0..random.below(6) {
            match random.below(4) {
                0 => scribe.text(&texts()[random.below(4)], random.next()),
                1 => scribe.answer("held"),
                _ => {
                    let line: Vec<&[u8]> = (0..random.below(9))
                        .map(|_| words[random.below(16)])
                        .collect();
                    scribe.line(&line.concat());
                }
            }
        }
        check_readers(&path, &scribe.bytes, &format!("round {round}"));
        check_lodging(&path, &scribe.bytes, &format!("round {round}"));
    }
}

/// Texts that look like something else, or like nothing.
fn hostile(random: &mut Random) -> Vec<Vec<u8>> {
    let journal = Scribe::of(&texts()).bytes;
    let mut hostile = vec![
        Vec::new(),
        b"\n".to_vec(),
        b"\0".to_vec(),
        vec![0; 5000],
        vec![0xff; 300],
        b"\x1b[2J\x1b]0;title\x07\x9b31m\r\x08\x7f".to_vec(),
        b"answer held 0\n".to_vec(),
        b"docket journal 1 rules 4\n".to_vec(),
        b"kind=\x1b[31m\nwriter=7\x1b\n".to_vec(),
        b"kind=problem\nwriter=99999999999999999999\n".to_vec(),
        b"kind=tree\nwriter=3\n\xf0\x9f\x92\xa9\n".to_vec(),
        "kind=\u{202e}schedule\nwriter=\u{661}\n".into(),
        journal.clone(),
        journal[25..].to_vec(),
        [&journal[..], &[0; 4096]].concat(),
        vec![b'x'; docket::MOST_TEXT],
        vec![0; docket::MOST_TEXT],
    ];
    hostile.extend(texts());
    for _ in 0..60 {
        let length = random.below(300);
        hostile.push(random.bytes(length));
        let mut changed = texts()[random.below(4)].clone();
        mutate(&mut changed, random);
        hostile.push(changed);
    }
    hostile
}

/// Lodges texts in a journal, each byte of them.
fn lodge(path: &Path, texts: &[Vec<u8>]) {
    let disk = OnDisk::open(path, Duration::ZERO).expect("a file");
    let (mut journal, _) = Journal::open(disk, path, &mut Progress::none()).expect("a journal");
    for text in texts {
        let lodged = journal.lodge(text, SECONDS).expect("lodged");
        assert!(lodged.trouble.is_none());
    }
}

#[test]
fn hostile_texts_come_back_byte_for_byte_and_print_as_plain_ascii() {
    let mut random = Random::seeded();
    let path = folder("fuzz-texts").join("J");
    let hostile = hostile(&mut random);
    lodge(&path, &hostile);
    let bytes = fs::read(&path).expect("a file");
    check_readers(&path, &bytes, "hostile texts");
    let found = contents(&bytes).expect("a sound journal");
    assert_eq!(found.len(), hostile.len());
    for (k, text) in hostile.iter().enumerate() {
        let number = (k + 1).to_string();
        let ran = on("text", &path, &[&number]);
        assert!(
            ran.status == 0 && &ran.out == text && ran.notes.is_empty(),
            "text {number}"
        );
        let ran = on("text", &path, &[&number, "--json"]);
        let line = ran.out().strip_suffix('\n').expect("a line");
        let object = Json::of(line).expect("an object");
        assert!(&object.get("content").bytes() == text, "text {number}");
    }
    assert_eq!(on("log", &path, &[]).lines().len(), hostile.len());
}

#[test]
fn hostile_texts_that_are_cut_anywhere_lose_no_other() {
    let mut random = Random::seeded();
    let path = folder("fuzz-cut").join("J");
    for _ in 0..60 {
        let all = hostile(&mut random);
        let some: Vec<_> = (0..4)
            .map(|_| all[random.below(all.len())].clone())
            .collect();
        let _ = fs::remove_file(&path);
        lodge(&path, &some);
        let bytes = fs::read(&path).expect("a file");
        let first = bytes
            .iter()
            .position(|&byte| byte == b'\n')
            .expect("a line")
            + 1;
        let cut = first + random.below(bytes.len() - first);
        let mut torn = bytes[..cut].to_vec();
        torn.resize(cut + random.below(3) * 700, 0);
        put(&path, &torn);
        let before = number(on("verify", &path, &["--json"]).out(), "texts").expect("a number");
        lodge(&path, &some[before..]);
        let found = contents(&fs::read(&path).expect("a file")).expect("sound");
        assert_eq!(
            found.into_iter().map(|(text, _)| text).collect::<Vec<_>>(),
            some
        );
    }
}

#[test]
fn a_text_that_is_too_long_is_refused_and_not_recorded_and_the_next_one_is() {
    let path = folder("fuzz-long").join("J");
    let mut input = vec![b'x'; docket::MOST_TEXT + 1];
    input.extend_from_slice(b"\nend=x\n");
    input.extend_from_slice(&texts()[0]);
    for (words, wanted) in [
        (&["-"][..], "answer=refused"),
        (&["-", "--json"], "\"text\":null"),
    ] {
        let ran = on_with("lodge", &path, words, &input);
        assert_eq!(ran.status, 1);
        check_printed(&ran, words.len() == 2, "a long text");
        assert!(ran.lines()[0].contains(wanted), "{}", ran.lines()[0]);
    }
    assert_eq!(on("log", &path, &[]).lines().len(), 2);
    let most = [vec![b'x'; docket::MOST_TEXT - 7], b"\nend=x\n".to_vec()].concat();
    assert_eq!(on_with("lodge", &path, &["-"], &most).status, 1);
    assert_eq!(on("text", &path, &["3"]).out, most);
}

/// Names that a terminal would obey, or that are no text.
fn names(folder: &Path) -> Vec<PathBuf> {
    let names: [&[u8]; 8] = [
        b"\x1b[2J",
        b"\xff\xfe",
        b"a\nb: damaged",
        b"\"\\\"",
        b"--json",
        b" ",
        b"\xc2\x9b31m",
        b"\r\x07\x08\x7f",
    ];
    names
        .iter()
        .map(|name| folder.join(OsStr::from_bytes(name)))
        .collect()
}

#[test]
fn file_names_are_printed_as_plain_ascii_too() {
    let folder = folder("fuzz-names");
    let journal = Scribe::of(&texts()).bytes;
    for path in names(&folder) {
        let name = path.as_os_str().as_bytes();
        for bytes in [
            &journal[..],
            &journal[..500],
            &journal[1..],
            &journal[..24],
            &[0; 600],
            b"",
        ] {
            check_readers(&path, bytes, "a name");
        }
        let mut damaged = journal.clone();
        damaged[100] ^= 1;
        check_readers(&path, &damaged, "a name");
        let new = [name, b"\x1b new"].concat();
        for command in ["lodge", "check", "try", "salvage", "log", "nothing\x1b"] {
            for json in [false, true] {
                let words = [command.as_bytes(), name, &new, b"--json"];
                let ran = docket_with(&words[..3 + usize::from(json)], HOSTILE);
                check_printed(&ran, json, command);
            }
        }
        let ran = docket_with(&[b"check", name], b"");
        check_printed(&ran, false, "check");
        assert!(ran.status == 1, "{}", ran.notes());
    }
}

#[test]
fn words_that_are_no_command_are_printed_as_plain_ascii() {
    let odd: [&[u8]; 7] = [
        b"\x1b[2J",
        b"\xff",
        b"--\x1b",
        b"--wait=\x1b",
        b"--since=\xff",
        b"-\n",
        b"",
    ];
    for command in [
        &b"lodge"[..],
        b"log",
        b"text",
        b"verify",
        b"salvage",
        b"show",
        b"draft",
        b"\x1b",
    ] {
        for word in odd {
            let ran = docket_with(&[command, word, word], b"");
            check_printed(&ran, false, "words");
            assert_eq!(ran.status, 2);
        }
    }
}
