//! Journals that are damaged, forged or of another kind: refused, named with their place, and never touched.

mod common;

use common::journals::{answers, contents, is_untouched, on, on_with, put, texts, Scribe, SECONDS};
use common::{counted, folder, Link, Ran};
use std::fs;
use std::path::{Path, PathBuf};

/// One more text that is accepted.
const MORE: &[u8] = b"kind=schedule\nwriter=8\nrun=60,80\nrun=0,20\nend=schedule\n";

/// What a changed journal is.
#[derive(Debug, PartialEq, Eq)]
enum Is {
    /// As it was, but for whole records that are missing at its end.
    Whole,
    /// Cut short, with or without zeros behind.
    Torn,
    /// Its first line is no longer what it was.
    OtherFirst,
    /// Damaged in the record that begins here.
    Damaged(usize),
}

/// What a journal is that was changed to these bytes: the first record that is not wholly as it was is the damaged one.
fn what_is(scribe: &Scribe, changed: &[u8]) -> Is {
    let same = scribe.bytes.iter().zip(changed).take_while(|(a, b)| a == b);
    let same = same.count();
    let rest = &changed[same..];
    if scribe.whole(same) == 0 {
        return Is::OtherFirst;
    }
    if rest.iter().all(|&byte| byte == 0) {
        let whole = rest.is_empty() && scribe.ends().contains(&same);
        return if whole { Is::Whole } else { Is::Torn };
    }
    let starts = scribe.ends();
    Is::Damaged(
        *starts
            .iter()
            .filter(|&&at| at <= same)
            .max()
            .expect("a start"),
    )
}

/// The files of a test.
struct Desk {
    scribe: Scribe,
    journal: PathBuf,
    new: PathBuf,
}

impl Desk {
    fn new(name: &str) -> Desk {
        let folder = folder(name);
        Desk {
            scribe: Scribe::of(&texts()),
            journal: folder.join("J"),
            new: folder.join("NEW"),
        }
    }

    /// Every command that reads a whole journal, on a changed one: its status, its sentence, and the file as it was.
    fn check(&self, changed: &[u8], how: &str) {
        put(&self.journal, changed);
        let is = what_is(&self.scribe, changed);
        let lodging = (is == Is::Whole || is == Is::Torn) as usize;
        let commands = [("verify", ""), ("log", ""), ("report", ""), ("lodge", "-")];
        for (command, more) in &commands[..4 - lodging] {
            let more: &[&str] = if more.is_empty() { &[] } else { &[more] };
            let ran = on_with(command, &self.journal, more, MORE);
            self.check_ran(&is, command, &ran, how);
        }
        assert!(is_untouched(&self.journal, changed), "{how}");
    }

    fn check_ran(&self, is: &Is, command: &str, ran: &Ran, how: &str) {
        let notes = ran.notes();
        let said = match is {
            Is::Whole => notes.is_empty(),
            Is::Torn => command == "report" || notes.contains("was not written to its end"),
            Is::OtherFirst => says_first(notes),
            Is::Damaged(at) => {
                let texts = counted(self.scribe.whole(*at) / 2, "text");
                notes.contains(&format!(": damaged at byte {at}, after {texts}: "))
            }
        };
        assert!(said, "{command}, {how}, {is:?}: {notes}");
        let trouble = !matches!(is, Is::Whole | Is::Torn);
        assert_eq!(
            ran.status == 2,
            trouble,
            "{command}, {how}, {is:?}: {notes}"
        );
        assert!(notes.lines().count() <= 1, "{command}, {how}: {notes}");
        assert!(command != "lodge" || ran.out.is_empty(), "{command}, {how}");
    }

    /// Salvage of a changed journal: the records before, and nothing else changed.
    fn check_salvage(&self, changed: &[u8], how: &str) {
        put(&self.journal, changed);
        let _ = fs::remove_file(&self.new);
        let ran = on(
            "salvage",
            &self.journal,
            &[self.new.to_str().expect("a name")],
        );
        assert!(is_untouched(&self.journal, changed), "{how}");
        let kept = match what_is(&self.scribe, changed) {
            Is::Damaged(at) => at,
            Is::Whole | Is::Torn => kept(&self.scribe, changed),
            Is::OtherFirst => {
                assert!(ran.status == 2 && !self.new.exists(), "{how}");
                return;
            }
        };
        assert_eq!(ran.status, 0, "{how}: {}", ran.notes());
        let new = fs::read(&self.new).expect("a file");
        assert!(new == self.scribe.bytes[..kept], "{how}");
        let texts = counted(self.scribe.whole(kept) / 2, "text");
        assert!(
            ran.out().contains(&format!(" has {texts}; check ")),
            "{how}"
        );
    }
}

/// The sentence about a first line that is no longer what it was: none of a journal, or one whose check fails.
fn says_first(notes: &str) -> bool {
    notes.contains(": not a journal, by its first line; ")
        || notes.contains(": damaged at byte 0: ")
}

/// Where the whole records of a torn journal end.
fn kept(scribe: &Scribe, changed: &[u8]) -> usize {
    let same = scribe.bytes.iter().zip(changed).take_while(|(a, b)| a == b);
    scribe.ends()[scribe.whole(same.count()) - 1]
}

#[test]
fn every_changed_bit_is_found_at_its_record() {
    let desk = Desk::new("damage-bits");
    for at in 0..desk.scribe.bytes.len() {
        for bit in 0..8 {
            let mut changed = desk.scribe.bytes.clone();
            changed[at] ^= 1 << bit;
            let how = format!("bit {bit} of byte {at}");
            desk.check(&changed, &how);
            if bit == at % 8 {
                desk.check_salvage(&changed, &how);
            }
        }
    }
}

#[test]
fn a_changed_bit_within_a_record_is_never_taken_for_a_torn_end() {
    let scribe = Scribe::of(&texts());
    for at in scribe.ends()[0]..scribe.bytes.len() {
        for bit in 0..8 {
            let mut changed = scribe.bytes.clone();
            changed[at] ^= 1 << bit;
            assert!(matches!(what_is(&scribe, &changed), Is::Damaged(_)));
            assert!(contents(&changed).expect_err("damage").contains("damaged"));
        }
    }
}

#[test]
fn every_byte_that_is_deleted_or_doubled_is_found() {
    let desk = Desk::new("damage-bytes");
    for at in 0..desk.scribe.bytes.len() {
        let (mut deleted, mut doubled) = (desk.scribe.bytes.clone(), desk.scribe.bytes.clone());
        deleted.remove(at);
        doubled.insert(at, doubled[at]);
        desk.check(&deleted, &format!("byte {at} deleted"));
        desk.check(&doubled, &format!("byte {at} doubled"));
        if at % 5 == 0 {
            desk.check_salvage(&deleted, &format!("byte {at} deleted"));
            desk.check_salvage(&doubled, &format!("byte {at} doubled"));
        }
    }
}

#[test]
fn records_that_are_exchanged_left_out_or_doubled_are_found() {
    let desk = Desk::new("damage-records");
    let records = desk.scribe.records();
    let both = |changed: Vec<&[u8]>, how: String| {
        desk.check(&changed.concat(), &how);
        desk.check_salvage(&changed.concat(), &how);
    };
    for one in 0..records.len() {
        for other in one + 1..records.len() {
            let mut changed = records.clone();
            changed.swap(one, other);
            both(changed, format!("records {one} and {other} exchanged"));
            let mut changed = records.clone();
            changed.drain(one..other);
            both(changed, format!("records {one} to {other} left out"));
        }
        let mut changed = records.clone();
        changed.remove(one);
        both(changed, format!("record {one} left out"));
        let mut changed = records.clone();
        changed.insert(one, records[one]);
        both(changed, format!("record {one} doubled"));
        let mut changed = records.clone();
        changed.push(records[one]);
        both(changed, format!("record {one} once more at the end"));
    }
}

#[test]
fn zeros_that_something_follows_are_damage() {
    let desk = Desk::new("damage-zeros");
    let length = desk.scribe.bytes.len();
    for at in (0..length).step_by(3) {
        for zeros in [1, 2, 64, 512] {
            let mut changed = desk.scribe.bytes.clone();
            let end = length.min(at + zeros);
            changed[at..end].fill(0);
            desk.check(&changed, &format!("{zeros} zeros from byte {at} on"));
            let mut changed = desk.scribe.bytes.clone();
            changed.splice(at..at, vec![0; zeros]);
            desk.check(&changed, &format!("{zeros} zeros before byte {at}"));
        }
    }
}

#[test]
fn the_last_byte_is_a_byte_10_or_missing_or_damaged() {
    let desk = Desk::new("damage-last");
    let last = desk.scribe.bytes.len() - 1;
    for byte in 0..=255 {
        let mut changed = desk.scribe.bytes.clone();
        changed[last] = byte;
        // a zero stands for a byte that was never written
        let torn = what_is(&desk.scribe, &changed) == Is::Torn;
        assert_eq!(torn, byte == 0);
        desk.check(&changed, &format!("last byte {byte}"));
        desk.check_salvage(&changed, &format!("last byte {byte}"));
    }
}

#[test]
fn bytes_behind_the_last_record_are_damage_unless_a_record_begins_so() {
    let desk = Desk::new("damage-behind");
    let begun: [&[u8]; 4] = [b"t", b"text 5", b"text 5 17", b"text 5 17 0123456789abcdef"];
    for behind in begun {
        let changed = [&desk.scribe.bytes[..], behind].concat();
        put(&desk.journal, &changed);
        let ran = on("verify", &desk.journal, &[]);
        assert_eq!(ran.status, 0);
        let said = format!("the last {} bytes are of a record", behind.len());
        assert!(ran.notes().contains(&said), "{}", ran.notes());
    }
    let hex = "0".repeat(64);
    for behind in [
        "\n".into(),
        " ".into(),
        "a".into(),
        "answer held".into(),
        "T".into(),
        "text  5".into(),
        "text 5\n".into(),
        "text -5".into(),
        "text 5 17 0123 4".into(),
        format!("text 5 17 {hex} {hex}\n"),
        format!("text 5 17 {hex} {hex} "),
        format!("text 5 17 {}", "0".repeat(65)),
        "\0\0\n".into(),
        "\0\0t".into(),
        format!("text 5{}1", "\0".repeat(5000)),
        "docket journal 1 rules 4\n".into(),
        "1 -:1: answer=held\n".into(),
        "x".repeat(70_000),
    ] {
        let changed = [&desk.scribe.bytes[..], behind.as_bytes()].concat();
        desk.check(&changed, &format!("{} bytes behind", behind.len()));
        desk.check_salvage(&changed, &format!("{} bytes behind", behind.len()));
    }
}

#[test]
fn lines_that_a_copy_ended_another_way_are_refused() {
    let desk = Desk::new("damage-lines");
    let mut changed = Vec::new();
    for &byte in &desk.scribe.bytes {
        if byte == b'\n' {
            changed.push(b'\r');
        }
        changed.push(byte);
    }
    desk.check(&changed, "lines ended by 13 and 10");
    let upper = desk.scribe.bytes.to_ascii_uppercase();
    desk.check(&upper, "capitals");
}

#[test]
fn what_was_salvaged_opens_and_takes_texts() {
    let desk = Desk::new("damage-mended");
    let new = desk.new.to_str().expect("a name");
    for (k, &at) in desk.scribe.starts.iter().enumerate().skip(1) {
        let mut changed = desk.scribe.bytes.clone();
        changed[at + 70] ^= 1;
        desk.check_salvage(&changed, "a bit");
        let text = ["text", "answer"][(k + 1) % 2];
        assert!(desk.scribe.bytes[at..].starts_with(text.as_bytes()));
        let ran = on_with("lodge", &desk.new, &["-"], MORE);
        assert_ne!(ran.status, 2, "{}", ran.notes());
        let mut all = texts()[..k / 2].to_vec();
        all.push(MORE.to_vec());
        let wanted: Vec<_> = answers(&all).into_iter().map(Some).collect();
        let found = contents(&fs::read(&desk.new).expect("a file")).expect("sound");
        assert_eq!(found, all.into_iter().zip(wanted).collect::<Vec<_>>());
        // and it is not made again over what is there now
        let before = fs::read(&desk.new).expect("a file");
        put(&desk.new, &before);
        assert_eq!(on("salvage", &desk.journal, &[new]).status, 2);
        assert!(is_untouched(&desk.new, &before));
    }
}

#[test]
fn salvage_writes_over_nothing_that_is_there() {
    let desk = Desk::new("salvage-there");
    let folder = desk.new.parent().expect("a folder");
    put(&desk.journal, &desk.scribe.bytes);
    let (link, nowhere) = (folder.join("link"), folder.join("nowhere"));
    let _link = Link::new(&nowhere, &link);
    let missing = folder.join("no folder").join("NEW");
    put(&desk.new, b"");
    for new in [&desk.journal, &desk.new, &link, &missing, folder] {
        let ran = on("salvage", &desk.journal, &[new.to_str().expect("a name")]);
        assert_eq!((ran.status, ran.out.len()), (2, 0), "{}", ran.notes());
        assert_eq!(ran.notes().lines().count(), 1);
    }
    assert!(is_untouched(&desk.journal, &desk.scribe.bytes));
    assert!(is_untouched(&desk.new, b""));
    assert!(!nowhere.exists() && !missing.exists());
    assert_eq!(fs::read_dir(folder).expect("a folder").count(), 3);
}

/// Runs the commands that read without judging: each must end well.
fn check_readable(path: &Path, texts: &[Vec<u8>]) {
    assert_eq!(on("log", path, &[]).lines().len(), texts.len());
    for (command, more) in [("log", &[][..]), ("log", &["--json"]), ("verify", &[])] {
        let ran = on(command, path, more);
        assert_eq!((ran.status, ran.notes()), (0, ""), "{command}");
    }
    for (k, text) in texts.iter().enumerate() {
        assert_eq!(&on("text", path, &[&(k + 1).to_string()]).out, text);
    }
}

/// Runs the commands that judge: each must end with this sentence, and print nothing.
fn check_judged(path: &Path, sentence: &str) {
    let commands = [
        ("lodge", &["-"][..]),
        ("try", &["-"]),
        ("report", &[]),
        ("show", &[]),
        ("draft", &["--price", "10,14"]),
        ("draft", &["--tree", "3"]),
    ];
    for (command, more) in commands {
        let ran = on_with(command, path, more, MORE);
        assert_eq!((ran.status, ran.out()), (2, ""), "{command}");
        assert!(ran.notes().contains(sentence), "{command}: {}", ran.notes());
    }
}

#[test]
fn a_journal_of_other_rules_is_read_and_not_judged() {
    let desk = Desk::new("other-rules");
    for rules in [0, docket::rules() + 1, 400, u64::MAX] {
        let mut scribe = Scribe::new(1, rules);
        for text in &texts()[..3] {
            scribe.text(text, u64::MAX);
            scribe.answer("an-answer-of-that-time,1,2");
        }
        put(&desk.journal, &scribe.bytes);
        check_readable(&desk.journal, &texts()[..3]);
        let now = docket::rules();
        check_judged(&desk.journal, &format!(
            "judged by rules {rules}, and this program judges by rules {now}: use the program of those \
             rules, or take each text out (docket text)"
        ));
        assert!(is_untouched(&desk.journal, &scribe.bytes));
        let _ = fs::remove_file(&desk.new);
        let ran = on(
            "salvage",
            &desk.journal,
            &[desk.new.to_str().expect("a name")],
        );
        assert_eq!(ran.status, 0);
        assert_eq!(fs::read(&desk.new).expect("a file"), scribe.bytes);
    }
}

#[test]
fn a_journal_of_another_format_is_refused() {
    let desk = Desk::new("other-format");
    let first = |format: &str| format!("docket journal {format} rules {}", docket::rules());
    for format in ["0", "2", "11", "18446744073709551615"] {
        let scribe = Scribe::opened(&first(format));
        put(&desk.journal, &scribe.bytes);
        for (command, more) in [
            ("log", &[][..]),
            ("verify", &[]),
            ("text", &["1"]),
            ("salvage", &["/dev/null/x"]),
        ] {
            let ran = on(command, &desk.journal, more);
            assert_eq!((ran.status, ran.out()), (2, ""), "{command}");
            let said = format!(
                "a journal of format {format}, and this program reads format 1: use the program \
                 that wrote it"
            );
            assert!(ran.notes().contains(&said), "{}", ran.notes());
        }
        check_judged(&desk.journal, &format!("a journal of format {format}, "));
        assert!(is_untouched(&desk.journal, &scribe.bytes));
    }
    for format in ["", "+1", "01", "1 ", "-1", "x", "18446744073709551616"] {
        let scribe = Scribe::opened(&first(format));
        put(&desk.journal, &scribe.bytes);
        assert_eq!(on("verify", &desk.journal, &[]).status, 2);
        check_judged(
            &desk.journal,
            "damaged at byte 0: the check of the first line",
        );
        assert!(is_untouched(&desk.journal, &scribe.bytes));
    }
}

#[test]
fn a_forged_answer_is_named_with_its_text() {
    let desk = Desk::new("forged");
    let right = answers(&texts());
    for (k, answer) in right.iter().enumerate() {
        // of another length, and of the same
        for forged in ["held,1".into(), format!("{}~", &answer[..answer.len() - 1])] {
            let mut scribe = Scribe::new(1, docket::rules());
            for (at, text) in texts().iter().enumerate() {
                scribe.text(text, SECONDS);
                scribe.answer(if at == k { &forged } else { &right[at] });
            }
            put(&desk.journal, &scribe.bytes);
            check_readable(&desk.journal, &texts());
            let number = k + 1;
            let said =
                format!("text {number} was answered {forged}, and judged again it gets {answer}:");
            check_judged(&desk.journal, &said);
            assert!(is_untouched(&desk.journal, &scribe.bytes));
        }
    }
}

/// Lines that the journal never writes where an answer is due, and where a text is.
fn odd_lines() -> (Vec<Vec<u8>>, Vec<Vec<u8>>) {
    let mut answers: Vec<Vec<u8>> = vec![b"answer ".to_vec(), b"answer".to_vec()];
    answers.extend([
        b"note held".to_vec(),
        [b"answer ", &[b'x'; 129][..]].concat(),
    ]);
    let control = [
        "\x1b[2J", "a b", " ", "\0", "\r", "\x7f", "\u{e9}", "\u{9b}",
    ];
    let control = control.map(str::as_bytes);
    for bytes in control.into_iter().chain([&b"\xff"[..], b"\xc2"]) {
        answers.push([b"answer ", bytes].concat());
        answers.push([b"answer held", bytes].concat());
    }
    let lines = [
        "text 1048577 1 SUM",
        "text 01 1 SUM",
        "text 1 01 SUM",
        "text +1 1 SUM",
        "text 1 -1 SUM",
        "text 1 1",
        "text 1 18446744073709551616 SUM",
        "text 1 1 SUM SUM",
        "text 1 1 0",
        "text 0 1 SUM",
    ];
    let texts = lines.map(|line| line.replace("SUM", &"0".repeat(64)).into_bytes());
    (answers, texts.to_vec())
}

/// Journals with a right chain whose last record is no record, or stands where it cannot.
fn forged() -> Vec<Scribe> {
    let (text, answer) = (&texts()[0], &answers(&texts())[0]);
    let none = Scribe::new(1, docket::rules());
    let mut begun = none.clone();
    begun.text(text, SECONDS);
    let mut whole = begun.clone();
    whole.answer(answer);
    let mut journals = vec![none, begun.clone(), whole.clone()];
    journals[0].answer(answer);
    journals[1].text(text, SECONDS);
    journals[2].answer(answer);
    let (due_answers, due_texts) = odd_lines();
    for (before, words) in [(begun, due_answers), (whole, due_texts)] {
        for words in words {
            let mut journal = before.clone();
            journal.line(&words);
            journal.bytes.push(b'\n');
            journals.push(journal);
        }
    }
    journals
}

#[test]
fn records_that_the_journal_never_writes_are_damage_though_their_chain_is_right() {
    let desk = Desk::new("forged-records");
    for (k, scribe) in forged().into_iter().enumerate() {
        put(&desk.journal, &scribe.bytes);
        let at = scribe.starts.last().expect("a record");
        let commands = [
            ("lodge", &["-"][..]),
            ("log", &[]),
            ("log", &["--json"]),
            ("verify", &[]),
            ("report", &[]),
        ];
        for (command, more) in commands {
            let ran = on_with(command, &desk.journal, more, MORE);
            let last = String::from_utf8_lossy(&scribe.bytes[*at..]).into_owned();
            assert_eq!(ran.status, 2, "{k}: {command}: {last:?} {}", ran.out());
            assert!(
                ran.notes().contains(&format!("damaged at byte {at}, ")),
                "{command}: {}",
                ran.notes()
            );
            let printable = |byte: &u8| (32..=126).contains(byte) || *byte == b'\n';
            assert!(ran.out.iter().all(printable) && ran.notes.iter().all(printable));
        }
        assert!(is_untouched(&desk.journal, &scribe.bytes));
    }
}

#[test]
fn a_check_in_capitals_is_damage() {
    let desk = Desk::new("capitals");
    let mut changed = desk.scribe.bytes.clone();
    for (start, end) in desk.scribe.starts.iter().zip(desk.scribe.ends()).skip(1) {
        let line = changed[*start..end]
            .iter()
            .position(|&byte| byte == b'\n')
            .expect("a line");
        let mut one = changed.clone();
        one[start + line - 64..start + line].make_ascii_uppercase();
        desk.check(&one, "a check in capitals");
    }
    changed.make_ascii_uppercase();
    desk.check(&changed, "all in capitals");
}
