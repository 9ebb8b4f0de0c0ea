//! Journals of which an end is missing, as a crash leaves them: cut off, reported, and nothing else lost.

mod common;

use common::journals::{
    answers, contents, is_untouched, on, on_with, put, texts, Scribe, READERS, SECONDS,
};
use common::memory::Memory;
use common::{counted, folder, Ran};
use desk::journal::{Journal, Mended, Reading, Step};
use desk::progress::Progress;
use std::fs;
use std::io::{self, Read};
use std::path::Path;

/// So many zeros stand behind a cut.
const ZEROS: [usize; 4] = [0, 1, 40, 5000];

/// One more text that is accepted.
const MORE: &[u8] = b"kind=schedule\nwriter=8\nrun=60,80\nrun=0,20\nend=schedule\n";

/// The first bytes of a journal, so many of them, and zeros behind.
fn torn(journal: &[u8], cut: usize, zeros: usize) -> Vec<u8> {
    let mut bytes = journal[..cut].to_vec();
    bytes.resize(cut + zeros, 0);
    bytes
}

/// Whether the beginning of a first line, with zeros behind, is no longer than the line: more than that no crash leaves, and the
/// file might be anyone's.
fn is_first_line(scribe: &Scribe, cut: usize, zeros: usize) -> bool {
    let first = scribe.ends()[0];
    cut < first && cut + zeros <= first
}

/// Every cut with each number of zeros.
fn cuts(scribe: &Scribe) -> impl Iterator<Item = (usize, usize)> {
    let length = scribe.bytes.len();
    (0..=length).flat_map(|cut| ZEROS.map(|zeros| (cut, zeros)))
}

#[test]
fn the_journal_writes_what_the_format_says() {
    let scribe = Scribe::of(&texts());
    let (mut journal, mended) = open(Memory::default()).expect("a new journal");
    assert_eq!(mended, Mended::default());
    for (k, text) in texts().iter().enumerate() {
        let lodged = journal.lodge(text, SECONDS).expect("lodged");
        assert_eq!(lodged.number, k as u64 + 1);
        assert!(lodged.trouble.is_none());
    }
    assert_eq!(journal.disk().now(), scribe.bytes);
    assert_eq!(journal.check(), scribe.check);
    assert_eq!(journal.texts(), 4);
    let answers = answers(&texts());
    assert!(answers[..3].iter().all(|answer| answer.starts_with("held")));
    assert!(answers[3].starts_with("refused"));
}

fn open(disk: Memory) -> Result<(Journal<Memory>, Mended), desk::trouble::Trouble> {
    Journal::open(disk, Path::new("J"), &mut Progress::none())
}

#[test]
fn every_cut_is_mended_and_no_whole_record_is_lost() {
    let scribe = Scribe::of(&texts());
    for (cut, zeros) in cuts(&scribe) {
        let before = torn(&scribe.bytes, cut, zeros);
        match open(Memory::of(&before)) {
            Ok((journal, mended)) => {
                check_mended(&scribe, cut, zeros, &mended);
                check_lodged(&scribe, cut, journal);
            }
            Err(trouble) => {
                // a file that no crash of this program leaves
                let foreign = cut < scribe.ends()[0] && !is_first_line(&scribe, cut, zeros);
                assert!(foreign, "cut {cut} zeros {zeros}: {trouble}");
            }
        }
    }
}

/// What was cut off is reported to the byte, and so is an answer that was missing.
fn check_mended(scribe: &Scribe, cut: usize, zeros: usize, mended: &Mended) {
    let whole = scribe.whole(cut);
    let kept = match whole {
        0 => 0,
        _ => scribe.ends()[whole - 1],
    };
    assert_eq!(
        mended.cut,
        (cut + zeros - kept) as u64,
        "cut {cut} zeros {zeros}"
    );
    let due = whole > 0 && whole.is_multiple_of(2);
    let text = whole / 2;
    let answered = due.then(|| (text as u64, answers(&texts())[text - 1].clone()));
    assert_eq!(mended.answered, answered, "cut {cut} zeros {zeros}");
}

/// The records before the cut are all there, byte for byte, the answers are complete, and one more text goes in.
fn check_lodged(scribe: &Scribe, cut: usize, mut journal: Journal<Memory>) {
    let whole = scribe.whole(cut);
    let count = whole / 2;
    assert_eq!(journal.texts(), count as u64);
    let mut all = texts()[..count].to_vec();
    all.push(MORE.to_vec());
    let wanted = answers(&all);
    let lodged = journal.lodge(MORE, SECONDS).expect("lodged");
    assert_eq!(lodged.number, count as u64 + 1);
    assert_eq!(lodged.answer.line(), format!("answer={}", wanted[count]));
    let after = &journal.disk().now();
    let kept = if whole > 0 {
        scribe.ends()[whole - 1]
    } else {
        0
    };
    assert_eq!(&after[..kept], &scribe.bytes[..kept], "cut {cut}");
    let found = contents(after).expect("a sound journal");
    let wanted: Vec<_> = all.into_iter().zip(wanted.into_iter().map(Some)).collect();
    assert_eq!(found, wanted, "cut {cut}");
}

#[test]
fn a_second_opening_finds_nothing_to_mend() {
    let scribe = Scribe::of(&texts());
    for cut in 0..=scribe.bytes.len() {
        let (journal, _) = open(Memory::of(&torn(&scribe.bytes, cut, 0))).expect("mended");
        let disk = journal.disk().clone();
        let bytes = disk.now();
        let (journal, mended) = open(disk).expect("open");
        assert_eq!(mended, Mended::default(), "cut {cut}");
        assert_eq!(journal.disk().now(), bytes);
    }
}

#[test]
fn torn_files_are_mended_by_lodge_and_it_says_so() {
    let scribe = Scribe::of(&texts());
    let path = folder("torn-lodge").join("J");
    let ends = scribe.ends();
    let near =
        |cut: &usize| ends.iter().any(|&end| end.abs_diff(*cut) < 2) || cut.is_multiple_of(37);
    for cut in (0..=scribe.bytes.len()).filter(near) {
        for zeros in ZEROS {
            if cut < ends[0] && !is_first_line(&scribe, cut, zeros) {
                continue;
            }
            check_file(&scribe, &path, cut, zeros);
        }
    }
}

/// A torn file after one more text: the note, the log, the texts, and the chain.
fn check_file(scribe: &Scribe, path: &Path, cut: usize, zeros: usize) {
    put(path, &torn(&scribe.bytes, cut, zeros));
    let whole = scribe.whole(cut);
    let count = whole / 2;
    let kept = if whole > 0 {
        scribe.ends()[whole - 1]
    } else {
        0
    };
    let ran = on_with("lodge", path, &["-"], MORE);
    let lost = cut + zeros - kept;
    let said = format!("cut off the last {lost} bytes");
    assert_eq!(
        ran.notes().contains(&said),
        lost > 0,
        "{cut} {zeros}: {}",
        ran.notes()
    );
    assert_ne!(ran.status, 2, "{}", ran.notes());
    assert_eq!(
        &fs::read(path).expect("a file")[..kept],
        &scribe.bytes[..kept]
    );
    let mut all = texts()[..count].to_vec();
    all.push(MORE.to_vec());
    check_log(&on("log", path, &[]), &all, count + 1);
    for (k, text) in all.iter().enumerate() {
        assert_eq!(&on("text", path, &[&(k + 1).to_string()]).out, text);
    }
    let verified = on("verify", path, &[]);
    assert_eq!((verified.status, verified.notes()), (0, ""));
    let lines = verified.lines();
    let check = lines.last().expect("a check");
    assert!(ran.out().ends_with(&format!("{check}\n")), "{}", ran.out());
}

/// A log has these texts with the first so many of their answers.
fn check_log(ran: &Ran, texts: &[Vec<u8>], answered: usize) {
    assert_eq!(ran.status, 0, "{}", ran.notes());
    let (lines, answers) = (ran.lines(), answers(texts));
    assert_eq!(lines.len(), texts.len());
    for (k, line) in lines.iter().enumerate() {
        let answer = if k < answered { &answers[k] } else { "-" };
        let words: Vec<&str> = line.split(' ').collect();
        assert_eq!(words[0], (k + 1).to_string());
        assert_eq!(words[4], texts[k].len().to_string());
        assert_eq!(words[5], answer);
    }
}

#[test]
fn readers_of_every_cut_read_what_is_whole_and_touch_nothing() {
    let scribe = Scribe::of(&texts());
    let path = folder("torn-read").join("J");
    for (cut, zeros) in cuts(&scribe) {
        let bytes = torn(&scribe.bytes, cut, zeros);
        put(&path, &bytes);
        match scribe.whole(cut) {
            0 => check_no_journal(&path),
            whole => check_readers(&scribe, &path, whole, bytes.len()),
        }
        assert!(is_untouched(&path, &bytes), "cut {cut} zeros {zeros}");
    }
}

/// A file without a whole first line has nothing to read.
fn check_no_journal(path: &Path) {
    for (command, more) in READERS {
        let ran = on_with(command, path, more, MORE);
        assert_eq!((ran.status, ran.out()), (2, ""), "{command}");
        assert!(ran.notes().contains("not a journal"), "{}", ran.notes());
    }
}

/// Each reading command on a journal that has so many whole records.
fn check_readers(scribe: &Scribe, path: &Path, whole: usize, length: usize) {
    let (count, answered) = (whole / 2, (whole - 1) / 2);
    let kept = scribe.ends()[whole - 1];
    let torn = format!("the last {} bytes are of a record", length - kept);
    let log = on("log", path, &[]);
    check_log(&log, &texts()[..count], answered);
    assert_eq!(log.notes().contains(&torn), length > kept);
    let verify = on("verify", path, &[]);
    let said = format!("{} in {kept} bytes;", counted(count, "text"));
    assert!(
        verify.status == 0 && verify.out().contains(&said),
        "{}",
        verify.out()
    );
    assert_eq!(verify.notes().contains(&torn), length > kept);
    for (k, text) in texts().iter().enumerate() {
        let ran = on("text", path, &[&(k + 1).to_string()]);
        match k < count {
            true => assert_eq!((ran.status, &ran.out), (0, text)),
            false => assert_eq!((ran.status, ran.out.len()), (2, 0)),
        }
    }
    check_judges(path, count);
}

/// Commands that judge: they judge the whole texts, with or without the last one's answer.
fn check_judges(path: &Path, count: usize) {
    let mut docket = docket::Docket::new();
    let lodged: Vec<_> = texts()[..count]
        .iter()
        .map(|text| docket.lodge(text))
        .collect();
    assert_eq!(lodged.len(), count);
    let report = on("report", path, &[]);
    assert_eq!(report.status, 0, "{}", report.notes());
    assert!(report.out().starts_with(docket.report().text()));
    let show = on("show", path, &[]);
    assert_eq!(show.status, if count >= 2 { 0 } else { 2 });
    if count >= 2 {
        assert_eq!(show.out, texts()[1]);
    }
    let drafted = on("draft", path, &["--price", "10,14"]);
    assert_eq!(drafted.status, if count >= 1 { 0 } else { 2 });
    let tried = on_with("try", path, &["-"], MORE);
    let answer = docket.lodge(MORE);
    assert!(tried.out().contains(answer.line()), "{}", tried.out());
}

/// A file to which somebody writes: its end is met once, at some byte, and then there is more.
struct Growing<'a> {
    rest: &'a [u8],
    before: usize,
}

impl Read for Growing<'_> {
    fn read(&mut self, room: &mut [u8]) -> io::Result<usize> {
        let most = match self.before {
            usize::MAX => room.len(),
            before => before.min(room.len()),
        };
        let got = (&self.rest[..most.min(self.rest.len())]).read(room)?;
        self.rest = &self.rest[got..];
        match self.before {
            0 => self.before = usize::MAX,
            usize::MAX => {}
            _ => self.before -= got,
        }
        Ok(got)
    }
}

#[test]
fn a_record_that_is_being_written_while_it_is_read_is_no_damage() {
    let scribe = Scribe::of(&texts());
    for before in scribe.ends()[0]..scribe.bytes.len() {
        let rest = &scribe.bytes[..];
        let growing = Growing { rest, before };
        let mut reading = Reading::of(Path::new("J"), growing).expect("a first line");
        let mut whole = 1;
        loop {
            match reading.step() {
                Ok(Step::Text { .. } | Step::Answer(_)) => whole += 1,
                Ok(Step::End | Step::Torn(_)) => break,
                Err(trouble) => panic!("the end was at byte {before}: {trouble}"),
            }
        }
        assert_eq!(whole, scribe.whole(before), "the end was at byte {before}");
    }
}
