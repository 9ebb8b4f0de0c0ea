//! A disk that fails, and crashes: no answer is told for a text that is not on disk, and nothing half-written stays.

mod common;

use common::journals::{answers, contents, texts, Random, Scribe, SECONDS};
use desk::journal::{Disk, Journal, Mended, Reading, Step};
use desk::progress::Progress;
use desk::trouble::Trouble;
use std::cell::RefCell;
use std::io::{self, Cursor, Read};
use std::path::Path;
use std::rc::Rc;

/// What goes wrong: the call of this number, counted from 0 over all kinds.
#[derive(Clone, Copy, Debug, Default)]
struct Plan {
    at: Option<usize>,
    /// Of a write: the bytes that are written all the same. Of a sync: 0, what was to be written is forgotten, as a kernel may
    /// do; 1, it waits on; 2, it was written. Of a cut: 0, nothing is done; 1, the file is shorter, but not on disk.
    how: usize,
    then: Then,
}

/// What happens to the calls after it.
#[derive(Clone, Copy, Debug, Default, PartialEq, Eq)]
enum Then {
    #[default]
    Work,
    /// Cutting fails too.
    NoCut,
    /// The process is gone: nothing is done any more.
    Nothing,
}

/// A file as a process sees it, and as it is on disk.
#[derive(Clone, Default)]
struct State {
    seen: Vec<u8>,
    kept: Vec<u8>,
    /// Which bytes wait to be written.
    waits: Vec<bool>,
    named: bool,
    calls: usize,
    /// How many bytes each call was to write.
    asked: Vec<usize>,
    plan: Plan,
}

impl State {
    /// Counts a call: what goes wrong with it, if it does.
    fn goes_wrong(&mut self, asked: usize, is_cut: bool) -> Option<usize> {
        let now = self.calls;
        self.calls += 1;
        self.asked.push(asked);
        let at = self.plan.at?;
        match self.plan.then {
            _ if now < at => None,
            _ if now == at => Some(self.plan.how),
            Then::Work => None,
            Then::NoCut => is_cut.then_some(0),
            Then::Nothing => Some(usize::MAX),
        }
    }

    fn write(&mut self, bytes: &[u8]) {
        self.seen.extend_from_slice(bytes);
        self.waits.resize(self.seen.len(), true);
    }

    fn shorten(&mut self, length: usize) {
        self.seen.truncate(length);
        self.waits.truncate(length);
    }

    /// Writes what waits; what was forgotten is not written.
    fn settle(&mut self) {
        self.kept.resize(self.seen.len(), 0);
        for at in 0..self.seen.len() {
            if std::mem::take(&mut self.waits[at]) {
                self.kept[at] = self.seen[at];
            }
        }
    }

    /// The file after a crash: of what waited, the bytes before a place were written, and the file is so much longer.
    fn crashed(&self, place: usize, zeros: usize) -> State {
        let mut kept = self.kept.clone();
        for at in (0..place.min(self.seen.len())).filter(|&at| self.waits[at]) {
            kept.resize(kept.len().max(at + 1), 0);
            kept[at] = self.seen[at];
        }
        let longest = self.seen.len().max(kept.len());
        kept.resize((kept.len() + zeros).min(longest), 0);
        State {
            seen: kept.clone(),
            waits: vec![false; kept.len()],
            kept,
            named: true,
            ..State::default()
        }
    }
}

/// A disk that the test can still see when the journal is gone.
#[derive(Clone, Default)]
struct Platter(Rc<RefCell<State>>);

fn full() -> io::Error {
    io::Error::from_raw_os_error(28)
}

fn broken() -> io::Error {
    io::Error::from_raw_os_error(5)
}

impl Disk for Platter {
    fn bytes(&self) -> io::Result<Box<dyn Read + '_>> {
        Ok(Box::new(Cursor::new(self.0.borrow().seen.clone())))
    }

    fn length(&self) -> io::Result<u64> {
        Ok(self.0.borrow().seen.len() as u64)
    }

    fn append(&mut self, bytes: &[u8]) -> io::Result<()> {
        let mut state = self.0.borrow_mut();
        match state.goes_wrong(bytes.len(), false) {
            None => {
                state.write(bytes);
                Ok(())
            }
            Some(usize::MAX) => Err(full()),
            Some(some) => {
                state.write(&bytes[..some.min(bytes.len())]);
                Err(full())
            }
        }
    }

    fn sync(&mut self) -> io::Result<()> {
        let mut state = self.0.borrow_mut();
        match state.goes_wrong(0, false) {
            None => {
                state.settle();
                return Ok(());
            }
            Some(0) => state.waits.fill(false),
            Some(2) => state.settle(),
            Some(_) => {}
        }
        Err(broken())
    }

    fn cut(&mut self, length: u64) -> io::Result<()> {
        let mut state = self.0.borrow_mut();
        match state.goes_wrong(0, true) {
            None => {
                state.shorten(length as usize);
                state.settle();
                return Ok(());
            }
            Some(1) => state.shorten(length as usize),
            Some(_) => {}
        }
        Err(broken())
    }

    fn sync_name(&mut self) -> io::Result<()> {
        let mut state = self.0.borrow_mut();
        if state.goes_wrong(0, false).is_some() {
            return Err(broken());
        }
        state.named = true;
        Ok(())
    }
}

impl Platter {
    fn of(state: State) -> Platter {
        Platter(Rc::new(RefCell::new(state)))
    }

    /// The same file for a process that comes after, with this going wrong.
    fn plan(&self, plan: Plan) {
        let mut state = self.0.borrow_mut();
        (state.plan, state.calls) = (plan, 0);
        state.asked.clear();
    }

    fn open(&self) -> Result<(Journal<Platter>, Mended), Trouble> {
        Journal::open(self.clone(), Path::new("J"), &mut Progress::none())
    }

    fn state(&self) -> State {
        self.0.borrow().clone()
    }
}

/// The texts of a journal up to its end, or to what is damaged or torn.
fn before_damage(bytes: &[u8]) -> Vec<Vec<u8>> {
    let mut found = Vec::new();
    let Ok(mut reading) = Reading::of(Path::new("J"), bytes) else {
        return found;
    };
    loop {
        match reading.step() {
            Ok(Step::Text { .. }) => found.push(reading.records.text().to_vec()),
            Ok(Step::Answer(_)) => {}
            Ok(Step::End | Step::Torn(_)) | Err(_) => return found,
        }
    }
}

/// What a process told.
#[derive(Default)]
struct Told {
    /// The texts of which it told something: those that it found, and those that it answered.
    texts: Vec<Vec<u8>>,
    /// What went wrong.
    trouble: Option<Trouble>,
}

/// A process that opens the journal and lodges those of some texts that are not in it, up to the first trouble.
fn process(disk: &Platter, texts: &[Vec<u8>]) -> Told {
    let mut told = Told::default();
    let mut journal = match disk.open() {
        Ok((journal, _)) => journal,
        Err(trouble) => {
            told.trouble = Some(trouble);
            return told;
        }
    };
    told.texts = before_damage(&disk.state().seen);
    assert_eq!(told.texts.len() as u64, journal.texts());
    for text in &texts[told.texts.len()..] {
        match journal.lodge(text, SECONDS) {
            Ok(lodged) => {
                told.texts.push(text.clone());
                told.trouble = lodged.trouble;
            }
            Err(trouble) => told.trouble = Some(trouble),
        }
        if told.trouble.is_some() {
            let before = disk.state().seen;
            assert!(journal.lodge(text, SECONDS).is_err());
            assert_eq!(disk.state().seen, before);
            return told;
        }
    }
    told
}

/// A journal that is opened after all went well again has the texts that were told, first, and the right answers; and it goes on.
fn check_after(disk: &Platter, told: &[Vec<u8>], how: &str) {
    disk.plan(Plan::default());
    let after = process(disk, &texts());
    assert!(after.trouble.is_none(), "{how}: {:?}", after.trouble);
    assert_eq!(after.texts, texts(), "{how}");
    assert!(texts().starts_with(told), "{how}");
    let found = contents(&disk.state().seen).expect("a sound journal");
    let wanted = texts()
        .into_iter()
        .zip(answers(&texts()).into_iter().map(Some));
    assert_eq!(found, wanted.collect::<Vec<_>>(), "{how}");
}

/// However a crash leaves the file: what was told is in it, it opens, and it goes on.
fn check_crashes(disk: &Platter, told: &[Vec<u8>], how: &str) {
    let state = disk.state();
    if !state.named {
        return assert!(told.is_empty(), "{how}: the file's name is not on disk");
    }
    let first = state.waits.iter().position(|&waits| waits);
    let first = first.unwrap_or(state.seen.len());
    let last = state.seen.len();
    for place in (first..last).step_by(3).chain([last]) {
        for zeros in [0, 60, 100_000] {
            let how = format!("{how}; crash at {place}, zeros {zeros}");
            let crashed = state.crashed(place, zeros);
            let kept = before_damage(&crashed.seen);
            assert!(
                kept.starts_with(told),
                "{how}: {} of {}",
                kept.len(),
                told.len()
            );
            check_after(&Platter::of(crashed), told, &how);
        }
    }
}

/// The calls of a process without faults: how many bytes each was to write.
fn calls() -> Vec<usize> {
    let disk = Platter::default();
    let told = process(&disk, &texts());
    assert!(told.trouble.is_none());
    assert_eq!(disk.state().seen, Scribe::of(&texts()).bytes);
    disk.state().asked
}

/// A disk that has no room left from a byte of a call on, and what a process told that lodged the texts there.
fn without_room(at: usize, how: usize, then: Then) -> (Platter, Told) {
    let disk = Platter::default();
    let at = Some(at);
    disk.plan(Plan { at, how, then });
    let told = process(&disk, &texts());
    (disk, told)
}

#[test]
fn a_full_disk_at_every_byte_leaves_whole_records_and_no_text_is_half_lodged() {
    for (at, &length) in calls().iter().enumerate() {
        for how in 0..length {
            let (disk, told) = without_room(at, how, Then::Work);
            let trouble = told.trouble.expect("no room").to_string();
            assert!(trouble.contains("No space left on device"), "{trouble}");
            let seen = disk.state().seen;
            assert_eq!(before_damage(&seen), told.texts, "call {at}, byte {how}");
            assert!(
                seen.is_empty() || contents(&seen).is_ok(),
                "call {at}, byte {how}"
            );
            check_after(&disk, &told.texts, &format!("call {at}, byte {how}"));
            assert_eq!(disk.state().seen, Scribe::of(&texts()).bytes);
        }
    }
}

#[test]
fn a_full_disk_that_cannot_be_cut_leaves_a_torn_end_that_is_cut_later() {
    for (at, &length) in calls().iter().enumerate() {
        for how in 0..length {
            let (disk, told) = without_room(at, how, Then::NoCut);
            let trouble = told.trouble.expect("no room").to_string();
            let lodged = trouble.contains("is lodged and answered, but the answer");
            assert!(lodged || trouble.contains("is not sure"), "{trouble}");
            assert_eq!(before_damage(&disk.state().seen), told.texts);
            check_after(&disk, &told.texts, &format!("call {at}, byte {how}"));
            assert_eq!(disk.state().seen, Scribe::of(&texts()).bytes);
        }
    }
}

#[test]
fn a_text_whose_write_failed_is_told_to_be_out_and_one_whose_answer_failed_to_be_in() {
    let disk = Platter::default();
    let (mut journal, _) = disk.open().expect("a journal");
    let calls = disk.state().calls;
    for (more, said) in [
        (0, "the last text was not lodged: lodge it again when "),
        (1, "the last text was not lodged: lodge it again when "),
        (
            2,
            "text 1 is lodged and answered, but the answer could not be recorded",
        ),
    ] {
        let disk = Platter::of(disk.state());
        disk.0.borrow_mut().calls = 0;
        let (mut journal, _) = disk.open().expect("a journal");
        let at = Some(disk.state().calls + more);
        disk.0.borrow_mut().plan = Plan {
            at,
            how: 1,
            then: Then::Work,
        };
        let trouble = match journal.lodge(&texts()[0], SECONDS) {
            Ok(lodged) => lodged.trouble.expect("a trouble"),
            Err(trouble) => trouble,
        };
        assert!(trouble.to_string().contains(said), "{trouble}");
    }
    journal.lodge(&texts()[0], SECONDS).expect("lodged");
    assert_eq!(disk.state().calls, calls + 3);
}

#[test]
fn a_sync_that_fails_loses_no_text_that_was_told() {
    let calls = calls();
    for at in (0..calls.len()).filter(|&at| calls[at] == 0) {
        for how in 0..3 {
            for then in [Then::Work, Then::NoCut] {
                let plan = Plan {
                    at: Some(at),
                    how,
                    then,
                };
                let how = format!("{plan:?}");
                let disk = Platter::default();
                disk.plan(plan);
                let told = process(&disk, &texts());
                assert!(told.trouble.is_some(), "{how}");
                check_crashes(&disk, &told.texts, &how);
                let forgotten = plan.how == 0 && then == Then::NoCut;
                if !forgotten {
                    check_next(&disk, &how);
                }
            }
        }
    }
}

/// The next process on the same machine finds what the last one left, goes on, and then there is a crash.
fn check_next(disk: &Platter, how: &str) {
    for more in 0..=texts().len() {
        let disk = Platter::of(disk.state());
        disk.plan(Plan::default());
        let found = before_damage(&disk.state().seen).len();
        let told = process(&disk, &texts()[..more.max(found)]);
        assert!(told.trouble.is_none(), "{how}: {:?}", told.trouble);
        check_crashes(&disk, &told.texts, &format!("{how}; then {more} texts"));
    }
}

#[test]
fn a_process_that_is_killed_at_any_call_leaves_a_journal_that_the_next_one_makes_sure_of() {
    for (at, &length) in calls().iter().enumerate() {
        for how in (0..=length).step_by(59).chain([1, length]) {
            let plan = Plan {
                at: Some(at),
                how,
                then: Then::Nothing,
            };
            let disk = Platter::default();
            disk.plan(plan);
            let told = process(&disk, &texts());
            let how = format!("killed at {plan:?}");
            check_crashes(&disk, &told.texts, &how);
            // a sync that was cut off has done nothing yet
            if length > 0 || plan.how == 1 {
                check_next(&disk, &how);
            }
        }
    }
}

#[test]
fn a_folder_that_was_not_synced_is_synced_before_the_next_answer() {
    let calls = calls();
    let disk = Platter::default();
    let named = (0..calls.len()).find(|&at| {
        let disk = Platter::default();
        disk.plan(Plan {
            at: Some(at),
            how: 0,
            then: Then::Work,
        });
        disk.open().is_err() && disk.state().seen.len() > 20
    });
    disk.plan(Plan {
        at: named,
        how: 0,
        then: Then::Work,
    });
    assert!(disk.open().is_err());
    assert!(!disk.state().named);
    disk.plan(Plan::default());
    let (mut journal, _) = disk.open().expect("a journal");
    journal.lodge(&texts()[0], SECONDS).expect("lodged");
    assert!(disk.state().named);
}

#[test]
fn a_text_is_on_disk_before_its_answer_and_so_is_one_that_is_found_without_its_answer() {
    let scribe = Scribe::of(&texts());
    for texts_before in 0..4 {
        let end = scribe.ends()[2 * texts_before + 1];
        let mut state = State::default();
        state.write(&scribe.bytes[..scribe.ends()[2 * texts_before]]);
        state.settle();
        state.write(&scribe.bytes[scribe.ends()[2 * texts_before]..end]);
        let disk = Platter::of(state);
        let (_, mended) = disk.open().expect("a journal");
        assert_eq!(
            mended.answered.map(|(text, _)| text),
            Some(texts_before as u64 + 1)
        );
        let kept = &disk.state().kept;
        assert!(
            kept.starts_with(&scribe.bytes[..end]),
            "text {}",
            texts_before + 1
        );
    }
}

#[test]
fn mending_that_fails_touches_no_whole_record() {
    let scribe = Scribe::of(&texts());
    for cut in (0..=scribe.bytes.len()).step_by(11).chain(scribe.ends()) {
        for at in 0..5 {
            for how in 0..3 {
                let mut state = State::default();
                state.write(&scribe.bytes[..cut]);
                state.settle();
                state.named = true;
                let disk = Platter::of(state);
                let plan = Plan {
                    at: Some(at),
                    how,
                    then: Then::NoCut,
                };
                disk.plan(plan);
                let opened = disk.open().map(|_| ());
                let how = format!("cut {cut}, {plan:?}, {opened:?}");
                let told = texts()[..scribe.whole(cut) / 2].to_vec();
                assert!(
                    before_damage(&disk.state().seen).starts_with(&told),
                    "{how}"
                );
                check_after(&disk, &told, &how);
            }
        }
    }
}

#[test]
fn a_text_that_is_too_long_for_a_record_is_not_written() {
    let disk = Platter::default();
    let (mut journal, _) = disk.open().expect("a journal");
    let before = disk.state().seen;
    let long = vec![b'x'; docket::MOST_TEXT + 1];
    assert!(journal.lodge(&long, SECONDS).is_err());
    assert_eq!(disk.state().seen, before);
    drop(journal);
    let (mut journal, _) = disk.open().expect("a journal");
    let most = vec![b'x'; docket::MOST_TEXT];
    journal.lodge(&most, SECONDS).expect("lodged");
    assert_eq!(contents(&disk.state().seen).expect("sound")[0].0, most);
}

/// Pages that are written in any order can leave a hole: such a journal opens, or is refused with all that was told before the
/// hole.
#[test]
fn a_hole_after_a_crash_costs_no_text_that_was_told() {
    let mut random = Random::seeded();
    for _ in 0..2000 {
        let count = calls().len();
        let disk = Platter::default();
        disk.plan(Plan {
            at: Some(random.below(count)),
            how: random.below(400),
            then: Then::Nothing,
        });
        let told = process(&disk, &texts());
        let mut state = disk.state();
        if !state.named {
            continue;
        }
        let page = 1 + random.below(120);
        for at in 0..state.seen.len() {
            let written = (at / page).wrapping_mul(0x9e37_79b9 ^ page) & 4 == 0;
            state.waits[at] &= written;
        }
        let crashed = state.crashed(state.seen.len(), 100_000);
        assert!(before_damage(&crashed.seen).starts_with(&told.texts));
        let disk = Platter::of(crashed);
        match disk.open() {
            Ok(_) => check_after(&disk, &told.texts, "a hole"),
            Err(trouble) => assert!(trouble.to_string().contains("damaged at byte")),
        }
    }
}
