//! Who writes to a journal's file, and who never does: the lock, files that are moved or replaced, and commands that only read.

mod common;

use common::journals::{
    contents, is_untouched, on, on_with, put, texts, Random, Scribe, READERS, SECONDS,
};
use common::{folder, Link};
use desk::journal::{Journal, OnDisk};
use desk::progress::Progress;
use std::fs::{self, File};
use std::io::{BufRead, BufReader, Write};
use std::path::Path;
use std::process::{Command, Stdio};
use std::sync::atomic::{AtomicBool, Ordering};
use std::sync::Arc;
use std::thread::{sleep, spawn};
use std::time::{Duration, Instant};

/// What lodges from standard input. It waits, as all does here that lodges where this process has lodged, since a process that another test
/// starts holds every lock of this one until it runs its own program.
const WAITING: [&str; 3] = ["-", "--wait", "20"];

fn open(path: &Path) -> Journal<OnDisk> {
    let disk = OnDisk::open(path, Duration::from_secs(20)).expect("a file");
    let opened = Journal::open(disk, path, &mut Progress::none());
    opened.expect("a journal").0
}

/// The texts in a file.
fn found(path: &Path) -> Vec<Vec<u8>> {
    let found = contents(&fs::read(path).expect("a file")).expect("a sound journal");
    found.into_iter().map(|(text, _)| text).collect()
}

#[test]
fn commands_that_only_read_never_make_a_file() {
    let folder = folder("writers-none");
    let path = folder.join("J");
    for (command, more) in READERS
        .into_iter()
        .chain([("salvage", &["NEW"][..]), ("lodge", &["no file"])])
    {
        let ran = on_with(command, &path, more, &texts()[0]);
        assert_eq!((ran.status, ran.out()), (2, ""), "{command}");
        assert_eq!(ran.notes().lines().count(), 1, "{command}: {}", ran.notes());
    }
    assert_eq!(fs::read_dir(&folder).expect("a folder").count(), 0);
    assert!(!Path::new("NEW").exists());
}

#[test]
fn what_is_no_file_is_no_journal() {
    let folder = folder("writers-kinds");
    for path in [
        folder.as_path(),
        Path::new("/dev/null"),
        Path::new("/dev/zero"),
        Path::new("-"),
    ] {
        for (command, more) in READERS.into_iter().chain([("lodge", &["-"][..])]) {
            let ran = on_with(command, path, more, &texts()[0]);
            assert_eq!((ran.status, ran.out()), (2, ""), "{command}");
            assert_eq!(ran.notes().lines().count(), 1, "{command}: {}", ran.notes());
        }
    }
    assert!(!Path::new("-").exists());
}

#[test]
fn one_process_writes_and_others_read_meanwhile() {
    let path = folder("writers-lock").join("J");
    let mut journal = open(&path);
    for text in texts() {
        journal.lodge(&text, SECONDS).expect("lodged");
        let before = fs::read(&path).expect("a file");
        put_time(&path);
        let ran = on_with("lodge", &path, &["-"], &text);
        assert_eq!((ran.status, ran.out()), (2, ""));
        assert!(ran
            .notes()
            .contains("another process has it open for writing"));
        for (command, more) in READERS {
            let ran = on_with(command, &path, more, &text);
            assert!(
                ran.status < 2 || command == "show",
                "{command}: {}",
                ran.notes()
            );
        }
        assert!(is_untouched(&path, &before));
    }
    drop(journal);
    assert_eq!(on_with("lodge", &path, &WAITING, &texts()[1]).status, 0);
    assert_eq!(found(&path).len(), 5);
}

/// Makes a file look old, without writing to it.
fn put_time(path: &Path) {
    let file = File::options().append(true).open(path).expect("a file");
    let time = std::time::UNIX_EPOCH + Duration::from_secs(1_000_000_000);
    file.set_modified(time).expect("a time");
}

#[test]
fn many_writers_in_turn_lose_nothing() {
    let path = folder("writers-many").join("J");
    let threads: Vec<_> = (0..8)
        .map(|_| {
            let path = path.clone();
            spawn(move || on_with("lodge", &path, &WAITING, &texts().concat()).status)
        })
        .collect();
    for thread in threads {
        assert_eq!(thread.join().expect("no panic"), 1);
    }
    let found = found(&path);
    assert_eq!(found.len(), 32);
    assert!(found.chunks(4).all(|some| some == texts()));
}

#[test]
fn a_writer_that_waited_writes_to_the_file_that_has_the_name_then() {
    let folder = folder("writers-replaced");
    let (path, old) = (folder.join("J"), folder.join("old"));
    let journal = open(&path);
    let waiting = {
        let path = path.clone();
        spawn(move || on_with("lodge", &path, &WAITING, &texts()[1]))
    };
    sleep(Duration::from_millis(150));
    fs::rename(&path, &old).expect("moved");
    put(&path, &Scribe::of(&texts()[..1]).bytes);
    drop(journal);
    let ran = waiting.join().expect("no panic");
    assert_ne!(ran.status, 2, "{}", ran.notes());
    assert_eq!(found(&path), texts()[..2]);
    assert_eq!(found(&old).len(), 0);
}

#[test]
fn no_text_is_answered_that_went_to_a_file_without_the_name() {
    let folder = folder("writers-moved");
    let (path, old) = (folder.join("J"), folder.join("old"));
    for replaced in [false, true] {
        let mut journal = open(&path);
        journal.lodge(&texts()[0], SECONDS).expect("lodged");
        let before = fs::read(&path).expect("a file");
        fs::rename(&path, &old).expect("moved");
        if replaced {
            put(&path, &before);
        }
        assert!(journal.lodge(&texts()[1], SECONDS).is_err());
        assert!(!replaced || is_untouched(&path, &before));
        assert_eq!(fs::read(&old).expect("a file"), before);
        let _ = fs::remove_file(&path);
    }
}

#[test]
fn a_journal_behind_a_link_is_one_file() {
    let folder = folder("writers-link");
    fs::create_dir(folder.join("far")).expect("a folder");
    let (path, far) = (folder.join("J"), folder.join("far").join("K"));
    let _link = Link::new(&far, &path);
    for text in texts() {
        assert_ne!(on_with("lodge", &path, &WAITING, &text).status, 2);
    }
    assert_eq!(found(&far), texts());
    let journal = open(&far);
    let ran = on_with("lodge", &path, &["-"], &texts()[0]);
    assert!(ran.notes().contains("another process"), "{}", ran.notes());
    drop(journal);
    let itself = [far.to_str().expect("a name"), WAITING[1], WAITING[2]];
    let ran = on("lodge", &path, &itself);
    assert!(
        ran.notes().contains("cannot be lodged in itself"),
        "{}",
        ran.notes()
    );
}

#[test]
fn a_journal_is_not_lodged_in_itself_from_standard_input() {
    let path = folder("writers-itself").join("J");
    let bytes = Scribe::of(&texts()).bytes;
    put(&path, &bytes);
    let mut child = Command::new(env!("CARGO_BIN_EXE_docket"))
        .args(["lodge".as_ref(), path.as_os_str(), "-".as_ref()])
        .stdin(File::open(&path).expect("a file"))
        .stdout(Stdio::null())
        .stderr(Stdio::null())
        .spawn()
        .expect("a process");
    let began = Instant::now();
    let status = loop {
        let ended = child.try_wait().expect("a status");
        if ended.is_some() || began.elapsed() > Duration::from_secs(2) {
            break ended;
        }
        sleep(Duration::from_millis(5));
    };
    if status.is_none() {
        child.kill().expect("stopped");
        child.wait().expect("a status");
    }
    assert_eq!(status.and_then(|status| status.code()), Some(2));
    assert!(is_untouched(&path, &bytes));
}

#[test]
fn readers_beside_a_writer_never_find_damage() {
    let path = folder("writers-beside").join("J");
    let mut journal = open(&path);
    let done = Arc::new(AtomicBool::new(false));
    let readers: Vec<_> = ["verify", "log", "report"]
        .into_iter()
        .map(|command| {
            let (path, done) = (path.clone(), done.clone());
            spawn(move || {
                while !done.load(Ordering::Relaxed) {
                    let ran = on(command, &path, &[]);
                    assert_eq!(ran.status, 0, "{command}: {}", ran.notes());
                }
            })
        })
        .collect();
    for text in texts().iter().cycle().take(600) {
        journal.lodge(text, SECONDS).expect("lodged");
    }
    done.store(true, Ordering::Relaxed);
    for reader in readers {
        reader.join().expect("no damage");
    }
}

#[test]
fn a_process_that_is_killed_leaves_every_text_that_it_answered() {
    let mut random = Random::seeded();
    let path = folder("writers-killed").join("J");
    let mut answered = 0;
    for round in 0..12 {
        answered += killed(&path, 1 + random.below(30));
        let found = contents(&fs::read(&path).expect("a file"));
        let ran = on_with("lodge", &path, &WAITING, &texts()[0]);
        assert_ne!(ran.status, 2, "round {round}: {}", ran.notes());
        let cut = ran.notes().contains("cut off the last");
        assert_eq!(cut, found.is_err(), "round {round}: {}", ran.notes());
        let log = on("log", &path, &[]).lines().len();
        assert!(
            log > answered,
            "round {round}: {log} texts, {answered} answers"
        );
        answered = log;
    }
}

/// Lodges texts without end until so many are answered, and then kills the process; how many were answered.
fn killed(path: &Path, wanted: usize) -> usize {
    let mut child = Command::new(env!("CARGO_BIN_EXE_docket"))
        .args(["lodge".as_ref(), path.as_os_str(), "--json".as_ref()])
        .args(WAITING)
        .stdin(Stdio::piped())
        .stdout(Stdio::piped())
        .stderr(Stdio::null())
        .spawn()
        .expect("a process");
    let mut input = child.stdin.take().expect("a pipe");
    let feeding = spawn(move || while input.write_all(&texts().concat()).is_ok() {});
    let mut answers = BufReader::new(child.stdout.take().expect("a pipe")).lines();
    for _ in 0..wanted {
        answers.next().expect("an answer").expect("a line");
    }
    child.kill().expect("stopped");
    child.wait().expect("a status");
    let more = answers
        .map_while(Result::ok)
        .filter(|line| line.ends_with('}'));
    let more = more.count();
    feeding.join().expect("no panic");
    wanted + more
}
