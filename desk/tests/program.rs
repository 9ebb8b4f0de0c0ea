//! The program as a process: its lock, its pipes, its end by a kill, and its answers to wrong and hostile words.
mod common;

use common::program::{docket, ended, finish, ran, start, DEADLINE};
use common::{escaped, folder, run, schedule, seed, text, Link, PROBLEM, TREE};
use second::inputs::random::Random;
use std::ffi::{OsStr, OsString};
use std::fs::{self, File, OpenOptions, Permissions};
use std::io::{pipe, BufRead, BufReader, PipeWriter, Read, Write};
use std::os::fd::OwnedFd;
use std::os::unix::ffi::{OsStrExt, OsStringExt};
use std::os::unix::fs::PermissionsExt;
use std::os::unix::net::UnixStream;
use std::path::{Path, PathBuf};
use std::process::{Child, ChildStdin, Command, Stdio};
use std::sync::mpsc::{channel, Receiver};
use std::thread::{self, sleep};
use std::time::{Duration, Instant};

/// A process that lodges what the test writes to it, and whose lines the test reads.
struct Lodging {
    child: Child,
    to: Option<ChildStdin>,
    lines: Receiver<String>,
}

impl Lodging {
    /// Lodges in a journal what comes in.
    fn in_journal(journal: &Path) -> Lodging {
        let words = [OsStr::new("lodge"), journal.as_os_str(), OsStr::new("-")];
        let mut command = docket(&words);
        let mut child = start(command.stdin(Stdio::piped()).stdout(Stdio::piped()));
        let from = BufReader::new(child.stdout.take().expect("standard output"));
        let (sender, lines) = channel();
        thread::spawn(move || {
            // what has no line end was not answered
            for line in from.split(b'\n').map_while(Result::ok) {
                let _ = sender.send(text(&line).to_string());
            }
        });
        let to = child.stdin.take();
        Lodging { child, to, lines }
    }

    /// Sends a text.
    fn send(&mut self, text: &str) {
        let to = self.to.as_mut().expect("standard input");
        to.write_all(text.as_bytes()).expect("a reader");
    }

    /// The next line that carries an answer.
    fn answer(&self) -> String {
        loop {
            let line = self.lines.recv_timeout(DEADLINE).expect("an answer");
            if line.contains(": answer=") {
                return line;
            }
        }
    }

    /// Ends its input; its exit status.
    fn end(mut self) -> Option<i32> {
        drop(self.to.take());
        ended(&mut self.child).code()
    }
}

/// A journal with a problem, a schedule of 600, a tree and a text that is refused. A process of its own lodges them: whatever the test itself
/// has locked stays locked while a process that another test starts has not come to run its own program.
fn journal(folder: &Path) -> PathBuf {
    let path = folder.join("monday.docket");
    let input = format!("{PROBLEM}{}{TREE}what\nend=\n", schedule(7, 50));
    let lodged = ran(
        &[OsStr::new("lodge"), path.as_os_str(), OsStr::new("-")],
        input.as_bytes(),
    );
    assert_eq!(lodged.status, 1, "{lodged:?}");
    path
}

/// The words of every command that only reads a journal.
fn readings(journal: &Path) -> Vec<Vec<OsString>> {
    let words = |words: &[&OsStr]| words.iter().map(|word| word.to_os_string()).collect();
    let j = journal.as_os_str();
    let mut all: Vec<Vec<OsString>> = ["report", "show", "log", "verify"]
        .into_iter()
        .map(|name| words(&[OsStr::new(name), j]))
        .collect();
    all.push(words(&[OsStr::new("text"), j, OsStr::new("1")]));
    all.push(words(&[OsStr::new("try"), j, OsStr::new("-")]));
    for more in [&["--price", "10"][..], &["--tree", "3"]] {
        let mut draft = words(&[OsStr::new("draft"), j]);
        draft.extend(more.iter().map(OsString::from));
        all.push(draft);
    }
    let new = journal.with_extension("new");
    all.push(words(&[OsStr::new("salvage"), j, new.as_os_str()]));
    all
}

/// The log of a journal, by its lines.
fn log(journal: &Path) -> Vec<String> {
    let log = run(&[OsStr::new("log"), journal.as_os_str()], b"");
    assert_eq!(log.status, 0, "{log:?}");
    log.lines().into_iter().map(str::to_string).collect()
}

#[test]
fn each_text_is_answered_as_its_end_line_comes_in() {
    let journal = folder("open").join("j");
    let mut lodging = Lodging::in_journal(&journal);
    lodging.send(PROBLEM);
    assert_eq!(lodging.answer(), "1 -:1: answer=held");
    for k in 0..20 {
        let schedule = schedule(7, 80 - k);
        let (begin, end) = schedule.split_at(20);
        lodging.send(begin);
        lodging.send(end);
        let wanted = format!("{} -:{}: answer=held,{}", k + 2, 8 + 4 * k, 900 - 10 * k);
        assert_eq!(lodging.answer(), wanted);
        assert_eq!(log(&journal).len() as u64, k + 2);
    }
    lodging.send("kind=tree");
    assert_eq!(lodging.end(), Some(1));
    assert_eq!(log(&journal).len(), 22);
}

#[test]
fn one_process_writes_at_a_time_and_readers_work_meanwhile() {
    let folder = folder("lock");
    let journal = journal(&folder);
    let mut first = Lodging::in_journal(&journal);
    first.send(TREE);
    first.answer();
    let second = [OsStr::new("lodge"), journal.as_os_str(), OsStr::new("-")];
    assert!(ran(&second, TREE.as_bytes()).trouble().contains("--wait"));
    let short = [OsStr::new("--wait=0.1")];
    ran(&[&second[..], &short[..]].concat(), TREE.as_bytes()).trouble();
    for words in readings(&journal) {
        let ran = ran(&words, TREE.as_bytes());
        assert_eq!(ran.status, 0, "{words:?}: {ran:?}");
    }
    let tree = folder.join("tree.txt");
    fs::write(&tree, TREE).expect("a file");
    let mut command = docket(&[second[0], second[1], tree.as_os_str()]);
    command.args(["--wait", "15"]).stdout(Stdio::piped());
    let mut waiting = start(&mut command);
    sleep(Duration::from_millis(100));
    assert!(waiting.try_wait().expect("a child").is_none());
    assert_eq!(first.end(), Some(0));
    assert_eq!(finish(waiting).status, 0);
    assert_eq!(log(&journal).len(), 6);
}

/// Streams schedules into a journal, kills the process at a random moment, and gives back the answers that were read.
fn killed(journal: &Path, random: &mut Random) -> Vec<String> {
    let mut lodging = Lodging::in_journal(journal);
    let mut to = lodging.to.take().expect("standard input");
    let mut outputs = Random::new(random.below(1_000_000) as u64);
    let feeding = thread::spawn(move || loop {
        let output = outputs.between(20, 90) as u64;
        let text = schedule(outputs.between(1, 65_535) as u16, output);
        if to.write_all(text.as_bytes()).is_err() {
            return;
        }
    });
    let mut answers = Vec::new();
    for _ in 0..random.below(12) {
        answers.push(lodging.answer());
    }
    sleep(Duration::from_micros(random.below(3_000) as u64));
    lodging.child.kill().expect("a child killed");
    lodging.child.wait().expect("a child that ended");
    feeding.join().expect("the feeder");
    answers.extend(
        lodging
            .lines
            .iter()
            .filter(|line| line.contains(": answer=")),
    );
    answers
}

/// Fails where an answer that was read is not in the log.
fn assert_logged(answers: &[String], log: &[String]) {
    for answer in answers {
        let (number, rest) = answer.split_once(' ').expect("a number");
        // a line that was cut off by the kill was not read
        let Some((_, said)) = rest.split_once(": answer=") else {
            continue;
        };
        let number: usize = number.parse().expect("a number");
        let logged = log
            .get(number - 1)
            .unwrap_or_else(|| panic!("{answer}: not kept"));
        let kept = logged.rsplit(' ').next().expect("an answer");
        assert!(kept == said || kept == "-", "{answer}: {logged}");
    }
}

#[test]
fn what_was_answered_is_kept_whenever_the_process_is_killed() {
    let folder = folder("killed");
    let (path, mut random) = (folder.join("j"), Random::new(seed()));
    fs::write(folder.join("problem"), PROBLEM).expect("a file");
    let lodge = |file: &str| {
        let words = [OsStr::new("lodge"), path.as_os_str()];
        let file = folder.join(file);
        ran(&[&words[..], &[file.as_os_str()]].concat(), b"")
    };
    lodge("problem").sound(0);
    let mut all = Vec::new();
    for _ in 0..40 {
        all.extend(killed(&path, &mut random));
        let verified = ran(&[OsStr::new("verify"), path.as_os_str()], b"");
        assert_eq!(verified.status, 0, "{verified:?}");
        assert_logged(&all, &log(&path));
    }
    // the next lodging goes on, and every answer is recorded then
    let before = log(&path).len();
    assert_eq!(lodge("problem").status, 1);
    let log = log(&path);
    assert_eq!(log.len(), before + 1);
    assert!(log.iter().all(|line| !line.ends_with(" -")));
    assert_logged(&all, &log);
    println!("{} texts, {} answers read", log.len(), all.len());
}

/// How a command ends whose standard output is a file or a pipe that the test has made.
fn ran_to(words: &[&OsStr], input: &[u8], out: impl Into<Stdio>) -> common::Ran {
    let mut command = docket(words);
    let mut child = start(command.stdin(Stdio::piped()).stdout(out));
    drop(command);
    let mut to = child.stdin.take().expect("standard input");
    let _ = to.write_all(input);
    drop(to);
    finish(child)
}

/// Words for every command, on a journal that is there, that prints something.
fn printing(journal: &Path) -> Vec<Vec<OsString>> {
    let mut all = readings(journal);
    all.push(vec!["check".into(), "-".into()]);
    all.push(vec!["lodge".into(), journal.into(), "-".into()]);
    all.push(vec!["--help".into()]);
    all.push(vec!["log".into(), "--help".into()]);
    all.push(vec!["--version".into()]);
    all
}

/// A pipe that nobody reads. A process that another test starts has its other end too until it runs its own program, so this waits until
/// nothing can be written.
fn unread() -> PipeWriter {
    let (reader, mut writer) = pipe().expect("a pipe");
    drop(reader);
    let began = Instant::now();
    while writer.write(b"-").is_ok() {
        assert!(began.elapsed() < DEADLINE, "a pipe that is read");
        sleep(Duration::from_millis(1));
    }
    writer
}

#[test]
fn an_output_that_takes_nothing_is_trouble_and_what_is_lodged_stays_lodged() {
    let folder = folder("output");
    let journal = journal(&folder);
    for full in [false, true] {
        for json in [false, true] {
            for mut words in printing(&journal) {
                if json
                    && !words
                        .last()
                        .is_some_and(|word| word.len() > 2 && word.as_bytes().starts_with(b"--"))
                {
                    words.push("--json".into());
                }
                let before = log(&journal).len();
                let _ = fs::remove_file(journal.with_extension("new"));
                let words: Vec<&OsStr> = words.iter().map(OsString::as_os_str).collect();
                let out = if full {
                    Stdio::from(
                        OpenOptions::new()
                            .write(true)
                            .open("/dev/full")
                            .expect("a device"),
                    )
                } else {
                    Stdio::from(unread())
                };
                let ran = ran_to(&words, format!("{TREE}{PROBLEM}").as_bytes(), out);
                let said = ran.trouble();
                assert!(said.contains("standard output"), "{words:?}: {said}");
                let lodged = usize::from(words[0] == "lodge");
                assert_eq!(log(&journal).len(), before + lodged, "{words:?}");
            }
        }
    }
}

/// A pair of sockets, of which the second never waits.
fn impatient() -> (UnixStream, OwnedFd) {
    let (mine, other) = UnixStream::pair().expect("a pair of sockets");
    other
        .set_nonblocking(true)
        .expect("a socket that never waits");
    (mine, other.into())
}

#[test]
fn nothing_is_lost_where_input_and_output_do_not_wait() {
    let (mut to, input) = impatient();
    let (mut from, output) = impatient();
    let mut command = docket(&["check", "-", "--json"]);
    let child = start(
        command
            .stdin(Stdio::from(input))
            .stdout(Stdio::from(output)),
    );
    drop(command);
    let feeding = thread::spawn(move || {
        let mut texts = PROBLEM.to_string();
        for k in 0..20_000 {
            texts += &schedule(k % 60_000 + 1, 50 + u64::from(k) % 50);
        }
        for (k, part) in texts.as_bytes().chunks(100_003).enumerate() {
            sleep(Duration::from_millis(if k < 10 { 5 } else { 0 }));
            to.write_all(part).expect("a reader");
        }
    });
    sleep(Duration::from_millis(200));
    let mut out = Vec::new();
    from.read_to_end(&mut out).expect("its output");
    feeding.join().expect("the feeder");
    assert_eq!(finish(child).sound(1).status, 1);
    let lines: Vec<&str> = text(&out).lines().collect();
    assert_eq!(lines.len(), 20_002);
    for (k, line) in lines.iter().skip(1).take(20_000).enumerate() {
        // an output above 80 is refused at its own line
        let within = if k % 50 > 30 { 2 } else { 0 };
        assert!(
            line.starts_with(&format!(
                "{{\"file\":\"-\",\"line\":{},",
                8 + 4 * k + within
            )),
            "{line}"
        );
    }
    assert!(lines[20_001].starts_with("{\"report\":"));
}

#[test]
fn a_long_text_comes_out_whole_through_an_output_that_does_not_wait() {
    let path = folder("long").join("j");
    let long = [vec![b'\n'; 1_000_000], b"end=\xff\n".to_vec()].concat();
    let words = [OsStr::new("lodge"), path.as_os_str(), OsStr::new("-")];
    assert_eq!(ran(&words, &long).status, 1);
    let (mut from, output) = impatient();
    let mut command = docket(&[OsStr::new("text"), path.as_os_str(), OsStr::new("1")]);
    let child = start(command.stdout(Stdio::from(output)));
    drop(command);
    sleep(Duration::from_millis(50));
    let mut out = Vec::new();
    from.read_to_end(&mut out).expect("its output");
    finish(child).sound(0);
    assert!(out == long);
}

#[test]
fn an_input_that_cannot_be_read_is_trouble_and_nothing_of_any_is_lodged() {
    let folder = folder("inputs");
    let (journal, good) = (folder.join("j"), folder.join("good"));
    fs::write(&good, PROBLEM).expect("a file");
    let (missing, closed) = (folder.join("missing"), folder.join("closed"));
    fs::write(&closed, PROBLEM).expect("a file");
    fs::set_permissions(&closed, Permissions::from_mode(0o000)).expect("a closed file");
    let mut all = vec![folder.as_path(), &missing];
    // a user who may read everything can read it
    if File::open(&closed).is_err() {
        all.push(&closed);
    }
    for bad in all {
        for command in ["check", "lodge"] {
            let mut words = vec![OsStr::new(command), good.as_os_str(), bad.as_os_str()];
            if command == "lodge" {
                words.insert(1, journal.as_os_str());
            }
            let ran = ran(&words, b"");
            let name = escaped(bad.as_os_str().as_bytes());
            assert!(ran.trouble().contains(&name), "{ran:?}");
            assert!(ran.out.is_empty());
        }
        assert!(!journal.exists());
    }
}

#[test]
fn an_input_that_fails_while_it_is_read_is_trouble() {
    let folder = folder("failing");
    let path = folder.join("j");
    // this file opens, and reading its first byte fails
    ran(&["check", "/proc/self/mem"], b"").trouble();
    let words = [
        "lodge".as_ref(),
        path.as_os_str(),
        "-".as_ref(),
        "/proc/self/mem".as_ref(),
    ];
    let lodged = ran(&words, PROBLEM.as_bytes());
    lodged.trouble();
    assert!(text(&lodged.out).starts_with("1 -:1: answer=held\n"));
    // a standard input that is open for writing only, and one that is a folder
    let unreadable = File::create(folder.join("written")).expect("a file");
    for input in [unreadable, File::open(&folder).expect("a folder")] {
        let mut command = docket(&["check", "-"]);
        let child = start(command.stdin(input).stdout(Stdio::piped()));
        let said = finish(child);
        assert!(said.trouble().contains("-: cannot be read"), "{said:?}");
    }
}

#[test]
fn a_journal_that_is_missing_is_trouble_for_whoever_reads_it_and_is_not_made() {
    let folder = folder("missing");
    let path = folder.join("j");
    for words in readings(&path) {
        let ran = ran(&words, PROBLEM.as_bytes());
        assert!(ran.trouble().contains(path.to_str().expect("a name")));
        assert!(ran.out.is_empty(), "{ran:?}");
        assert_eq!(fs::read_dir(&folder).expect("a folder").count(), 0);
    }
    for words in readings(&path.join("deeper")) {
        ran(&words, PROBLEM.as_bytes()).trouble();
    }
    let deeper = path.join("deeper");
    let words = [OsStr::new("lodge"), deeper.as_os_str(), OsStr::new("-")];
    ran(&words, PROBLEM.as_bytes()).trouble();
    assert_eq!(fs::read_dir(&folder).expect("a folder").count(), 0);
}

#[test]
fn what_is_no_file_is_no_journal_and_nothing_hangs_on_it() {
    let folder = folder("kinds");
    let pipe = folder.join("pipe");
    let made = Command::new("mkfifo").arg(&pipe).status().expect("mkfifo");
    assert!(made.success());
    let other = folder.join("other");
    fs::write(&other, PROBLEM).expect("a file");
    for path in [folder.as_path(), Path::new("/dev/null"), &pipe, &other] {
        let lodge = ["lodge".into(), path.into(), "-".into()].to_vec();
        for words in readings(path).into_iter().chain([lodge]) {
            let ran = ran(&words, PROBLEM.as_bytes());
            let why = if path == other {
                "not a journal"
            } else {
                "not a file"
            };
            assert!(ran.trouble().contains(why), "{words:?}: {ran:?}");
            assert!(ran.out.is_empty(), "{words:?}: {ran:?}");
        }
    }
    assert_eq!(fs::read(&other).expect("a file"), PROBLEM.as_bytes());
    assert!(!folder.with_extension("new").exists());
}

#[test]
fn a_journal_is_not_lodged_in_itself() {
    let folder = folder("itself");
    let journal = journal(&folder);
    let link = folder.join("link");
    let _link = Link::new(&journal, &link);
    let before = fs::read(&journal).expect("a journal");
    for name in [&journal, &link] {
        let words = [OsStr::new("lodge"), journal.as_os_str(), name.as_os_str()];
        ran(&words, b"").trouble();
        assert_eq!(fs::read(&journal).expect("a journal"), before);
    }
    let mut command = docket(&[OsStr::new("lodge"), journal.as_os_str(), OsStr::new("-")]);
    let itself = File::open(&journal).expect("a journal");
    let mut child = start(command.stdin(itself).stdout(Stdio::null()));
    sleep(Duration::from_millis(300));
    let endless = child.try_wait().expect("a child").is_none();
    if endless {
        child.kill().expect("a child killed");
    }
    let grown = fs::metadata(&journal).expect("a journal").len();
    assert!(!endless, "it has {grown} bytes, and grows");
    finish(child).trouble();
    assert_eq!(fs::read(&journal).expect("a journal"), before);
}

#[test]
fn a_file_that_may_not_grow_is_trouble_and_what_was_answered_is_kept() {
    let folder = folder("room");
    let journal = folder.join("j");
    let mut input = PROBLEM.to_string();
    for k in 0..100 {
        input += &schedule(7, 80 - k % 30);
    }
    fs::write(folder.join("input"), input).expect("a file");
    for blocks in 1..20 {
        let mut command = Command::new("sh");
        command.args(["-c", "trap '' XFSZ; ulimit -f $0; exec \"$@\""]);
        command
            .arg(blocks.to_string())
            .arg(env!("CARGO_BIN_EXE_docket"));
        command.arg("lodge").arg(&journal).arg(folder.join("input"));
        let lodged = finish(start(command.stdin(Stdio::null()).stdout(Stdio::piped())));
        assert_eq!(lodged.status, 2, "{lodged:?}");
        let last = text(&lodged.notes).lines().last().unwrap_or_default();
        assert!(last.contains("File too large"), "{lodged:?}");
        let answers: Vec<String> = lodged
            .lines()
            .into_iter()
            .filter(|l| l.contains(": answer="))
            .map(str::to_string)
            .collect();
        let verified = ran(&[OsStr::new("verify"), journal.as_os_str()], b"").sound(0);
        let texts = log(&journal);
        assert_logged(&answers, &texts);
        let numbers: Vec<&str> = answers.iter().filter_map(|a| a.split(' ').next()).collect();
        let last = texts.len().to_string();
        assert!(
            numbers.last().is_none_or(|&number| number == last),
            "{lodged:?} {verified:?}"
        );
    }
}

#[test]
fn file_names_are_printed_without_what_a_terminal_obeys() {
    let folder = folder("names");
    for name in [
        &b"\x1b[2J\x07.txt"[..],
        b"a\nb: answer=held",
        b"\xff\xfe",
        "\u{e9}".as_bytes(),
        b" ",
        b"a\"b\\",
    ] {
        let path = folder.join(OsStr::from_bytes(name));
        fs::write(&path, PROBLEM).expect("a file");
        let ran = ran(&[OsStr::new("check"), path.as_os_str()], b"").sound(0);
        let wanted = format!("{}:1: answer=held", escaped(path.as_os_str().as_bytes()));
        assert_eq!(ran.lines()[0], wanted);
        fs::remove_file(&path).expect("a file gone");
        let gone = common::program::ran(&[OsStr::new("check"), path.as_os_str()], b"");
        assert!(gone.trouble().contains(&escaped(name)));
        let journal = [OsStr::new("lodge"), path.as_os_str(), OsStr::new("-")];
        let lodged = common::program::ran(&journal, PROBLEM.as_bytes()).sound(0);
        let last = lodged.lines().pop().expect("a line");
        assert!(last.starts_with(&format!(
            "{} has 1 text; check ",
            escaped(path.as_os_str().as_bytes())
        )));
    }
}

/// Words that no command takes; J is a journal that is there, NEW a file that is not.
const WRONG: [&[&str]; 48] = [
    &[],
    &[""],
    &["-"],
    &["--"],
    &["--json"],
    &["nothing"],
    &["Check", "-"],
    &["check"],
    &["check", "--json"],
    &["lodge"],
    &["lodge", "NEW"],
    &["lodge", "-", "-"],
    &["try", "J"],
    &["report"],
    &["report", "J", "J"],
    &["show"],
    &["show", "J", "1"],
    &["draft"],
    &["draft", "J"],
    &["draft", "J", "J", "--price", "10"],
    &["draft", "J", "--price"],
    &["draft", "J", "--tree", "9"],
    &["log"],
    &["log", "J", "7"],
    &["text", "J"],
    &["text", "J", "0"],
    &["text", "J", "-1"],
    &["text", "J", "x"],
    &["text", "J", "9"],
    &["text", "J", "18446744073709551616"],
    &["text", "J", ""],
    &["verify"],
    &["verify", "J", "J"],
    &["salvage", "J"],
    &["salvage", "J", "J"],
    &["salvage", "J", "NEW", "NEW"],
    &["check", "--json=x", "-"],
    &["check", "--json=", "-"],
    &["check", "--wait", "1", "-"],
    &["lodge", "NEW", "-", "--wait", "x"],
    &["lodge", "NEW", "-", "--wait"],
    &["lodge", "NEW", "-", "--wait=-1"],
    &["lodge", "NEW", "-", "--wait=nan"],
    &["log", "J", "--since", "yesterday"],
    &["log", "J", "--writer", "0"],
    &["log", "J", "--writer", "65536"],
    &["log", "J", "--writer"],
    &["log", "--", "J", "--writer", "7"],
];

#[test]
fn wrong_words_are_trouble_and_touch_nothing() {
    let folder = folder("words");
    let journal = journal(&folder);
    let j = journal.to_str().expect("a name");
    let before = fs::read(&journal).expect("a journal");
    let new = folder.join("new");
    let n = new.to_str().expect("a name");
    for words in WRONG {
        let word = |&word: &&'static str| match word {
            "J" => j,
            "NEW" => n,
            _ => word,
        };
        let words: Vec<&str> = words.iter().map(word).collect();
        let ran = ran(&words, PROBLEM.as_bytes());
        ran.trouble();
        assert!(ran.out.is_empty(), "{words:?}: {ran:?}");
        assert!(!new.exists(), "{words:?}");
        assert_eq!(fs::read(&journal).expect("a journal"), before, "{words:?}");
    }
}

#[test]
fn two_dashes_end_the_options() {
    let folder = folder("dashes");
    fs::write(folder.join("--json"), PROBLEM).expect("a file");
    let in_folder = |words: &[&str]| {
        let mut command = docket(words);
        finish(start(command.current_dir(&folder).stdout(Stdio::piped())))
    };
    let checked = in_folder(&["check", "--", "--json"]).sound(0);
    assert_eq!(checked.lines()[0], "--json:1: answer=held");
    let lodged = in_folder(&["lodge", "--json", "--", "--wait", "--json"]).sound(0);
    assert!(lodged.lines()[0].starts_with("{\"file\":\"--json\",\"line\":1,\"text\":1,"));
    assert!(folder.join("--wait").exists());
    in_folder(&["report", "--", "--wait"]).sound(0);
}

#[test]
fn hostile_words_get_one_printable_line() {
    let long = "x".repeat(100_000);
    let hostile: [&[u8]; 9] = [
        b"a\nb\nc",
        b"\x1b]0;title\x07",
        b"\xff\xfe",
        b"--\xff",
        b"--json\n",
        b"-\n",
        b"--wait=\n",
        b" ",
        long.as_bytes(),
    ];
    for word in hostile {
        let word = OsString::from_vec(word.to_vec());
        let words = |words: &[&str]| -> Vec<OsString> {
            let mut all: Vec<OsString> = words.iter().map(OsString::from).collect();
            all.push(word.clone());
            all
        };
        for before in [
            &[][..],
            &["check"],
            &["report"],
            &["log", "none", "--since"],
            &["text", "none"],
            &["salvage", "none"],
        ] {
            ran(&words(before), b"").trouble();
        }
    }
}

#[test]
fn a_first_word_that_is_no_command_is_named() {
    for word in [&b"\xff"[..], b"a\nb", b"chekc"] {
        let ran = ran(&[OsStr::from_bytes(word)], b"");
        let wanted = format!("no command {}", escaped(word));
        assert!(ran.trouble().contains(&wanted), "{ran:?}");
    }
}

#[test]
fn every_help_has_an_example_and_needs_nothing_else() {
    let overview = ran(&["--help"], b"").sound(0);
    assert!(text(&overview.out).contains("\nExample: docket "));
    for name in [
        "check", "lodge", "try", "report", "show", "draft", "log", "text", "verify", "salvage",
    ] {
        assert!(text(&overview.out).contains(&format!("docket {name} ")));
        for words in [
            &[name, "--help"][..],
            &[name, "-h"],
            &[name, "a", "--help", "b", "c"],
        ] {
            let help = ran(words, b"").sound(0);
            let help = text(&help.out);
            assert!(help.starts_with(&format!("docket {name} ")), "{help}");
            assert!(
                help.contains(&format!("\nExample: docket {name} ")),
                "{help}"
            );
            assert!(help.contains("--json"), "{help}");
        }
    }
}

#[test]
fn a_reader_written_from_the_description_alone_reads_the_same() {
    let folder = folder("python");
    let path = folder.join("j");
    let mut input = b"\xff\0\nend=\n".to_vec();
    for index in [0, 1, 2, 4, 5, 6] {
        input.extend_from_slice(&second::inputs::input(7, index));
        input.extend_from_slice(b"\nend=\n");
    }
    ran(
        &[OsStr::new("lodge"), path.as_os_str(), OsStr::new("-")],
        &input,
    );
    let script = Path::new(env!("CARGO_MANIFEST_DIR")).join("tests/read_journal.py");
    let python = Command::new("python3")
        .arg(script)
        .arg(&path)
        .output()
        .expect("python3");
    assert!(python.status.success(), "{}", text(&python.stderr));
    let lines: Vec<&str> = text(&python.stdout).lines().collect();
    let (check, texts) = lines.split_last().expect("a last line");
    let verified = ran(&[OsStr::new("verify"), path.as_os_str()], b"").sound(0);
    assert_eq!(verified.lines().last(), Some(check));
    let log = log(&path);
    assert_eq!(texts.len(), log.len());
    let mut joined = Vec::new();
    for (line, logged) in texts.iter().zip(&log) {
        let words: Vec<&str> = logged.split(' ').collect();
        assert_eq!(*line, format!("{} {} {}", words[0], words[4], words[5]));
        let one = [OsStr::new("text"), path.as_os_str(), OsStr::new(words[0])];
        joined.extend(run(&one, b"").sound(0).out);
    }
    assert!(joined == input);
}
