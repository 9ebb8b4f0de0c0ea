//! What `--json` prints: one strict object to a line, with the facts of the plain output.
mod common;

use common::json::Json;
use common::memory::Memory;
use common::{escaped, folder, inputs, run, schedule, seed, text, texts, Ran, PROBLEM, TREE};
use desk::journal::Journal;
use desk::progress::Progress;
use docket::MOST_TEXT;
use std::fs;
use std::path::Path;

/// The objects that a command prints with `--json`.
fn objects(words: &[&str], input: &[u8], status: u8) -> Vec<Json> {
    let ran = run(&[words, &["--json"]].concat(), input);
    assert_eq!(ran.status, status, "{words:?}: {ran:?}");
    of_lines(&ran)
}

/// The objects of what was printed.
fn of_lines(ran: &Ran) -> Vec<Json> {
    let out = text(&ran.out);
    assert!(out.is_empty() || out.ends_with('\n'));
    let printable = |byte: u8| byte == b'\n' || (32..=126).contains(&byte);
    assert!(out.bytes().all(printable), "{out}");
    let object = |line: &str| {
        let value = Json::of(line).unwrap_or_else(|why| panic!("{why}: {line}"));
        assert!(matches!(value, Json::Object(_)), "{line}");
        value
    };
    out.lines().map(object).collect()
}

/// Values as they are written.
const GOOD: [&str; 13] = [
    "{}",
    "[]",
    "0",
    "-0",
    "1.50",
    "1e9",
    "\"\"",
    "null",
    "true",
    "false",
    "[1,[2],{\"a\":{}}]",
    "\"\\u00ff\\n\\\"\\\\\\/\"",
    "\"\u{e9}\"",
];

/// What is no value, or written as none is.
const WRONG: [&str; 25] = [
    "",
    " {}",
    "{} ",
    "{",
    "{a:1}",
    "{\"a\":1,}",
    "{\"a\":1,\"a\":2}",
    "{\"a\" 1}",
    "[1,]",
    "[1 2]",
    "01",
    "1.",
    ".5",
    "+1",
    "-",
    "1e",
    "nul",
    "True",
    "\"\n\"",
    "\"\\x41\"",
    "\"\\u00f\"",
    "\"\\u00fg\"",
    "\"\\ud800\"",
    "\"",
    "'a'",
];

#[test]
fn the_reader_of_the_tests_is_strict() {
    for good in GOOD {
        assert!(Json::of(good).is_ok(), "{good}");
    }
    for wrong in WRONG {
        assert!(Json::of(wrong).is_err(), "{wrong}");
    }
}

/// What was judged, in plain words: the line of the answer, and those under it.
struct Answered<'a> {
    line: &'a str,
    under: Vec<&'a str>,
}

/// The answers of a plain output, and the rest of its lines.
fn plain(ran: &Ran) -> (Vec<Answered<'_>>, Vec<&str>) {
    let (mut answers, mut rest) = (Vec::<Answered>::new(), Vec::new());
    for line in ran.lines() {
        match answers.last_mut() {
            _ if line.contains(": answer=") && !line.starts_with("    ") => {
                answers.push(Answered {
                    line,
                    under: Vec::new(),
                })
            }
            Some(last) if line.starts_with("    ") => last.under.push(&line[4..]),
            _ => rest.push(line),
        }
    }
    (answers, rest)
}

/// Fails where the object of an answer does not say what its plain lines do.
fn assert_answer(object: &Json, answered: &Answered, numbered: bool) {
    let wanted = [
        "file", "line", "text", "kind", "writer", "bytes", "answer", "refused", "figures",
        "reason", "quote", "mark", "another",
    ];
    assert_eq!(object.names(), wanted);
    let number = if numbered {
        object.get("text").word("-") + " "
    } else {
        assert_eq!(*object.get("text"), Json::Null);
        String::new()
    };
    let place = format!(
        "{}:{}",
        escaped(&object.get("file").bytes()),
        object.get("line").word("")
    );
    let answer = object.get("answer").word("");
    assert_eq!(answered.line, format!("{number}{place}: answer={answer}"));
    assert_refusal(object, &answer);
    assert_under(object, answered);
}

/// Fails where the reason and the quoted line of an object are not those under a plain answer.
fn assert_under(object: &Json, answered: &Answered) {
    let mut under = answered.under.iter();
    match object.get("reason") {
        Json::Null => assert!(answered.under.is_empty()),
        reason => assert_eq!(*under.next().expect("a reason"), escaped(&reason.bytes())),
    }
    if let Json::Text(_) = object.get("quote") {
        assert_quote(object, &mut under);
    }
    match object.get("another") {
        Json::Null => assert_eq!(under.next(), None),
        line => {
            let begins = format!("line {} begins another text, ", line.word(""));
            assert!(under.next().expect("a line").starts_with(&begins));
        }
    }
}

/// Fails where the quoted line of an object, and its mark, are not the next of these.
fn assert_quote<'a>(object: &Json, under: &mut impl Iterator<Item = &'a &'a str>) {
    let (quote, shown) = (
        escaped(&object.get("quote").bytes()),
        under.next().expect("a quote"),
    );
    let part = shown.trim_start_matches("..").trim_end_matches("..");
    assert!(
        quote.contains(part) && (quote.len() > 76 || quote == *shown),
        "{quote} {shown}"
    );
    assert_eq!(under.next().is_some(), *object.get("mark") != Json::Null);
}

/// Fails where the numbers of a refusal are not those of its answer.
fn assert_refusal(object: &Json, answer: &str) {
    let refused = object.get("refused");
    let Some(numbers) = answer.strip_prefix("refused,") else {
        assert_eq!((refused, object.get("reason")), (&Json::Null, &Json::Null));
        return;
    };
    assert_eq!(refused.names(), ["number", "line", "unit", "period"]);
    let got: Vec<String> = refused
        .names()
        .into_iter()
        .map(|name| refused.get(name).word(""))
        .collect();
    assert_eq!(got.join(","), numbers);
}

/// Fails where the object of a report does not say what its plain lines do.
fn assert_report(object: &Json, lines: &[&str]) {
    assert_eq!(object.names(), ["report"]);
    let report = object.get("report");
    let names = [
        "cost",
        "costwriter",
        "bound",
        "boundwriter",
        "gap",
        "gappercent",
    ];
    assert_eq!(report.names(), names);
    let mut wanted = vec!["kind=report".to_string()];
    wanted.extend(
        names[..5]
            .iter()
            .map(|name| format!("{name}={}", report.get(name).word("none"))),
    );
    wanted.push("end=report".into());
    if let Json::Number(share) = report.get("gappercent") {
        wanted.push(format!("The gap is {share} % of the cost, rounded up."));
        let hundredth = |number: &Json| {
            number
                .word("")
                .replace('.', "")
                .parse::<u128>()
                .expect("a number")
        };
        let (gap, cost) = (hundredth(report.get("gap")), hundredth(report.get("cost")));
        assert_eq!(
            hundredth(report.get("gappercent")),
            (gap * 10_000).div_ceil(cost)
        );
    }
    assert_eq!(lines, wanted);
}

/// Fails where `check` and `check --json` differ on an input; what was printed as objects, without the report.
fn assert_checked(input: &[u8]) -> Vec<Json> {
    let ran = run(&["check", "-"], input);
    let (answers, rest) = plain(&ran);
    let mut objects = objects(&["check", "-"], input, ran.status);
    assert_report(&objects.pop().expect("a report"), &rest);
    assert_eq!(objects.len(), answers.len());
    for (object, answered) in objects.iter().zip(&answers) {
        assert_answer(object, answered, false);
    }
    let lengths: Vec<String> = objects
        .iter()
        .map(|object| object.get("bytes").word("-"))
        .collect();
    let wanted = texts(input)
        .into_iter()
        .map(|(_, text)| match text.len() <= MOST_TEXT {
            true => text.len().to_string(),
            false => "-".into(),
        });
    assert_eq!(lengths, wanted.collect::<Vec<_>>());
    objects
}

#[test]
fn check_says_the_same_in_json_of_what_is_committed_and_generated() {
    for folder in ["examples", "examples/refusals", "tests/specimens"] {
        for path in inputs(folder) {
            assert_checked(&fs::read(&path).expect("a committed input"));
        }
    }
    let seed = seed();
    for index in (0..300).filter(|index| !matches!(index % 50, 7 | 33)) {
        assert_checked(&second::inputs::input(seed, index));
    }
}

/// Texts that try to break out of what is printed of them, and one that is too long.
fn hostile() -> Vec<u8> {
    let all: Vec<u8> = (0..=255).filter(|&byte| byte != b'\n').collect();
    let mut input = PROBLEM.as_bytes().to_vec();
    for line in [
        &b"kind=\"},{\\\"a\":1}"[..],
        b"\x1b[2J\x1b]0;x\x07",
        b"kind=schedule\nwriter=\"\nrun=",
        b"\xff\xfe\0",
        b"",
        b"\\u0000",
        b"kind=schedule\nwriter=1\nrun=1\r",
        &all,
        &vec![b'"'; 500],
        b"kind=tree\nwriter=00000000000000000007",
    ] {
        input.extend_from_slice(line);
        input.extend_from_slice(b"\nend=\n");
    }
    input.extend_from_slice(&vec![b'\x1b'; MOST_TEXT]);
    input.extend_from_slice(b"\nend=\n");
    input.extend_from_slice(schedule(7, 50).as_bytes());
    input.extend_from_slice(TREE.as_bytes());
    input
}

#[test]
fn check_says_the_same_in_json_of_hostile_and_too_long_texts() {
    let objects = assert_checked(&hostile());
    assert_eq!(objects.len(), 14);
    let long = &objects[11];
    assert_eq!(long.get("answer").word(""), "refused,11,0,0,0");
    assert_eq!(
        (long.get("bytes"), long.get("quote")),
        (&Json::Null, &Json::Null)
    );
}

#[test]
fn file_names_are_bytes_in_json() {
    use std::ffi::OsStr;
    use std::os::unix::ffi::OsStrExt;
    let folder = folder("json-names");
    for name in [&b"\xff\"\\\n\x1b"[..], "\u{e9}".as_bytes()] {
        let path = folder.join(OsStr::from_bytes(name));
        fs::write(&path, PROBLEM).expect("a file");
        let ran = run(
            &[OsStr::new("check"), path.as_os_str(), OsStr::new("--json")],
            b"",
        );
        assert_eq!(
            of_lines(&ran)[0].get("file").bytes(),
            path.as_os_str().as_bytes()
        );
        let journal = folder.join("j").into_os_string();
        run(&[OsStr::new("lodge"), &journal, path.as_os_str()], b"").sound(0);
        fs::rename(&journal, &path).expect("another name");
        let ran = run(
            &[OsStr::new("verify"), path.as_os_str(), OsStr::new("--json")],
            b"",
        );
        assert_eq!(
            of_lines(&ran)[0].get("journal").get("name").bytes(),
            path.as_os_str().as_bytes()
        );
    }
}

/// A journal of the hostile texts.
fn journal(name: &str) -> String {
    let path = folder(name).join("j");
    let path = path.to_str().expect("a name").to_string();
    assert_eq!(run(&["lodge", &path, "-"], &hostile()).status, 1);
    path
}

#[test]
fn lodge_and_try_say_the_same_in_json() {
    let folder = folder("json-lodge");
    let name = |name: &str| folder.join(name).to_str().expect("a name").to_string();
    let (one, two) = (name("one"), name("two"));
    let ran = run(&["lodge", &one, "-"], &hostile());
    let (answers, mut rest) = plain(&ran);
    let mut objects = objects(&["lodge", &two, "-"], &hostile(), 1);
    let last = objects.pop().expect("a last object");
    let journal = last.get("journal");
    assert_eq!(journal.names(), ["name", "texts", "check"]);
    assert_eq!(journal.get("name").bytes(), two.as_bytes());
    let verified = run(&["verify", &two], b"").sound(0);
    assert_eq!(
        *verified.lines().last().expect("a line"),
        format!("check {}", journal.get("check").word(""))
    );
    let wanted = format!("{one} has {} texts; check ", journal.get("texts").word(""));
    assert!(rest.pop().expect("a last line").starts_with(&wanted));
    assert_report(&objects.pop().expect("a report"), &rest);
    for (object, answered) in objects.iter().zip(&answers) {
        assert_answer(object, answered, true);
    }
    assert_eq!(objects[11].get("text"), &Json::Null);
    assert_eq!(objects[12].get("text").word(""), "12");
    assert_tried(&one);
}

/// Fails where `try` differs from `try --json`, or from what `lodge` answers then.
fn assert_tried(journal: &str) {
    let before = fs::read(journal).expect("a journal");
    let tried = run(&["try", journal, "-"], &hostile());
    let (answers, rest) = plain(&tried);
    let mut objects = objects(&["try", journal, "-"], &hostile(), 1);
    assert_report(&objects.pop().expect("a report"), &rest);
    assert_eq!(objects.len(), answers.len());
    for (object, answered) in objects.iter().zip(&answers) {
        assert_answer(object, answered, false);
    }
    assert_eq!(fs::read(journal).expect("a journal"), before);
    let lodged = run(&["lodge", journal, "-"], &hostile());
    let (lodged, _) = plain(&lodged);
    for (lodged, tried) in lodged.iter().zip(&answers) {
        let (_, answer) = lodged.line.split_once(' ').expect("a number");
        assert_eq!(answer, tried.line);
        assert_eq!(lodged.under, tried.under);
    }
}

#[test]
fn report_show_and_log_say_the_same_in_json() {
    let journal = journal("json-log");
    let report = run(&["report", &journal], b"").sound(0);
    assert_report(&objects(&["report", &journal], b"", 0)[0], &report.lines());
    let shown = run(&["show", &journal], b"").sound(0);
    let objects_of_show = objects(&["show", &journal], b"", 0);
    assert_eq!(objects_of_show[0].names(), ["schedule"]);
    assert_eq!(objects_of_show[0].get("schedule").bytes(), shown.out);
    for options in [
        &[][..],
        &["--writer", "7"],
        &["--since", "2020-01-01"],
        &["--since", "9999-01-01"],
    ] {
        let words = [&["log", journal.as_str()][..], options].concat();
        let log = run(&words, b"").sound(0);
        let objects = objects(&words, b"", 0);
        assert_eq!(objects.len(), log.lines().len());
        for (object, line) in objects.iter().zip(log.lines()) {
            let names = ["text", "time", "kind", "writer", "bytes", "answer"];
            assert_eq!(object.names(), names);
            let words: Vec<String> = names
                .iter()
                .map(|name| {
                    object
                        .get(name)
                        .word(if *name == "kind" { "?" } else { "-" })
                })
                .collect();
            assert_eq!(words.join(" "), line);
        }
    }
}

#[test]
fn a_log_has_the_texts_of_a_writer_since_a_time_and_no_others() {
    let memory = Memory::default();
    let opened = Journal::open(memory.clone(), Path::new("j"), &mut Progress::none());
    let (mut journal, _) = opened.expect("a journal");
    // 2026-11-17T18:00:00Z, and so many seconds more
    for (k, writer) in [7, 8, 7, 9, 7].into_iter().enumerate() {
        let seconds = 1_794_938_400 + k as u64;
        let lodged = journal.lodge(schedule(writer, 50).as_bytes(), seconds);
        lodged.expect("room");
    }
    let path = folder("json-since").join("j");
    fs::write(&path, &*memory.0.borrow()).expect("a file");
    let path = path.to_str().expect("a name");
    for (options, wanted) in [
        ("--since=2026-11-17T18:00:02Z", "3 4 5"),
        ("--since=2026-11-17", "1 2 3 4 5"),
        ("--since=2026-11-18", ""),
        ("--writer=7", "1 3 5"),
        ("--writer=7 --since=2026-11-17T18:00:01Z", "3 5"),
        ("--writer=6", ""),
    ] {
        let mut words = vec!["log", path];
        words.extend(options.split(' '));
        let texts: Vec<String> = objects(&words, b"", 0)
            .iter()
            .map(|object| object.get("text").word(""))
            .collect();
        assert_eq!(texts.join(" "), wanted, "{options}");
    }
}

#[test]
fn text_gives_the_exact_bytes_in_json() {
    let journal = journal("json-text");
    let input = hostile();
    let kept = texts(&input)
        .into_iter()
        .map(|text| text.1)
        .filter(|text| text.len() <= MOST_TEXT);
    let mut number = 0;
    for text in kept {
        number += 1;
        let n = number.to_string();
        assert!(run(&["text", &journal, &n], b"").sound(0).out == text);
        let objects = objects(&["text", &journal, &n], b"", 0);
        assert_eq!(objects.len(), 1);
        assert_eq!(objects[0].names(), ["text", "bytes", "content"]);
        assert_eq!(objects[0].get("text").word(""), n);
        assert_eq!(objects[0].get("bytes").word(""), text.len().to_string());
        assert!(objects[0].get("content").bytes() == text);
    }
    assert_eq!(number, 13);
}

/// What `verify` says in plain words, out of its object.
fn verified(object: &Json, damaged: bool) -> String {
    let names = [
        "name", "format", "rules", "texts", "answers", "bytes", "first", "last", "torn", "damaged",
        "noted", "check",
    ];
    assert_eq!(object.names(), names);
    let word = |name: &str| object.get(name).word("none");
    assert_eq!(*object.get("damaged") != Json::Null, damaged);
    let before = if damaged { " before the damage" } else { "" };
    let name = escaped(&object.get("name").bytes());
    let counts = format!("{} texts in {} bytes{before}", word("texts"), word("bytes"));
    let mut lines = format!(
        "{name}: {counts}; format {}, rules {}\nfirst {}\nlast {}\n",
        word("format"),
        word("rules"),
        word("first"),
        word("last")
    );
    if word("answers") != word("texts") {
        lines += "the answer to the last text is not recorded: the next lodging does it\n";
    }
    if !damaged {
        lines += "nothing is damaged\n";
    }
    lines + &format!("check {}\n", word("check"))
}

#[test]
fn verify_and_salvage_say_the_same_in_json_whole_torn_and_damaged() {
    let journal = journal("json-verify");
    let whole = fs::read(&journal).expect("a journal");
    let mut changed = whole.clone();
    changed[whole.len() / 2] ^= 1;
    for (bytes, status) in [
        (&whole[..], 0),
        (&whole[..whole.len() - 9], 0),
        (&changed, 2),
    ] {
        fs::write(&journal, bytes).expect("a journal");
        let (plain, damaged) = (run(&["verify", &journal], b""), status == 2);
        assert_eq!(plain.status, status);
        let objects = objects(&["verify", &journal], b"", status);
        assert_eq!(objects[0].names(), ["journal"]);
        let object = objects[0].get("journal");
        assert_eq!(text(&plain.out), verified(object, damaged));
        let end = object
            .get("bytes")
            .word("")
            .parse::<usize>()
            .expect("a number");
        let torn = object
            .get("torn")
            .word("")
            .parse::<usize>()
            .expect("a number");
        assert!(damaged || end + torn == bytes.len());
        assert_salvaged(&journal, object, &bytes[..end]);
    }
}

/// Fails where `salvage` and `salvage --json` differ, or do not copy these bytes.
fn assert_salvaged(journal: &str, verified: &Json, bytes: &[u8]) {
    let (one, two) = (format!("{journal}.1"), format!("{journal}.2"));
    let plain = run(&["salvage", journal, &one], b"");
    assert_eq!(plain.status, 0, "{plain:?}");
    // what is left out is told
    let left = match (
        verified.get("damaged"),
        verified.get("torn").word("").as_str(),
    ) {
        (Json::Null, "0") => "nothing is damaged".to_string(),
        (Json::Null, torn) => format!("the last {torn} bytes "),
        (damaged, _) => format!("damaged at byte {}: ", damaged.get("at").word("")),
    };
    assert!(text(&plain.notes).contains(&left), "{plain:?}");
    let objects = objects(&["salvage", journal, &two], b"", 0);
    let object = objects[0].get("journal");
    assert_eq!(
        object.names(),
        ["name", "texts", "check", "torn", "damaged"]
    );
    assert_eq!(object.get("name").bytes(), two.as_bytes());
    for name in ["texts", "check", "torn", "damaged"] {
        assert_eq!(object.get(name), verified.get(name));
    }
    let (texts, check) = (object.get("texts").word(""), object.get("check").word(""));
    assert_eq!(
        text(&plain.out),
        format!("{one} has {texts} texts; check {check}\n")
    );
    for new in [&one, &two] {
        assert!(fs::read(Path::new(new)).expect("a copy") == bytes);
        fs::remove_file(new).expect("a copy gone");
    }
}

#[test]
fn every_option_of_json_stands_anywhere() {
    let journal = journal("json-place");
    for words in [
        ["--json", "report", "J"],
        ["report", "--json", "J"],
        ["report", "J", "--json"],
    ] {
        let words = words.map(|word| if word == "J" { journal.as_str() } else { word });
        let ran = run(&words, b"");
        match words[0] {
            "--json" => assert!(ran.trouble().contains("--json")),
            _ => assert_eq!(of_lines(&ran.sound(0)).len(), 1),
        }
    }
}
