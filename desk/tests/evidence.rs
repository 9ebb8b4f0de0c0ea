//! What a bureau settles a question with: a check that was noted down, the last text before damage, a text that another one swallowed.
mod common;

use common::journals::{on, put, texts, Scribe};
use common::json::Json;
use common::{folder, run, schedule, text, PROBLEM};
use std::fs;

/// The last word that a command printed.
fn last_word(out: &str) -> String {
    let word = out.trim_end().rsplit(' ').next();
    word.expect("a word").to_string()
}

#[test]
fn a_check_that_was_noted_is_found_whatever_was_lodged_since() {
    let path = folder("noted").join("j");
    let name = path.to_str().expect("a name");
    let mut noted = Vec::new();
    for output in [50, 60, 70] {
        let input = match noted.is_empty() {
            true => PROBLEM.to_string() + &schedule(7, output),
            false => schedule(7, output),
        };
        let ran = run(&["lodge", name, "-"], input.as_bytes()).sound(0);
        noted.push(last_word(ran.out()));
    }
    for (check, number) in noted.iter().zip(2..) {
        let said = format!("the check that was noted is that of text {number} of 4: up to there everything is as it was");
        for check in [check.clone(), check.to_uppercase()] {
            let ran = run(&["verify", name, &check], b"").sound(0);
            assert!(ran.lines().contains(&said.as_str()), "{}", ran.out());
        }
        let json = run(&["verify", name, check, "--json"], b"").sound(0);
        let object = Json::of(json.out().trim_end()).expect("an object");
        assert_eq!(
            object.get("journal").get("noted").word(""),
            number.to_string()
        );
    }
    // the first text's time moved by a second, and the chain made anew: only the noted check tells
    let mut forged = Scribe::new(1, docket::rules());
    for (k, (text, answer)) in common::journals::contents(&fs::read(&path).expect("a journal"))
        .expect("sound")
        .iter()
        .enumerate()
    {
        forged.text(text, 1_700_000_000 + k as u64);
        forged.answer(answer.as_deref().expect("an answer"));
    }
    put(&path, &forged.bytes);
    run(&["verify", name], b"").sound(0);
    let ran = run(&["verify", name, &noted[0]], b"");
    assert!(ran
        .trouble()
        .contains(": no record has the check that was noted: "));
}

#[test]
fn what_is_no_check_is_a_wrong_use() {
    let path = folder("no-check").join("j");
    put(&path, &Scribe::of(&texts()).bytes);
    for check in [
        "",
        "12",
        "x",
        &"g".repeat(64),
        &"0".repeat(63),
        &"0".repeat(65),
    ] {
        let ran = on("verify", &path, &[check]);
        assert!(ran.trouble().contains(
            "CHECK is the 64 digits that lodge and verify print; see docket verify --help"
        ));
    }
    let ran = on("verify", &path, &[&"0".repeat(64)]);
    assert!(ran.trouble().contains("no record has the check"));
}

#[test]
fn a_text_whose_answer_is_damaged_is_logged_without_it() {
    let path = folder("answerless").join("j");
    let scribe = Scribe::of(&texts());
    // the first line, two records for each text: the answer of text 2 is the fifth
    let mut bytes = scribe.bytes.clone();
    bytes[scribe.starts[4] + 8] ^= 1;
    put(&path, &bytes);
    let ran = on("log", &path, &[]);
    assert_eq!(ran.lines().len(), 2);
    assert!(ran.lines()[1].starts_with("2 ") && ran.lines()[1].ends_with(" -"));
    assert!(ran.trouble().contains("after 2 texts: "));
}

#[test]
fn a_text_that_was_taken_for_a_part_of_another_is_named() {
    let swallowed = schedule(7, 50).replace("end=", "END=") + &schedule(8, 60);
    let ran = run(
        &["check", "-"],
        (PROBLEM.to_string() + &swallowed).as_bytes(),
    );
    assert_eq!(ran.status, 1);
    let said = ran
        .lines()
        .into_iter()
        .find(|line| line.contains("begins another text"));
    assert!(
        said.expect("a line")
            .starts_with("    line 12 begins another text, "),
        "{}",
        ran.out()
    );
    // an accepted text swallows none
    let good = PROBLEM.to_string() + &schedule(7, 50) + &schedule(8, 60);
    assert!(!text(&run(&["check", "-"], good.as_bytes()).sound(0).out).contains("another"));
}

#[test]
fn lines_between_texts_are_not_taken_for_a_bad_end() {
    let blank = PROBLEM.to_string() + "\n" + &schedule(8, 60);
    let ran = run(&["check", "-"], blank.as_bytes());
    let said = ran
        .lines()
        .into_iter()
        .find(|line| line.contains("begins another text"));
    assert!(said
        .expect("a line")
        .ends_with(": the lines before it begin no text"));
}

#[test]
fn options_that_are_no_text_are_not_taken_for_names() {
    use std::os::unix::ffi::OsStringExt;
    let folder = folder("options");
    let word = |bytes: &[u8]| std::ffi::OsString::from_vec(bytes.to_vec());
    let journal = folder.join("j");
    let words = [
        word(b"lodge"),
        word(b"--wait=\xff"),
        journal.clone().into_os_string(),
        word(b"-"),
    ];
    let ran = run(&words, PROBLEM.as_bytes());
    assert!(ran.trouble().contains("no option --wait=\\xff here"));
    assert_eq!(fs::read_dir(&folder).expect("a folder").count(), 0);
    for words in [["help", "nosuch"], ["--help", "nosuch"]] {
        assert!(run(&words, b"").trouble().contains("no command nosuch"));
    }
    run(
        &["lodge", journal.to_str().expect("a name"), "-"],
        PROBLEM.as_bytes(),
    )
    .sound(0);
    for number in ["+1", "0", "-1", "1 ", "x", ""] {
        on("text", &journal, &["--", number]).trouble();
    }
}

#[test]
fn help_of_a_command_is_had_three_ways() {
    let wanted = run(&["lodge", "--help"], b"").sound(0);
    for words in [["help", "lodge"], ["--help", "lodge"], ["lodge", "-h"]] {
        assert_eq!(run(&words, b"").sound(0).out(), wanted.out());
    }
    let all = run(&["help"], b"").sound(0);
    assert!(all.out().contains("docket verify") && all.out() != wanted.out());
}

#[test]
fn salvage_leaves_no_part_behind() {
    let folder = folder("parts");
    let (path, new) = (folder.join("j"), folder.join("new"));
    put(&path, &Scribe::of(&texts()).bytes);
    let name = new.to_str().expect("a name");
    let part = folder.join("new.part");
    put(&part, b"of somebody");
    assert!(on("salvage", &path, &[name])
        .trouble()
        .contains("name a file that is not there yet"));
    assert_eq!(fs::read(&part).expect("a file"), b"of somebody");
    fs::remove_file(&part).expect("gone");
    assert_eq!(on("salvage", &path, &[name]).status, 0);
    let mut names: Vec<_> = fs::read_dir(&folder)
        .expect("a folder")
        .map(|entry| entry.expect("an entry").file_name())
        .collect();
    names.sort();
    assert_eq!(names, ["j", "new"]);
    assert_eq!(
        fs::read(&new).expect("a file"),
        fs::read(&path).expect("a file")
    );
}
