//! Usual mistakes in texts: what the docket answers, and what is said of it. Numbers, lines, marks and phrases are written by
//! hand.

mod common;

use common::{escaped, repository, run};
use desk::words::{self, Plant, Reason};
use docket::{Docket, Refusal, Verdict, MOST_TEXT};
use std::path::Path;
use std::time::{Duration, Instant};

const PROBLEM: &str = "kind=problem\nperiods=2\nunits=2\ndemand=60,100\nspare=10,10\n\
                       unit=100,10,0,20,80,2,2,3,30,30,50,90,1,5,60\n\
                       unit=40,14,0,10,50,1,1,-2,50,50,20,60,0,0,0\nend=problem\n";
const SCHEDULE: &str = "kind=schedule\nwriter=7\nrun=60,80\nrun=0,20\nend=schedule\n";
const TREE: &str = "kind=tree\nwriter=3\nsplit=2,2\nshort=2\nprice=10,14\nreserve=0,0\nend=tree\n";
const RAMPS: &str = "kind=tree\nwriter=3\nsplit=2,2\nshort=2\nrampprice=10,14\nreserve=0,0\n\
                     up=0\ndown=0\nup=0\ndown=0\nend=tree\n";

/// A text, what is changed in it (each newline, or the first place), then number and line of the refusal, the marked bytes and
/// a phrase of the reason. No marked bytes stand for the place after the line's last byte.
type Mistake = (
    &'static str,
    &'static str,
    &'static str,
    u64,
    u64,
    &'static str,
    &'static str,
);

#[rustfmt::skip]
const MISTAKES: &[Mistake] = &[
    // line ends and codings
    (PROBLEM, "\n", "\r\n", 12, 1, "\r", "CR LF"),
    (SCHEDULE, "60,80\n", "60,80\r\n", 12, 3, "\r", "CR LF"),
    (PROBLEM, "\n", "\r", 12, 1, "\r", "(byte 13)"),
    (PROBLEM, "kind=", "\u{feff}kind=", 12, 1, "\u{feff}", "a byte-order mark (bytes EF BB BF)"),
    (SCHEDULE, "writer", "\u{feff}writer", 12, 2, "\u{feff}", "a byte-order mark (bytes EF BB BF)"),
    (PROBLEM, "demand=60", "demand=6\x000", 12, 4, "\0", "NUL (byte 0)"),
    (SCHEDULE, "run=0,20", "run=0,\x1b20", 12, 4, "\x1b", "byte 27"),
    (SCHEDULE, "run=60,80", "run=60,\t80", 12, 3, "\t", "a tab (byte 9)"),
    (SCHEDULE, "60,80", "60,\u{a0}80", 12, 3, "\u{a0}", "a no-break space (bytes C2 A0)"),
    (PROBLEM, "-2,50", "\u{2212}2,50", 12, 7, "\u{2212}", "a Unicode minus (bytes E2 88 92)"),
    (PROBLEM, "-2,50", "\u{2013}2,50", 12, 7, "\u{2013}", "a Unicode dash (bytes E2 80 93)"),
    (SCHEDULE, "writer=7", "writer=\u{ff17}", 12, 2, "\u{ff17}", "a Unicode digit (bytes EF BC 97)"),
    (SCHEDULE, "run=0,20", "run=\u{201c}0,20", 12, 4, "\u{201c}", "a Unicode quote (bytes E2 80 9C)"),
    (SCHEDULE, "writer=7", "writer\u{ff1d}7", 12, 2, "\u{ff1d}", "a Unicode equals sign (bytes EF BC 9D)"),
    // spaces
    (PROBLEM, "60,100", "60, 100", 12, 4, " ", "a space stands before the demand of period 2"),
    (PROBLEM, "60,100", "60 ,100", 12, 4, " ", "a space stands behind the demand of period 1"),
    (PROBLEM, "periods=2", "periods = 2", 12, 2, " ", "a space stands before '='"),
    (PROBLEM, "periods=2", "periods= 2", 12, 2, " ", "a space stands before its value"),
    (PROBLEM, "units=2", "units=2  ", 12, 3, "  ", "a space stands behind its value"),
    (PROBLEM, "units=2", " units=2", 12, 3, " ", "a space stands before its key"),
    (SCHEDULE, "kind=schedule", "kind=schedule ", 12, 1, " ", "a space stands behind schedule"),
    (SCHEDULE, "end=schedule", "end=schedule ", 12, 5, " ", "end=schedule is due; a space"),
    // numbers
    (PROBLEM, "demand=60,", "demand=60.0,", 12, 4, "60.0", "the demand of period 1 reads 60.0: whole numbers only; write 60"),
    (PROBLEM, "demand=60,", "demand=60.5,", 12, 4, "60.5", "take tenths throughout"),
    (PROBLEM, "unit=100,", "unit=100.25,", 12, 6, "100.25", "choose a smaller unit of money"),
    (PROBLEM, "unit=100,", "unit=1.000,", 12, 6, "1.000", "write 1, or 1000 if the point parts thousands"),
    (PROBLEM, "unit=100,10,0,", "unit=100,10,0.007,", 12, 6, "0.007", "whole numbers only; choose a smaller unit of money"),
    (PROBLEM, "unit=100,10,", "unit=100,16.190,", 12, 6, "16.190", "choose a smaller unit of money (README, 'The scale of costs'), or write 16190 if the point parts thousands"),
    (TREE, "price=10,14", "price=10,-3.5", 12, 5, "-3.5", "only Tini may carry a minus"),
    (PROBLEM, "1,1,-2", "1,1,-2.000", 12, 7, "-2.000", "write -2, or -2000 if the point parts thousands"),
    (PROBLEM, "1,5,60", "1,5,+05", 12, 6, "+05", "no plus; write 5"),
    (PROBLEM, "unit=100,10,0,20", "unit=1,000,000,10,0,20", 12, 6, "000", "or 1000000 if one number is meant"),
    (PROBLEM, "60,100", "60\t100", 12, 4, "\t", "a tab (byte 9) stands inside the demand of period 1: write 60100, or commas between values"),
    (RAMPS, "down=0\nup=0", "up=0", 12, 8, "up", "up= stands here a second time, or down= is missing before it"),
    (RAMPS, "down=0\nend", "down=0\nup=0\nend", 12, 11, "up", "up= stands here: one more than the units, which are 2"),
    (PROBLEM, "periods=2", "periods=2.5", 12, 2, "2.5", "whole numbers only"),
    (PROBLEM, "60,100", "60 100", 12, 4, " ", "write 60100, or commas between values"),
    (PROBLEM, "60,100", "60 1", 12, 4, " ", "a space stands inside the demand of period 1: write commas between values"),
    (PROBLEM, "end=problem", "end=problem ", 12, 8, " ", "a space stands behind problem: take it out"),
    (PROBLEM, "unit=100,", "unit=.5,", 12, 6, ".5", "whole numbers only"),
    (PROBLEM, "unit=100,", "unit=1e2,", 12, 6, "1e2", "no exponent"),
    (PROBLEM, "unit=100,", "unit=1.5E+2,", 12, 6, "1.5E+2", "no exponent"),
    (PROBLEM, "1,5,60", "1,5,+60", 12, 6, "+60", "p0 reads +60: no plus; write 60"),
    (PROBLEM, "spare=10,10", "spare=10,-10", 12, 5, "-10", "only Tini may carry a minus"),
    (PROBLEM, "1,1,-2", "1,1,-0", 12, 7, "-0", "0 carries no minus"),
    (PROBLEM, "1,1,-2", "1,1,-02", 12, 7, "-02", "no leading zeros; write -2"),
    (PROBLEM, "1,1,-2", "1,1,-", 12, 7, "-", "a sign with no number"),
    (SCHEDULE, "run=0,20", "run=0,020", 12, 4, "020", "run= (unit 2 of 2) is due; the output of period 2 reads 020: no leading zeros; write 20"),
    (PROBLEM, "unit=100,", "unit=1_000,", 12, 6, "1_000", "write 1000"),
    (PROBLEM, "unit=100,", "unit=1'000,", 12, 6, "1'000", "write 1000"),
    (PROBLEM, "unit=100,", "unit=1 000,", 12, 6, " ", "write 1000"),
    (PROBLEM, "unit=100,", "unit=1.000.000,", 12, 6, "1.000.000", "nothing parts thousands"),
    (PROBLEM, "60,100", "60,1,000", 12, 4, "000", "or 1000 if one number is meant"),
    (SCHEDULE, "writer=7", "writer=1,234", 14, 2, "234", "write 1234, with no comma inside it"),
    (SCHEDULE, "writer=7", "writer=0x7", 12, 2, "0x7", "decimal"),
    (SCHEDULE, "run=0,20", "run=0,\"20\"", 12, 4, "\"20\"", "no quotes"),
    (SCHEDULE, "run=0,20", "run='0',20", 12, 4, "'0'", "no quotes"),
    (SCHEDULE, "run=60,80", "run=[60,80]", 12, 3, "[60", "no brackets"),
    (SCHEDULE, "run=60,80", "run=60;80", 12, 3, ";", "commas part values"),
    (SCHEDULE, "run=60,80", "run=60,,80", 12, 3, ",,", "two commas"),
    (SCHEDULE, "run=60,80", "run=,60,80", 12, 3, ",", "a comma stands behind '='"),
    (SCHEDULE, "run=60,80", "run=60,80,", 12, 3, ",", "a comma ends the line"),
    (SCHEDULE, "writer=7", "writer=", 12, 2, "", "nothing stands behind '='"),
    (PROBLEM, "60,100", "60,none", 12, 4, "none", "a word, where a whole number is due"),
    (PROBLEM, "60,100", "nan,100", 12, 4, "nan", "a word, where a whole number is due"),
    (PROBLEM, "60,100", "60MW,100", 12, 4, "60MW", "with no letters"),
    (SCHEDULE, "writer=7", "writer==7", 12, 2, "=", "a second '='"),
    (SCHEDULE, "writer=7", "writer=777777777777777777777777777777", 13, 2, "777777777777777777777777777777", "W is 777777777777..7777; 1 to 65,535 is its range"),
    // lines
    (PROBLEM, "units=2\n", "units=2\n\n", 12, 4, "", "demand= is due; this line is blank"),
    (PROBLEM, "units=2\n", "units=2\n  \n", 12, 4, "  ", "only spaces"),
    (PROBLEM, "units=2\n", "units=2\n# two periods\n", 12, 4, "# two periods", "a comment"),
    (PROBLEM, "units=2\n", "units=2\n// demand=60,100\n", 12, 4, "// demand=60,100", "a comment"),
    (PROBLEM, "units=2\n", "units=2\n; demand\n", 12, 4, "; demand", "a comment"),
    (PROBLEM, "demand=60", "demand 60", 12, 4, "demand 60,100", "this line has no '='"),
    (PROBLEM, "demand=60", "demand: 60", 12, 4, ":", "':' stands in the place of '='"),
    (PROBLEM, "demand=", "Demand=", 12, 4, "Demand", "Demand has capitals: write demand="),
    (PROBLEM, "demand=", "demnad=", 12, 4, "demnad", "did you mean demand=?"),
    (PROBLEM, "demand=", "load=", 12, 4, "load", "demand= is due; load= stands here, which is no key of any text"),
    (PROBLEM, "units=2", "unit=2", 12, 3, "unit", "did you mean units=?"),
    (PROBLEM, "demand=", "=", 12, 4, "=", "no key stands before '='"),
    (TREE, "split=", "spilt=", 12, 3, "spilt", "did you mean split=?"),
    (PROBLEM, "demand=60,100\nspare=10,10", "spare=10,10\ndemand=60,100", 12, 4, "spare", "demand= is due; spare= stands here: the two lines are exchanged"),
    (PROBLEM, "spare=10,10\n", "", 12, 5, "unit", "spare= is due; unit= stands here: spare= is missing before it"),
    (PROBLEM, "spare=10,10\n", "demand=60,100\nspare=10,10\n", 12, 5, "demand", "demand= stands here a second time"),
    (PROBLEM, "unit=40,14,0,10,50,1,1,-2,50,50,20,60,0,0,0\n", "", 12, 7, "end", "unit= (line 2 of 2) is due; end=problem stands here, 1 line too early"),
    (PROBLEM, "units=2", "units=1", 12, 7, "unit", "end=problem is due; unit= stands here: one more than the units, which are 1"),
    (PROBLEM, "demand=60,100", "run=60,100", 12, 4, "run", "it is a line of a schedule"),
    (SCHEDULE, "run=0,20\n", "", 12, 4, "end", "run= (unit 2 of 2) is due"),
    (SCHEDULE, "run=0,20\n", "run=0,20\nrun=0,20\n", 12, 5, "run", "end=schedule is due; run= stands here: one more than the units"),
    (SCHEDULE, "writer=7\n", "", 12, 2, "run", "writer= is missing before it"),
    // trees
    (TREE, "reserve=0,0\n", "", 12, 6, "end", "reserve= (of price= in line 5) is due"),
    (TREE, "price=10,14\n", "", 12, 5, "reserve", "it belongs behind price= or rampprice="),
    (TREE, "short=2\n", "", 12, 6, "end", "a line of the tree (split=, count=, short=, crowd=, stuck=, price= or rampprice=) is due; end=tree stands here, and 1 tree is missing"),
    (TREE, "end=tree", "short=2\nend=tree", 12, 7, "short", "end=tree is due; short= stands here: the tree is whole"),
    (TREE, "price=10,14", "price=10,1.4", 12, 5, "1.4", "price= is due; the price of period 2 reads 1.4: whole numbers only; round it: the bound stays a bound"),
    (TREE, "short=2", "short=2,", 12, 4, ",", "a comma ends the line"),
    (RAMPS, "up=0\ndown=0", "down=0\nup=0", 12, 7, "down", "up= (unit 1 of 2, of rampprice= in line 5) is due; down= stands here: up= is missing before it, or the two lines are exchanged"),
    (RAMPS, "down=0\nend", "end", 12, 10, "end", "down= (unit 2 of 2, of rampprice= in line 5) is due"),
    (RAMPS, "rampprice", "price", 12, 7, "up", "end=tree is due; up= stands here: it belongs behind rampprice="),
    // first and last lines, and where the text ends
    (SCHEDULE, "end=schedule", "end=tree", 12, 5, "tree", "tree stands here, but line 1 says schedule"),
    (SCHEDULE, "end=schedule", "end", 12, 5, "end", "this line has no '='"),
    (SCHEDULE, "kind=schedule", "kind=plan", 12, 1, "plan", "plan is no kind of text"),
    (SCHEDULE, "kind=schedule", "kind=Schedule", 12, 1, "Schedule", "Schedule has capitals: write schedule"),
    (SCHEDULE, "kind=schedule", "KIND=schedule", 12, 1, "KIND", "KIND has capitals: write kind="),
    (SCHEDULE, "kind=schedule", "kind=shedule", 12, 1, "shedule", "did you mean schedule?"),
    (SCHEDULE, "kind=schedule", "", 12, 1, "", "kind=problem, kind=schedule or kind=tree is due; this line is blank"),
    (SCHEDULE, "kind=schedule\n", "", 12, 1, "writer", "did an end= line before it come too early?"),
    (SCHEDULE, "run=0,20\nend=schedule\n", "", 12, 4, "", "run= (unit 2 of 2) is due; the text ends here, 2 lines too early"),
    (SCHEDULE, "end=schedule\n", "", 12, 5, "", "end=schedule is due; the text ends without it"),
    (TREE, "price=10,14\nreserve=0,0\nend=tree\n", "", 12, 5, "", "the text ends here, and 1 tree is missing"),
    (SCHEDULE, "end=schedule\n", "end=schedule", 12, 5, "", "no newline (byte 10) ends it; add one"),
    (SCHEDULE, "20\nend=schedule\n", "2", 12, 4, "", "the text ends in this line, with no newline (byte 10)"),
    (SCHEDULE, SCHEDULE, "", 12, 1, "", "the text is empty"),
    (SCHEDULE, "end=schedule\n", "end=schedule\n\n", 12, 6, "", "nothing may stand behind end=schedule"),
    (SCHEDULE, "end=schedule\n", "end=schedule\nkind=tree\n", 12, 6, "kind=tree", "lodge the next text by itself"),
    (SCHEDULE, "run=0", "kind=tree\nrun=0", 12, 4, "kind", "another text begins"),
    // counts
    (SCHEDULE, "run=0,20", "run=0,20,5", 14, 4, "5", "3 values stand here and 2 are due, one for each period: the last, 5, is too many"),
    (PROBLEM, "1,5,60", "1,5", 14, 6, "", "14 values stand here and 15 are due, a to p0: p0 is missing"),
    (PROBLEM, "demand=60,100", "demand=60", 14, 4, "", "1 value stands here and 2 are due, one for each period: period 2 is missing"),
    (RAMPS, "up=0", "up=0,0", 14, 7, "0", "2 values stand here and 1 is due, one for each period but the first"),
    (TREE, "split=2,2", "split=2", 14, 3, "", "U and P: P is missing"),
    // ranges
    (PROBLEM, "1,1,-2", "1,1,0", 13, 7, "0", "Tini is 0; -1,000 to 1,000 without 0"),
    (SCHEDULE, "run=0,20", "run=0,10001", 13, 4, "10001", "the output of period 2 is 10001; 0 to 10,000"),
    (PROBLEM, "periods=2", "periods=49", 13, 2, "49", "T is 49; 1 to 48"),
    (TREE, "split=2,2", "split=3,2", 13, 3, "3", "U is 3; 1 to 2 (I, the units)"),
    (TREE, "split=2,2", "count=2,2", 13, 3, "2", "K is 2; 0 to 1 (I - 1, one less than the units)"),
    (TREE, "short=2", "short=0", 13, 4, "0", "P is 0; 1 to 2 (T, the periods)"),
    (RAMPS, "down=0", "down=1000000001", 13, 8, "1000000001", "the down price of period 2 is 1000000001; 0 to 1,000,000,000"),
    // orders
    (PROBLEM, "20,80,2", "81,80,2", 15, 6, "81,80", "pL is 81 and pU is 80; pL must be at most pU"),
    (PROBLEM, "50,90,1", "91,90,1", 15, 6, "91,90", "Hsc is 91 and Csc is 90; Hsc must be at most Csc"),
    (PROBLEM, "1,5,60", "1,5,19", 15, 6, "19", "p0 is 19, but Tini is 3, so the unit is on at midnight: p0 must be from pL 20 to pU 80"),
    (PROBLEM, "0,0,0\nend", "0,0,1\nend", 15, 7, "1", "p0 is 1, but Tini is -2, so the unit is off at midnight: p0 must be 0"),
    // rules and leaves
    (SCHEDULE, "run=0,20", "run=0,9", 21, 0, "9", "from its pL to its pU, (4)"),
    (TREE, "short=2", "stuck=1", 34, 4, "1", "stuck does not hold"),
];

/// The docket that a text of this kind is lodged in, and its plant.
fn desk_for(text: &str) -> (Docket, Option<Plant>) {
    let mut docket = Docket::new();
    if text == PROBLEM {
        return (docket, None);
    }
    docket.lodge(PROBLEM.as_bytes());
    (docket, Plant::of(PROBLEM.as_bytes()))
}

fn refusal(docket: &mut Docket, text: &[u8]) -> Option<Refusal> {
    match docket.lodge(text).verdict() {
        Verdict::Refused(refusal) => Some(refusal),
        _ => None,
    }
}

/// The bytes that are marked; none, without a mark or with one at the line's end.
fn marked<'a>(text: &'a [u8], reason: &Reason) -> &'a [u8] {
    let Some(mark) = reason.mark.clone() else {
        return b"";
    };
    let line = usize::try_from(reason.line - 1).expect("a line");
    let line = text.split(|&byte| byte == b'\n').nth(line).expect("a line");
    assert!(!mark.is_empty() || mark.end == line.len(), "{reason:?}");
    &line[mark]
}

#[test]
fn usual_mistakes_are_named() {
    for &(text, old, new, number, line, bytes, phrase) in MISTAKES {
        let (mut docket, held) = desk_for(text);
        assert!(text.contains(old), "{old}");
        let changed = match old {
            "\n" => text.replace(old, new),
            _ => text.replacen(old, new, 1),
        };
        let why = refusal(&mut docket, changed.as_bytes()).expect("a refusal");
        assert_eq!((why.number, why.line), (number, line), "{new:?}");
        let reason = words::reason(changed.as_bytes(), why, held);
        assert!(
            reason.words.contains(phrase),
            "{new:?}\n{}\n{phrase}",
            reason.words
        );
        assert!(reason.mark.is_some(), "{new:?}");
        let shown = marked(changed.as_bytes(), &reason);
        assert_eq!(
            shown.escape_ascii().to_string(),
            bytes.as_bytes().escape_ascii().to_string(),
            "{reason:?}"
        );
        assert!(line == 0 || reason.line == line, "{reason:?}");
        let place = match line {
            0 => format!("{number} for unit"),
            _ => format!("{number} in line {line} of the text: "),
        };
        assert!(reason.words.starts_with(&place), "{}", reason.words);
        assert!(reason.words.len() <= 200, "{}", reason.words);
    }
    assert!(MISTAKES.len() >= 48);
}

/// What `check` prints of the last text of an input: the line with its answer, and those under it.
fn printed(words: &[&str], input: &[u8]) -> Vec<String> {
    let ran = run(words, input);
    assert_eq!(ran.status, 1, "{}", ran.notes());
    let answers = ran.out().split("kind=report\n").next();
    let lines: Vec<&str> = answers.unwrap_or_default().lines().collect();
    let last = lines.iter().rposition(|line| !line.starts_with("    "));
    lines[last.expect("an answer")..]
        .iter()
        .map(|line| line.to_string())
        .collect()
}

/// The bytes above the mark in what is printed, as they are printed.
fn above_mark(lines: &[String]) -> &str {
    let is_mark = |line: &String| line.ends_with('^') && line.trim_matches([' ', '^']).is_empty();
    let at = lines.iter().position(is_mark).expect("a mark");
    let (mark, quote) = (&lines[at], &lines[at - 1]);
    let from = mark.find('^').expect("a mark");
    quote.get(from..mark.len()).unwrap_or_default()
}

#[test]
fn check_names_the_line_of_the_file_the_value_and_the_reason_of_usual_mistakes() {
    let mut named = 0;
    for &(text, old, new, number, line, bytes, phrase) in MISTAKES {
        let changed = match old {
            "\n" => text.replace(old, new),
            _ => text.replacen(old, new, 1),
        };
        if texts(changed.as_bytes()) != [changed.as_bytes()] {
            continue;
        }
        let before = if text == PROBLEM { "" } else { PROBLEM };
        let lines = printed(&["check", "-"], [before, &changed].concat().as_bytes());
        if line > 0 {
            let line = before.lines().count() as u64 + line;
            assert!(
                lines[0].starts_with(&format!("-:{line}: answer=refused,{number},")),
                "{lines:?}"
            );
        }
        assert!(lines[1].contains(phrase), "{lines:?}");
        assert_eq!(above_mark(&lines), escaped(bytes.as_bytes()), "{lines:?}");
        named += 1;
    }
    assert!(named >= 48, "{named}");
}

#[test]
fn check_names_the_line_of_the_file_the_value_and_the_reason_of_each_example() {
    for &(name, line, bytes, phrase) in EXAMPLES {
        let path = repository(&format!("examples/refusals/{name}.txt"));
        let input = std::fs::read(&path).expect("a file");
        let all = texts(&input);
        let before: usize = all[..all.len() - 1].iter().map(|text| text.len()).sum();
        let before = input[..before]
            .iter()
            .filter(|&&byte| byte == b'\n')
            .count() as u64;
        let path = path.to_str().expect("a name");
        let lines = printed(&["check", path], b"");
        let place = format!("{path}:{}: answer=refused,", before + line.max(1));
        assert!(lines[0].starts_with(&place), "{lines:?}");
        assert!(lines[1].starts_with(&format!("    {phrase}")), "{lines:?}");
        match line {
            0 => assert_eq!(lines.len(), 2, "{lines:?}"),
            _ => assert_eq!(above_mark(&lines), bytes, "{lines:?}"),
        }
    }
}

#[test]
fn texts_in_utf_16_are_named() {
    let little = |mark: bool| -> Vec<u8> {
        let mark: &[u8] = if mark { b"\xff\xfe" } else { b"" };
        let bytes = PROBLEM.bytes().flat_map(|byte| [byte, 0]);
        mark.iter().copied().chain(bytes).collect()
    };
    let big: Vec<u8> = PROBLEM.bytes().flat_map(|byte| [0, byte]).collect();
    let marked_big = [b"\xfe\xff", &big[..]].concat();
    for (text, bytes) in [
        (little(true), &b"\xff\xfe"[..]),
        (little(false), b"\0"),
        (marked_big, b"\xfe\xff"),
        (big, b"\0"),
    ] {
        let why = refusal(&mut Docket::new(), &text).expect("a refusal");
        assert_eq!((why.number, why.line), (12, 1));
        let reason = words::reason(&text, why, None);
        assert!(reason.words.contains("UTF-16"), "{}", reason.words);
        assert_eq!(marked(&text, &reason), bytes);
    }
}

/// A file of examples/refusals, the line that shows the refusal of its last text, the marked bytes and a phrase.
type Example = (&'static str, u64, &'static str, &'static str);

#[rustfmt::skip]
const EXAMPLES: &[Example] = &[
    ("12-ramp", 7, "down", "12 in line 7 of the text: up= (unit 1 of 2, of rampprice= in line 5) is due; down= stands here"),
    ("12", 4, "020", "12 in line 4 of the text: run= (unit 2 of 2) is due; the output of period 2 reads 020"),
    ("13", 4, "10001", "13 in line 4 of the text: the output of period 2 is 10001; 0 to 10,000"),
    ("14-ramp", 8, "0", "14 in line 8 of the text: 2 values stand here and 1 is due, one for each period but the first"),
    ("14-unit", 6, "", "14 in line 6 of the text: 14 values stand here and 15 are due, a to p0: p0 is missing"),
    ("14", 4, "0", "14 in line 4 of the text: 3 values stand here and 2 are due, one for each period"),
    ("15-p0", 6, "0", "15 in line 6 of the text: p0 is 0, but Tini is 3"),
    ("15", 6, "90,80", "15 in line 6 of the text: pL is 90 and pU is 80"),
    ("21", 4, "9", "21 for unit 2 in period 2: "),
    ("22", 0, "", "22 in period 1: the outputs add up to less than the demand, (2)"),
    ("23", 0, "", "23 in period 1: the pU of the units that are on add up to less than demand plus spare, (3)"),
    ("24", 4, "20", "24 for unit 2 in period 2: the unit goes on or off too soon"),
    ("25-period-1", 3, "29", "25 for unit 1 in period 1: the output rises by more than UR or falls by more than DR"),
    ("25", 3, "80", "25 for unit 1 in period 2: the output rises by more than UR or falls by more than DR"),
    ("31", 4, "2,2", "31 in line 4 of the text: a split above fixes this unit in this period already"),
    ("32", 67, "2,17", "32 in line 67 of the text: no split or count may stand deeper than 63"),
    ("33", 3, "2", "33 in line 3 of the text: short does not hold"),
    ("34", 3, "2", "34 in line 3 of the text: stuck does not hold"),
    ("35-ramp", 10, "0", "35 in line 10 of the text: a unit has no permitted run under the splits above; write stuck=U in this leaf's place"),
    ("35", 6, "0,0", "35 in line 6 of the text: a unit has no permitted run under the splits above; write stuck=U in this leaf's place"),
    ("36", 3, "2", "36 in line 3 of the text: crowd does not hold"),
    ("37", 4, "2,1", "37 in line 4 of the text: K must not be below the period's lower count"),
    ("41", 0, "", "41: a problem is held already"),
    ("42", 0, "", "42: no problem is held yet"),
];

/// The texts of an input, cut after each line that begins `end=`.
fn texts(input: &[u8]) -> Vec<&[u8]> {
    let (mut texts, mut from, mut at) = (Vec::new(), 0, 0);
    for line in input.split_inclusive(|&byte| byte == b'\n') {
        at += line.len();
        if line.starts_with(b"end=") {
            texts.push(&input[from..at]);
            from = at;
        }
    }
    texts
}

#[test]
fn each_example_of_a_refusal_is_explained() {
    let folder = Path::new(env!("CARGO_MANIFEST_DIR")).join("../examples/refusals");
    let mut files = 0;
    for entry in std::fs::read_dir(folder).expect("a folder") {
        let path = entry.expect("a file").path();
        if path.extension().is_none_or(|end| end != "txt") {
            continue;
        }
        let name = path
            .file_stem()
            .expect("a name")
            .to_string_lossy()
            .into_owned();
        let row = EXAMPLES.iter().find(|row| row.0 == name);
        let &(_, line, bytes, phrase) = row.unwrap_or_else(|| panic!("no row for {name}"));
        let input = std::fs::read(&path).expect("a file");
        let (mut docket, mut last) = (Docket::new(), None);
        let held = Plant::of(texts(&input)[0]);
        for text in texts(&input) {
            last = refusal(&mut docket, text).map(|why| (text, why));
        }
        let (text, why) = last.expect("a refusal");
        let reason = words::reason(text, why, held);
        assert!(reason.words.starts_with(phrase), "{name}: {}", reason.words);
        assert_eq!(reason.line, line, "{name}");
        assert_eq!(marked(text, &reason), bytes.as_bytes(), "{name}");
        assert_eq!(reason.mark.is_some(), line > 0, "{name}");
        files += 1;
    }
    assert_eq!(files, EXAMPLES.len());
}

/// Numbers that look random and are the same in every run.
struct Draw(u64);

impl Draw {
    fn below(&mut self, many: usize) -> usize {
        self.0 = self
            .0
            .wrapping_mul(6_364_136_223_846_793_005)
            .wrapping_add(1);
        (self.0 >> 33) as usize % many.max(1)
    }

    fn of<T: Copy>(&mut self, all: &[T]) -> T {
        all[self.below(all.len())]
    }
}

/// What is put into texts.
#[rustfmt::skip]
const PIECES: &[&[u8]] = &[
    b"",
    b",",
    b"=",
    b"\n",
    b"\r",
    b" ",
    b"0",
    b"-",
    b".",
    b"\0",
    b"\xff",
    b"\xc2\xa0",
    b"\xef\xbb\xbf",
    b"end=tree\n",
    b"up=0\n",
    b"split=1,1\n",
    b"kind=",
    b"99999999999999999999",
    b"+",
    b"e",
    b"'",
    b"\xe2\x88",
    b"#",
    b":",
    b"run=",
];

/// The text with one to four changes of bytes.
fn mutated(draw: &mut Draw, text: &[u8]) -> Vec<u8> {
    let mut text = text.to_vec();
    for _ in 0..=draw.below(4) {
        let from = draw.below(text.len() + 1);
        let to = (from + draw.below(6) * draw.below(4)).min(text.len());
        let piece = match draw.below(4) {
            0 => vec![draw.below(256) as u8],
            1 => text[from..to].repeat(2),
            _ => draw.of(PIECES).to_vec(),
        };
        text.splice(from..to, piece);
    }
    text
}

/// That a reason can be printed and that its mark lies in its line.
fn sound(text: &[u8], reason: &Reason) {
    let printable = |byte: u8| (32..=126).contains(&byte);
    assert!(reason.words.bytes().all(printable), "{reason:?}");
    assert!(reason.words.len() <= 260, "{reason:?}");
    if reason.line == 0 {
        assert_eq!(reason.mark, None);
        return;
    }
    let line = usize::try_from(reason.line - 1).expect("a line");
    let line = text.split(|&byte| byte == b'\n').nth(line).expect("a line");
    if let Some(mark) = &reason.mark {
        assert!(
            mark.start <= mark.end && mark.end <= line.len(),
            "{reason:?}"
        );
        assert!(!mark.is_empty() || mark.end == line.len(), "{reason:?}");
    }
}

#[test]
fn any_text_and_any_refusal_has_a_reason() {
    const SIZES: &[usize] = &[0, 1, 2, 3, 48, usize::MAX];
    const PLACES: &[u64] = &[0, 1, 2, 3, 4, 5, 6, 7, 8, 9, 100, u64::MAX];
    let mut draw = Draw(2026);
    let (mut real, mut texts) = (0, 0);
    while real < 20_000 {
        let base = draw.of(&[PROBLEM, SCHEDULE, TREE, RAMPS]);
        let (mut docket, held) = desk_for(base);
        let text = mutated(&mut draw, base.as_bytes());
        texts += 1;
        let Some(why) = refusal(&mut docket, &text) else {
            continue;
        };
        real += 1;
        sound(&text, &words::reason(&text, why, held));
        let mut other = why;
        other.number = draw.below(48) as u64;
        other.line = draw.of(PLACES);
        other.unit = draw.of(PLACES);
        other.period = draw.of(PLACES);
        let plant = Plant {
            periods: draw.of(SIZES),
            units: draw.of(SIZES),
        };
        for held in [None, held, Some(plant)] {
            sound(&text, &words::reason(&text, other, held));
            let _ = (words::kind(&text), words::writer(&text), Plant::of(&text));
        }
    }
    assert!(texts < 40_000, "{texts}");
}

#[test]
fn a_number_without_a_row_prints_as_itself() {
    let mut why = refusal(&mut Docket::new(), b"kind=tree\n").expect("a refusal");
    (why.number, why.line, why.unit, why.period) = (77, 1, 2, 3);
    let reason = words::reason(b"kind=tree\n", why, None);
    assert_eq!(
        reason.words,
        "77 in line 1 of the text for unit 2 in period 3: see README, 'Refusals', for this number"
    );
    assert_eq!((reason.line, reason.mark), (1, None));
}

#[test]
fn a_text_of_another_kind_is_explained_in_general() {
    let text = b"kind=market\nwriter=3\nprice=1.5,2\nend=market\n";
    let mut why = refusal(&mut Docket::new(), text).expect("a refusal");
    for (number, line) in [
        (12, 3),
        (13, 3),
        (14, 3),
        (15, 3),
        (35, 3),
        (21, 0),
        (12, 9),
    ] {
        (why.number, why.line, why.unit, why.period) = (number, line, 1, 1);
        sound(text, &words::reason(text, why, None));
    }
    (why.number, why.line, why.unit, why.period) = (12, 3, 0, 0);
    let reason = words::reason(text, why, None);
    assert_eq!(reason.words, "12 in line 3 of the text: another line is due; the price of period 1 reads 1.5: whole numbers only; round it: the bound stays a bound");
}

/// A tree of so many `short` leaves, split on unit 1 from this period on.
fn tree_of(leaves: usize, period: usize, text: &mut String) {
    if leaves == 1 {
        text.push_str("short=1\n");
        return;
    }
    text.push_str(&format!("split=1,{period}\n"));
    tree_of(leaves / 2, period + 1, text);
    tree_of(leaves - leaves / 2, period + 1, text);
}

/// The text with a piece repeated behind it, up to the longest that a text may be, and a newline.
fn filled(start: &str, piece: &str) -> Vec<u8> {
    let mut text = start.as_bytes().to_vec();
    while text.len() < MOST_TEXT {
        text.extend_from_slice(piece.as_bytes());
    }
    text.truncate(MOST_TEXT - 1);
    text.push(b'\n');
    text
}

/// The longest texts, each with the number that refuses it.
fn longest() -> Vec<(Vec<u8>, u64)> {
    let mut tree = String::from("kind=tree\nwriter=3\n");
    tree_of(54_000, 1, &mut tree);
    tree.push_str("end=0");
    let head = "kind=schedule\nwriter=1\n";
    let run = |start: &str| format!("{head}run={start}");
    vec![
        (filled(&tree, "0"), 12),
        (filled("kind=schedule\nwriter=", "9"), 13),
        (filled(&run("10"), ",0"), 14),
        (filled(&run("0"), ",0."), 12),
        (filled(&run("0,"), " "), 12),
        (filled(head, "x"), 12),
        (filled(head, "\u{a0}"), 12),
        (filled(head, "\n"), 12),
        (filled("", "\0"), 12),
        (filled("x", "="), 12),
    ]
}

#[test]
fn the_longest_texts_are_explained_in_time() {
    let loads = vec!["320000"; 48].join(",");
    let unit = "unit=0,0,0,1,1,1,1,-1,1,1,0,0,0,0,0";
    let problem = format!(
        "kind=problem\nperiods=48\nunits=1\ndemand={loads}\nspare={loads}\n{unit}\nend=problem\n"
    );
    let held = Plant::of(problem.as_bytes());
    for (text, number) in longest() {
        let mut docket = Docket::new();
        docket.lodge(problem.as_bytes());
        assert_eq!(text.len(), MOST_TEXT);
        let why = refusal(&mut docket, &text).expect("a refusal");
        assert_eq!(why.number, number);
        let start = Instant::now();
        let reason = words::reason(&text, why, held);
        assert!(start.elapsed() < Duration::from_secs(1), "{reason:?}");
        sound(&text, &reason);
    }
    let why = refusal(&mut Docket::new(), &vec![b'x'; MOST_TEXT + 1]).expect("a refusal");
    let reason = words::reason(&[], why, None);
    assert!(reason
        .words
        .starts_with("11: the text has more than 1,048,576 bytes"));
}
