//! `draft`: the cheapest runs at given prices and at a tree's leaves, what it says where there are none, and what becomes of its text.
//! Values are by hand.
mod common;

use common::journals::{is_untouched, on, put, Scribe};
use common::json::Json;
use common::program::ran;
use common::{folder, repository, run, text, Ran, PROBLEM};
use std::ffi::OsStr;
use std::fs;
use std::path::{Path, PathBuf};

/// Four price leaves on document 01's problem, below splits and a count.
const LEAVES: [&str; 4] = [
    "price=10,14\nreserve=0,0\n",
    "price=0,14\nreserve=0,0\n",
    "price=12,18\nreserve=0,0\n",
    "price=10,14\nreserve=1,3\n",
];

/// Leaves that may stand in their places: two without a value, and two of 1980.
const OTHERS: [&str; 4] = [
    "short=2\n",
    "short=1\n",
    "price=10,14\nreserve=0,0\n",
    "price=10,14\nreserve=0,0\n",
];

/// A tree of such leaves.
fn tree(leaves: [&str; 4]) -> String {
    let [one, two, three, four] = leaves;
    format!(
        "kind=tree\nwriter=5\nsplit=2,2\n{one}count=1,1\nsplit=1,1\n{two}{three}{four}end=tree\n"
    )
}

/// A journal of texts, which looks old.
struct Desk {
    path: PathBuf,
    bytes: Vec<u8>,
}

impl Desk {
    fn of(name: &str, input: &[u8]) -> Desk {
        let texts = common::texts(input);
        let texts: Vec<Vec<u8>> = texts.into_iter().map(|text| text.1.to_vec()).collect();
        let (path, bytes) = (folder(name).join("j"), Scribe::of(&texts).bytes);
        put(&path, &bytes);
        Desk { path, bytes }
    }

    /// Document 01's example: problem, schedule and tree, and more texts behind them.
    fn example(name: &str, more: &str) -> Desk {
        let example = fs::read(repository("examples/example.txt")).expect("an example");
        Desk::of(name, &[&example, more.as_bytes()].concat())
    }

    /// A committed example.
    fn committed(name: &str) -> Desk {
        let path = repository("examples").join(name);
        Desk::of(name, &fs::read(path).expect("an example"))
    }

    /// Asks for a draft by words that spaces part; the journal must stay as it is.
    fn draft(&self, words: &str) -> Ran {
        let words: Vec<&str> = words.split(' ').filter(|word| !word.is_empty()).collect();
        self.draft_by(&words)
    }

    fn draft_by(&self, words: &[&str]) -> Ran {
        let ran = on("draft", &self.path, words);
        assert!(is_untouched(&self.path, &self.bytes), "{words:?}");
        ran
    }

    fn name(&self) -> &str {
        self.path.to_str().expect("a name")
    }
}

/// What a draft prints: value, runs and shortfalls, with slashes between the runs.
fn printed(value: i64, runs: &str, short: &str) -> String {
    let runs: String = runs.split('/').map(|run| format!("run={run}\n")).collect();
    format!("value={value}\n{runs}short={short}\n")
}

#[test]
fn at_prices_each_unit_has_its_cheapest_run() {
    let desk = Desk::example("draft-prices", "");
    for (words, value, runs, short) in [
        ("--price 10,14", 1880, "20,80/0,0", "40,20"),
        ("--price=10,14 --reserve=0,0", 1880, "20,80/0,0", "40,20"),
        ("--price 10,14 --on 2,2", 1980, "20,80/0,10", "40,10"),
        ("--price 12,18", 1820, "80,80/0,50", "0,0"),
        // unit 2 costs 0 off and on in period 2: off comes first
        ("--price 10,14 --reserve 1,2", 1930, "20,80/0,0", "40,20"),
        ("--reserve 1,3 --price 10,14", 1910, "20,80/0,10", "40,10"),
        ("--price 10,14 --off 1,1", 2005, "0,0/0,0", "60,100"),
        (
            "--price 10,14 --off 1,2 --off 1,1 --on 2,1 --off 2,2",
            2145,
            "0,0/10,0",
            "50,100",
        ),
        ("--price 0,0", 5, "0,0/0,0", "60,100"),
        // 1,000,000,000 times 340, less 520; and what both units cost with all they have, 1800 and 1540
        (
            "--price 1000000000,1000000000 --reserve 1000000000,1000000000",
            -179_999_996_660,
            "80,80/50,50",
            "0,0",
        ),
    ] {
        let ran = desk.draft(words).sound(0);
        assert_eq!(ran.out(), printed(value, runs, short), "{words}");
    }
}

#[test]
fn the_readme_has_what_is_printed() {
    let readme = fs::read_to_string(repository("desk/README.md")).expect("a file");
    let lines = printed(1880, "20,80/0,0", "40,20");
    let lines: String = lines.lines().map(|line| format!("    {line}\n")).collect();
    assert!(readme.contains(&format!(
        "    docket draft two.docket --price 10,14\n\nprints\n\n{lines}\n"
    )));
    assert!(readme.contains("at `--price 12,18` the runs are 80,80 and 0,50, and nothing is short"));
}

#[test]
fn at_a_trees_leaves_the_splits_above_fix_the_statuses() {
    let desk = Desk::example("draft-tree", &tree(LEAVES));
    // the least of the four
    assert_eq!(logged(&desk.path, 4), "passed,1505,3,4");
    for (words, value, runs, short) in [
        ("--tree 3", 1980, "20,80/0,10", "40,10"),
        ("--tree 3 --leaf 1", 1980, "20,80/0,10", "40,10"),
        ("--tree 4", 1880, "20,80/0,0", "40,20"),
        ("--leaf 2 --tree 4", 1505, "0,0/0,10", "60,90"),
        ("--tree=4 --leaf=3", 1820, "80,80/0,50", "0,0"),
        ("--tree 4 --leaf 4", 1910, "20,80/0,10", "40,10"),
        // besides, unit 1 off in period 1, so for its two periods at least, at the stop's 5
        ("--tree 4 --off 1,1", 2005, "0,0/0,0", "60,100"),
        ("--off 2,2 --tree 4", 1880, "20,80/0,0", "40,20"),
    ] {
        let ran = desk.draft(words).sound(0);
        assert_eq!(ran.out(), printed(value, runs, short), "{words}");
    }
}

/// The answer that a log has for a text.
fn logged(path: &Path, number: usize) -> String {
    let log = on("log", path, &[]).sound(0);
    let word = log.lines()[number - 1].rsplit(' ').next();
    word.expect("an answer").to_string()
}

#[test]
fn a_leaf_is_worth_what_a_tree_has_by_it_alone() {
    for (at, value) in [1880, 1505, 1820, 1910].into_iter().enumerate() {
        let mut leaves = OTHERS;
        leaves[at] = LEAVES[at];
        let desk = Desk::example(&format!("draft-alone-{at}"), &tree(leaves));
        assert_eq!(logged(&desk.path, 4), format!("passed,{value},3,4"));
        // leaves without prices are not counted
        let nth = [1, 1, 1, 2][at];
        let ran = desk.draft(&format!("--tree 4 --leaf {nth}")).sound(0);
        assert_eq!(ran.lines()[0], format!("value={value}"));
    }
}

#[test]
fn leaves_below_counts_and_beside_ramp_leaves() {
    let counts = Desk::committed("counts.txt");
    for (words, value, runs, short) in [
        ("--tree 3", 4180, "60,150/0,60/0,0/0,0", "70,20"),
        ("--tree 4", 4240, "60,150/0,60/0,10/0,0", "70,10"),
        ("--tree 4 --leaf 2", 4270, "60,150/0,60/0,0/0,10", "70,10"),
    ] {
        assert_eq!(
            counts.draft(words).sound(0).out(),
            printed(value, runs, short),
            "{words}"
        );
    }
    let ramps = Desk::committed("ramps.txt");
    let flat = printed(3440, "40,40,40,40/0,0,0,0", "20,60,70,20");
    assert_eq!(ramps.draft("--tree 3").sound(0).out(), flat);
    let said = ramps.draft("--tree 4");
    let wanted = ": text 4 has no price leaf: it has 1 ramp leaf, and a ramp leaf gives no run";
    assert!(said.trouble().ends_with(wanted), "{said:?}");
}

#[test]
fn what_a_tree_has_in_place_of_a_leaf_is_said() {
    let ramp =
        |down: &str| format!("rampprice=0,0\nreserve=0,0\nup=0\ndown={down}\nup=0\ndown=0\n");
    let (one, two) = (ramp("0"), ramp("1000000000"));
    let never = "kind=tree\nwriter=5\nsplit=2,2\nshort=2\nsplit=1,2\nshort=2\n";
    let more = format!(
        "{}{never}{}end=tree\n",
        tree([&one, LEAVES[1], &two, OTHERS[3]]),
        LEAVES[0]
    );
    let desk = Desk::example("draft-leaves", &more);
    assert_eq!(
        desk.draft("--tree 4 --leaf 1").sound(0).lines()[0],
        "value=1505"
    );
    assert_eq!(
        desk.draft("--tree 4 --leaf 2").sound(0).lines()[0],
        "value=1980"
    );
    let both = ": text 4 has no price leaf 3: it has 2 price leaves and 2 ramp leaves, and a ramp leaf gives no run";
    assert!(desk.draft("--tree 4 --leaf 3").trouble().ends_with(both));
    let one = ": text 5 has no price leaf 2: it has 1 price leaf";
    assert!(desk.draft("--tree 5 --leaf 2").trouble().ends_with(one));
    let none =
        PROBLEM.replace("demand=50", "demand=81") + "kind=tree\nwriter=9\nshort=1\nend=tree\n";
    let desk = Desk::of("draft-never", none.as_bytes());
    assert_eq!(logged(&desk.path, 2), "held,never,0,1");
    for leaf in ["1", "7"] {
        let said = desk.draft(&format!("--tree 2 --leaf {leaf}"));
        assert!(
            said.trouble().ends_with("j: text 2 has no price leaf"),
            "{said:?}"
        );
    }
}

/// On one unit and one period a ramp leaf is two lines.
#[test]
fn in_one_period_a_ramp_leaf_is_told_from_a_price_leaf() {
    let tree = |leaf: &str| {
        format!("kind=tree\nwriter=9\nsplit=1,1\nshort=1\n{leaf}=10\nreserve=0\nend=tree\n")
    };
    let input = format!("{PROBLEM}{}{}", tree("rampprice"), tree("price"));
    let desk = Desk::of("draft-one", input.as_bytes());
    assert!(desk
        .draft("--tree 2")
        .trouble()
        .contains("no price leaf: it has 1 ramp leaf, and a ramp leaf gives no run"));
    // 10 for each of 50, and 100 for being on at 20 or more
    assert_eq!(
        desk.draft("--tree 3").sound(0).out(),
        printed(600, "20", "30")
    );
    assert_eq!(
        desk.draft("--price 10").sound(0).out(),
        printed(500, "0", "50")
    );
}

#[test]
fn a_unit_without_a_run_is_named() {
    let desk = Desk::example("draft-stuck", "");
    // unit 1 stays off for two periods
    let words = "--price 10,14 --off 1,1 --on 1,2";
    let why =
        "no run of unit 1 keeps its least times on and off, (5) to (10), and the fixed statuses";
    let ran = desk.draft(words).sound(1);
    assert_eq!(ran.out(), format!("stuck=1\n    {why}\n"));
    let written = desk.draft(&format!("{words} --writer 7"));
    assert_eq!((written.status, written.out()), (1, ""));
    assert_eq!(written.notes(), format!("docket: stuck=1: {why}\n"));
    let json = desk.draft(&format!("{words} --writer 7 --json")).sound(1);
    let wanted = "{\"value\":null,\"runs\":null,\"short\":null,\"stuck\":1,\"schedule\":null,\"prices\":[10,14],\
                  \"reserves\":[0,0],\"off\":[[1,1]],\"on\":[[1,2]],\"tree\":null,\"leaf\":null}\n";
    assert_eq!(json.out(), wanted);
    // the lowest of two
    let unit = "unit=0,0,0,1,9,1,2,-1,9,9,0,0,0,0,0\n";
    let problem = format!(
        "kind=problem\nperiods=1\nunits=3\ndemand=1\nspare=0\n{unit}{unit}{unit}end=problem\n"
    );
    let both = Desk::of("draft-both", problem.as_bytes());
    let ran = both.draft("--price 0 --on 3,1 --on 2,1").sound(1);
    assert!(
        ran.out().starts_with("stuck=2\n    no run of unit 2 "),
        "{ran:?}"
    );
}

#[test]
fn in_json_one_object_has_all_of_it() {
    let desk = Desk::example("draft-json", &tree(LEAVES));
    let ran = desk
        .draft("--price 10,14 --json --on 2,2 --off 2,1")
        .sound(0);
    let wanted = "{\"value\":1980,\"runs\":[[20,80],[0,10]],\"short\":[40,10],\"stuck\":null,\"schedule\":null,\
                  \"prices\":[10,14],\"reserves\":[0,0],\"off\":[[2,1]],\"on\":[[2,2]],\"tree\":null,\"leaf\":null}\n";
    assert_eq!(ran.out(), wanted);
    let ran = desk.draft("--tree 4 --leaf 4 --json").sound(0);
    let wanted = "{\"value\":1910,\"runs\":[[20,80],[0,10]],\"short\":[40,10],\"stuck\":null,\"schedule\":null,\
                  \"prices\":[10,14],\"reserves\":[1,3],\"off\":[],\"on\":[[2,2]],\"tree\":4,\"leaf\":4}\n";
    assert_eq!(ran.out(), wanted);
    let written = desk.draft("--tree 4 --writer 65535").out;
    let ran = desk.draft("--tree 4 --writer 65535 --json").sound(0);
    let object = Json::of(ran.out().trim_end()).expect("an object");
    assert_eq!(object.get("schedule").bytes(), written);
    assert_eq!(object.get("off"), &Json::of("[[2,2]]").expect("a list"));
    let below = desk.draft("--json --price=1000000000,0").sound(0);
    let object = Json::of(below.out().trim_end()).expect("an object");
    // 1,000,000,000 times 60, less 130; and what both units cost in period 1, 905 with the stop of unit 1, and 800
    assert_eq!(object.get("value").word(""), "-69999998295");
}

#[test]
fn with_a_writer_it_is_a_schedules_text_to_be_tried() {
    let desk = Desk::example("draft-writer", "");
    let run = desk.draft("--price 10,14 --writer 7");
    let wanted = "kind=schedule\nwriter=7\nrun=20,80\nrun=0,0\nend=schedule\n";
    assert_eq!((run.status, run.out()), (0, wanted));
    let note =
        "docket: value=1880 short=40,20; docket try says whether the draft meets the rules\n";
    assert_eq!(run.notes(), note);
    for (prices, status, answer, phrase) in [
        (
            "10,14",
            1,
            "answer=refused,22,0,0,1",
            "the outputs add up to less than the demand",
        ),
        // 1800 for unit 1; 60 for the start and 740 for unit 2
        ("12,18", 0, "answer=passed,2600", ""),
    ] {
        let draft = desk.path.with_extension("txt");
        let words = ["draft", desk.name(), "--price", prices, "--writer", "7"];
        let drafted = ran(&words, b"");
        assert_eq!(drafted.status, 0, "{drafted:?}");
        fs::write(&draft, &drafted.out).expect("a file");
        let tried = ran(
            &[
                "try",
                desk.name(),
                text(draft.as_os_str().as_encoded_bytes()),
            ],
            b"",
        );
        let tried = tried.sound(status);
        assert!(
            tried.lines()[0].ends_with(&format!(":1: {answer}")),
            "{tried:?}"
        );
        assert!(tried.out().contains(phrase), "{tried:?}");
    }
    assert!(is_untouched(&desk.path, &desk.bytes));
}

/// Words of a draft on document 01's example with the tree above behind it, and what is said of them; spaces part words.
#[rustfmt::skip]
const MISTAKES: &[(&str, &str)] = &[
    // which leaf
    ("", "give --price, a multiplier for each period, or --tree, the number of a tree's text"),
    ("--json", "give --price, "),
    ("--reserve 0,0 --on 2,2", "give --price, "),
    ("--writer 7", "give --price, "),
    ("--leaf 1", "--leaf is a leaf of --tree, which is missing"),
    ("--price 10,14 --leaf 1", "--leaf is a leaf of --tree, which is missing"),
    ("--tree 3 --price 10,14", "--tree and --price: with --tree the leaf has the multipliers; --json shows them"),
    ("--reserve 0,0 --tree 3", "--tree and --reserve: "),
    ("--tree 4 --on 2,2", "--on 2,2: the splits above the leaf fix unit 2 off in period 2"),
    ("--tree 4 --leaf 3 --off 2,2", "--off 2,2: the splits above the leaf fix unit 2 on in period 2"),
    ("--tree 4 --off 3,1", "--off 3,1: U is 3; 1 to 2 (I, the units) is its range"),
    // multipliers
    ("--price", "--price wants a multiplier for each period, as --price 10,14"),
    ("--price=", "--price wants a multiplier for each period"),
    ("--reserve= --price 10,14", "--reserve wants a multiplier for each period, as --reserve 10,14"),
    ("--price 10", "--price: 1 value stands here and 2 are due, one for each period: period 2 is missing"),
    ("--price 10,14,18", "--price: 3 values stand here and 2 are due, one for each period: the last, 18, is too many"),
    ("--price 10,14 --reserve 0", "--reserve: 1 value stands here and 2 are due"),
    ("--price 10,14 --reserve 0,0,0", "--reserve: 3 values stand here and 2 are due"),
    ("--price 10,1000000001", "--price: the price of period 2 is 1000000001; 0 to 1,000,000,000 is its range"),
    ("--price 10,14 --reserve 1000000001,0", "--reserve: the reserve price of period 1 is 1000000001; 0 to 1,000,000,000 is its range"),
    ("--price 123456789012345678901,14", "--price: the price of period 1 is 123456789012345678901; 0 to 1,000,000,000"),
    ("--price 18446744073709551626,14", "--price: the price of period 1 is 18446744073709551626; 0 to "),
    ("--price 010,14", "--price: the price of period 1 reads 010: no leading zeros; write 10"),
    ("--price 00,14", "--price: the price of period 1 reads 00: no leading zeros; write 0"),
    ("--price +10,14", "--price: the price of period 1 reads +10: no plus; write 10"),
    ("--price -10,14", "--price: the price of period 1 reads -10: it cannot be below 0"),
    ("--price 10,-0", "--price: the price of period 2 reads -0: 0 carries no minus"),
    ("--price 10.5,14", "--price: the price of period 1 reads 10.5: whole numbers only; round it"),
    ("--price 1e3,14", "write the number out, with no exponent"),
    ("--price 0x10,14", "write it in decimal"),
    ("--price 10,", "--price: the price of period 2 is empty"),
    ("--price ,14", "--price: the price of period 1 is empty"),
    ("--price 10,,14", "--price: the price of period 2 is empty"),
    ("--price ,", "--price: the price of period 1 is empty"),
    ("--price 10;14", "commas part values"),
    ("--price ten,14", "a word, where a whole number is due"),
    ("--price \u{661}0,14", "--price: "),
    ("--price 10,14 --price 10,14", "--price stands twice"),
    ("--price 10,14 --reserve 0,0 --reserve 0,0", "--reserve stands twice"),
    // statuses
    ("--price 10,14 --off", "--off wants a unit and a period, both from 1, as --off 2,1"),
    ("--price 10,14 --on=", "--on wants a unit and a period, both from 1, as --on 2,1"),
    ("--price 10,14 --off 2", "--off 2: 1 value stands here and 2 are due, U and P: P is missing"),
    ("--price 10,14 --on 2,1,1", "--on 2,1,1: 3 values stand here and 2 are due, U and P: the last, 1, is too many"),
    ("--price 10,14 --off 3,1", "--off 3,1: U is 3; 1 to 2 (I, the units) is its range"),
    ("--price 10,14 --on 1,3", "--on 1,3: P is 3; 1 to 2 (T, the periods) is its range"),
    ("--price 10,14 --off 0,1", "--off 0,1: U is 0; 1 to 2 (I, the units)"),
    ("--price 10,14 --off 1,0", "--off 1,0: P is 0; 1 to 2 (T, the periods)"),
    ("--price 10,14 --off 01,1", "--off 01,1: U reads 01: no leading zeros; write 1"),
    ("--price 10,14 --off -1,1", "--off -1,1: U reads -1: it cannot be below 0"),
    ("--price 10,14 --on +1,1", "--on +1,1: U reads +1: no plus; write 1"),
    ("--price 10,14 --on 1,", "--on 1,: P is empty"),
    ("--price 10,14 --on ,1", "--on ,1: U is empty"),
    ("--price 10,14 --on ,", "--on ,: U is empty"),
    ("--price 10,14 --on 1,999999999999999999999", "P is 999999999999999999999; 1 to 2 (T, the periods)"),
    ("--price 10,14 --on 18446744073709551617,1", "U is 18446744073709551617; 1 to 2 (I, the units)"),
    ("--price 10,14 --on 2,1 --off 1,1 --on 2,1", "--on 2,1 stands twice"),
    ("--off 2,1 --off 2,1 --price 10,14", "--off 2,1 stands twice"),
    ("--price 10,14 --off 2,1 --on 1,1 --on 2,1", "--off 2,1 and --on 2,1: a unit is off or on in a period"),
    // texts and leaves
    ("--tree", "--tree wants the number of a text, from 1, as --tree 2"),
    ("--tree 0", "--tree wants the number of a text"),
    ("--tree -1", "--tree wants the number of a text"),
    ("--tree +3", "--tree wants the number of a text"),
    ("--tree 3,4", "--tree wants the number of a text"),
    ("--tree 18446744073709551616", "--tree wants the number of a text"),
    ("--tree 3 --leaf 0", "--leaf wants the number of a price leaf of the tree, from 1, as --leaf 2"),
    ("--tree 3 --leaf x", "--leaf wants the number of a price leaf"),
    ("--tree 3 --leaf=", "--leaf wants the number of a price leaf"),
    ("--tree 3 --tree 3", "--tree stands twice"),
    ("--tree 3 --leaf 1 --leaf 1", "--leaf stands twice"),
    ("--tree 6", ": no text 6: it has 5 texts; docket log lists them"),
    ("--tree 18446744073709551615", ": no text 18446744073709551615: it has 5 texts"),
    ("--tree 1", ": text 1 is no accepted tree: it is a problem; docket log lists them"),
    ("--tree 2", ": text 2 is no accepted tree: it is a schedule; docket log lists them"),
    ("--tree 5", ": text 5 is no accepted tree: it was answered refused,33,3,0,0; docket log lists them"),
    ("--tree 3 --leaf 2", ": text 3 has no price leaf 2: it has 1 price leaf"),
    ("--tree 4 --leaf 5", ": text 4 has no price leaf 5: it has 4 price leaves"),
    ("--tree 4 --leaf 18446744073709551615", ": text 4 has no price leaf 18446744073709551615: it has 4 price leaves"),
    // other words
    ("J --price 10,14", "use: docket draft J "),
    ("--price 10,14 --since 2026-11-17", "no option --since here"),
    ("--price 10,14 --prices 10,14", "no option --prices here"),
    ("--price 10,14 --writer 0", "--writer wants a writer from 1 to 65,535"),
    ("--price 10,14 --json=1", "--json has no value"),
];

#[test]
fn every_mistake_is_named() {
    let desk = Desk::example(
        "draft-mistakes",
        &(tree(LEAVES) + "kind=tree\nwriter=6\nshort=2\nend=tree\n"),
    );
    for (words, phrase) in MISTAKES {
        for more in ["", " --json"] {
            let ran = desk.draft(&format!("{words}{more}"));
            // an option that wants a value takes the word behind it
            if more.is_empty() || !ran.trouble().contains("--json") {
                assert!(ran.trouble().contains(phrase), "{words}: {ran:?}");
            }
            assert!(ran.out.is_empty(), "{words}: {ran:?}");
        }
    }
}

#[test]
fn hostile_values_get_one_printable_line() {
    let desk = Desk::example("draft-hostile", "");
    let (long, many) = ("9".repeat(100_000), "1,".repeat(50_000));
    for value in [
        "\x1b[2J",
        "10\n14",
        "10,14\n",
        " ",
        "\t",
        "\"",
        "10,14 ",
        "\u{feff}10,14",
        "=",
        "10=14",
        &long,
        &many,
        "--",
        "-",
        "--json",
        "NaN",
        "inf",
    ] {
        for name in [
            "--price",
            "--reserve",
            "--off",
            "--on",
            "--tree",
            "--leaf",
            "--writer",
        ] {
            let joined = format!("{name}={value}");
            for words in [&[name, value][..], &[&joined]] {
                let price = ["--price", "10,14"];
                for words in [words.to_vec(), [words, &price].concat()] {
                    let ran = desk.draft_by(&words);
                    assert!(ran.trouble().len() < 500, "{}", ran.notes().len());
                    assert!(ran.out.is_empty());
                }
            }
        }
    }
}

#[test]
fn a_journal_without_a_problem_has_no_draft() {
    let tree = "kind=tree\nwriter=9\nprice=0,0\nreserve=0,0\nend=tree\n";
    for (name, input) in [("draft-empty", ""), ("draft-early", tree)] {
        let desk = Desk::of(name, input.as_bytes());
        let said = desk.draft("--price 10,14");
        let wanted =
            ": no problem is held: none that was lodged was accepted; docket log lists them";
        assert!(said.trouble().ends_with(wanted), "{said:?}");
        assert!(said.out.is_empty());
    }
    // a tree that came before its problem was refused, whatever it would get now
    let problem = common::journals::texts()[0].clone();
    let desk = Desk::of("draft-before", &[tree.as_bytes(), &problem].concat());
    let said = desk.draft("--tree 1");
    let wanted =
        "text 1 is no accepted tree: it was answered refused,42,0,0,0; docket log lists them";
    assert!(said.trouble().ends_with(wanted), "{said:?}");
    desk.draft("--price 10,14").sound(0);
}

#[test]
fn a_torn_end_is_no_hindrance() {
    let desk = Desk::example("draft-torn", "");
    let whole = desk.draft("--tree 3").sound(0).out;
    let ends = Scribe::of(&common::journals::texts()[..3]).ends();
    assert_eq!(ends.last(), Some(&desk.bytes.len()));
    // the answer to the tree is not there, and is found by judging
    for cut in ends[5]..desk.bytes.len() {
        put(&desk.path, &desk.bytes[..cut]);
        assert_eq!(
            on("draft", &desk.path, &["--tree", "3"]).sound(0).out,
            whole
        );
    }
    put(&desk.path, &desk.bytes[..ends[5] - 1]);
    let said = on("draft", &desk.path, &["--tree", "3"]);
    assert!(said.trouble().contains(": no text 3: it has 2 texts"));
}

#[test]
fn a_name_that_a_terminal_would_obey_is_quoted() {
    use std::os::unix::ffi::OsStrExt;
    let desk = Desk::example("draft-name", "");
    let name = desk
        .path
        .with_file_name(OsStr::from_bytes(b"\x1b[2J\n\xff"));
    fs::rename(&desk.path, &name).expect("another name");
    let word = |word: &str| OsStr::new(word).to_os_string();
    for tree in ["1", "9"] {
        let words = [
            word("draft"),
            name.clone().into(),
            word("--tree"),
            word(tree),
        ];
        assert!(run(&words, b"").trouble().contains("\\x1b[2J\\x0a\\xff: "));
    }
    assert!(Path::new(&name).exists());
}
