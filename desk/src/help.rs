//! What `--help` prints.

use crate::commands::{Command, COMMANDS};
use crate::journal::FORMAT;

/// An option, its value, and what it does.
type Row = (&'static str, &'static str, &'static str);

/// The options that commands have, with their values and with what they do.
const OPTIONS: [Row; 11] = [
    ("--json", "", "print JSON, an object to a line; a byte of a text or a name is the character of its number"),
    ("--wait", " S", "wait up to S seconds for a process that writes to the journal"),
    ("--price", " Q,..", "the multipliers of the price, one for each period, from 0 to 1,000,000,000"),
    ("--reserve", " S,..", "the multipliers of the reserve; all 0 where they are not given"),
    ("--off", " U,P", "fix unit U off in period P, both counted from 1; any number of times"),
    ("--on", " U,P", "fix unit U on in period P; any number of times"),
    ("--tree", " N", "in place of prices those of a price leaf of text N, an accepted tree, with the statuses that the splits above it fix"),
    ("--leaf", " K", "the Kth price leaf in the order of the tree's lines; the first where it is not given"),
    ("--writer", " W", "only texts whose second line names writer W"),
    ("--since", " T", "only texts lodged at T or later: 2026-11-17, or 2026-11-17T18:00:00Z"),
    ("--help", "", "print this"),
];

/// What an option does for one command that does something else for others.
const OTHERWISE: [(&str, Row); 1] = [(
    "draft",
    (
        "--writer",
        " W",
        "print the text of a schedule of writer W in place of the figures",
    ),
)];

/// The options that may stand any number of times.
const REPEATED: [&str; 2] = ["--off", "--on"];

/// The options of a command.
fn rows(command: &Command) -> impl Iterator<Item = Row> + '_ {
    let has = |row: &Row| row.0 == "--help" || command.options.contains(&row.0);
    OPTIONS.into_iter().filter(has).map(|row| {
        let other = OTHERWISE
            .iter()
            .find(|(name, other)| *name == command.name && other.0 == row.0);
        other.map_or(row, |(_, other)| *other)
    })
}

/// All commands in short.
pub fn overview() -> String {
    let mut text = String::from(
        "docket judges schedules of thermal units, and trees that bound their cost; a journal keeps what was lodged.\n\n",
    );
    for command in COMMANDS {
        text += &format!(
            "  docket {:<8} {:<9} {}\n",
            command.name, command.arguments, command.short
        );
    }
    text += "\nFILE is texts one after the other, each up to its end= line; - is standard input. J is a journal.\n\
             docket COMMAND --help says more of each, with an example; docket --version has the number of the rules.\n\
             Status: 0 all texts accepted, 1 some refused, or no draft, 2 trouble, which standard error names.\n\
             Example: docket check examples/example.txt\n";
    text
}

/// What a command is called with.
pub fn synopsis(command: &Command) -> String {
    let mut text = format!("docket {} {}", command.name, command.arguments);
    for (option, value, _) in rows(command).filter(|row| row.0 != "--help") {
        let more = if REPEATED.contains(&option) { ".." } else { "" };
        text += &format!(" [{option}{value}]{more}");
    }
    text
}

/// One command in full.
pub fn command(command: &Command) -> String {
    let mut text = format!("{}\n\n{}\n\n", synopsis(command), command.long);
    let widths = rows(command).map(|(option, value, _)| option.len() + value.len());
    let width = widths.max().unwrap_or(0).max(11);
    for (option, value, does) in rows(command) {
        let option = format!("{option}{value}");
        text += &format!("  {option:<width$} {does}\n");
    }
    text + &format!("\nExample: {}\n", command.example)
}

/// What `--version` prints.
pub fn version() -> String {
    format!(
        "docket {}, rules {}, journal format {FORMAT}\n",
        env!("CARGO_PKG_VERSION"),
        docket::rules()
    )
}
