//! The commands.

mod answers;
mod draft;
mod holdings;
mod lodging;
mod log;
mod salvage;
mod sources;
mod verify;

use crate::help;
use crate::options::Options;
use crate::out::Out;
use crate::trouble::Trouble;
use std::ffi::{OsStr, OsString};
use std::io::{Read, Write};
use std::ops::RangeInclusive;
use std::path::Path;

/// A command: what it is called with, what it does, an example.
pub struct Command {
    pub name: &'static str,
    pub arguments: &'static str,
    pub short: &'static str,
    pub long: &'static str,
    pub options: &'static [&'static str],
    pub example: &'static str,
    /// How many words it takes, at least and at most.
    words: RangeInclusive<usize>,
    run: fn(&mut Call) -> Result<Status, Trouble>,
}

/// What a command is called with.
pub struct Call<'a> {
    pub options: Options,
    pub input: Option<Box<dyn Read>>,
    pub out: Out<'a>,
    pub notes: &'a mut dyn Write,
}

/// How a command ends that has no trouble.
#[derive(Clone, Copy, Debug, PartialEq, Eq)]
pub enum Status {
    /// All texts were accepted, or none was judged.
    Accepted = 0,
    /// Some text was refused, or a unit has no run for a draft.
    Refused = 1,
}

/// The status of trouble.
const TROUBLE: u8 = 2;

impl Call<'_> {
    /// One of the words.
    fn word(&self, k: usize) -> &OsStr {
        self.options
            .words
            .get(k)
            .map_or(OsStr::new(""), OsString::as_os_str)
    }

    /// The journal's path: the first word.
    fn journal(&self) -> &Path {
        Path::new(self.word(0))
    }

    /// Says something on standard error; that nobody hears it is no reason to stop.
    fn note(&mut self, words: &str) {
        let _ = self
            .notes
            .write_all(format!("docket: {words}\n").as_bytes());
    }
}

/// All commands, in the order in which the help has them.
pub const COMMANDS: [&Command; 10] = [
    &lodging::CHECK,
    &lodging::LODGE,
    &lodging::TRY,
    &holdings::REPORT,
    &holdings::SHOW,
    &draft::DRAFT,
    &log::LOG,
    &log::TEXT,
    &verify::VERIFY,
    &salvage::SALVAGE,
];

/// Runs the program: the words after its name, its input, its output, and where it says what went wrong. Its exit status.
pub fn run(
    words: &[OsString],
    input: Box<dyn Read>,
    output: &mut dyn Write,
    notes: &mut dyn Write,
) -> u8 {
    let mut call = Call {
        options: Options::default(),
        input: Some(input),
        out: Out::new(output),
        notes,
    };
    let done = obey(words, &mut call).and_then(|status| call.out.flush().map(|()| status));
    match done {
        Ok(status) => status as u8,
        Err(trouble) => {
            // what was printed before goes out first, if it can
            let _ = call.out.flush();
            call.note(&trouble.to_string());
            TROUBLE
        }
    }
}

fn obey(words: &[OsString], call: &mut Call) -> Result<Status, Trouble> {
    let Some(word) = words.first() else {
        return Err(Trouble::usage("no command"));
    };
    let name = word.to_str();
    let named = |name: Option<&str>| COMMANDS.iter().find(|command| Some(command.name) == name);
    match name {
        Some("--help" | "-h" | "help") => {
            return explain(words.get(1), call);
        }
        Some("--version") => {
            call.out.bytes(help::version().as_bytes())?;
            return Ok(Status::Accepted);
        }
        _ => {}
    }
    let Some(command) = named(name) else {
        return Err(Trouble::usage(unknown(word)));
    };
    let done = ask(command, &words[1..], call);
    done.map_err(|trouble| trouble.of_command(command.name))
}

/// Prints all commands in short, or the one that is named in full.
fn explain(asked: Option<&OsString>, call: &mut Call) -> Result<Status, Trouble> {
    let text = match asked {
        None => help::overview(),
        Some(word) => {
            let command = COMMANDS.iter().find(|command| word == command.name);
            help::command(command.ok_or_else(|| Trouble::usage(unknown(word)))?)
        }
    };
    call.out.bytes(text.as_bytes())?;
    Ok(Status::Accepted)
}

/// Runs a command with the words after its name.
fn ask(command: &Command, words: &[OsString], call: &mut Call) -> Result<Status, Trouble> {
    call.options = Options::of(words, command.options)?;
    if call.options.help {
        call.out.bytes(help::command(command).as_bytes())?;
        return Ok(Status::Accepted);
    }
    if !command.words.contains(&call.options.words.len()) {
        let use_it = format!("use: {}", help::synopsis(command));
        return Err(Trouble::usage(use_it));
    }
    (command.run)(call)
}

/// What is said of a first word that is no command.
fn unknown(word: &OsStr) -> String {
    use std::os::unix::ffi::OsStrExt;
    let name = crate::printed::shown(word.as_bytes());
    match Path::new(word).exists() {
        true => format!("no command {name}; to judge that file: docket check {name}"),
        false => format!("no command {name}"),
    }
}
