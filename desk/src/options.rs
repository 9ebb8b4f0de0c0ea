//! The words of a command line.

use crate::asked::Asked;
use crate::clock;
use crate::printed::shown;
use crate::trouble::Trouble;
use std::ffi::{OsStr, OsString};
use std::os::unix::ffi::OsStrExt;
use std::time::Duration;

/// What a command line asks for.
#[derive(Debug, Default)]
pub struct Options {
    /// The words that are no options.
    pub words: Vec<OsString>,
    /// `--help`
    pub help: bool,
    /// `--json`
    pub json: bool,
    /// `--wait S`
    pub wait: Duration,
    /// `--writer W`
    pub writer: Option<u16>,
    /// `--since T`
    pub since: Option<u64>,
    /// Those of a draft.
    pub asked: Asked,
}

impl Options {
    /// What the words ask for, if only these options are among them.
    pub fn of(words: &[OsString], allowed: &[&str]) -> Result<Options, Trouble> {
        let mut options = Options::default();
        let mut rest = words.iter();
        let mut open = true;
        while let Some(word) = rest.next() {
            let bytes = word.as_bytes();
            if open && bytes.starts_with(b"-") && word.to_str().is_none() {
                return Err(Trouble::usage(format!("no option {} here", shown(bytes))));
            }
            let text = word.to_str().unwrap_or_default();
            match text {
                "--" if open => open = false,
                "--help" | "-h" if open => options.help = true,
                _ if open && text.starts_with('-') && text != "-" => {
                    let (name, value) = match text.split_once('=') {
                        Some((name, value)) => (name, Some(OsString::from(value))),
                        None => (text, None),
                    };
                    if !allowed.contains(&name) {
                        let name = shown(name.as_bytes());
                        let why =
                            format!("no option {name} here; before a file of that name write --");
                        return Err(Trouble::usage(why));
                    }
                    options.take(name, value, &mut rest)?;
                }
                _ => options.words.push(word.clone()),
            }
        }
        Ok(options)
    }

    /// Takes an option, with its value where it has one.
    fn take<'a>(
        &mut self,
        name: &str,
        value: Option<OsString>,
        rest: &mut impl Iterator<Item = &'a OsString>,
    ) -> Result<(), Trouble> {
        if name == "--json" {
            self.json = true;
            return match value {
                None => Ok(()),
                Some(_) => Err(Trouble::usage("--json has no value")),
            };
        }
        let value = value.or_else(|| rest.next().cloned());
        let value = value.as_deref().and_then(OsStr::to_str).unwrap_or_default();
        if let Some(taken) = self.asked.take(name, value) {
            return taken;
        }
        let (taken, due) = match name {
            "--wait" => (self.take_wait(value), "a number of seconds, as --wait 10"),
            "--writer" => (
                self.take_writer(value),
                "a writer from 1 to 65,535, as --writer 7",
            ),
            "--since" => (
                self.take_since(value),
                "a day or a time in UTC, as --since 2026-11-17 or --since 2026-11-17T18:00:00Z",
            ),
            _ => (None, "nothing that is known"),
        };
        taken.ok_or_else(|| Trouble::usage(format!("{name} wants {due}")))
    }

    fn take_wait(&mut self, value: &str) -> Option<()> {
        let seconds: f64 = value.parse().ok()?;
        self.wait = Duration::try_from_secs_f64(seconds).ok()?;
        Some(())
    }

    fn take_writer(&mut self, value: &str) -> Option<()> {
        self.writer = Some(value.parse().ok().filter(|&writer| writer > 0)?);
        Some(())
    }

    fn take_since(&mut self, value: &str) -> Option<()> {
        self.since = Some(clock::seconds(value)?);
        Some(())
    }
}

/// A number from 1 on, in decimal.
pub fn from_1(word: &str) -> Option<u64> {
    let digits = word.bytes().all(|byte| byte.is_ascii_digit());
    let number = word.parse().ok();
    number.filter(|&number| digits && number > 0)
}
