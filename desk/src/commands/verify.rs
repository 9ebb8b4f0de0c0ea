//! `verify`: a journal read from its first byte to its last, without judging.

use super::{log, Call, Command, Status};
use crate::clock::utc;
use crate::journal::{read, Reading, Step};
use crate::printed::{count, json, object, or_null, shown};
use crate::trouble::Trouble;
use std::io::Read;
use std::os::unix::ffi::OsStrExt;

pub const VERIFY: Command = Command {
    name: "verify",
    arguments: "J [CHECK]",
    short: "read the whole journal: is anything damaged?",
    long: "Reads the whole journal and tests every sum and check: how many texts it has, when the first and the last were\n\
           lodged, whether anything is damaged and where, and its last check. With CHECK, a check that was noted down\n\
           before, also whether everything up to there is as it was then, whatever was lodged since.\n\
           Nothing is judged: a journal of other rules is read too.",
    options: &["--json"],
    example: "docket verify monday.docket",
    words: 1..=2,
    run: verify,
};

/// The sound part of a journal.
#[derive(Default)]
pub struct Sound {
    first: Option<u64>,
    last: Option<u64>,
    /// The text with which, or with whose answer, the check comes that was looked for.
    noted: Option<u64>,
    /// The bytes of a torn end.
    pub torn: u64,
    /// Why it ends before the journal does.
    pub trouble: Option<Trouble>,
}

impl Sound {
    /// Reads a journal to its end, or to what is damaged, and looks for a check.
    pub fn of(reading: &mut Reading<impl Read>, check: Option<&str>) -> Sound {
        let mut sound = Sound::default();
        loop {
            if check.is_some_and(|check| reading.records.check().to_string() == check) {
                sound.noted = Some(reading.records.texts());
            }
            match reading.step() {
                Ok(Step::Text { seconds }) => {
                    sound.first = sound.first.or(Some(seconds));
                    sound.last = Some(seconds);
                }
                Ok(Step::Answer(_)) => {}
                Ok(Step::End) => return sound,
                Ok(Step::Torn(bytes)) => {
                    sound.torn = bytes;
                    return sound;
                }
                Err(trouble) => {
                    sound.trouble = Some(trouble);
                    return sound;
                }
            }
        }
    }

    /// What is damaged, as JSON: from which byte on, and why.
    pub fn damage(&self, at: u64) -> String {
        let why = |trouble: &Trouble| match trouble {
            Trouble::Damaged { why, .. } => json(why.as_bytes()),
            other => json(other.to_string().as_bytes()),
        };
        or_null(
            self.trouble
                .as_ref()
                .map(|trouble| object(&[("at", at.to_string()), ("why", why(trouble))])),
        )
    }
}

fn verify(call: &mut Call) -> Result<Status, Trouble> {
    let check = noted(call)?;
    let mut reading = read(call.journal())?;
    let sound = Sound::of(&mut reading, check.as_deref());
    match call.options.json {
        true => {
            let journal = facts(call.word(0).as_bytes(), &reading, &sound);
            call.out.line(&object(&[("journal", object(&journal))]))?;
        }
        false => print(call, &reading, &sound)?,
    }
    let missing = check.is_some() && sound.noted.is_none();
    match sound.trouble {
        Some(trouble) => Err(trouble),
        None if missing => Err(Trouble::NoCheck(call.word(0).as_bytes().to_vec())),
        None => log::end(call, sound.torn),
    }
}

/// The check that is looked for, if one is given.
fn noted(call: &Call) -> Result<Option<String>, Trouble> {
    let Some(word) = call.options.words.get(1) else {
        return Ok(None);
    };
    let check = word.to_str().unwrap_or_default().to_ascii_lowercase();
    match check.len() == 64 && check.bytes().all(|byte| byte.is_ascii_hexdigit()) {
        true => Ok(Some(check)),
        false => Err(Trouble::usage(
            "CHECK is the 64 digits that lodge and verify print",
        )),
    }
}

fn facts(name: &[u8], reading: &Reading<impl Read>, sound: &Sound) -> Vec<(&'static str, String)> {
    let records = &reading.records;
    let time = |time: Option<u64>| or_null(time.map(|time| json(utc(time).as_bytes())));
    let answers = records.texts() - u64::from(records.answer_due());
    vec![
        ("name", json(name)),
        ("format", records.opening().format.to_string()),
        ("rules", records.opening().rules.to_string()),
        ("texts", records.texts().to_string()),
        ("answers", answers.to_string()),
        ("bytes", records.at().to_string()),
        ("first", time(sound.first)),
        ("last", time(sound.last)),
        ("torn", sound.torn.to_string()),
        ("damaged", sound.damage(records.at())),
        ("noted", or_null(sound.noted)),
        ("check", json(records.check().to_string().as_bytes())),
    ]
}

fn print(call: &mut Call, reading: &Reading<impl Read>, sound: &Sound) -> Result<(), Trouble> {
    let records = &reading.records;
    let name = shown(call.word(0).as_bytes());
    let (texts, opening) = (count(records.texts(), "text"), records.opening());
    let (format, rules) = (opening.format, opening.rules);
    let damaged = sound.trouble.is_some();
    let before = if damaged { " before the damage" } else { "" };
    let bytes = records.at();
    call.out.line(&format!(
        "{name}: {texts} in {bytes} bytes{before}; format {format}, rules {rules}"
    ))?;
    for (word, time) in [("first", sound.first), ("last", sound.last)] {
        call.out
            .line(&format!("{word} {}", time.map_or("none".into(), utc)))?;
    }
    if let Some(text) = sound.noted {
        let all = records.texts();
        call.out.line(&format!("the check that was noted is that of text {text} of {all}: up to there everything is as it was"))?;
    }
    if records.answer_due() {
        call.out
            .line("the answer to the last text is not recorded: the next lodging does it")?;
    }
    if !damaged {
        call.out.line("nothing is damaged")?;
    }
    call.out.line(&format!("check {}", records.check()))
}
