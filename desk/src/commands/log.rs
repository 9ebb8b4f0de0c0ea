//! Commands that read texts out of a journal, without judging them: `log`, `text`.

use super::{Call, Command, Status};
use crate::clock::utc;
use crate::journal::{read, Step};
use crate::options::from_1;
use crate::printed::{json, object, or_null, shown};
use crate::trouble::Trouble;
use crate::words::{kind, writer};
use std::os::unix::ffi::OsStrExt;

pub const LOG: Command = Command {
    name: "log",
    arguments: "J",
    short: "a line for each text: number, time, kind, writer, bytes, answer",
    long: "Prints a line for each text of the journal: its number, the time (UTC), its kind, its writer, its bytes, and the\n\
           answer that it got. Kind is the word on line 1, or ?; writer is the number on line 2, or -; an answer that was\n\
           not recorded is -. Nothing is judged: a journal of other rules is read too.",
    options: &["--json", "--writer", "--since"],
    example: "docket log monday.docket --writer 7 --since 2026-11-01",
    words: 1..=1,
    run: log,
};

pub const TEXT: Command = Command {
    name: "text",
    arguments: "J N",
    short: "the bytes of text N, exactly",
    long: "Prints the bytes of text N of the journal, exactly as they were lodged. Nothing is judged: a journal of other\n\
           rules is read too.",
    options: &["--json"],
    example: "docket text monday.docket 3 > text3.txt",
    words: 2..=2,
    run: text,
};

/// A text of which the answer is read next.
struct Logged {
    number: u64,
    seconds: u64,
    kind: Option<String>,
    writer: Option<u16>,
    bytes: usize,
}

impl Logged {
    fn line(&self, answer: Option<&str>, as_json: bool) -> String {
        let Logged { number, bytes, .. } = self;
        let time = utc(self.seconds);
        let writer = self.writer.map(|writer| writer.to_string());
        if !as_json {
            let kind = self.kind.as_deref().unwrap_or("?");
            let (writer, answer) = (writer.unwrap_or("-".into()), answer.unwrap_or("-"));
            return format!("{number} {time} {kind} {writer} {bytes} {answer}");
        }
        let word = |word: Option<&str>| or_null(word.map(|word| json(word.as_bytes())));
        object(&[
            ("text", number.to_string()),
            ("time", json(time.as_bytes())),
            ("kind", word(self.kind.as_deref())),
            ("writer", or_null(self.writer)),
            ("bytes", bytes.to_string()),
            ("answer", word(answer)),
        ])
    }
}

fn log(call: &mut Call) -> Result<Status, Trouble> {
    let mut reading = read(call.journal())?;
    let mut last: Option<Logged> = None;
    loop {
        let step = reading.step();
        let (answer, end) = match step {
            Ok(Step::Text { seconds }) => {
                let text = reading.records.text();
                last = Some(Logged {
                    number: reading.records.texts(),
                    seconds,
                    kind: kind(text).map(str::to_string),
                    writer: writer(text),
                    bytes: text.len(),
                });
                continue;
            }
            Ok(Step::Answer(answer)) => (Some(answer), None),
            Ok(Step::End) => (None, Some(Ok(0))),
            Ok(Step::Torn(bytes)) => (None, Some(Ok(bytes))),
            Err(trouble) => (None, Some(Err(trouble))),
        };
        if let Some(logged) = last.take().filter(|logged| is_wanted(call, logged)) {
            let line = logged.line(answer.as_deref(), call.options.json);
            call.out.line(&line)?;
        }
        if let Some(torn) = end {
            return torn.and_then(|torn| self::end(call, torn));
        }
    }
}

/// Says that a journal's end is torn, where it is.
pub fn end(call: &mut Call, torn: u64) -> Result<Status, Trouble> {
    if torn > 0 {
        call.out.flush()?;
        let name = shown(call.word(0).as_bytes());
        call.note(&format!(
            "{name}: the last {torn} bytes are of a record that is being written or was not written to its end"
        ));
    }
    Ok(Status::Accepted)
}

fn is_wanted(call: &Call, logged: &Logged) -> bool {
    let options = &call.options;
    (options.writer.is_none() || options.writer == logged.writer)
        && options.since.is_none_or(|since| logged.seconds >= since)
}

fn text(call: &mut Call) -> Result<Status, Trouble> {
    let word = call.word(1).to_str().unwrap_or_default();
    let wanted = from_1(word).ok_or_else(|| Trouble::usage("N is the number of a text, from 1"))?;
    let mut reading = read(call.journal())?;
    loop {
        match reading.step()? {
            Step::Text { .. } if reading.records.texts() == wanted => break,
            Step::Text { .. } | Step::Answer(_) => {}
            Step::End | Step::Torn(_) => {
                let texts = reading.records.texts();
                return Err(Trouble::NoText(
                    call.word(0).as_bytes().to_vec(),
                    wanted,
                    texts,
                ));
            }
        }
    }
    let text = reading.records.text();
    match call.options.json {
        true => {
            let bytes = text.len().to_string();
            let fields = [
                ("text", wanted.to_string()),
                ("bytes", bytes),
                ("content", json(text)),
            ];
            call.out.line(&object(&fields))?;
        }
        false => call.out.bytes(text)?,
    }
    Ok(Status::Accepted)
}
