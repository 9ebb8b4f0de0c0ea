//! Answers and reports as they are printed.

use crate::bench::{gap_share, hundredths, said, Bench};
use crate::out::Out;
use crate::pieces::Piece;
use crate::printed::{json, object, or_null, quoted, shown};
use crate::trouble::Trouble;
use crate::words::{another, begins, kind, writer, Reason};
use docket::{Answer, Bound, Figures, Report, Verdict};

/// A text that was judged.
pub struct Judged<'a> {
    /// The name of its input.
    pub name: &'a [u8],
    pub piece: &'a Piece,
    /// Its number in the journal.
    pub number: Option<u64>,
    pub answer: &'a Answer,
    pub reason: Option<Reason>,
}

impl Judged<'_> {
    fn text(&self) -> &[u8] {
        self.piece.text.as_deref().unwrap_or_default()
    }

    /// The line of the input that the answer is about.
    fn line(&self) -> u64 {
        let within = self.reason.as_ref().map_or(1, |reason| reason.line.max(1));
        self.piece.line + within - 1
    }

    /// The line of the text that shows why it was refused.
    fn quote(&self) -> Option<&[u8]> {
        let line = self.reason.as_ref()?.line.checked_sub(1)?;
        self.text().split(|&byte| byte == b'\n').nth(line as usize)
    }

    /// The line of the input on which another text begins that was taken for a part of this one.
    fn another(&self) -> Option<u64> {
        self.reason.as_ref()?;
        Some(self.piece.line + another(self.text())? - 1)
    }

    /// Prints the answer with its place, and under it why the text was refused, where it was.
    pub fn print(&self, out: &mut Out, numbered: bool) -> Result<(), Trouble> {
        let number = match (numbered, self.number) {
            (false, _) => String::new(),
            (true, None) => "- ".into(),
            (true, Some(number)) => format!("{number} "),
        };
        let place = format!("{}:{}", shown(self.name), self.line());
        out.line(&format!("{number}{place}: {}", self.answer))?;
        let Some(reason) = &self.reason else {
            return Ok(());
        };
        out.line(&format!("    {}", reason.words))?;
        if let Some(line) = self.quote() {
            let (line, mark) = quoted(line, reason.mark.clone());
            for shown in [Some(line), mark].into_iter().flatten() {
                out.line(&format!("    {shown}"))?;
            }
        }
        match self.another() {
            Some(line) => {
                let why = match begins(self.text()) {
                    true => "the line end=.. before it is missing or not as it should be",
                    false => "the lines before it begin no text",
                };
                out.line(&format!(
                    "    line {line} begins another text, which was taken for a part of this one: {why}"
                ))
            }
            None => Ok(()),
        }
    }

    /// Prints the same as an object of JSON.
    pub fn print_json(&self, out: &mut Out) -> Result<(), Trouble> {
        let text = self.text();
        let reason = self.reason.as_ref();
        let mark = reason.and_then(|reason| reason.mark.clone());
        out.line(&object(&[
            ("file", json(self.name)),
            ("line", self.line().to_string()),
            ("text", or_null(self.number)),
            (
                "kind",
                or_null(kind(text).map(|kind| json(kind.as_bytes()))),
            ),
            ("writer", or_null(writer(text))),
            ("bytes", or_null(self.piece.text.as_ref().map(Vec::len))),
            ("answer", json(said(self.answer).as_bytes())),
            ("refused", refused(self.answer.verdict())),
            ("figures", figures(self.answer.verdict())),
            (
                "reason",
                or_null(reason.map(|reason| json(reason.words.as_bytes()))),
            ),
            ("quote", or_null(self.quote().map(json))),
            (
                "mark",
                or_null(mark.map(|mark| format!("[{},{}]", mark.start, mark.end))),
            ),
            ("another", or_null(self.another())),
        ]))
    }
}

/// Why and where a text was refused, as an object of JSON.
fn refused(verdict: Verdict) -> String {
    let Verdict::Refused(refusal) = verdict else {
        return "null".into();
    };
    object(&[
        ("number", refusal.number.to_string()),
        ("line", refusal.line.to_string()),
        ("unit", refusal.unit.to_string()),
        ("period", refusal.period.to_string()),
    ])
}

/// The figures of an accepted text, as an object of JSON.
fn figures(verdict: Verdict) -> String {
    let (held, figures) = match verdict {
        Verdict::Held(figures) => ("true", figures),
        Verdict::Passed(figures) => ("false", figures),
        _ => return "null".into(),
    };
    let mut fields = vec![("held", held.to_string())];
    match figures {
        Figures::Schedule { cost, .. } => fields.push(("cost", cost.to_string())),
        Figures::Tree {
            bound,
            splits,
            leaves,
            ..
        } => fields.extend([
            ("bound", bound_json(bound)),
            ("splits", splits.to_string()),
            ("leaves", leaves.to_string()),
        ]),
        _ => {}
    }
    object(&fields)
}

fn bound_json(bound: Bound) -> String {
    match bound {
        Bound::Never => "\"never\"".into(),
        Bound::Number(bound) => bound.to_string(),
    }
}

/// Prints the report, and the gap in per cent of the cost.
pub fn report(bench: &Bench, as_json: bool, out: &mut Out) -> Result<(), Trouble> {
    let report = bench.report();
    if as_json {
        return out.line(&object(&[("report", report_json(&report))]));
    }
    out.bytes(report.text().as_bytes())?;
    match gap_share(&report) {
        Some(share) => out.line(&format!(
            "The gap is {} % of the cost, rounded up.",
            hundredths(share)
        )),
        None => Ok(()),
    }
}

fn report_json(report: &Report) -> String {
    object(&[
        ("cost", or_null(report.cost())),
        ("costwriter", or_null(report.cost_writer())),
        ("bound", or_null(report.bound().map(bound_json))),
        ("boundwriter", or_null(report.bound_writer())),
        ("gap", or_null(report.gap())),
        ("gappercent", or_null(gap_share(report).map(hundredths))),
    ])
}
