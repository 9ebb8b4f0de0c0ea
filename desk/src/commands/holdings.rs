//! Commands that tell what a journal's docket holds: `report`, `show`.

use super::answers;
use super::{Call, Command, Status};
use crate::bench::Bench;
use crate::journal::replayed;
use crate::printed::{json, shown};
use crate::progress::Progress;
use crate::trouble::Trouble;
use std::os::unix::ffi::OsStrExt;

pub const REPORT: Command = Command {
    name: "report",
    arguments: "J",
    short: "the held cost and bound, and the gap",
    long: "Prints the report of the docket: cost and bound, who wrote them, the gap, and the gap in per cent of the cost.",
    options: &["--json"],
    example: "docket report monday.docket",
    words: 1..=1,
    run: report,
};

pub const SHOW: Command = Command {
    name: "show",
    arguments: "J",
    short: "the held schedule, as a text",
    long: "Prints the held schedule as a text that can be lodged again, with its writer.",
    options: &["--json"],
    example: "docket show monday.docket > best.txt",
    words: 1..=1,
    run: show,
};

fn bench(call: &Call) -> Result<Bench, Trouble> {
    let path = call.journal();
    replayed(path, &mut Progress::new(shown(path.as_os_str().as_bytes())))
}

fn report(call: &mut Call) -> Result<Status, Trouble> {
    let bench = bench(call)?;
    answers::report(&bench, call.options.json, &mut call.out)?;
    Ok(Status::Accepted)
}

fn show(call: &mut Call) -> Result<Status, Trouble> {
    let Some(text) = bench(call)?.schedule() else {
        return Err(Trouble::NoSchedule(call.word(0).as_bytes().to_vec()));
    };
    match call.options.json {
        true => call
            .out
            .line(&format!("{{\"schedule\":{}}}", json(text.as_bytes())))?,
        false => call.out.bytes(text.as_bytes())?,
    }
    Ok(Status::Accepted)
}
