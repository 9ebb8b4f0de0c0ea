//! `draft`: the cheapest run of each unit at a price leaf, as a first draft of a schedule.

use super::{Call, Command, Status};
use crate::asked::Origin;
use crate::bench::{commas, runs, said, schedule, Bench};
use crate::journal::{replayed, replayed_with, Answered};
use crate::leaves::PriceLeaf;
use crate::printed::{json, list, object, or_null, shown};
use crate::progress::Progress;
use crate::trouble::Trouble;
use docket::{CheapestRuns, Draft, Figures, Fixed, Verdict};
use std::os::unix::ffi::OsStrExt;

pub const DRAFT: Command = Command {
    name: "draft",
    arguments: "J",
    short: "a first draft of a schedule: the cheapest runs at given prices",
    long: "Prints, for prices by period, the value of a tree's price leaf with them, for each unit the run that is cheapest at\n\
           them, and for each period how far the runs together fall short of the demand. The prices are given by --price,\n\
           or they are those of a price leaf of an accepted tree in the journal, which --tree names: one of the two is\n\
           due. A price is in the problem's money for a unit of output. With --writer a whole schedule's text is\n\
           printed, to be edited, tried and lodged; standard error has the value and the shortfalls.\n\
           A draft need not meet the rules. It keeps the limits of outputs and the least times on and off, (4) to (10), and\n\
           the fixed statuses; it may fall short of demand and spare, (2) and (3), and break the ramps, (11) and (12).\n\
           Where the fixed statuses leave a unit no run there is no draft: the unit is named, and the status is 1.\n\
           The journal is read, and never written to.",
    options: &[
        "--price", "--reserve", "--off", "--on", "--tree", "--leaf", "--writer", "--json",
    ],
    example: "docket draft monday.docket --tree 4 --leaf 2 --writer 7 > draft.txt",
    words: 1..=1,
    run: draft,
};

fn draft(call: &mut Call) -> Result<Status, Trouble> {
    let origin = call.options.asked.origin()?;
    let (bench, leaf) = match origin {
        Origin::Words => at_words(call)?,
        Origin::Leaf { tree, leaf } => at_leaf(call, tree, leaf)?,
    };
    let found = match bench.cheapest_runs(&leaf) {
        CheapestRuns::Found(draft) => Ok(draft),
        CheapestRuns::Stuck { unit } => Err(unit),
        CheapestRuns::NoProblem => return Err(Trouble::NoProblem(name(call))),
        _ => return Err(Trouble::usage("what is given does not fit the problem")),
    };
    match &found {
        _ if call.options.json => {
            let mut fields = outcome(&found, call.options.writer);
            fields.extend(given(&leaf, origin));
            call.out.line(&object(&fields))?;
        }
        Ok(draft) => print(call, draft)?,
        Err(unit) => say_stuck(call, *unit)?,
    }
    Ok(match found {
        Ok(_) => Status::Accepted,
        Err(_) => Status::Refused,
    })
}

/// The journal's name.
fn name(call: &Call) -> Vec<u8> {
    call.word(0).as_bytes().to_vec()
}

fn progress(call: &Call) -> Progress {
    Progress::new(shown(call.word(0).as_bytes()))
}

/// The bench, and the leaf that the command line gives.
fn at_words(call: &Call) -> Result<(Bench, PriceLeaf), Trouble> {
    let bench = replayed(call.journal(), &mut progress(call))?;
    let plant = bench
        .plant()
        .ok_or_else(|| Trouble::NoProblem(name(call)))?;
    let leaf = call.options.asked.leaf(plant)?;
    Ok((bench, leaf))
}

/// The bench, and a price leaf of an accepted tree.
fn at_leaf(call: &Call, tree: u64, nth: u64) -> Result<(Bench, PriceLeaf), Trouble> {
    let (bench, found) = replayed_with(call.journal(), tree, &mut progress(call))?;
    if let Some(what) = other_than_tree(&found) {
        return Err(Trouble::NoTree(name(call), tree, what));
    }
    let plant = bench
        .plant()
        .ok_or_else(|| Trouble::NoProblem(name(call)))?;
    let leaf = PriceLeaf::of_tree(&found.text, nth, plant.units);
    let mut leaf = leaf.map_err(|leaves| Trouble::NoLeaf {
        name: name(call),
        text: tree,
        leaf: nth,
        leaves,
    })?;
    call.options.asked.fix(&mut leaf, plant)?;
    Ok((bench, leaf))
}

/// What a text is that is no accepted tree.
fn other_than_tree(found: &Answered) -> Option<String> {
    match found.answer.verdict() {
        Verdict::Held(figures) | Verdict::Passed(figures) => match figures {
            Figures::Tree { .. } => None,
            Figures::Schedule { .. } => Some("it is a schedule".into()),
            _ => Some("it is a problem".into()),
        },
        _ => Some(format!("it was answered {}", said(&found.answer))),
    }
}

/// Prints a draft: its figures, or, for a writer, the text of a schedule, and then what it comes to as a note.
fn print(call: &mut Call, draft: &Draft) -> Result<(), Trouble> {
    let (value, short) = (draft.value, commas(&draft.shortfalls));
    let runs = runs(draft.runs.iter());
    let Some(writer) = call.options.writer else {
        let lines = format!("value={value}\n{runs}short={short}\n");
        return call.out.bytes(lines.as_bytes());
    };
    call.out.bytes(schedule(writer, &runs).as_bytes())?;
    call.out.flush()?;
    call.note(&format!(
        "value={value} short={short}; docket try says whether the draft meets the rules"
    ));
    Ok(())
}

/// Says that a unit has no run; where a schedule's text was asked for, standard output has nothing.
fn say_stuck(call: &mut Call, unit: usize) -> Result<(), Trouble> {
    let why = format!(
        "no run of unit {unit} keeps its least times on and off, (5) to (10), and the fixed statuses"
    );
    if call.options.writer.is_some() {
        call.note(&format!("stuck={unit}: {why}"));
        return Ok(());
    }
    call.out.line(&format!("stuck={unit}"))?;
    call.out.line(&format!("    {why}"))
}

/// A field of an object.
type Field = (&'static str, String);

/// What was found: a draft, or else the unit that has no run.
fn outcome(found: &Result<Draft, usize>, writer: Option<u16>) -> Vec<Field> {
    let draft = found.as_ref().ok();
    let text = |(draft, writer): (&Draft, u16)| schedule(writer, &runs(draft.runs.iter()));
    let text = draft.zip(writer).map(text);
    vec![
        ("value", or_null(draft.map(|draft| draft.value))),
        (
            "runs",
            or_null(draft.map(|draft| list(draft.runs.iter().map(list)))),
        ),
        ("short", or_null(draft.map(|draft| list(&draft.shortfalls)))),
        ("stuck", or_null(found.as_ref().err())),
        ("schedule", or_null(text.map(|text| json(text.as_bytes())))),
    ]
}

/// What it was found at: the leaf, and where that comes from.
fn given(leaf: &PriceLeaf, origin: Origin) -> Vec<Field> {
    let places = |status| {
        let places = leaf.places(status).into_iter();
        list(places.map(|(unit, period)| list([unit, period])))
    };
    let (tree, nth) = match origin {
        Origin::Words => (None, None),
        Origin::Leaf { tree, leaf } => (Some(tree), Some(leaf)),
    };
    vec![
        ("prices", list(&leaf.prices)),
        ("reserves", list(&leaf.reserves)),
        ("off", places(Fixed::Off)),
        ("on", places(Fixed::On)),
        ("tree", or_null(tree)),
        ("leaf", or_null(nth)),
    ]
}
