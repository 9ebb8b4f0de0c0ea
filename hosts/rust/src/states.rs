//! The states kept in `tests/states`: the one of the present layout is a docket, every other one is none.

use crate::sys::{self, Drafted};
use std::fs;
use std::path::{Path, PathBuf};

/// The kept state of the present layout.
const PRESENT: &str = "layout-2.state";

/// A schedule of the problem that every kept state knows.
const SCHEDULE: &[u8] = b"kind=schedule\nwriter=7\nrun=60,80\nrun=0,20\nend=schedule\n";

const REPORT: &[u8] =
    b"kind=report\ncost=1980\ncostwriter=7\nbound=1980\nboundwriter=3\ngap=0\nend=report\n";

/// The answer of a call whose state holds no docket.
const NO_DOCKET: usize = usize::MAX - 1;

/// The numbers and the rows of a kept state, as far as there are so many, and zeros after them.
fn open(path: &Path) -> (Vec<u64>, Vec<u16>) {
    let (numbers, rows) = (sys::docket_numbers(), sys::docket_rows());
    let mut bytes = fs::read(path).unwrap_or_else(|e| panic!("{}: {e}", path.display()));
    bytes.resize(numbers * 8 + rows * 2, 0);
    let (first, second) = bytes.split_at(numbers * 8);
    let wide = first.chunks_exact(8).map(|n| n.try_into().expect("eight"));
    let narrow = second.chunks_exact(2).map(|n| n.try_into().expect("two"));
    (
        wide.map(u64::from_le_bytes).collect(),
        narrow.map(u16::from_le_bytes).collect(),
    )
}

/// What the call answers of a price leaf with prices 10 and 14, and writes over 7.
fn drafted(numbers: &[u64], rows: &[u16]) -> (usize, [u64; 4], [u64; 2], [i64; 1]) {
    let (mut runs, mut shortfalls, mut value) = ([7; 4], [7; 2], [7]);
    let answer = sys::cheapest_runs(
        numbers,
        rows,
        &[10, 14],
        &[0; 2],
        &[0; 4],
        Drafted {
            runs: &mut runs,
            shortfalls: &mut shortfalls,
            value: &mut value,
        },
    );
    (answer, runs, shortfalls, value)
}

/// What the call answers of forced statuses at the same leaf, and writes over 7.
fn forced(numbers: &[u64], rows: &[u16]) -> (usize, [i64; 8], [u8; 8]) {
    let (mut values, mut stuck) = ([7; 8], [7; 8]);
    let answer = sys::forced_statuses(
        numbers,
        rows,
        &[10, 14],
        &[0; 2],
        &[0; 4],
        &mut values,
        &mut stuck,
    );
    (answer, values, stuck)
}

/// Every kept state, and whether it is the one of the present layout.
fn kept() -> Vec<(PathBuf, bool)> {
    let folder = Path::new(env!("CARGO_MANIFEST_DIR")).join("../../tests/states");
    let entries = fs::read_dir(&folder).expect("tests/states");
    let paths = entries.map(|entry| entry.expect("an entry").path());
    paths
        .filter(|path| path.extension().is_some_and(|end| end == "state"))
        .map(|path| (path.clone(), path.ends_with(PRESENT)))
        .collect()
}

#[test]
fn the_present_one_is_a_docket() {
    let present: Vec<_> = kept().into_iter().filter(|(_, is)| *is).collect();
    assert_eq!(present.len(), 1, "{PRESENT}");
    let (mut numbers, mut rows) = open(&present[0].0);
    let (mut line, mut values) = ([0; sys::LINE_BYTES], [0; sys::VALUES]);
    let (mut buffer, mut outputs) = ([0; sys::REPORT_BYTES], [0; sys::OUTPUTS]);
    let length = sys::report(&numbers, &rows, &mut buffer);
    assert_eq!(buffer.get(..length), Some(REPORT));
    let count = sys::outputs(&numbers, &rows, &mut outputs);
    assert_eq!(outputs.get(..count), Some(&[60, 80, 0, 20][..]));
    let mut taken = [7; sys::TAKEN];
    let told = sys::units_taken(&numbers, &rows, 2, 0, &[0; 4], &mut taken);
    assert_eq!((told, taken), (sys::TOLD, [0, 2]));
    let draft = (sys::TOLD, [20, 80, 0, 0], [40, 20], [1880]);
    assert_eq!(drafted(&numbers, &rows), draft);
    let entries = (sys::TOLD, [5, -120, 5, -120, 0, 140, 0, 100], [0; 8]);
    assert_eq!(forced(&numbers, &rows), entries);
    let length = sys::lodge(&mut numbers, &mut rows, SCHEDULE, &mut line, &mut values);
    assert_eq!(line.get(..length), Some(&b"answer=passed,1980\n"[..]));
}

#[test]
fn every_other_one_is_none() {
    let others: Vec<_> = kept().into_iter().filter(|(_, is)| !*is).collect();
    assert!(!others.is_empty());
    for (path, _) in others {
        let (numbers, rows) = open(&path);
        let (mut after, mut rows_after) = (numbers.clone(), rows.clone());
        let (mut line, mut values) = ([7; sys::LINE_BYTES], [7; sys::VALUES]);
        let (mut buffer, mut outputs) = ([7; sys::REPORT_BYTES], [7; sys::OUTPUTS]);
        let lodged = sys::lodge(
            &mut after,
            &mut rows_after,
            SCHEDULE,
            &mut line,
            &mut values,
        );
        let told = sys::report(&numbers, &rows, &mut buffer);
        let copied = sys::outputs(&numbers, &rows, &mut outputs);
        let mut taken = [7; sys::TAKEN];
        let asked = sys::units_taken(&numbers, &rows, 2, 0, &[0; 4], &mut taken);
        let answers = [lodged, told, copied, asked];
        assert_eq!(answers, [NO_DOCKET; 4], "{}", path.display());
        assert_eq!(taken, [7; sys::TAKEN]);
        let unwritten = (NO_DOCKET, [7; 4], [7; 2], [7]);
        assert_eq!(drafted(&numbers, &rows), unwritten);
        assert_eq!(forced(&numbers, &rows), (NO_DOCKET, [7; 8], [7; 8]));
        assert_eq!((after, rows_after), (numbers, rows));
        assert_eq!((line, values), ([7; sys::LINE_BYTES], [7; sys::VALUES]));
        assert!(buffer.iter().all(|&byte| byte == 7) && outputs.iter().all(|&output| output == 7));
    }
}
