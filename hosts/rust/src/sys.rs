//! The functions and numbers of the archive, as `hosts/c/docket.h` declares them; each function that is lent memory stands behind
//! one that is lent slices.

use crate::taken::Fixed;
use std::slice;

/// The bytes lent for the line of an answer.
pub const LINE_BYTES: usize = 128;

/// The numbers lent for an answer.
pub const VALUES: usize = 16;

/// The bytes lent for a report.
pub const REPORT_BYTES: usize = 256;

/// The numbers lent for the outputs of the held schedule: as many as the largest problem has statuses.
pub const OUTPUTS: usize = 1_536;

/// The numbers lent for what `short` takes.
pub const TAKEN: usize = 2;

/// The answer of a call that is lent too little.
pub const TOO_SMALL: usize = usize::MAX;

/// First of an answer's numbers: accepted and held.
pub const HELD: u64 = 1;

/// First of an answer's numbers: accepted, and what was held stays.
pub const PASSED: u64 = 2;

/// Second of an answer's numbers: a schedule's cost follows.
pub const A_COST: u64 = 1;

/// Second of an answer's numbers: a tree's bound follows.
pub const A_BOUND: u64 = 2;

/// Second of an answer's numbers: a tree's bound follows, without its minus.
pub const A_BOUND_BELOW_0: u64 = 3;

/// Second of an answer's numbers: a tree's bound is never.
pub const NEVER: u64 = 4;

/// The answer of `docket_units_taken`, `docket_cheapest_runs` and `docket_forced_statuses` that have written what they tell.
pub const TOLD: usize = 0;

/// The answer of the same calls of a docket that knows no problem.
pub const NO_PROBLEM: usize = 1;

/// The answer of the same calls to a question that does not fit the problem.
pub const UNFIT: usize = 2;

/// The answers of `docket_cheapest_runs` where a unit is stuck are this number and the unit's.
pub const STUCK: usize = 100;

// SAFETY: the archive defines these functions with these types. Those marked safe are lent nothing and ask for nothing.
unsafe extern "C" {
    pub safe fn docket_rules() -> usize;

    pub safe fn docket_numbers() -> usize;

    pub safe fn docket_rows() -> usize;

    fn docket_fresh(
        numbers: *mut u64,
        numbers_length: usize,
        rows: *mut u16,
        rows_length: usize,
    ) -> usize;

    fn docket_lodge(
        numbers: *mut u64,
        numbers_length: usize,
        rows: *mut u16,
        rows_length: usize,
        text: *const u8,
        text_length: usize,
        line: *mut u8,
        line_length: usize,
        values: *mut u64,
        values_length: usize,
    ) -> usize;

    fn docket_report(
        numbers: *const u64,
        numbers_length: usize,
        rows: *const u16,
        rows_length: usize,
        buffer: *mut u8,
        buffer_length: usize,
        at: usize,
    ) -> usize;

    fn docket_outputs(
        numbers: *const u64,
        numbers_length: usize,
        rows: *const u16,
        rows_length: usize,
        outputs: *mut u16,
        outputs_length: usize,
    ) -> usize;

    fn docket_units_taken(
        numbers: *const u64,
        numbers_length: usize,
        rows: *const u16,
        rows_length: usize,
        period: usize,
        most: usize,
        fixed: *const u8,
        fixed_length: usize,
        taken: *mut u64,
        taken_length: usize,
    ) -> usize;

    fn docket_cheapest_runs(
        numbers: *const u64,
        numbers_length: usize,
        rows: *const u16,
        rows_length: usize,
        q: *const u64,
        q_length: usize,
        s: *const u64,
        s_length: usize,
        fixed: *const u8,
        fixed_length: usize,
        runs: *mut u64,
        runs_length: usize,
        shortfalls: *mut u64,
        shortfalls_length: usize,
        value: *mut i64,
        value_length: usize,
    ) -> usize;

    fn docket_forced_statuses(
        numbers: *const u64,
        numbers_length: usize,
        rows: *const u16,
        rows_length: usize,
        q: *const u64,
        q_length: usize,
        s: *const u64,
        s_length: usize,
        fixed: *const u8,
        fixed_length: usize,
        values: *mut i64,
        values_length: usize,
        stuck: *mut u8,
        stuck_length: usize,
    ) -> usize;

    fn docket_listing(
        input: *const u8,
        input_length: usize,
        output: *mut u8,
        output_length: usize,
    ) -> usize;
}

// What every call below owes the archive: pointers that are not null and are aligned, each to as many numbers as its length says,
// which nobody else writes, or reads where the call writes. Slices are that. What is in them may be anything.

/// `docket_fresh` on slices.
pub fn fresh(numbers: &mut [u64], rows: &mut [u16]) -> usize {
    // SAFETY: two slices, borrowed apart.
    unsafe {
        docket_fresh(
            numbers.as_mut_ptr(),
            numbers.len(),
            rows.as_mut_ptr(),
            rows.len(),
        )
    }
}

/// `docket_lodge` on slices.
pub fn lodge(
    numbers: &mut [u64],
    rows: &mut [u16],
    text: &[u8],
    line: &mut [u8],
    values: &mut [u64],
) -> usize {
    // SAFETY: five slices, borrowed apart.
    unsafe {
        docket_lodge(
            numbers.as_mut_ptr(),
            numbers.len(),
            rows.as_mut_ptr(),
            rows.len(),
            text.as_ptr(),
            text.len(),
            line.as_mut_ptr(),
            line.len(),
            values.as_mut_ptr(),
            values.len(),
        )
    }
}

/// `docket_report` on slices, from the buffer's start on.
pub fn report(numbers: &[u64], rows: &[u16], buffer: &mut [u8]) -> usize {
    // SAFETY: two slices that are only read and one borrowed apart.
    unsafe {
        docket_report(
            numbers.as_ptr(),
            numbers.len(),
            rows.as_ptr(),
            rows.len(),
            buffer.as_mut_ptr(),
            buffer.len(),
            0,
        )
    }
}

/// `docket_outputs` on slices.
pub fn outputs(numbers: &[u64], rows: &[u16], outputs: &mut [u16]) -> usize {
    // SAFETY: two slices that are only read and one borrowed apart.
    unsafe {
        docket_outputs(
            numbers.as_ptr(),
            numbers.len(),
            rows.as_ptr(),
            rows.len(),
            outputs.as_mut_ptr(),
            outputs.len(),
        )
    }
}

/// `docket_units_taken` on slices.
pub fn units_taken(
    numbers: &[u64],
    rows: &[u16],
    period: usize,
    most: usize,
    fixed: &[u8],
    taken: &mut [u64],
) -> usize {
    // SAFETY: three slices that are only read and one borrowed apart.
    unsafe {
        docket_units_taken(
            numbers.as_ptr(),
            numbers.len(),
            rows.as_ptr(),
            rows.len(),
            period,
            most,
            fixed.as_ptr(),
            fixed.len(),
            taken.as_mut_ptr(),
            taken.len(),
        )
    }
}

/// What `docket_cheapest_runs` writes.
pub struct Drafted<'a> {
    pub runs: &'a mut [u64],
    pub shortfalls: &'a mut [u64],
    pub value: &'a mut [i64],
}

/// `docket_cheapest_runs` on slices.
pub fn cheapest_runs(
    numbers: &[u64],
    rows: &[u16],
    q: &[u64],
    s: &[u64],
    fixed: &[u8],
    drafted: Drafted,
) -> usize {
    let Drafted {
        runs,
        shortfalls,
        value,
    } = drafted;
    // SAFETY: five slices that are only read and three borrowed apart.
    unsafe {
        docket_cheapest_runs(
            numbers.as_ptr(),
            numbers.len(),
            rows.as_ptr(),
            rows.len(),
            q.as_ptr(),
            q.len(),
            s.as_ptr(),
            s.len(),
            fixed.as_ptr(),
            fixed.len(),
            runs.as_mut_ptr(),
            runs.len(),
            shortfalls.as_mut_ptr(),
            shortfalls.len(),
            value.as_mut_ptr(),
            value.len(),
        )
    }
}

/// `docket_forced_statuses` on slices.
pub fn forced_statuses(
    numbers: &[u64],
    rows: &[u16],
    q: &[u64],
    s: &[u64],
    fixed: &[u8],
    values: &mut [i64],
    stuck: &mut [u8],
) -> usize {
    // SAFETY: five slices that are only read and two borrowed apart.
    unsafe {
        docket_forced_statuses(
            numbers.as_ptr(),
            numbers.len(),
            rows.as_ptr(),
            rows.len(),
            q.as_ptr(),
            q.len(),
            s.as_ptr(),
            s.len(),
            fixed.as_ptr(),
            fixed.len(),
            values.as_mut_ptr(),
            values.len(),
            stuck.as_mut_ptr(),
            stuck.len(),
        )
    }
}

/// The bytes of statuses, each a byte.
pub fn bytes(fixed: &[Fixed]) -> &[u8] {
    // SAFETY: a `Fixed` is a byte by its representation, and every byte of it may be read.
    unsafe { slice::from_raw_parts(fixed.as_ptr().cast(), fixed.len()) }
}

/// `docket_listing` on slices.
pub fn listing(input: &[u8], output: &mut [u8]) -> usize {
    // SAFETY: a slice that is only read and one borrowed apart.
    unsafe {
        docket_listing(
            input.as_ptr(),
            input.len(),
            output.as_mut_ptr(),
            output.len(),
        )
    }
}
