//! What holds of every job between a mild and a harsh one, as request 6/14 has it: the refusals and the 14 numbers.

use super::checks::check;
use super::heights::stability;
use super::job::{self, Job};
use super::order;
use super::refusal::{NONE, Refusal, refuse};
use super::sheet::{self, Sheet};

/// What is said of a check.
pub const PASSES_THROUGHOUT: u32 = 1;
pub const FAILS_THROUGHOUT: u32 = 2;
pub const UNDECIDED: u32 = 3;

/// The sheet is examined first, then the jobs.
pub fn answer(sheet: &[u8], mild: &Job, harsh: &Job) -> Result<[u32; 14], Refusal> {
    let sheet = sheet::read(sheet)?;
    accept(mild, harsh)?;
    Ok(told(mild, harsh, &sheet))
}

/// The mild job by 3 to 5, then the harsh, then the order of the two.
pub fn accept(mild: &Job, harsh: &Job) -> Result<(), Refusal> {
    job::accept(mild)?;
    job::accept(harsh).map_err(of_harsh)?;
    try_order(mild, harsh)
}

/// The harsh job's places count from 26 to 50.
fn of_harsh(refusal: Refusal) -> Refusal {
    Refusal { place: refusal.place + 25, ..refusal }
}

/// 12 with the lowest field that is unlike or runs the wrong way.
fn try_order(mild: &Job, harsh: &Job) -> Result<(), Refusal> {
    match order::fault(mild, harsh) {
        Some(field) => refuse(12, field as u64),
        None => Ok(()),
    }
}

/// One number for each of the twelve checks; then the mild and the harsh end's stability height.
fn told(mild: &Job, harsh: &Job, sheet: &Sheet) -> [u32; 14] {
    let mut numbers = [0; 14];
    for number in 1..=12 {
        numbers[number - 1] = outcome(fails(number, mild, sheet), fails(number, harsh, sheet));
    }
    numbers[12] = height(stability(mild, sheet));
    numbers[13] = height(stability(harsh, sheet));
    numbers
}

/// A check not due counts as a pass.
fn fails(number: usize, job: &Job, sheet: &Sheet) -> bool {
    check(number, job, sheet, job.field(7)).verdict() == 2
}

/// What an end shows of a check holds from there on: a failure towards the harsh end, a pass towards the mild end.
fn outcome(mild_fails: bool, harsh_fails: bool) -> u32 {
    match (mild_fails, harsh_fails) {
        (true, _) => FAILS_THROUGHOUT,
        (false, true) => UNDECIDED,
        (false, false) => PASSES_THROUGHOUT,
    }
}

pub fn height(stability: Option<u32>) -> u32 {
    stability.unwrap_or(NONE)
}
