//! The first row of a book that has a failed check, as request 9/14 has it: all are judged, the first is named.

use super::book::{self, Row};
use super::checks::check;
use super::job::{Fields, Job};
use super::refusal::{NONE, Refusal};
use super::sheet::{self, Sheet};

/// 1 and 2 come first, then the whole book's refusals. The answer is the place and the number of rows judged.
pub fn answer(sheet: &[u8], book: &[u8]) -> Result<[u32; 2], Refusal> {
    let sheet = sheet::read(sheet)?;
    let rows = book::rows(book)?;
    Ok(told(&rows, &sheet))
}

/// The place equals that of judging all rows; the number is place + 1, or the row count if no row fails.
fn told(rows: &[Row], sheet: &Sheet) -> [u32; 2] {
    let judged: Vec<[u8; 12]> = rows.iter().map(|row| verdicts(&Fields(*row), sheet)).collect();
    match judged.iter().position(has_failed) {
        Some(place) => [place as u32, place as u32 + 1],
        None => [NONE, judged.len() as u32],
    }
}

/// The twelve verdicts of a job at its own height.
fn verdicts(job: &Job, sheet: &Sheet) -> [u8; 12] {
    std::array::from_fn(|place| check(place + 1, job, sheet, job.field(7)).verdict())
}

/// A failed check is a 2 among the twelve.
fn has_failed(verdicts: &[u8; 12]) -> bool {
    verdicts.contains(&2)
}
