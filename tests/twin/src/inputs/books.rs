//! Books: accepted rows, the numbers of a book in their order, and the calls that write and read one.

use super::files::{longest_job, of};
use super::jobs::any_accepted;
use crate::call::Call;
use crate::coverage::Expect;
use crate::paper::job::{Job, accept};
use crate::random::Random;

/// No book is longer: 200 rows of 42 bytes after a count of two.
pub const MOST: usize = 8_402;

pub fn accepted(random: &mut Random, rows: usize) -> Vec<Job> {
    (0..rows).map(|_| any_accepted(random)).collect()
}

/// A number of rows: five at most in most books, now and then up to 198.
pub fn some_rows(random: &mut Random) -> usize {
    let most = random.pick(&[5, 5, 5, 5, 5, 5, 5, 5, 5, 5, 40, 198]);
    random.below(most + 1)
}

/// Rows of 42 bytes each, the most that an accepted job takes.
pub fn longest(random: &mut Random, rows: usize) -> Vec<Job> {
    let row = |_| {
        let job = longest_job().with(3, random.pick(&[130, 155])).with(2, random.within(1, 2));
        let job = job.with(12, random.within(16_384, 30_000)).with(22, random.within(16_384, 100_000));
        let wide = [(4, 200), (5, 200), (7, 5_000), (11, 10_000), (13, 5_000), (18, 2_000), (24, 2_000), (25, 10_000)];
        wide.iter().fold(job, |job, &(field, most)| job.with(field, random.within(128, most)))
    };
    (0..rows).map(row).collect()
}

/// The numbers of rows as they are lent, row after row.
pub fn in_rows(rows: &[Job]) -> Vec<u32> {
    rows.iter().flat_map(|row| row.0).collect()
}

/// The numbers of a book: the count of rows, then column after column.
pub fn in_columns(rows: &[Job]) -> Vec<u32> {
    let mut numbers = vec![rows.len() as u32];
    for column in 0..25 {
        numbers.extend(rows.iter().map(|row| row.0[column]));
    }
    numbers
}

pub fn whole(rows: &[Job]) -> Vec<u8> {
    of(&in_columns(rows))
}

/// Numbers written as a book, with a buffer that is long enough.
pub fn write(random: &mut Random, numbers: Vec<u32>) -> Call {
    let book = 2 + numbers.len() / 25 * 42 + random.below(12);
    Call::WriteBook { numbers, book, fill: random.next() }
}

/// A book read into so many rows and a few numbers more.
pub fn read(random: &mut Random, book: Vec<u8>, rows: usize) -> Call {
    Call::ReadBook { book, numbers: rows * 25 + random.below(30), fill: random.next() }
}

/// Rows through writing or through reading, with room enough.
pub fn through(random: &mut Random, reads: bool, rows: &[Job]) -> Call {
    if reads { read(random, whole(rows), rows.len()) } else { write(random, in_rows(rows)) }
}

/// What that call has to answer: the lowest bad row, or the number of rows or bytes.
pub fn expected(reads: bool, rows: &[Job]) -> Expect {
    match rows.iter().position(|row| accept(row).is_err()) {
        Some(row) => Expect::Refusal(11, row as u64),
        None => Expect::Length(if reads { rows.len() } else { whole(rows).len() } as u64),
    }
}
