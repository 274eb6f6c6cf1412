//! The nine calls as the C host sees them: one 64-bit number back, lent buffers written only on success.

use super::between;
use super::book;
use super::cells;
use super::file::{self, Content};
use super::first_failing;
use super::job::{self, Fields};
use super::refusal::{Refusal, one_number, refuse};
use super::report::report;
use super::sheet;
use super::support;

/// Whole call: 1, 2, 6, 7, 3, 4, 5, 8. A success writes only its own length.
pub fn verdict(sheet: &[u8], file: &[u8], lent: &mut [u8]) -> u64 {
    one_number(judge(sheet, file, lent))
}

fn judge(sheet: &[u8], file: &[u8], lent: &mut [u8]) -> Result<usize, Refusal> {
    let sheet = sheet::read(sheet)?;
    let text = match file::read(file)? {
        Content::Job(job) => report(&job, &sheet),
        Content::Support(support) => support::report(&support, &sheet),
    };
    if lent.len() < text.len() {
        return refuse(8, text.len() as u64);
    }
    lent[..text.len()].copy_from_slice(text.as_bytes());
    Ok(text.len())
}

/// Writes the file of a scaffold job.
pub fn write_job(numbers: &[u32; 25], lent: &mut [u8]) -> u64 {
    one_number(file::write(&Fields(*numbers), job::accept, lent))
}

/// Writes the file of a support.
pub fn write_support(numbers: &[u32; 13], lent: &mut [u8]) -> u64 {
    one_number(file::write(&Fields(*numbers), support::accept, lent))
}

/// Reads a file into 25 numbers; a support fills the first 13, the others stay as they were.
pub fn read_job(file: &[u8], lent: &mut [u32; 25]) -> u64 {
    one_number(file::read(file).map(|content| match content {
        Content::Job(job) => {
            *lent = job.0;
            25
        }
        Content::Support(support) => {
            lent[..13].copy_from_slice(&support.0);
            13
        }
    }))
}

/// Writes the whole rows of what is lent, 25 numbers each, as a book; what stands after the last one is not read.
pub fn write_book(numbers: &[u32], lent: &mut [u8]) -> u64 {
    let (rows, _after) = numbers.as_chunks::<25>();
    one_number(book::write(rows, lent))
}

/// Reads a book into the whole rows of what is lent; what stands after the rows that are read is not touched.
pub fn read_book(book: &[u8], lent: &mut [u32]) -> u64 {
    let (rows, _after) = lent.as_chunks_mut::<25>();
    one_number(book::read(book, rows))
}

/// What holds of every job between two: 1, 2, then 3, 4, 5 of the mild job, then of the harsh, then 12.
pub fn between(sheet: &[u8], mild: &[u32; 25], harsh: &[u32; 25], lent: &mut [u32; 14]) -> u64 {
    one_number(between::answer(sheet, &Fields(*mild), &Fields(*harsh)).map(|answer| {
        *lent = answer;
        14
    }))
}

/// Load cells' records into the greatest push among the last w of them: 13, 15, 14, 8.
pub fn cells(records: &[u8], w: u32, lent: &mut [u8]) -> u64 {
    one_number(cells::write(records, w, lent))
}

/// The first row of a book that has a failed check, and the rows judged: 1, 2, then 9 of the count, 10, 9, 11.
pub fn first_failing(sheet: &[u8], book: &[u8], lent: &mut [u32; 2]) -> u64 {
    one_number(first_failing::answer(sheet, book).map(|told| {
        *lent = told;
        2
    }))
}
