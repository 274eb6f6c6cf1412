//! A season's book, stored by column, as requests 3/14 and 9/14 have it: rows of scaffold jobs into a book and back.

use super::file::{read_numbers, write_numbers};
use super::job::{self, Fields};
use super::refusal::{Refusal, refuse};

/// The 25 numbers of a row, as a host lends them.
pub type Row = [u32; 25];

/// Rows into a book: 10, 11, 8 in bytes.
pub fn write(rows: &[Row], book: &mut [u8]) -> Result<usize, Refusal> {
    try_count(rows.len())?;
    try_rows(rows)?;
    write_numbers(&by_column(rows), book)
}

/// A book's rows: 9 of the count, 10 whatever follows, 9 of the numbers and of what trails, 11.
pub fn rows(book: &[u8]) -> Result<Vec<Row>, Refusal> {
    // No bytes at all mean an empty season.
    if book.is_empty() {
        return Ok(Vec::new());
    }
    let (count, at) = read_count(book)?;
    try_count(count)?;
    let rows = by_row(&read_columns(book, at, count)?, count);
    try_rows(&rows)?;
    Ok(rows)
}

/// A book into lent rows: what its rows are refused for, then 8 in rows.
pub fn read(book: &[u8], lent: &mut [Row]) -> Result<usize, Refusal> {
    let rows = rows(book)?;
    let count = rows.len();
    if lent.len() < count {
        return refuse(8, count as u64);
    }
    lent[..count].copy_from_slice(&rows);
    Ok(count)
}

/// A row count and then all first numbers, all second numbers, to the 25th.
fn by_column(rows: &[Row]) -> Vec<u32> {
    let mut numbers = vec![rows.len() as u32];
    for field in 1..=25 {
        numbers.extend(rows.iter().map(|row| row[field - 1]));
    }
    numbers
}

/// The rows again, from all first numbers, all second numbers, to the 25th.
fn by_row(columns: &[u32], count: usize) -> Vec<Row> {
    let row = |place| std::array::from_fn(|column| columns[column * count + place]);
    (0..count).map(row).collect()
}

/// The row count and the offset behind it; 9 at 0 where it is damaged.
fn read_count(book: &[u8]) -> Result<(usize, usize), Refusal> {
    let mut count = [0];
    let at = read_numbers(book, 0, &mut count).or_else(damaged)?;
    Ok((count[0] as usize, at))
}

/// The numbers behind the count, 25 for each row, with nothing after them.
fn read_columns(book: &[u8], from: usize, count: usize) -> Result<Vec<u32>, Refusal> {
    let mut columns = vec![0; 25 * count];
    let at = read_numbers(book, from, &mut columns).or_else(damaged)?;
    if at < book.len() {
        return damaged(at);
    }
    Ok(columns)
}

/// 9 with the offset of a damaged number's first byte or of the first trailing byte.
fn damaged<T>(at: usize) -> Result<T, Refusal> {
    refuse(9, at as u64)
}

/// 10 with the count, above 200.
fn try_count(count: usize) -> Result<(), Refusal> {
    if count > 200 {
        return refuse(10, count as u64);
    }
    Ok(())
}

/// 11 with the row, first in order, that 3, 4 or 5 would refuse; only scaffold jobs go in, so 3 as first number is bad.
fn try_rows(rows: &[Row]) -> Result<(), Refusal> {
    match rows.iter().position(|row| job::accept(&Fields(*row)).is_err()) {
        Some(place) => refuse(11, place as u64),
        None => Ok(()),
    }
}
